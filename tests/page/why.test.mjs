// What the page tells of a play that loses, over plays of questions of each theme of at most 44 pips,
// beside a table of this file's own: plays by a search of its own, and from these means and chances
// as doubles, all from nothing. Nothing of it is the page's, the module's or the program's.
import { readFileSync } from "node:fs";
import { join } from "node:path";
import { Database } from "../../js/database.js";
import { choicesOf } from "../../web/board/asks.js";
import { ROLLS } from "../../web/points.js";
import { drawQuestions } from "../../web/question/questions.js";
import { positions, THEMES } from "../../web/question/themes.js";
import { reasonsOf } from "../../web/question/why.js";
import { effectOf, equal, modulesFolder, part, wrong } from "./given.mjs";

const QUESTIONS = 2000;
const MOST_PIPS = 44;
const LONGEST = 23; // one more than the most rolls
const SAME = 1e-11; // what two means that are the same can be apart as doubles

// A position as a number: four bits for each point, the ace point lowest.
const codeOf = (points) => points.reduceRight((code, count) => 16 * code + count, 0);
const countOn = (code, point) => (code >> (4 * (point - 1))) & 15;
const POINTS = [1, 2, 3, 4, 5, 6];
const checkers = (code) => POINTS.reduce((all, point) => all + countOn(code, point), 0);
const pips = (code) => POINTS.reduce((all, point) => all + point * countOn(code, point), 0);

// Adds to a list where one die leads from some positions, each once.
function step(codes, die, found = []) {
    for (const code of codes) {
        for (let point = 6, isHighest = true; point > 0; point -= 1) {
            if (countOn(code, point) === 0) continue;
            const to = code - (1 << (4 * point - 4)) + (point > die ? 1 << (4 * (point - die) - 4) : 0);
            if ((point >= die || isHighest) && !found.includes(to)) found.push(to);
            isHighest = false;
        }
        if (code === 0 && !found.includes(0)) found.push(0);
    }
    return found;
}

// Where a throw leads: in both orders, or four times.
const ends = (code, [one, other]) => (one === other
    ? [one, one, one, one].reduce((codes, die) => step(codes, die), [code])
    : step(step([code], other), one, step(step([code], one), other)));

// Of each position by its number the mean, the chance to be off within so many rolls, and where each
// throw leads: to the least mean, and of such ones to fewer pips, or to the first in a dictionary.
const DICE = POINTS.flatMap((one) => POINTS.filter((other) => other <= one).map((other) => [one, other]));
const weight = ([one, other]) => (one === other ? 1 : 2);
const table = new Map([[0, { mean: 0, within: Array(LONGEST).fill(1), plays: [] }]]);
const order = positions(MOST_PIPS).map(codeOf).sort((one, other) => pips(one) - pips(other)
    || POINTS.reduce((found, point) => found || countOn(one, point) - countOn(other, point), 0));
const rankOf = new Map(order.map((code, rank) => [code, rank]));
for (const code of order.slice(1)) {
    const plays = DICE.map((roll) => {
        const all = ends(code, roll);
        const least = Math.min(...all.map((to) => table.get(to).mean));
        return all.filter((to) => table.get(to).mean <= least + SAME)
            .reduce((one, other) => (rankOf.get(other) < rankOf.get(one) ? other : one));
    });
    const over = (numberOf) =>
        plays.reduce((sum, to, place) => sum + weight(DICE[place]) * numberOf(table.get(to)), 0) / 36;
    table.set(code, {
        plays, mean: 1 + over(({ mean }) => mean),
        within: Array.from({ length: LONGEST }, (_, rolls) =>
            (rolls === 0 ? 0 : over(({ within }) => within[rolls - 1]))),
    });
}
const playOf = (code, roll) => (code === 0 ? 0
    : table.get(code).plays[DICE.findIndex((dice) => dice.join() === [...roll].sort((a, b) => b - a).join())]);
const throwsOf = (is) => DICE.filter(is).reduce((all, roll) => all + weight(roll), 0);

const gaps = (code) => POINTS.filter((point) => point > 1 && countOn(code, point) === 0
    && code >= 16 ** point).reverse();
const wastage = (code) => (49 * table.get(code).mean) / 6 - pips(code);
const near = (told, is, most) => Math.abs(Number(told) - is) < most;
const isPercent = (text, is) => text.endsWith(" %") && near(text.slice(0, -2), 100 * is, 0.0501);

// Each row by its name: whether its text is so of a position, and whether it has to stand there.
const ROWS = {
    "Checkers left": [(text, code) => text === String(checkers(code)),
        (made, best) => checkers(made) !== checkers(best)],
    "Pips left": [(text, code) => text === String(pips(code)), (made, best) => pips(made) !== pips(best)],
    "Wastage in pips": [(text, code) => near(text, wastage(code), 0.00051), (made, best) => pips(made) !== pips(best)],
    "Empty points": [(text, code) => text === (gaps(code).join(", ") || "none"),
        (made, best) => gaps(made).join() !== gaps(best).join()],
    "On the ace point": [(text, code) => text === String(countOn(code, 1)),
        (made, best) => countOn(made, 1) !== countOn(best, 1)],
    "Tallest stack": [(text, code) => text === String(Math.max(...POINTS.map((point) => countOn(code, point)))),
        (made, best) => Math.max(...POINTS.map((point) => countOn(made, point)))
            !== Math.max(...POINTS.map((point) => countOn(best, point)))],
    // where fewer are left after the worse play it is told in words
    "Left after the next roll, on average": [(text, code) => near(text, left(code) / 36, 0.00051),
        (made, best) => left(made) > left(best)],
};
const left = (code) => (code === 0 ? 0 : DICE.reduce((sum, roll) =>
    sum + weight(roll) * checkers(playOf(code, roll)), 0));

// What the sentence says, by the kind of the mistake, of numbers that are read from it, and that it speaks for the best.
const missing = (code) => POINTS.filter((point) => countOn(code, point) === 0 && code >= 16 ** point);
const high = (code) => Math.max(...POINTS.map((point) => countOn(code, point)));
const ending = (code) => throwsOf((roll) => playOf(code, roll) === 0);
const rollsFor = (code) => Math.ceil(checkers(code) / 2);
const numbersIn = (text) => [...text.matchAll(/\d+|\b(an ace|each number takes one off)/g)].flatMap(([word, name]) =>
    (name === "an ace" ? [1] : name ? [] : [Number(word)]));
const off = (made, best) => (checkers(made) === checkers(best) ? /^As many come off\b/
    : new RegExp(`^The best play takes ${[, "one", "two", "three", "four"][checkers(best) - checkers(made)]} fewer off\\.`));
const KINDS = {
    over: (text, made, best) => best === 0 && text === "The best play takes all that is left off.",
    last: (text, made, best) => {
        const [one, , other] = numbersIn(text);
        return Math.max(checkers(made), checkers(best)) <= 2 && (/^Count/.test(text)
            ? one === ending(best) && numbersIn(text)[2] === ending(made) && one > other
            : one === ending(made) && other === ending(best) && one >= other);
    },
    roll: (text, made, best) => rollsFor(made) > rollsFor(best) && numbersIn(text).join() === [checkers(made), checkers(best),
        checkers(made), rollsFor(made), checkers(best), rollsFor(best)].join(),
    spare: (text, made, best) => checkers(made) === 2 * rollsFor(made) && checkers(best) === checkers(made) - 1
        && numbersIn(text).join() === [checkers(made), checkers(best), rollsFor(made), checkers(made), checkers(best)].join(),
    fewer: (text, made, best) => checkers(best) > checkers(made) && missing(best).length < missing(made).length
        && numbersIn(text).join() === [...missing(made), ...missing(best)].join(),
    misses: (text, made, best) => off(made, best).test(text) && checkers(best) === checkers(made)
        && missing(best).length < missing(made).length && numbersIn(text).join() === [...missing(made), ...missing(best)].join(),
    ace: (text, made, best) => off(made, best).test(text) && countOn(made, 1) > countOn(best, 1)
        && numbersIn(text.replace("over an ace", "")).join()
            === [countOn(made, 1), ...(countOn(best, 1) > 0 ? [countOn(best, 1)] : [])].join(),
    stack: (text, made, best) => {
        const [count, point, most] = numbersIn(text);
        return off(made, best).test(text) && countOn(made, point) === count && high(made) === count && high(best) === most
            && most < count;
    },
    close: (text, made, best) => checkers(made) <= checkers(best) && missing(made).length <= missing(best).length
        && countOn(made, 1) <= countOn(best, 1) && high(made) <= high(best)
        && /^Too close/.test(text) === (table.get(made).mean - table.get(best).mean < 0.0205)
        && (left(made) > left(best)) === / But /.test(text),
};

// What is wrong in what is told of two positions: in words, or "".
function faultIn({ kind, says, against, rows, throws }, made, best) {
    if (!KINDS[kind](says, made, best)) return `${kind}: ${says}`;
    const isAgainst = made !== 0 && left(made) < left(best);
    if (isAgainst !== (against !== null)) return `against it: ${against}`;
    if (isAgainst && ![left(made), left(best)].every((sum) => against.includes((Math.round((1000 * sum) / 36) / 1000)
        .toFixed(3)))) return against;
    const decides = rows.filter((row) => row.decides);
    if (decides.length > 1) return "two rows decide";
    const told = new Map(rows.map((row) => [row.name, row]));
    if (told.size !== rows.length) return "a row stands twice";
    const more = (rolls) => table.get(best).within[rolls] - table.get(made).within[rolls];
    const telling = Math.max(...table.get(best).within.map((_, rolls) => more(rolls)));
    const names = Object.keys(ROWS)
        .filter((name) => (best !== 0 || name === "Checkers left") && ROWS[name][1](made, best));
    for (const name of names) {
        const row = told.get(name);
        if (!row) return `no row ${name}`;
        const [less, more] = (name === "Empty points" ? [row.made, row.best].map((text) => text.match(/\d/g)?.length ?? 0)
            : [row.made, row.best].map(Number));
        if (!name.startsWith("Wastage") && Boolean(row.isForMade) !== less < more) return `for whom: ${JSON.stringify(row)}`;
        if (!ROWS[name][0](row.made, made) || !ROWS[name][0](row.best, best)) return JSON.stringify(row);
        told.delete(name);
    }
    const [[name, row] = [""], ...others] = told;
    const [, rolls] = /^Off within (\d+) rolls?$/.exec(name) || [];
    if (others.length > 0 || (name && rolls === undefined)) return `the row ${name} ${others}`;
    if (rolls === undefined ? telling > 0.0061 : telling < 0.0039 || more(Number(rolls)) < telling - 0.0011) {
        return `${name} ${more(Number(rolls))} of ${telling}`;
    }
    const isChance = (text, code) => isPercent(text, table.get(code).within[rolls]);
    if (row && !(isChance(row.made, made) && isChance(row.best, best))) return JSON.stringify(row);
    if (best === 0 || throws === null) return (best === 0) === (throws === null) ? "" : `throws ${throws}`;
    const lost = (roll) => table.get(playOf(made, roll)).mean - table.get(playOf(best, roll)).mean;
    const costs = DICE.map((roll) => weight(roll) * lost(roll));
    if (throws.worse !== throwsOf((roll) => lost(roll) > SAME)) return `worse after ${throws.worse}`;
    if (throws.better !== throwsOf((roll) => lost(roll) < -SAME)) return `better after ${throws.better}`;
    const [total, most] = [costs.reduce((sum, one) => sum + one), Math.max(...costs)];
    if (throws.roll === null) {
        const alike = costs.filter((cost) => cost > most - SAME).length > 1;
        const [dearest] = DICE.filter((_, place) => costs[place] > most - SAME);
        const effectOn = (code) => POINTS.map((point) => countOn(playOf(code, dearest), point) - countOn(code, point)).join();
        return alike || 3 * most < total + SAME || effectOn(made) === effectOn(best) ? "" : `no throw, and ${dearest}`;
    }
    if (weight(throws.roll) * lost(throws.roll) < most - SAME) return `the throw ${throws.roll}`;
    if (3 * most < total - SAME || throws.replies[0].text === throws.replies[1].text) return `it tells nothing: ${throws.roll}`;
    for (const [place, code] of [made, best].entries()) {
        const { points, text, moves } = throws.replies[place];
        const to = playOf(code, throws.roll);
        const effect = POINTS.flatMap((point) => {
            const count = countOn(to, point) - countOn(code, point);
            return count === 0 ? [] : [`${point}:${count}`];
        });
        const off = checkers(code) - checkers(to);
        if (codeOf(points) !== code) return `a reply from ${points}`;
        const whole = off > 0 ? [...effect, `off:${off}`] : effect;
        if (effectOf(text) !== whole.sort().join(" ")) return `the reply ${text}`;
        if (moves.reduce((at, [from, on]) => at - 16 ** (from - 1) + (on > 0 ? 16 ** (on - 1) : 0), code) !== to) {
            return `the moves ${moves}`;
        }
    }
    return "";
}

// What is wrong in what is told of a right play: in words, or "". It is what would be told of the next best.
function rightFault({ kind, says, against, rows, throws }, from, best, others) {
    const next = / best \(((?:[^()]|\(\d\))*)\)/.exec(says)?.[1];
    const least = Math.min(...others.map((code) => table.get(code).mean));
    const made = others.find((to) => next === undefined || effectOf(next) === POINTS.flatMap((point) => {
        const count = countOn(to, point) - countOn(from, point);
        return count === 0 ? [] : [`${point}:${count}`];
    }).concat(checkers(from) > checkers(to) ? [`off:${checkers(from) - checkers(to)}`] : []).sort().join(" "));
    if (made === undefined || (next !== undefined && table.get(made).mean > least + SAME)) return `the next best: ${says}`;
    const asMiss = says.replaceAll("yours", "the best play").replaceAll("Yours", "The best play")
        .replace(/he next best \((?:[^()]|\(\d\))*\)/g, "he next").replaceAll("The next", "Yours").replaceAll("the next", "yours");
    return KINDS[kind](asMiss.replace("after yours roll", "after the next roll"), made, best) && against === null
        && rows.length === 0 && throws === null ? "" : `${kind}: ${says}`;
}

part("what is told of a play that loses", async () => {
    const module = await WebAssembly.compile(readFileSync(join(modulesFolder(), "narrow.wasm")));
    const database = await Database.build(MOST_PIPS, module);
    const told = new Map();
    let questions = 0;
    for (let seed = 1; questions < QUESTIONS; seed += 1) {
        for (const { name } of THEMES.filter(({ isPlayed, most }) => isPlayed && !most)) {
            const drill = { theme: name, seed, ask: "play", level: "any" };
            for (const { points, roll } of drawQuestions(drill, ROLLS, (at, dice) => choicesOf(database, at, dice))) {
                const best = playOf(codeOf(points), roll);
                const losing = ends(codeOf(points), roll)
                    .filter((to) => table.get(to).mean > table.get(best).mean + 0.0005);
                if (losing.length === 0) continue;
                const made = losing[(7 * seed + questions) % losing.length];
                questions += 1;
                const to = POINTS.map((point) => countOn(made, point));
                const reasons = reasonsOf(database, points, roll, to);
                const fault = faultIn(reasons, made, best) || rightFault(
                    reasonsOf(database, points, roll, POINTS.map((point) => countOn(best, point))),
                    codeOf(points), best, ends(codeOf(points), roll).filter((to) => table.get(to).mean > table.get(best).mean + SAME));
                if (fault) wrong(`${points} with ${roll} to ${to}: ${fault}`);
                told.set(reasons.kind, (told.get(reasons.kind) ?? 0) + 1);
                for (const row of reasons.rows) {
                    const kind = row.name.replace(/ within .*/, "");
                    told.set(kind, (told.get(kind) ?? 0) + 1);
                }
                if (reasons.rows.length === 0 && !reasons.throws) wrong(`${points} to ${to}: nothing is told`);
            }
        }
    }
    equal("rows and kinds that no play has", Object.keys({ ...ROWS, ...KINDS }).concat("Off").filter((name) => !told.has(name)), []);
    console.log(`why: ${questions} plays; ${[...told].map(([name, count]) => `${name} ${count}`).join(", ")}`);
});
