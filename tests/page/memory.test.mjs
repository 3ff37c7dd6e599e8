// What a student did, as it is kept: when a question comes back, what is bounded, which texts are
// taken, days in a row, and two pages of one browser.
import assert from "node:assert/strict";
import { test } from "node:test";
import {
    answered, askedOn, BOXES, DAILY, dayOf, dayOfTen, dueOn, EMPTY, holdsLess, interrupted, isDoneOn, isWeakest,
    learnt, levelOf, MOST_CARDS, MOST_DAYS, MOST_LETTERS, nextTheme, ratingOf, readMemory, Store, streak, todays,
    todaysEstimates, VERSION, written,
} from "../../web/home/memory.js";
import { readLink, writeLink } from "../../web/link.js";
import { ROLLS } from "../../web/points.js";
import { drawQuestions, drillOf, mostOf, readDue, TEN, writeDue } from "../../web/question/questions.js";
import { positions, themeOf, THEMES } from "../../web/question/themes.js";
import { drawFrom } from "./stand_in.mjs";

const question = (number = 0, theme = "all") =>
        ({ points: [number % 6, 2, Math.floor(number / 6) % 6, 0, 1, Math.floor(number / 36) % 4], roll: [3, 1],
        theme });
const missed = (number, lost = 56, theme = "all") => ({ ...question(number, theme), lost, random: 20, level: "easy",
        isMissed: true });
const right = (number, theme = "all") => ({ ...question(number, theme), lost: 0, random: 20, level: "easy",
        isMissed: false });
const estimate = (lost, isMissed, kind = "effective") => ({ points: [1, 2, 3, 0, 0, 0], roll: null, theme: kind, lost,
        isMissed });
// The last answer of the ten of a day.
const lastOf = (answer, day) => ({ ...answer, run: { count: 1, picks: [[answer.points, answer.roll, "6/off"]],
    drill: drillOf({ theme: "all", seed: day, ask: "play", due: [] }) } });
const faultOf = (...lines) => readMemory(["bearoff memory 1", ...lines].join("\n")).fault;

test("a miss comes back after 1, 3, 7, 21 and 60 days, and is learnt then", () => {
    let [memory, day] = [answered(EMPTY, missed(0), 100), 100];
    assert.deepEqual(BOXES, [1, 3, 7, 21, 60]);
    for (const wait of BOXES) {
        assert.equal(memory.cards[0].due, day + wait);
        assert.equal(dueOn(memory, day + wait - 1).length, 0);
        day += wait;
        assert.equal(dueOn(memory, day).length, 1);
        memory = answered(memory, right(0), day);
    }
    assert.deepEqual([memory.cards.length, memory.learnt], [0, 1]);
});

test("right before it is due changes nothing of it, and a miss takes it one box back, for tomorrow", () => {
    const boxOf = ({ cards: [{ box, due, lost }] }) => [box, due, lost];
    let memory = answered(answered(EMPTY, missed(0), 100), right(0), 101);
    assert.deepEqual(boxOf(memory), [1, 104, 56]);
    memory = answered(memory, right(0), 102);
    assert.deepEqual(boxOf(memory), [1, 104, 56]);
    memory = answered(memory, missed(0, 7), 103);
    assert.deepEqual([boxOf(memory), memory.cards.length, memory.learnt], [[0, 104, 7], 1, 0]);
    memory = answered({ ...memory, cards: [{ ...memory.cards[0], box: 4, due: 200 }] }, missed(0, 8), 300);
    assert.deepEqual(boxOf(memory), [3, 301, 8]);
    assert.deepEqual(boxOf(answered(memory, right(0), 301)), [4, 361, 8]);
});

test("what comes back counts for the theme of its own, and an estimate for what was estimated", () => {
    let memory = answered(EMPTY, missed(0, 56, "gaps"), 100);
    memory = answered(memory, right(0, "low"), 101);
    memory = answered(answered(memory, lastOf(right(1, "low"), 101), 101), estimate(2100, true), 101);
    assert.deepEqual(memory.themes, [["gaps", 2, 1, 56], ["low", 1, 0, 0], ["effective", 1, 1, 2100]]);
    assert.deepEqual(memory.days, [[100, 1, 1, 0], [101, 3, 1, 1]]);
    assert.deepEqual([memory.cards.length, memory.sizes, askedOn(memory, 101), askedOn(memory, 99)],
        [2, [0, 1, 0], 3, 0]);
    assert.equal(answered(EMPTY, right(0), 1).cards.length, 0);
});

test("misses by their size", () => {
    const memory = [1, 19, 20, 79, 80, 300].reduce((so, lost, place) => answered(so, missed(place, lost), 7), EMPTY);
    assert.deepEqual(memory.sizes, [2, 2, 2]);
    assert.deepEqual(answered(memory, right(0), 7).sizes, [2, 2, 2]);
});

test("a rating: of what plays at random lose, the part that was not lost, of the last plays most", () => {
    const after = (memory, count, lost, random) => Array.from({ length: count }).reduce((so) => answered(so,
            { ...right(0), lost, random, isMissed: lost > 0 }, 7), memory);
    // it begins where one stands who plays at random, with ten plays that fade
    assert.deepEqual([0, 1, 20, 400].map((count) => ratingOf(after(EMPTY, count, 30, 40))), [0, 1, 12, 25]);
    assert.deepEqual([[0, 100], [100, 100], [150, 100], [1000, 100],
            [0, 0]].map(([lost, random]) => ratingOf(after(EMPTY, 300, lost, random))), [100, 0, -50, -100, 0]);
    // a play counts a fiftieth less with each further one
    assert.deepEqual(after(EMPTY, 1, 30, 40).rating, [30000, 40000, 1]);
    assert.deepEqual(after(EMPTY, 2, 30, 40).rating, [59400, 79200, 2]);
    const [old, later] = [after(EMPTY, 300, 40, 40), after(after(EMPTY, 300, 40, 40), 50, 0, 40)];
    assert.deepEqual([ratingOf(old), ratingOf(later), ratingOf(after(later, 200, 0, 40))], [0, 64, 99]);
    assert.ok(after(EMPTY, 400, 999, 999).rating.every((sum) => sum < 10 ** 9));
    // an estimate has none
    assert.deepEqual(answered(after(EMPTY, 3, 30, 40), estimate(2100, true), 7).rating, after(EMPTY, 3, 30, 40).rating);
});

test("bounds: the best known and cheapest are forgotten, and the oldest days", () => {
    let memory = answered(answered(EMPTY, missed(0, 999), 998), right(0), 999);
    for (let number = 0; number < 500; number += 1) {
        const points = [number % 15, 0, 0, 0, 0, 1];
        memory = answered(memory, { ...missed(0, number + 1), points, roll: ROLLS[Math.floor(number / 15) % 21] },
            1000 + number);
    }
    assert.deepEqual([memory.cards.length, memory.days.length, memory.days[0][0]],
        [MOST_CARDS, MOST_DAYS, 1500 - MOST_DAYS]);
    assert.ok(memory.cards.every(({ lost, box }) => lost > 150 && box === 0));
    assert.deepEqual([written(memory).length < 40000, readMemory(written(memory)).fault], [true, ""]);
    const cards = Array.from({ length: 301 },
        (_, place) => `card ${place % 15},1,0,0,0,0 ${ROLLS[Math.floor(place / 15)].join("")} all 0 7 ${1 + place}`);
    assert.deepEqual([faultOf(...cards), readMemory(["bearoff memory 1", ...cards].join("\n")).memory.cards.length],
        ["", MOST_CARDS]);
    const days = Array.from({ length: 401 }, (_, place) => `day ${900 - place} 1 0 0`);
    assert.deepEqual(readMemory(["bearoff memory 1", ...days].join("\n")).memory.days.map(([day]) => day),
        Array.from({ length: 400 }, (_, place) => 501 + place));
});

// A question that came back so often that one like it is asked from then on, in its third box.
function known(day) {
    let memory = answered(EMPTY, missed(0, 56, "low"), day - 4);
    for (const then of [day - 3, day]) memory = answered(memory, right(0, "gaps"), then);
    // on a level on which the stand-in has questions
    return { ...memory, levels: [...DAILY.map((name) => [name, name === "fewer" ? "hard" : "mixed", "", 0, 0, 90])] };
}

// A student's theme after so many answers on its level.
const climbing = (theme, level, ...are) => are.reduce((memory, isRight, place) => answered(memory,
    { ...(isRight ? right : missed)(40 + place, 56, theme), theme, level }, 7), EMPTY);

test("the first ten go up from easy ones, and then the level of a theme follows its last twenty answers", () => {
    const { theme, level } = todays(EMPTY, 100);
    assert.deepEqual([theme, level, todays(answered(EMPTY, right(0), 99), 100).level], ["all", "first", "easy"]);
    const most = (plays) => Math.max(...plays.map(({ loss }) => Number(loss)));
    // plays by the sum of a roll: easy, of any loss, and one that tempts
    const drawn = drawQuestions(drillOf({ theme, level, seed: 100, ask: "play", due: [] }), ROLLS, ladderPlays);
    assert.deepEqual(drawn.map(({ points, roll }) => most(ladderPlays(points, roll))),
        [90, 90, 90, 90, 90, ...drawn.slice(5, 8).map(({ points, roll }) => most(ladderPlays(points, roll))), 30, 30]);
    const rows = (memory) => memory.levels.map((row) => row.slice(0, 3));
    const [five, six] = [5, 6].map((count) => climbing("gaps", "easy", ...Array(count).fill(true)));
    assert.deepEqual([five, six].map((memory) => levelOf(memory, "gaps")), ["easy", "any"]);
    assert.deepEqual([five, six].map(rows), [[["gaps", "easy", "11111"]], [["gaps", "any", ""]]]);
    // the first ten lead further at once, by how many were missed
    assert.deepEqual([0, 2, 3, 4, 5, 10].map((missed) => rows(climbing("all", "first",
        ...Array.from({ length: 10 }, (_, place) => place >= missed)))[0].slice(1)),
    ["mixed", "mixed", "any", "any", "easy", "easy"].map((name, place) => [name,
        name === "easy" ? ["0000011111", "0000000000"][place - 4] : ""]));
    assert.deepEqual(rows(climbing("all", "first", ...Array(9).fill(true))), [["all", "easy", "111111111"]]);
    // a theme that wasn't asked yet begins where two others are, or the only one
    const reached = (...levels) => ({ ...EMPTY, levels: levels.map((name, place) => [DAILY[place], name, "", 0, 0, 7]) });
    assert.deepEqual([[], ["mixed"], ["mixed", "any"], ["any", "easy", "mixed"], ["hard", "mixed", "hard"]].map((levels) =>
        ["few", "fewer"].map((name) => levelOf(reached(...levels), name))), [["easy", "any"], ["mixed", "any"], ["any", "any"],
        ["any", "any"], ["hard", "hard"]]);
    // what was lost of what plays at random would have lost fades, on any level
    assert.deepEqual(answered(climbing("gaps", "hard", true, false), { ...missed(9, 30, "gaps"), level: "any" }, 8).levels,
        [["gaps", "easy", "", 56000 - 2800 + 30000, 39000 - 1950 + 20000, 8]]);
    // three of four stay, and so do answers of another level; under two of five go down, and the ends are ends
    const quarters = [false, true, true, true];
    assert.deepEqual(climbing("gaps", "easy", ...quarters, ...quarters, ...quarters, ...quarters, ...quarters, ...quarters)
        .levels[0][2], "01110111011101110111");
    assert.deepEqual(rows(climbing("gaps", "hard", ...Array(20).fill(true))), [["gaps", "easy", ""]]);
    const at = (name, answers) => ({ ...EMPTY, levels: [["gaps", name, answers, 0, 0, 7]] });
    const next = (memory, isRight) => answered(memory, { ...(isRight ? right : missed)(1, 56, "gaps"), theme: "gaps",
        level: levelOf(memory, "gaps") }, 7).levels[0].slice(0, 3);
    assert.deepEqual([next(at("any", "000000111"), false), next(at("any", "000001111"), false),
        next(at("any", "00000011"), false), next(at("easy", "000000000"), false), next(at("hard", "111111111"), true)],
    [["gaps", "easy", ""], ["gaps", "any", "0000011110"], ["gaps", "any", "000000110"], ["gaps", "easy", "0000000000"],
        ["gaps", "hard", "1111111111"]]);
    assert.deepEqual([levelOf(EMPTY, "fewer"), levelOf(EMPTY, "low")], ["any", "easy"]);
    // what comes back says nothing of new ones
    const back = answered(answered(EMPTY, missed(0, 56, "gaps"), 1), right(0, "gaps"), 2);
    assert.deepEqual(rows(back), [["gaps", "easy", "0"]]);
});

// Plays of which the first is best, and what the other loses goes by the roll.
const ladderPlays = (points, [high, low]) => {
    const [few, many] = [[1, 0, 0, 0, 0, 0], points.map((count) => Math.max(1, count))];
    const isEasy = (high + low) % 2 === 0;
    return (isEasy ? [few, many] : [many, few]).map((to, place) =>
        ({ to, isBest: place === 0, loss: place === 0 ? 0n : isEasy ? 90n : 30n }));
};

test("from its third time on a question like it is asked, of its theme, and another one each day", () => {
    const memory = known(100);
    assert.deepEqual([memory.cards[0].box, memory.cards[0].due], [2, 107]);
    const drill = todays(memory, 107);
    assert.deepEqual(drill.due, [{ ...question(0), theme: "low" }]);
    assert.deepEqual(todays({ ...memory, cards: [{ ...memory.cards[0], box: 1 }] }, 107).due,
        [{ points: question(0).points, roll: [3, 1] }]);
    const firsts = [drill, drill, { ...drill, seed: 108 }].map((one) => drawFrom(drillOf(one))[0]);
    const [first, same, next] = firsts;
    assert.deepEqual(first, same);
    assert.notDeepEqual(first.points, next.points);
    for (const { points, card } of firsts) {
        assert.deepEqual(card, { points: question(0).points, roll: [3, 1] });
        assert.ok(points.join() !== card.points.join() && themeOf("low").has(points), points.join());
    }
    // neither it nor what comes back too is drawn
    const both = [{ ...question(0), theme: "low" }, { ...question(1), theme: "low" }];
    const drawn = drawFrom(drillOf({ ...drill, due: both })).map(({ points }) => points.join());
    assert.equal(new Set([...drawn, ...both.map(({ points }) => points.join())]).size, 12);
    // where its theme has no other one it is that one
    const alone = drawQuestions(drillOf({ ...drill, due: [{ ...question(0), theme: "few" }] }), ROLLS,
        (points) => (points.join() === question(0).points.join() ? drawnPlays : [{ isBest: true }]));
    assert.deepEqual(alone, [{ points: question(0).points, roll: [3, 1] }]);
    assert.deepEqual([mostOf(drill), mostOf({ ...drill, due: [{ ...question(0), theme: "fifteen" }] })], [44, 90]);
});

const drawnPlays = [{ isBest: true, to: [1, 0, 0, 0, 0, 0], loss: 0n },
    { isBest: false, to: [2, 0, 0, 0, 0, 0], loss: 5n }];

test("an answer to a question like it counts for the one that comes back", () => {
    const [memory, like] = [known(100), { points: [9, 0, 0, 0, 0, 0], roll: [6, 5], theme: "all", random: 0,
            level: "easy", card: { points: question(0).points, roll: [3, 1] } }];
    const rightly = answered(memory, { ...like, lost: 0, isMissed: false }, 107);
    assert.deepEqual(rightly.cards, [{ ...question(0), theme: "low", box: 3, due: 128, lost: 56 }]);
    assert.deepEqual(rightly.themes, [["low", 4, 1, 56]]);
    // what was missed is what comes back
    const wrongly = answered(memory, { ...like, lost: 30, isMissed: true }, 107);
    assert.deepEqual(wrongly.cards, [{ points: like.points, roll: [6, 5], theme: "low", box: 1, due: 108, lost: 30 }]);
    // once, where it came back already
    const twice = answered(answered(memory, { ...missed(7), points: like.points, roll: [6, 5] }, 106),
        { ...like, lost: 30, isMissed: true }, 107);
    assert.deepEqual(twice.cards, wrongly.cards);
    assert.equal(readMemory(written(twice)).fault, "");
});

test("estimates that were far off come back, ten at a time, and none among today's ten", () => {
    let memory = answered(answered(EMPTY, estimate(2100, true), 100), estimate(900, false, "pips"), 100);
    assert.deepEqual(memory.cards, [{ points: [1, 2, 3, 0, 0, 0], roll: null, theme: "effective", box: 0, due: 101,
            lost: 2100 }]);
    assert.deepEqual([todays(memory, 101).due, todaysEstimates(memory, 100), todaysEstimates(EMPTY, 101)],
        [[], null, null]);
    assert.deepEqual(todaysEstimates(memory, 101),
        { theme: "all", seed: 101, ask: "effective", due: [{ points: [1, 2, 3, 0, 0, 0], roll: null }] });
    const questions = drawFrom(drillOf(todaysEstimates(memory, 101)));
    assert.deepEqual([questions.length, questions[0], questions.every(({ roll }) => roll === null),
            new Set(questions.map(({ points }) => points.join())).size],
        [TEN, { points: [1, 2, 3, 0, 0, 0], roll: null }, true, TEN]);
    // two numbers of one position are two questions, and the one that most are due of is asked
    for (const [points, kind] of [[[1, 2, 3, 0, 0, 0], "wastage"],
            [[1, 2, 0, 0, 0, 0], "wastage"]]) memory = answered(memory, { ...estimate(1500, true, kind), points }, 100);
    assert.deepEqual([memory.cards.length, todaysEstimates(memory, 101).ask, todaysEstimates(memory, 101).due.length],
        [3, "wastage", 2]);
    memory = answered(memory, estimate(0, false), 101);
    assert.deepEqual(memory.cards.find(({ theme }) => theme === "effective"),
        { points: [1, 2, 3, 0, 0, 0], roll: null, theme: "effective", box: 1, due: 104, lost: 2100 });
    // it is the same question each time, and of ten at most
    const many = Array.from({ length: 14 }, (_,
            place) => ({ points: [place, 1, 0, 0, 0, 0], roll: null, theme: "pips", box: 3, due: 90, lost: 1000 }));
    assert.deepEqual(todaysEstimates({ ...EMPTY, cards: many }, 101).due,
        many.slice(0, TEN).map(({ points }) => ({ points, roll: null })));
});

test("days in a row, up to today or yesterday", () => {
    const memory = { ...EMPTY, days: [[5, 10, 0, 1], [7, 12, 1, 2], [8, 10, 0, 1], [9, 30, 0, 0]] };
    assert.deepEqual([9, 8, 10, 5, 6, 7].map((day) => streak(memory, day)), [2, 2, 0, 1, 1, 1]);
    assert.deepEqual([8, 9, 10].map((day) => isDoneOn(memory, day)), [true, false, false]);
    assert.equal(streak(EMPTY, 1), 0);
    const month = Array.from({ length: 31 }, (_, place) => [20000 + place, 10, 0, 1]);
    assert.equal(streak({ ...EMPTY, days: month }, 20030), 31);
});

test("a day begins at local midnight", () => {
    assert.equal(dayOf(new Date(2026, 10, 27, 23, 59)) + 1, dayOf(new Date(2026, 10, 28, 0, 1)));
    assert.equal(dayOf(new Date(2026, 10, 27, 0, 0)), dayOf(new Date(2026, 10, 27, 23, 59)));
    assert.equal(dayOf({ getTime: () => 5 * 86400000 - 1, getTimezoneOffset: () => -60 }), 5);
    assert.deepEqual([-8.64e15, -1, 0, 8.64e15].map((time) =>
        dayOf({ getTime: () => time, getTimezoneOffset: () => 300 })), [1, 1, 1, 900000]);
});

test("today's ten: at most ten that come back, the least known first, then the last missed, then the dearest", () => {
    let memory = answered(answered(EMPTY, missed(20), 1), right(20), 2);
    for (let number = 0; number < 12; number += 1) memory = answered(memory, missed(number, number + 1),
        number < 4 ? 10 : 9);
    const { due, seed, ask, level } = todays(memory, 12);
    assert.deepEqual([seed, ask, level], [12, "play", "easy"]);
    const asked = (number) => ({ points: question(number).points, roll: [3, 1] });
    assert.deepEqual(due, [3, 2, 1, 0, 11, 10, 9, 8, 7, 6].map(asked));
    const few = { ...memory, cards: memory.cards.filter(({ lost }) => lost > 50 || lost < 3) };
    assert.deepEqual(todays(few, 12).due, [1, 0, 20].map(asked));
    assert.deepEqual([todays(EMPTY, 12).due, todays(EMPTY, 12).seed], [[], 12]);
    // what follows on that day has another seed
    assert.notEqual(todays(answered(EMPTY, right(0), 12), 12).seed, 12);
    assert.equal(todays(answered(EMPTY, right(0), 11), 12).seed, 12);
});

test("what is missed comes back tomorrow, and no more waits than a student can answer", () => {
    const all = positions(44);
    // of new questions and of those that come back how many in a hundred are right
    for (const [fresh, again] of [[40, 60], [55, 75], [85, 95]]) {
        let [memory, seed, back, most] = [EMPTY, 99, 0, 0];
        const below = (count) => {
            seed = (48271 * seed) % 2147483647;
            return Math.floor((seed / 2147483647) * count);
        };
        const last = new Map(); // the day on which each was missed last
        for (let day = 20000; day < 20300; day += 1) {
            const { due, theme } = todays(memory, day);
            const keys = new Set(due.map(({ points, roll }) => `${points} ${roll}`));
            const missedThen = [...last].filter(([, then]) => then === day - 1).map(([key]) => key);
            back += missedThen.filter((key) => keys.has(key)).length - 0.95 * missedThen.length;
            most = Math.max(most, dueOn(memory, day, "play").length);
            const asked = Array.from({ length: TEN }, (_, place) =>
                due[place] ?? { points: all[1 + below(all.length - 1)], roll: ROLLS[below(21)] });
            asked.forEach(({ points, roll }, place) => {
                const isMissed = below(100) >= (place < due.length ? again : fresh);
                if (isMissed) last.set(`${points} ${roll}`, day);
                const answer = { points, roll, theme, lost: isMissed ? 50 : 0, random: 30, isMissed };
                memory = answered(memory, place === TEN - 1 ? lastOf(answer, day) : answer, day);
            });
        }
        assert.ok(back >= 0, `of ${fresh} and ${again} in a hundred fewer than 95 % came back the next day`);
        assert.ok(most <= 25, `of ${fresh} and ${again} in a hundred ${most} were due on a day`);
        assert.equal(streak(memory, 20299), 300);
    }
});

test("whose turn it is: who waits longest, and a day counts more where more is lost", () => {
    // what a theme's last answers lost of what plays at random would have, in thousandths, and their last day
    const of = (...more) => ({ ...EMPTY, levels: DAILY.map((name) =>
        more.find(([other]) => other === name) ?? [name, 0, 5]).map(([name, lost, day]) =>
        [name, "any", "", 1000 * lost, 1_000_000, day]) });
    assert.equal(nextTheme(of(["gaps", 0, 3]), 6), "gaps");
    // a day counts up to three times, and hardly more than once where little is lost
    assert.equal(nextTheme(of(["low", 300, 9], ["gaps", 30, 6]), 10), "all");
    assert.equal(nextTheme(of(["low", 300, 8], ["gaps", 30, 6]), 10), "low");
    // what plays at random lose is the measure, so a hard level counts like an easy one
    const easy = ["gaps", "easy", "", 100_000, 1_000_000, 7];
    const hard = ["low", "mixed", "", 30_000, 100_000, 7];
    const two = { ...EMPTY, levels: [...of().levels.filter(([name]) => !["gaps", "low"].includes(name)), easy, hard] };
    assert.deepEqual([nextTheme(two, 10), isWeakest(two, "low"), isWeakest(two, "gaps"), isWeakest(of(), "gaps")],
        ["low", true, false, false]);
    // those that were never asked come first, in turn
    const without = { ...EMPTY, levels: of().levels.filter(([name]) => !["gaps", "few"].includes(name)) };
    assert.deepEqual([10, 11].map((day) => nextTheme(without, day)), ["gaps", "few"]);
    assert.equal(isWeakest(without, "low"), false);
    assert.deepEqual(DAILY.map((_, day) => nextTheme(EMPTY, day)), DAILY);
    assert.deepEqual(DAILY, ["all", "low", "gaps", "middle", "high", "few", "fewer"]);
    // before there were levels each day asked the same one, which is called hard where none is mixed
    const { memory } = readMemory(["bearoff memory 3", ...DAILY.map((name) => `theme ${name} 5 1 10`)].join("\n"));
    assert.deepEqual(DAILY.map((name) => levelOf(memory, name)),
        ["mixed", "any", "mixed", "mixed", "mixed", "mixed", "hard"].map((level, place) => (place === 1 ? "mixed" : level)));
});

test("over half a year each theme has its turn, the worst the most, and who plays well meets the hard ones in a week", () => {
    const all = positions(44);
    const LOST = { easy: [296, 261], any: [178, 224], mixed: [31, 146], hard: [29, 141] }; // by a miss, and at random
    // the share of each theme among the new questions, and the day of the first hard one
    function halfAYear([right, again], weak, start) {
        let [memory, seed, hard, sum] = [EMPTY, start, 999, 0];
        const below = (count) => {
            seed = (48271 * seed) % 2147483647;
            return Math.floor((seed / 2147483647) * count);
        };
        const asked = new Map(DAILY.map((name) => [name, 0]));
        for (let day = 20000; day < 20180; day += 1) {
            const { due, theme, level = "any" } = todays(memory, day);
            asked.set(theme, asked.get(theme) + TEN - due.length);
            sum += TEN - due.length;
            if (level === "hard" && due.length < TEN) hard = Math.min(hard, day - 19999);
            for (let place = 0; place < TEN; place += 1) {
                const one = due[place] ?? { points: all[1 + below(all.length - 1)], roll: ROLLS[below(21)] };
                const at = place < due.length ? "mixed"
                    : level === "first" ? (place < 5 ? "easy" : place < 8 ? "any" : "mixed") : level;
                const isMissed = below(100) >= (place < due.length ? again
                    : right[Object.keys(LOST).indexOf(at)] * (theme === weak ? 0.8 : 1));
                memory = answered(memory, { points: one.points, roll: one.roll, theme: place < due.length ? one.theme ?? theme : theme,
                    lost: isMissed ? LOST[at][0] : 0, random: LOST[at][1], isMissed, level,
                    ...(one.theme ? { card: { points: one.points, roll: one.roll } } : {}) }, day);
            }
        }
        return { shares: DAILY.map((name) => asked.get(name) / sum), hard };
    }
    const [STRONG, CLUB, BEGINNER] = [[[98, 95, 85, 70], 95], [[93, 88, 60, 50], 80], [[75, 65, 35, 30], 60]];
    for (const [student, soonest] of [[STRONG, 7], [CLUB, 60], [BEGINNER, 999]]) {
        const { shares, hard } = halfAYear(student, null, 7919);
        assert.ok(Math.min(...shares) >= 0.05 && Math.max(...shares) <= 0.35, `${student}: ${shares}`);
        assert.ok(hard <= soonest, `${student}: the first hard question on day ${hard}`);
    }
    for (const [student, weak] of [[STRONG, "gaps"], [CLUB, "few"]]) {
        const shares = [1, 2, 3].map((run) => halfAYear(student, weak, 7919 * run).shares[DAILY.indexOf(weak)]);
        assert.ok(shares.reduce((sum, one) => sum + one) / 3 >= 0.2, `${student}, a fifth worse in ${weak}: ${shares}`);
    }
});

test("ten are done by these ten alone, on their day or the next one", () => {
    const done = (ten, day) => isDoneOn(answered(EMPTY, lastOf(right(0), ten), day), ten);
    assert.deepEqual([[7, 7], [7, 8], [7, 9], [8, 7]].map(([ten, day]) => done(ten, day)), [true, true, false, false]);
    const memory = Array.from({ length: 30 }).reduce((so, _, place) => answered(so, right(place), 7), EMPTY);
    assert.deepEqual([askedOn(memory, 7), isDoneOn(memory, 7), dayOfTen(todays(memory, 7)), todays(memory, 7).seed === 7],
        [30, false, 7, false]);
});

test("a lesson that was read, and the best time that its drill was done", () => {
    let memory = learnt(EMPTY, [3, 0, 0]);
    assert.deepEqual(memory.lessons, [[3, 0, 0]]);
    for (const [right, best] of [[7, 7], [5, 7], [9, 9], [0, 9]]) {
        memory = learnt(memory, [3, right, right === 0 ? 0 : 10]);
        assert.deepEqual(memory.lessons, [[3, best, 10]]);
    }
    memory = learnt(memory, [1, 0, 20]);
    assert.deepEqual([memory.lessons, readMemory(written(memory)).memory], [[[1, 0, 20], [3, 9, 10]], memory]);
    for (const line of ["lesson 0 1 1", "lesson 3 2 1", "lesson 3 1", "level gaps easy 2", "level gaps none -",
        "level low hard -", "level ace any -", "level gaps easy 111111111111111111111"]) {
        assert.equal(faultOf(line), "Line 2 can't be read.", line);
    }
    assert.equal(faultOf("lesson 3 1 1", "lesson 3 1 1"), "Line 3 can't be read.");
    assert.equal(faultOf("level gaps any 01", "level gaps any -"), "Line 3 can't be read.");
});

test("the questions: first those that come back, and then new ones, the same by the day", () => {
    const due = [3, 8, 9].map((number) => ({ points: question(number).points, roll: [3, 1] }));
    const drill = drillOf({ theme: "all", seed: 20784, ask: "play", level: "mixed", due });
    const questions = drawFrom(drill);
    assert.equal(questions.length, TEN);
    assert.deepEqual(questions.slice(0, 3), due);
    assert.equal(new Set(questions.map(({ points }) => points.join())).size, TEN);
    assert.deepEqual(drawFrom({ ...drill, due: [] }), drawFrom({ ...drill, due: [] }));
    assert.notDeepEqual(drawFrom({ ...drill, due: [] }), drawFrom({ ...drill, seed: 20785, due: [] }));
    assert.equal(drawFrom({ ...drill, due: undefined }).length, 20);
    // what is asked with a roll that is new isn't asked twice
    const [, , , fresh] = questions;
    assert.equal(drawFrom({ ...drill, due: [fresh] }).filter(({ points }) => points.join() === fresh.points.join())
            .length, 1);
    // two rolls of one position are two questions
    const both = [[3, 1], [6, 6]].map((roll) => ({ points: question(3).points, roll }));
    assert.deepEqual(drawFrom({ ...drill, due: both }).slice(0, 2), both);
    // and what has nothing to decide isn't asked
    assert.equal(drawQuestions({ ...drill, theme: "high", due: due.slice(0, 1) }, ROLLS,
            () => [{ isBest: true }]).length, 0);
    assert.deepEqual([mostOf(drill), mostOf({ theme: "all", due: [{ points: [0, 0, 0, 0, 0, 15] }] })], [44, 90]);
});

test("a link has what comes back, and what can't be taken is said", () => {
    for (const due of [[], [3, 8].map((number) => ({ points: question(number).points, roll: [3, 1] }))]) {
        const drill = drillOf({ theme: "gaps", seed: 20784, ask: "play", level: "hard", due });
        const link = writeLink({ ...readLink(""), drill });
        assert.deepEqual([readLink(link).drill, readLink(link).faults], [drill, []]);
        assert.deepEqual(readDue(writeDue(due)), due);
    }
    for (const text of ["x", "1,2,3,0,0,0", "1,2,3,0,0,0,13", "0,0,0,0,0,0,31", "9,9,0,0,0,0,31", "1,2,3,0,0,0,71",
            Array(11).fill("1,2,3,0,0,0,31").join(".")]) {
        assert.equal(readDue(text), null, text);
        assert.match(readLink(`#drill=all&seed=1&ten=${text}`).faults[0],
            /what comes back are six counts of each, and a roll where plays are asked/);
    }
    assert.deepEqual(readLink("#drill=all&seed=1").drill, { theme: "all", seed: 1, ask: "play" });
    assert.deepEqual(readLink("#drill=all&seed=1&ask=effective&ten=").drill,
        { theme: "all", seed: 1, ask: "effective", due: [] });
    // where a question like it is asked its theme stands before it, and an estimate has no roll
    const like = { theme: "gaps", seed: 7, ask: "play", level: "mixed",
        due: [{ ...question(3), theme: "low" }, { points: [1, 2, 0, 0, 0, 0], roll: [2, 1] }] };
    const told = { theme: "all", seed: 7, ask: "wastage", due: [{ points: [1, 2, 0, 0, 0, 0], roll: null }] };
    for (const drill of [like, told]) {
        const link = writeLink({ ...readLink(""), drill });
        assert.deepEqual([readLink(link).drill, readLink(link).faults], [drill, []]);
    }
    assert.match(writeLink({ ...readLink(""), drill: like }), /ten=low-3,2,0,0,1,0,31\.1,2,0,0,0,0,21&/);
    for (const [ask, text] of [["play", "nowhere-1,2,0,0,0,0,21"], ["play", "ace-1,2,0,0,0,0,21"],
            ["play", "low-1,2,0,0,0,0"], ["effective", "1,2,0,0,0,0,21"], ["effective", "low-1,2,0,0,0,0"]]) {
        assert.equal(readDue(text, ask), null, text);
        assert.equal(readLink(`#drill=all&seed=1&ask=${ask}&ten=${text}`).faults.length, 1, text);
    }
});

test("the text comes back", () => {
    let memory = answered(answered(EMPTY, missed(3, 56, "gaps"), 20000), estimate(2100, true), 20001);
    memory = { ...answered(memory, lastOf(right(3), 20001), 20001), learnt: 4 };
    assert.equal(written(memory), [
        "bearoff memory 5", "learnt 4", "sizes 0 1 0", "rating 54880 39600 2", "level gaps easy 0 56000 20000 20000",
            "theme gaps 2 1 56",
            "theme effective 1 1 2100", "day 20000 1 1 0", "day 20001 2 1 1",
        "card 1,2,3,0,0,0 - effective 0 20002 2100", "card 3,2,0,0,1,0 31 gaps 1 20004 56", "ten all 20001 play any - done",
    ].join("\n"));
    assert.deepEqual(readMemory(written(memory)), { memory, fault: "" });
    assert.deepEqual(readMemory(`\ufeff${written(memory).replaceAll("\n", "\r\n")}\r\n`).memory, memory);
    assert.deepEqual(readMemory(written(EMPTY)).memory, EMPTY);
    const levels = [["gaps", "mixed", "", 0, 0, 0]];
    // a text of the first version, which had no estimates that come back, or of the second, which had no rating, is
    // read as it is
    const [first, second] = [/ - |^rating|^level|^ten/, /^rating|^level|^ten/].map((none, place) => written(memory).replace("memory 5",
            `memory ${place + 1}`).split("\n").filter((line) => !none.test(line)).join("\n"));
    assert.deepEqual(readMemory(first).memory,
        { ...memory, rating: EMPTY.rating, levels, tens: [], cards: memory.cards.filter(({ roll }) => roll) });
    assert.deepEqual(readMemory(second).memory, { ...memory, rating: EMPTY.rating, levels, tens: [] });
    assert.deepEqual(readMemory(second.replace("memory 2", "memory 3")).memory.levels, levels);
    // a level of version 4 had nothing of what was lost
    assert.deepEqual(readMemory("bearoff memory 4\nlevel gaps any 01").memory.levels, [["gaps", "any", "01", 0, 0, 0]]);
    for (const { name } of THEMES) assert.equal(faultOf(`theme ${name} 1 1 1`), "");
});

test("ten that were interrupted, as text, till when they are offered, and each answer counts once", () => {
    const pointsOf = (number) => question(number).points;
    const ten = { drill: drillOf({ theme: "gaps", seed: 120784, ask: "play", level: "easy",
        due: [{ points: [4, 1, 0, 0, 0, 0], roll: [3, 1], theme: "low" }] }), isDone: false,
    picks: [[[0, 0, 4, 0, 0, 0], [3, 3], "3/off(4)"], [pointsOf(0), [3, 1], "5/2 1/off"]] };
    const numbers = { drill: drillOf({ theme: "all", seed: 20784, ask: "wastage", due: [] }), isDone: false,
        picks: [[pointsOf(1), "wastage", "-1500"]] };
    const run = ({ drill, picks }, count = 10) => ({ drill, picks, count });
    const guessed = { ...estimate(0, false, "wastage"), points: pointsOf(1), run: run(numbers) };
    const memory = answered(answered(EMPTY, { ...right(0), run: run(ten) }, 20784), guessed, 20784);
    assert.deepEqual([memory.tens, written(memory).split("\n").slice(-5)], [[ten, numbers], [
        "ten gaps 120784 play easy low-4,1,0,0,0,0,31", "pick 0,0,4,0,0,0 33 3/off(4)", "pick 0,2,0,0,1,0 31 5/2_1/off",
        "ten all 20784 wastage any -", "pick 1,2,0,0,1,0 wastage -1500"]]);
    assert.deepEqual(readMemory(written(memory)), { memory, fault: "" });
    assert.deepEqual([20783, 20784, 20785, 20786].map((day) => [interrupted(memory, day), interrupted(memory, day, false)]),
        [[null, null], [ten, numbers], [ten, numbers], [null, null]]);
    // another page answers the same, or another question of the same ten, and then the last
    const next = { ...right(2), run: run({ ...ten, picks: [[pointsOf(2), [3, 1], "6/off"]] }) };
    const both = answered(memory, next, 20784);
    assert.deepEqual([answered(memory, { ...right(0), run: run(ten) }, 20784), answered(both, next, 20784), answered(memory, guessed, 20784)],
        [memory, both, memory]);
    assert.deepEqual([askedOn(both, 20784), both.tens.at(-1).picks.length, isDoneOn(both, 20784)], [3, 3, false]);
    const done = answered(both, { ...right(3), run: { ...next.run, picks: [[pointsOf(3), [3, 1], "6/off"]], count: 4 } }, 20785);
    assert.deepEqual([isDoneOn(done, 20784), interrupted(done, 20785), done.tens.at(-1).isDone, answered(done, next, 20785)],
        [true, null, true, done]);
    assert.deepEqual(readMemory(written(done)), { memory: done, fault: "" });
    // ten estimates are not today's ten
    const last = { ...guessed, points: pointsOf(4), run: { ...run(numbers, 2), picks: [[pointsOf(4), "wastage", "0"]] } };
    const guesses = answered(memory, last, 20784);
    assert.deepEqual([guesses.tens.at(-1).isDone, isDoneOn(guesses, 20784)], [true, false]);
    for (const lines of [["pick 3,2,0,0,1,0 31 5/2"], ["ten gaps 0 play easy -"], ["ten none 7 play easy -"],
        ["ten gaps 7 play easy x"], ["ten ace 7 play any -"], ["ten gaps 7 play easy -", "ten low 8 play any -"],
        ["ten gaps 7 play easy -", "pick 3,2,0,0,1,0 13 5/2"], ["ten gaps 7 play easy -", "pick 3,2,0,0,1,0 pips 5"],
        ["ten gaps 7 play easy -", "pick 3,2,0,0,1 31 5/2"], ["ten gaps 7 play easy -", "pick 3,2,0,0,1,0 31 <b>"],
        ["ten gaps 7 play easy - done", "pick 3,2,0,0,1,0 31 5/2"],
        ["ten gaps 7 play easy -", ...Array(10).fill("pick 3,2,0,0,1,0 31 5/2")]]) {
        assert.equal(faultOf(...lines), `Line ${lines.length + 1} can't be read.`, lines.join());
    }
});

test("whether one memory holds less than another one", () => {
    const [one, more] = [answered(EMPTY, missed(0), 7), answered(answered(EMPTY, missed(0), 7), right(1), 7)];
    assert.deepEqual([[EMPTY, one], [one, more], [more, one], [one, one], [EMPTY, EMPTY],
        [answered(one, right(0), 8), { ...more, learnt: 1 }]].map(([is, than]) => holdsLess(is, than)),
        [true, true, false, false, false, true]);
});

test("a text with a fault is refused whole, by the number of its line", () => {
    const good = "card 1,2,3,0,0,0 31 all 0 7 8";
    assert.equal(faultOf(good), "");
    for (const line of [
        "", "day x", "day 1 1 1", "day 1 1 1 1 1", "day 1234567 1 1 1", "card 16,0,0,0,0,0 31 all 0 1 1",
            "card 0,0,0,0,0,0 31 all 0 1 1", "card 1,0,0,0,0,0 71 all 0 1 1", "card 1,0,0,0,0,0 13 all 0 1 1",
        "card 1,0,0,0,0,0 31 all 5 1 1", "card 1,0,0,0,0,0 31 none 0 1 1", "card 1,0,0,0,0,0 31 effective 0 1 1",
            "card 1,0,0,0,0,0 - all 0 1 1", "card 2,0,0,0,0,0 31 ace 0 1 1", "day 1 4 5 0", "theme all 0 1 1", "card 1,0,0,0,0,0 - effective 5 1 1", "constructor 1", "toString 1",
            "theme nowhere 1 1 1", "theme all -1 1 1", "theme all 1.5 1 1",
        "sizes 1 2", "learnt", "rating 1000 1", "rating 1 -1 1", "rating 1234567890 1 1", "Day 1 1 1 1", good,
    ]) assert.equal(faultOf(good, line, "day 1 1 1 1"), "Line 3 can't be read.", line);
    assert.equal(faultOf("theme all 1 1 1", "theme all 1 1 1"), "Line 3 can't be read.");
    assert.equal(faultOf("day 5 1 1 1", "day 5 2 1 1"), "Line 3 can't be read.");
    const [pips, wastage] = ["pips", "wastage"].map((kind) => `card 1,0,0,0,0,0 - ${kind} 0 1 1`);
    assert.deepEqual([faultOf(pips, wastage), faultOf(pips, wastage, pips)], ["", "Line 4 can't be read."]);
    for (const text of ["", "x", "bearoff memory", "bearoff memory 0", "bearoff memory x", "Bearoff memory 1",
            "bearoff memory 1 2"]) {
        assert.deepEqual(readMemory(text), { memory: null,
                fault: "Line 1: it doesn't begin with \"bearoff memory\" and a version." }, text);
    }
    assert.equal(readMemory(`bearoff memory ${VERSION + 1}\nfuture 1`).fault,
        `It is of version ${VERSION + 1}, and this page knows ${VERSION}.`);
    assert.equal(readMemory("x".repeat(MOST_LETTERS + 1)).fault, `It has more than ${MOST_LETTERS} characters.`);
});

// A browser's store, which pages share; it can be full.
function storage(text = null) {
    const kept = new Map(text === null ? [] : [["bearoff memory", text]]);
    return {
        kept, isFull: false, getItem: (name) => kept.get(name) ?? null, removeItem: (name) => { kept.delete(name); },
        setItem(name, value) {
            if (this.isFull) throw new Error("full");
            kept.set(name, value);
        },
    };
}

test("two pages of a browser bring theirs together", () => {
    const localStorage = storage();
    const [one, other] = [new Store({ localStorage }), new Store({ localStorage })];
    const first = one.change(EMPTY, (memory) => answered(memory, missed(1), 10));
    // the other page hasn't seen it
    const both = other.change(EMPTY, (memory) => answered(memory, missed(2), 10));
    assert.deepEqual([first.cards.length, both.cards.length, both.days], [1, 2, [[10, 2, 2, 0]]]);
    assert.deepEqual([one.read(first), [...localStorage.kept.keys()], one.why], [both, ["bearoff memory"], ""]);
    assert.deepEqual([one.forget(both), localStorage.kept.size, other.read(both)], [EMPTY, 0, EMPTY]);
    // what was there can be had back, and then what was there after it
    const anew = other.change(EMPTY, (memory) => answered(memory, missed(3), 11));
    assert.deepEqual([one.undo(anew), other.read(anew)], [both, both]);
    assert.deepEqual([one.undo(both), other.read(both)], [anew, anew]);
    assert.deepEqual([one.take(anew, first), one.undo(first), other.read(first)], [first, anew, anew]);
    assert.deepEqual(["bearoff memory", null, "other"].map(Store.isAbout), [true, true, false]);
});

test("without a store the page has a memory of its own", () => {
    for (const window of [{}, { get localStorage() { throw new Error("denied"); } }]) {
        const store = new Store(window);
        const memory = store.change(EMPTY, (own) => answered(own, missed(1), 10));
        assert.equal(store.change(memory, (own) => answered(own, missed(2), 10)).cards.length, 2);
        assert.match(store.why, /^This browser keeps nothing for the page/);
        assert.deepEqual([store.forget(memory), store.why !== "", store.undo(EMPTY)], [EMPTY, true, memory]);
    }
    // a store that becomes full keeps what it had, and the page goes on
    const localStorage = storage();
    const store = new Store({ localStorage });
    let memory = store.change(EMPTY, (own) => answered(own, missed(1), 10));
    localStorage.isFull = true;
    for (const number of [2, 3]) memory = store.change(memory, (own) => answered(own, missed(number), 10));
    assert.deepEqual([memory.cards.length, readMemory(localStorage.kept.get("bearoff memory")).memory.cards.length],
        [3, 1]);
    assert.match(store.why, /no more room/);
});

test("what a newer page has kept stays as it is", () => {
    for (const text of [`bearoff memory ${VERSION + 1}\nfuture 1`, "bearoff memory 1\nday x"]) {
        const localStorage = storage(text);
        const store = new Store({ localStorage });
        const memory = store.change(EMPTY, (own) => answered(own, missed(1), 10));
        assert.deepEqual([memory.cards.length, localStorage.kept.get("bearoff memory")], [1, text]);
        assert.match(store.why,
            /^What is kept here can't be read, and stays as it is\. (It is of version 6|Line 2 can't)/);
        // until all is forgotten
        assert.deepEqual([store.forget(memory), store.why, localStorage.kept.size], [EMPTY, "", 0]);
        store.undo(EMPTY);
        assert.equal(localStorage.kept.get("bearoff memory"), text);
        store.forget(EMPTY);
        assert.equal(store.change(EMPTY, (own) => answered(own, missed(1), 10)).cards.length, 1);
        assert.equal(localStorage.kept.size, 1);
    }
});
