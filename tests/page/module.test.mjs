// Lets the page's worker answer under node, over one of the two modules, and compares what it would
// show with the program's replies to the same questions. What the module answers to each call, and
// refuses, package.test.mjs tries.
import { spawnSync } from "node:child_process";
import { mkdtempSync, readFileSync, rmSync, writeFileSync } from "node:fs";
import { tmpdir } from "node:os";
import { join } from "node:path";
import { gunzipSync, gzipSync } from "node:zlib";
import { allRolls, answer, playsOf } from "../../web/board/asks.js";
import { readPoints, ROLLS, sumOf } from "../../web/points.js";
import { drawn } from "../../web/question/asks.js";
import { drillOf, followingOf, kindsOf } from "../../web/question/questions.js";
import { levelsOf, positions, themeOf, THEMES } from "../../web/question/themes.js";
import { ADDITIONS } from "../../web/rules.js";
import { decimal, decimalOf, FAULTS, notation } from "../../web/texts.js";
import { Desk, serve } from "../../web/worker.js";
import { effectOf, equal, isJoined, linesOf, modulesFolder, part, programPath, testedFolder, wrong } from "./given.mjs";

const program = programPath();
const folder = testedFolder();
const bytes = readFileSync(join(modulesFolder(), "narrow.wasm"));
const module = await WebAssembly.compile(bytes);
const WHOLE = 36n ** 33n;

// A number over another in thousandths, to the nearest and a half up, as the definition says.
const nearest = (numerator, denominator) => (2000n * numerator + denominator) / (2n * denominator);

const over = (fraction) => fraction.split("/").map(BigInt);

function comparePlays(name, plays, reply) {
    const listed = reply.split(" ").slice(1);
    equal(`${name}, as the program lists them`, plays.map((play) => `${play.to}:${play.exact}`).join(" "),
        listed.join(" "));
    for (const play of plays) {
        equal(`${name}, the loss of ${play.text}`, play.loss, nearest(...over(play.exact)));
        equal(`${name}, its text`, play.lossText, decimal(play.loss));
        equal(`${name}, best`, play.isBest, play.exact === "0/1");
        equal(`${name}, the moves`, notation(play.moves), play.text);
        equal(`${name}, what ${play.text} does`, effectOf(play.text),
            effectOf(play.moves.map(([from, to]) => `${from}/${to || "off"}`).join(" ")));
        equal(`${name}, ${play.text} as players write it`, isJoined(play.text), true);
    }
    equal(`${name}, recorded`, plays.filter(({ isRecorded }) => isRecorded).length, 1);
}

function compareChances(name, rows, reply) {
    const told = reply.split(" ").slice(1).map((word) => word.split(":"));
    equal(`${name}, which`, rows.map(({ rolls }) => rolls).join(), told.map(([rolls]) => rolls).join());
    let total = 0n;
    told.forEach(([, share], place) => {
        const [numerator, denominator] = over(share);
        total += (numerator * WHOLE) / denominator;
        equal(`${name}, exactly`, rows[place].exactly, nearest(numerator, denominator));
        equal(`${name}, within`, rows[place].within, nearest(total, WHOLE));
    });
    equal(`${name}, in all`, total, WHOLE);
}

function compareMean(name, shown, points, reply) {
    equal(name, `mean ${shown.mean.exact} epc ${shown.effective.exact} ${shown.effective.text}`, reply);
    const { pips, checkers, off } = shown.standing;
    equal(`${name}, pips`, pips, points.reduce((sum, count, place) => sum + count * (place + 1), 0));
    equal(`${name}, checkers`, checkers, points.reduce((sum, count) => sum + count, 0));
    equal(`${name}, off`, off, 15 - checkers);
    equal(`${name}, the mean in thousandths`, shown.mean.thousandths, nearest(...over(shown.mean.exact)));
    equal(`${name}, the mean's text`, shown.mean.text, decimal(shown.mean.thousandths));
    const waste = shown.effective.thousandths - 1000n * BigInt(pips);
    equal(`${name}, wastage`, shown.wastage.text, (waste < 0n ? "\u2212" : "") + decimal(waste < 0n ? -waste : waste));
    equal(`${name}, its size`, shown.wastage.thousandths, waste < 0n ? -waste : waste);
}

// What is shown of a position that was refused.
const REFUSED = { "error too-many": [3, "A position has at most 15 checkers."],
    "error over-bound": [4, "The position has more pips than the database."] };

function compareLines(database, bound) {
    const replies = linesOf(`replies_${bound}`);
    const plays = new Map();
    const seen = {};
    linesOf(`questions_${bound}`).forEach((line, place) => {
        const [word, at, dice] = line.split(" ");
        const reply = replies[place];
        if (!["mean", "dist", "play", "moves"].includes(word) || reply.endsWith("bad-line")) return;
        const name = `${line}, over ${bound} pips`;
        const points = at.split(",").map(Number);
        seen[reply.split(" ")[0]] = true;
        if (word === "mean" || word === "dist") {
            const shown = answer(database, points);
            equal(`${name}, of which`, [shown.points.join(), shown.bound].join(), [at, bound].join());
            if (REFUSED[reply]) equal(`${name}, refused`, [shown.status, shown.refusal].join(), REFUSED[reply].join());
            else if (word === "mean") compareMean(name, shown, points, reply);
            else compareChances(name, shown.distribution, reply);
        } else if (reply.startsWith("moves")) {
            const roll = [...dice].map(Number);
            plays.set(`${at} ${[...roll].sort().reverse().join("")}`, playsOf(database, points, roll));
            comparePlays(name, plays.get(`${at} ${[...roll].sort().reverse().join("")}`), reply);
        }
    });
    // the recorded play of each roll whose plays were told
    linesOf(`questions_${bound}`).forEach((line, place) => {
        const [word, at, dice] = line.split(" ");
        const told = word === "play" && plays.get(`${at} ${dice}`);
        if (!told) return;
        const recorded = told.find(({ isRecorded }) => isRecorded);
        const [, moves, to] = /^play (.*) to (.*)$/.exec(replies[place]);
        equal(`${line}, over ${bound} pips`, [effectOf(recorded.text), recorded.to.join()], [effectOf(moves), to]);
        seen.play = true;
    });
    for (const kind of ["mean", "dist", "play", "moves", "error"]) seen[kind]
        || wrong(`no reply ${kind} over ${bound} pips`);
    const rolls = allRolls(database, [1, 0, 0, 0, 0, 1]);
    equal("how many rolls", rolls.map(({ dice }) => dice.join("")).join(), ROLLS.map((dice) => dice.join("")).join());
    equal("the plays of a roll", rolls[1].plays.map(({ to }) => `${to}`).sort().join(" "), "0,0,0,1,0,0 1,0,1,0,0,0");
    equal("no rolls without checkers", allRolls(database, [0, 0, 0, 0, 0, 0]).length, 0);
}

// A built database answers as the program's file does.
async function compareBuilt(bound, positions) {
    const told = [];
    const desk = new Desk(module, ({ from, until, text }) => told.push(`${from} to ${until} ${text}`));
    const opened = await desk.build(bound);
    equal(`the database of ${bound} pips`, [opened.bound, opened.positions].join(), [bound, positions].join());
    const megabytes = { 8: "0", 44: "11", 90: "15" }[bound];
    equal("the steps of the bar", told.join("; "),
        `0.1 to 0.55 Building the database of ${bound} pips\u2026; 0.55 to 1 Checking all of its ${megabytes} MB\u2026`);
    compareLines(desk.database, bound);
    return desk;
}

// A refused file leaves the open database as it was; each fault has its words.
async function compareDamaged(desk) {
    const file = new Uint8Array(readFileSync(join(folder, "eight")));
    const before = JSON.stringify(await desk.take({ kind: "ask", points: [0, 1, 0, 0, 0, 0] }),
        (_, value) => (typeof value === "bigint" ? String(value) : value));
    const own = mkdtempSync(join(tmpdir(), "damaged-"));
    const places = [0, 8, 9, 12, 16, 20, 28, 32 + 426 * 3, 32 + 426 * 5 + 16, 32 + 426 * 7 + 30, 32 + 426 * 9 + 100,
        -1];
    for (const [place, mask] of places.map((each) => [each, 1])) {
        const other = place < 0 ? file.slice(0, -1) : file.slice();
        if (place >= 0) other[place] ^= mask;
        writeFileSync(join(own, "file"), other);
        const { stderr } = spawnSync(program, ["check", join(own, "file")], { encoding: "utf8" });
        const why = await desk.take({ kind: "open", file: other }).then(() => ({ line: "accepted" }),
            (failure) => failure);
        equal(`the damage at ${place}`, `bearoff: refused ${why.line}\n`, stderr);
        FAULTS[why.status] || wrong(`no words for the status ${why.status}`);
        const after = JSON.stringify(await desk.take({ kind: "ask", points: [0, 1, 0, 0, 0, 0] }),
            (_, value) => (typeof value === "bigint" ? String(value) : value));
        equal(`after the damage at ${place}`, after, before);
    }
    rmSync(own, { recursive: true });
    const opened = await desk.take({ kind: "open", file });
    equal("a right file after them", [opened.bound, opened.positions].join(), "8,64");
}

// A board file is checked and opened like a database, and refused by its first fault.
async function compareBoards(desk) {
    const file = new Uint8Array(readFileSync(join(folder, "whole.board")));
    const other = file.slice();
    other[32 + 60] ^= 1;
    const own = mkdtempSync(join(tmpdir(), "damaged-"));
    writeFileSync(join(own, "file"), other);
    const { stderr } = spawnSync(program, ["check", "--board", join(own, "file")], { encoding: "utf8" });
    rmSync(own, { recursive: true });
    const why = await desk.take({ kind: "open", file: other }).then(() => ({ line: "accepted" }), (failure) => failure);
    equal("the first fault", `bearoff: refused ${why.line}\n`, stderr);
    equal("the former database stays", desk.database.bound, 8);
    const opened = await desk.take({ kind: "open", file });
    equal("a right one", [opened.bound, opened.positions], [90, 54264]);
    equal("what it answers", [(await desk.take({ kind: "ask", points: [0, 0, 0, 0, 0, 15] })).effective.text],
        ["100.174"]);
    await desk.take({ kind: "open", file: new Uint8Array(readFileSync(join(folder, "eight"))) });
}

// What a drill asks has a play that is best alone, and another.
async function compareDrawn(desk) {
    const drill = { theme: "gaps", seed: 7, ask: "play" };
    const questions = drawn(desk.database, drill);
    equal("how many questions", questions.length, 20);
    for (const { points, roll } of questions) {
        const best = playsOf(desk.database, points, roll).map(({ isBest }) => isBest);
        equal(`${points} ${roll}`, [best.length > 1, best.filter(Boolean).length].join(), "true,1");
    }
    equal("the same drill", JSON.stringify(await desk.take({ kind: "draw", drill })), JSON.stringify(questions));
}

// Three rules that players go by, each with the plays that it chooses: the most borne off, and then
// the most points filled; the most borne off, then the fewest on the ace point, and then the most
// points filled; and the fewest pips with Tom Keith's additions.
const RULES_OF_THUMB = [
    ({ to }) => 20 * sumOf(to) - to.filter((count) => count > 0).length,
    ({ to }) => 400 * sumOf(to) + 20 * to[0] - to.filter((count) => count > 0).length,
    ({ to: [ace, deuce, three, ...high] }) => [ace, deuce, three,
        ...high].reduce((sum, count, place) => sum + count * (place + 1), 0)
        + 2 * Math.max(0, ace - 1) + Math.max(0, deuce - 1) + Math.max(0, three - 3)
            + high.filter((count) => count === 0).length,
];
function chosenBy(rule, plays) {
    const least = Math.min(...plays.map(rule));
    return plays.filter((play) => rule(play) === least);
}

// What the names of two themes say of a play: whether it fills a gap, and whether it bears off fewer than another.
const NAMED = {
    gaps: ({ to }, points) => points.some((on, place) => on === 0 && to[place] > 0 && points.slice(0,
            place).some(Boolean) && points.slice(place).some(Boolean)),
    fewer: ({ to }, points, plays) => sumOf(to) > Math.min(...plays.map((play) => sumOf(play.to))),
};

// Guesses without knowledge: any play, each rule, the play that only one rule chooses, and the most natural
// one of those that the natural rule doesn't choose. Of the plays that a guess leaves, how many are right.
const partOf = (plays) => (plays.length === 0 ? 0 : plays.filter(({ loss }) => loss === 0n).length / plays.length);
const without = (plays, some) => plays.filter((play) => !some.includes(play));
const GUESSES = [
    (plays) => plays, ...RULES_OF_THUMB.map((rule) => (plays) => chosenBy(rule, plays)),
    (plays) => {
        const chosen = RULES_OF_THUMB.flatMap((rule) => chosenBy(rule, plays));
        const alone = plays.filter((play) => chosen.filter((one) => one === play).length === 1);
        return alone.length > 0 ? alone : without(plays, chosen);
    },
    (plays) => {
        const rest = without(plays, chosenBy(RULES_OF_THUMB[0], plays));
        return rest.length > 0 ? chosenBy(RULES_OF_THUMB[0], rest) : [];
    },
];

// By its level: whoever goes by a rule of thumb is right in all of the easy questions, whose next
// best play loses a good deal; in a half of the mixed ones; and in the hard ones, whose next best
// loses little, neither a rule nor one that is made of them is right in more than six of ten. Where a
// theme's name says what to play, it is wrong in a half.
function compareLevels(database) {
    const isRight = (plays, rule = RULES_OF_THUMB[0]) => chosenBy(rule, plays).some(({ exact }) => exact === "0/1");
    for (const { name } of THEMES.filter(({ isPlayed, most = 44 }) => isPlayed
            && (most > 44) === (database.bound > 44))) {
        for (const level of levelsOf({ theme: name, ask: "play" }).map((one) => one.name)) {
            let [count, close, slowest, fails] = [0, 0, 0, 0];
            const [right, byRule] = [[0, 0, 0], GUESSES.map(() => 0)];
            for (const seed of [3, 1789, 20260101]) {
                const begun = performance.now();
                const questions = drawn(database, drillOf({ theme: name, seed, ask: "play", level }));
                slowest = Math.max(slowest, performance.now() - begun);
                const all = questions.map(({ points, roll }) => ({ points, roll,
                        plays: playsOf(database, points, roll) }));
                // where it tempts, and where the best play is as the theme's name says, the seed
                // tells; a position that is drawn again changes its question
                const tempts = kindsOf(seed);
                const asSaid = all.filter(({ plays }, place) => isRight(plays) !== tempts[place]).length;
                if (level === "mixed") equal(`${name}: mixed ones of ${seed} tempt where the seed says`, asSaid >= 15,
                    true);
                const does = NAMED[name];
                if (does) {
                    const follows = followingOf(seed);
                    const named = all.map(({ points, plays }) => does(plays[0], points, plays));
                    equal(`${name}, ${level}: a half of ${seed} is as its name says`,
                        Math.abs(named.filter(Boolean).length - 10) <= 2, true);
                    equal(`${name}, ${level}: where the seed says`,
                        named.filter((is, place) => is === follows[place]).length >= 15, true);
                    for (const { points, roll, plays } of all) {
                        const kinds = [true, false].map((is) => plays.find((play) => does(play, points, plays) === is));
                        if (!kinds.every(Boolean)) wrong(`${name}, ${level}: ${points} ${roll} has plays of one kind`);
                        else if (!kinds[0].isBest && ["any", "mixed"].includes(level)
                                && kinds[0].loss > 40n) wrong(`${name}, ${level}: ${points} ${roll} is no decoy`);
                    }
                }
                for (const { points, roll, plays } of all) {
                    const [best, next] = plays;
                    if (!best.isBest
                            || next.isBest) wrong(`${name}, ${level}: ${points} ${roll} has nothing to decide`);
                    if (!themeOf(name).has(points)) wrong(`${name}, ${level}: ${points} is of another theme`);
                    count += 1;
                    RULES_OF_THUMB.forEach((rule, place) => { right[place] += isRight(plays, rule) ? 1 : 0; });
                    if (next.loss <= 20n) close += 1;
                    if (level === "easy"
                            && next.loss < 80n) wrong(`${name}, easy: ${points} ${roll} loses ${next.loss} thousandths`);
                    if (level === "mixed" && isRight(plays)
                            && next.loss > 20n) wrong(`${name}, mixed: ${points} ${roll} is neither`);
                    GUESSES.forEach((guess, place) => { byRule[place] += partOf(guess(plays)); });
                    fails += chosenBy(RULES_OF_THUMB[0], plays).every(({ loss }) => loss > 0n) ? 1 : 0;
                    if (level === "hard" && (next.loss > (name === "fewer" ? 40n : 30n) || next.loss === 0n)) {
                        wrong(`${name}, hard: ${points} ${roll} isn't`);
                    }
                }
            }
            equal(`${name}, ${level}: questions`, count, 60);
            if (level === "mixed") equal(`${name}: the novice in the mixed ones`,
                100 * right[0] >= 40 * count && 100 * right[0] <= 60 * count, true);
            if (level === "hard") {
                equal(`${name}: guesses that win the hard ones`, byRule.filter((sum) => sum > 0.62 * count), []);
                equal(`${name}: the novice is right in some of the hard ones`, count - fails > 0.25 * count, true);
            }
            if (level === "easy") equal(`${name}: each rule in the easy ones`, right, [count, count, count]);
            console.log(`page: ${name}, ${level}: three rules are right in ${right.join(", ")} of ${count}, ${close} of which are close; drawn in ${slowest.toFixed(0)} ms at most`);
        }
    }
    equal("no drill of plays where there are none", THEMES.filter(({ isPlayed }) => !isPlayed).map(({ name }) => name),
        ["ace"]);
}

// How far the rules of thumb for the effective pip count are off, by the answers for each position;
// over the whole board as an independent table of it has them, in thousandths of a pip.
async function compareMeasured(desk) {
    const sevens = (points) => 7000 * Math.ceil(sumOf(points) / 2) + 1000;
    const pips = (points) => 1000 * points.reduce((sum, count, place) => sum + count * (place + 1), 0);
    const added = (points) => 1000 * RULES_OF_THUMB[2]({ to: points }) + 8500;
    const rules = [sevens, (points) => pips(points) + 8000, added, (points) => Math.max(sevens(points), added(points))];
    const known = {
        90: [[11309, 43937, 15, 27], [6401, 34000, 7371, 1206], [1021, 7333, 54263, 1021], [986, 7333, 54263, 986],
            [1021, 7333, 54263, 1021]],
    };
    const all = positions(desk.database.bound).slice(1)
            .map((points) => ({ points, exact: Number(answer(desk.database, points).effective.thousandths) }));
    const begun = performance.now();
    const { count, rows } = await desk.take({ kind: "measure", weights: ADDITIONS });
    const took = performance.now() - begun;
    console.log(`page: the rules of thumb are measured over ${count} positions in ${took.toFixed(0)} ms`);
    equal("over all positions", count, desk.database.positionCount - 1);
    equal("which rules", rows.map(({ name }) => name), ["rolls", "eight", "additions", "greater", "own"]);
    equal("one's own begins as the additions do", { ...rows[4], name: "", words: "" },
        { ...rows[2], name: "", words: "" });
    if (known[desk.database.bound]) equal("as another table has them",
        rows.map(({ mean, worst, countFor, meanFor }) => [mean, worst, countFor, meanFor]), known[desk.database.bound]);
    rules.forEach((rule, place) => {
        const errors = all.map(({ points, exact }) => Math.abs(rule(points) - exact));
        equal(`the mean error of ${rows[place].name}`, rows[place].mean,
            Math.round(errors.reduce((sum, error) => sum + error, 0) / errors.length));
        equal(`the greatest of ${rows[place].name}`, rows[place].worst, Math.max(...errors));
    });
    // each weight of one's own rule counts what it says, and one is less than a pip off on average
    const [, , , , own] = (await desk.take({ kind: "measure", weights: [16, 4, 2, 2, 3, 0] })).rows;
    if (desk.database.bound === 90) equal("less than a pip", own.mean < 1000, true);
    for (const [weight, counted] of [
        () => 1, ([ace]) => Math.max(0, ace - 1), ([, deuce]) => Math.max(0, deuce - 1),
            ([, , three]) => Math.max(0, three - 3),
        ([, , , ...high]) => high.filter((on) => on === 0).length, sumOf,
    ].entries()) {
        const weights = ADDITIONS.map((halves, place) => halves + (place === weight ? 3 : 0));
        const { rows: [, , , , mine] } = await desk.take({ kind: "measure", weights });
        const errors = all.map(({ points, exact }) => Math.abs(added(points) + 1500 * counted(points) - exact));
        equal(`another weight ${weight}`, [mine.mean, mine.worst],
            [Math.round(errors.reduce((sum, error) => sum + error, 0) / errors.length), Math.max(...errors)]);
    }
}

// The values of a lesson's steps are those of its positions, and of the recorded plays.
async function compareFilled(desk) {
    const steps = [{ points: [0, 0, 0, 1, 0, 1], roll: [5, 2] }, { points: [0, 0, 0, 0, 0, 1], roll: null },
        { points: [0, 0, 0, 0, 0, 15], roll: null }, { points: [0, 0, 0, 0, 0, 0], roll: [2, 1] }];
    const { mean, effective, wastage } = answer(desk.database, steps[0].points);
    equal("of each step", await desk.take({ kind: "fill", steps }), [
        { pips: "10", mean: mean.text, EPC: effective.text, wastage: wastage.text, best: "6/1 4/2" },
            { pips: "6", mean: "1.250", EPC: "10.208", wastage: "4.208" },
        desk.database.bound < 90 ? {} : { pips: "90", mean: "12.266", EPC: "100.174", wastage: "10.174" },
            { pips: "0", mean: "0.000", EPC: "0.000", wastage: "0.000" },
    ]);
}

// What was chosen before the page was loaded anew is told again by the module.
async function compareAgain(desk) {
    const picks = { guesses: [[[0, 0, 0, 1, 0, 1], [5, 2], "6/off"]], again: [[[1, 1, 1, 1, 0, 0], [4, 1], "x"]],
        estimates: [[[0, 0, 0, 0, 0, 1], "pips", "6000"]], estimatesAgain: [[[1, 0, 0, 0, 0, 0], "pips", "1000"]] };
    const { plays, answers } = await desk.take({ kind: "again", picks });
    equal("plays", plays.map((list) => list.length > 1), [true, true]);
    equal("of the first", plays[0].find(({ text }) => text === "6/off").exact, "1/18");
    equal("numbers, and those of what was asked once more", answers.map(({ mean }) => mean.exact), ["5/4", "1/1"]);
}

function compareRounded() {
    for (const fraction of ["0/1", "1/6", "1/2000", "999/2000000", "31/2", `${7n ** 40n}/${36n ** 22n}`,
            `${7n ** 43n}/${36n ** 22n}`, `${7n ** 65n}/${6n * 36n ** 33n}`, "180/1", "181/1"]) {
        equal(`${fraction} in decimals`, decimalOf(fraction), decimal(nearest(...over(fraction))));
    }
}

// The messages of a page, and what is answered to them.
async function compareServed() {
    const posted = [];
    const scope = { postMessage: (message) => posted.push(message) };
    serve(scope, gunzipSync);
    const questions = [
        { kind: "ask", points: [0, 0, 0, 0, 0, 1] },
            { kind: "start", module: gzipSync(bytes).toString("base64"), bound: 8 },
        { kind: "ask", points: [0, 0, 0, 0, 0, 1] }, { kind: "open", file: new Uint8Array(3) }, { kind: "nothing" },
        { kind: "ask", points: [1, 0, 0, 0, 0, 0] },
    ];
    questions.forEach((question, number) => scope.onmessage({ data: { number, question } }));
    while (!posted.some(({ number }) => number === questions.length - 1)) await new Promise((keep) => setTimeout(keep,
            5));
    const replies = posted.filter(({ number }) => number !== undefined);
    equal("the order of replies", replies.map(({ number }) => number).join(), "0,1,2,3,4,5");
    equal("a question before the start", replies[0].failure.message, "the module didn't start");
    equal("the start", replies[1].reply.positions, 64);
    equal("an answer", replies[2].reply.mean.exact, "5/4");
    equal("a refused file", [replies[3].failure.status, replies[3].failure.line].join(), "16,header too-short");
    equal("no question", replies[4].failure.message, "no such question");
    equal("the last one", replies[5].reply.mean.exact, "1/1");
}

let small = null;
let large = null;
let whole = null;

part("a text of a position is read", () => {
    if (readPoints("0,0,0,0,0,1") === null) wrong("points.js reads no position");
});
part("a built database of 8 pips", async () => { small = await compareBuilt(8, 64); });
part("a built database of 44 pips", async () => { large = await compareBuilt(44, 26314); });
part("the whole board", async () => { whole = await compareBuilt(90, 54264); });
part("damaged files", () => compareDamaged(small));
part("a board file of one's own", () => compareBoards(small));
part("drills", async () => {
    await compareDrawn(large);
    const drill = { theme: "gaps", seed: 7, ask: "play" };
    equal("a small database has no drill", drawn(small.database, drill).length, 0);
    equal("nor has one of 44 pips those of the whole board",
        THEMES.filter(({ name }) => drawn(large.database, { theme: name, seed: 7, ask: "pips" }).length === 0)
        .map(({ name }) => name), ["board", "fifteen", "stacks"]);
    equal("a drill is the same in both", JSON.stringify(drawn(whole.database, drill)),
        JSON.stringify(drawn(large.database, drill)));
});
part("the key of a class's drill", async () => {
    for (const [ask, ...wanted] of [["play", "6/1 4/2; the next loses 0.056", "1/off: the only play"],
        ["pips", "10", "1"], ["effective", "15.106", "8.167"], ["wastage", "5.106", "7.167"]]) {
        const list = [[[0, 0, 0, 1, 0, 1], [5, 2]], [[1, 0, 0, 0, 0, 0], [6, 5]]]
            .map(([points, roll]) => ({ points, roll: ask === "play" ? roll : null }));
        equal(ask, (await large.take({ kind: "sheet", drill: drillOf({ ask, list }) })).key, wanted);
    }
});
part("drills of each level", () => compareLevels(large.database));
part("drills of each level, of the whole board", () => compareLevels(whole.database));
part("rules of thumb, measured", async () => {
    await compareMeasured(large);
    await compareMeasured(whole);
    // of another database nothing is kept
    const { count } = await small.take({ kind: "measure", weights: ADDITIONS });
    equal("of a small one", count, 63);
    await small.build(9);
    equal("of the one that took its place", (await small.take({ kind: "measure", weights: ADDITIONS })).count,
        small.database.positionCount - 1);
    await small.build(8);
});
part("values of a lesson", async () => {
    await compareFilled(large);
    await compareFilled(whole);
});
part("what was chosen before", () => compareAgain(large));
part("rounded fractions", compareRounded);
part("messages", compareServed);
