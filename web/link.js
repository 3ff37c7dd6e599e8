// The address: positions, captions and screen; and positions that a reader types.
import { isTooLong, MOST_TEXT } from "../js/checks.js";
import { NotARaceError, read } from "../js/notation.js";
import { readLessons } from "./lesson/text.js";
import { FIRST, GREATEST, MOST_CHECKERS, readPoints, sumOf } from "./points.js";
import { ASKED, ESTIMATED, readDrill, readDue, readList, readSeed, writeDue } from "./question/questions.js";
import { CHOSEN, LEVELS, themeOf } from "./question/themes.js";
import { oneLine } from "./texts.js";

// The screens besides the board that an address names by one word; without any word it is the first.
export const PAGES = ["home", "games", "teacher"];

export const MOST_KEPT = 10;
export const LONGEST_CAPTION = 200;

// The most characters behind the hash: a lesson of the greatest length, and more.
const MOST_LINK = 4_000_000;
export const START = [2, 2, 2, 2, 2, 2];

// Six counts as typed, or why they are none.
export function readCounts(typed) {
    const separator = /^[\d.]*$/.test(typed.trim()) ? /\.+/ : /[\s,;]+/;
    const counts = typed.trim().split(separator).filter((count) => count !== "");
    if (!counts.every((count) => /^\d{1,3}$/.test(count))) {
        return { fault: "A count is a whole number; commas or spaces stand between the six." };
    }
    if (counts.length !== 6) {
        return {
            fault: `Six counts are wanted, and here ${counts.length === 1 ? "is 1" : `are ${counts.length}`}.`,
        };
    }
    const points = counts.map(Number);
    return sumOf(points) > MOST_CHECKERS
        ? { fault: `There are ${MOST_CHECKERS} checkers, and here are ${sumOf(points)}.` }
        : { points };
}

// A typed position: six counts, an XGID or a GNU ID, with its roll and other side; or a fault.
function readRace(typed) {
    if (isTooLong(typed)) {
        return { fault: `A position has at most ${MOST_TEXT} characters, and this text has more.` };
    }
    const counts = readCounts(typed);
    if (counts.points) return { points: counts.points, roll: null, theirs: null };
    try {
        const { mine, theirs, dice } = read(typed);
        return { points: mine, roll: dice, theirs };
    } catch (error) {
        if (!(error instanceof NotARaceError)) throw error;
        // And not counts with a letter among them
        const isId = /[a-z]{3}|:|^\s*[a-z\d+/]{10}/i.test(typed);
        return isId ? { fault: `This is no bearoff race: ${error.message}` } : counts;
    }
}

// A typed position, whose roll may stand behind it.
export function readTyped(typed) {
    const [, front, ...dice] = /^(.*\S)\s+([1-6])-?([1-6])\s*$/.exec(isTooLong(typed) ? "" : typed) || [];
    const race = front && readRace(front);
    return race?.points ? { ...race, roll: dice.map(Number).sort((one, other) => other - one) } : readRace(typed);
}

// The address of a drill, or of one of its questions.
export const linkOf = (drill, place = 0) =>
    writeLink({ ...readLink("#at=0,0,0,0,0,0"), drill, place }).replace(/&at=.*/, "");

// What of a link can't be taken, in sentences: each word with what it has to be.
function faultsOf(words, drill) {
    const isNone = (pattern) => (value) => !pattern.test(value);
    const given = words.get("drill");
    const checks = [
        ...["at", "p"].map((name) => [name, (value) => !readPoints(value),
            `a position is six counts of at most ${MOST_CHECKERS} checkers`]),
        ["roll", isNone(/^[1-6]{2}$/), "a roll is two digits from 1 to 6"],
        ["guess", isNone(/^1$/), "it is 1 or left out"],
        ["pips", isNone(/^(44|58|90)$/), `the databases have ${FIRST} or ${GREATEST} pips`],
        ["view", isNone(/^board$/), "the only other view is board"],
        ["drill", (value) => !themeOf(value), "there is no such theme"],
        ["seed", (value) => readSeed(value) === null,
            "a seed is a whole number from 1 to 999999999"],
        ["ask", (value) => !Object.hasOwn(ASKED, value),
            `a drill asks ${Object.keys(ASKED).join(", ")}`],
        ["level", (value) => !LEVELS.some(({ name }) => name === value),
            `a level is ${CHOSEN.map(({ name }) => name).join(", ")}`],
        ["ten", (value) => readDue(value, words.get("ask") ?? "play") === null,
            "what comes back are six counts of each, and a roll where plays are asked"],
        ["list", (value) => readList(value, words.get("ask") ?? "play") === null,
            "a list has six counts of each question, and a roll where plays are asked"],
        ["estimate", (value) => !ESTIMATED.includes(value),
            `what is estimated is ${ESTIMATED.join(", ")}`],
        ...["question", "lesson", "step"].map((name) => [name, isNone(/^[1-9]\d?$/), "it is the number of one"]),
    ];
    const faults = checks.flatMap(([name, isWrong, what]) => words.getAll(name).filter(isWrong)
        .map((value) =>
            `The link has ${name}=${value.slice(0, 40)}, which can't be taken: ${what}.`));
    const { fault } = readLessons(words.get("text") || "");
    if (words.get("text") && fault) faults.push(`The lesson of the link can't be read. ${fault}`);
    if (given !== null && themeOf(given) && !words.has("seed")) {
        faults.push("The link has a drill without a seed.");
    }
    if (given !== null && !drill && faults.length === 0) {
        faults.push(`The link's drill has nothing to decide: ${themeOf(given).words}, Play.`);
    }
    const level = words.get("level");
    if (drill && LEVELS.some(({ name }) => name === level) && level !== (drill.level ?? "any")) {
        faults.push(`The link's drill has no questions of level ${level}: any are asked.`);
    }
    return faults;
}

// The state of an address; what can't be read is left out, with a sentence.
export function readLink(hash) {
    if (hash.length > MOST_LINK) {
        return { ...readLink(""), faults: ["The link is too long, and was left out."] };
    }
    const words = new URLSearchParams(hash.replace(/^#/, ""));
    const drill = readDrill({
        theme: words.get("drill"), seed: words.get("seed"), ask: words.get("ask"),
        level: words.get("level"), ten: words.get("ten"), list: words.get("list"),
    });
    const kept = [];
    let last = null;
    for (const [name, value] of words) {
        const points = name === "p" ? readPoints(value) : null;
        if (points) {
            last = kept.find((entry) => entry.points.join() === points.join()) || null;
            if (!last && kept.length < MOST_KEPT) {
                last = { points, caption: "" };
                kept.push(last);
            }
        }
        if (name === "c" && last && last.caption === "") last.caption = oneLine(value, LONGEST_CAPTION);
    }
    const roll = /^[1-6]{2}$/.test(words.get("roll") || "")
        ? [...words.get("roll")].map(Number) : null;
    const page = [...words.keys()].length === 0 ? "home"
        : PAGES.find((name) => words.has(name)) || "board";
    return {
        page,
        points: readPoints(words.get("at") || "") || (kept.length > 0 ? kept[0].points : START),
        kept,
        title: oneLine(words.get("t") || "", LONGEST_CAPTION),
        roll: roll && roll.sort((one, other) => other - one),
        guess: words.get("guess") === "1",
        // older links ask for 58
        bound: ["90", "58"].includes(words.get("pips")) ? GREATEST : FIRST,
        isPlaced: words.has("at"),
        isCompact: words.get("view") === "board",
        drill,
        place: /^[1-9]\d?$/.test(words.get("question") || "")
            ? Number(words.get("question")) - 1 : 0,
        estimate: ESTIMATED.includes(words.get("estimate")) ? words.get("estimate") : null,
        lesson: /^\d{1,2}$/.test(words.get("lesson") || "") ? Number(words.get("lesson")) : null,
        text: readLessons(words.get("text") || "").lessons[0] ? words.get("text") : "",
        step: /^[1-9]\d?$/.test(words.get("step") || "") ? Number(words.get("step")) : 1,
        faults: faultsOf(words, drill),
    };
}

// The address of some words.
export const link = (words) => `#${new URLSearchParams(words).toString().replaceAll("%2C", ",")}`;

// The address of a state.
export function writeLink({ points, kept, title, roll, guess, bound, ...more }) {
    const words = new URLSearchParams();
    const { isCompact, drill, place, estimate, lesson, text: written, step, page } = more;
    if (PAGES.includes(page) && !drill && !lesson && !written) return `#${page}`;
    if (isCompact) words.append("view", "board");
    if (drill) {
        for (const [name, value] of [...(drill.list ? [["list", writeDue(drill.list)]]
            : [["drill", drill.theme], ["seed", drill.seed]]), ["ask", drill.ask]]) {
            words.append(name, value);
        }
        if (drill.level) words.append("level", drill.level);
        if (drill.due) words.append("ten", writeDue(drill.due));
        if (place > 0) words.append("question", place + 1);
    }
    if (estimate) words.append("estimate", estimate);
    if (lesson) words.append("lesson", lesson);
    else if (written) words.append("text", written);
    if (step > 1) words.append("step", step);
    if (title) words.append("t", title);
    words.append("at", points.join());
    if (roll) words.append("roll", roll.join(""));
    if (guess) words.append("guess", "1");
    if (bound === GREATEST) words.append("pips", bound);
    for (const { points: counts, caption } of kept) {
        words.append("p", counts.join());
        if (caption) words.append("c", caption);
    }
    return `#${words.toString().replaceAll("%2C", ",").replaceAll("%2F", "/")}`;
}
