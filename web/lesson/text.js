// Texts of lessons, and what was estimated.
import { isTooLong } from "../../js/checks.js";
import { readPoints } from "../points.js";
import { ESTIMATED } from "../question/questions.js";
import { ESTIMATES, isRule, OWN } from "../rules.js";
import { oneLine } from "../texts.js";

const MOST_STEPS = 60;
export const LONGEST_TEXT = 1200; // of a step, in characters

// How many characters the text of lessons may have.
const MOST_LESSONS = 1_000_000;

const LINE = /^(lesson|step|roll|estimate|rule|text|ask|answer):[ \t]*(.*)$/;
const clean = (text) => oneLine(text, LONGEST_TEXT);

// The lessons of a text: `word: value` lines, continued till an empty one; or the first fault.
export function readLessons(text) {
    if (text.length > MOST_LESSONS) {
        return { lessons: [], fault: `Lessons have at most ${MOST_LESSONS} characters.` };
    }
    const lessons = [];
    let [step, last, fault] = [null, null, ""];
    for (const [place, line] of text.replace(/^\ufeff/, "").split(/\r?\n/).entries()) {
        const refuse = (why) => { fault = fault || `Line ${place + 1}: ${why}`; };
        const [, word, value] = LINE.exec(line) || [];
        if (line.trim() === "") last = null;
        else if (/^(#|from:)/.test(line)) continue;
        else if (!word && step && last) step[last] = clean(`${step[last]} ${line}`);
        else if (word === "lesson") {
            lessons.push({ title: clean(value), steps: [] });
            step = null;
        } else if (word === "step") {
            const points = readPoints(value.replaceAll(" ", ""));
            if (!points) refuse("a step is six counts with commas between them");
            else if (lessons.length === 0) refuse("a lesson begins with its title");
            else if (lessons.at(-1).steps.length >= MOST_STEPS) {
                refuse(`a lesson has at most ${MOST_STEPS} steps`);
            } else {
                step = { points, roll: null, text: "", ask: "", answer: "" };
                lessons.at(-1).steps.push(step);
            }
        } else if (!word || !step) refuse(word ? "a step comes first" : "no such word");
        else if (word === "roll") {
            if (step.estimate) refuse("a step has a roll or an estimate");
            else if (/^[1-6]{2}$/.test(value)) {
                step.roll = [...value].map(Number).sort((one, other) => other - one);
            } else refuse("a roll is two digits from 1 to 6");
        } else if (word === "estimate") {
            if (step.roll) refuse("a step has a roll or an estimate");
            else if (ESTIMATED.includes(value)) step.estimate = value;
            else refuse(`what is estimated is ${ESTIMATED.join(", ")}`);
        } else if (word === "rule") {
            if (isRule(value)) step.rule = value;
            else refuse(`a rule is ${[...ESTIMATES.map(({ name }) => name), OWN].join(", ")}`);
        } else {
            step[word] = clean(value);
            last = word;
        }
    }
    if (!fault && lessons.length === 0) fault = "There is no lesson in it.";
    if (!fault && lessons.some(({ steps }) => steps.length === 0)) fault = "A lesson has no step.";
    return fault ? { lessons: [], fault } : { lessons, fault: "" };
}

// A lesson as such a text.
export function writeLesson({ title, steps }) {
    const lines = ({ points, roll, estimate, rule, text, ask, answer }) => [
        `step: ${points.join()}`, roll && `roll: ${roll.join("")}`,
        estimate && `estimate: ${estimate}`, rule && `rule: ${rule}`, text && `text: ${text}`,
        ask && `ask: ${ask}`, answer && `answer: ${answer}`,
    ];
    return [`lesson: ${title}`, ...steps.flatMap(lines)].filter(Boolean).join("\n");
}

// The values that a lesson's text can name.
const VALUES = /\{(pips|mean|EPC|wastage|best)\}/g;

export const hasValues = ({ steps }) =>
    steps.some((step) => ["text", "ask", "answer"].some((word) => step[word].search(VALUES) >= 0));

// A step with its values, by their names; what isn't known yet is an ellipsis.
export const filledStep = (step, values) => ({
    ...step, ...Object.fromEntries(["text", "ask", "answer"].map((word) =>
        [word, step[word].replace(VALUES, (_, name) => values?.[name] ?? "\u2026")])),
});

// What was estimated, in thousandths, or null where it is no number of at most three decimals.
export function readEstimate(text) {
    if (isTooLong(text)) return null;
    const [, sign, whole, part] = /^\s*([-\u2212]?)(\d{1,3})(?:[.,](\d{1,3}))?\s*$/.exec(text)
        || [];
    if (whole === undefined) return null;
    const thousandths = BigInt(whole) * 1000n + BigInt((part || "").padEnd(3, "0"));
    return sign ? -thousandths : thousandths;
}

// What a position has, in thousandths, of what can be estimated.
export function thousandthsOf({ standing, effective }, kind) {
    const pips = 1000n * BigInt(standing.pips);
    return { pips, effective: effective.thousandths, wastage: effective.thousandths - pips }[kind];
}

// The mean of so many thousandths, to the nearest.
export const meanOf = (errors) =>
    (2n * errors.reduce((sum, error) => sum + error, 0n) + BigInt(errors.length))
        / (2n * BigInt(errors.length));

// A position as text: its counts, and a small board of letters.
export function asText(points) {
    const rows = Array.from({ length: Math.max(1, ...points) }, (_, row) =>
        [...points].reverse().map((count) => (count > row ? "O" : ".")).join(" ")).reverse();
    return [points.join(), "", ...rows, "6 5 4 3 2 1"].join("\n");
}
