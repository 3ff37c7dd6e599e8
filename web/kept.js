// What was answered, as it is told to the memory; and that and the draft of a lesson over a reload.
import { chosenOf } from "./board/state.js";
import { keyOf, MOST_CHECKERS, sameRoll, sumOf } from "./points.js";
import { drillKey, ESTIMATED, isFar } from "./question/questions.js";
import { drillGuesses, NO_RUN } from "./question/state.js";
import { isMiss } from "./rules.js";

const NAME = "bearoff drills";
const LESSON = "bearoff lesson";

const isPosition = (points) => Array.isArray(points) && points.length === 6
    && points.every((count) => Number.isInteger(count) && count >= 0)
        && sumOf(points) <= MOST_CHECKERS;
const isRoll = (roll) =>
    Array.isArray(roll) && roll.length === 2
        && roll.every((die) => [1, 2, 3, 4, 5, 6].includes(die));
const isGuess = (guess) =>
    Array.isArray(guess) && isPosition(guess[0]) && isRoll(guess[1])
        && typeof guess[2] === "string";
const isEstimate = (estimate) =>
    Array.isArray(estimate) && isPosition(estimate[0]) && ESTIMATED.includes(estimate[1])
    && /^-?\d{1,7}$/.test(estimate[2]);

// What is kept, by the words of each drill; what isn't as this page wrote it is left out.
export function readPicks(window) {
    try {
        const all = JSON.parse(window.sessionStorage.getItem(NAME)) || {};
        const only = (list, isOne) => (Array.isArray(list) ? list.filter(isOne) : []);
        return Object.fromEntries(Object.entries(all)
            .map(([key, { guesses, again, estimates, estimatesAgain }]) => [key, {
            guesses: only(guesses, isGuess), again: only(again, isGuess),
            estimates: only(estimates, isEstimate),
            estimatesAgain: only(estimatesAgain, isEstimate),
        }]));
    } catch {
        return {};
    }
}

// Keeps what isn't kept so already; `none` is what nothing kept stands for.
function keep(window, name, value, none) {
    const text = JSON.stringify(value);
    try {
        if ((window.sessionStorage.getItem(name) || none) !== text) {
            window.sessionStorage.setItem(name, text);
        }
    } catch {
        // it is there while the page stays
    }
}

export const writePicks = (window, picks) => keep(window, NAME, picks, "{}");

const isStep = (step) => isPosition(step?.points) && Number.isInteger(step.key)
    && ["roll", "text", "ask", "answer"].every((word) => typeof step[word] === "string");

// The lesson that was being made, or null.
export function readDraft(window) {
    try {
        const { title, steps } = JSON.parse(window.sessionStorage.getItem(LESSON));
        return typeof title === "string" && Array.isArray(steps) && steps.every(isStep)
            ? { title, steps } : null;
    } catch {
        return null;
    }
}

export const writeDraft = (window, draft) => keep(window, LESSON, draft, "null");

const pointsOf = (at) => at.split(",").map(Number);
const picked = (guesses) => guesses.map(({ at, roll, play }) => [pointsOf(at), roll, play.text]);
const told = (estimates) =>
    estimates.map(({ at, kind, told: estimate }) => [pointsOf(at), kind, String(estimate)]);

// What was answered of ten, where a drill is of ten.
function runOf({ drill, run: { questions } }, picks) {
    const isAsked = ([points, of]) => questions.some(({ points: at, roll }) =>
        keyOf(at) === keyOf(points) && (!roll || sameRoll(roll, of)));
    return drill?.due && isAsked(picks.at(-1))
        ? { drill, picks: picks.filter(isAsked), count: questions.length } : undefined;
}

const MOST_RUNS = 10; // drills whose runs are kept

// The answers of each drill as they survive a reload: texts and counts.
export function picksOf(state) {
    const runs = new Map(state.runs);
    if (state.drill) runs.set(drillKey(state.drill), state.run);
    return Object.fromEntries([...runs].slice(-MOST_RUNS).map(([key, run]) => [key, run.picks || {
        guesses: picked(run.guesses), again: picked(run.again),
        estimates: told(run.estimates), estimatesAgain: told(run.estimatesAgain),
    }]).filter(([, run]) => run.guesses.length + run.estimates.length > 0));
}

// The state with what was chosen in its drills before the page was loaded anew.
export function withPicks(state, all) {
    const runs = new Map(Object.entries(all).map(([key, picks]) => [key, { ...NO_RUN, picks }]));
    return { ...state, run: (state.drill && runs.get(drillKey(state.drill))) || state.run, runs };
}

// What one of some plays loses on average.
const meanLoss = (plays) =>
    Math.round(plays.reduce((sum, { loss }) => sum + Number(loss), 0) / plays.length);

// What a change has answered: a drill's question in its first round, an estimate, or null.
export function answeredBetween(before, after) {
    const { drill } = after;
    if (drill !== before.drill) return null;
    if (drill?.ask === "play" && drillGuesses(after).length > drillGuesses(before).length) {
        const { at, roll, play } = after.run.guesses.at(-1);
        const { card } = after.run.questions.find((question) =>
            keyOf(question.points) === at && sameRoll(question.roll, roll));
        return {
            points: before.points, roll, theme: drill.theme, lost: Number(play.loss),
            random: meanLoss(chosenOf(before).plays), level: drill.level ?? "any",
            isMissed: isMiss(play), run: runOf(after, picked(after.run.guesses)),
            ...(card ? { card } : {}),
        };
    }
    if (after.run.estimates.length <= before.run.estimates.length) return null;
    const estimate = after.run.estimates.at(-1);
    return {
        points: before.points, roll: null, theme: estimate.kind, lost: Number(estimate.error),
        isMissed: isFar(estimate), run: runOf(after, told(after.run.estimates)),
    };
}
