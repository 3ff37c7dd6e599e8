// The end of a drill: what was answered, which miss is open, and what is done then.
import { copied, note } from "../fields.js";
import { chooseDrill } from "../home/state.js";
import { writeLesson } from "../lesson/text.js";
import { keyOf, sameRoll } from "../points.js";
import { isFar } from "../question/questions.js";
import { drillGuesses, lostBy, signed, toldOf, withRun } from "../question/state.js";
import { isMiss } from "../rules.js";
import { writeResult } from "../teacher/results.js";
import { inPips, inSentence, sumOfFractions } from "../texts.js";

// The answers of a drill's first round, each with its question's place and whether it was right.
export const reviewed = ({ run, drill }) => (run.questions || []).flatMap((question, place) => {
    const isIts = ({ at }) => at === keyOf(question.points);
    const guess = drill?.ask === "play" && run.guesses.find((one) =>
        isIts(one) && sameRoll(one.roll, question.roll));
    const estimate = run.estimates.find((one) => isIts(one) && one.kind === drill?.ask);
    return guess ? [{ place, question, guess, isRight: !isMiss(guess.play) }]
        : estimate ? [{ place, question, estimate, isRight: !isFar(estimate) }] : [];
});

// The miss that is open in the review: the one that was chosen, or the dearest; or null.
export function openedOf(state) {
    const misses = reviewed(state).filter(({ guess, isRight }) => guess && !isRight);
    const dearest = misses.reduce((most, one) =>
        (most && most.guess.play.loss >= one.guess.play.loss ? most : one), null);
    const { opened } = state.run;
    return opened === undefined ? dearest : misses.find(({ place }) => place === opened) || null;
}

// What is open in the review: the miss of a place, or null.
const openMiss = (state, opened) => withRun(state, { opened });

// What a drill's plays have lost, exactly, in rolls and in pips of EPC.
export function scoreOf(state) {
    const rolls = sumOfFractions(drillGuesses(state).map(({ play }) => play.exact));
    return state.drill?.ask === "play" ? [rolls, inPips(rolls)] : [];
}

// The mistakes of a drill as the text of a lesson, or "" where there are none.
export function mistakesOf(state) {
    const steps = drillGuesses(state).filter(({ play }) => isMiss(play))
        .map(({ at, roll, play, best }) => ({
        points: at.split(",").map(Number), roll, text: "", ask: "Which play is best?",
        answer: `${best.text}; ${play.text} loses ${inSentence(play.exact)} of a roll.`,
    }));
    return steps.length > 0 ? writeLesson({ title: "Mistakes of a drill", steps }) : "";
}

// What each answer came to in words, or null where there was none.
export const toldInEach = (state) => ofEach(state, ({ guess, estimate }) =>
    (guess ? lostBy(guess) : `${toldOf(estimate)} It is ${signed(estimate.exact)}.`));

// What each lost in thousandths, its text, and whether it was right; null where there was none.
const lostInEach = (state) => ofEach(state, ({ guess, estimate }) =>
    Number(guess ? guess.play.loss : estimate.error));

// What each answer was, as a text, or null.
const playedInEach = (state) => ofEach(state, ({ guess, estimate }) =>
    (guess ? guess.play.text : signed(estimate.told)));
export const rightInEach = (state) => ofEach(state, ({ isRight }) => isRight);

function ofEach(state, how) {
    const rows = new Map(reviewed(state).map((row) => [row.place, how(row)]));
    return (state.run.questions || []).map((_, place) => rows.get(place) ?? null);
}

// What is done at the end of a drill.
export function reviewActions({ session, change, window, focusOn, anySeed }) {
    return {
        open: (place) => change(openMiss, place),
        // another drill like the one that is over
        another() {
            const { theme, ask, level = "any" } = session.state.drill;
            change(chooseDrill, { theme, asked: ask, level, seed: "" }, anySeed());
        },
        async copyResult() {
            const { drill, fields: { "result name": name } } = session.state;
            if (name.trim() === "") {
                change(note, "result", "A result has a name.");
                focusOn(["result name"], "coach");
                return;
            }
            const [lost, played] = [lostInEach, playedInEach].map((each) => each(session.state));
            const text = writeResult(drill, name, lost, played);
            change(note, "result", await copied(window, text, "The result is copied: send it back.",
                `The browser lets this page copy nothing. The result: ${text}`));
        },
    };
}
