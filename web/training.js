// What is shown where one trains: what is asked, the verdict, and the ways on.
import { nextOf } from "./board/drawing.js";
import { hasBegun } from "./board/state.js";
import { toldAt } from "./fields.js";
import { lessonOf, stepOf } from "./lesson/state.js";
import { afterLesson, lessonPanel } from "./lesson/view.js";
import { link } from "./link.js";
import { modeOf } from "./mode.js";
import { isFar } from "./question/questions.js";
import { estimateOf, lengthOf, questionOf, toldOf } from "./question/state.js";
import { drillPanel } from "./question/view.js";
import { decimalOf } from "./texts.js";
import { button, h } from "./tree.js";

// The heading of what is on, with how it ends.
export const head = (act, title) =>
    h("div", { class: "top-line" }, h("h2", {}, title),
        button("end training", "Home", () => act.end()));

// A link to the position on the free board; Back leads to the question.
export const lookAround = (state) => modeOf(state).trains
    && [" ", h("a", { href: link({ at: state.points.join() }), "data-key": "look around" },
        "Open on the free board"), "."];

const SIZE_WORDS = ["Tiny", "Small", "Big"];

// What a play lost, as one strong line with its size among three, and the numbers below it.
const verdictLine = ({ isBest, isMiss: isLost, first, size, pips }) =>
    h("p", { class: isLost ? "verdict" : "verdict good" },
        h("b", {}, isBest ? "Best!" : isLost ? `${SIZE_WORDS[size]} mistake` : "No mistake"), " ",
        isLost && h("span", { class: "scale", "aria-hidden": "true" }, SIZE_WORDS.map((_, place) =>
            h("span", { class: place <= size ? "is" : null }))), " ",
        h("span", { class: "rest" }, first, isLost ? ` In EPC: ${decimalOf(pips)} pips.` : null));

// What was answered where one trains: what a play lost, or how far an estimate of a step was off.
export function answeredHere(state, verdict) {
    const { trains, estimated, screen } = modeOf(state);
    const estimate = screen === "step" && estimated && estimateOf(state);
    return [
        trains && verdict && verdictLine(verdict),
        estimate && h("p", { class: isFar(estimate) ? "verdict" : "verdict good" },
            toldOf(estimate)),
    ];
}

// Words that a beginner doesn't know, each explained at a tap.
export const explained = (words) => words.length > 0 && h("details", {
    class: "words", "data-key": `words ${words.map(([name]) => name)}`,
},
    h("summary", {}, words.length > 1 ? `${words.length} words explained` : `A word: ${words[0][0]}`),
    h("dl", {}, words.map(([name, , meaning]) => [h("dt", {}, name), h("dd", {}, meaning)])));

// The lesson or the drill that is on, with the verdict on what was answered.
export const coach = (state, verdict, act) => (stepOf(state) ? lessonPanel(state, verdict, act)
    : state.drill ? drillPanel(state, verdict, act) : []);

// Where the thumb is, while one trains: the play that is made, and the ways on.
export function steering(state, making, act) {
    const { trains, estimated, screen } = modeOf(state);
    if (!trains) return [];
    const step = stepOf(state);
    const { place, run: { questions } } = state;
    const count = step ? lessonOf(state).steps.length : lengthOf(state);
    const isOpen = Boolean(making || (!step && estimated && !estimateOf(state))
        || (step?.answer && !state.isAnswered));
    const last = step ? state.step === count : place + 1 >= count && !isOpen;
    const begun = hasBegun(state);
    const before = (isThere, what, click) => isThere && button(`previous ${what}`, "Previous", click);
    return [
        making && h("p", { class: "hint" }, toldAt(state, "board") || nextOf(making.play, begun)),
        h("p", { class: "steering" },
            making?.play && button("made", `Play ${making.play.text}`,
                () => act.play(making.play.text), { class: "first" }),
            making && begun && button("undo", "Undo", () => act.undo()),
            step?.answer && !state.isAnswered && button("answer", "Show the answer",
                () => act.answer(), { class: making || step.estimate ? null : "first" }),
            step ? before(state.step > 1, "step", () => act.step(state.step - 1))
                : before(place > 0 && questions, "question", () => act.question(place - 1)),
            !step ? questionOf(state) && button("next question",
                isOpen ? "Skip" : last ? "Score" : "Next",
                () => act.question(place + 1), { class: isOpen ? null : "first" })
                : last ? afterLesson(state, isOpen, act)
                : button("next step", "Next",
                    () => act.step(state.step + 1), { class: isOpen ? null : "first" }),
            screen === "review" && (state.drill.due || state.drill.list
                ? button("finish", "Done", () => act.end(), { class: "first" })
                : questions.length > 0 && button("another drill", "Another drill",
                    () => act.another(), { class: "first" }))),
    ];
}
