// The end of a drill: its score, a row for each answer, the dearest miss opened, and its lesson.
import { compared, dicePicture, lookedAt } from "../board/drawing.js";
import { field, toldAt } from "../fields.js";
import { comesBack } from "../home/view.js";
import { fittingLesson } from "../lesson/rooms.js";
import { meanOf } from "../lesson/text.js";
import { link } from "../link.js";
import { isFar } from "../question/questions.js";
import { answeredOf, drillErrors, missedOf, reasonsFor, signed } from "../question/state.js";
import { reasons } from "../question/view.js";
import { isMiss } from "../rules.js";
import { mistakesOf, openedOf, reviewed, scoreOf } from "./state.js";
import { decimal, decimalOf, isShort } from "../texts.js";
import { button, h } from "../tree.js";

// The result of a drill that asks everybody the same, to send back as a text.
export const result = (state, act) => !state.drill.due && [
    h("p", { class: "choices" },
        h("label", {}, "Your name ", h("input", {
            ...field(state, act, "result name"), type: "text", autocomplete: "off", maxlength: 60,
        })),
        button("copy result", "Copy the result", () => act.copyResult())),
    h("p", { role: "status", class: "hint" }, toldAt(state, "result")),
];

// A drill's score, once all was asked.
export function score(state) {
    const count = answeredOf(state);
    const missed = missedOf(state).length;
    const strong = h("p", { class: "result" },
        h("b", {}, `${count - missed} of ${state.run.questions.length} right`));
    const askedAgain = (what, right, how) => missed > 0 && h("p", { class: "says" },
        `${missed === 1 ? "One was" : `${missed} were`} ${what}; asked once more, `
            + `${right} ${right === 1 ? "was" : "were"} ${how}.`);
    if (state.drill.ask !== "play") {
        const errors = drillErrors(state);
        const mean = errors.length > 0 ? ` The mean error is ${decimal(meanOf(errors))} pips.` : "";
        const near = state.run.estimatesAgain.filter((estimate) => !isFar(estimate)).length;
        return [
            strong, h("p", { class: "says score" },
                `You estimated ${count} of ${state.run.questions.length}.${mean}`),
            state.drill.ask === "pips"
                ? askedAgain("wrong", near, "right")
                : askedAgain("a pip or more off", near, "nearer"),
            state.drill.due && h("p", { class: "says" }, comesBack(state.student)),
        ];
    }
    const [rolls, pips] = scoreOf(state);
    const mistakes = mistakesOf(state);
    return [
        strong, h("p", { class: "says score" }, `You played ${count} of ${state.run.questions.length}${count === 0 ? "."
            : `, and lost ${decimalOf(rolls)} rolls, or ${decimalOf(pips)} pips of EPC.`}`
            + (count > 0 && isShort(rolls) ? ` Exactly: ${rolls} of a roll.` : "")),
        askedAgain("missed", state.run.again.filter(({ play }) => !isMiss(play)).length, "right"),
        state.drill.due && h("p", { class: "says" }, comesBack(state.student)),
        mistakes && h("p", {},
            h("a", { href: link({ text: mistakes }), "data-key": "mistakes" }, "Your mistakes as a lesson")),
    ];
}

// What was answered, what is right, and how far that is apart.
const cellsOf = ({ guess, estimate }) => (guess
    ? [guess.play.text, guess.best.text,
        guess.play.isBest ? "nothing" : `\u2212${decimalOf(guess.play.exact)}`]
    : [signed(estimate.told), signed(estimate.exact), decimal(estimate.error)]);

const HEADS = {
    play: ["Yours", "Best", "Lost, in rolls"], number: ["Yours", "Right", "Off, in pips"],
};

// What stands below a row that is open: both plays and why the one loses.
const openedRow = ({ question: { points, roll }, guess }, state) => [
    compared(points, guess.play, guess.best, roll),
    h("div", { class: "why" }, reasons(reasonsFor(state))),
];

// The lesson that fits the dearest miss, where the page has it.
function lessonFor({ lessons }, { guess }) {
    const number = fittingLesson(guess);
    return lessons[number - 1] && h("p", { class: "fits" }, "A lesson on this: ",
        h("a", { href: link({ lesson: number }), "data-key": "fitting lesson" },
            lessons[number - 1].title));
}

export function review(state, act) {
    const rows = reviewed(state);
    const opened = openedOf(state);
    const heads = HEADS[state.drill.ask === "play" ? "play" : "number"];
    return [
        opened && lessonFor(state, opened),
        h("ol", { class: "reviewed" }, rows.map((row) => {
            const { place, question: { points, roll }, guess, isRight } = row;
            const isOpen = row.place === opened?.place;
            const cells = cellsOf(row);
            return h("li", { class: isRight ? "good" : "lost", "data-key": `reviewed ${place}` },
                h("div", { class: "row" },
                    h("span", { class: "which" }, place + 1), lookedAt(points, []),
                    h("span", {}, roll && dicePicture(roll)),
                    h("dl", {}, heads.map((head, at) => [h("dt", {}, head), h("dd", {}, cells[at])])),
                    guess && !isRight && button(`open ${place}`, "Why",
                        () => act.open(isOpen ? null : place),
                        { "aria-expanded": String(isOpen),
                            "aria-label": `Why, question ${place + 1}` })),
                isOpen && openedRow(row, state));
        })),
    ];
}
