// What is shown of a step of a lesson, and of rules of thumb.
import { dicePicture } from "../board/drawing.js";
import { faultAt } from "../fields.js";
import { link } from "../link.js";
import { modeOf } from "../mode.js";
import { wordsIn } from "./rooms.js";
import { OWN, WEIGHTS } from "../rules.js";
import { lessonOf, measuredOf, stepOf, toldStep } from "./state.js";
import { COMING } from "../texts.js";
import { answeredHere, explained, head, lookAround } from "../training.js";
import { button, fault, h, table } from "../tree.js";

const textsOf = ({ text, ask, answer }) => [text, ask, answer];

export function lessonPanel(state, verdict, act) {
    const lesson = lessonOf(state);
    const { text, ask, answer, roll } = toldStep(state);
    const before = lesson.steps.slice(0, state.step - 1).flatMap(textsOf);
    return h("div", { class: "coach" },
        head(act, lesson.title),
        h("p", { class: "how" }, `Step ${state.step} of ${lesson.steps.length}.`,
            lookAround(state)),
        answeredHere(state, verdict),
        explained(wordsIn([lesson.title, text, ask, answer],
            before.concat(before.length > 0 ? lesson.title : []))),
        text && h("p", { class: "says" }, text),
        (ask || roll) && h("p", { class: "asks" }, ask, roll && [" ", dicePicture(roll)]),
        answer && state.isAnswered && h("p", { class: "answers" }, answer),
        !modeOf(state).trains
            && h("p", { class: "steering" },
                button("back to it", "Back to the step", () => act.step(state.step))));
}

// What follows the last step of a lesson: the next one of the page, or its end.
export const afterLesson = ({ lesson, lessons }, isOpen, act) => (lesson && lesson < lessons.length
    ? h("a", { href: link({ lesson: lesson + 1 }), "data-key": "next lesson",
        class: isOpen ? "button" : "button first" }, "Next lesson")
    : button("finish", "End of the lesson", () => act.end(), { class: isOpen ? null : "first" }));

// The errors of each rule of thumb in pips; the step's stands out, one's own has fields.
export function rules(state, act) {
    const { rule } = stepOf(state);
    const told = measuredOf(state);
    const pips = (thousandths) => (Math.round(thousandths / 10) / 100).toFixed(2);
    const heads = ["where it is for", "everywhere", "at most"];
    const row = ({ name, words, where, countFor, meanFor, mean, worst }) =>
        h("tr", { class: name === rule ? "now" : null, "data-rule": name },
            h("th", { scope: "row" }, words,
                h("small", {}, ` ${where}, ${countFor.toLocaleString("en")}`)),
            [meanFor, mean, worst].map((error, place) =>
                h("td", { "data-head": heads[place] }, pips(error))));
    const field = (name, place) => h("label", {}, h("span", {}, name), h("input", {
        type: "text", "data-key": `weight ${place}`, inputmode: "decimal", autocomplete: "off",
        value: String(state.weights[place] / 2), "aria-describedby": "weight-why",
        change: ({ target }) => act.weigh(place, target.value),
    }));
    return [
        table({ class: "worth" }, h("caption", {}, "What each rule is worth"), ["Rule", ...heads],
            (told?.rows || []).filter(({ name }) => name !== OWN || rule === OWN).map(row)),
        h("p", { class: "hint" }, told && told.count > 0
            ? `Errors in pips: the mean over the positions that a rule is for, the mean over all ${
                told.count.toLocaleString("en")} of the open database, and the greatest.` : COMING),
        rule === OWN && [
            h("div", { class: "weights", role: "group", "aria-label": "Your own rule" },
                h("p", {}, "Your own rule: the pips, and so many more"),
                WEIGHTS.map(field)),
            fault("weight-why", faultAt(state, "weight")),
        ],
    ];
}
