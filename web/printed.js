// A lesson, a drill or a sheet as it is printed.
import { dicePicture, lookedAt } from "./board/drawing.js";
import { lessonOf, toldStep } from "./lesson/state.js";
import { modeOf } from "./mode.js";
import { askedOf, questionOf } from "./question/state.js";
import { drawnBy, drillTitle } from "./question/view.js";
import { toldInEach } from "./review/state.js";
import { score } from "./review/view.js";
import { h } from "./tree.js";

// A sheet of a drill: a line for the name, and each question with its board and a line to write on.
const sheet = (drill, questions) => [
    h("h2", {}, drillTitle(drill)),
    h("p", { class: "name-line" }, "Name"),
    h("p", {}, `${drawnBy(drill, questions)} `,
        drill.ask === "play" ? "Which play is best?" : askedOf(drill, null)),
    h("ol", { class: "steps-printed drill-printed" },
        (questions || []).map(({ points, roll }) => h("li", {},
            lookedAt(points, []),
            h("p", { class: "line" }, roll && dicePicture(roll))))),
];

const answers = (name, told, ...more) => h("div", { class: "answers-printed" },
    h("h3", {}, name), h("ol", {}, told.map((text) => h("li", {}, text || "\u2013"))), more);

// A drill as it is printed: its sheet, and then what was answered, with the score once it is over.
function printedDrill(state) {
    const { drill, run: { questions } } = state;
    const told = toldInEach(state);
    return [
        sheet(drill, questions),
        told.some(Boolean) && answers("Answers", told,
            questions.length > 0 && !questionOf(state) && score(state)),
    ];
}

// The whole lesson or drill as it is printed: each step with its board, and the answers at the end.
export function printed(state) {
    const lesson = lessonOf(state);
    if (modeOf(state).screen === "teacher") {
        const { drill, questions, key } = state.sheet || {};
        return key ? [sheet(drill, questions), answers("Key", key)] : [];
    }
    if (!lesson) return state.drill ? printedDrill(state) : [];
    const steps = lesson.steps.map((_, place) => toldStep(state, place));
    return [
        h("h2", {}, lesson.title),
        h("ol", { class: "steps-printed" }, steps.map(({ points, roll, text, ask }) =>
            h("li", {},
                lookedAt(points, []),
                h("p", {}, text, " ", (ask || roll) && h("b", {}, ask),
                    roll && [" ", dicePicture(roll)])))),
        steps.some(({ answer }) => answer) && [
            h("h3", {}, "Answers"),
            h("ol", {}, steps.map(({ answer }) => h("li", {}, answer || "\u2013"))),
        ],
    ];
}
