// A lesson that is made on the page: positions, each with its text, its question and its answer.
import { miniature } from "../board/drawing.js";
import { toldAt } from "../fields.js";
import { button, h } from "../tree.js";

// What a step has besides its position: the word, what stands beside its field, and a hint in it.
const FIELDS = [["roll", "Roll", "52, or none"], ["text", "Text", ""], ["ask", "Question", ""],
    ["answer", "Answer", ""]];

export function editor(state, act) {
    const { draft } = state;
    if (!draft) return [];
    const count = draft.steps.length;
    return [
        h("label", {}, "Title ", h("input", {
            type: "text", "data-key": "draft title", value: draft.title, maxlength: 200,
            change: ({ target }) => act.titleDraft(target.value),
        })),
        h("ol", { class: "drafted" }, draft.steps.map((step, place) =>
            h("li", { "data-key": `draft ${step.key}` },
                h("div", { class: "steering" },
                    h("span", {}, step.points.join()), miniature(step.points),
                    h("span", { class: "steering" },
                        button(`draft show ${step.key}`, "Show", () => act.show(step.points),
                            { "aria-label": `Show step ${place + 1} on the board` }),
                        place > 0 && button(`draft up ${step.key}`, "Up",
                            () => act.moveDraft(place, place - 1),
                            { "aria-label": `Move step ${place + 1} up` }),
                        button(`draft remove ${step.key}`, "Remove", () => act.removeDraft(place),
                            { "aria-label": `Remove step ${place + 1}` }))),
                FIELDS.map(([word, name, hint]) => h("label", {}, `${name} `,
                    h(word === "text" ? "textarea" : "input", {
                        ...(word === "text" ? { rows: 2 } : { type: "text" }),
                        "data-key": `draft ${word} ${step.key}`, value: step[word],
                        placeholder: hint, maxlength: 1200,
                        "aria-label": `${name} of step ${place + 1}`,
                        change: ({ target }) => act.writeDraft(place, word, target.value),
                    })))))),
        h("p", { class: "hint" }, "In a text {pips}, {mean}, {EPC} and {wastage} stand for the "
            + "numbers of the step\u2019s position, and {best} for the best play of its roll."),
        h("p", { class: "steering" },
            button("draft add", "Add the board\u2019s position", () => act.addDraft()),
            count > 0 && button("draft try", "Try it", () => act.tryDraft(), { class: "first" }),
            count > 0 && button("draft copy", "Copy its link", () => act.copyDraft()),
            count > 0 && button("draft save", "Save as a file", () => act.saveDraft()),
            button("draft close", "Close", () => act.closeDraft())),
        h("p", { role: "status", class: "hint" }, toldAt(state, "draft")),
    ];
}
