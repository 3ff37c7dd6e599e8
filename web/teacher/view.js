// What a teacher has: a drill for a class with its sheet and key, and the results.
import { dicePicture, miniature } from "../board/drawing.js";
import { faultAt, field, toldAt } from "../fields.js";
import { chooser } from "../home/view.js";
import { linkOf } from "../link.js";
import { drillTitle } from "../question/view.js";
import { classOf, readResults } from "./results.js";
import { COMING, decimal } from "../texts.js";
import { button, fault, h, table } from "../tree.js";

// What a class did in a drill, by the texts that its pupils send back.
function ofClass(state, act) {
    const { results: text } = state.fields;
    const { results, fault: why } = text.trim() === "" ? { results: [], fault: "" }
        : readResults(text);
    const known = results.length > 0 && classOf(results);
    const unit = known && known.drill.ask !== "play" ? "pips" : "rolls";
    const heads = ["Pupil", "answered", "missed", `lost, in ${unit}`];
    return h("div", { class: "class" },
        h("p", { class: "hint" }, "The link of a drill asks everybody the same, and its score has "
            + "the result to send back. Paste here what comes back, as the mail has it."),
        h("p", {}, h("textarea", {
            ...field(state, act, "results"), rows: 3, spellcheck: "false",
            "aria-label": "Results, one below the other",
            "aria-invalid": String(Boolean(why)), "aria-describedby": "results-why",
        })),
        h("p", {}, button("show results", "Show", () => act.fill("results", text))),
        fault("results-why", why),
        known && [
            table({ class: "pupils" }, h("caption", {}, drillTitle(known.drill)), heads,
                known.pupils.map(({ name, answered, missed, lost }) => h("tr", {},
                    h("th", { scope: "row" }, name),
                    [answered, missed, decimal(lost)].map((cell) => h("td", {}, cell))))),
            table({ class: "pupils questions" }, h("caption", {}, "Questions"),
                ["Question", "missed", "What was played"],
                known.questions.map(({ place, count, played }) => h("tr", {},
                    h("th", { scope: "row" }, h("a", {
                        href: linkOf(known.drill, place), "data-key": `asked ${place}`,
                    }, `Question ${place + 1}`)),
                    h("td", {}, `${count} of ${results.length}`),
                    h("td", {}, played.map(({ text: what, names, lost }) =>
                        `${what} (${lost === 0 ? "best" : `\u2212${decimal(lost)}`}): `
                            + names.join(", "))
                        .join("; ") || "\u2013")))),
        ]);
}

// What is right in each question of a sheet, once it is known.
const keyShown = ({ sheet }, act) => sheet && [
    h("h3", {}, "Sheet and key"),
    !sheet.key ? h("p", {}, COMING) : [
        h("p", { class: "choices" },
            button("print sheet", "Print both", () => act.print(), { class: "first" }),
            h("span", { class: "hint" }, "The sheet has a line for the name; the key is a page of ",
                "its own.")),
        h("ol", { class: "key" }, sheet.questions.map(({ points, roll }, place) => h("li", {},
            miniature(points), " ", roll && dicePicture(roll), " ", sheet.key[place]))),
    ],
];

// A drill for a class: of positions, or of a theme.
const forClass = (state, act) => [
    h("h2", {}, "A drill for a class"),
    h("p", { class: "how" }, "Positions of your own, one a line: six counts, an XGID or a GNU "
        + "Backgammon ID, and behind it the roll where a play is asked. Without positions the theme "
        + "below is asked."),
    h("p", {}, h("textarea", {
        ...field(state, act, "positions"), rows: 4, spellcheck: "false", placeholder: "2,2,2,2,2,2 31",
        "aria-label": "Positions, one a line", "aria-invalid": String(Boolean(faultAt(state, "sheet"))),
        "aria-describedby": "positions-why",
    })),
    fault("positions-why", faultAt(state, "sheet")),
    chooser(state, act, () => act.sheet()),
    h("p", { class: "choices" },
        button("open class", "Open it", () => act.openClass()),
        button("copy class", "Copy the class link", () => act.copyClass()),
        button("sheet", "Sheet and key", () => act.sheet())),
    h("p", { role: "status", class: "hint" }, toldAt(state, "sheet")),
    keyShown(state, act),
];

export const teaching = (state, act) => [
    forClass(state, act),
    h("h2", {}, "Results of a class"),
    ofClass(state, act),
];
