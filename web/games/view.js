// One's own games: a match is given, and each of its bearoff plays stands beside the best.
import { dicePicture, lookedAt } from "../board/drawing.js";
import { faultAt, field, toldAt } from "../fields.js";
import { gradedOf, missesOf, playersOf } from "./state.js";
import { COMING, decimalOf, inPips } from "../texts.js";
import { button, fault, h, table } from "../tree.js";

const HEADS = ["plays", "with a choice", "losing", "rolls lost", "pips lost"];

function totals(state, act) {
    const rows = playersOf(state);
    const isOver = rows.some(({ over }) => over > 0);
    const heads = [...HEADS, ...(isOver ? ["too long to grade"] : [])];
    return table({ class: "worth" }, h("caption", {}, "Both players"), ["Player", ...heads, ""],
        rows.map(({ name, plays, choices, losing, lost, over }, player) => h("tr", {},
            h("th", { scope: "row" }, name),
            [plays, choices, losing, decimalOf(lost), decimalOf(inPips(lost)),
                ...(isOver ? [over] : [])].map((cell, at) => h("td", { "data-head": heads[at] }, cell)),
            h("td", {}, missesOf(state, player).length > 0
                && button(`ask ${player}`, "Ask me these", () => act.askMisses(player),
                    { "aria-label": `Ask me these misses of ${name}` })))));
}

const row = ({ game, move, player, points, dice, play, best, choices }, names) =>
    h("li", { class: play.isBest ? "good" : "lost" }, h("div", { class: "row" },
        h("span", { class: "which" }, `Game ${game}, move ${move}`), lookedAt(points, []),
        h("span", {}, dicePicture(dice)),
        h("dl", {}, h("dt", {}, names[player]), h("dd", {}, play.text),
            h("dt", {}, "Best"), h("dd", {}, best.text),
            h("dt", {}, "Lost"), h("dd", {}, choices === 1 ? "the only play"
                : play.isBest ? "nothing"
                : `${decimalOf(play.exact)} rolls, ${decimalOf(inPips(play.exact))} pips`))));

export function games(state, act) {
    const { match } = state;
    const why = faultAt(state, "match");
    const isKnown = match?.rows && !why;
    return [
        h("h2", {}, "Your games"),
        h("p", { class: "how" }, "Drop a match here as a .mat or .sgf file, as GNU Backgammon and XG "
            + "save them, or paste its text. Each play of the bearoff is compared with the best; what "
            + "was missed can come back as questions. Nothing of it is sent."),
        h("p", { class: "choices" },
            h("label", { class: "button" }, "Choose a file", h("input", {
                type: "file", class: "heard", "data-key": "match file", accept: ".mat,.sgf,.txt",
                change: ({ target }) => act.take(target.files[0]),
            }))),
        h("p", {}, h("textarea", {
            ...field(state, act, "match text"), rows: 4, spellcheck: "false",
            "aria-label": "The text of a match", "aria-invalid": String(Boolean(why)), "aria-describedby": "match-why",
        })),
        h("p", {}, button("read match", "Show", () => act.match(),
            { class: match ? null : "first" })),
        fault("match-why", why && `No match: ${why}`),
        h("p", { role: "status", class: "hint" }, match && !match.rows ? COMING : toldAt(state, "match")),
        isKnown && (gradedOf(state).length === 0
            ? h("p", {}, "No bearoff was played out in it.") : [
                totals(state, act),
                h("p", { class: "hint" }, "Losses are of one side\u2019s rolls and no equity: the ",
                    "other player, the cube and the score are left aside, and in a decided game a ",
                    "loss may cost nothing."),
                h("ol", { class: "reviewed" }, gradedOf(state).map((one) => row(one, match.names))),
            ]),
    ];
}
