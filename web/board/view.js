// What is shown of a position beside the board: numbers, chances, rolls and plays.
import { dicePicture, lookedAt, miniature } from "./drawing.js";
import { GREATEST, ROLLS, sameRoll } from "../points.js";
import { ESTIMATED } from "../question/questions.js";
import { NAMES } from "../question/view.js";
import { byLoss } from "./state.js";
import { COMING, decimalOf, inSentence, isShort } from "../texts.js";
import { button, h, table } from "../tree.js";

export const figure = (name, value, unit, explained = null) =>
    h("div", { class: "figure", title: explained }, h("dt", {}, name),
        h("dd", {}, value, " ", h("small", {}, unit)));

// The four figures of a position, as texts.
const figures = (pips, mean, effective, wastage) => h("dl", { class: "figures" },
    figure("Pips", pips, "", "What is left to move"),
    figure("Mean", mean, "rolls", "The least mean number of rolls until all are off"),
    figure("EPC", effective, "pips", "Effective pip count: 49/6 pips for each roll of the mean"),
    figure("Wastage", wastage, "pips", "The effective pip count less the pip count"));

// The mean and the effective pip count as fractions.
const fractions = (mean, effective) =>
    h("details", { class: "exact" }, h("summary", {}, "As fractions"),
    h("dl", {}, h("dt", {}, "Mean"), h("dd", {}, mean),
        h("dt", {}, "Effective pip count"), h("dd", {}, effective)));

// The four figures; `isComing` keeps their room, `awaited` is the pip count meanwhile.
export function numbers(answer, isComing = true, awaited = false) {
    if (!answer) {
        const text = isComing ? COMING : "\u2013";
        return [
            figures(awaited || text, text, text, text),
            isComing ? fractions(text, text) : h("p", { class: "hint" }, "No database is open."),
            awaited && h("p", { class: "hint" },
                `The database of ${GREATEST} pips is being built for it.`),
        ];
    }
    if (answer.refusal) {
        const { status, standing, bound } = answer;
        return h("div", { class: "refusal" },
            h("p", {}, standing ? `${standing.pips} pips. ${answer.refusal}` : answer.refusal),
            status === 4 && h("p", {}, `It goes to ${bound} pips.`));
    }
    const { standing, mean, effective, wastage } = answer;
    return [
        figures(standing.pips, mean.text, effective.text, wastage.text),
        fractions(mean.exact, effective.exact),
    ];
}

// The counts of both sides of a race, each where it is known; nothing is said of who wins.
export function sides(mine, theirs, awaited) {
    const row = (name, answer, pips) => h("tr", {}, h("th", { scope: "row" }, name),
        answer?.refusal ? h("td", { colspan: 3 }, answer.refusal)
            : [answer ? answer.standing.pips : pips, answer?.effective.text, answer?.wastage.text]
                .map((text) => h("td", {}, text ?? COMING)));
    return [
        table({ class: "sides" }, h("caption", {}, "Both sides"), ["", "Pips", "EPC", "Wastage"],
            [row("On roll", mine), row("Other side", theirs, awaited)]),
        h("p", { class: "hint" }, "Nothing is said of who wins."),
    ];
}

// How long a bar is, of a hundred: the longest chance has them all.
const length = (exactly, longest) => (100 * Number(exactly)) / Number(longest);

const bar = (width) =>
    h("svg", { viewBox: "0 0 100 10", preserveAspectRatio: "none", "aria-hidden": "true" },
    h("rect", { width, height: 10 }));

// Chances by number of rolls, as bars; those that round to nothing are named below.
export function chances(list) {
    const rows = list.filter(({ exactly }) => exactly > 0n);
    const rare = list.filter(({ exactly }) => exactly === 0n).map(({ rolls: count }) => count);
    const longest = rows.reduce((most, { exactly }) => (exactly > most ? exactly : most), 1n);
    return h("table", { class: "chances" },
        h("caption", {}, "Rolls until all are off"),
        h("thead", {},
            h("tr", {}, h("th", { scope: "col" }, "Rolls"), h("th", { scope: "col" }, "exactly"),
            h("td", { class: "bar" }), h("th", { scope: "col" }, "within"))),
        h("tbody", {}, rows.map((row) => h("tr", {},
            h("th", { scope: "row" }, row.rolls),
            h("td", { class: "share" }, row.exactlyText),
            h("td", { class: "bar" }, bar(length(row.exactly, longest))),
            h("td", { class: "share" }, row.withinText)))),
        rare.length > 0 && h("tfoot", {}, h("tr", {}, h("td", { colspan: 4 },
            `Possible too, each with less than 0.05 %: ${rare.join(", ")}.`))));
}

// Where a key leads among the elements of a group that stand in rows of so many columns, or null.
export function moved(key, place, count, columns) {
    const next = {
        ArrowRight: place + 1, ArrowLeft: place - 1, ArrowDown: place + columns,
        ArrowUp: place - columns,
        Home: 0, End: count - 1,
    }[key];
    return next === undefined || next < 0 || next >= count ? null : next;
}

// A group of buttons that is one stop of Tab, and within which arrows lead on.
function group(name, label, words, stop, act, buttons) {
    const keys = buttons.map(({ attributes }) => attributes["data-key"]);
    const at = keys.includes(stop) ? stop : keys[0];
    return h("div", {
        ...words, role: "toolbar", "aria-label": label,
        focusin: ({ target }) => act.stop(name, target.getAttribute("data-key")),
        keydown: (event) => {
            const all = [...event.currentTarget.querySelectorAll("button")];
            const columns = all.filter(({ offsetTop }) => offsetTop === all[0].offsetTop).length;
            const next = moved(event.key, all.indexOf(event.target), all.length, columns);
            if (next === null) return;
            event.preventDefault();
            all[next].focus();
        },
    }, buttons.map((button) => ({
        ...button, attributes: { ...button.attributes,
            tabindex: button.attributes["data-key"] === at ? 0 : -1 },
    })));
}

// The 21 rolls, each with its best play and the loss of the next, where they may be shown.
export function rolls(list, chosen, isHidden, stop, act) {
    return group("rolls", "The 21 rolls", { class: "rolls" }, stop, act, ROLLS.map((dice) => {
        const found = list?.find((roll) => sameRoll(roll.dice, dice));
        const [best, next] = found && !isHidden(dice) ? byLoss(found.plays) : [];
        const isChosen = sameRoll(dice, chosen);
        return h("button", {
            type: "button", "aria-pressed": String(isChosen), "data-key": `roll ${dice.join("")}`,
            class: dice[0] === dice[1] ? "double" : null,
            click: ({ currentTarget }) => act.roll(isChosen ? null : dice, currentTarget),
        },
            dicePicture(dice), " ",
            h("span", { class: "best" }, best ? best.text : COMING), " ",
            best && h("span", { class: "next" },
                next ? `then \u2212${next.lossText}` : "only play"));
    }));
}

const cost = (play) =>
    (play.isRecorded ? "best" : play.isBest ? "as good" : `\u2212${play.lossText}`);

// What the plays of a roll are before they are known, and where no roll was chosen.
const NO_ROLL = h("p", { class: "hint" }, "Choose a roll to see its plays here and on the board.");

// The plays of the roll, with their losses; by their texts while one guesses.
export function plays({ points, dice, list, shown, lost, isHidden, isTrained, stop }, act) {
    if (!dice) return NO_ROLL;
    const byText = (one, other) => one.text.localeCompare(other.text);
    const ordered = list && (isHidden ? [...list].sort(byText) : byLoss(list));
    const told = !ordered ? COMING : isHidden ? "Which play is best?"
        : ordered.length === 1 ? "One play" : `${ordered.length} plays, losses in rolls`;
    return [
        !isTrained && h("div", { class: "top-line" },
            h("h3", {}, dicePicture(dice), " ", told),
            button("close", "Close", () => act.close(), { class: "close" })),
        !isTrained && !isHidden && lookedAt(points, shown ? shown.moves : []),
        ordered && group("plays", "Plays", { class: "plays" }, stop, act, ordered.map((play) =>
            button(`play ${play.text}`, [
                h("span", { class: "moves" }, play.text), " ",
                !isHidden && h("span", { class: "cost", title: `${play.exact} of a roll` },
                    cost(play)),
            ], () => act.play(play.text), {
                "aria-pressed": String(play.text === shown?.text),
                class: play.isBest && !isHidden ? "good" : null,
            }))),
        shown && h("div", { class: "shown" },
            h("p", { class: "loss" }, shown.isBest ? `${shown.text} loses nothing.`
                : `${shown.text} loses ${inSentence(shown.exact)} of a roll, ${decimalOf(lost)} pips of EPC.`),
            !isTrained && button("onward", `Play ${shown.text}`, () => act.onward(),
                { class: "onward" })),
    ];
}

// What a guess lost, and all guesses so far.
export function verdict({ isMiss, first, all, exact }, act) {
    return h("div", { class: isMiss ? "verdict" : "verdict good" },
        h("p", {}, first, " ", all, exact === "0/1" || !isShort(exact) ? null : ` Exactly: ${exact}.`),
        button("reset", "Start over", () => act.reset()));
}

const TOLD = [["mean", "Mean"], ["effective", "EPC"], ["wastage", "Wastage"]];

const named = (points) => points.join(" ");

// The kept positions, each with its numbers where they are known and not hidden.
export function kept(entries, answerTo, isHidden, act) {
    const heads = ["Position", "Caption", "Pips", "Mean", "EPC", "Wastage", ""];
    const title = h("caption", { class: "heard" }, "Positions side by side");
    return table({ class: "kept" }, title, heads, entries.map(({ points, caption }) => {
        const key = points.join();
        const answer = isHidden ? undefined : answerTo(points);
        return h("tr", { "data-key": key },
            h("td", {}, button(`show ${key}`, miniature(points), () => act.show(points),
                { class: "show", "aria-label": `Show ${named(points)} on the board` })),
            h("td", { class: "caption" }, h("span", { class: "printed" }, caption), h("input", {
                type: "text", value: caption, maxlength: 200, placeholder: "a caption",
                "data-key": `caption ${key}`, "aria-label": `A caption of ${named(points)}`,
                change: ({ target }) => act.caption(key, target.value),
            })),
            h("td", { "data-head": "Pips" }, answer?.standing ? answer.standing.pips : COMING),
            answer?.refusal ? h("td", { colspan: 3 }, answer.refusal)
                : TOLD.map(([name, head]) =>
                    h("td", { "data-head": head }, answer ? answer[name].text : COMING)),
            h("td", {}, button(`remove ${key}`, h("span", { "aria-hidden": "true" }, "\u00d7"),
                () => act.remove(key),
                { class: "remove", "aria-label": `Remove ${named(points)}` })));
    }));
}

// What there is to do with the free board besides: estimates, and a lesson of one's own.
export const more = (state, act) => [
    h("p", { class: "choices" },
        h("label", {}, "Hide the numbers until you have estimated ", h("select", {
            "data-key": "estimated", value: state.estimate || "",
            change: ({ target }) => act.estimate(target.value),
        }, ["", ...ESTIMATED].map((kind) =>
            h("option", { value: kind, selected: kind === (state.estimate || "") },
                kind ? `the ${NAMES[kind]}` : "nothing"))))),
    h("p", {}, button("draft begin", "Make your own lesson", () => act.beginDraft())),
];
