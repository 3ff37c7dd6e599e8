// What is shown of a question, an estimate, and why a play loses.
import { dicePicture, replied } from "../board/drawing.js";
import { faultAt, field } from "../fields.js";
import { counted } from "../home/view.js";
import { wordsIn } from "../lesson/rooms.js";
import { meanOf } from "../lesson/text.js";
import { modeOf } from "../mode.js";
import { ASKED, askedFor, drillName, isFar, mostOf, TEN, WANTED } from "./questions.js";
import { rightInEach } from "../review/state.js";
import { result, score } from "../review/view.js";
import {
    answeredOf, askedIn, drillErrors, drillGuesses, estimateOf, meanError, questionOf, reachedIn, toldOf,
} from "./state.js";
import { COMING, decimal, decimalOf, sumOfFractions } from "../texts.js";
import { LEVELS, themeOf } from "./themes.js";
import { answeredHere, explained, head, lookAround } from "../training.js";
import { button, fault, h, table } from "../tree.js";

// How far a drill is: a mark for each question, which says whether it was right.
function barOf(state) {
    const right = rightInEach(state);
    const count = (is) => right.filter((one) => one === is).length;
    return h("p", {
        class: "bar-of", role: "img",
        "aria-label": `Of ${right.length}: ${count(true)} right, ${count(false)} missed`,
    }, right.map((one, place) => h("span", {
        class: [one !== null && (one ? "was-right" : "was-missed"), place === state.place && "now"]
            .filter(Boolean).join(" ") || null,
    })));
}

// What the first question of a drill uses, and so is explained there.
const usedIn = ({ ask }) => (ask === "play"
    ? ["bear off", "roll", "EPC", "pips", "5/off"] : [WANTED[ask], ...(ask === "pips" ? [] : ["EPC", "roll"]), "pips"]);

// What a drill has brought so far.
function soFar(state) {
    const count = answeredOf(state);
    if (count === 0) return "";
    if (state.drill.ask !== "play") {
        return ` ${count} estimated, mean error ${decimal(meanOf(drillErrors(state)))} pips.`;
    }
    const lost = sumOfFractions(drillGuesses(state).map(({ play }) => play.exact));
    return ` ${count} played, ${decimalOf(lost)} rolls lost.`;
}

// The title of a drill.
export function drillTitle(drill) {
    const { ask, level, due } = drill;
    if (due && ask === "play") return drillName(drill);
    const words = LEVELS.find(({ name }) => name === level)?.words.toLowerCase();
    return [`${due ? "" : "Drill: "}${drillName(drill)}`, ASKED[ask], ...(words ? [words] : [])]
        .join(", ");
}

// What a drill is drawn by, and where it has fewer questions than it asks for.
export function drawnBy(drill, questions) {
    const { seed, theme, due, list } = drill;
    const how = list ? `${list.length} position${list.length === 1 ? "" : "s"}.`
        : !due ? `Seed ${seed}.`
        : due.length === 0 ? `Ten that are new: ${themeOf(theme).words}.`
        : `${counted(drill)}${due.length < TEN ? `: ${themeOf(theme).words}` : ""}.`;
    const [found, wanted] = [questions?.length, askedFor(drill)];
    return !questions || found === wanted ? how
        : `${how} ${found} of ${wanted} questions were found.`;
}

export function drillPanel(state, verdict, act) {
    const { drill, run: { questions }, place } = state;
    const question = questionOf(state);
    return h("div", { class: "coach" },
        head(act, drillTitle(drill)),
        questions && barOf(state),
        answeredHere(state, verdict),
        !questions ? h("p", {},
            state.database?.bound < mostOf(drill)
                ? `A drill of this theme needs ${mostOf(drill)} pips, and the open database has `
                    + `${state.database.bound}.` : COMING)
            : questions.length === 0 ? h("p", {}, "No question of this theme was found.")
            : question ? h("p", { class: "asks" }, askedIn(state),
                question.roll && [" ", dicePicture(question.roll)])
            : [score(state), result(state, act)],
        fault("unkept-why", answeredOf(state) > 0 && state.student.unkept),
        question && place === 0 && explained(wordsIn(usedIn(drill))),
        h("p", { class: "how" }, `${drawnBy(drill, questions)}${question ? soFar(state) : ""}`,
            lookAround(state)),
        question && !modeOf(state).trains && h("p", { class: "steering" },
            button("back to it", "Back to the question", () => act.question(place))));
}

export const NAMES = WANTED;

// The field for an estimate, where the numbers are hidden till then.
export const estimateField = (state, act) => [
    h("div", { class: "estimate" },
        h("label", {}, h("span", { class: "long" }, "Your estimate of the "),
            h("span", { class: "short" }, NAMES[modeOf(state).estimated]), " ", h("input", {
            ...field(state, act, "estimate", () => act.guessNumber()), type: "text", inputmode: "decimal",
            autocomplete: "off",
            "aria-invalid": String(Boolean(faultAt(state, "estimate"))),
            "aria-describedby": "estimate-why",
        })), " pips ",
        button("tell", "Compare", () => act.guessNumber())),
    fault("estimate-why", faultAt(state, "estimate")),
];

// How far an estimate was off, the mean of all, and how to reach it.
export function estimateTold(state) {
    const { estimated, screen } = modeOf(state);
    const estimate = estimated && estimateOf(state);
    if (!estimate || screen === "step") return null;
    return [
        h("p", { class: isFar(estimate) ? "verdict" : "verdict good" },
            `${toldOf(estimate)} The mean error so far is ${decimal(meanError(state))} pips.`),
        h("p", { class: "because" }, reachedIn(estimate)),
    ];
}

// Why a play loses, or is best, in a sentence; behind it counts and the dearest roll.
export const reasons = (why) => why !== null && [
    h("p", { class: "because" }, why.says),
    why.against && h("p", { class: "hint" }, why.against),
    (why.rows.length > 0 || why.throws) && h("details", { class: "exact", "data-key": "counts" },
        h("summary", {}, "Compare both plays"),
        why.rows.length > 0 && table({ class: "signs" },
            h("caption", { class: "heard" }, "What yours and the best leave"), ["", "Yours", "Best"],
            why.rows.map(({ name, made, best, decides, isForMade }) => h("tr", { class: decides ? "decides" : null },
                h("th", { scope: "row" }, name, isForMade && h("small", {}, " speaks for yours")),
                h("td", {}, made), h("td", {}, best)))),
        why.throws && [
            h("p", {}, `Of the 36 next throws ${why.throws.worse} are worse for yours, ${
                why.throws.better || "none"} better.`,
                why.throws.roll && ` The costliest is ${why.throws.roll.join("-")}:`),
            why.throws.roll && replied(why.throws.replies),
        ]),
];
