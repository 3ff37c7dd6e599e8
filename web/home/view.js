// Home: today's ten, what was done and what of it is kept; lessons, drills and other ways on.
import { lookedAt, miniature } from "../board/drawing.js";
import { figure } from "../board/view.js";
import { faultAt, field, toldAt } from "../fields.js";
import { ROOMS } from "../lesson/rooms.js";
import { link } from "../link.js";
import {
    BOXES, dayOfTen, dueOn, interrupted, isDoneOn, isWeakest, ratingOf, SIZES, streak, todays, todaysEstimates,
} from "./memory.js";
import { ASKED, TEN } from "../question/questions.js";
import { CHOSEN, LEVELS, themeOf, THEMES } from "../question/themes.js";
import { memoryText } from "./state.js";
import { decimal } from "../texts.js";
import { button, fault, h, table } from "../tree.js";

const SHOWN_DAYS = 14;

const levelWords = (level) => LEVELS.find(({ name }) => name === level).words.toLowerCase();

const many = (count, one, more) => `${count} ${count === 1 ? one : more}`;

// How many come back on the next day, of plays no more than ten.
export const comesBack = ({ memory, day }) => {
    const count = dueOn(memory, day + 1).length;
    const waiting = Math.max(0, dueOn(memory, day + 1, "play").length - TEN);
    return count === 0 ? "Nothing comes back tomorrow."
        : waiting > 0 ? `${count - waiting} of ${count} questions come back tomorrow, what you `
            + "missed last first."
        : `${many(count, "question comes", "questions come")} back tomorrow.`;
};

// How much is kept, in words.
export const daysOf = ({ days }) => many(days.length, "day", "days");
export const heldIn = (memory) => `${daysOf(memory)}, `
    + `${many(memory.cards.length, "question that comes back", "questions that come back")}, `
    + `${memory.learnt} learnt`;

// What today's ten are, in a sentence.
function told({ memory, day }) {
    const open = interrupted(memory, day);
    if (open) {
        const [count, isTodays] = [open.picks.length, dayOfTen(open.drill) === day];
        return `${count} of ${isTodays ? "today" : "yesterday"}\u2019s ten ${count === 1 ? "is" : "are"} `
            + `answered. The other ${TEN - count} wait till ${isTodays ? "tomorrow" : "today"} is over.`;
    }
    if (isDoneOn(memory, day)) {
        return `Today\u2019s ten are done. ${comesBack({ memory, day })}`;
    }
    if (memory.days.length === 0) {
        return "Each question shows a few checkers and two dice: move them so that all are off the "
            + "board soonest. Ten questions, the first ones easy, about three minutes. What you miss "
            + "comes back tomorrow.";
    }
    const { due, theme, level = "any" } = todays(memory, day);
    if (due.length === TEN) return "Ten that you missed come back. New ones follow these.";
    const fresh = `${TEN - due.length} ${due.length === TEN - 1 ? "is" : "are"} new: ${themeOf(theme).words}, ${levelWords(level)}`
        + `${isWeakest(memory, theme) ? ", where you lose most" : ""}. About three minutes.`;
    return due.length === 0 ? fresh
        : `${many(due.length, "that you missed comes", "that you missed come")} back, ${fresh}`;
}

// How much of what was asked was right on each of the last days, as bars.
function lastDays({ days }, today) {
    const shown = Array.from({ length: SHOWN_DAYS }, (_, place) => today - SHOWN_DAYS + 1 + place);
    const counts = shown.map((day) => days.find(([one]) => one === day) || [day, 0, 0]);
    const words = counts.map(([, asked, missed]) =>
        (asked > 0 ? `${asked - missed} of ${asked}` : "none"));
    return h("svg", {
        class: "days", viewBox: "0 0 280 40", preserveAspectRatio: "none", role: "img",
        "aria-label": `Right on each of the last fourteen days: ${words.join(", ")}`,
    }, counts.map(([, asked, missed], place) => {
        const x = 20 * place + 1;
        if (asked === 0) return h("line", { x1: x, x2: x + 18, y1: 39, y2: 39 });
        const right = Math.round((40 * (asked - missed)) / asked);
        return h("g", {}, h("rect", { class: "asked", x, y: 0, width: 18, height: 40 }),
            h("rect", { class: "right-part", x, y: 40 - right, width: 18, height: right }));
    }));
}

const SIZE_NAMES = [
    `less than ${decimal(SIZES[0])}`, ...SIZES.map((size) => `${decimal(size)} or more`),
];

// What was asked and missed of each theme, the dearest first, and what estimates were off.
function themes({ themes: rows }) {
    const each = ([, asked, , lost]) => lost / asked;
    const row = ([name, asked, missed, lost]) => h("tr", {},
        h("th", { scope: "row" }, themeOf(name)?.words ?? ASKED[name]), h("td", {}, asked),
        h("td", {}, missed),
        h("td", {}, decimal(Math.round(lost / asked)), themeOf(name) ? "" : " pips"));
    return table({}, h("caption", { class: "heard" }, "What was asked of each theme"),
        ["Theme", "asked", "missed", "lost each"], [true, false].flatMap((isPlay) =>
            rows.filter(([name, asked]) => Boolean(themeOf(name)) === isPlay && asked > 0)
                .sort((one, other) => each(other) - each(one)).map(row)));
}

// Saved progress, and what can be done with it.
function all(state, act) {
    const { memory, isOpen, asks, canUndo } = state.student;
    const why = faultAt(state, "memory");
    const opening = button("all that is kept", "Saved progress", () => act.openMemory(),
        { class: "plain", "aria-expanded": String(isOpen) });
    if (!isOpen) return h("div", { class: "all-kept" }, opening);
    const runs = memory.days.reduce((sum, [, , , count]) => sum + count, 0);
    return h("div", { class: "all-kept" },
        opening,
        h("p", {}, `Today\u2019s ten were done ${runs === 1 ? "once" : `${runs} times`}. `,
            "Misses by what they lost, in rolls: ",
            memory.sizes.map((count, size) => `${count} ${SIZE_NAMES[size]}`).join(", "), "."),
        h("p", {}, "What comes back, by days: ", BOXES.map((days, box) =>
            `${memory.cards.filter((card) => card.box === box).length} after ${days}`).join(", "),
            `; ${memory.learnt} learnt. `,
            "A miss comes back the next day, and each time that it is right, later; a further miss ",
            "takes it one step back."),
        h("p", {}, "The rating begins at 0, and looks at about the last fifty plays: 100 where nothing ",
            "was lost, 0 where as much was lost as by plays at random."),
        memory.levels.length > 0 && h("p", { "data-key": "levels" },
            "Levels, by the last twenty answers of each theme: ", memory.levels.map(([theme, level]) =>
                `${themeOf(theme).words}, ${levelWords(level)}`).join("; "), "."),
        memory.themes.length > 0 && themes(memory),
        h("p", {}, h("label", {}, "As a text ", h("textarea", {
            ...field(state, act, "memory text"), value: memoryText(state), rows: 5, spellcheck: "false",
            "aria-invalid": String(Boolean(why)), "aria-describedby": "memory-why",
        }))),
        h("p", { class: "choices" },
            button("copy memory", "Copy the text", () => act.copyMemory()),
            button("take memory", asks === null || asks === "forget" ? "Restore from this text"
                : "Restore it all the same", () => act.takeMemory()),
            button("forget", asks !== "forget" ? "Delete all"
                : memory.days.length > 0 ? `Delete ${daysOf(memory)}?` : "Delete all?",
            () => act.forget(), { class: "dangerous" }),
            canUndo && button("undo memory", "Undo", () => act.undoMemory())),
        fault("memory-why", why),
        h("p", { role: "status", class: "hint" }, toldAt(state, "memory")));
}

// How many questions of a drill come back, and how many are new.
export const counted = ({ due: { length } }) => [
    length > 0 && `${length} again`, length < TEN && `${length === 0 ? "ten" : TEN - length} new`,
].filter(Boolean).join(", ");

// A position as each theme has them, to be looked at before its questions are drawn.
const SHOWN = {
    all: [1, 2, 1, 2, 0, 1], low: [5, 3, 2, 0, 0, 0], gaps: [2, 0, 3, 0, 1, 1], middle: [1, 1, 2, 1, 1, 1],
    high: [0, 0, 0, 2, 3, 2], few: [0, 1, 1, 0, 1, 0], fewer: [0, 0, 1, 2, 0, 1],
};

// What comes next, as a board: the first that comes back, or a position of the theme that is new.
function nextBoard({ due, theme }) {
    const { points, roll } = due.find((one) => !one.theme) ?? { points: SHOWN[theme] ?? SHOWN.all, roll: null };
    return h("div", { class: "next-board", "aria-hidden": "true" }, lookedAt(points, [], "next-tip", roll));
}

// The panel: the next step as a board and one button, what was done, and all that is kept.
export function student(state, act) {
    const { memory, day, unkept } = state.student;
    const isDone = isDoneOn(memory, day);
    const row = streak(memory, day);
    const [ten, open] = [todays(memory, day), interrupted(memory, day)];
    const guessed = interrupted(memory, day, false);
    const estimates = guessed?.drill ?? todaysEstimates(memory, day);
    const [asked, lost] = memory.themes.filter(([name]) => themeOf(name))
        .reduce(([count, sum], [, one, , more]) => [count + one, sum + more], [0, 0]);
    const each = decimal(Math.round(lost / Math.max(1, asked)));
    const rating = ratingOf(memory);
    return h("div", { class: "student" },
        h("div", { class: "daily" },
            nextBoard(open?.drill ?? ten),
            h("div", { class: "step" },
                h("h2", {}, "Today\u2019s ten"),
                h("p", { class: "daily-told" }, told(state.student)),
                button("today", [
                    h("b", {}, open ? "Go on" : isDone ? "Ten more" : "Begin"), " ",
                    h("span", {}, open ? `${open.picks.length} of ${TEN}` : counted(ten)),
                ], () => act.today(), { class: isDone && !open ? "begin" : "begin first" }),
                open && button("ten others", "Ten others instead", () => act.today(true),
                    { class: "plain" }),
                estimates && button("estimates", [
                    h("b", {}, guessed ? "Go on" : "Estimates"), " ",
                    h("span", {}, `${ASKED[estimates.ask]}: ${
                        guessed ? `${guessed.picks.length} of ${TEN}` : counted(estimates)}`),
                ], () => act.estimates(), { class: "begin" }))),
        h("div", { class: "done" },
            memory.days.length > 0 && [
                h("dl", { class: "figures" },
                    figure("Streak", row, row === 1 ? "day" : "days"),
                    figure("Due today", dueOn(memory, day).length, "questions"),
                    figure("Average loss", each, "rolls"),
                    figure("Rating", rating < 0 ? `\u2212${-rating}` : rating, "of 100")),
                lastDays(memory, day),
                h("p", { class: "hint days-told" }, "The last fourteen days: filled is right."),
            ],
            h("p", { class: "hint" }, unkept
                || "What you answer stays on this device; nothing of it is sent.")),
        all(state, act));
}

// What stays of a lesson: that it was read, and how much of its drill was right.
function markOf({ lessons }, number) {
    const [, right, asked] = lessons.find(([one]) => one === number) || [];
    return asked > 0 ? `${right} of ${asked}` : right === 0 ? "read" : "";
}

function room({ name, about, lessons }, state, act) {
    const rows = lessons.filter(([number]) => state.lessons[number - 1]);
    return rows.length > 0 && h("li", {},
        h("h3", {}, name), h("p", { class: "hint" }, about),
        h("ul", { class: "lessons" }, rows.map(([number]) => {
            const { title } = state.lessons[number - 1];
            const mark = markOf(state.student.memory, number);
            return h("li", {},
                h("a", { href: link({ lesson: number }), "data-key": `lesson ${number}` }, title),
                mark && h("span", { class: "mark", "data-key": `mark ${number}` }, mark),
                button(`drill ${number}`, "Drill", () => act.drillOfLesson(number),
                    { "aria-label": `Drill: ${title}` }));
        })));
}

const choice = (state, act, key, name, options) => h("label", {}, `${name} `, h("select", field(state, act, key),
    options.map(([value, text]) => h("option", { value, selected: value === state.fields[key] }, text))));

// The four rooms, and a drill of one's choice.
export const path = (state, act) => [
    h("h2", {}, "Lessons"),
    h("ol", { class: "rooms" }, ROOMS.map((one) => room(one, state, act))),
    h("div", { class: "of-choice" },
        h("h3", {}, "Practise: twenty questions"),
        chooser(state, act, () => act.drill(), button("begin drill", "Begin", () => act.drill())),
        fault("seed-why", faultAt(state, "seed"))),
];

// The fields of a drill: its theme, what is asked, its level and its seed; Enter in the last does it.
export function chooser(state, act, enter, ...more) {
    const words = (all) => all.map(({ name, words: text }) => [name, text]);
    return h("p", { class: "choices" },
        choice(state, act, "theme", "Theme", words(THEMES)),
        choice(state, act, "asked", "Asked", Object.entries(ASKED)),
        choice(state, act, "level", "Level", words(CHOSEN)),
        h("label", {}, "Seed ", h("input", {
            ...field(state, act, "seed", enter), type: "text", inputmode: "numeric", autocomplete: "off",
            placeholder: "another",
            "aria-invalid": String(Boolean(faultAt(state, "seed"))), "aria-describedby": "seed-why",
        })), more);
}

// Where else one can go.
export const doors = (points) => h("div", { class: "doors" },
    h("a", { href: link({ at: points.join() }), "data-key": "free board", class: "door" },
        miniature(points), h("b", {}, "The board"),
        h("span", {}, "Any position, with its numbers and all its plays.")),
    h("a", { href: "#games", "data-key": "your games", class: "door" },
        h("b", {}, "Your games"),
        h("span", {}, "Load a match: your mistakes become questions.")),
    h("a", { href: "#teacher", "data-key": "teachers", class: "door" },
        h("b", {}, "For teachers"),
        h("span", {}, "Drills of your own, sheets, and results of a class.")));
