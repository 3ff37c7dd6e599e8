// Stands in for a browser, so that the page's script runs under node: the document of the page, by
// jsdom, a window with an address and its history, and a worker that answers when the test lets
// it. Its numbers are made up, each from its position alone, so that a test sees of which position
// a number is. And a page that is used: what is done on it and what is seen then, in rows; and that
// no number is ever beside a board which it isn't of.
import Module, { createRequire } from "node:module";
import { readFileSync } from "node:fs";
import { delimiter } from "node:path";
import { start } from "../../web/app.js";
import { modeOf } from "../../web/mode.js";
import { ROLLS } from "../../web/points.js";
import { drawQuestions } from "../../web/question/questions.js";
import { decimal, notation, percent } from "../../web/texts.js";
import { equal as same, wrong as fault } from "./given.mjs";
export { part as test } from "./given.mjs";

// Debian's jsdom and what it rests on stand in a folder of their own.
const FOLDER = "/usr/share/nodejs";
process.env.NODE_PATH = [process.env.NODE_PATH, FOLDER].filter(Boolean).join(delimiter);
Module._initPaths();
const { JSDOM, VirtualConsole } = createRequire(import.meta.url)("jsdom");

const MARKUP = readFileSync(new URL("../../web/index.html", import.meta.url), "utf8")
    .replace(/\/\*(POLICY|STYLE|SCRIPT)\*\//g, "");

// The text of a tree, as a reader sees it.
export function textOf(tree) {
    if (Array.isArray(tree)) return tree.map(textOf).join(" ");
    return typeof tree === "object" && tree !== null
        ? tree.children.map(textOf).join(" ") : String(tree ?? "");
}

// The document of the page, by jsdom, which lays nothing out and saves, scrolls and opens nothing:
// what it would have done is kept beside each element.
export function newDocument() {
    const virtualConsole = new VirtualConsole();
    const { window } = new JSDOM(MARKUP, { virtualConsole });
    const { document } = window;
    document.saved = []; // the links that saved a file
    document.thrown = []; // what listeners have thrown, which ends no event
    virtualConsole.on("jsdomError", (error) => document.thrown.push(error.detail ?? error));
    const add = (kind, members) =>
        Object.defineProperties(window[kind].prototype, Object.getOwnPropertyDescriptors(members));
    // a place in the layout, which a test gives
    const place = (name) => ({
        configurable: true,
        get() { return this[`given ${name}`] ?? 0; },
        set(value) { this[`given ${name}`] = value; },
    });
    Object.defineProperties(window.HTMLElement.prototype, {
        offsetTop: place("top"), offsetHeight: place("height"),
    });
    add("Element", { scrollIntoView() { this.scrolled = (this.scrolled ?? 0) + 1; } });
    add("HTMLDialogElement", { showModal() { this.isShown = true; } });
    add("HTMLInputElement", { select() { this.isSelected = true; } });
    add("HTMLAnchorElement", { click() { this.ownerDocument.saved.push(this); } });
    return document;
}

// An event at an element and then at those around it, with more than a plain one has. What a
// listener throws is thrown.
export function tell(element, name, more = {}) {
    const document = element.ownerDocument || element;
    const event = new document.defaultView.Event(name, { bubbles: true, cancelable: true });
    for (const [key, value] of Object.entries(more)) Object.defineProperty(event, key, { value });
    element.dispatchEvent(event);
    if (document.thrown.length > 0) throw document.thrown.shift();
    return event;
}

// A window with an address, its history, and a clock that the test moves.
export class Window {
    constructor(hash = "", protocol = "https:") {
        this.entries = [hash];
        this.place = 0;
        this.time = 0;
        this.timers = new Map();
        this.listeners = new Map();
        this.printed = 0;
        this.copied = null;
        this.TextDecoder = TextDecoder;
        this.WebAssembly = { validate: () => true };
        this.Worker = Worker;
        this.performance = { now: () => this.time };
        this.files = new Map(); // by their addresses
        this.Blob = class { constructor(parts, { type }) { Object.assign(this, { text: parts.join(""), type }); } };
        this.Image = class { async decode() { throw new Error("it can't"); } };
        this.URL = {
            createObjectURL: (file) => {
                const address = `blob:${this.files.size}`;
                this.files.set(address, file);
                return address;
            },
            revokeObjectURL: (address) => { this.files.delete(address); },
        };
        this.stored = new Map();
        this.kept = new Map(); // what stays when the tab closes
        this.localStorage = {
            getItem: (name) => this.kept.get(name) ?? null, setItem: (name, text) => { this.kept.set(name, text); },
            removeItem: (name) => { this.kept.delete(name); },
        };
        this.date = new Date(2026, 10, 27, 12); // a local time, which a test moves
        const date = () => this.date;
        this.Date = class { constructor() { return date(); } };
        this.sessionStorage = { getItem: (name) => this.stored.get(name) ?? null, setItem: (name, text) => {
            this.stored.set(name, text);
        } };
        this.navigator = { clipboard: { writeText: async (text) => { this.copied = text; } } };
        const self = this;
        this.location = {
            protocol,
            get hash() { return self.entries[self.place]; },
            get href() { return `${protocol}//here/page.html${self.entries[self.place]}`; },
        };
        this.history = {
            pushState: (_, __, link) => {
                this.entries.splice(this.place + 1, Infinity, link);
                this.place += 1;
            },
            replaceState: (_, __, link) => { this.entries[this.place] = link; },
        };
    }

    print() { this.printed += 1; }

    requestAnimationFrame() { return 0; }

    cancelAnimationFrame() {}

    setTimeout(what, wait) {
        const number = this.timers.size + 1 + this.time;
        this.timers.set(number, { what, at: this.time + wait });
        return number;
    }

    clearTimeout(number) { this.timers.delete(number); }

    pass(milliseconds) {
        this.time += milliseconds;
        for (const [number, { what, at }] of [...this.timers]) {
            if (at > this.time) continue;
            this.timers.delete(number);
            what();
        }
    }

    addEventListener(name, listener) { this.listeners.set(name, listener); }

    // Back, Forward, or an address that a reader types.
    go(steps) {
        this.place += steps;
        for (const name of ["popstate", "hashchange"]) this.listeners.get(name)?.({});
    }

    type(hash) {
        this.history.pushState(null, "", hash);
        this.go(0);
    }
}

// The worker of the page; what it is asked waits until the test answers.
export class Worker {
    static last = null;
    static made = 0; // how many there were

    constructor() {
        this.asked = [];
        this.isEnded = false;
        Worker.last = this;
        Worker.made += 1;
    }

    terminate() { this.isEnded = true; }

    postMessage({ number, question }) { this.asked.push({ number, question }); }

    // Answers the oldest question.
    async answer(reply) {
        await settled();
        const { number } = this.asked.shift();
        this.onmessage({ data: { number, reply } });
        await settled();
    }

    async refuse(failure) {
        await settled();
        const { number } = this.asked.shift();
        this.onmessage({ data: { number, failure } });
        await settled();
    }

    // Answers what is asked of an open database, until nothing is.
    async answerAll(bound = 44) {
        await settled();
        while (this.asked.length > 0) {
            const { kind, points, drill, picks, roll, to, weights, steps, turns } = this.asked[0].question;
            const plays = this.plays || rollsFrom;
            await this.answer({
                ask: answerTo, rolls: plays, draw: () => drawFrom(drill), again: () => playedBefore(picks, plays),
                why: () => whyFrom(points, roll, to), measure: () => measuredFrom(weights),
                fill: () => steps.map((step) => valuesFrom(step, bound)), sheet: () => sheetFrom(drill),
                grade: () => gradedFrom(turns, bound),
            }[kind](points, bound));
        }
    }
}

// A result as a token, whose sum is computed otherwise than the page does.
export function tokenOf(...fields) {
    const text = ["2", ...fields].join("~");
    const sum = [...text].reduce((so, letter) =>
        ((so ^ BigInt(letter.codePointAt(0))) * 16777619n) % 2n ** 32n, 2166136261n);
    return `bearoff[${text}~${sum.toString(36)}]`;
}

// A file whose bytes come so.
export const bytesAs = (arrayBuffer) => ({ slice: () => ({ arrayBuffer }) });

export const settled = () => new Promise((keep) => setImmediate(keep));

export const pipsOf = (points) => points.reduce((sum, count, place) => sum + count * (place + 1), 0);

// A number of a position, made from its counts.
const madeUp = (points) => BigInt(points.reduce((sum, count) => 16 * sum + count, 1));

export const nearest = (above, below) => (2000n * above + below) / (2n * below);

export function answerTo(points, bound = 44) {
    const checkers = points.reduce((sum, count) => sum + count, 0);
    const standing = { pips: pipsOf(points), checkers, off: 15 - checkers };
    if (standing.pips > bound) {
        return { points, standing, bound, status: 4, refusal: "The position has more pips than the database." };
    }
    const [mean, effective] = [1n, 2n].map((which) => 10n * madeUp(points) + which);
    const wastage = effective - 1000n * BigInt(standing.pips);
    const rounded = (thousandths) => ({ exact: `${thousandths}/1000`, thousandths, text: decimal(thousandths) });
    const share = (rolls, exactly, within) =>
        ({ rolls, exactly, within, exactlyText: percent(exactly), withinText: percent(within) });
    return {
        points, standing, bound, mean: rounded(mean), effective: rounded(effective), wastage: rounded(wastage),
        distribution: [share(2, 250n, 250n), share(3, 500n, 750n), share(4, 250n, 1000n), share(5, 0n, 1000n)],
    };
}

// Three plays of each roll: the recorded one, one as good, and one that loses an 18th and comes
// first by its text.
export function rollsFrom(points) {
    if (points.every((count) => count === 0)) return [];
    return ROLLS.map(([one, other]) => ({
        dice: [one, other],
        plays: ["0/1", "0/1", "1/18"].map((exact, place) => {
            const loss = nearest(...exact.split("/").map(BigInt));
            const moves = [[one, 0], [other, place]];
            return {
                exact, loss, lossText: decimal(loss), moves, to: [place, ...points.slice(1)],
                text: place < 2 ? `${one}/off ${other}/${place}` : `${one}/1 ${other}/${place}`, isBest: place < 2,
                    isRecorded: place === 0,
            };
        }),
    }));
}

// The plays of each roll as the rules have them, found by trying each order of the dice. The first by its text is best,
// and each further one loses an 18th more.
export function legalFrom(points) {
    return ROLLS.map(([one, other]) => {
        const ends = new Map();
        const go = (at, dice, moves) => {
            const highest = at.reduce((most, count, place) => (count > 0 ? place + 1 : most), 0);
            if (highest === 0 || dice.length === 0) {
                ends.set(at.join(), { to: at, moves });
                return;
            }
            at.forEach((count, place) => {
                const from = place + 1;
                if (count === 0 || (dice[0] > from && from < highest)) return;
                const next = [...at];
                next[place] -= 1;
                if (from > dice[0]) next[place - dice[0]] += 1;
                go(next, dice.slice(1), [...moves, [from, Math.max(0, from - dice[0])]]);
            });
        };
        for (const dice of one === other ? [Array(4).fill(one)] : [[one, other], [other, one]]) go(points, dice, []);
        const plays = [...ends.values()].map((play) => ({ ...play, text: notation(play.moves) }));
        plays.sort((first, second) => (first.text < second.text ? -1 : 1));
        return {
            dice: [one, other],
            plays: plays.map((play, place) => {
                const loss = nearest(BigInt(place), 18n);
                return { ...play, loss, lossText: decimal(loss), exact: place === 0 ? "0/1" : `${place}/18`,
                    isBest: place === 0, isRecorded: place === 0 };
            }),
        };
    });
}

// What a play that loses leaves, beside the best one; and a throw after which nothing moves.
export const whyFrom = (points, roll, to) => ({
    kind: "close", says: `Because of ${to} with ${roll}.`, against: null,
    rows: [{ name: `Of ${points} with ${roll}`, made: to.join(), best: "best" }],
    throws: { worse: 23, better: 0, roll: [6, 5], replies: [to, points].map((at) => ({ points: at, text: "none", moves: [] })) },
});

// The values of a lesson's step.
function valuesFrom({ points, roll }, bound) {
    const { standing, mean, effective, wastage, refusal } = answerTo(points, bound);
    if (refusal) return {};
    return { pips: String(standing.pips), mean: mean.text, EPC: effective.text, wastage: wastage.text,
        ...(roll ? { best: `best of ${roll.join("")}` } : {}) };
}

// How far rules of thumb are off: one's own by the sum of its weights.
export const measuredFrom = (weights) => ({
    count: 26313,
    rows: ["rolls", "eight", "additions", "greater", "own"].map((name, place) => ({
        name, words: `the rule ${name}`, where: "any shape", countFor: 1000 * (place + 1), meanFor: 1000 + place,
        mean: name === "own" ? 100 * weights.reduce((sum, weight) => sum + weight) : 2000 + place, worst: 30006 + place,
    })),
});

// What was chosen before the page was loaded anew.
export const playedBefore = ({ guesses, again, estimates, estimatesAgain }, plays) => ({
    plays: [...guesses, ...again].map(([points, roll]) => plays(points).find(({ dice }) => dice.join() === roll.join())
            .plays),
    answers: [...estimates, ...estimatesAgain].map(([points]) => answerTo(points)),
});

// A sheet whose key names each question.
const sheetFrom = (drill) => {
    const questions = drawFrom(drill);
    return { questions, key: questions.map(({ points, roll }) => `best of ${points} ${roll?.join("") ?? ""}`) };
};

// The plays of a match beside those of the rules, of which the first by its text is best.
const gradedFrom = (turns, bound) => ({ fault: null, rows: turns.map(({ points, dice, to }) => {
    const { plays } = legalFrom(points).find((one) => [...one.dice].sort().join() === [...dice].sort().join());
    return pipsOf(points) > bound ? null
        : { play: plays.find((play) => play.to.join() === to.join()), best: plays[0], choices: plays.length };
}) });

// A drill whose rolls all have a play that loses something, and none as good as the best, which
// fills a point and bears off fewer; in an easy one that bears off fewer, and loses much.
const drawnBefore = new Map(); // by the words of a drill, since drawing takes long
export function drawFrom(drill) {
    const key = JSON.stringify(drill);
    if (!drawnBefore.has(key)) drawnBefore.set(key, drawQuestions(drill, ROLLS, (points) => {
        const plays = [{ to: points.map((count) => Math.max(1, count)) }, { to: [1, 0, 0, 0, 0, 0] }];
        return (drill.level === "easy" ? plays.reverse() : plays).map((play, place) =>
            ({ ...play, isBest: place === 0, loss: place === 0 ? 0n : drill.level === "easy" ? 90n : 30n }));
    }));
    return drawnBefore.get(key);
}

globalThis.Worker = Worker;
let part = "";
export const wrong = (text) => fault(`${part}: ${text}`);
export const equal = (name, is, wanted) => same(`${part}: ${name}`, is, wanted);
// Begins what the following is about.
export const about = (name) => { part = name; };

// The four numbers of a position, and those that aren't known yet.
export function numbersOf(points) {
    const { standing, mean, effective, wastage } = answerTo(points, 999);
    return [String(standing.pips), mean.text, effective.text, wastage.text];
}
export const WAITS = Array(4).fill("\u2026");

// What is heard of a position.
export function heard(points) {
    const [pips, mean, effective, wastage] = numbersOf(points);
    return `${pips} pips, mean ${mean} rolls, effective pip count ${effective}, wastage ${wastage}.`;
}

// The plays that the stand-in has of a roll: one that loses an 18th, the best one, and one as good.
export const losing = ([high, low]) => `play ${high}/1 ${low}/2`;
export const best = ([high, low]) => `play ${high}/off ${low}/0`;
export const asGood = ([high, low]) => `play ${high}/off ${low}/1`;

// What stays of a student on a device, by its lines.
export const memoryOf = (...lines) => new Map([["bearoff memory", lines.join("\n")]]);

// A lesson as an address.
export const linkOf = (text, more = {}) => `#${new URLSearchParams({ text, ...more })}`;

const textsOf = (nodes) => [...nodes].map((node) => node.textContent);

// The part of the state that has a word, or all of it.
const partOf = (state, name) => [state.run, state.hand, state.student].find((part) => name in part) ?? state;

// What is seen, by the first word of what is asked for.
const SEEN = {
    board: (used) => used.board.join(),
    hash: ({ window }) => window.location.hash,
    screen: ({ session }) => modeOf(session.state).screen,
    title: ({ document }) => document.title,
    clipboard: ({ window }) => window.copied,
    asked: ({ worker }) => worker.asked.map(({ question }) => question.kind).join(),
    guesses: ({ session }) => session.state.run.guesses.map(({ play }) => play.text).join(", "),
    row: (used, key) => used.row(key),
    hidden: (used, name) => used.at(name).hidden,
    there: (used, key) => used.find(key) !== null,
    value: (used, key) => used.element(key).value,
    scrolled: (used, name) => used.element(name).scrolled,
    state: ({ session: { state } }, name) => partOf(state, name)[name],
    length: ({ session: { state } }, name) => partOf(state, name)[name].length,
    count: ({ document }, selector) => document.querySelectorAll(selector).length,
    all: ({ document }, selector) => textsOf(document.querySelectorAll(selector)),
};

// What is done, by how it is written: an address is typed, a key pressed, time passes, Back and Forward, a field is
// given a value, and else something is clicked.
const DONE = [
    [/^go (.*)$/s, (used, hash) => used.window.type(hash)],
    [/^press (\S+)$/, (used, key) => used.press(key === "Space" ? " " : key)],
    [/^pass (\d+)$/, (used, time) => used.window.pass(Number(time))],
    [/^(back|forward)$/, (used, way) => used.window.go(way === "back" ? -1 : 1)],
    [/^([^=]*)=(.*)$/s, (used, key, value) => used.give(key, value)],
    [/^(.*)$/s, (used, key) => used.click(key)],
];

// What is on the page is found by key or by name.
export class Used {
    constructor(hash = "", { protocol, before = () => {}, lessons = "", plays = rollsFrom, ...own } = {}) {
        this.document = newDocument();
        // the parts of the page, also those that aren't on the screen
        this.parts = new Map([...this.document.querySelectorAll("[id]")].map((node) => [node.id, node]));
        this.window = Object.assign(new Window(hash, protocol), own);
        before(this.window, this.document);
        this.session = start(this.document, this.window, { worker: "", wide: "wide", narrow: "narrow", lessons });
        this.worker = Worker.last;
        if (this.worker) [this.worker.plays, this.worker.used] = [plays, this];
    }

    // One with its database open, which was built in so many milliseconds, and everything answered.
    static async open(hash, { took, ...more } = {}) {
        const used = new Used(hash, more);
        await used.ready(44, took);
        return used;
    }

    async ready(bound = 44, took = undefined) {
        await this.worker.answer({ bound, positions: bound === 44 ? 26313 : 54264, took });
        await this.worker.answerAll(bound);
        this.bound = bound;
        this.check("once all is known");
    }

    // Once the second worker has built the database of 90 pips.
    async widened() {
        const first = this.worker;
        this.worker = Worker.last;
        [this.worker.plays, this.worker.used] = [first.plays, this];
        await this.ready(90, 900);
    }

    at(name) { return this.parts.get(name) ?? this.document.getElementById(name); }

    find(key) { return this.document.querySelector(`[data-key="${key}"]`); }

    element(key) { return this.find(key) || this.at(key); }

    text(name) {
        const node = /^[#.]/.test(name) ? this.document.querySelector(name) : this.at(name) || this.find(name);
        return node?.textContent ?? null;
    }

    click(key, more) {
        const element = this.element(key);
        element.focus();
        return tell(element, "click", more);
    }

    press(key, more) { return tell(this.document.activeElement, "keydown", { key, ...more }); }

    // Gives a field a value, as one who types it and goes on.
    give(key, value) {
        const field = this.element(key);
        field.focus();
        field.value = value;
        return tell(field, "change");
    }

    // Drops a file on the page.
    async drop(file = bytesAs(async () => new ArrayBuffer(8))) {
        tell(this.document, "drop", { dataTransfer: { files: [file] } });
        await settled();
    }

    async answered(when) {
        this.check(when);
        await settled();
        if (!this.bound || this.worker.asked.length === 0) return;
        await this.worker.answerAll(this.bound);
        this.check(`${when}, answered`);
    }

    // Does what is written, with commas between, or a list of such; what the page asks is answered after each.
    async do(what) {
        for (const one of typeof what === "string" ? what.split(", ").filter(Boolean) : what) {
            if (typeof one === "function") await one(this);
            else {
                const [how, act] = DONE.find(([written]) => written.test(one));
                act(this, ...how.exec(one).slice(1));
            }
            await this.answered(`after ${one}`);
        }
    }

    look(word, wanted) {
        const [, how, name] = /^(in|not in|begins) (.*)$/s.exec(word) || [];
        if (how) {
            const text = this.text(name);
            const is = [wanted].flat().map((words) =>
                Boolean(how === "begins" ? text?.startsWith(words) : text?.includes(words)) !== (how === "not in"));
            return is.every(Boolean) ? wanted : text;
        }
        const [first] = word.split(" ");
        if (SEEN[first]) return SEEN[first](this, word.slice(first.length + 1));
        if (word in this) return typeof this[word] === "function" ? this[word]() : this[word];
        const [, attribute, key] = /^([a-z-]+) of (.*)$/s.exec(word) || [];
        return attribute ? this.element(key).getAttribute(attribute) : this.text(word);
    }

    // Each word shows what is wanted.
    sees(name, wanted) {
        this.check(name);
        for (const [word, is] of Object.entries(wanted)) equal(`${name}: ${word}`, this.look(word, is), is);
    }

    // Rows of what is told of it, what is done, and what is seen then.
    async run(name, rows) {
        if (name) about(name);
        for (const [told, done, seen] of rows) {
            await this.do(done);
            this.sees(told, seen);
        }
    }

    get board() {
        if (!this.at("board").firstChild?.querySelector("[data-point]")) return this.session.state.points;
        return [1, 2, 3, 4, 5, 6].map((point) =>
            Number(this.at("board").querySelector(`[data-point="${point}"]`).getAttribute("data-count")));
    }

    get figures() { return textsOf(this.at("numbers").querySelectorAll("dd")).slice(0, 4)
        .map((text) => text.split(" ")[0]); }

    get rows() { return [...this.at("kept").querySelectorAll("tr")].slice(1); }

    get keys() { return this.rows.map((row) => row.getAttribute("data-key")); }

    // What stands beside a kept position, by its counts.
    row(key) {
        const row = this.rows.find((node) => node.getAttribute("data-key") === key);
        return row && textsOf(row.querySelectorAll("td")).slice(2, 6);
    }

    plays() {
        return [...this.at("plays").querySelectorAll("button")].map((node) => node.getAttribute("data-key"))
            .filter((key) => key.startsWith("play "));
    }

    focus() {
        const { activeElement } = this.document;
        return activeElement.getAttribute("data-key") || activeElement.id || activeElement.localName;
    }

    // No number is beside a position that it isn't of, on the board, in the table, aloud, or among the plays.
    check(when) {
        const { state } = this.session;
        if (state.hand.steps.length > 0) return; // the board shows a play that is made
        const points = this.board;
        const belongs = (name, is, at) => {
            const right = numbersOf(at);
            if (is.some((text, place) => text !== "\u2026" && text !== "\u2013"
                && text !== right[place])) wrong(`${when}, beside ${name} ${at}: ${is}`);
        };
        equal(`${when}, the field`, this.at("why").hidden ? this.at("counts").value : points.join(), points.join());
        belongs("the board", this.figures, points);
        for (const row of this.rows.filter((one) => one.querySelectorAll("td").length === 7)) {
            const key = row.getAttribute("data-key");
            belongs("the kept", this.row(key), key.split(",").map(Number));
        }
        const said = this.text("said");
        const isKnown = state.answers.has(points.join());
        for (const [what, is] of [
            [`said ${said}`, /^\d+ pips,/.test(said)
                && !said.includes(`effective pip count ${answerTo(points, 999).effective.text},`)],
            ["chances of another position", !isKnown && this.at("chances").childNodes.length > 0],
            ["a refusal of another position", !isKnown && this.text("numbers").includes("more pips")],
            ["plays of another position", !state.rolls.has(points.join()) && this.plays().length > 0],
        ]) if (is) wrong(`${when}, ${what}`);
    }
}
