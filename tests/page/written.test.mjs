// What the page writes, its own reader reads: the memory, a result, a link, a lesson, what the tab
// keeps, and numbers in fields. Values are drawn at random over all that a writer may be given and
// all that a reader takes, with the ends of each range among them. A failure names the seed, and
// SEED=N draws the same again.
import assert from "node:assert/strict";
import { test } from "node:test";
import { keep, setCaption } from "../../web/board/state.js";
import { beginDraft, draftText, titleDraft, writeDraft as typeDraft } from "../../web/editor/state.js";
import {
    answered, BOXES, DAILY, dayOf, EMPTY, MOST_CARDS, MOST_DAYS, readMemory, Store, todays, todaysEstimates, written,
} from "../../web/home/memory.js";
import { NOBODY } from "../../web/home/state.js";
import { student } from "../../web/home/view.js";
import { picksOf, readDraft, readPicks, withPicks, writeDraft, writePicks } from "../../web/kept.js";
import { LONGEST_TEXT, readEstimate, readLessons, writeLesson } from "../../web/lesson/text.js";
import { LONGEST_CAPTION, MOST_KEPT, PAGES, readLink, readTyped, START, writeLink } from "../../web/link.js";
import { ROLLS } from "../../web/points.js";
import {
    ASKED, drillOf, ESTIMATED, MOST_LISTED, MOST_LOST, QUESTIONS, readDue, TEN, writeDue,
} from "../../web/question/questions.js";
import { LADDER, ladderOf, levelsOf, THEMES } from "../../web/question/themes.js";
import { readWeight } from "../../web/rules.js";
import { begin } from "../../web/state.js";
import { classOf, readResults, writeResult } from "../../web/teacher/results.js";
import { decimal } from "../../web/texts.js";

const SEED = Number(process.env.SEED) || 1 + (Date.now() % 1e9);
const TIMES = 100;

// Draws from one seed: a whole number below another one, one of a list, and so on.
function drawing(seed) {
    let state = seed % 2147483647 || 1;
    const below = (count) => {
        for (let skip = 0; skip < 2; skip += 1) state = (48271 * state) % 2147483647;
        return Math.floor((state / 2147483647) * count);
    };
    const one = (list) => list[below(list.length)];
    const is = () => below(2) === 1;
    const many = (most, make) => Array.from({ length: below(most + 1) }, make);
    // a number of a range, often one of its ends
    const number = (least, most) =>
        one([least, most, least + below(most - least + 1), Math.min(most, least + below(9))]);
    const points = (least = 0) => {
        const counts = [0, 0, 0, 0, 0, 0];
        for (let left = number(least, 15); left > 0; left -= 1) counts[below(6)] += 1;
        return counts;
    };
    const PARTS = ["a", " ", "  ", "\n", "\r\n", "\t", "\u2028", "\ufeff", "\ud83c\udfb2", "\ud83d", "\udfb2",
        "\u00e9", "\0", "#", "&", "=", "%", "+", "\"", "<b>", "lesson: x", "step: 1,0,0,0,0,0", "name ", "lost 1",
        "-", "{EPC}", "\u202e", "x".repeat(59), "y".repeat(199), "z".repeat(1199)];
    const text = () => many(7, () => one(PARTS)).join("");
    return { below, one, is, many, number, points, text };
}

// A test of what is drawn so often; what fails names the seed that it was drawn by.
const drawn = (name, body) => test(name, () => {
    for (let time = 0; time < TIMES; time += 1) {
        const seed = SEED + time;
        try {
            body(drawing(seed));
        } catch (error) {
            throw new Error(`SEED=${seed}: ${error.message}`, { cause: error });
        }
    }
});

const played = THEMES.filter(({ isPlayed }) => isPlayed).map(({ name }) => name);

// A drill of all that there is; one that comes back has what is due.
function drillFrom(draw, hasDue = draw.is()) {
    const ask = draw.one(Object.keys(ASKED));
    const theme = ask === "play" ? draw.one(played) : draw.one(THEMES).name;
    const due = hasDue ? draw.many(TEN, () => ({
        points: draw.points(1), roll: ask === "play" ? draw.one(ROLLS) : null,
        ...(ask === "play" && draw.is() ? { theme: draw.one(played) } : {}),
    })) : null;
    if (!hasDue && draw.below(4) === 0) {
        const list = Array.from({ length: 1 + draw.below(MOST_LISTED) }, () =>
            ({ points: draw.points(1), roll: ask === "play" ? draw.one(ROLLS) : null }));
        return drillOf({ ask, list });
    }
    const level = draw.one(levelsOf({ theme, ask })).name;
    return drillOf({ theme, seed: draw.number(1, 999999999), ask, level, due });
}

// An answer with as much as one can lose, and more; often to what comes back.
function answerFrom(draw, { cards }) {
    const isPlay = draw.is();
    const asked = {
        points: draw.points(), roll: isPlay ? draw.one(ROLLS) : null,
        theme: isPlay ? draw.one(played) : draw.one(ESTIMATED),
    };
    const { points, roll, theme } = cards.length > 0 && draw.below(3) > 0 ? draw.one(cards) : asked;
    const drill = drillOf({ theme: "all", seed: draw.number(1, 3), ask: roll ? "play" : theme, due: [] });
    const picks = [[points, roll ?? theme, roll ? "6/off(2) 4/3" : "-1500"]];
    return {
        points, roll, theme, ...(draw.is() ? { run: { drill, picks, count: draw.number(1, 10) } } : {}),
        lost: draw.one([0, draw.number(0, 2000), draw.number(MOST_LOST - 1, 2 * MOST_LOST)]),
        random: draw.number(0, MOST_LOST), level: draw.one(LADDER),
        isMissed: draw.is(),
    };
}

// A text of the memory with numbers up to the ends of what its reader takes.
function memoryText(draw) {
    const tally = (most) => {
        const asked = draw.number(0, 9999999);
        return `${asked} ${draw.number(0, asked)} ${draw.number(0, most)}`;
    };
    const once = (lines) => [...new Map(lines).values()];
    return [
        "bearoff memory 5", `learnt ${draw.number(0, 9999999)}`,
        `sizes ${[1, 2, 3].map(() => draw.number(0, 9999999)).join(" ")}`,
        `rating ${draw.number(0, 999999999)} ${draw.number(0, 999999999)} ${draw.number(0, 9999999)}`,
        ...once(draw.many(9, () => draw.number(1, 99)).map((lesson) => {
            const asked = draw.number(0, 99);
            return [lesson, `lesson ${lesson} ${draw.number(0, asked)} ${asked}`];
        })),
        ...once(draw.many(9, () => draw.one(played)).map((name) =>
            [name, `level ${name} ${draw.one(ladderOf(name))} ${draw.one(["-", "1", "0".repeat(20)])}${draw.is() ? ""
                : ` ${draw.number(0, 999999999)} ${draw.number(0, 999999999)} ${draw.number(0, 999999)}`}`])),
        ...once(draw.many(14, () => draw.one([...THEMES.map(({ name }) => name), ...ESTIMATED]))
            .map((name) => [name, `theme ${name} ${tally(999999999)}`])),
        ...once(draw.many(draw.one([9, MOST_DAYS + 9]), () => draw.number(0, 999999))
            .map((day) => [day, `day ${day} ${tally(999999999)}`])),
        ...once(draw.many(draw.one([9, MOST_CARDS + 9]), () => {
            const [at, roll] = [draw.points(1).join(), draw.is() ? draw.one(ROLLS).join("") : null];
            const theme = draw.one(roll ? played : ESTIMATED);
            return [`${at} ${roll ?? theme}`,
                `card ${at} ${roll ?? "-"} ${theme} ${draw.number(0, BOXES.length - 1)} ${
                draw.number(0, 999999)} ${draw.number(0, MOST_LOST)}`];
        })),
        ...(draw.is() ? [] : [`ten ${draw.one(played)} ${draw.number(1, 999999999)} play any -`,
            ...draw.many(9, () => `pick ${draw.points(1).join()} ${draw.one(ROLLS).join("")} 6/off_5/2(3)`)]),
        ...(draw.is() ? [] : [`ten all ${draw.number(1, 999999999)} pips any - done`]),
    ].join("\n");
}

// A clock that is set to anything.
const clockFrom = (draw) => ({
    getTime: () => draw.one([-1, 1]) * draw.one([0, 1, 86400000, draw.below(2 ** 31), draw.below(2 ** 31) * 1e6,
        8.64e15]),
    getTimezoneOffset: () => draw.number(-840, 840),
});

// Each number that is drawn of a student's days is one of its picture.
function compareDrawn(memory, day) {
    const state = { ...begin(readLink("")), student: { ...NOBODY, memory, day, isOpen: true } };
    const look = ({ attributes = {}, children = [] }) => {
        if (attributes.class === "next-board") return; // its frame begins before the points
        for (const name of ["x", "y", "height", "width"]) {
            assert.ok(!(Number(attributes[name] ?? 0) < 0), `${name} is ${attributes[name]}`);
        }
        children.forEach(look);
    };
    look(student(state, {}));
}

drawn("the memory after any answers on any days", (draw) => {
    let memory = draw.is() ? EMPTY : readMemory(memoryText(draw)).memory;
    for (let count = draw.below(30); count >= 0; count -= 1) {
        const day = dayOf(clockFrom(draw));
        assert.ok(Number.isInteger(day) && day >= 1);
        memory = answered(memory, answerFrom(draw, memory), day);
        const ten = todays(memory, day);
        assert.ok(DAILY.includes(ten.theme), `the theme ${ten.theme}`);
        for (const drill of [drillOf(ten), todaysEstimates(memory, day)].filter(Boolean)) {
            const back = readLink(writeLink({ ...readLink(""), drill: drillOf(drill) }));
            assert.deepEqual([back.drill, back.faults], [drillOf(drill), []]);
        }
    }
    assert.deepEqual(readMemory(written(memory)), { memory, fault: "" });
    compareDrawn(memory, dayOf(clockFrom(draw)));
});

drawn("any memory that is read", (draw) => {
    const { memory, fault } = readMemory(memoryText(draw));
    assert.equal(fault, "");
    assert.deepEqual(readMemory(written(memory)), { memory, fault: "" });
    compareDrawn(memory, draw.one(memory.days.map(([day]) => day).concat(1)));
    const kept = new Map();
    const localStorage = { getItem: (name) => kept.get(name) ?? null, setItem: (name, text) => kept.set(name, text) };
    const store = new Store({ localStorage });
    store.change(EMPTY, () => memory);
    assert.deepEqual([store.read(EMPTY), store.why], [memory, ""]);
    // no more is missed than was asked
    const line = draw.one([`day 5 ${draw.below(9)} `, "theme all 0 "]);
    assert.equal(readMemory(`bearoff memory 3\n${line}${draw.number(9, 9999999)} 0`).memory, null);
});

drawn("the results of a class", (draw) => {
    const [drill, count] = [drillFrom(draw, false), 1 + draw.below(QUESTIONS)];
    const pupils = Array.from({ length: 1 + draw.below(5) }, () => ({
        name: `${draw.text()}n${draw.text()}`,
        played: Array.from({ length: count }, () => draw.one([null, "6/off", "6/2 5/off(2)", "\u221210.500", "51.000"])),
        lost: Array.from({ length: count }, () =>
            draw.one([null, 0, draw.number(0, 3000), draw.number(0, 3 * MOST_LOST)])),
    }));
    const texts = pupils.map(({ name, lost, played: plays }) => writeResult(drill, name, lost, plays));
    const { results, fault } = readResults(texts.join(draw.one(["\n", "\n\nDear teacher,\n", "\r\n", ""])));
    assert.equal(fault, "");
    results.forEach((result, place) => {
        assert.deepEqual(result.drill, drill);
        assert.deepEqual(result.lost, pupils[place].lost.map((lost) =>
            (lost === null ? null : Math.min(lost, MOST_LOST))));
        // the same again
        assert.equal(writeResult(result.drill, result.name, result.lost,
            result.played.map((one) => (one === "-" ? null : one))), texts[place]);
    });
    // of each question who played what
    for (const { place, played: plays } of classOf(results).questions) {
        assert.equal(plays.reduce((sum, { names }) => sum + names.length, 0),
            pupils.filter(({ played: [...all] }) => all[place] !== null).length);
    }
});

drawn("a link", (draw) => {
    const { kept } = draw.many(MOST_KEPT, () => draw.points()).reduce((shelf, points) =>
        setCaption(keep({ ...shelf, points }), points.join(), draw.text()), { kept: [] });
    const lesson = draw.is() ? draw.number(1, 99) : null;
    const text = lesson || draw.is() ? "" : writeLesson(lessonFrom(draw));
    const roll = draw.is() ? draw.one(ROLLS) : null;
    const drill = draw.is() ? drillFrom(draw) : null;
    const state = {
        page: "board", points: draw.points(), kept, title: readLink(`#${new URLSearchParams({ t: draw.text() })}`).title, roll,
        guess: draw.is(), bound: draw.one([44, 90]), isCompact: draw.is(), drill,
        place: drill ? draw.number(0, 98) : 0,
        estimate: draw.one([null, ...ESTIMATED]), lesson, text, step: draw.number(1, 60),
    };
    const link = writeLink(state);
    const { isPlaced, faults, ...back } = readLink(link);
    assert.deepEqual([back, isPlaced, faults], [state, true, []]);
    assert.equal(writeLink(readLink(link)), link);
    const page = draw.one(PAGES);
    const there = writeLink({ ...state, page, drill: null, lesson: null, text: "" });
    assert.deepEqual([there, readLink(there).page, readLink(there).faults], [`#${page}`, page, []]);
    if (drill?.due) assert.deepEqual(readDue(writeDue(drill.due), drill.ask), drill.due);
    assert.ok([state.title, ...kept.map(({ caption }) => caption)].every(({ length }) => length <= LONGEST_CAPTION));
});

// A lesson as one is made on the page, of whatever was typed.
function draftFrom(draw) {
    const kept = draw.many(5, () => draw.points())
        .reduce((state, points) => keep({ ...state, points }), { kept: [], points: START, title: draw.text() });
    const made = titleDraft(beginDraft({ ...kept, title: "" }), `${draw.text()}t${draw.text()}`);
    return made.draft.steps.reduce((state, _, place) => ["roll", "text", "ask", "answer"].reduce((next, word) =>
        typeDraft(next, place, word, word === "roll" ? draw.one(["", draw.one(ROLLS).join("")]) : draw.text()),
            state), made);
}

const lessonFrom = (draw) => readLessons(draftText(draftFrom(draw)).text).lessons[0];

drawn("a lesson", (draw) => {
    const state = draftFrom(draw);
    const { text, fault } = draftText(state);
    assert.equal(fault, "");
    const { lessons: [lesson, ...more] } = readLessons(text);
    const { title, steps } = state.draft;
    assert.deepEqual([lesson, more], [{
        title, steps: steps.map(({ points, roll, text: words, ask, answer }) =>
            ({ points, roll: roll === "" ? null : [...roll].map(Number), text: words, ask, answer })),
    }, []]);
    assert.ok([title, ...steps.map(({ answer }) => answer)].every(({ length }) => length <= LONGEST_TEXT));
    // one that was read, with what only a text can have
    const given = { ...lesson, steps: lesson.steps.map((step) => draw.one([
        step, { ...step, rule: draw.one(["own", "eight"]) }, { ...step, roll: null, estimate: draw.one(ESTIMATED) },
    ])) };
    assert.deepEqual(readLessons(writeLesson(given)), { lessons: [given], fault: "" });
});

drawn("what the tab keeps", (draw) => {
    const stored = new Map();
    const window = { sessionStorage: {
        getItem: (name) => stored.get(name) ?? null, setItem: (name, text) => stored.set(name, text),
    } };
    const guess = () => ({ at: draw.points().join(), roll: draw.one(ROLLS), play: { text: draw.text() } });
    const estimate = () => ({ at: draw.points().join(), kind: draw.one(ESTIMATED),
        told: readEstimate(draw.one(["-999.999", "999.999", "0", "-0", `${draw.number(0, 999)}.5`])) });
    const runFrom = () => ({ picks: null, guesses: draw.many(4, guess), again: draw.many(2, guess),
        estimates: draw.many(4, estimate), estimatesAgain: draw.many(2, estimate) });
    const state = { ...begin(readLink("")), drill: drillFrom(draw), run: runFrom(),
        runs: new Map(draw.many(12, () => [writeLink({ ...readLink(""), drill: drillFrom(draw) }), runFrom()])) };
    const picks = picksOf(state);
    writePicks(window, picks);
    assert.deepEqual(readPicks(window), picks);
    assert.deepEqual(picksOf(withPicks({ ...begin(readLink("")), drill: state.drill }, readPicks(window))), picks);
    const { draft } = draftFrom(draw);
    writeDraft(window, draft);
    assert.deepEqual(readDraft(window), draft);
});

drawn("positions, estimates and weights in their fields", (draw) => {
    const points = draw.points();
    assert.deepEqual(readTyped(points.join()), { points, roll: null, theirs: null });
    const thousandths = draw.number(0, MOST_LOST);
    assert.equal(readEstimate(decimal(thousandths)), BigInt(thousandths));
    const halves = draw.number(0, 40);
    assert.equal(readWeight(String(halves / 2)), halves);
});
