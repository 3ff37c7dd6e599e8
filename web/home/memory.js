// What a student did, kept on the device as a text of lines of whole numbers.
import { readPoints, sumOf } from "../points.js";
import { dailyLevel, ESTIMATED, MOST_LOST, readDrill, TEN, writeDue } from "../question/questions.js";
import { LADDER, ladderOf, themeOf, THEMES } from "../question/themes.js";

// Texts of version 4 have no ten that were interrupted and nothing of what the last answers of a
// theme lost, those of version 3 no lessons and no levels,
// those of version 2 no rating, and those of version 1 no estimates that come back.
export const VERSION = 5;
export const MOST_CARDS = 300;
export const MOST_DAYS = 400;
export const MOST_LETTERS = 100_000; // of a text that is read in
const LIKE = 2; // the box from which on a question like it is asked
const FADING = 50; // a play counts a fiftieth less in the rating with each further one
const BEGINNER = 10; // plays at random before the first one, which fade like others
const USUAL = 100_000; // what one of them loses, in millionths of a roll
const RECENT = 20; // answers of a theme that its level and its turn follow, and
const [RISES, FALLS] = [6, 10]; // how many of them at least before it does
const HEAVIEST = 3.1; // how much more a theme counts where most is lost than where least is
// Of a student's first ten, with at most how many missed he begins how many levels higher.
const BEGINNINGS = [[2, 2], [4, 1], [TEN, 0]];
const LEAST_RATING = -100;

// After how many days a question comes back, by its box. One that is right in the last is learnt.
export const BOXES = [1, 3, 7, 21, 60];

// `rating` is what the last plays lost, what plays at random would have lost in their place, both in
// millionths of a roll, and how many plays there were. `levels` are those of themes, each with its
// last answers there, as digits: 1 is right; and with what its last answers lost, what plays at random
// would have lost there, and the day of the last one. `lessons` are those that were read, each with
// how much was right of how much at the best time that its drill was done. `tens` are the plays and
// the estimates that were begun last, ten each: their drill, whether all were answered, and
// of each answer the position, its roll or what was estimated, and the text; they are left out where
// all were answered.
export const EMPTY = {
    days: [], cards: [], themes: [], sizes: [0, 0, 0], learnt: 0, rating: [0, 0, 0], levels: [],
    lessons: [], tens: [],
};

const DAY = 86400000; // milliseconds
const MOST_DAY = 900_000; // so that what comes back later is a day of six digits, too
const MOST_COUNT = 9_999_999;
const MOST_SUM = 999_999_999;

// The number of a local day, from 1 on, whatever the clock says.
export const dayOf = (date) => Math.max(1, Math.min(MOST_DAY,
    Math.floor((date.getTime() - date.getTimezoneOffset() * 60000) / DAY)));

// Which question it is: a roll of a position, or, without a roll, what is estimated of it.
const cardKey = ({ points, roll, theme }) =>
    (roll ? `${points.join()} ${roll.join("")}` : `${points.join()} - ${theme}`);

const cardOf = (cards, question) => cards.find((one) => cardKey(one) === cardKey(question));

// Cards due on a day: the least known first, then the last missed, then the dearest.
export const dueOn = ({ cards }, day, ask = null) => cards
    .filter(({ due, roll, theme }) =>
        due <= day && (ask === null || (ask === "play" ? roll !== null : !roll && theme === ask)))
    .sort((one, other) =>
        one.box - other.box || other.due - one.due || other.lost - one.lost);

// Sums as they are kept, each at most so much.
const within = (mosts, sums) => sums.map((sum, place) => Math.min(mosts[place], sum));

const MOST_TALLIED = [MOST_COUNT, MOST_COUNT, MOST_SUM];
const MOST_RATED = [MOST_SUM, MOST_SUM, MOST_COUNT];

// Rows of counts by their first column, with more in one of them.
function tallied(rows, key, more) {
    const found = rows.find(([name]) => name === key);
    const sums = more.map((count, place) => count + (found ? found[place + 1] : 0));
    const next = [key, ...within(MOST_TALLIED, sums)];
    return found ? rows.map((row) => (row === found ? next : row)) : [...rows, next];
}

// Where there are too many, those that are best known and cheapest are forgotten first.
const boundedCards = (cards) => (cards.length <= MOST_CARDS ? cards
    : [...cards].sort((one, other) => one.box - other.box || other.lost - one.lost)
        .slice(0, MOST_CARDS));

const boundedDays = (days) => [...days].sort(([one], [other]) => one - other).slice(-MOST_DAYS);

// From how many thousandths of a roll on a miss is no small one, and from how many on a large one.
export const SIZES = [20, 80];

export const sizeOf = (lost) => SIZES.filter((size) => lost >= size).length;

// The cards after an answer: a miss is back tomorrow, one box lower; what is due and right rises.
function carded(cards, card, { points, roll, theme, lost, isMissed }, day) {
    const isDue = card && card.due <= day;
    if ((!isMissed && !isDue) || sumOf(points) === 0) return cards;
    const box = isMissed ? Math.max(0, (card?.box ?? 0) - 1) : card.box + 1;
    const next = {
        ...(isMissed ? { points, roll, lost } : card), theme: card?.theme ?? theme, box,
        due: day + (isMissed ? 1 : BOXES[box]),
    };
    const rest = cards.filter((one) => one !== card && cardKey(one) !== cardKey(next));
    return box < BOXES.length ? [...rest, next] : rest;
}

// The rating's sums after a play that lost so many thousandths, where one at random loses others.
const rated = ([lost, random, plays], more) =>
    within(MOST_RATED, [...faded([lost, random], more, FADING), plays + 1]);

// The rating: 100 for no loss, 0 for as much as plays at random, begun with some of these.
export function ratingOf({ rating: [lost, random, plays] }) {
    const begun = BEGINNER * USUAL * (1 - 1 / FADING) ** plays;
    return Math.max(LEAST_RATING, Math.round((100 * (random - lost)) / (random + begun)));
}

// The first level of a theme: the highest that two others, or the only other, have reached.
function beginningOf({ levels }, theme) {
    const reached = levels.map(([, level]) => LADDER.indexOf(level)).sort((one, other) => other - one);
    const highest = reached[1] ?? reached[0] ?? 0;
    const ladder = ladderOf(theme);
    return ladder.filter((level) => LADDER.indexOf(level) <= highest).at(-1) ?? ladder[0];
}

// What is known of a theme, as its row has it.
const rowOf = (memory, theme) => memory.levels.find(([name]) => name === theme)
    ?? [theme, beginningOf(memory, theme), "", 0, 0, 0];

export const levelOf = (memory, theme) => rowOf(memory, theme)[1];

// Steps up (over 3 of 4 right) or down (under 2 of 5) after a theme's last answers.
function stepAfter(recent, level) {
    const right = [...recent].filter((one) => one === "1").length;
    const share = right / recent.length;
    if (level === "first") {
        return recent.length < TEN ? 0
            : BEGINNINGS.find(([most]) => recent.length - right <= most)[1];
    }
    return share > 0.75 && recent.length >= RISES ? 1
        : share < 0.4 && recent.length >= FALLS ? -1 : 0;
}

// Sums of what the last plays lost, and what plays at random would have, after one more.
const faded = (sums, { lost, random }, fading) => [lost, random].map((more, place) =>
    sums[place] - Math.floor(sums[place] / fading) + 1000 * more);

// The levels after an answer to a new question of a theme.
function climbed(memory, answer, day) {
    const { theme, level, isMissed } = answer;
    const [, at, answers, ...sums] = rowOf(memory, theme);
    const counts = level === at || level === "first";
    const recent = counts ? `${answers}${isMissed ? 0 : 1}`.slice(-RECENT) : answers;
    const ladder = ladderOf(theme);
    const next = ladder[ladder.indexOf(at) + (counts ? stepAfter(recent, level) : 0)] ?? at;
    const lost = within(MOST_RATED, faded(sums, answer, RECENT));
    return [...memory.levels.filter(([name]) => name !== theme),
        [theme, next, next === at ? recent : "", ...lost, day]];
}

const isPlay = ({ drill }) => drill.ask === "play";

const keyOfPick = ([points, of]) => `${points} ${of}`;

// Ten with one more answer, or null where another page has already counted it.
function goneOn(tens, { drill, picks, count }) {
    const { picks: had, isDone } = tens.find((one) => writtenTen(one) === writtenTen({ drill }))
        ?? { picks: [], isDone: false };
    const last = keyOfPick(picks.at(-1));
    if (isDone || had.some((one) => keyOfPick(one) === last)) return null;
    const all = [...new Map([...had, ...picks].map((one) => [keyOfPick(one), one])).values()];
    return { drill, picks: all.length < count ? all : [], isDone: all.length >= count };
}

// The memory after an answer on a day: `theme` is that of the drill, or what is estimated, `lost`
// are thousandths of a roll, or of a pip for an estimate, `random` are those of a play at random in
// its place, `card` is the question that comes back where one like it was asked in its place, `level`
// is that of the drill, and `run` the ten that it is one of: their drill, how many they are, and what
// was answered, this one last. What another page has answered of them counts once. They count for
// their day, where it is over since yesterday at most.
export function answered(memory, told, day) {
    const answer = { ...told, lost: Math.min(MOST_LOST, told.lost) };
    const { roll, lost, isMissed } = answer;
    const run = answer.run ? goneOn(memory.tens, answer.run) : undefined;
    if (run === null) return memory;
    const ten = roll && run?.isDone ? dayOfTen(run.drill) : 0;
    const card = cardOf(memory.cards, answer.card ?? answer);
    const theme = card ? card.theme : answer.theme;
    const cards = carded(memory.cards, card, answer, day);
    const isLearnt = cards.length < memory.cards.length;
    return {
        ...memory,
        cards: boundedCards(cards),
        learnt: Math.min(MOST_COUNT, memory.learnt + (isLearnt ? 1 : 0)),
        days: boundedDays(ten === day || ten === day - 1
            ? tallied(tallied(memory.days, day, [1, isMissed ? 1 : 0, 0]), ten, [0, 0, 1])
            : tallied(memory.days, day, [1, isMissed ? 1 : 0, 0])),
        themes: tallied(memory.themes, theme, [1, isMissed ? 1 : 0, lost]),
        sizes: memory.sizes.map((count, size) =>
            Math.min(MOST_COUNT, count + (roll && isMissed && size === sizeOf(lost) ? 1 : 0))),
        rating: roll ? rated(memory.rating, answer) : memory.rating,
        levels: roll && !card ? climbed(memory, answer, day) : memory.levels,
        tens: run ? [...memory.tens.filter((one) => isPlay(one) !== isPlay(run)), run] : memory.tens,
    };
}

// Whether a memory has fewer answers, or fewer cards and learnt questions, than another.
export function holdsLess(memory, than) {
    const sums = ({ themes, cards, learnt: count }) =>
        [themes.reduce((sum, [, asked]) => sum + asked, 0), cards.length + count];
    const [mine, theirs] = [memory, than].map(sums);
    return mine.some((sum, place) => sum < theirs[place]);
}

// The memory once a lesson was read, or its drill was done, with so much right of so much.
export function learnt(memory, [number, right, asked]) {
    const had = memory.lessons.find(([one]) => one === number) || [number, 0, 0];
    const isBetter = right * Math.max(1, had[2]) >= had[1] * Math.max(1, asked) && asked > 0;
    const rest = memory.lessons.filter(([one]) => one !== number);
    return {
        ...memory, lessons: [...rest, isBetter ? [number, right, asked] : had]
            .sort(([one], [other]) => one - other),
    };
}

// How much was answered on a day.
export const askedOn = ({ days }, day) => days.find(([one]) => one === day)?.[1] ?? 0;

// The memory with a question that comes back from a day on, unless it does already.
export const asked = (memory, { points, roll, lost, theme }, day) =>
    (cardOf(memory.cards, { points, roll, theme }) ? memory : {
        ...memory,
        cards: boundedCards([...memory.cards, { points, roll, theme, box: 0, due: day, lost }]),
    });

// Whether a day's ten are done.
export const isDoneOn = ({ days }, day) => days.some(([one, , , tens]) => one === day && tens > 0);

// On how many days in a row the ten were done, up to today or yesterday.
export function streak({ days }, today) {
    const full = new Set(days.filter(([, , , tens]) => tens > 0).map(([day]) => day));
    let [count, day] = [0, full.has(today) ? today : today - 1];
    for (; full.has(day); day -= 1) count += 1;
    return count;
}

// The themes of today's ten: what every database has.
export const DAILY = THEMES.filter(({ isPlayed, most }) => isPlayed && !most)
    .map(({ name }) => name);

// The part lost of what random plays would have lost: so easy levels count like hard ones.
const partLost = ([, , , lost, random]) => lost / Math.max(1, random);

// The theme that new questions come from: the one that waits longest, where a day counts the more
// the more is lost, from once where least is to three times where most is, and those between hardly
// more than once. So none has under a twentieth of the days, nor over a third. Before that those that
// were never asked, in turn.
export function nextTheme(memory, day) {
    const rows = DAILY.map((name) => rowOf(memory, name));
    const others = rows.filter((row) => row[5] === 0);
    if (others.length > 0) return others[day % others.length][0];
    const [least, most] = [Math.min, Math.max].map((end) => end(...rows.map(partLost)));
    const place = (row) => (most > least ? (partLost(row) - least) / (most - least) : 0);
    const turn = (row) => (day - row[5]) * (1 + (HEAVIEST - 1) * place(row) ** 6);
    return rows.reduce((first, row) => (turn(row) > turn(first) ? row : first))[0];
}

// Whether a theme is the one where most is lost, once each was asked.
export function isWeakest(memory, theme) {
    const rows = DAILY.map((name) => rowOf(memory, name));
    const most = Math.max(...rows.map(partLost));
    return rows.every((row) => row[5] > 0) && most > 0 && partLost(rowOf(memory, theme)) === most;
}

const APART = 100_000; // seeds between two drills of a day

const seedOn = (memory, day) => day + APART * Math.min(askedOn(memory, day), 1000);

// The day whose ten a drill of plays is, by its seed.
export const dayOfTen = ({ seed }) => seed % APART;

// The ten plays or estimates that can be gone on with, till the day after theirs ends.
export const interrupted = ({ tens }, day, isOfPlays = true) => tens.find((one) =>
    !one.isDone && isPlay(one) === isOfPlays && [day, day - 1].includes(dayOfTen(one.drill))) ?? null;

// A question that comes back, or, from its third time on, its theme, of which another is asked.
const backOf = ({ points, roll, theme, box }) =>
    ({ points, roll, ...(roll && box >= LIKE ? { theme } : {}) });

// Today's ten, as a drill: first those that come back, and the rest new, by the number of the day,
// so that who begins on one day is asked the same: the first of all go through some levels, and then
// those of each theme have its level. Where ten come back none is new: so no more wait
// than a student can answer. What follows on that day has another seed.
export function todays(memory, day) {
    const isFirst = memory.days.length === 0;
    const theme = isFirst ? "all" : nextTheme(memory, day);
    const level = isFirst ? "first" : levelOf(memory, theme);
    return {
        theme, seed: seedOn(memory, day), ask: "play", ...(level === "any" ? {} : { level }),
        due: dueOn(memory, day, "play").slice(0, TEN).map(backOf),
    };
}

// Ten estimates as a drill, of the kind most are due of, those first; or null.
export function todaysEstimates(memory, day) {
    const [ask, due] = ESTIMATED.map((kind) => [kind, dueOn(memory, day, kind)])
        .reduce((most, one) => (one[1].length > most[1].length ? one : most));
    return due.length === 0 ? null : {
        theme: DAILY[0], seed: seedOn(memory, day), ask, due: due.slice(0, TEN).map(backOf),
    };
}

// The memory as a text of lines.
export const written = ({
    days, cards, themes, sizes, learnt: count, rating, levels, lessons, tens,
}) => [
    `bearoff memory ${VERSION}`, `learnt ${count}`, `sizes ${sizes.join(" ")}`,
    `rating ${rating.join(" ")}`, ...lessons.map((row) => `lesson ${row.join(" ")}`),
    ...levels.map(([theme, level, answers, ...sums]) =>
        `level ${theme} ${level} ${answers || "-"} ${sums.join(" ")}`),
    ...themes.map((row) => `theme ${row.join(" ")}`),
    ...days.map((row) => `day ${row.join(" ")}`),
    ...cards.map(({ points, roll, theme, box, due, lost }) =>
        `card ${points.join()} ${roll ? roll.join("") : "-"} ${theme} ${box} ${due} ${lost}`),
    ...tens.flatMap(({ isDone, picks, ...ten }) => [
        `${writtenTen(ten)}${isDone ? " done" : ""}`, ...picks.map(([points, of, text]) =>
            `pick ${points.join()} ${[of].flat().join("")} ${text.replaceAll(" ", "_")}`),
    ]),
].join("\n");

const writtenTen = ({ drill: { theme, seed, ask, level = "any", due } }) =>
    `ten ${theme} ${seed} ${ask} ${level} ${writeDue(due) || "-"}`;

const isNew = (rows, key) => !rows.some(([name]) => name === key);
const isTally = ([asked, missed]) => missed <= asked;

// Of each kind of line its pattern, and the memory with it, or null where it is refused.
const LINES = {
    learnt: [/^(\d{1,7})$/, (memory, [count]) => ({ ...memory, learnt: Number(count) })],
    lesson: [/^([1-9]\d?) (\d\d?) (\d\d?)$/, (memory, words) => {
        const [number, right, asked] = words.map(Number);
        return right > asked || !isNew(memory.lessons, number) ? null
            : { ...memory, lessons: [...memory.lessons, [number, right, asked]] };
    }],
    sizes: [/^(\d{1,7}) (\d{1,7}) (\d{1,7})$/, (memory, sizes) =>
        ({ ...memory, sizes: sizes.map(Number) })],
    rating: [/^(\d{1,9}) (\d{1,9}) (\d{1,7})$/, (memory, sums) =>
        ({ ...memory, rating: sums.map(Number) })],
    level: [/^([a-z]+) ([a-z]+) (-|[01]{1,20})(?: (\d{1,9}) (\d{1,9}) (\d{1,6}))?$/,
        (memory, [theme, level, answers, ...sums]) => {
            const row = [theme, level, answers.replace("-", ""), ...sums.map((sum) => Number(sum ?? 0))];
            return themeOf(theme)?.isPlayed && ladderOf(theme).includes(level)
                && isNew(memory.levels, theme) ? { ...memory, levels: [...memory.levels, row] } : null;
        }],
    theme: [/^([a-z]+) (\d{1,7}) (\d{1,7}) (\d{1,9})$/, (memory, [name, ...counts]) =>
        ((themeOf(name) || ESTIMATED.includes(name)) && isNew(memory.themes, name)
            && isTally(counts.map(Number))
            ? { ...memory, themes: [...memory.themes, [name, ...counts.map(Number)]] } : null)],
    day: [/^(\d{1,6}) (\d{1,7}) (\d{1,7}) (\d{1,9})$/, (memory, [day, ...counts]) => {
        const row = [Number(day), ...counts.map(Number)];
        return isNew(memory.days, row[0]) && isTally(row.slice(1))
            ? { ...memory, days: [...memory.days, row] } : null;
    }],
    card: [/^([\d,]+) (?:([1-6])([1-6])|-) ([a-z]+) ([0-4]) (\d{1,6}) (\d{1,6})$/,
        (memory, [counts, high, low, theme, ...numbers]) => {
            const [points, roll] = [readPoints(counts), high ? [Number(high), Number(low)] : null];
            const [box, due, lost] = numbers.map(Number);
            if (!points || sumOf(points) === 0 || high < low
                || !(roll ? themeOf(theme)?.isPlayed : ESTIMATED.includes(theme))) return null;
            const card = { points, roll, theme, box, due, lost };
            return cardOf(memory.cards, card) ? null
                : { ...memory, cards: [...memory.cards, card] };
        }],
    ten: [/^([a-z]+) (\d{1,9}) ([a-z]+) ([a-z]+) (\S+?)( done)?$/,
        (memory, [theme, seed, ask, level, due, done]) => {
            const drill = readDrill({ theme, seed, ask, level, ten: due === "-" ? "" : due });
            const ten = { drill, picks: [], isDone: Boolean(done) };
            return drill?.ask !== ask || !drill.due || memory.tens.some((one) => isPlay(one) === isPlay(ten))
                ? null : { ...memory, tens: [...memory.tens, ten] };
        }],
    pick: [/^([\d,]+) (?:([1-6])([1-6]) ([\w/()]{1,40})|([a-z]+) (-?\d{1,7}))$/,
        (memory, [counts, high, low, text, kind, told]) => {
            const [points, ten] = [readPoints(counts), memory.tens.at(-1)];
            if (!ten || !points || high < low || ten.isDone || ten.picks.length === TEN - 1
                || ten.drill.ask !== (kind ?? "play")) return null;
            const pick = kind ? [points, kind, told]
                : [points, [Number(high), Number(low)], text.replaceAll("_", " ")];
            return {
                ...memory, tens: [...memory.tens.slice(0, -1), { ...ten, picks: [...ten.picks, pick] }],
            };
        }],
};

// The memory of a text, or the first line that can't be read; nothing is taken in part.
export function readMemory(text) {
    const refuse = (fault) => ({ memory: null, fault });
    if (text.length > MOST_LETTERS) return refuse(`It has more than ${MOST_LETTERS} characters.`);
    const [first, ...lines] = text.replace(/^\ufeff/, "").trim().split(/\r?\n/);
    const [, version] = /^bearoff memory ([1-9]\d{0,2})$/.exec(first.trim()) || [];
    if (!version) return refuse("Line 1: it doesn't begin with \"bearoff memory\" and a version.");
    if (Number(version) > VERSION) {
        return refuse(`It is of version ${version}, and this page knows ${VERSION}.`);
    }
    let memory = EMPTY;
    for (const [place, line] of lines.entries()) {
        const [, word, rest] = /^(\w+) (.*)$/.exec(line.trim()) || [];
        const [pattern, take] = Object.hasOwn(LINES, word) ? LINES[word] : [];
        const found = pattern && pattern.exec(rest);
        memory = found ? take(memory, found.slice(1)) : null;
        if (!memory) return refuse(`Line ${place + 2} can't be read.`);
    }
    // before there were levels each day asked the same one
    const levels = Number(version) >= 4 ? memory.levels : memory.themes.flatMap(([name]) =>
        (themeOf(name)?.isPlayed ? [[name, dailyLevel(name), "", 0, 0, 0]] : []));
    return {
        memory: {
            ...memory, levels, cards: boundedCards(memory.cards), days: boundedDays(memory.days),
        },
        fault: "",
    };
}

const NAME = "bearoff memory";
const NO_STORE =
    "This browser keeps nothing for the page: what you answer is there till it closes.";
const FULL = "The browser has no more room for what you answer: what is new is there till the page "
    + "closes.";

// The device's store, read before each write; without one the page has its own memory.
export class Store {
    constructor(window) {
        this.window = window;
        this.why = ""; // why nothing can be kept
        this.former = null; // what was there before all was forgotten or another text was taken
    }

    // Whether an event of the store is about the memory; without a name it is about all.
    static isAbout(key) {
        return key === NAME || key === null;
    }

    // The memory that is kept, or else the page's own.
    read(own) {
        if (this.why) return own;
        try {
            const text = this.window.localStorage.getItem(NAME);
            if (text === null) return EMPTY;
            const { memory, fault } = readMemory(text);
            if (memory) return memory;
            this.why = `What is kept here can't be read, and stays as it is. ${fault}`;
        } catch {
            this.why = NO_STORE;
        }
        return own;
    }

    // What a change makes of the memory that is kept, or else of the page's own.
    change(own, how) {
        const memory = how(this.read(own));
        if (this.why) return memory;
        try {
            this.window.localStorage.setItem(NAME, written(memory));
        } catch {
            this.why = FULL;
        }
        return memory;
    }

    // Remembers what is there, as a text of any kind, and the page's own, till the page closes.
    spare(own) {
        try {
            this.former = { own, text: this.window.localStorage.getItem(NAME) };
        } catch {
            this.former = { own, text: null };
        }
    }

    // Puts a text there, or none, also in the place of one that can't be read.
    put(text) {
        try {
            if (text === null) this.window.localStorage.removeItem(NAME);
            else this.window.localStorage.setItem(NAME, text);
            this.why = "";
        } catch {
            this.why = NO_STORE;
        }
    }

    // Forgets all.
    forget(own) {
        this.spare(own);
        this.put(null);
        return EMPTY;
    }

    // Takes another memory in the place of what is kept.
    take(own, memory) {
        this.spare(own);
        return this.change(own, () => memory);
    }

    // Has back what was there before; what is there now can be had back in the same way.
    undo(own) {
        const { former } = this;
        this.spare(own);
        this.put(former.text);
        return this.read(former.own);
    }
}
