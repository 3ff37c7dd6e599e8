// The questions of a drill, drawn by a seed that stands in its link.
import { FIRST, GREATEST, pipsOf, readPoints, sumOf } from "../points.js";
import { isNamed, ladderOf, LEVELS, levelsOf, positions, themeOf } from "./themes.js";

export const QUESTIONS = 20; // of a drill
export const TEN = 10; // of today's ten
export const MOST_LISTED = 60; // of a list

const MODULUS = 2147483647;
const MOST_TRIES = 20000; // until a drill has its questions
const PATIENCE = [1000, 1500]; // tries after which any kind is asked, and either by the name

// What a drill asks: the name in a link, the words, and the words within a sentence.
export const ASKED = { play: "Play", pips: "Pip count", effective: "EPC", wastage: "Wastage" };
export const ESTIMATED = ["pips", "effective", "wastage"];
export const WANTED = { pips: "pip count", effective: "EPC", wastage: "wastage" };

// From how many thousandths on an estimate counts as a miss.
export const FAR = { pips: 1n, effective: 1000n, wastage: 1000n };

// How much an answer is kept to have lost, in thousandths: estimates can be further off.
export const MOST_LOST = 999_999;

// How many pips the questions of a drill can have.
export const mostOf = ({ theme, due = [], list }) => (list
    ? Math.max(...list.map(({ points }) => (pipsOf(points) > FIRST ? GREATEST : FIRST)))
    : Math.max(themeOf(theme).most ?? FIRST, ...due.map((one) =>
        (pipsOf(one.points) > FIRST ? GREATEST : themeOf(one.theme)?.most ?? 0))));

// How many questions a drill asks for.
export const askedFor = ({ due, list }) => (list ? list.length : due ? TEN : QUESTIONS);

// What a drill is called: today's ten has questions that come back, and one of a list its positions.
export const drillName = ({ theme, ask, due, list }) => (list ? "Positions of a class"
    : !due ? themeOf(theme).words
    : ask === "play" ? "Today\u2019s ten" : "Ten estimates");

// A drill of its words; "any" is no level, `due` makes it ten, and `list` is all it asks.
export const drillOf = ({ theme, seed, ask, level, due, list }) => (list ? {
    theme: "all", seed: 1, ask, list,
} : {
    theme, seed, ask,
    ...(level !== "any" && levelsOf({ theme, ask }).some(({ name }) => name === level)
        ? { level } : {}),
    ...(due ? { due } : {}),
});

// How hard the questions of a theme are that are like one which comes back.
export const dailyLevel = (theme) => (ladderOf(theme).includes("mixed") ? "mixed" : "hard");

// A seed as it is typed, or null.
export const readSeed = (text) =>
    (/^\s*\d{1,9}\s*$/.test(text || "") && Number(text) > 0 ? Number(text) : null);

// The questions of a list as a link has them, or null.
export function readList(text, ask) {
    const list = text ? readDue(text, ask, MOST_LISTED) : null;
    return list?.every(({ theme }) => !theme) ? list : null;
}

// Questions that come back, as a link has them with full stops between them; or null.
export function readDue(text, ask = "play", most = TEN) {
    if (text === "") return [];
    const pattern = ask === "play" ? /^(?:([a-z]+)-)?([\d,]+),([1-6])([1-6])$/ : /^()([\d,]+)$/;
    const due = text.split(".").map((one) => {
        const [, theme, counts, high, low] = pattern.exec(one) || [];
        const points = counts ? readPoints(counts) : null;
        const isRight = points && sumOf(points) > 0 && !(high < low)
            && (!theme || themeOf(theme)?.isPlayed);
        return isRight ? {
            points, roll: high ? [Number(high), Number(low)] : null, ...(theme ? { theme } : {}),
        } : null;
    });
    return due.length <= most && due.every(Boolean) ? due : null;
}

export const writeDue = (due) => due.map(({ points, roll, theme }) =>
    [theme && `${theme}-`, points.join(), roll && `,${roll.join("")}`].filter(Boolean).join(""))
    .join(".");

// The drill of these words of a link, or null.
export function readDrill({ theme, seed, ask, level, ten, list = null }) {
    const known = themeOf(theme);
    const read = readSeed(seed);
    const kind = Object.hasOwn(ASKED, ask) ? ask : "play";
    const listed = readList(list, kind);
    if (listed) return drillOf({ ask: kind, list: listed });
    if (!known || read === null) return null;
    if (kind === "play" && !known.isPlayed) return null;
    return drillOf({
        theme, seed: read, ask: kind,
        level: LEVELS.some(({ name }) => name === level) ? level : "any",
        due: (ten ?? null) === null ? null : readDue(ten, kind),
    });
}

// Random numbers: each is 48271 times the one before it, modulo 2^31 - 1.
export function* numbersFrom(seed) {
    for (let number = seed % MODULUS; ;) {
        number = (48271 * number) % MODULUS;
        yield number;
    }
}

// A list in an order that a number mixes, so that the place of a question tells nothing.
function mixed(list, number) {
    const are = [...list];
    const numbers = numbersFrom(number % MODULUS || 1);
    for (let place = are.length - 1; place > 0; place -= 1) {
        const other = numbers.next().value % (place + 1);
        [are[place], are[other]] = [are[other], are[place]];
    }
    return are;
}

// Whether each question tempts, as planned or a half; and whether the best follows the name.
const HALF = Array.from({ length: QUESTIONS }, (_, place) => place % 2 === 0);
export const kindsOf = (seed, plan = HALF) => mixed(plan, 31 * seed + 7);
export const followingOf = (seed) => mixed(HALF, 37 * seed + 11);

// Whether there is something to decide: more than one play, and the next best loses something.
const decides = (plays) => plays.length > 1 && !plays[1].isBest;

// Draws questions for some places of a drill, where there is something to decide.
function drawAt(places, without, { theme, seed, ask, level = "any" }, rolls, playsOf) {
    const asked = themeOf(theme);
    const { isAsked, plan } = LEVELS.find(({ name }) => name === level);
    const themed = positions(mostOf({ theme })).filter(asked.has);
    const taken = new Set(without.map(({ points }) => points.join()));
    const numbers = numbersFrom(seed);
    const [kinds, follows] = [kindsOf(seed, plan), followingOf(seed)];
    const drawn = new Map();
    const most = Math.min(places.length, themed.length);
    let last = 0; // the try of the question that was drawn last
    for (let tries = 0; drawn.size < most && tries < MOST_TRIES; tries += 1) {
        const points = themed[numbers.next().value % themed.length];
        const roll = rolls[numbers.next().value % rolls.length];
        if (taken.has(points.join())) continue;
        if (ask !== "play") {
            drawn.set(points.join(), { points, roll: null });
            continue;
        }
        const plays = playsOf(points, roll);
        const [kind, isFollowing] = [kinds, follows].map((are, place) =>
            (tries - last > PATIENCE[place] ? null : are[places[drawn.size]]));
        if (!decides(plays) || !isNamed(asked, points, plays, level, isFollowing)
            || !isAsked(plays, kind, asked)) continue;
        drawn.set(points.join(), { points, roll });
        last = tries;
    }
    return [...drawn.values()];
}

// Another question of a due one's theme, a new one each day, or that one where none is found.
function siblingOf({ points, roll, theme }, without, seed, rolls, playsOf) {
    const number = [...points, ...roll].reduce((sum, count) => 16 * sum + count, seed);
    const drill = { theme, seed: 1 + (number % (MODULUS - 1)), ask: "play", level: dailyLevel(theme) };
    const [found] = drawAt([0], without, drill, rolls, playsOf);
    return found ? { ...found, card: { points, roll } } : { points, roll };
}

// The questions of a drill. Today's ten has first what comes back, or a question like it.
export function drawQuestions(drill, rolls, playsOf) {
    const { seed, ask, due = [], list } = drill;
    if (list) return list;
    const again = due.reduce((asked, { theme, ...one }) => {
        if (theme) {
            const without = [...asked, ...due];
            return [...asked, siblingOf({ ...one, theme }, without, seed, rolls, playsOf)];
        }
        return ask !== "play" || decides(playsOf(one.points, one.roll)) ? [...asked, one] : asked;
    }, []);
    const { level = "any" } = drill;
    const { steps = [[level, askedFor(drill)]] } = LEVELS.find(({ name }) => name === level);
    // what a step doesn't find is any
    return [...steps, ["any", steps.length > 1 ? askedFor(drill) : 0]].reduce((asked, [name, count]) => {
        const most = Math.min(count, askedFor(drill) - asked.length);
        const places = Array.from({ length: most }, (_, place) => asked.length + place);
        return [...asked, ...drawAt(places, asked, { ...drill, level: name }, rolls, playsOf)];
    }, again);
}

// Whether an estimate is far off.
export const isFar = ({ kind, error }) => error >= FAR[kind];

// A drill by its words, which are in the links of all who are asked the same.
export const drillKey = ({ theme, seed, ask, level = "any", due, list }) =>
    [theme, seed, ask, level, ...(due || list ? [writeDue(due || list)] : [])].join();
