// What can be asked of a play: themes, and how hard a question is.
import { GREATEST, MOST_CHECKERS, sumOf } from "../points.js";
import { isMiss, naturalOf, RULES } from "../rules.js";

// The positions of at most so many pips, in the order of their ranks.
export function positions(most) {
    const found = [];
    const fill = (points, pips, checkers) => {
        const point = points.length + 1;
        if (point > 6) {
            found.push({ points, pips: most - pips });
            return;
        }
        for (let count = 0; count <= checkers && count * point <= pips; count += 1) {
            fill([...points, count], pips - count * point, checkers - count);
        }
    };
    fill([], most, MOST_CHECKERS);
    return found.sort((one, other) => one.pips - other.pips).map(({ points }) => points);
}

const isWithin = (low, high) => (points) =>
    points.every((count, place) => count === 0 || (place + 1 >= low && place + 1 <= high));

// The empty points with checkers on both sides of them, by their places.
const gapsOf = (points) => points.flatMap((count, place) =>
    (count === 0 && sumOf(points.slice(0, place)) > 0 && sumOf(points.slice(place)) > 0
        ? [place] : []));

// How few checkers a play can leave.
const leastLeft = (plays) => Math.min(...plays.map(({ to }) => sumOf(to)));

// The themes: the name in a link, the words, the positions, of at most `most` pips or else of 44,
// whether a roll can have something to decide there, which levels it hasn't, where the words name
// something that a play does, whether one does it, and whether that is never natural.
export const THEMES = [
    { name: "all", words: "All positions", has: (points) => sumOf(points) > 1, isPlayed: true },
    {
        // whoever leaves the fewest on the ace point is nearly always right there
        name: "low", words: "Low stacks", isPlayed: true, without: ["hard"],
        has: (points) => isWithin(1, 3)(points) && points.some((count) => count > 3),
    },
    {
        name: "gaps", words: "Gaps", isPlayed: true,
        has: (points) => gapsOf(points).length > 0 && sumOf(points) > 4,
        does: ({ to }, points) => gapsOf(points).some((place) => to[place] > 0),
    },
    {
        name: "middle", words: "Five to nine checkers", isPlayed: true,
        has: (points) => sumOf(points) > 4 && sumOf(points) < 10,
    },
    {
        name: "high", words: "6-5-4 shapes", isPlayed: true,
        has: (points) => isWithin(4, 6)(points) && sumOf(points) > 2,
    },
    {
        name: "ace", words: "Ace point alone", isPlayed: false,
        has: (points) => points[0] === sumOf(points) && points[0] > 0,
    },
    {
        name: "few", words: "Two to four checkers", isPlayed: true,
        has: (points) => sumOf(points) > 1 && sumOf(points) < 5,
    },
    {
        name: "fewer", words: "How many to bear off", isPlayed: true,
        has: (points) => sumOf(points) > 1,
        does: ({ to }, points, plays) => sumOf(to) > leastLeft(plays), isTempting: true,
        without: ["easy", "mixed"],
    },
    {
        name: "board", words: "The whole board", has: (points) => sumOf(points) > 1,
        isPlayed: true, most: GREATEST,
    },
    {
        name: "fifteen", words: "All fifteen checkers", isPlayed: true, most: GREATEST,
        has: (points) => sumOf(points) === MOST_CHECKERS,
    },
    {
        name: "stacks", words: "7-5-3 shapes", isPlayed: true, most: GREATEST,
        has: (points) => isWithin(4, 6)(points) && sumOf(points) > 12,
    },
];

export const themeOf = (theme) => THEMES.find(({ name }) => name === theme);

// Bounds of the next best's loss in thousandths: close, clear, and named.
const CLOSE = 20n;
const HARD = 30n;
const CLEAR = 80n;
const NEAR = 40n;

const isClose = ([, next], most) => isMiss(next) && next.loss <= most;

// Kinds of hard questions: whether the natural rule is right, and whether another one is.
const kinds = (count, natural, others) =>
    Array.from({ length: count }, () => ({ natural, others }));
const HARD_PLAN = [
    ...kinds(3, true, true), ...kinds(5, true, false), ...kinds(6, false, true),
    ...kinds(6, false, false),
];
const isRight = (rule, plays) => !rule(plays).some(isMiss);
const isOf = (plays, { natural, others }) =>
    (natural ? isRight(naturalOf, plays) : naturalOf(plays).every(isMiss))
        && RULES.slice(1).some((rule) => isRight(rule, plays)) === others;

// How hard a drill is, the easiest first, and what may be any last: the name in a link, the words,
// the kinds that are planned, and which plays it asks of a theme, the best first, where a question
// is of a kind, or, where that is null, of any. In an easy one each rule is right, and the next
// best loses much. In a mixed one the natural plays of those that tempt all lose something; of the
// others one is best, and the next best loses little. In a hard one the next best loses little, and
// which rules are right is planned, but where a theme's name is never natural. The first ten of a
// student go through some levels, with so many questions of each.
export const LEVELS = [
    { name: "any", words: "Any", isAsked: () => true },
    {
        name: "easy", words: "Easy",
        isAsked: (plays) => plays[1].loss >= CLEAR
            && RULES.every((rule) => rule(plays).some(({ isBest }) => isBest)),
    },
    {
        name: "mixed", words: "Mixed",
        isAsked: (plays, tempts) =>
            (tempts !== false && naturalOf(plays).every(isMiss))
                || (tempts !== true && isClose(plays, CLOSE)
                    && naturalOf(plays).some(({ isBest }) => isBest)),
    },
    {
        name: "hard", words: "Hard", plan: HARD_PLAN,
        isAsked: (plays, kind, { isTempting }) => (isTempting ? isClose(plays, NEAR)
            : isClose(plays, HARD) && (kind === null || isOf(plays, kind))),
    },
    { name: "first", words: "First ten", steps: [["easy", 5], ["any", 3], ["mixed", 2]] },
];

// The levels that one can choose, and those that a student goes through, the easiest first.
export const CHOSEN = LEVELS.filter(({ steps }) => !steps);
export const LADDER = ["easy", "any", "mixed", "hard"];

// The levels that a theme has: where what it names is never natural, none is easy or mixed.
export const levelsOf = ({ theme, ask }) => LEVELS.filter(({ name, steps }) => name === "any"
    || (ask === "play" && !(steps ? theme !== "all" : themeOf(theme).without?.includes(name))));

// The levels of a theme as a ladder.
export const ladderOf = (theme) => LADDER.filter((level) =>
    levelsOf({ theme, ask: "play" }).some(({ name }) => name === level));

// Whether a theme asks the plays of a roll, the best first, of some level: where its words name
// something that a play does, one does it and another doesn't. The best does it where the question
// `follows` them, and doesn't where it doesn't; then one that does it loses little, but in an easy
// or a hard question. Where `follows` is null, either way.
export function isNamed({ does }, points, plays, level, follows) {
    if (!does) return true;
    const [named, others] = [true, false].map((is) =>
        plays.filter((play) => does(play, points, plays) === is));
    if (named.length === 0 || others.length === 0) return false;
    const isFollowed = named.includes(plays[0]);
    if (follows !== null && isFollowed !== follows) return false;
    return isFollowed || level === "easy" || level === "hard" || named[0].loss <= NEAR;
}
