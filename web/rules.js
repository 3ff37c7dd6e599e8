// Rules that players go by where they choose a play, or estimate a race, without computing.
import { pipsOf, sumOf } from "./points.js";

// Whether a play is a mistake: it loses at least half a thousandth of a roll.
export const isMiss = ({ loss }) => loss > 0n;

// The plays of which some number is least.
function leastBy(plays, numberOf) {
    const least = Math.min(...plays.map(numberOf));
    return plays.filter((play) => numberOf(play) === least);
}

const mostOff = (plays) => leastBy(plays, ({ to }) => sumOf(to));

// Tom Keith's additions (2004) for shape: ace, deuce, three, and empty high points.
const over = (count, most) => Math.max(0, count - most);
const additionsOf = ([ace, deuce, three, ...high]) =>
    2 * over(ace, 1) + over(deuce, 1) + over(three, 3)
        + high.filter((count) => count === 0).length;

const mostFilled = (plays) => leastBy(plays, ({ to }) => -to.filter((count) => count > 0).length);

// Natural plays: they bear off the most, and of these fill the most points.
export const naturalOf = (plays) => mostFilled(mostOff(plays));

// Three rules of players: natural; fewest on the ace; fewest pips with additions.
export const RULES = [
    naturalOf,
    (plays) => mostFilled(leastBy(mostOff(plays), ({ to: [ace] }) => ace)),
    (plays) => leastBy(plays, ({ to }) => pipsOf(to) + additionsOf(to)),
];

// Rules of thumb for the EPC: name, words, the shapes they are for, and thousandths of a pip.
const sevens = (points) => 7000 * Math.ceil(sumOf(points) / 2) + 1000;
const added = (points) => 1000 * (pipsOf(points) + additionsOf(points)) + 8500;
const anyShape = { isFor: () => true, where: "any shape" };
export const ESTIMATES = [
    {
        name: "rolls", words: "7n + 1 for n rolls without a double", says: sevens,
        isFor: (points) => points[0] === sumOf(points), where: "the ace point alone",
    },
    {
        name: "eight", words: "pips and 8", says: (points) => 1000 * pipsOf(points) + 8000,
        isFor: ([ace, deuce, three, ...high]) =>
            ace <= 2 && deuce <= 2 && three <= 3 && high.every((count) => count > 0),
        where: "high points held, few below",
    },
    { name: "additions", words: "pips, additions and 8\u00bd", says: added, ...anyShape },
    {
        name: "greater", words: "the greater of the first and the third",
        says: (points) => Math.max(sevens(points), added(points)), ...anyShape,
    },
];

// The six weights of one's own rule, in halves of a pip.
export const OWN = "own";
export const WEIGHTS = [
    "for the race", "each over one on the ace", "each over one on the deuce",
    "each over three on the three", "each empty high point", "each checker",
];
export const ADDITIONS = [17, 4, 2, 2, 2, 0];
const MOST_WEIGHT = 40;

const ownRule = (weights) => ({
    name: OWN, words: "your own rule", ...anyShape,
    says(points) {
        const [ace, deuce, three, ...high] = points;
        const counts = [
            1, over(ace, 1), over(deuce, 1), over(three, 3),
            high.filter((count) => count === 0).length, sumOf(points),
        ];
        const halves = counts.reduce((sum, count, place) => sum + count * weights[place], 0);
        return 1000 * pipsOf(points) + 500 * halves;
    },
});

export const isRule = (name) => name === OWN || ESTIMATES.some((rule) => rule.name === name);

// A weight as it is typed, in halves of a pip, or null.
export function readWeight(text) {
    const [, whole, half] = /^\s*(\d{1,2})(?:[.,]([05])0*)?\s*$/.exec(text) || [];
    const halves = 2 * Number(whole) + (half === "5" ? 1 : 0);
    return halves <= MOST_WEIGHT ? halves : null;
}

const FEW = 3; // checkers for which the rules of thumb don't hold

const inHalves = (halves) => `${Math.floor(halves / 2) || (halves === 1 ? "" : 0)}${halves % 2 ? "\u00bd" : ""}`;

// How to estimate at the board: pips point by point, or the greater of two rules as a sum.
export function reckoned(points, kind) {
    const [ace, deuce, three, ...high] = points;
    const pips = pipsOf(points);
    if (kind === "pips") {
        return `${points.map((count, place) => count && `${count} \u00d7 ${place + 1}`).filter(Boolean)
            .reverse().join(" + ") || 0} = ${pips}`;
    }
    const isStack = points[0] === sumOf(points);
    if (!isStack && sumOf(points) <= FEW) return "for so few checkers no rule holds: count their rolls, 8\u2159 pips each";
    const rest = kind === "wastage" ? -2 * pips : 0;
    const pair = kind === "wastage" ? ` \u2212 ${pips} pips` : "";
    if (isStack || sevens(points) > added(points)) {
        const rolls = Math.ceil(sumOf(points) / 2);
        return `7 for each of ${rolls} ${rolls === 1 ? "roll" : "rolls"} without a double + 1${pair} = ${inHalves(14 * rolls + 2 + rest)}`;
    }
    const empty = high.filter((count) => count === 0).length;
    const terms = [
        [kind === "wastage" ? 0 : 2 * pips, "pips"], [17, "for the race"], [4 * over(ace, 1), "over one on the ace"],
        [2 * over(deuce, 1), "over one on the deuce"], [2 * over(three, 3), "over three on the three"],
        [2 * empty, "for high gaps"],
    ].filter(([halves]) => halves > 0);
    const sum = terms.reduce((all, [halves]) => all + halves, 0);
    return `${terms.map(([halves, what]) => `${inHalves(halves)} ${what}`).join(" + ")} = ${inHalves(sum)}`;
}

// The mean and greatest error of a rule over positions, and the mean where it is for.
function measure({ says, isFor }, counted) {
    let [sum, worst, sumFor, countFor] = [0, 0, 0, 0];
    for (const { points, effective } of counted) {
        const error = Math.abs(says(points) - effective);
        sum += error;
        worst = Math.max(worst, error);
        if (isFor(points)) [sumFor, countFor] = [sumFor + error, countFor + 1];
    }
    return {
        mean: Math.round(sum / counted.length), worst, countFor,
        meanFor: Math.round(sumFor / countFor),
    };
}

// All of them, and the one of these weights.
export const measured = (counted, weights) => [...ESTIMATES, ownRule(weights)]
    .map((rule) => ({ name: rule.name, words: rule.words, where: rule.where, ...measure(rule, counted) }));
