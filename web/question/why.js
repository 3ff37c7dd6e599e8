// Why a play loses: a sentence by the kind of the mistake, counts of what it leaves beside those of
// what the best leaves, and the throw that tells them apart most, where one does. All are facts of the
// two positions and exact numbers of the database, and the sentence speaks for the best play. The
// counts don't have to: in a close decision fewer gaps, fewer checkers on the ace point and lower
// stacks are the worse play's nearly as often as the best one's.
import { playFrom } from "../board/asks.js";
import { pipsOf, ROLLS, sumOf } from "../points.js";
import { decimal, notation, percent } from "../texts.js";

const NUMBERS = [1, 2, 3, 4, 5, 6];

// The numbers of a die that take nothing off by themselves.
const missing = (points) => NUMBERS.filter((number) =>
    points[number - 1] === 0 && sumOf(points.slice(number)) > 0);

// How many rolls so many checkers need at least without a double.
const rollsFor = (points) => Math.ceil(sumOf(points) / 2);

const tallest = (points) => Math.max(...points);

// The kind of a mistake that leaves `made` where `best` is best, in the order a player looks:
// "over", where the best play bears off all; "last", where both leave two checkers at most;
// "roll", where it bears off more, and so needs a roll less by the count; "spare", where it bears
// off more, and a number can miss then; "fewer", where it bears off fewer, and fewer numbers miss;
// "misses", where fewer numbers miss; "ace", where fewer are on the ace point; "stack", where the
// tallest stack is lower; and "close", where yours is as good or better in all of these.
export function kindOf(made, best) {
    const more = sumOf(made) - sumOf(best);
    if (sumOf(best) === 0) return "over";
    if (sumOf(best) <= 2 && sumOf(made) <= 2) return "last";
    if (more > 0) return rollsFor(made) > rollsFor(best) ? "roll" : "spare";
    if (missing(made).length > missing(best).length) return more < 0 ? "fewer" : "misses";
    if (made[0] > best[0]) return "ace";
    return tallest(made) > tallest(best) ? "stack" : "close";
}

const POINTS = [6, 5, 4, 3, 2, 1];
const TOLD = 5n; // thousandths of a chance from which on a difference of two chances is told

const many = (count, what) => `${count} ${what}${count === 1 ? "" : "s"}`;

// The empty points below the highest checker, the ace point aside, which no shape has to hold.
const gapsIn = (points) => POINTS.filter((point) =>
    point > 1 && points[point - 1] === 0 && sumOf(points.slice(point)) > 0);

// A mean over the 36 throws, of their sum.
const mean = (sum) => decimal(Math.round((1000 * sum) / 36));

// Counts of both plays, fewer being better, with their texts.
const COUNTS = [
    ["Checkers left", ({ points }) => sumOf(points)],
    ["Pips left", ({ points }) => pipsOf(points)],
    ["Empty points", ({ points }) => gapsIn(points).length, ({ points }) => gapsIn(points).join(", ") || "none"],
    ["On the ace point", ({ points }) => points[0]],
    ["Tallest stack", ({ points }) => tallest(points)],
    ["Left after the next roll, on average", ({ after }) => after, ({ after }) => mean(after)],
];

// The row that decides, by the kind of the mistake.
const DECIDING = {
    over: "Checkers left", roll: "Checkers left", spare: "Checkers left", fewer: "Empty points",
    misses: "Empty points", ace: "On the ace point", stack: "Tallest stack",
    close: "Left after the next roll, on average",
};

// The number of rolls within which the best play's chance is most greater, or null.
function tellingRolls(made, best) {
    const at = best.map((chance, rolls) => ({ rolls, more: chance - made[rolls] }))
        .reduce((most, one) => (one.more > most.more ? one : most), { rolls: 0, more: 0n });
    return at.more >= TOLD ? at.rolls : null;
}

// The rows of what differs; one that speaks for the made play says so.
function rowsOf(made, best, kind) {
    // where the last checker is off nothing else is to be compared
    const counts = sumOf(best.points) === 0 ? COUNTS.slice(0, 1) : COUNTS;
    const rows = counts.map(([name, countOf, textOf = (one) => String(countOf(one))]) => ({
        name, made: textOf(made), best: textOf(best),
        ...(name === DECIDING[kind] ? { decides: true } : {}),
        ...(countOf(made) < countOf(best) ? { isForMade: true } : {}),
    })).filter((row) => row.made !== row.best && !(row.name === DECIDING.close && row.isForMade));
    const pips = rows.findIndex(({ name }) => name === "Pips left");
    if (pips >= 0) {
        rows.splice(pips + 1, 0,
            { name: "Wastage in pips", made: decimal(made.wastage), best: decimal(best.wastage) });
    }
    const rolls = tellingRolls(made.within, best.within);
    return rolls === null ? rows : [...rows, {
        name: `Off within ${many(rolls, "roll")}`, made: percent(made.within[rolls]),
        best: percent(best.within[rolls]),
    }];
}

const weight = ([one, other]) => (one === other ? 1 : 2);

// What the page says of what a play leaves.
function leftBy(database, points) {
    const left = sumOf(points) === 0 ? [] : ROLLS.map((roll) =>
        [roll, sumOf(database.play(points, roll).to)]);
    const within = database.distribution(points).map((_, rolls) =>
        BigInt(database.within(points, rolls).thousandths));
    const over = (countOf) => left.reduce((sum, [roll, count]) => sum + weight(roll) * countOf(count), 0);
    return {
        points, within, wastage: BigInt(database.wastage(points).thousandths),
        after: over((count) => count), ends: over((count) => (count === 0 ? 1 : 0)),
    };
}

const NAMED = ["one", "two", "three", "four"];
const any = (numbers) => numbers.map((number) => (number === 1 ? "an ace" : `a ${number}`))
    .join(", ").replace(/, ([^,]*)$/, " or $1");

const first = (text) => text[0].toUpperCase() + text.slice(1);

// What misses after each of the plays.
const missesOf = (made, best) => `after ${made.name} ${any(missing(made.points))} takes nothing off by itself, after ${
    best.name} ${missing(best.points).length > 0 ? `only ${any(missing(best.points))}` : "each number takes one off"}.`;

// How many the best play bears off beside the other one, where that is told before the shape.
const offBeside = (made, best) => (sumOf(made.points) === sumOf(best.points) ? "As many come off."
    : `${first(best.name)} takes ${NAMED[sumOf(best.points) - sumOf(made.points) - 1]} fewer off.`);

const leaves = (made, best) => `${first(made.name)} leaves ${many(sumOf(made.points), "checker")}, ${best.name} ${
    sumOf(best.points)}`;

// The reason in a sentence, by the kind of the mistake.
const SENTENCES = {
    over: (made, best) => `${first(best.name)} takes all that is left off.`,
    last: (made, best) => (best.ends > made.ends
        ? `Count the throws that end it: ${best.ends} of 36 after ${best.name}, ${made.ends} after ${made.name}.`
        : `${made.ends} of 36 throws end it after ${made.name}, ${best.ends} after ${
            best.name}, which is faster after the others.`),
    roll: (made, best) => `${leaves(made, best)}: without a double ${sumOf(made.points)} need at least ${
        many(rollsFor(made.points), "roll")}, ${sumOf(best.points)} only ${rollsFor(best.points)}.`,
    spare: (made, best) => `${leaves(made, best)}: in ${many(rollsFor(made.points), "roll")} without a double ${
        sumOf(made.points)} need each number to take one off, and with ${sumOf(best.points)} one may miss.`,
    fewer: (made, best) => `Here filling is worth more than ${
        sumOf(best.points) - sumOf(made.points) === 1 ? "a checker" : "checkers"} off: ${missesOf(made, best)}`,
    misses: (made, best) => `As many come off, but ${missesOf(made, best)}`,
    ace: (made, best) => `${offBeside(made, best)} ${first(made.name)} leaves ${
        many(made.points[0], "checker")} on the ace point, ${best.name} ${best.points[0] || "none"}: there each `
        + "number over an ace is wasted in part.",
    stack: (made, best) => `${offBeside(made, best)} ${first(made.name)} leaves ${tallest(made.points)} on the ${
        made.points.lastIndexOf(tallest(made.points)) + 1} point, and after ${best.name} no point has more than ${
        tallest(best.points)}.`,
    close: (made, best, lost) => `${lost <= CLOSE ? "Too close for a rule" : "No rule shows it"}: the checkers off, `
        + `the numbers that miss, the ace point and the stacks all allow ${made.name}.${made.after > best.after
            ? ` But after the next roll it leaves ${mean(made.after)} on average, ${best.name} ${mean(best.after)}.`
            : ""}`,
};
const CLOSE = 20; // thousandths of a roll that are lost where it is too close for a rule

// What is against it.
const afterwards = (made, best) => (made.after > 0 && made.after < best.after
    ? `Yours has fewer left after the next roll, ${mean(made.after)} for ${mean(best.after)} on average, and `
        + "pays for it later." : null);

// The mean after a roll that is played as recorded, as a numerator over the database's whole.
function meanAfter(database, points, roll) {
    const at = sumOf(points) > 0 ? database.play(points, roll).to : points;
    const { numerator, denominator } = database.mean(at);
    return numerator * (database.denominator / denominator);
}

// How the 36 next throws differ, and the dearest, where it makes a third and is played otherwise.
function throwsOf(database, made, best) {
    const losses = ROLLS.map((roll) => ({
        roll, lost: meanAfter(database, made, roll) - meanAfter(database, best, roll),
    }));
    const count = (is) => losses.filter(({ lost }) => is(lost))
        .reduce((sum, { roll }) => sum + weight(roll), 0);
    const cost = ({ roll, lost }) => BigInt(weight(roll)) * lost;
    const dearest = losses.reduce((most, one) => (cost(one) > cost(most) ? one : most));
    const replies = [made, best].map((points) =>
        ({ points, ...playFrom(database, points, dearest.roll) }));
    const isTelling = 3n * cost(dearest) >= losses.reduce((sum, one) => sum + cost(one), 0n)
        && replies[0].text !== replies[1].text;
    return {
        worse: count((lost) => lost > 0n), better: count((lost) => lost < 0n),
        ...(isTelling ? { roll: dearest.roll, replies } : { roll: null, replies: [] }),
    };
}

// How many thousandths of a roll one of two positions is worse than the other.
function lostBy(database, made, best) {
    const [mine, least] = [made, best].map((at) => database.mean(at));
    const [more, whole] = [mine.numerator * least.denominator - least.numerator * mine.denominator,
        mine.denominator * least.denominator];
    return Number((2000n * more + whole) / (2n * whole));
}

// Why a play is right: what the next best leaves beside it, where there is one.
function rightly(database, points, roll, to) {
    const next = database.moves(points, roll).find(({ loss }) => loss.numerator > 0n)?.to;
    if (!next) return { kind: null, says: "No play of this roll loses anything.", rows: [] };
    const text = notation(database.playTo(points, roll, next).moves.map((move) => [move.from, move.to]));
    const made = { ...leftBy(database, next), name: `the next best (${text})` };
    const kind = kindOf(next, to);
    const says = SENTENCES[kind](made, { ...leftBy(database, to), name: "yours" }, lostBy(database, next, to));
    return { kind, says, rows: [] };
}

// Why a play loses beside the recorded one, or wins beside the next best.
export function reasonsOf(database, points, roll, to) {
    const { to: wanted } = database.play(points, roll);
    if (database.loss(points, roll, to).numerator === 0n) {
        return { against: null, throws: null, ...rightly(database, points, roll, to) };
    }
    const [made, best] = [[to, "yours"], [wanted, "the best play"]].map(([at, name]) =>
        ({ ...leftBy(database, at), name }));
    const kind = kindOf(to, wanted);
    return {
        kind, says: SENTENCES[kind](made, best, lostBy(database, to, wanted)), against: afterwards(made, best),
        rows: rowsOf(made, best, kind),
        throws: sumOf(wanted) === 0 ? null : throwsOf(database, to, wanted),
    };
}
