// A play made on the board checker by checker, towards one of the module's plays.
import { sumOf } from "../points.js";

const diceOf = ([one, other]) => (one === other ? Array(4).fill(one) : [one, other]);

// Where a die takes a checker: a point, 0 for off, or null.
function landing(points, from, die) {
    if (points[from - 1] === 0) return null;
    if (from > die) return from - die;
    return from === die || sumOf(points.slice(from)) === 0 ? 0 : null;
}

// The points after a checker was moved.
const after = (points, [from, to]) =>
    points.map((count, place) => count - (place + 1 === from ? 1 : 0) + (place + 1 === to ? 1 : 0));

function without(dice, die) {
    const rest = [...dice];
    rest.splice(rest.indexOf(die), 1);
    return rest;
}

// The steps that one die allows, of the checkers on some points.
const steps = (points, dice, froms) => [...new Set(dice)].flatMap((die) => froms.flatMap((from) => {
    const to = landing(points, from, die);
    return to === null ? [] : [{ move: [from, to], die }];
}));

const ALL = [6, 5, 4, 3, 2, 1];

export const isWhole = ({ points, dice }) => dice.length === 0 || sumOf(points) === 0;

// Whether the dice that are left can lead to one of some positions.
function leads(points, dice, ends) {
    if (isWhole({ points, dice })) return ends.has(points.join());
    return steps(points, dice, ALL)
        .some(({ move, die }) => leads(after(points, move), without(dice, die), ends));
}

// Where the steps that were made lead: the points, and the dice that are left.
export const reachedBy = (points, roll, made) => made.reduce(
    (at, { move, die }) => ({ points: after(at.points, move), dice: without(at.dice, die) }),
    { points, dice: diceOf(roll) });

// Where each checker can go towards one of `ends`, with the fewest steps; several dice count.
export function ways({ points, dice }, ends) {
    const found = new Map();
    for (const from of ALL) {
        const places = new Map();
        const going = [{ at: from, points, dice, made: [] }];
        for (const one of going) {
            for (const step of steps(one.points, one.dice, [one.at])) {
                const next = {
                    points: after(one.points, step.move), dice: without(one.dice, step.die),
                };
                const [, to] = step.move;
                if (places.has(to) || !leads(next.points, next.dice, ends)) continue;
                places.set(to, [...one.made, step]);
                if (to > 0) going.push({ ...next, at: to, made: places.get(to) });
            }
        }
        if (places.size > 0) found.set(from, places);
    }
    return found;
}
