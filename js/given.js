// What a caller may hand over in place of lists: a text of a position, a roll or a play, and what a call has answered. Each
// is read into a list, which the calls of a database take.
import { isTooLong, readPosition, readRoll, shown } from "./checks.js";
import { read } from "./notation.js";

const ROLL = /^[ \t\r\n\u00a0]*([0-9])[ \t\r\n\u00a0]*[-,]?[ \t\r\n\u00a0]*([0-9])[ \t\r\n\u00a0]*$/;

// A word of a play: a point, those at which a checker stops, and how many checkers move so.
const STEPS = /^([1-6])((?:\/(?:off|[0-6]))+)(?:\(([1-4])\))?$/i;
const MOST_MOVES = 4;

const has = (value, name) => typeof value === "object" && value !== null && !Array.isArray(value) && name in value;

// The six counts of a position: of a list, of a text that `read` takes, or of what such a text was read as.
export function positionOf(value) {
    if (typeof value === "string") return read(value).mine;
    return readPosition(has(value, "mine") ? value.mine : value);
}

// Both sides of a race, of which the first may tell the second one.
export function sidesOf(mine, theirs) {
    if (theirs !== undefined && theirs !== null) return [positionOf(mine), positionOf(theirs)];
    const race = typeof mine === "string" ? read(mine) : mine;
    if (!has(race, "theirs") || race.theirs === null) {
        throw new TypeError("the opponent's position is missing, as a second one or in an XGID");
    }
    return [positionOf(race), positionOf(race.theirs)];
}

// Two dice: of a list, of a text like 21 or 2-1, or of the number 21.
export function rollOf(value) {
    if (typeof value === "string") {
        const [, one, other] = (!isTooLong(value) && ROLL.exec(value)) || [];
        if (one === undefined) throw new TypeError(`a roll is two dice, as in 21 or "2-1", and not ${shown(value)}`);
        return [Number(one), Number(other)];
    }
    if (typeof value !== "number") return readRoll(value);
    if (!Number.isInteger(value) || value < 10 || value > 99) {
        throw new RangeError(`a roll is two dice, as in 21 or "2-1", and not ${value}`);
    }
    return [Math.floor(value / 10), value % 10];
}

// The six counts to which a play leads: its moves as a text, a play or a choice that was answered, or a position.
export function targetOf(counts, value) {
    if (has(value, "to")) return readPosition(value.to);
    const words = typeof value === "string" && !isTooLong(value) ? value.split(/[ \t\r\n\u00a0]+/).filter(Boolean) : [];
    const steps = words.map((word) => STEPS.exec(word));
    // six counts have more slashes between them than a roll has moves
    if (steps.length === 0 || steps.includes(null) || value.split("/").length - 1 > MOST_MOVES) return positionOf(value);
    const board = [0, ...counts];
    for (const [, source, stops, times = "1"] of steps) {
        let from = Number(source);
        for (const stop of stops.slice(1).toLowerCase().split("/")) {
            const to = stop === "off" ? 0 : Number(stop);
            if (to >= from) throw new RangeError(`no checker moves so: ${shown(value)}`);
            board[from] -= Number(times);
            board[to] += Number(times);
            from = to;
        }
    }
    // they may be told in another order than that in which they can be made
    const point = board.findIndex((count) => count < 0);
    if (point >= 0) throw new RangeError(`there is no checker on point ${point} for ${shown(value)}`);
    return board.slice(1);
}

// The moves of a play as a player writes them: 4/2 2/1, and 6/off where a checker is borne off.
export const playText = (moves) => moves.map(({ from, to }) => `${from}/${to || "off"}`).join(" ");
