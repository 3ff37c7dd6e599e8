// Changes of the board: position, roll, play, and kept positions.
import { answerOf, knownOf, rollsOf, theirAnswer } from "../databases.js";
import { fill, note } from "../fields.js";
import { LONGEST_CAPTION, MOST_KEPT, PAGES, readTyped } from "../link.js";
import { modeOf } from "../mode.js";
import { GREATEST, keyOf, MOST_CHECKERS, sameRoll, sumOf } from "../points.js";
import { verdictOf, withAnswer } from "../question/state.js";
import { isWhole, reachedBy, ways } from "./steps.js";
import { inPips, oneLine } from "../texts.js";

// A digit that follows another one within so many milliseconds is its second.
const DIGITS_APART = 1000;

// What is begun at a position.
export const NO_HAND = {
    steps: [], // of the play that is made on the board, those that were made at once together
    picked: null, // the point there whose checker is to move
    shown: null, // the text of the play that was chosen, or null for the best
    typed: null, // a position that was typed and refused, with the reason
    theirs: null, // the checkers of the other side, where what was typed has them
    digits: null, // the digits that were typed on a point, and when
};

const withHand = (state, hand) => ({ ...state, hand: { ...state.hand, ...hand } });

// The state with nothing that was begun or told at a former position.
export const afresh = (state) => fill({ ...state, hand: NO_HAND, notes: {} }, "estimate", "");

// Another position on the board.
export function setPoints(state, points) {
    const next = { ...afresh(state), points, roll: null, stops: { ...state.stops, board: null } };
    return { ...next, said: spoken(next) };
}

// A point with another count: as many as there are checkers for.
function setCount(state, point, count) {
    const most = state.points[point - 1] + freeOf(state);
    const points = [...state.points];
    points[point - 1] = Math.max(0, Math.min(most, count));
    return keyOf(points) === keyOf(state.points) ? state : setPoints(state, points);
}

export const addCheckers = (state, point, count) =>
    setCount(state, point, state.points[point - 1] + count);

// What the keys make of a count with at most so many checkers.
function steered(key, count, most) {
    return {
        ArrowUp: count + 1, "+": count + 1, ArrowDown: count - 1, "-": count - 1, Delete: 0,
        Backspace: 0,
        Home: 0, End: most, PageUp: count + 5, PageDown: count - 5,
    }[key];
}

// A key on a point, or null for another key; two digits in a row are a number.
export function pressed(state, point, key, now) {
    const count = state.points[point - 1];
    if (!/^\d$/.test(key)) {
        const value = steered(key, count, count + freeOf(state));
        return value === undefined ? null : withHand(setCount(state, point, value), { digits: null });
    }
    const { digits } = state.hand;
    const isSecond = digits !== null && digits.point === point && now - digits.at < DIGITS_APART;
    const both = isSecond ? digits.text + key : key;
    const text = Number(both) <= MOST_CHECKERS ? both : key;
    return withHand(setCount(state, point, Number(text)), { digits: { point, text, at: now } });
}

// A typed position with its roll; what is refused stays in the field, with the reason.
export function typePosition(state, text) {
    const { points, roll, theirs, fault } = readTyped(text);
    if (fault) return withHand(state, { typed: { text, fault } });
    const next = withHand({ ...setPoints(state, points), roll }, { theirs });
    return { ...next, said: spoken(next) };
}

// The state with a play that is looked at, and none that is being made.
export const lookingAt = (state, shown, steps = []) => withHand(state, { shown, steps, picked: null });

// A roll, or none.
export function chooseRoll(state, roll) {
    const next = {
        ...lookingAt(state, null), roll, stops: { ...state.stops, plays: null }, said: "",
    };
    if (!roll) return next;
    return {
        ...next, said: modeOf(next).hidden.plays ? `Which play of ${roll.join("-")} is best?`
            : heardPlays(next),
    };
}

// A play of the roll: a guess, once, where it is to be guessed, or one to look at.
export function choosePlay(state, text) {
    const chosen = chosenOf(state);
    const play = chosen?.plays.find((one) => one.text === text);
    if (!play) return state;
    if (!modeOf(state).hidden.plays) return { ...withHand(state, { shown: text }), said: heardPlay(play) };
    const guess = {
        at: keyOf(state.points), roll: state.roll, play, best: byLoss(chosen.plays)[0],
    };
    const next = withAnswer(lookingAt(state, text), modeOf(state).round.guesses, guess);
    const { first, all } = verdictOf(next);
    return { ...next, said: `${first} ${all}` };
}

const nameOf = (place) => (place === 0 ? "off" : `point ${place}`);

// A place of a play being made: the picked checker goes there, or one there is picked or put back.
export function touch(state, place) {
    const making = makingOf(state);
    if (!making) return state;
    const { hand } = state;
    const made = making.ways.get(hand.picked)?.get(place);
    if (made) {
        const next = { ...withHand(state, { picked: null, steps: [...hand.steps, made] }), notes: {} };
        const { play } = makingOf(next);
        const from = nameOf(made[0].move[0]);
        return {
            ...next, said: play
                ? `${play.text} is made: Enter plays it, Backspace undoes.`
                : `From ${from} to ${nameOf(place)}.`,
        };
    }
    const picked = making.ways.has(place) && hand.picked !== place ? place : null;
    const to = picked === null ? [] : [...making.ways.get(picked).keys()].map(nameOf);
    const isQuiet = picked !== null || hand.picked === place || making.ways.size === 0;
    const why = isQuiet ? "" : hand.picked === null
        ? "No checker can move from there." : "The checker can\u2019t go there.";
    const said = why || (picked === null ? "" : `Point ${place}: to ${to.join(", ")}.`);
    return note({ ...withHand(state, { picked }), said }, "board", why);
}

// Without what was moved last, or with the checker put back that was picked.
export function undo(state) {
    const { steps, picked } = state.hand;
    if (picked !== null) return { ...withHand(state, { picked: null }), said: "" };
    return steps.length === 0 ? state : { ...withHand(state, { steps: steps.slice(0, -1) }), said: "Undone." };
}

// The position after the play that is shown.
export function playOn(state) {
    const play = shownPlay(state);
    return play ? setPoints(state, play.to) : state;
}

// Where Tab stops within a group.
export function stopAt(state, group, key) {
    return state.stops[group] === key
        ? state : { ...state, stops: { ...state.stops, [group]: key } };
}

// Keeps the board's position.
export function keep(state) {
    if (isKept(state) || isFull(state)) return state;
    return {
        ...state, kept: [...state.kept, { points: state.points, caption: "" }],
        said: "The position is kept.",
    };
}

export function remove(state, key) {
    const kept = state.kept.filter(({ points }) => keyOf(points) !== key);
    return kept.length === state.kept.length
        ? state : { ...state, kept, said: "The position is removed." };
}

export function setCaption(state, key, typed) {
    const caption = oneLine(typed, LONGEST_CAPTION);
    return {
        ...state, kept: state.kept.map((entry) =>
            (keyOf(entry.points) === key ? { ...entry, caption } : entry)),
    };
}

const freeOf = ({ points }) => MOST_CHECKERS - sumOf(points);

// The best first; of plays that lose as much, as they came.
export function byLoss(plays) {
    const rank = (play) => (play.isRecorded ? 0 : play.isBest ? 1 : 2);
    const order = (one, other) => (one < other ? -1 : one > other ? 1 : 0);
    return [...plays].sort((one, other) => rank(one) - rank(other) || order(one.loss, other.loss));
}

// The plays of the chosen roll, or undefined.
export const chosenOf = (state) => rollsOf(state)?.find(({ dice }) => sameRoll(dice, state.roll));

// The play being made: points, where checkers can go, and the play once whole; or null.
export function makingOf(state) {
    if (state.isCompact || !state.roll || !modeOf(state).hidden.plays) return null;
    const list = chosenOf(state)?.plays;
    if (!list) return { points: state.points, ways: new Map(), play: null };
    const at = reachedBy(state.points, state.roll, state.hand.steps.flat());
    if (isWhole(at)) {
        return {
            points: at.points, ways: new Map(),
            play: list.find(({ to }) => keyOf(to) === keyOf(at.points)) || null,
        };
    }
    return {
        points: at.points, ways: ways(at, new Set(list.map(({ to }) => keyOf(to)))), play: null,
    };
}

// Whether a play was begun on the board.
export const hasBegun = ({ hand: { steps, picked } }) => steps.length > 0 || picked !== null;

// The play that the board shows: the chosen one, or the best of the chosen roll.
export function shownPlay(state) {
    const chosen = chosenOf(state);
    if (!chosen || modeOf(state).hidden.plays) return null;
    return chosen.plays.find(({ text }) => text === state.hand.shown) || byLoss(chosen.plays)[0];
}

// What the shown play loses in pips of EPC, exactly, or null for nothing.
export function lostPips(state) {
    const play = shownPlay(state);
    return play && !play.isBest ? inPips(play.exact) : null;
}

// The board's position as it is kept, or undefined; and its caption there.
const keptOf = (state) => state.kept.find(({ points }) => keyOf(points) === keyOf(state.points));
export const isKept = (state) => Boolean(keptOf(state));
export const captionOf = (state) => keptOf(state)?.caption || "";

export const isFull = (state) => state.kept.length >= MOST_KEPT;

// The kept positions by EPC, unknown ones last; unsorted while a roll is guessed.
export function orderOf(state) {
    if (modeOf(state).hidden.plays) return state.kept;
    const known = ({ points }) => answerOf(state, points)?.effective?.thousandths ?? null;
    return state.kept.map((entry, place) => ({ entry, place, count: known(entry) }))
        .sort((one, other) => {
        if (one.count === null || other.count === null) {
            return (one.count === null) - (other.count === null) || one.place - other.place;
        }
        return one.count < other.count ? -1 : one.count > other.count ? 1 : one.place - other.place;
    }).map(({ entry }) => entry);
}

// What is said of a position, once it is known and not to be estimated.
export function spoken(state) {
    const answer = answerOf(state);
    const { screen, hidden } = modeOf(state);
    if (!answer || hidden.numbers || PAGES.includes(screen)) return "";
    if (!knownOf(state)) {
        return `${answer.standing.pips} pips: the database of ${GREATEST} pips is being built.`;
    }
    if (answer.refusal) return answer.refusal;
    const { standing, mean, effective, wastage } = answer;
    return [
        `${standing.pips} pips, mean ${mean.text} rolls, effective pip count ${effective.text}, `
            + `wastage ${wastage.text}.`, spokenOfThem(state),
    ].filter(Boolean).join(" ");
}

// What is said of the other side.
export function spokenOfThem(state) {
    const answer = theirAnswer(state);
    if (!answer || answer.refusal || modeOf(state).hidden.numbers) return "";
    const { standing, effective, wastage } = answer;
    return `The other side: ${standing.pips} pips, effective pip count ${effective.text}, wastage ${
        wastage.text}.`;
}

// What a play loses, as it is heard.
const heardPlay = ({ text, isBest, lossText }) =>
    (isBest ? `${text} loses nothing.` : `${text} loses ${lossText} of a roll.`);

// The plays of the roll as heard: the best, and how many others.
function heardPlays(state) {
    const list = chosenOf(state)?.plays;
    if (!list) return "";
    const [best, ...others] = byLoss(list);
    const more = others.length === 0 ? "It is the only play."
        : `The next of ${others.length} others, ${heardPlay(others[0])}`;
    return `${state.roll.join("-")}: best is ${best.text}. ${more}`;
}
