// What the free board asks the database: numbers of positions, and rolls, with their texts.
import { BearoffError } from "../../js/errors.js";
import { answerOf, rollsOf, theirAnswer } from "../databases.js";
import { modeOf } from "../mode.js";
import { keyOf, ROLLS } from "../points.js";
import { spoken, spokenOfThem } from "./state.js";
import { decimal, notation, percent, REFUSALS } from "../texts.js";

const exactText = ({ numerator, denominator }) => `${numerator}/${denominator}`;

// An exact number with its thousandths.
function roundedOf(number) {
    const thousandths = BigInt(number.thousandths);
    return { exact: exactText(number), thousandths, text: decimal(thousandths) };
}

// For each number of rolls that can be the last: the chance of exactly so many, and within so many.
function chancesOf(database, points) {
    return database.distribution(points).flatMap((share, rolls) => {
        if (share.numerator === 0n) return [];
        const exactly = BigInt(database.thousandths(share));
        const within = BigInt(database.within(points, rolls).thousandths);
        return [{ rolls, exactly, within, exactlyText: percent(exactly),
            withinText: percent(within) }];
    });
}

// Every position that a roll can lead to, with what it loses, the best first.
export const choicesOf = (database, points, roll) => database.moves(points, roll).map((choice) => ({
    to: choice.to, lost: choice.loss, loss: BigInt(database.thousandths(choice.loss)),
    isBest: choice.loss.numerator === 0n,
}));

// Moves as pairs of points, and as players write them.
function playOf({ moves, to }) {
    const pairs = moves.map((move) => [move.from, move.to]);
    return { to, moves: pairs, text: notation(pairs) };
}

// The recorded play of a roll.
export const playFrom = (database, points, roll) => playOf(database.play(points, roll));

// Each choice with the play that leads there.
export function playsOf(database, points, roll) {
    const recorded = database.play(points, roll).to.join();
    return choicesOf(database, points, roll).map(({ to, lost, loss, isBest }) => ({
        ...playOf(database.playTo(points, roll, to)), loss, lossText: decimal(loss), exact: exactText(lost),
        isBest, isRecorded: to.join() === recorded,
    }));
}

// Something of the positions that are still shown.
function withShown(state, name, points, reply) {
    const shown = new Set([state, ...state.kept].map((one) => keyOf(one.points)));
    const { theirs } = state.hand;
    if (theirs) shown.add(keyOf(theirs));
    const all = new Map(state[name]).set(keyOf(points), reply);
    return { ...state, [name]: new Map([...all].filter(([key]) => shown.has(key))) };
}

// The numbers of a position. Over the bound, or with too many checkers, only why there are none.
export function answer(database, points) {
    const { bound } = database;
    let standing = null;
    try {
        standing = database.positionInfo(points);
        const [mean, effective, wastage] = ["mean", "epc", "wastage"].map((name) =>
            roundedOf(database[name](points)));
        return { points, standing, bound, mean, effective, wastage, distribution: chancesOf(database, points) };
    } catch (error) {
        if (!(error instanceof BearoffError && REFUSALS[error.status])) throw error;
        return { points, standing, bound, refusal: REFUSALS[error.status], status: error.status };
    }
}

// The 21 rolls of a position that was answered, each with its plays; none where no checker is left.
export function allRolls(database, points) {
    if (database.positionInfo(points).checkers === 0) return [];
    return ROLLS.map((dice) => ({ dice, plays: playsOf(database, points, dice) }));
}

// What stands for the numbers of a position that can't be computed.
const none = (refusal, { bound }) => ({ refusal, status: 0, standing: null, bound });

// The numbers of a position have come: of the board's, or of another one that is shown.
function becomes(state, { points }, reply) {
    const next = withShown(state, "answers", points, reply);
    if (keyOf(points) !== keyOf(state.points)) {
        const { theirs } = state.hand;
        const more = theirs && keyOf(points) === keyOf(theirs) ? spokenOfThem(next) : "";
        return { ...next, said: [next.said, more].filter(Boolean).join(" ") };
    }
    // what a lesson or a drill asks is heard before the numbers
    const { trains } = modeOf(state);
    const then = state.roll && trains ? "" : spoken(next);
    return { ...next, said: [trains ? state.said : "", then].filter(Boolean).join(" ") };
}

export const boardAsks = {
    ask: { wants: (state) => (answerOf(state) ? null : { points: state.points }), none, becomes },
    rolls: {
        wants: (state) => (answerOf(state).refusal || rollsOf(state) ? null : { points: state.points }),
        none: () => [],
        becomes: (state, { points }, reply) => withShown(state, "rolls", points, reply),
    },
    others: {
        wants(state) {
            const { theirs } = state.hand;
            if (theirs && !theirAnswer(state)) return { kind: "ask", points: theirs };
            const kept = state.kept.find((entry) => !answerOf(state, entry.points));
            return kept ? { kind: "ask", points: kept.points } : null;
        },
        none, becomes,
    },
};

export const boardComputes = {
    ask: ({ database }, { points }) => answer(database, points),
    rolls: ({ database }, { points }) => allRolls(database, points),
};
