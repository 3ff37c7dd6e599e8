// Databases that come and go, which one is needed, and what the open one says.
import { lessonOf } from "./lesson/state.js";
import { FIRST, GREATEST, keyOf, pipsOf } from "./points.js";
import { mostOf } from "./question/questions.js";

// The bound of the database that is built first.
export const firstBound = ({ points }) => (pipsOf(points) > FIRST ? GREATEST : FIRST);

// Whether a position, lesson, drill, match or link needs the whole board.
export function needsMore(state) {
    const { database, drill, kept, hand: { theirs }, match, sheet } = state;
    if (!database || database.bound >= GREATEST) return false;
    return state.bound === GREATEST
        || [drill, sheet?.drill].some((one) => one && database.bound < mostOf(one))
        || Boolean(theirs && pipsOf(theirs) > database.bound)
        || [state, ...kept, ...(lessonOf(state)?.steps || []), ...(match?.turns || [])]
            .some(({ points }) => pipsOf(points) > database.bound);
}

// How much longer the whole board takes than 44 pips; and the most unasked, in ms.
const LONGER = 4;
const UNASKED = 10000;

// Whether the whole board is to be built now: it is needed, or the machine is fast enough.
export function wantsMore(state) {
    const { database, isCompact, work: { loads, isWidening, notWide, isGivenUp } } = state;
    if (!database || loads > 0 || isWidening || database.bound >= GREATEST) return false;
    if (needsMore(state)) return !isGivenUp;
    return !notWide && !isCompact && LONGER * database.took < UNASKED;
}

export const NO_WORK = {
    loads: 0, // how many databases are being built or checked, which nothing is asked meanwhile
    isWidening: false, // whether the whole board is built beside the open one
    notWide: "", // why it couldn't be, or ""
    isGivenUp: false, // whether something needed it then
};

const withWork = (state, work) => ({ ...state, work: { ...state.work, ...work } });
const loaded = (state) => withWork(state, { loads: state.work.loads - 1 });

// A database begins to be built or checked.
export const loading = (state) => ({ ...withWork(state, { loads: state.work.loads + 1 }), trouble: "" });

// Nothing is known of a database that has just been opened.
const NOTHING_KNOWN = { answers: new Map(), rolls: new Map(), said: "" };

// It is open, one that was built in so many milliseconds, or a file of one's own.
export function opened(state, { bound, positions, took = Infinity }, isOwn = false) {
    return { ...loaded(state), ...NOTHING_KNOWN, database: { bound, positions, took, isOwn } };
}

// The whole board begins to be built beside the open database.
export const widening = (state) => withWork(state, { isWidening: true });

// It isn't wanted any more.
export const dropped = (state) => withWork(state, { isWidening: false });

// It is open in place of the former one; nothing of a file's answers stays.
export function widened(state, { bound, positions }) {
    const { isOwn, bound: former } = state.database;
    const next = {
        ...dropped(state), database: { bound, positions, took: Infinity, isOwn: false },
    };
    if (!isOwn) {
        return {
            ...next, answers: new Map([...state.answers].filter(([, { refusal }]) => !refusal)),
        };
    }
    const notice =
        `Your file goes to ${former} pips, so the database of ${bound} pips was built in its place.`;
    return { ...next, ...NOTHING_KNOWN, notice };
}

// It couldn't be built, and the open one goes on. What nobody has asked for fails in silence.
export function notWidened(state, why) {
    const next = withWork(state, { isWidening: false, notWide: why, isGivenUp: needsMore(state) });
    if (!next.work.isGivenUp) return next;
    const { bound } = state.database;
    const trouble = `The database of ${GREATEST} pips couldn\u2019t be built: ${why}. `
        + `That of ${bound} pips goes on.`;
    return { ...next, trouble };
}

// It is tried again.
export const triedAgain = (state) => ({ ...withWork(state, { notWide: "", isGivenUp: false }), trouble: "" });

// It was refused, or something went wrong: what was open stays so.
export const refused = (state, words) => ({ ...loaded(state), trouble: words });

// Nothing can be computed any more, or never could: what is known stays, and nothing else comes.
export const ended = (state, words) => ({ ...withWork(state, { loads: 0 }), database: null, trouble: words });

// The answer for a position, or undefined while it isn't known.
export const answerOf = (state, points = state.points) => state.answers.get(keyOf(points));

// The answer, or undefined also while the whole board is made ready for it.
export function knownOf(state, points = state.points) {
    const answer = answerOf(state, points);
    return answer?.status === 4 && state.database !== null && !state.work.isGivenUp ? undefined : answer;
}

// The answer for the other side, where there is one.
export const theirAnswer = (state) => (state.hand.theirs ? knownOf(state, state.hand.theirs) : undefined);

// The 21 rolls of the board's position, or undefined while they aren't known.
export const rollsOf = (state) => state.rolls.get(keyOf(state.points));

// Whether an answer that isn't known will come.
export const isComing = (state) => state.work.loads > 0 || state.database !== null;
