// What begins at home, what is kept of a student, and what is done there.
import { copied, fail, fill, note } from "../fields.js";
import { drillOfLesson } from "../lesson/rooms.js";
import {
    answered, EMPTY, holdsLess, interrupted, learnt, readMemory, todays, todaysEstimates, written,
} from "./memory.js";
import { drillOf, readSeed } from "../question/questions.js";
import { beginDrill, withRun } from "../question/state.js";
import { LEVELS, themeOf } from "../question/themes.js";
import { daysOf, heldIn } from "./view.js";

// Ten that were interrupted go on, at the first question that is open.
function goOn(state, { drill, picks }) {
    const [guesses, estimates] = drill.ask === "play" ? [picks, []] : [[], picks];
    const all = { guesses, again: [], estimates, estimatesAgain: [], goesOn: true };
    return withRun(beginDrill(state, drill), { picks: all });
}

// Today's ten begin, or ten others; or ten estimates. Those that were interrupted go on.
function beginToday(state, isAnew = false) {
    const { memory, day } = state.student;
    const open = isAnew ? null : interrupted(memory, day);
    return open ? goOn(state, open) : beginDrill(state, todays(memory, day));
}

function beginEstimates(state) {
    const { memory, day } = state.student;
    const open = interrupted(memory, day, false);
    return open ? goOn(state, open) : beginDrill(state, todaysEstimates(memory, day));
}

// A drill of what the fields say, whose seed is the one there, or else another one.
export function chooseDrill(state, { theme, asked: ask, level, seed }, another) {
    const read = seed.trim() === "" ? another : readSeed(seed);
    if (read === null) {
        return fail(state, "seed", "A seed is a whole number from 1 to 999999999. Without one each drill is another.");
    }
    const { isPlayed, words } = themeOf(theme);
    const isPossible = ask !== "play" || isPlayed;
    const drill = drillOf({ theme, seed: read, ask: isPossible ? ask : "effective", level });
    const next = fill(beginDrill(state, drill), "seed", "");
    const none = LEVELS.find(({ name }) => name === level).words.toLowerCase();
    const notice = !isPossible
        ? `${words}: nothing is to be decided there, so the EPC is asked.`
        : level === (drill.level ?? "any") ? ""
        : ask === "play" ? `${words}: no question there is ${none}, so any are asked.`
        : `Plays alone are ${none}: any positions are asked.`;
    return { ...next, notice };
}

export const NOBODY = {
    memory: EMPTY, // what a student did
    day: 0, // the number of the local day
    unkept: "", // why nothing is kept, or ""
    isOpen: false, // whether all that is kept is shown
    asks: null, // what has to be confirmed: "forget", a text, or null
    canUndo: false,
};

const withStudent = (state, student) => ({ ...state, student: { ...state.student, ...student } });

// The state with what a student did up to a day, and why that isn't kept, or "".
export const withMemory = (state, memory, day, unkept, told = "") =>
    note(fill(withStudent(state, { memory, day, unkept }), "memory text", null), "memory", told);

// The text of what is kept, or what was typed in its place.
export const memoryText = ({ fields, student }) => fields["memory text"] ?? written(student.memory);

// The state with another memory in the place of the one before, which can be had back.
const replaceMemory = (state, ...words) =>
    withStudent(withMemory(state, ...words), { canUndo: true });

// The state with why a text is no memory, or has to be confirmed; nothing of it is taken.
export const refuseMemory = (state, why, asks = null) => fail(withStudent(state, { asks }), "memory", why);

const askToForget = (state, told) => note(withStudent(state, { asks: "forget" }), "memory", told);

// Saved progress is shown, or isn't any more.
const openMemory = (state) => withStudent(state, { isOpen: !state.student.isOpen });

// What is done at home.
export function homeActions({ session, change, window, store, today, focusOn, anySeed }) {
    const keep = (state, how) => {
        const day = today();
        return withMemory(state, store.change(state.student.memory, (kept) => how(kept, day)), day, store.why);
    };
    return {
        // what was answered, and which lesson was read or its drill done
        remember: (state, answer) => keep(state, (kept, day) => answered(kept, answer, day)),
        learn: (state, lesson) => keep(state, (kept) => learnt(kept, lesson)),
        // what another page of the browser has kept, and a day that begins meanwhile
        look() {
            const memory = store.read(session.state.student.memory);
            session.become(withMemory(session.state, memory, today(), store.why), false);
        },
        drill: () => change(chooseDrill, session.state.fields, anySeed()),
        drillOfLesson: (number) => change(beginDrill, drillOfLesson(number, anySeed())),
        // today's ten, or ten estimates, of what is kept by now
        today(isAnew = false) { this.remembered(beginToday, isAnew); },
        estimates() { this.remembered(beginEstimates); },
        remembered(begin, ...words) {
            const memory = store.read(session.state.student.memory);
            change(withMemory, memory, today(), store.why);
            change(begin, ...words);
        },
        openMemory: () => change(openMemory),
        async copyMemory() {
            change(note, "memory", await copied(window, written(session.state.student.memory), "The text is copied.",
                "The browser lets this page copy nothing: copy the text from the field."));
        },
        // one that holds less takes the place of what is kept only once confirmed
        takeMemory() {
            const value = memoryText(session.state);
            const { memory, fault } = readMemory(value);
            if (fault) {
                change(refuseMemory, `Nothing of the text is restored. ${fault}`);
                focusOn(["memory text"], "today");
                return;
            }
            const { asks, memory: own } = session.state.student;
            const kept = store.read(own);
            if (asks !== value && holdsLess(memory, kept)) {
                change(refuseMemory, `The text holds less than is kept here: ${heldIn(memory)}, and not `
                    + `${heldIn(kept)}.`, value);
                return;
            }
            change(replaceMemory, store.take(own, memory), today(), store.why, "The text is restored.");
        },
        // all is forgotten at the second tap
        forget() {
            const { memory, asks } = session.state.student;
            if (asks === "forget") {
                change(replaceMemory, store.forget(memory), today(), store.why, "All is deleted.");
            } else change(askToForget, `Tap again to delete all: ${heldIn(memory)}.`);
        },
        undoMemory() {
            const memory = store.undo(session.state.student.memory);
            change(replaceMemory, memory, today(), store.why, `As it was before: ${daysOf(memory)}.`);
        },
    };
}
