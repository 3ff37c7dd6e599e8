// The state as the page begins, where an address leads, and what a student did.
import { afresh, NO_HAND, spoken } from "./board/state.js";
import { NO_WORK } from "./databases.js";
import { EMPTY_FIELDS } from "./fields.js";
import { NOBODY, refuseMemory } from "./home/state.js";
import { lessonOf } from "./lesson/state.js";
import { readLessons } from "./lesson/text.js";
import { modeOf } from "./mode.js";
import { askNext, changeDrill, heardOf, NO_RUN, questionOf } from "./question/state.js";
import { ADDITIONS } from "./rules.js";

// The state of a link, before anything is known, on a page with these lessons.
export function begin(link, lessons = []) {
    return placed({
        ...link, // page, points, kept, title, roll, guess, bound, and what is trained; place is the question
        lessons, // those that come with the page
        given: null, // the one of the link or of a file, read
        isAnswered: false, // whether the answer of a lesson's step is open
        runs: new Map(), // other drills that were begun, by their words
        draft: null, // the lesson that is made: its title and its steps, each with a key of its own
        notes: {}, fields: EMPTY_FIELDS, // what is said beside fields and buttons, and what was typed there
        stops: { rolls: null, plays: null, board: null }, // where Tab stops within these
        // The open one: its bound, positions, build time, and whether it is a file
        database: null,
        trouble: "", // what went wrong, in words
        answers: new Map(), // what the open database says of a position
        why: null, // and of a play that was guessed and loses: which one, and the sentences
        rolls: new Map(), // and of its 21 rolls
        match: null, sheet: null, // with its graded plays; and a sheet's drill with its questions and key
        weights: ADDITIONS, measures: null, // of one's own rule; and how far rules are off over the open database
        filled: null, // the values of a lesson's steps, with the lesson and the database
        said: "", // what is read aloud
        notice: "", // what a link has that can't be taken, or what has ended
        run: NO_RUN, hand: NO_HAND, work: NO_WORK, student: NOBODY,
    }, link);
}

// The state with the lesson of its link at its step, and what of the link is refused.
function placed(state, { isPlaced, faults = [] }) {
    const given = state.text ? readLessons(state.text).lessons[0] || null : null;
    const read = { ...state, given, isAnswered: false, notice: faults.join(" ") };
    const lesson = lessonOf(read);
    if (!lesson) {
        const none = state.lesson
            ? `The link asks for lesson ${state.lesson}, and there are ${state.lessons.length}.`
            : "";
        return {
            ...read, lesson: null, step: 1, notice: [read.notice, none].filter(Boolean).join(" "),
        };
    }
    const step = Math.min(state.step, lesson.steps.length);
    const past = step < state.step
        ? `The link asks for step ${state.step}, and the lesson has ${lesson.steps.length}.` : "";
    const { points, roll } = lesson.steps[step - 1];
    return {
        ...read, step, notice: [read.notice, past].filter(Boolean).join(" "),
        ...(isPlaced ? {} : { points, roll, guess: Boolean(roll) }),
    };
}

// What another address states. Its database is for whoever loads it.
export function visit(state, link) {
    const { page, points, kept, title, roll, guess, bound, drill, estimate, lesson, text, step,
        place, isPlaced } = link;
    const isSame = JSON.stringify(drill) === JSON.stringify(state.drill);
    const begun = isSame ? state : changeDrill(state, drill);
    const stated = {
        ...afresh(begun), page, points, kept, title, roll, guess, bound, place, isPlaced,
    };
    const next = placed({ ...stated, estimate, lesson, text, step }, link);
    if (drill && !isPlaced && next.run.questions) return askNext(next, place);
    const asked = questionOf(next) && modeOf(next).trains ? heardOf(next) : "";
    return { ...next, said: [next.notice, asked, spoken(next)].filter(Boolean).join(" ") };
}

// The state at the reader's next action: questions to confirm and read alerts are gone.
export function passed(state) {
    const isRead = state.trouble !== "" && state.database !== null && !state.work.isGivenUp;
    const next = isRead ? { ...state, trouble: "" } : state;
    return state.student.asks === null ? next : refuseMemory(next, "");
}

// A file was given that the page doesn't read.
export const refuseFile = (state, what) => ({
    ...state, trouble: `The file is ${what}. This page reads databases, matches (.mat, .sgf) and lessons.`,
});
