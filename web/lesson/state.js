// A lesson: its step, its values, what rules of thumb are worth, and what is done in it.
import { answer, playsOf } from "../board/asks.js";
import { setPoints } from "../board/state.js";
import { fail } from "../fields.js";
import { modeOf } from "../mode.js";
import { inWords } from "../points.js";
import { changeDrill } from "../question/state.js";
import { positions } from "../question/themes.js";
import { rightInEach } from "../review/state.js";
import { lessonOfDrill } from "./rooms.js";
import { readWeight } from "../rules.js";
import { filledStep, hasValues, readLessons, writeLesson } from "./text.js";

// The lesson that is on, or null.
export const lessonOf = ({ lesson, lessons, given }) =>
    (lesson ? lessons[lesson - 1] : given) || null;

// The step of the lesson that is on, or null.
export const stepOf = (state) => lessonOf(state)?.steps[state.step - 1] || null;

// A step of the lesson as it is told, with its values filled in.
export function toldStep(state, place = state.step - 1) {
    const lesson = lessonOf(state);
    const { filled } = state;
    const isKnown = filled && filled.lesson === lesson && filled.database === state.database;
    return filledStep(lesson.steps[place], isKnown ? filled.values[place] : null);
}

// Whether the step of a lesson is about a rule of thumb, and so shows what each is worth.
export const showsRules = (state) => modeOf(state).trains && Boolean(stepOf(state)?.rule);

// What was measured of the rules over the open database, or null.
export const measuredOf = ({ measures, database }) =>
    (measures && measures.database === database ? measures : null);

// Another step of the lesson.
function goToStep(state, step) {
    if (!lessonOf(state)?.steps[step - 1]) return state;
    const { points, roll, text, ask } = toldStep(state, step - 1);
    return {
        ...setPoints(state, points), roll, guess: Boolean(roll), step, isAnswered: false,
        said: [
            `Step ${step} of ${lessonOf(state).steps.length}.`, text, ask,
            `The board: ${inWords(points)}.`,
        ].filter(Boolean).join(" "),
    };
}

function openAnswer(state) {
    return { ...state, isAnswered: true, said: stepOf(state) ? toldStep(state).answer : "" };
}

// A lesson that was given as a text, as by a file.
export function giveLesson(state, text) {
    const { lessons, fault } = readLessons(text);
    if (fault) return { ...state, trouble: `The lesson can't be read. ${fault}` };
    const next = {
        ...changeDrill(state, null), given: lessons[0], text: writeLesson(lessons[0]), trouble: "",
    };
    return goToStep(next, 1);
}

// Another weight of one's own rule, in halves of a pip. What is none is said beside its field.
function weigh(state, place, text) {
    const weight = readWeight(text);
    if (weight === null) {
        return fail(state, "weight", "A weight is a whole or a half number of pips, from 0 to 20.");
    }
    const weights = state.weights.map((one, other) => (other === place ? weight : one));
    return { ...state, weights, notes: {} };
}

// A lesson that a change has finished, by its last step or its drill's score; or null.
export function learntBetween(before, after) {
    const { drill, lesson, step } = after;
    if (drill) {
        const [was, right] = [before, after].map(rightInEach);
        const number = lessonOfDrill(drill);
        return number !== null && drill === before.drill && right.length > 0
            && was.includes(null) && !right.includes(null)
            ? [number, right.filter(Boolean).length, right.length] : null;
    }
    const steps = lessonOf(after)?.steps;
    if (!lesson || step !== steps.length) return null;
    const isOpen = (state) => state.lesson === lesson && state.step === step
        && (state.isAnswered || !steps[step - 1].answer);
    return isOpen(after) && !isOpen(before) ? [lesson, 0, 0] : null;
}

// The values of a lesson's steps by name; none beyond the database.
const valuesOf = (database, steps) => steps.map(({ points, roll }) => {
    const { standing, mean, effective, wastage, refusal } = answer(database, points);
    if (refusal) return {};
    const best = roll && standing.checkers > 0
        && playsOf(database, points, roll).find(({ isRecorded }) => isRecorded).text;
    return {
        pips: String(standing.pips), mean: mean.text, EPC: effective.text, wastage: wastage.text,
        ...(best ? { best } : {}),
    };
});

// Every position with a checker, and its effective pip count in thousandths.
export const countedIn = (database) => positions(database.bound).slice(1).map((points) =>
    ({ points, effective: database.epc(points).thousandths }));

export const lessonAsks = {
    measure: {
        wants: (state) => (showsRules(state) && measuredOf(state)?.weights !== state.weights
            ? { weights: state.weights } : null),
        none: () => ({ count: 0, rows: [] }),
        becomes: (state, { weights }, reply) =>
            ({ ...state, measures: { ...reply, database: state.database, weights } }),
    },
    fill: {
        wants(state) {
            const lesson = lessonOf(state);
            const isKnown = state.filled?.lesson === lesson && state.filled.database === state.database;
            return !lesson || !hasValues(lesson) || isKnown ? null
                : { lesson, steps: lesson.steps.map(({ points, roll }) => ({ points, roll })) };
        },
        none: () => [],
        becomes: (state, { lesson }, values) =>
            ({ ...state, filled: { lesson, database: state.database, values } }),
    },
};

export const lessonComputes = {
    measure: (desk, { weights }) => desk.measure(weights),
    fill: ({ database }, { steps }) => valuesOf(database, steps),
};

// What is done in a lesson.
export function lessonActions({ change, document, focusOn, onBoard, isWithin }) {
    return {
        answer() {
            change(openAnswer);
            document.querySelector(".answers")?.scrollIntoView({ block: "nearest" });
            focusOn(["next step", "next lesson", "finish"], "coach");
        },
        step(step) {
            change(goToStep, step);
            const asked = onBoard() || document.querySelector('[data-key="estimate"]');
            if (asked) asked.focus({ preventScroll: true });
            else if (!isWithin("steering")) focusOn([], "coach");
        },
        weigh: (place, text) => change(weigh, place, text),
        give: (text) => change(giveLesson, text),
    };
}
