// Which screen is on, and what is hidden there.
import { knownOf } from "./databases.js";
import { stepOf } from "./lesson/state.js";
import { keyOf } from "./points.js";
import { answersFor, estimateIn, lengthOf, questionOf } from "./question/state.js";

// Whether the board has the step or the question that is on, where there is one.
const hasItsBoard = (state) => [stepOf(state) || questionOf(state)].every((asked) =>
    !asked || keyOf(asked.points) === keyOf(state.points));

// The lists of answers that count now: of the first round, or of the second.
function roundOf(state) {
    const { run: { questions }, place } = state;
    const isSecond = questions !== null && place >= questions.length && place < lengthOf(state);
    return isSecond ? { guesses: "again", estimates: "estimatesAgain" }
        : { guesses: "guesses", estimates: "estimates" };
}

// The screens on which one trains.
const TRAINING = ["waiting", "question", "verdict", "review", "step"];

// What is on, which is the one place that says what is shown: the `screen`; whether one `trains`
// there; in which lists of the state its answers are, as `round`; what is `estimated`: the pip
// count, the effective one or the wastage, or null; and what is `hidden` till it's answered: the
// plays of the chosen roll, and the numbers, as an "estimate" or an "answer".
//
// The screens: "home"; the free "board", also beside a lesson or a drill that one has left; it alone
// in another page, as "embedded"; "teacher"; "games"; the "step" of a lesson; and of a drill
// "waiting", while its questions are drawn, a "question", its "verdict", and the "review".
const modes = new WeakMap();
export function modeOf(state) {
    if (!modes.has(state)) modes.set(state, modeFrom(state));
    return modes.get(state);
}

function modeFrom(state) {
    const [step, { drill }, round] = [stepOf(state), state, roundOf(state)];
    const isOn = !state.isCompact && Boolean(step || drill) && hasItsBoard(state);
    // what a step of a lesson asks comes before what was chosen
    const estimated = drill ? (drill.ask === "play" ? null : drill.ask)
        : (isOn && step.estimate) || state.estimate;
    const guess = answersFor(state.run[round.guesses], state, state.roll);
    const estimate = estimateIn(state, round, estimated);
    const isAsked = step?.answer && !step.roll && !step.estimate && !state.isAnswered
        && hasItsBoard(state);
    const isOpen = estimate || (isOn && step?.estimate && state.isAnswered)
        || knownOf(state)?.refusal;
    const screen = state.isCompact ? "embedded" : !isOn ? state.page : step ? "step"
        : !state.run.questions ? "waiting" : !questionOf(state) ? "review"
        : guess || estimate ? "verdict" : "question";
    return {
        screen, round, estimated, trains: TRAINING.includes(screen),
        hidden: {
            plays: state.guess && !guess,
            numbers: isAsked ? "answer" : estimated && !isOpen ? "estimate" : null,
        },
    };
}
