// What is done with a question of a drill, and with an estimate.
import { afresh, lookingAt, setPoints, spoken } from "../board/state.js";
import { answerOf } from "../databases.js";
import { fail, faultAt } from "../fields.js";
import { sizeOf } from "../home/memory.js";
import { stepOf, toldStep } from "../lesson/state.js";
import { meanOf, readEstimate, thousandthsOf } from "../lesson/text.js";
import { modeOf } from "../mode.js";
import { inWords, keyOf, sameRoll } from "../points.js";
import { drillKey, ESTIMATED, WANTED } from "./questions.js";
import { openedOf, reviewed } from "../review/state.js";
import { isMiss, reckoned } from "../rules.js";
import { decimal, decimalOf, inPips, sumOfFractions } from "../texts.js";

// Of a drill: its questions, once they are drawn; of each guess the position, the roll, the play
// that was guessed and the best one, and so of the guesses of those that were asked again; of each
// estimate the position, what was estimated of it, and how far that was off, and so of those that
// were asked again; and what was chosen before the page was loaded anew, until it is known what
// that lost; and the place of the miss that is open in the review, null for none.
export const NO_RUN = {
    questions: null, guesses: [], again: [], estimates: [], estimatesAgain: [], picks: null, opened: undefined,
};

export const withRun = (state, run) => ({ ...state, run: { ...state.run, ...run } });

// The state with one more answer, in one of the lists of its run.
export const withAnswer = (state, list, answer) => withRun(state, { [list]: [...state.run[list], answer] });

// A question of the drill, by its place.
export function askNext(state, place) {
    const question = questionOf({ ...state, place });
    if (!question) return { ...afresh(state), roll: null, place, said: "The drill is over." };
    const next = {
        ...setPoints(state, question.points), roll: question.roll,
        guess: state.drill.ask === "play", place, notice: place === state.place ? state.notice : "",
    };
    return { ...next, said: heardOf(next) };
}

// Changes to another drill or none; runs are kept and go on, and a lesson ends.
export function changeDrill(state, drill) {
    const runs = new Map(state.runs);
    if (state.drill) runs.set(drillKey(state.drill), { ...state.run, opened: undefined });
    const run = (drill && runs.get(drillKey(drill))) || NO_RUN;
    return {
        ...afresh(state), run, page: "board", drill, runs, lesson: null, text: "",
        given: null, place: 0, estimate: null, notice: "",
    };
}

// A drill begins: its questions are drawn anew, and nothing was answered.
export function beginDrill(state, drill) {
    return { ...changeDrill(state, drill), run: NO_RUN, isPlaced: false };
}

// No drill and no lesson.
function endTraining(state) {
    const what = state.drill ? "The drill is over." : "The lesson is over.";
    return {
        ...changeDrill(state, null), page: state.draft ? "board" : "home", guess: false,
        roll: null, step: 1, said: what,
    };
}

// The missed questions of the drill, which are asked once more.
export const missedOf = (state) =>
    reviewed(state).flatMap(({ question, isRight }) => (isRight ? [] : [question]));

// How many questions there are with those that are asked once more.
export const lengthOf = (state) => (state.run.questions || []).length + missedOf(state).length;

// The question of the drill that is asked, or null where there is none or all were.
export function questionOf(state) {
    const { run: { questions }, place } = state;
    return questions?.[place] || (questions && missedOf(state)[place - questions.length]) || null;
}

// The guesses of a drill's questions, in the order of these; what its estimates were off; how many there are.
export const drillGuesses = (state) => reviewed(state).flatMap(({ guess }) => guess || []);
export const drillErrors = (state) => reviewed(state).flatMap(({ estimate }) => estimate?.error ?? []);
export const answeredOf = (state) => reviewed(state).length;

// What a drill asks of a question, in words.
export const askedOf = ({ ask }, roll) => (roll ? `Which play of ${roll.join("-")} is best?`
    : `What is the ${WANTED[ask]}?`);

// Which question of a drill is asked, in words.
export const whichOf = (state) => (modeOf(state).round.guesses === "again"
    ? `Once more, ${state.place - state.run.questions.length + 1} of ${missedOf(state).length}`
    : `Question ${state.place + 1} of ${state.run.questions.length}`);

// Which question is asked, and what.
export const askedIn = (state) =>
    `${whichOf(state)}. ${askedOf(state.drill, questionOf(state).roll)}`;

// A question as it is heard, with the board's position.
export const heardOf = (state) => `${askedIn(state)} The board: ${inWords(state.points)}.`;

// Of some guesses that of a roll in the board's position.
export const answersFor = (guesses, { points }, roll) =>
    guesses.find((guess) => guess.at === keyOf(points) && sameRoll(guess.roll, roll));

// What was guessed of a roll in the board's position; where it is asked once more, then.
export const guessOf = (state, roll = state.roll) =>
    answersFor(state.run[modeOf(state).round.guesses], state, roll);

// The estimate of the board's position in a round, or undefined.
export const estimateIn = ({ run, points }, round, estimated) => run[round.estimates].find(({ at, kind }) =>
    at === keyOf(points) && kind === estimated);

export const estimateOf = (state) => estimateIn(state, modeOf(state).round, modeOf(state).estimated);

// What is to be estimated from now on, or null.
function setEstimate(state, kind) {
    const next = { ...state, estimate: ESTIMATED.includes(kind) ? kind : null };
    return { ...next, said: spoken(next) };
}

// How far something told of a position is off.
export function errorOf(points, kind, told, answer) {
    const exact = thousandthsOf(answer, kind);
    return {
        at: keyOf(points), kind, told, exact, error: told > exact ? told - exact : exact - told,
    };
}

// An estimate of the board's position, taken once; what is no number is refused.
export function giveEstimate(state, text) {
    const told = readEstimate(text);
    const answer = answerOf(state);
    const { estimated, hidden, round, trains } = modeOf(state);
    if (!hidden.numbers || !estimated) return state;
    if (told === null) {
        return fail(state, "estimate", "An estimate is a number with at most three decimals, such as 51 or 51.5.");
    }
    if (!answer || answer.refusal) {
        return fail(state, "estimate", "The number is still being computed: compare in a moment.");
    }
    const estimate = errorOf(state.points, estimated, told, answer);
    const step = trains && stepOf(state) ? toldStep(state) : null;
    const next = {
        ...withAnswer(state, round.estimates, estimate), notes: {}, isAnswered: state.isAnswered || Boolean(step),
    };
    const said = [toldOf(estimate), step?.answer, step ? "" : reachedIn(estimate), spoken(next)];
    return { ...next, said: said.filter(Boolean).join(" ") };
}

// Whether plays are to be guessed; where not any more, the guesses are over.
function setGuess(state, guess) {
    const next = { ...lookingAt(state, null), guess, said: "" };
    if (guess) return next;
    if (state.drill) {
        const notice = "The drill has ended, since its plays are hidden no longer.";
        return { ...endTraining(next), said: notice, notice };
    }
    if (state.run.guesses.length === 0) return next;
    const notice = `Guessing has ended: ${lostInAll(state)}`;
    return { ...withRun(next, { guesses: [] }), notice, said: notice };
}

// No guess was made yet.
export function resetGuesses(state) {
    return { ...withRun(lookingAt(state, null), { guesses: [] }), said: "The guesses begin anew." };
}

// The guess to explain: that of the roll while training, or the review's open miss.
export function explainedOf(state) {
    const { trains, screen } = modeOf(state);
    return (screen === "review" ? openedOf(state)?.guess : state.guess && trains && guessOf(state)) || null;
}

export const guessKey = ({ at, roll, play }) => [at, roll.join(), play.text].join(" ");

// Why it loses, or is best, once that is known.
export function reasonsFor(state) {
    const guess = explainedOf(state);
    return guess && state.why?.key === guessKey(guess) ? state.why.says : null;
}

// What all guesses have lost, exactly.
const lostOf = ({ run: { guesses } }) => sumOfFractions(guesses.map(({ play }) => play.exact));

// What a guess lost, and all guesses so far.
export function verdictOf(state) {
    const guess = state.guess && guessOf(state);
    if (!guess) return null;
    const exact = lostOf(state);
    const { play } = guess;
    return {
        isBest: play.isBest, isMiss: isMiss(play), first: lostBy(guess), all: lostInAll(state),
        size: sizeOf(Number(play.loss)),
        pips: inPips(play.exact), exact,
    };
}

// What a guess lost, in words. What rounds to nothing is told as less than a half of a thousandth.
export function lostBy({ play, best }) {
    if (play.isBest) return `${play.text} is best${play.isRecorded ? "" : `, as is ${best.text}`}.`;
    return isMiss(play) ? `${play.text} loses ${play.lossText} of a roll; best is ${best.text}.`
        : `${play.text} loses less than 0.0005 of a roll, no mistake; best is ${best.text}.`;
}

// What all guesses have lost, in words.
function lostInAll(state) {
    const count = state.run.guesses.length;
    const decimals = decimalOf(lostOf(state));
    return `${count === 1 ? "One guess has" : `${count} guesses have`} lost ${decimals} of a roll.`;
}

// What was estimated, and how far that was off.
export const toldOf = ({ told, error }) =>
    `You said ${signed(told)}: ${decimal(error)} pips off.`;

// How an estimate is reached at the board, and what is right.
export const reachedIn = ({ at, kind, exact }) =>
    `At the board: ${reckoned(at.split(",").map(Number), kind)}; it is ${
        kind === "pips" ? exact / 1000n : signed(exact)}.`;

export const signed = (told) => (told < 0n ? `\u2212${decimal(-told)}` : decimal(told));

// The mean of all errors of what is estimated now, in thousandths, or null where there are none.
export function meanError(state) {
    const errors = state.run.estimates.filter(({ kind }) => kind === modeOf(state).estimated)
        .map(({ error }) => error);
    return errors.length > 0 ? meanOf(errors) : null;
}

// What is done with a question of a drill, and with an estimate.
export function questionActions({ session, change, document, focus, focusOn, onBoard }) {
    return {
        guess: (isOn) => change(setGuess, isOn),
        question(place) {
            change(askNext, place);
            const asked = onBoard() || document.querySelector('[data-key="estimate"]');
            if (asked) asked.focus({ preventScroll: true });
            else focusOn([], "coach");
        },
        estimate: (kind) => change(setEstimate, kind),
        guessNumber() {
            change(giveEstimate, session.state.fields.estimate);
            if (faultAt(session.state, "estimate")) focusOn(["estimate"], "numbers");
            else focusOn(["next question", "next step", "next lesson", "finish"], "numbers");
        },
        end() {
            change(endTraining);
            focusOn([], "today");
        },
        reset() {
            const { roll } = session.state;
            change(resetGuesses);
            if (roll) focus(`roll ${roll.join("")}`);
        },
    };
}
