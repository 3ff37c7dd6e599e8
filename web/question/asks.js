// What a drill asks the database: its questions, and answers of before a reload.
import { answer, choicesOf, playsOf } from "../board/asks.js";
import { byLoss } from "../board/state.js";
import { modeOf } from "../mode.js";
import { keyOf, ROLLS } from "../points.js";
import { drawQuestions, mostOf } from "./questions.js";
import { rightInEach } from "../review/state.js";
import { askNext, errorOf, explainedOf, guessKey, lengthOf, questionOf, reasonsFor, withRun } from "./state.js";
import { reasonsOf } from "./why.js";

export const needs = (state, drill) => state.database.bound >= mostOf(drill);

// The drill's question of its place, where the link had no other position.
function arrived(state) {
    const place = Math.min(state.place, lengthOf(state));
    const question = questionOf({ ...state, place });
    const isElsewhere = state.isPlaced && question
        && keyOf(question.points) !== keyOf(state.points);
    return isElsewhere ? { ...state, place } : askNext(state, place);
}

// The answers of a run that goes on, from the plays and numbers of its positions.
function resumed(state, picks, { plays, answers }) {
    const guesses = (rolls, first) => rolls.flatMap(([points, roll, text], place) => {
        const play = plays[first + place]?.find((one) => one.text === text);
        return play ? [{ at: keyOf(points), roll, play, best: byLoss(plays[first + place])[0] }]
            : [];
    });
    const estimates = (told, first) => told.flatMap(([points, kind, text], place) => {
        const answer = answers[first + place];
        return answer && !answer.refusal ? [errorOf(points, kind, BigInt(text), answer)] : [];
    });
    const next = withRun(state, {
        guesses: guesses(picks.guesses, 0), again: guesses(picks.again, picks.guesses.length),
        estimates: estimates(picks.estimates, 0),
        estimatesAgain: estimates(picks.estimatesAgain, picks.estimates.length), picks: null,
    });
    const open = picks.goesOn ? rightInEach(next).indexOf(null) : -1;
    return open < 0 ? next : { ...next, place: open };
}

// The questions of a drill; none where the database has fewer pips than they can have.
export function drawn(database, drill) {
    return database.bound < mostOf(drill)
        ? [] : drawQuestions(drill, ROLLS, (points, roll) => choicesOf(database, points, roll));
}

// The plays of rolls that were guessed before, and the numbers of positions that were estimated.
function again(database, { guesses, again: more, estimates, estimatesAgain }) {
    return {
        plays: [...guesses, ...more].map(([points, roll]) => playsOf(database, points, roll)),
        answers: [...estimates, ...estimatesAgain].map(([points]) => answer(database, points)),
    };
}

export const questionAsks = {
    why: {
        wants(state) {
            const guess = explainedOf(state);
            if (!guess || state.why?.key === guessKey(guess)) return null;
            return {
                points: guess.at.split(",").map(Number), roll: guess.roll, to: guess.play.to, key: guessKey(guess),
            };
        },
        none: () => null,
        becomes(state, { key }, reply) {
            const next = { ...state, why: { key, says: reply } };
            // the verdict was heard before
            return modeOf(next).screen === "verdict" && reasonsFor(next) ? { ...next, said: reply.says } : next;
        },
    },
    draw: {
        wants: (state) => (state.drill && !state.run.questions && needs(state, state.drill)
            ? { drill: state.drill } : null),
        none: () => [],
        becomes(state, { drill }, questions) {
            if (drill !== state.drill) return state;
            const next = withRun(state, { questions });
            return next.run.picks ? next : arrived(next);
        },
    },
    again: {
        wants: ({ run: { questions, picks }, ...state }) => (questions && picks && needs(state, state.drill)
            ? { picks } : null),
        none: () => ({ plays: [], answers: [] }),
        becomes: (state, { picks }, reply) => (picks !== state.run.picks ? state
            : arrived(resumed(state, picks, reply))),
    },
};

export const questionComputes = {
    why: ({ database }, { points, roll, to }) => reasonsOf(database, points, roll, to),
    draw: ({ database }, { drill }) => drawn(database, drill),
    again: ({ database }, { picks }) => again(database, picks),
};
