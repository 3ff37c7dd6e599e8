// One's own games: a match that was given, what its bearoff plays have lost, and what is done with them.
import { BadMatchError, bearoffs, readMatch } from "../../js/matches.js";
import { playsOf } from "../board/asks.js";
import { fail, faultAt, note } from "../fields.js";
import { asked } from "../home/memory.js";
import { withMemory } from "../home/state.js";
import { modeOf } from "../mode.js";
import { isMiss } from "../rules.js";
import { sumOfFractions } from "../texts.js";

// A match of a text, or why it is none; while one trains the notice says so.
export function giveMatch(state, text) {
    const next = { ...state, page: "games", notes: {} };
    const says = (words) => (modeOf(state).trains ? { notice: words } : {});
    try {
        const match = readMatch(text);
        return { ...next, match: { ...match, turns: bearoffs(match), rows: null },
            ...says("The match is read. It waits at \u201cYour games\u201d, a way on from home.") };
    } catch (error) {
        if (!(error instanceof BadMatchError)) throw error;
        return fail({ ...next, match: null, ...says(`No match: ${error.message}`) }, "match", error.message);
    }
}

// The bearoff plays of a match that were graded, each with its turn.
export const gradedOf = ({ match }) => (match?.rows || []).flatMap((row, place) =>
    (row ? [{ ...match.turns[place], ...row }] : []));

// Each player's plays: all, with a choice, losing, what they lost, and too long ones.
export const playersOf = (state) => state.match.names.map((name, player) => {
    const theirs = gradedOf(state).filter((play) => play.player === player);
    return {
        name, plays: theirs.length, choices: theirs.filter(({ choices }) => choices > 1).length,
        losing: theirs.filter(({ play }) => !play.isBest).length,
        lost: sumOfFractions(theirs.map(({ play }) => play.exact)),
        over: state.match.turns.filter((turn, place) =>
            turn.player === player && state.match.rows[place] === null).length,
    };
});

// The misses of a player as questions that come back.
export const missesOf = (state, player) => gradedOf(state)
    .filter((turn) => turn.player === player && isMiss(turn.play))
    .map(({ points, dice, play }) => ({
        points, roll: [...dice].sort((one, other) => other - one), lost: Number(play.loss),
        theme: "all",
    }));

// Grades a match's bearoff plays: null beyond the bound; an illegal one refuses the match.
function graded(database, turns) {
    const rows = [];
    for (const { points, dice, to, line, text } of turns) {
        const roll = [...dice].sort((one, other) => other - one);
        if (database.positionInfo(points).pips > database.bound) {
            rows.push(null);
            continue;
        }
        const plays = playsOf(database, points, roll);
        const play = plays.find((one) => one.to.join() === to.join());
        if (!play) {
            const what = `no play of ${dice.join("")} leads from ${points} to ${to}`;
            return { rows: [], fault: new BadMatchError("illegal", line, what, text).message };
        }
        rows.push({ play, best: plays.find(({ isRecorded }) => isRecorded), choices: plays.length });
    }
    return { rows, fault: "" };
}

export const gamesAsks = {
    grade: {
        wants: ({ match, database }) => (match && match.database !== database
            ? { match, turns: match.turns } : null),
        none: (refusal) => ({ rows: [], fault: refusal }),
        becomes(state, { match }, { rows, fault }) {
            if (state.match !== match) return state;
            const next = { ...state, match: { ...match, rows, database: state.database } };
            return fault ? fail(next, "match", fault) : next;
        },
    },
};

export const gamesComputes = { grade: ({ database }, { turns }) => graded(database, turns) };

// What is done with one's own games.
export function gamesActions({ session, change, store, today, focusOn }) {
    return {
        match(text = session.state.fields["match text"]) {
            change(giveMatch, text);
            focusOn(faultAt(session.state, "match") ? ["match text"] : [], "games");
        },
        // the misses of a player come back from today on
        askMisses(player) {
            const misses = missesOf(session.state, player);
            const day = today();
            const memory = store.change(session.state.student.memory, (kept) => misses.reduce((so, one) =>
                asked(so, one, day), kept));
            change(withMemory, memory, day, store.why);
            const count = misses.length;
            change(note, "match", `${count === 1 ? "One question comes" : `${count} questions come`} `
                + "back from today on.");
        },
    };
}
