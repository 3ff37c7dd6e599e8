// What a teacher makes: a drill of positions that were typed, or of a theme, its link, its sheet and its key.
import { answer, playsOf } from "../board/asks.js";
import { copied, fail, note } from "../fields.js";
import { linkOf, readTyped } from "../link.js";
import { drawn, needs } from "../question/asks.js";
import { drillOf, MOST_LISTED, readSeed } from "../question/questions.js";
import { beginDrill } from "../question/state.js";
import { themeOf } from "../question/themes.js";

// The drill of positions, one a line, or why it is none.
function readPositions(text, ask) {
    const list = [];
    for (const [place, line] of text.split(/\r?\n/).entries()) {
        if (line.trim() === "") continue;
        const refuse = (why) => ({ drill: null, fault: `Line ${place + 1}: ${why}` });
        const { points, roll, fault } = readTyped(line);
        if (fault) return refuse(fault);
        if (points.every((count) => count === 0)) return refuse("There is no checker.");
        if (ask === "play" && !roll) {
            return refuse("A play is asked, so a roll stands behind the position, as in "
                + "2,2,2,2,2,2 31.");
        }
        if (list.length === MOST_LISTED) {
            return refuse(`A drill has at most ${MOST_LISTED} positions.`);
        }
        list.push({ points, roll: ask === "play" ? roll : null });
    }
    return list.length === 0 ? { drill: null, fault: "There is no position." }
        : { drill: drillOf({ ask, list }), fault: "" };
}

const showSheet = (state, drill) =>
    ({ ...state, sheet: { drill, questions: null, key: null }, notes: {} });

// The key of a drill: the best play with the next's loss, or the number.
const keyOf = (database, { ask }, questions) => questions.map(({ points, roll }) => {
    if (!roll) {
        const { standing, effective, wastage } = answer(database, points);
        return { pips: String(standing.pips), effective: effective?.text, wastage: wastage?.text }[ask];
    }
    const plays = playsOf(database, points, roll);
    const next = plays.find(({ isBest }) => !isBest);
    return `${plays.find(({ isRecorded }) => isRecorded).text}${
        next ? `; the next loses ${next.lossText}` : plays.length === 1 ? ": the only play" : ""}`;
});

// A sheet of a drill: its questions, and the key.
function sheetOf(database, drill) {
    const questions = drawn(database, drill);
    return { questions, key: keyOf(database, drill, questions) };
}

export const teacherAsks = {
    sheet: {
        wants: (state) => (state.sheet && !state.sheet.questions && needs(state, state.sheet.drill)
            ? { sheet: state.sheet, drill: state.sheet.drill } : null),
        none: () => ({ questions: [], key: [] }),
        becomes: (state, { sheet }, reply) =>
            (state.sheet === sheet ? { ...state, sheet: { ...sheet, ...reply } } : state),
    },
};

export const teacherComputes = { sheet: ({ database }, { drill }) => sheetOf(database, drill) };

// What is done for a class.
export function teacherActions({ session, change, window, focusOn, anySeed }) {
    // the drill of the positions that were typed, or else of the theme, or why it is none
    const withDrill = (use) => {
        const { positions: text, theme, asked: ask, level, seed } = session.state.fields;
        const isPossible = ask !== "play" || themeOf(theme).isPlayed;
        const read = seed.trim() === "" ? anySeed() : readSeed(seed);
        const { drill, fault } = text.trim() !== "" ? readPositions(text, ask)
            : read === null ? { fault: "A seed is a whole number from 1 to 999999999." }
            : { drill: drillOf({ theme, seed: read, ask: isPossible ? ask : "effective", level }) };
        if (drill) use(drill);
        else {
            change(fail, "sheet", fault);
            focusOn(["positions"], "teaching");
        }
    };
    return {
        openClass: () => withDrill((drill) => change(beginDrill, drill)),
        copyClass: () => withDrill(async (drill) => {
            const href = window.location.href.replace(/#.*/, "") + linkOf(drill);
            change(note, "sheet", await copied(window, href, "The link of the class is copied.",
                `The browser lets this page copy nothing. The link: ${href}`));
        }),
        sheet: () => withDrill((drill) => change(showSheet, drill)),
    };
}
