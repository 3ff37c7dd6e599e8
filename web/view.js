// What the page shows of a state, and nothing of a former one.
import { board, compared, played, watched } from "./board/drawing.js";
import { byLoss, chosenOf, hasBegun, isFull, isKept, lostPips, makingOf, orderOf, shownPlay } from "./board/state.js";
import { chances, kept, more, numbers, plays, rolls, sides, verdict } from "./board/view.js";
import { answerOf, isComing, knownOf, needsMore, rollsOf, theirAnswer } from "./databases.js";
import { editor } from "./editor/view.js";
import { games } from "./games/view.js";
import { doors, path, student } from "./home/view.js";
import { lessonOf, showsRules, stepOf } from "./lesson/state.js";
import { rules } from "./lesson/view.js";
import { writeLink } from "./link.js";
import { modeOf } from "./mode.js";
import { inWords, pipsOf } from "./points.js";
import { printed } from "./printed.js";
import { drillKey, drillName } from "./question/questions.js";
import { guessOf, questionOf, reasonsFor, verdictOf, whichOf } from "./question/state.js";
import { estimateField, estimateTold, reasons } from "./question/view.js";
import { review } from "./review/view.js";
import { teaching } from "./teacher/view.js";
import { coach, steering } from "./training.js";
import { h } from "./tree.js";

// The parts of each screen beside common ones; the first is where one goes on.
const ASKS = ["coach", "steering", "top", "right", "chances", "rolls", "reasons", "worth", "printed"];
const SCREENS = {
    home: ["today", "path", "doors", "promise", "foot"],
    games: ["games", "promise", "foot"],
    teacher: ["teaching", "printed", "promise", "foot"],
    board: [
        "top", "coach", "setting", "how", "right", "chances", "rolls", "heading", "next-best",
        "grid", "keeping", "editing", "more", "promise", "tools", "foot",
    ],
    embedded: ["top", "right", "whole"],
    waiting: ["coach", "steering"],
    step: ASKS, question: ASKS, verdict: ASKS,
    review: ["coach", "steering", "review", "printed", "tools", "foot"],
};
const PARTS = [...new Set(Object.values(SCREENS).flat())];

// What stands in the place of numbers that a lesson asks for.
const asked = h("p", { class: "hint" }, "The numbers are shown with the answer.");

// The lesson or drill, its step or question, and the screen, as texts.
const trainedOf = (state, { trains, screen }) => (!trains ? ["", "", screen]
    : state.drill ? [drillKey(state.drill), String(state.place), screen]
    : [String(state.lesson || state.text), String(state.step), screen]);

// What the window is called: the screen, what one trains, or the position.
function titleOf(state, { screen }) {
    if (screen === "home") return "Bearing off, proved";
    if (screen === "games") return "Your games \u2013 Bearing off";
    if (screen === "teacher") return "For teachers \u2013 Bearing off";
    const lesson = stepOf(state) && lessonOf(state);
    const what = lesson ? `Step ${state.step} of ${lesson.steps.length}: ${lesson.title}`
        : questionOf(state) ? `${whichOf(state)}: ${drillName(state.drill)}`
        : state.drill ? `Drill: ${drillName(state.drill)}`
        : state.title || inWords(state.points);
    return `${what} \u2013 Bearing off`;
}

export function view(state, act) {
    const { points, roll, guess, stops, database, hand: { typed, theirs, picked, steps } } = state;
    const mode = modeOf(state);
    const { screen, trains, hidden } = mode;
    const answer = knownOf(state);
    const waits = !answer && answerOf(state) !== undefined;
    const list = rollsOf(state);
    const shown = shownPlay(state);
    const told = verdictOf(state);
    const chosen = chosenOf(state)?.plays;
    const isHidden = hidden.plays || hidden.numbers !== null;
    const making = makingOf(state);
    const moves = shown ? shown.moves : [];
    const hasChances = !hidden.numbers && (answer ? !answer.refusal : isComing(state));
    const hasRolls = answer ? !answer.refusal && answer.standing.checkers > 0 : isComing(state);
    const on = (...screens) => screens.includes(screen);
    const has = (part) => SCREENS[screen].includes(part);
    const away = {
        coach: !state.drill && !lessonOf(state),
        right: trains && Boolean(roll),
        chances: !hasChances,
        rolls: trains ? !roll : !hasRolls,
        keeping: state.kept.length === 0,
        editing: !state.draft,
        reasons: reasonsFor(state) === null,
        worth: !showsRules(state),
    };
    return {
        screen,
        // a play is to be guessed on the free board where one plays
        classes: {
            compact: screen === "embedded", training: trains, playing: Boolean(making) && !trains, rolled: Boolean(roll),
        },
        trees: {
            board: !has("top") ? []
                : making ? played(making, {
                    picked, stop: stops.board, begun: hasBegun(state),
                    isAlone: !trains, roll, start: points,
                    made: steps.flat().map(({ move }) => move),
                }, act)
                : trains && told && shown && !shown.isBest
                    ? compared(points, shown, byLoss(chosen)[0], roll)
                : trains ? watched(points, moves, roll) : board(points, moves, act),
            reasons: reasons(reasonsFor(state)),
            worth: showsRules(state) ? rules(state, act) : [],
            coach: coach(state, told, act),
            steering: steering(state, making, act),
            review: on("review") ? review(state, act) : [],
            printed: printed(state),
            draft: editor(state, act),
            today: on("home") ? student(state, act) : [],
            path: on("home") ? path(state, act) : [],
            doors: on("home") ? doors(points) : [],
            games: on("games") ? games(state, act) : [],
            teaching: on("teacher") ? teaching(state, act) : [],
            more: on("board") ? more(state, act) : [],
            numbers: !has("right") || away.right ? []
                : hidden.numbers === "answer" ? asked
                : hidden.numbers === "estimate" ? estimateField(state, act)
                : [numbers(answer, isComing(state), waits && pipsOf(points)),
                    theirs && sides(answer, theirAnswer(state), pipsOf(theirs)),
                    estimateTold(state)],
            chances: answer && hasChances ? chances(answer.distribution) : [],
            grid: on("board")
                ? rolls(list, roll, (dice) => guess && !guessOf(state, dice), stops.rolls, act) : [],
            plays: !has("rolls") || away.rolls ? [] : [
                plays({
                    points, dice: roll, list: chosen, shown, lost: lostPips(state),
                    isHidden: hidden.plays, isTrained: trains, stop: stops.plays,
                }, act),
                told && !trains && verdict(told, act),
            ],
            kept: kept(orderOf(state), (at) => knownOf(state, at), isHidden, act),
        },
        texts: {
            lesson: state.title,
            trouble: state.trouble,
            notice: state.notice,
            "file-why": state.trouble,
            said: state.said,
            open: database ? `${database.bound} pips` : "\u2026",
            known: database ? database.positions.toLocaleString("en") : "\u2026",
            keep: isKept(state)
                ? "Kept below" : isFull(state) ? "Ten are kept" : "Keep this position",
            why: typed ? typed.fault : "",
            sorting: isHidden ? "Their numbers are hidden while you guess." : "Sorted by EPC.",
        },
        hidden: {
            ...Object.fromEntries(PARTS.map((part) => [part, !has(part) || Boolean(away[part])])),
            notice: !state.notice,
            "file-why": !state.trouble,
            lesson: !state.title,
            trouble: !state.trouble,
            wider: !state.work.isGivenUp || !needsMore(state),
            why: !typed,
        },
        title: titleOf(state, mode),
        counts: typed ? typed.text : points.join(),
        isRefused: Boolean(typed),
        canKeep: !isKept(state) && !isFull(state),
        isOpen: Boolean(roll) && hasRolls, // the sheet with the plays of a roll
        isKnown: Boolean(answer),
        guess,
        whole: on("embedded") ? writeLink({ ...state, isCompact: false }) : "#",
        trained: trainedOf(state, mode),
        begins: SCREENS[screen][0],
    };
}
