// Four rooms of lessons with their drills, the lesson for a miss, and words explained.
import { sumOf } from "../points.js";
import { drillOf } from "../question/questions.js";
import { kindOf } from "../question/why.js";

// Each lesson by its number, with what its drill asks.
export const ROOMS = [
    {
        name: "Count", about: "What is left to bear off, and what it costs.",
        lessons: [
            [1, "all", "wastage"], [4, "all", "pips"], [6, "ace", "effective"], [7, "ace", "wastage"],
            [8, "few", "effective"],
        ],
    },
    {
        name: "Shape", about: "How the checkers stand: stacks, gaps and high points.",
        lessons: [
            [2, "gaps", "play", "easy"], [11, "high", "play"], [14, "low", "play", "easy"], [16, "stacks", "play"],
        ],
    },
    {
        name: "Bear off", about: "When to take checkers off, and when to move instead.",
        lessons: [
            [3, "all", "play", "easy"], [9, "gaps", "play", "mixed"], [10, "few", "play", "easy"],
            [5, "few", "play"], [15, "fewer", "play"], [12, "middle", "play"],
        ],
    },
    {
        name: "Estimate", about: "What a good player works out at the board.",
        lessons: [[13, "middle", "wastage"], [17, "all", "effective"]],
    },
];

const allLessons = () => ROOMS.flatMap(({ lessons }) => lessons);

// The drill of a lesson, by a seed.
export function drillOfLesson(number, seed) {
    const [, theme, ask, level = "any"] = allLessons().find(([one]) => one === number);
    return drillOf({ theme, ask, level, seed });
}

// The lesson whose drill one is, or null.
export const lessonOfDrill = ({ theme, ask, level = "any", due, list }) => (due || list ? null
    : allLessons().find(([, ...own]) =>
        own[0] === theme && own[1] === ask && (own[2] ?? "any") === level)?.[0] ?? null);

// The lesson for a miss, by its kind; none where it is too close for a rule.
const FITTING = { over: 10, last: 10, roll: 7, spare: 7, fewer: 15, misses: 2, ace: 1, stack: 2 };

export function fittingLesson({ play, best }) {
    if (sumOf(best.to) > sumOf(play.to)) return FITTING.fewer;
    return FITTING[kindOf(play.to, best.to)] ?? null;
}

// Words that a beginner doesn't know: each by how it is found in a text, and what it means.
const WORDS = [
    ["bearing off", /\b(?:bear(?:s|ing)?|bear one|borne) off\b/i,
        "Taking checkers off the board at the end of the game. Whoever is off first wins."],
    ["pip", /\bpips?\b/i,
        "One step of one checker. The pip count is how many steps all checkers need to be off."],
    ["roll", /\brolls?\b/i,
        "One throw of both dice; equal dice are a double, and are played twice. What a play loses is "
            + "told in rolls: 0.100 means a tenth of a throw more, on average, until all are off."],
    ["6/2, 5/off, (2)", /\b[1-6]\/(?:[1-5]\b|off)/,
        "A play: each checker by the point that it leaves and the one that it reaches, or off the "
            + "board; (2) says that two checkers move so."],
    ["mean", /\b(?:mean|on average)\b/i,
        "The number of throws until all checkers are off, on average over all dice, where each is "
            + "played best."],
    ["EPC", /\bEPC\b/,
        "The effective pip count: the mean in pips. A throw is worth 49/6 pips, a little over eight."],
    ["wastage", /\bwast(?:age|es?)\b/i,
        "What the EPC has more than the pip count: pips of the dice that are of no use, as where a "
            + "six bears off from the ace point."],
];

// Those of them that are in one of some texts, and in none of others that came before.
export const wordsIn = (texts, before = []) => WORDS.filter(([, pattern]) =>
    texts.some((text) => pattern.test(text)) && !before.some((text) => pattern.test(text)));
