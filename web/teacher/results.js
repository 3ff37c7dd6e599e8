// What a pupil did in a drill, as a token that goes back to a teacher, and what a class did in one.
import { FAR, MOST_LISTED, MOST_LOST, readDrill, writeDue } from "../question/questions.js";
import { oneLine } from "../texts.js";

const VERSION = "2";
const LONGEST_NAME = 60;
const MOST_LETTERS = 200_000; // of the texts of a class

// without signs that turn the direction of what follows
const clean = (name) => oneLine(name.replace(/\p{Cf}/gu, ""), LONGEST_NAME);

// A sum over a text, which a letter that is lost or changed doesn't leave as it was (FNV-1a).
const sumOver = (text) => ([...text].reduce((sum, letter) =>
    Math.imul(sum ^ letter.charCodeAt(0), 16777619), 2166136261) >>> 0).toString(36);

// What was answered, without blanks: a play as 62_5o(2), and a number as it is.
const packed = (text) => (text ?? "x").replaceAll("/off", "o").replaceAll("/", "").replaceAll(" ", "_")
    .replace("\u2212", "-");
const PLAYED = /^(?:x|[1-6][1-5o](?:\([2-4]\))?(?:_[1-6][1-5o](?:\([2-4]\))?){0,3}|-?\d{1,3}\.\d{3})$/;
const unpacked = (text) => (text === "x" ? "-" : text.replace("-", "\u2212")
    .replace(/(?<=^|_)(\d)([\do])(?![\d.])/g, "$1/$2").replaceAll("o", "off").replaceAll("_", " "));

// A result as a token: the drill, the name, each loss in thousandths and answer, and a sum.
export function writeResult({ theme, seed, ask, level = "any", list }, name, lost, played) {
    const text = [
        VERSION, theme, seed, ask, level, list ? writeDue(list) : "",
        encodeURIComponent(clean(name)).replaceAll("~", "%7E"),
        lost.map((one) => (one === null ? "x" : Math.min(MOST_LOST, one))).join(), played.map(packed).join(),
    ].join("~");
    return `bearoff[${text}~${sumOver(text)}]`;
}

// The name in a token, or "" where it can't be read.
function nameIn(text = "") {
    try {
        return clean(decodeURIComponent(text));
    } catch {
        return "";
    }
}

// What a token says between its brackets, or why it can't be taken.
function readResult(piece) {
    const [text, ...rest] = piece.split("]");
    const fields = text.split("~");
    const sum = fields.pop();
    const [version, theme, seed, ask, level, list, named, lost, played] = fields;
    const name = nameIn(named);
    const refuse = (fault) => ({ name, fault });
    if (rest.length === 0 || sum !== sumOver(fields.join("~"))) {
        return refuse("isn\u2019t whole: a part of it was lost or changed");
    }
    if (version !== VERSION) return refuse("is of another version");
    const drill = readDrill({ theme, seed, ask, level, list: list || null });
    const [losses, plays] = [lost, played].map((all) => all?.split(",") ?? []);
    const isRight = drill && drill.ask === ask && (list !== "" || (drill.level ?? "any") === level)
        && name !== "" && losses.length <= MOST_LISTED && plays.length === losses.length
        && losses.every((one) => /^(x|\d{1,6})$/.test(one)) && plays.every((one) => PLAYED.test(one));
    return !isRight ? refuse("can\u2019t be read") : {
        drill, name, lost: losses.map((one) => (one === "x" ? null : Number(one))), played: plays.map(unpacked),
        fault: "",
    };
}

// The results in a mail, wrapped or quoted, and a sentence for each that isn't taken.
export function readResults(text) {
    const refuse = (fault) => ({ results: [], fault });
    if (text.length > MOST_LETTERS) return refuse(`It has more than ${MOST_LETTERS} characters.`);
    const [, ...pieces] = text.replace(/[\s>=]+/g, "").split(/bearoff\[/i);
    if (pieces.length === 0) return refuse("There is no result in it.");
    const all = pieces.map(readResult);
    const first = all.find(({ fault }) => !fault);
    const told = all.map((one) => (!one.fault && (one.lost.length !== first.lost.length
        || JSON.stringify(one.drill) !== JSON.stringify(first.drill))
        ? { ...one, fault: "is of another drill than the first" } : one));
    return {
        results: told.filter(({ fault }) => !fault),
        fault: told.flatMap(({ name, fault }, place) =>
            (fault ? [`Result ${place + 1}${name && ` of ${name}`} ${fault}.`] : [])).join(" "),
    };
}

// Whether an answer that lost so much is a miss.
const isMissed = (ask, lost) => lost !== null && lost >= Number(FAR[ask] ?? 1n);

const sum = (numbers) => numbers.reduce((all, one) => all + one, 0);

// Pupils, most answers and least loss first; and questions, most missed first, with plays.
export function classOf(results) {
    const { drill, lost: { length } } = results[0];
    const pupils = results.map(({ name, lost }) => ({
        name, answered: lost.filter((one) => one !== null).length,
        missed: lost.filter((one) => isMissed(drill.ask, one)).length, lost: sum(lost),
    })).sort((one, other) => other.answered - one.answered || one.lost - other.lost);
    const questions = Array.from({ length }, (_, place) => {
        const told = new Map();
        for (const { name, played, lost } of results) {
            const text = played?.[place] ?? "-";
            const so = told.get(text) || { text, names: [], lost: lost[place] };
            if (text !== "-") told.set(text, { ...so, names: [...so.names, name] });
        }
        return {
            place, count: results.filter(({ lost }) => isMissed(drill.ask, lost[place])).length,
            played: [...told.values()].sort((one, other) => one.lost - other.lost),
        };
    }).filter(({ count, played }) => count > 0 || played.length > 0)
        .sort((one, other) => other.count - one.count || one.place - other.place);
    return { drill, pupils, questions };
}
