// Positions as players have them: XGIDs, the IDs of GNU Backgammon, and six counts in any usual spelling. What each
// call takes and answers stands in notation.d.ts. Nothing here needs the WebAssembly module.
import { isTooLong, MOST_TEXT, printable, readPosition, readRoll, shown } from "./checks.js";
import { BearoffError } from "./errors.js";

export { BearoffError };

export class NotARaceError extends BearoffError {
    get name() {
        return "NotARaceError";
    }
}

const MOST_CHECKERS = 15;
const POINTS = 24;
const ME = "the player on roll";
const OTHER = "the other player";

const whole = (pattern) => new RegExp(`^(?:${pattern})$`, "u");

const lengthOf = (text) => [...text].length;
const sum = (counts) => counts.reduce((all, count) => all + count, 0);

// A text without the blanks around it, in which no blank is a no-break space.
function bareOf(text) {
    if (typeof text !== "string") throw new TypeError(`a text is wanted, and not a value of the type ${typeof text}`);
    if (isTooLong(text)) {
        const front = [...text.slice(0, 2 * MOST_TEXT)].slice(0, MOST_TEXT).join("");
        refuse("malformed", `a text of more than ${MOST_TEXT} characters is no position`, front);
    }
    return stripped(text.replace(/\u00a0/g, " "));
}

const stripped = (text) => text.replace(/^[ \t\r\n\f]+|[ \t\r\n\f]+$/g, "");

// Throws the error, with what can be shown of a text on one line.
function refuse(code, what, text) {
    const line = shown(text);
    throw new NotARaceError(code, line ? `${printable(what)}: ${line}` : printable(what));
}

export function read(text) {
    const bare = bareOf(text);
    const counts = countsOf(bare);
    if (counts.length !== 6) return raceOf(toldIn(bare), bare, whyOf);
    const mine = counts.map((count) => Number(count.slice(0, 3)));
    if (sum(mine) > MOST_CHECKERS) refuse("too-many", `${ME} has more than 15 checkers`, bare);
    return { mine, theirs: null, dice: null, onRoll: null };
}

export function fromXgid(text) {
    const bare = bareOf(text);
    return raceOf(isXgid(bare) ? toldIn(bare) : null, bare, whyNoXgid);
}

export function fromGnubg(text) {
    const bare = bareOf(text);
    return raceOf(isXgid(bare) ? null : toldIn(bare), bare, whyNoIds);
}

// Whether a text has as many fields as an XGID, and is read as one then.
const isXgid = (bare) => bare.split(":").length === 1 + FIELDS.length;

const [GAP, COUNT] = ["[ \\t\\r\\n\\f]", "(?:0|[1-9][0-9]*)"];
const BETWEEN = [...[...",;/"].map((separator) => `${GAP}*${separator}${GAP}*`), "-", `${GAP}+`];
const COUNTS = whole(`${COUNT}(?:${BETWEEN.map((between) => `(?:${between}${COUNT})*`).join("|")})`);

// The counts of a text in any usual spelling, or none.
function countsOf(bare) {
    const isBracketed = ["()", "[]", "{}"].includes(bare.slice(0, 1) + bare.slice(-1));
    const told = isBracketed ? stripped(bare.slice(1, -1)) : bare;
    return COUNTS.test(told) ? told.match(/[0-9]+/g) : [];
}

const NUMBER = whole("[0-9]{1,4}");
// The fields of an XGID behind the board: what each is called, and what it can be.
const FIELDS = [
    ["the cube", NUMBER],
    ["the owner of the cube", whole("-1|0|1")],
    ["the turn", whole("-1|1")],
    ["the dice", whole("00|[1-6][1-6]|[DBR]")],
    ["a score", NUMBER],
    ["a score", NUMBER],
    ["Crawford and Jacoby", NUMBER],
    ["the match length", NUMBER],
    ["the greatest cube", NUMBER],
];
const LABELS = ["", "GNU", "Backgammon", "Position", "Match", "ID"];

const fieldsOf = (bare) => bare.replace(/^XGID=/, "").split(":");

// The words of a text but for what GNU Backgammon prints before its IDs.
const wordsOf = (bare) => bare.split(/[: \t\r\n\f]/).filter((word) => !LABELS.includes(word))
    .map((word, place) => (place === 0 ? word.replace(/==$/, "") : word));

// Why no race is read in a text, or nothing where that can't be said.
function whyOf(bare) {
    if (!bare) return "there is no text";
    if (/^xgid/i.test(bare) || bare.split(":").length > 3) return whyNoXgid(bare);
    if (/^[[({]?[-+.,;/0-9 \t\r\n\f]+[\])}]?$/.test(bare)) {
        const counts = countsOf(bare);
        return counts.length > 0 ? `a position is six counts, and these are ${counts.length}`
            : "six counts are whole numbers from 0 on with one separator between them";
    }
    return /Position ID|^[A-Za-z0-9+/]{10,18}(?:[:= \t\r\n\f]|$)/.test(bare) ? whyNoIds(bare) : "";
}

// Why a text is no XGID, or nothing where it is one.
function whyNoXgid(bare) {
    if (/^xgid/i.test(bare) && !bare.startsWith("XGID=")) {
        return "an XGID begins with XGID= in capitals, and its case tells whose checkers they are";
    }
    const [board, ...fields] = fieldsOf(bare);
    const length = lengthOf(board);
    if (fields.length !== FIELDS.length) return `an XGID has 10 fields, and this one ${fields.length + 1}`;
    if (length !== POINTS + 2) return `the board of an XGID has 26 characters, and this one ${length}`;
    if (!/^[-A-Oa-o]+$/.test(board)) return "the board of an XGID has a character that is none of -, A to O and a to o";
    if (/^[A-O]|[a-o]$/.test(board)) return "a bar of the XGID has a checker of the player whose bar it isn't";
    const wrong = FIELDS.findIndex(([, pattern], place) => !pattern.test(fields[place]));
    if (wrong >= 0) return `${FIELDS[wrong][0]} of the XGID can't be ${fields[wrong] || "empty"}`;
    return /^[BR]$/.test(fields[3]) ? "where a double was turned back the XGID leaves open who is on roll" : "";
}

// Why a text doesn't have the form of IDs, or else what may be wrong with them.
function whyNoIds(bare) {
    const words = wordsOf(bare);
    if (words.length < 1 || words.length > 2) return "not a Position ID, nor one with a Match ID";
    for (const [place, word] of words.entries()) {
        const [length, what] = IDS[place];
        if (lengthOf(word) !== length) return `${what} has ${length} characters, and this one ${lengthOf(word)}`;
        if (!/^[A-Za-z0-9+/]+$/.test(word)) {
            return `${what} has a character that is none of A to Z, a to z, 0 to 9, + and /`;
        }
    }
    return NO_IDS;
}

const IDS = [[14, "a Position ID"], [12, "a Match ID"]];
const NO_IDS = "the ID doesn't encode a position, or its dice are not 1 to 6";

// What a text tells, as the library reads it: both sides, the dice and who is on roll; or null. Each side has 25
// counts, that of its own point 1 first and the bar last. The dice are zeros where they aren't told.
function toldIn(bare) {
    if (isXgid(bare)) return whyNoXgid(bare) ? null : xgidTold(...fieldsOf(bare));
    return whyNoIds(bare) === NO_IDS ? idsTold(...wordsOf(bare)) : null;
}

function xgidTold(board, cube, owner, turn, dice) {
    // the letters of both cases count from 1 in their last five bits
    const count = (letter, own) => (own.test(letter) ? letter.charCodeAt(0) % 32 : 0);
    const bottom = [...board].slice(1).map((letter) => count(letter, /[A-O]/));
    const top = [...board].reverse().slice(1).map((letter) => count(letter, /[a-o]/));
    const thrown = dice === "D" ? [0, 0] : [...dice].map(Number);
    return turn === "1" ? [bottom, top, thrown, "bottom"] : [top, bottom, thrown, "top"];
}

// For each point of the other player, and then of the one on roll, as many ones as checkers and a zero, the bars last.
// Of a Match ID these are read: the player on roll and the dice.
function idsTold(position, match) {
    const counts = bitsOf(position).join("").split("0").map((ones) => ones.length);
    if (!/[AQgw]$/.test(position) || counts.length <= 50 || counts.slice(50).some((count) => count > 0)) return null;
    const [theirs, mine] = [counts.slice(0, 25), counts.slice(25, 50)];
    if (match === undefined) return [mine, theirs, [0, 0], null];
    const bits = bitsOf(match);
    const dice = [15, 18].map((first) => bits[first] + 2 * bits[first + 1] + 4 * bits[first + 2]);
    if (Math.max(...dice) > 6 || (dice[0] === 0) !== (dice[1] === 0)) return null;
    return [mine, theirs, dice, bits[6] ? "bottom" : "top"];
}

const BASE64 = "ABCDEFGHIJKLMNOPQRSTUVWXYZabcdefghijklmnopqrstuvwxyz0123456789+/";

// The bits of a part, of each byte the lowest first.
function bitsOf(part) {
    const high = [...part].flatMap((letter) => [...BASE64.indexOf(letter).toString(2).padStart(6, "0")].map(Number));
    return turnBytes(high.slice(0, high.length - (high.length % 8)));
}

// The race of what a text tells, or its refusal, by the first reason that holds.
function raceOf(told, bare, why) {
    if (!told) return refuse("malformed", why(bare) || "neither an XGID, an ID of GNU Backgammon nor six counts", bare);
    const [mine, theirs, dice, onRoll] = told;
    const [own, other] = [mine, theirs].map((side) =>
        side.reduce((highest, count, place) => (count > 0 ? place + 1 : highest), 0));
    const both = mine.findIndex((count, place) => count > 0 && theirs[POINTS - 1 - place] > 0) + 1;
    const faults = [
        [sum(mine) > MOST_CHECKERS, "too-many", `${ME} has more than 15 checkers`],
        [sum(theirs) > MOST_CHECKERS, "too-many", `${OTHER} has more than 15 checkers`],
        [both > 0, "malformed", `both players have a checker on point ${both} of ${ME}`],
        [mine[POINTS] > 0, "bar", `${ME} is on the bar`],
        [theirs[POINTS] > 0, "bar", `${OTHER} is on the bar`],
        [own > 6, "outside", `the farthest checker of ${ME} is on point ${own}, outside the home board`],
        [POINTS + 1 - other < own, "contact",
            `there is still contact: the other player's last checker is on point ${POINTS + 1 - other} of ${ME}`],
        [other > 6, "other-side", `the farthest checker of ${OTHER} is on point ${other}, outside the home board`],
    ];
    const fault = faults.find(([holds]) => holds);
    if (fault) refuse(fault[1], fault[2], bare);
    return {
        mine: mine.slice(0, 6),
        theirs: theirs.slice(0, 6),
        dice: dice[0] > 0 ? [Math.max(...dice), Math.min(...dice)] : null,
        onRoll,
    };
}

export function toXgid(race) {
    const { mine, theirs, dice, onRoll } = toldBy(race);
    const [own, opposite] = onRoll === "top" ? [96, 64] : [64, 96];
    const board = Array(POINTS + 2).fill("-");
    const placeOf = (point) => (onRoll === "top" ? POINTS + 1 - point : point);
    mine.forEach((count, place) => {
        if (count > 0) board[placeOf(place + 1)] = String.fromCharCode(own + count);
    });
    theirs.forEach((count, place) => {
        if (count > 0) board[placeOf(POINTS - place)] = String.fromCharCode(opposite + count);
    });
    return `XGID=${board.join("")}:0:0:${onRoll === "top" ? -1 : 1}:${dice.join("")}:0:0:0:0:10`;
}

export function toGnubg(race) {
    const { mine, theirs, dice, onRoll } = toldBy(race);
    const counts = [theirs, mine].flatMap((side) => [...side, ...Array(19).fill(0)]);
    const ones = counts.map((count) => `${"1".repeat(count)}0`).join("");
    const position = base64([...ones.padEnd(80, "0")].map(Number));
    if (dice[0] === 0 && onRoll === null) return position;
    const player = onRoll === "top" ? 0 : 1;
    const match = Array(72).fill(0);
    const put = (first, count, value) => {
        for (let place = 0; place < count; place++) match[first + place] = (value >> place) & 1;
    };
    put(4, 2, 3);
    put(6, 1, player);
    put(8, 3, 1);
    put(11, 1, player);
    put(15, 3, dice[0]);
    put(18, 3, dice[1]);
    put(66, 1, 1);
    return `${position}:${base64(match)}`;
}

// The bits of whole bytes, of each byte in the other order.
function turnBytes(bits) {
    return bits.map((_, place) => bits[place + 7 - 2 * (place % 8)]);
}

// The text of whole bytes, of each byte the lowest bit first.
function base64(bits) {
    const high = turnBytes(bits);
    while (high.length % 6 > 0) high.push(0);
    let text = "";
    for (let place = 0; place < high.length; place += 6) {
        text += BASE64[parseInt(high.slice(place, place + 6).join(""), 2)];
    }
    return text;
}

// What a race tells, once it can be written. The dice are zeros where they aren't told.
function toldBy(race) {
    if (typeof race !== "object" || race === null) throw new TypeError("a race is an object with mine and theirs");
    const { mine, theirs = null, dice = null, onRoll = null } = race;
    if (theirs === null) throw new NotARaceError("other-side", "the checkers of the other player aren't told");
    const sides = [readPosition(mine), readPosition(theirs)];
    sides.forEach((side, place) => {
        if (sum(side) <= MOST_CHECKERS) return;
        throw new NotARaceError("too-many", `${[ME, OTHER][place]} has more than 15 checkers: ${side}`);
    });
    if (![null, "bottom", "top"].includes(onRoll)) {
        throw new NotARaceError("malformed", "who is on roll is bottom, top or not told");
    }
    const thrown = dice === null ? [0, 0] : readRoll(dice);
    if (dice !== null && !thrown.every((die) => die >= 1 && die <= 6)) {
        throw new NotARaceError("malformed", "the dice are two numbers from 1 to 6");
    }
    return { mine: sides[0], theirs: sides[1], dice: [Math.max(...thrown), Math.min(...thrown)], onRoll };
}
