// Matches as text files: the `.mat` form of Jellyfish, which GNU Backgammon and XG export, and the
// `.sgf` form of GNU Backgammon, read by the rules and refused with the words of the package for
// Python. Each game is replayed on a board of its own.
import { isTooLong, MOST_TEXT } from "./checks.js";
import { BearoffError } from "./errors.js";

export { BearoffError };

const [HOME, BAR] = [6, 25];
const START = { 24: 2, 13: 5, 8: 3, 6: 5 };
const [MOST_MATCH, MOST_PARTS, MOST_ROLLS, MOST_SHOWN] = [10_000_000, 500_000, 200_000, 100];

const inAscii = (text) => text.replace(/[^ -~]/gu, "?");
// The front of a text, by its characters; and with dots where more follows.
const front = (text, most) => [...text.slice(0, 2 * most)].slice(0, most).join("");
const short = (text) => {
    const shown = front(text, MOST_SHOWN);
    return shown.length === text.length ? text : `${shown}...`;
};
const wordsOf = (text) => text.split(/\s+/).filter(Boolean);

// A text is no match, or one that can't be replayed: `code` is malformed, illegal, turn or variation,
// and the message names the line.
export class BadMatchError extends BearoffError {
    constructor(code, line, what, text = "") {
        const shown = short(inAscii(wordsOf(front(text, MOST_TEXT)).join(" ")));
        super(code, [`line ${line}`, inAscii(front(what, MOST_TEXT)), shown].filter(Boolean).join(": "));
        this.line = line;
    }

    get name() {
        return "BadMatchError";
    }
}

// One word of a play: a point, those at which a checker stops, and how many checkers move so.
const STEPS = /^(bar|0|[1-9]\d?)((?:\/(?:off|0|[1-9]\d?)\*?)+)(?:\(([1-4])\))?$/i;
const pointOf = (word) => ({ bar: BAR, off: 0 })[word] ?? Number(word);

// The moves of single checkers: from, to, and whether a checker is said to be hit there; or, as a
// text, why a word is none.
function stepsOf(text) {
    const steps = [];
    for (const word of wordsOf(text)) {
        const [, from, path, times = "1"] = STEPS.exec(word) || [];
        if (!from) return `not a move: ${word}`;
        const stops = path.toLowerCase().split("/").slice(1);
        const points = [from.toLowerCase(), ...stops.map((stop) => stop.replace("*", ""))].map(pointOf);
        if (points.some((point, place) => point > BAR || (place > 0 && point >= points[place - 1]))) {
            return `no checker moves so: ${word}`;
        }
        for (let time = 0; time < Number(times); time += 1) {
            // of checkers that move alike the first one hits
            stops.forEach((stop, place) => steps.push(
                [points[place], points[place + 1], stop.endsWith("*") && time === 0]));
        }
    }
    return steps;
}

// The last place of a board that is so, or 0.
const lastOf = (board, is) =>
    board.reduce((last, count, point) => (is(count, point) ? point : last), 0);

const placeOf = (point) => (point === BAR ? "on the bar" : `on point ${point}`);

const LENGTH = /^ *(\d{1,5}) point match *$/i;
const VARIATION = /^; *\[Variation "([^"]*)"\] *$/i;
const GAME = /^ *Game (\d{1,6}) *$/;
const SCORE = / : \d{1,6}(?= |$)/;
const NUMBERED = /^ *(\d{1,6})\)(.*)$/;
const WINS = /^ *Wins \d{1,6} points?(?: and the match)? *$/;
const ROLL = /^([1-6])([1-6]):$/;
const SAID = /^(?:Doubles => \d{1,6}|Takes|Drops|Wins \d{1,6} points?(?: and the match)?)$/;
const MOST_WORDS = 6;
const NOTHING = "Cannot Move";
// where the left column begins behind the number, and the right one, where the left one is empty
const [LEFT, RIGHT] = [4, 12];

const expanded = (line) => {
    let text = "";
    for (const letter of line) text += letter === "\t" ? " ".repeat(8 - (text.length % 8)) : letter;
    return text;
};

// Reads a match line by line.
class Reader {
    constructor() {
        Object.assign(this, {
            number: 0, text: "", length: null, names: null, games: 0, plays: [], boards: null,
            isNamed: true, isOver: true, move: 0, last: null,
        });
    }

    refuse(code, what) { throw new BadMatchError(code, this.number, what, this.text); }

    read(number, line) {
        Object.assign(this, { number, text: line });
        const isNote = line.trimStart().startsWith(";");
        if (isTooLong(line)) {
            if (isNote) return;
            this.refuse("malformed", `a line has at most ${MOST_TEXT} characters`);
        }
        this.text = expanded(line);
        const [, variation] = VARIATION.exec(this.text.trim()) || [];
        if (variation !== undefined && variation.toLowerCase() !== "backgammon") {
            this.refuse("variation", `only backgammon is graded, and not ${variation}`);
        }
        if (this.text.trim() === "" || isNote) return;
        const [length, game] = [LENGTH, GAME].map((pattern) => pattern.exec(this.text)?.[1]);
        if (length !== undefined) {
            if (this.length !== null) this.refuse("malformed", "a second match begins");
            this.length = Number(length);
        } else if (this.length === null) {
            this.refuse("malformed", "a match begins with its length, as in 7 point match");
        } else if (game !== undefined) this.begin(Number(game));
        else if (!this.isNamed) this.name();
        else if (this.boards === null) {
            this.refuse("malformed", "a game begins with its number, as in Game 1");
        } else if (WINS.test(this.text)) this.isOver = true;
        else this.turns();
    }

    begin(game) {
        if (!this.isNamed) this.refuse("malformed", "the players of the game before aren't named");
        if (game !== this.games + 1) this.refuse("malformed", `it should be game ${this.games + 1}`);
        Object.assign(this,
            { games: game, boards: null, isNamed: false, isOver: false, move: 0, last: null });
    }

    name() {
        const parts = this.text.split(SCORE);
        const rest = parts.pop();
        if (parts.length < 2 || !parts[0].trim() || !parts[1].trim() || rest.trim()) {
            this.refuse("malformed",
                "the line behind the number of a game names both players with their scores");
        }
        if (parts.length > 2) this.refuse("malformed", "where one name ends can't be told");
        this.sit(parts.map((part) => part.trim()));
    }

    // Puts up the checkers for two players.
    sit(names) {
        if (this.names && this.names.join("\n") !== names.join("\n")) {
            this.refuse("malformed", "the players of this game are others than those before");
        }
        const board = () => Array.from({ length: BAR + 1 }, (_, point) => START[point] ?? 0);
        Object.assign(this, { names, isNamed: true, boards: [board(), board()] });
    }

    // Reads a line of moves: at most one entry for each player.
    turns() {
        const [, number, body] = NUMBERED.exec(this.text) || [];
        if (!number) this.refuse("malformed", "neither a numbered move nor the end of a game");
        if (Number(number) !== this.move + 1) {
            this.refuse("malformed", `it should be move ${this.move + 1}`);
        }
        this.move += 1;
        const begins = body.length - body.trimStart().length;
        if (begins > LEFT && begins < RIGHT) {
            this.refuse("malformed", "whose column the move stands in can't be told");
        }
        const columns = begins <= LEFT ? [0, 1] : [1];
        const entries = this.entries(wordsOf(body));
        if (entries.length > columns.length) {
            this.refuse("malformed", "there are more entries than columns");
        }
        entries.forEach(({ dice, words }, place) => {
            if (this.isOver) this.refuse("turn", "the game is over");
            if (dice) this.play(columns[place], dice, words);
            else if (words.startsWith("Wins")) this.isOver = true;
        });
    }

    // The entries of a line: of each the dice and what was played, or another entry's words.
    entries(words) {
        const entries = [];
        const isPlayed = (word) => STEPS.test(word) || NOTHING.split(" ").includes(word);
        for (let place = 0, end; place < words.length; place = end) {
            const dice = ROLL.exec(words[place]);
            const joined = () => words.slice(place, end).join(" ");
            end = place + 1;
            if (dice) {
                while (end < words.length && isPlayed(words[end])) end += 1;
                entries.push({
                    dice: [Number(dice[1]), Number(dice[2])], words: words.slice(place + 1, end).join(" "),
                });
                continue;
            }
            while (end < Math.min(words.length, place + MOST_WORDS) && !SAID.test(joined())) end += 1;
            // the longest that it can be: a game's end may be that of the match
            while (["and", "the", "match"].includes(words[end])) end += 1;
            if (!SAID.test(joined())) {
                this.refuse("malformed",
                    `neither a roll nor a double nor what answers one: ${words[place]}`);
            }
            entries.push({ dice: null, words: joined() });
        }
        return entries;
    }

    // Makes a play on the board.
    play(player, dice, words) {
        if (this.plays.length === MOST_ROLLS) {
            this.refuse("malformed", `a match has at most ${MOST_ROLLS} rolls`);
        }
        if (player === this.last) this.refuse("turn", "the same player rolls twice");
        this.last = player;
        const [mine, other] = [this.boards[player], this.boards[1 - player]];
        if (!mine.some(Boolean) || !other.some(Boolean)) {
            this.refuse("turn", "a player has borne off all checkers");
        }
        const [before, facing] = [[...mine], [...other]];
        const steps = words === NOTHING ? [] : stepsOf(words);
        if (typeof steps === "string") this.refuse("malformed", steps);
        const pips = steps.reduce((sum, step) => sum + this.moveChecker(mine, other, step), 0);
        // they may be told in another order than that in which they can be made
        const lacks = lastOf(mine, (count) => count < 0);
        const who = short(this.names[player]);
        if (lacks > 0) this.refuse("illegal", `${who} has no checker ${placeOf(lacks)}`);
        if (pips > (dice[0] + dice[1]) * (dice[0] === dice[1] ? 2 : 1)) {
            this.refuse("illegal", "the play is of more pips than the roll");
        }
        if (mine[BAR] > 0 && steps.some(([from]) => from < BAR)) {
            this.refuse("illegal", `${who} moves with a checker on the bar`);
        }
        if (mine.slice(HOME + 1).some(Boolean) && steps.some(([, to]) => to === 0)) {
            this.refuse("illegal", `${who} bears off with a checker outside the home board`);
        }
        this.plays.push({
            game: this.games, move: this.move, line: this.number, player, dice, text: words, before,
            after: [...mine], other: facing,
        });
    }

    // Moves one checker, and tells how many pips it has moved.
    moveChecker(mine, other, [from, to, isHit]) {
        const there = to > 0 ? other[BAR - to] : 0;
        if (there > 1) {
            this.refuse("illegal", `${placeOf(to)} stand ${there} checkers of the other player`);
        }
        if (isHit && there === 0) this.refuse("illegal", `no checker can be hit ${placeOf(to)}`);
        mine[from] -= 1;
        if (to > 0) {
            mine[to] += 1;
            other[BAR] += there;
            other[BAR - to] = 0;
        }
        return from - to;
    }

    end() {
        Object.assign(this, { number: this.number + 1, text: "" });
        if (this.length === null || this.names === null || !this.isNamed) {
            this.refuse("malformed", "the file ends before a game has begun");
        }
        const { length, names, games, plays } = this;
        return { length, names, games, plays };
    }
}

const BLANKS = /\s*/y;
const SGF_PART = /[();]|[A-Z]+(?=\s*\[)/y;
const SGF_PLAY = /^([1-6])([1-6])((?:[a-z]{2}){0,4})$/;
// the rules that leave the moves as they are: what the cube may do, and what a game counts
const SGF_RULES = ["Crawford", "CrawfordGame", "Jacoby", "NoCube"];

const linesIn = (text, from, to) => text.slice(from, to).split("\n").length - 1;

// The values of a property, each between brackets, and where they end. A bracket behind an odd
// number of backslashes doesn't end one.
function sgfValues(text, start) {
    const [values, value] = [[], /\s*\[((?:\\[^]|[^\\\]])*)\]/y];
    let place = start;
    value.lastIndex = place;
    for (let found = value.exec(text); found && values.length < MOST_PARTS; found = value.exec(text)) {
        values.push(found[1]);
        place = value.lastIndex;
    }
    return { values, place };
}

// Reads a match as GNU Backgammon saves it: a tree for each game, without variations. White has the
// left column of the `.mat` form, Black the right one; a letter is a point, as White counts them, y
// the bar and z off.
class SgfReader extends Reader {
    whole(text) {
        let [place, depth, parts] = [0, 0, 0];
        const end = text.trimEnd().length;
        this.number = 1;
        while (place < end) {
            BLANKS.lastIndex = place;
            const start = place + BLANKS.exec(text)[0].length;
            this.number += linesIn(text, place, start);
            this.text = wordsOf(front(text.slice(start, start + 80), 40)).join(" ");
            SGF_PART.lastIndex = start;
            const [name] = SGF_PART.exec(text) || [];
            if (!name) this.refuse("malformed", "neither a property nor the start or the end of a game");
            place = start + name.length;
            parts += 1;
            if (name === "(") {
                if (depth > 0) this.refuse("malformed", "a game has variations");
                this.start();
            }
            depth += { "(": 1, ")": -1 }[name] ?? 0;
            const isProperty = !"();".includes(name);
            if (depth < 0 || (isProperty && depth === 0)) {
                this.refuse("malformed", "what stands there is in no game");
            }
            const told = isProperty && sgfValues(text, place);
            if (told) {
                if (told.values.length === 0) this.refuse("malformed", "a property has no value");
                parts += told.values.length;
                place = told.place;
            }
            if (parts > MOST_PARTS) {
                this.refuse("malformed",
                    `a match has at most ${MOST_PARTS} nodes, properties and values`);
            }
            if (told) this.property(name, told.values);
            this.number += linesIn(text, start, place);
        }
        this.text = "";
        if (depth > 0) this.refuse("malformed", "the last game has no end");
        return this.end();
    }

    start() {
        if (!this.isNamed) this.refuse("malformed", "the players of the game before aren't named");
        this.begin(this.games + 1);
        Object.assign(this, { move: 1, isOver: false, hasEntries: false, told: {} });
    }

    property(name, values) {
        if (["AB", "AE", "AW"].includes(name)) {
            this.refuse("malformed", "a position is set up in the middle of a game");
        }
        if (["GM", "MI", "PW", "PB", "RU"].includes(name)) this.head(name, values);
        else if (name === "W" || name === "B") {
            if (!this.boards) {
                this.refuse("malformed", "the players of the game aren't named before its first move");
            }
            this.entry("WB".indexOf(name), values[0]);
        }
    }

    head(name, values) {
        if (values.some(isTooLong)) {
            this.refuse("malformed", `a name or a rule has at most ${MOST_TEXT} characters`);
        }
        const other = (what) => this.refuse("variation", `only backgammon is graded, and not ${what}`);
        if (name === "GM" && values.join("\n") !== "6") other(`the game ${short(values[0])}`);
        if (name === "RU") {
            const rule = values.join(":").split(":").find((one) => one && !SGF_RULES.includes(one));
            if (rule) other(short(rule));
        }
        if (name === "MI") {
            const lengths = values.filter((value) => /^length:\d{1,5}$/.test(value))
                .map((value) => Number(value.slice(7)));
            if (lengths.length !== 1 || ![null, lengths[0]].includes(this.length)) {
                this.refuse("malformed", "the length of the match isn't told, or is another one");
            }
            [this.length] = lengths;
        }
        this.told[name] = values[0].replace(/\\([^])/g, "$1");
        const { PW, PB } = this.told;
        if (!this.isNamed && PW !== undefined && PB !== undefined) this.sit([PW, PB]);
    }

    // Takes a roll with its play, or what is done with the cube.
    entry(player, value) {
        // in the other form each of them stands in a column, the left one of a line first
        if (player === 0 && this.hasEntries) this.move += 1;
        this.hasEntries = true;
        const [, high, low, moves] = SGF_PLAY.exec(value) || [];
        if (high) {
            const points = [...moves].map((letter) => {
                const place = letter.charCodeAt(0) - 97;
                return letter === "y" ? BAR : letter === "z" ? 0 : player === 0 ? place + 1 : 24 - place;
            });
            const words = points.flatMap((point, place) =>
                (place % 2 === 0 ? [`${point}/${points[place + 1]}`] : []));
            this.play(player, [Number(high), Number(low)], words.join(" "));
        } else if (!["double", "take", "drop"].includes(value)) {
            this.refuse("malformed", "neither a roll nor a double nor what answers one");
        }
    }
}

// Blanks of other kinds than those of ASCII, ends of lines of other systems, and the mark that begins
// some files: each is a blank.
const BLANK = /[\v\f\r\x1c-\x1f\x85\xa0\u1680\u2000-\u200a\u2028\u2029\u202f\u205f\u3000\ufeff]/g;

// The match of a text in the `.mat` form or, where it begins with a parenthesis, in the `.sgf` form.
export function readMatch(given) {
    if (given.length > MOST_MATCH) {
        throw new BadMatchError("malformed", 1, `a match has at most ${MOST_MATCH} characters`);
    }
    const text = given.replaceAll("\r\n", "\n").replace(BLANK, " ");
    if (text.trimStart().startsWith("(")) return new SgfReader().whole(text);
    const reader = new Reader();
    const lines = text.split("\n");
    if (lines.length > MOST_PARTS) {
        throw new BadMatchError("malformed", MOST_PARTS + 1, `a match has at most ${MOST_PARTS} lines`);
    }
    lines.forEach((line, place) => reader.read(place + 1, line));
    reader.number = lines.length;
    return reader.end();
}

// Whether all checkers of the player are home and past the other player's.
function isBearoff({ before, other }) {
    if (before.slice(HOME + 1).some(Boolean)) return false;
    const highest = lastOf(before, (count, point) => point > 0 && count > 0);
    // a point of the other player is counted from the other end, and the bar is behind all points
    const theirs = other.flatMap((count, point) => (point > 0 && count > 0 ? [25 - point] : []));
    return highest > 0 && highest < Math.min(BAR, ...theirs);
}

// The bearoff plays of a match, each with the player's home board before and after it. Left out is a
// roll at which the game ended without a play.
export const bearoffs = ({ plays }) => plays.filter((turn, place) => isBearoff(turn)
    && (turn.text !== "" || plays[place + 1]?.game === turn.game))
    .map((turn) => ({ ...turn, points: turn.before.slice(1, HOME + 1), to: turn.after.slice(1, HOME + 1) }));
