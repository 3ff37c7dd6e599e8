// Positions as players have them: what is read, what is refused and by which line, that what is written is read as the same,
// and what GNU Backgammon says of the same texts, where the folder has the file gnubg_says that tests/callers/ask_gnubg.py
// writes. notation.mjs PACKAGE PROGRAM FOLDER
import { existsSync, readFileSync } from "node:fs";
import { at, end, equal, partOf, wrong } from "./given.mjs";

const { BearoffError, NotARaceError, fromGnubg, fromXgid, read, toGnubg, toXgid } = await partOf("notation.js");
const texts = JSON.parse(readFileSync(new URL("../../tests/callers/notation_texts.json", import.meta.url), "utf8"));
const CODES = ["malformed", "too-many", "bar", "outside", "contact", "other-side"];
const SIX = [0, 0, 0, 0, 0, 1];
const NONE = [0, 0, 0, 0, 0, 0];

const raceOf = (mine, theirs, dice, onRoll) => ({ mine, theirs, dice, onRoll });
const same = (name, is, wanted) => equal(name, JSON.stringify(is), JSON.stringify(wanted));

// What a call answers, or the code of its refusal, or the kind of another error.
function outcome(call, ...words) {
    try {
        return call(...words);
    } catch (error) {
        return error instanceof NotARaceError ? error.code : error.constructor.name;
    }
}

function compareTexts() {
    equal("texts that are read", texts.read.length > 40, true);
    equal("texts that are refused", texts.refused.length > 60, true);
    for (const [text, ...told] of texts.read) {
        const race = raceOf(...told);
        same(`read ${text}`, outcome(read, text), race);
        if (text.split(":").length > 4) same(`fromXgid ${text}`, outcome(fromXgid, text), race);
        else if (race.theirs) same(`fromGnubg ${text}`, outcome(fromGnubg, text), race);
    }
    const seen = new Set();
    for (const [text, code, line] of texts.refused) {
        try {
            wrong(`${text} is read as ${JSON.stringify(read(text))}`);
        } catch (error) {
            if (!(error instanceof NotARaceError && error instanceof BearoffError)) throw error;
            const is = [error.code, error.message, error.status, error.name];
            same(`the refusal of ${text}`, is, [code, line, 0, "NotARaceError"]);
            seen.add(error.code);
        }
    }
    same("the codes", [...seen].sort(), [...CODES].sort());
    for (const text of ["xwQAgHY8AAAAAA", "xwQAgHY8AAAAAA:cAkFAAAAAAAE", "1,2,3,0,0,4", ""]) {
        equal(`fromXgid ${text}`, outcome(fromXgid, text), "malformed");
    }
    for (const text of ["XGID=-ABC--D------------a-b--c-:0:0:1:21:0:0:0:0:10", "1,2,3,0,0,4", ""]) {
        equal(`fromGnubg ${text}`, outcome(fromGnubg, text), "malformed");
    }
    for (const thing of [undefined, null, 1, 1n, true, SIX, {}, Symbol("x"), new String("1,2,3,0,0,4"), () => "1,2,3,0,0,4"]) {
        for (const call of [read, fromXgid, fromGnubg]) equal(`${call.name} of what is no text`, outcome(call, thing), "TypeError");
    }
}

// Numbers that look random, the same in each run.
let state = 7;
function chance(most) {
    state = (Math.imul(state, 1103515245) + 12345) >>> 0;
    return (state >>> 8) % most;
}

function readAnyText() {
    const letters = [..."XGID=:-ABOPabop0123456789+/, \n[]()\u00e9\u{1f3b2}\ud800\0"];
    const refusedWhole = (call, text) => {
        try {
            call(text);
        } catch (error) {
            if (!(error instanceof NotARaceError)) throw error;
            equal("a message on one line", /^[ -~]{1,300}$/.test(error.message), true);
        }
    };
    for (let turn = 0; turn < 3000; turn++) {
        const text = Array.from({ length: chance(60) }, () => letters[chance(letters.length)]).join("");
        for (const call of [read, fromXgid, fromGnubg]) refusedWhole(call, text);
    }
    // what is longer is refused before anything is done with it, however long it is
    const said = (call, text) => {
        try {
            return call(text);
        } catch (error) {
            return `${error.code} ${error.message}`;
        }
    };
    const counts = "0,0,0,0,0,1";
    same("a text of 1000 characters", outcome(read, counts.padEnd(1000)), raceOf(SIX, null, null, null));
    equal("a text of 1000 dice", said(read, "\u{1f3b2}".repeat(1000)).startsWith("malformed neither an XGID"), true);
    for (const long of [counts.padEnd(1001), counts.padStart(10 ** 7), "1,".repeat(2.5e6), "1 ".repeat(10 ** 7), "A".repeat(10 ** 7), ":".repeat(10 ** 7), "\u{1f3b2}".repeat(1001)]) {
        for (const call of [read, fromXgid, fromGnubg]) {
            equal(`${call.name} of a long text`, said(call, long).startsWith("malformed a text of more than 1000 characters is no position"), true);
        }
    }
    const many = 10 ** 6;
    const space = " ".repeat(many);
    const repeated = [":", "1,", "A", "9"].map((part) => part.repeat(many));
    for (const text of [...repeated, `${space}x${space}y`, `1${space}x`]) {
        equal("a long text", outcome(read, text), "malformed");
        refusedWhole(read, text);
    }
}

function side() {
    const counts = [...NONE];
    for (let checkers = chance(16); checkers > 0; checkers--) counts[chance(6)] += 1;
    return counts;
}

// What is written is read as the same, from each notation, whoever is on roll.
function compareWritten() {
    for (let turn = 0; turn < 10000; turn++) {
        const [one, other] = [chance(6) + 1, chance(6) + 1];
        const dice = chance(2) ? [Math.max(one, other), Math.min(one, other)] : null;
        const race = raceOf(side(), side(), dice, chance(2) ? "bottom" : "top");
        const [xgid, ids] = [toXgid(race), toGnubg(race)];
        same(`read ${xgid}`, outcome(read, xgid), race);
        same(`read ${ids}`, outcome(read, ids), race);
        same(`read ${ids.slice(0, 14)}`, outcome(read, ids.slice(0, 14)), raceOf(race.mine, race.theirs, null, null));
        same(`read ${race.mine}`, outcome(read, `${race.mine}`), raceOf(race.mine, null, null, null));
        equal(`${xgid} with the lower die first`, toXgid({ ...race, dice: dice && [dice[1], dice[0]] }), xgid);
    }
    const part = { mine: new Uint8Array(SIX), theirs: NONE, dice: [1, 2] };
    equal("a race without who is on roll", toXgid(part), "XGID=------A-------------------:0:0:1:21:0:0:0:0:10");
    same("the same as IDs", fromGnubg(toGnubg(part)), raceOf(SIX, NONE, [2, 1], "bottom"));
    equal("a Position ID", toGnubg({ mine: SIX, theirs: NONE }), "AAAAQAAAAAAAAA");
    const many = [15, 0, 0, 0, 0, 1];
    for (const [race, code] of [
        [{ mine: SIX }, "other-side"], [{ mine: SIX, theirs: null }, "other-side"], [{ mine: many, theirs: SIX }, "too-many"],
        [{ mine: SIX, theirs: many }, "too-many"], [{ mine: SIX, theirs: SIX, dice: [0, 0] }, "malformed"],
        [{ mine: SIX, theirs: SIX, dice: [7, 1] }, "malformed"], [{ mine: SIX, theirs: SIX, onRoll: "left" }, "malformed"],
        [{ mine: SIX, theirs: SIX, dice: [1, 2, 3] }, "TypeError"], [{ mine: SIX, theirs: SIX, dice: "21" }, "TypeError"],
        [{ mine: [0, 0, 0, 1], theirs: SIX }, "TypeError"], [{ mine: SIX, theirs: "000001" }, "TypeError"],
        [{ mine: [0, 0, 0, 0, 0, 1.5], theirs: SIX }, "RangeError"], [{ theirs: SIX }, "TypeError"], [{}, "other-side"],
        [null, "TypeError"], [undefined, "TypeError"], ["XGID", "TypeError"],
    ]) {
        for (const call of [toXgid, toGnubg]) equal(`${call.name} of ${JSON.stringify(race)}`, outcome(call, race), code);
    }
}

const home = (counts) => [...counts, ...Array(19).fill(0)];
const sorted = (dice) => [...dice].sort();
const saidOf = (race) => [home(race.mine), home(race.theirs ?? NONE), sorted(race.dice ?? [0, 0])];
const saying = (said) => said && [said.mine, said.theirs, sorted(said.dice)];

// A race that is read is what GNU Backgammon says; who is on roll too, but for XGIDs, where it puts that player at the
// bottom, and for offers, where it tells who has to answer.
function compareSaid({ text, says }, race) {
    same(`GNU Backgammon reads ${text}`, saying(says), saidOf(race));
    if (text.split(":").length > 3 || !text.includes(":") || !says || says.offered) return;
    equal(`who is on roll in ${text}`, race.onRoll, says.turn ? "bottom" : "top");
}

function compareWithGnubg() {
    if (!existsSync(at("gnubg_says"))) {
        console.log("js: GNU Backgammon is not installed, so notations are not compared with it");
        return;
    }
    const told = JSON.parse(readFileSync(at("gnubg_says"), "utf8"));
    equal("the races", told.races.length, 4000);
    for (const bottom of [true, false]) {
        for (const thrown of [true, false]) {
            const kind = told.races.filter((race) => race.bottom === bottom && race.dice[0] > 0 === thrown);
            equal("races of a kind", kind.length, 1000);
        }
    }
    for (const said of told.races) {
        const dice = said.dice[0] > 0 ? said.dice : null;
        const race = raceOf(said.mine, said.theirs, dice, said.bottom ? "bottom" : "top");
        const ids = `${said.position}:${said.match}`;
        // what GNU Backgammon says that it was told is what it was told
        const is = [saying(said.says), saying(said.xgid_says), said.says.turn];
        same(`GNU Backgammon on ${ids}`, is, [saidOf(race), saidOf(race), Number(said.bottom)]);
        same(ids, outcome(fromGnubg, ids), race);
        same(said.xgid, outcome(fromXgid, said.xgid), race);
        same(said.position, outcome(fromGnubg, said.position), raceOf(race.mine, race.theirs, null, null));
        const written = [toGnubg(race), toXgid(race), toGnubg({ mine: race.mine, theirs: race.theirs })];
        same("what is written", written, [ids, said.xgid, said.position]);
    }
    for (const said of told.forms) {
        const race = outcome(read, said.text);
        if (typeof race === "string") wrong(`${said.text} is refused: ${race}`);
        else compareSaid(said, race);
    }
    let answered = 0;
    for (const said of told.changed) {
        const race = outcome(read, said.text);
        if (typeof race === "string") {
            equal(`${said.text} is refused by a code`, CODES.includes(race), true);
        } else {
            answered += 1;
            compareSaid(said, race);
        }
    }
    equal("changed texts that are read, and refused", answered > 300 && told.changed.length - answered > 2000, true);
}

const rowsOf = (name) => readFileSync(new URL(`../../tests/${name}`, import.meta.url), "ascii").split("\n")
    .filter((row) => row && !row.startsWith("#"));

// The texts that each language reads, or refuses, as tests/texts.txt says.
function comparePositions() {
    const rows = rowsOf("texts.txt");
    equal("texts of positions", rows.length > 40, true);
    for (const row of rows) {
        const [, , verdict, coded] = row.match(/^(\S+) (\S+) ?(.*)$/);
        const text = decodeURIComponent(coded);
        const told = outcome(read, text);
        const is = { malformed: "bad-text" }[told] ?? (typeof told === "string" ? told : `${told.mine}`);
        equal(`the position ${coded}`, is, verdict);
    }
}

// The plays that each language reads, or refuses.
async function comparePlays() {
    const { Bearoff, BearoffError } = await partOf("bearoff.js");
    const database = await Bearoff.build(8);
    const rows = rowsOf("plays.txt");
    equal("texts of plays", rows.length > 30, true);
    for (const row of rows) {
        const [, position, roll, to, coded] = row.match(/^(\S+) (\S+) (\S+) ?(.*)$/);
        let told = "bad-play";
        try {
            told = String(database.playTo(position, roll, decodeURIComponent(coded)).to);
        } catch (error) {
            // which a text that is no play gets as one that is no position
            if (error instanceof BearoffError && error.name !== "NotARaceError") throw error;
        }
        equal(`the play ${coded}`, told, to);
    }
}

comparePositions();
await comparePlays();
compareTexts();
readAnyText();
compareWritten();
compareWithGnubg();
end();
