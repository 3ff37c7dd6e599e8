// What a file is, by its contents and whatever its name says.
import { MOST_FILE_BYTES } from "../js/kinds.js";
import { refuseFile } from "./state.js";

// Files that players have and the page doesn't read: how they begin, and what they are.
const OTHERS = [
    ["\u0089PNG", "a picture"], ["\u00ff\u00d8\u00ff", "a picture"], ["GIF8", "a picture"], ["RIFF", "a picture"],
    ["%PDF", "a PDF"], ["PK\u0003\u0004", "an archive or a document"],
    ["RGMH", "a match of eXtreme Gammon in its own form: save it there as text (.mat)"],
    ['{"format":"BGF"', "a match of BGBlitz in its own form: save it there as .mat or .sgf"],
];

// Takes a file: a database is checked, and a match or a lesson read.
export async function takeFile(file, window, session, workers, act) {
    if (!file) return;
    // of one that is too long no more than says so
    const read = file.slice(0, MOST_FILE_BYTES + 1).arrayBuffer().then((buffer) => new Uint8Array(buffer));
    const { kind, text, what } = await read.then((bytes) => fileIn(window, bytes), () => ({ kind: "database" }));
    if (kind === "match") act.match(text);
    else if (kind === "lesson") act.give(text);
    else if (kind === "other") session.change(refuseFile, what);
    else {
        workers.begin("Reading the file\u2026");
        const question = read.then((bytes) => ({ kind: "open", file: bytes }));
        session.load(question, ({ file: bytes }) => [bytes.buffer]);
    }
}

// The text of some bytes, of names of an older code, too.
function textIn(window, bytes) {
    try {
        return new window.TextDecoder("utf-8", { fatal: true }).decode(bytes);
    } catch {
        return new window.TextDecoder("latin1").decode(bytes);
    }
}

// The kind of a file, with the text of a match or lesson, or with what it is instead.
function fileIn(window, bytes) {
    const begins = String.fromCharCode(...bytes.subarray(0, 64));
    const [, what] = OTHERS.find(([start]) => begins.startsWith(start)) || [];
    if (what) return { kind: "other", what };
    if (bytes.length === 0 || bytes.includes(0) || begins.startsWith("EPCTABLE")) return { kind: "database" };
    const text = textIn(window, bytes);
    return /^[\ufeff\s]*(?:\(\s*;|;|\d+ point match)/i.test(text) ? { kind: "match", text }
        : /^[\ufeff\s]*(?:(?:#|from:).*\s+)*lesson\s*:/i.test(text) ? { kind: "lesson", text }
        : { kind: "other", what: "neither a match, which begins with its length or a parenthesis, nor a "
            + "lesson, which begins with \u201clesson:\u201d" };
}
