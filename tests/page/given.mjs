// What the tests under node are given: the program that was proved here, the page and the two
// modules that `make page` made, and the folder that `make tested` made of the program's files and
// replies. The variables PROGRAM, PAGE, MODULES and TESTED name others. And how a part of a test
// is told; with the variable FIRST_FAULT the first part that fails ends the file.
import assert from "node:assert/strict";
import { existsSync, readFileSync } from "node:fs";
import { join, resolve } from "node:path";
import { test } from "node:test";
import { fileURLToPath } from "node:url";

export const ROOT = fileURLToPath(new URL("../../", import.meta.url));

// The path of what a variable names, or of what is made here, which has to be there.
function made(variable, path, how) {
    const place = resolve(process.env[variable] || join(ROOT, path));
    if (!existsSync(place)) throw new Error(`${place} is missing: run ${how}`);
    return place;
}

export const programPath = () =>
    made("PROGRAM", "crates/bearoff_cli/out/bearoff_cli", "./bearoff --prove");
export const pagePath = () => made("PAGE", "out/bearoff.html", "make page");
export const modulesFolder = () => made("MODULES", "out/modules", "make page");
export const testedFolder = () => made("TESTED", "out/tested", "make tested");
export const linesOf = (name) =>
    readFileSync(join(testedFolder(), name), "utf8").trimEnd().split("\n");

// What a play does, by its text: how many more checkers each place has after it, "off" among them.
// One in the notation of players, where a move can stand for several, does the same as one in that
// of the program, which has each by itself.
export function effectOf(text) {
    const effect = new Map();
    for (const word of text.split(" ")) {
        const [, from, to, times = "1"] = /^([1-6])\/([1-5]|off)(?:\(([2-4])\))?$/.exec(word)
            || wrong(`${text} is no play`) || [];
        for (const [place, more] of [[from, -Number(times)], [to, Number(times)]]) effect.set(place,
            (effect.get(place) || 0) + more);
    }
    return [...effect].filter(([, more]) => more !== 0).map(([place, more]) => `${place}:${more}`).sort().join(" ");
}

// Whether no move of a text goes on from another one, and none stands twice.
export function isJoined(text) {
    const words = text.split(" ").map((word) => word.replace(/\(.*/, ""));
    const [froms, tos] = [0, 1].map((place) => words.map((word) => word.split("/")[place]));
    return new Set(words).size === words.length && !froms.some((from) => tos.includes(from));
}

// What is wrong in the part that runs; it goes on, so that all of it is told.
let faults = [];

// Whoever only asks whether something is wrong needs no more than one.
export function wrong(text) {
    if (process.env.FIRST_FAULT) process.exit(1);
    faults.push(text);
}

// What is kept of a value that is compared: objects as JSON has them.
const plain = (value) =>
    (typeof value === "object" && value !== null ? JSON.parse(JSON.stringify(value)) : value);

export function equal(name, is, wanted) {
    try {
        assert.deepEqual(plain(is), plain(wanted));
    } catch (error) {
        wrong(`${name}: ${error.message}`);
    }
}

// A test of some part, which fails with all that is wrong in it.
export function part(name, body, options = {}) {
    test(name, options, async (context) => {
        faults = [];
        let thrown = null;
        try {
            await body(context);
        } catch (error) {
            thrown = error;
        }
        if (process.env.FIRST_FAULT && thrown) process.exit(1);
        const told = faults.slice(0, 20).join("\n");
        if (faults.length > 0) assert.fail(`${told}\n${faults.length} wrong${thrown ? `, and ${thrown.stack}` : ""}`);
        if (thrown) throw thrown;
    });
}
