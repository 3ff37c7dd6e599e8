// What the tests of the package are given: the package as installed, the program, and a folder with its files eight,
// race.db, large.db and whole.board of 8, 44, 58 and 90 pips, with questions_8, replies_8 and so on.
import { readdirSync, readFileSync } from "node:fs";
import { join, resolve } from "node:path";
import { pathToFileURL } from "node:url";

const [, , packageFolder, program, folder] = process.argv;

export { program };

export const FILES = { 8: "eight", 44: "race.db", 58: "large.db", 90: "whole.board" };

export const at = (name) => join(folder, name);
export const bytesOf = (name) => readFileSync(at(name));
export const linesOf = (name) => readFileSync(at(name), "utf8").trimEnd().split("\n");
export const partOf = (name) => import(pathToFileURL(resolve(packageFolder, name)).href);
export const packageParts = () => readdirSync(packageFolder);
export const packageBytes = (name) => readFileSync(join(packageFolder, name));
export const textOf = (name) => packageBytes(name).toString();

let failed = 0;

export function wrong(text) {
    failed += 1;
    if (failed <= 20) console.log(`js: ${text.slice(0, 500)}`);
}

export const equal = (name, is, wanted) => is === wanted || wrong(`${name}: ${is}, and not ${wanted}`);

const { BearoffError } = await partOf("bearoff.js");

// What a call is refused with: the code of a BearoffError, else the kind of error; or what it answered.
export async function refusedLater(ask) {
    try {
        return `the answer ${await ask()}`;
    } catch (error) {
        return error instanceof BearoffError ? error.code : error.constructor.name;
    }
}

export function refusedWith(ask) {
    try {
        return `the answer ${ask()}`;
    } catch (error) {
        return error instanceof BearoffError ? error.code : error.constructor.name;
    }
}

// What a call answers, or the error that it throws, as texts.
export function saidBy(ask) {
    try {
        return `${ask()}`;
    } catch (error) {
        return `${error.name}: ${error.message}`;
    }
}

// A board file of a small bound, which the module builds and the package doesn't.
export async function smallBoard(bound) {
    const [{ Engine }, { loadModule }] = [await partOf("engine.js"), await partOf("modules.js")];
    const engine = await Engine.start(await loadModule());
    engine.put(new Uint8Array(100_000));
    equal(`a board of ${bound} pips`, engine.call("bearoff_build", 3, bound, BigInt(engine.file), 0n, BigInt(engine.file), 100_000n, engine.atTold), 0);
    const file = engine.bytes.slice(engine.file, engine.file + engine.number(engine.told));
    engine.release();
    return file;
}

// Ends the test.
export function end() {
    if (failed > 20) console.log(`js: ${failed} are wrong`);
    process.exit(failed > 0 ? 1 : 0);
}
