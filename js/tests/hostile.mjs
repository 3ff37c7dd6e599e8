// Hands the package what it has to refuse: each kind of wrong argument to each call, damaged files, a module that traps, a
// database that was closed. After each the database answers as before. hostile.mjs PACKAGE PROGRAM FOLDER
import { spawnSync } from "node:child_process";
import { mkdtempSync, rmSync, writeFileSync } from "node:fs";
import { tmpdir } from "node:os";
import { join } from "node:path";
import { pathToFileURL } from "node:url";
import {
    bytesOf, end, equal, packageBytes, packageParts, partOf, program, refusedLater, refusedWith, textOf, wrong,
} from "./given.mjs";

const { Bearoff, BearoffError, DamagedError, asDoubles, loadModule } = await partOf("bearoff.js");
const { Engine } = await partOf("engine.js");
const eight = new Uint8Array(bytesOf("eight"));
const database = await Bearoff.open(eight);

const SIX = [0, 0, 0, 0, 0, 1];
const TWO = [0, 1, 0, 0, 0, 0];
const THREE = [0, 0, 1, 0, 0, 0]; // where 2-1 leads from there
const ROLL = [2, 1];

// The database still answers everything as it did.
const STILL = JSON.stringify(["mean 1/1 epc 49/6 8.167", 1, 8, 64, "2,19,15,1"]);

function compareStill(name) {
    const is = [database.answer("mean 0,1,0,0,0,0"), database.version, database.bound, database.positionCount,
        [database.positionInfo(TWO).pips, database.rank(SIX), database.moves([1, 1, 1, 0, 0, 0], [2, 2]).length + 14, database.mean(TWO).numerator].join()];
    equal(`after ${name}`, JSON.stringify(is), STILL);
}

class Reader {
    get length() { throw new EvalError("read"); }
}

// Positions of a wrong shape, with what refuses them.
const holes = [0, 0, 0, 0, 0, 1];
delete holes[2];
const POSITIONS = [
    [[0, 0, 0, 0, 1], "TypeError"], [[0, 0, 0, 0, 0, 0, 1], "TypeError"], [[], "TypeError"], [holes, "TypeError"],
    [[0, 0, 0, 0, 0, -1], "RangeError"], [[0, 0, 0, 0, 0, 256], "RangeError"], [[1.5, 0, 0, 0, 0, 0], "RangeError"],
    [[NaN, 0, 0, 0, 0, 0], "RangeError"], [[Infinity, 0, 0, 0, 0, 0], "RangeError"], [[2 ** 32, 0, 0, 0, 0, 0], "RangeError"],
    [["1", 0, 0, 0, 0, 0], "TypeError"], [[null, 0, 0, 0, 0, 0], "TypeError"], [[true, 0, 0, 0, 0, 0], "TypeError"],
    [[1n, 0, 0, 0, 0, 0], "TypeError"], [[[1], 0, 0, 0, 0, 0], "TypeError"], [[{ valueOf: () => 1 }, 0, 0, 0, 0, 0], "TypeError"],
    [[Symbol("1"), 0, 0, 0, 0, 0], "TypeError"], ["000001", "malformed"], ["x", "malformed"], ["", "malformed"], ["0,0,0,0,0,16", "too-many"], [{ mine: [1] }, "TypeError"], [null, "TypeError"],
    [undefined, "TypeError"], [1, "TypeError"], [{}, "TypeError"], [{ length: 6, 0: 0, 1: 0, 2: 0, 3: 0, 4: 0, 5: 1 }, "TypeError"],
    [new Set(SIX), "TypeError"], [new Uint8Array(5), "TypeError"], [new Uint8Array(7), "TypeError"], [new ArrayBuffer(6), "TypeError"],
    [new DataView(new ArrayBuffer(6)), "TypeError"], [new BigInt64Array(6), "TypeError"], [new Float64Array([0.5, 0, 0, 0, 0, 0]), "RangeError"],
    [new Int8Array([-1, 0, 0, 0, 0, 0]), "RangeError"], [() => SIX, "TypeError"], [new Reader(), "TypeError"],
];

const ROLLS = [
    [[2], "TypeError"], [[2, 1, 1], "TypeError"], ["x", "TypeError"], ["", "TypeError"], ["211", "TypeError"], ["2--1", "TypeError"], [" ".repeat(2000), "TypeError"], [9, "RangeError"], [100, "RangeError"], [2.1, "RangeError"],
    ["27", "bad-roll"], [70, "bad-roll"], [null, "TypeError"], [undefined, "TypeError"],
    [["2", "1"], "TypeError"], [[2, 1.5], "RangeError"], [[2, NaN], "RangeError"], [[2, undefined], "TypeError"], [[2n, 1n], "TypeError"],
    [[0, 1], "bad-roll"], [[7, 1], "bad-roll"], [[1, 7], "bad-roll"], [[-1, 1], "bad-roll"], [[257, 1], "bad-roll"], [[1, 256 + 2], "bad-roll"],
    [[2 ** 32 + 1, 1], "bad-roll"],
];

// Whole numbers that are none from 0 on.
const NUMBERS = [
    [-1, "RangeError"], [1.5, "RangeError"], [NaN, "RangeError"], [Infinity, "RangeError"], ["1", "TypeError"], [null, "TypeError"],
    [1n, "TypeError"], [[1], "TypeError"], [{}, "TypeError"], [2 ** 53, "RangeError"], [true, "TypeError"],
];

function refusePositions() {
    const asked = {
        mean: (position) => database.mean(position), epc: (position) => database.epc(position),
        wastage: (position) => database.wastage(position), distribution: (position) => database.distribution(position),
        within: (position) => database.within(position, 1), positionInfo: (position) => database.positionInfo(position),
        rank: (position) => database.rank(position), play: (position) => database.play(position, ROLL),
        moves: (position) => database.moves(position, ROLL), loss: (position) => database.loss(position, ROLL, THREE),
        playTo: (position) => database.playTo(position, ROLL, THREE), "loss to": (position) => database.loss(SIX, ROLL, position),
        "playTo to": (position) => database.playTo(SIX, ROLL, position),
    };
    for (const [name, ask] of Object.entries(asked)) {
        POSITIONS.forEach(([position, refusal], place) => {
            ask(name.endsWith(" to") ? THREE : SIX);
            equal(`${name} of the wrong position ${place}`, refusedWith(() => ask(position)), refusal);
        });
        for (const [position, code] of [[[16, 0, 0, 0, 0, 0], "too-many"], [[255, 255, 255, 255, 255, 255], "too-many"]]) {
            equal(`${name} of ${position}`, refusedWith(() => ask(position)), code);
        }
        if (!["positionInfo", "playTo", "playTo to", "loss to"].includes(name)) equal(`${name} of 9 pips`, refusedWith(() => ask([9, 0, 0, 0, 0, 0])), "over-bound");
        compareStill(`${name} of wrong positions`);
    }
    for (const [position, wanted] of [[new Uint8Array(SIX), "5/4"], [new Float64Array(SIX), "5/4"], [[-0, 0, 0, 0, 0, 1], "5/4"], [Object.freeze(SIX.slice()), "5/4"]]) {
        const { numerator, denominator } = database.mean(position);
        equal("a right position", `${numerator}/${denominator}`, wanted);
    }
    // one that asks for another while it is read is answered for itself
    const other = [0, 0, 0, 0, 0, 1];
    Object.defineProperty(other, 3, { get() { database.mean([1, 1, 0, 0, 0, 0]); return 0; } });
    equal("a position that asks", database.mean(other).denominator, 4n);
}

// The former engine put five counts over those of the call before, and answered with its sixth.
function refuseFive() {
    database.mean([0, 0, 0, 0, 0, 1]);
    equal("five counts after six", refusedWith(() => database.mean([0, 0, 0, 0, 0])), "TypeError");
    equal("one count after six", refusedWith(() => database.mean([1])), "TypeError");
}

// The former engine put a long line over the struct of the database.
function answerLong() {
    for (const length of [127, 128, 129, 130, 131, 255, 256, 257, 5000, 65536, 131072 - 64, 131072, 150000, 1000000]) {
        equal(`a line of ${length}`, database.answer("x".repeat(length)), "error bad-line");
        equal(`a question after ${length} spaces`, database.answer(`${" ".repeat(length)}mean 0,0,0,0,0,1`), "error bad-line");
        equal(`a question before ${length} spaces`, database.answer(`mean 0,0,0,0,0,1${" ".repeat(length)}`), "error bad-line");
        compareStill(`a line of ${length}`);
    }
    const lines = ["", " ", "mean", "mean 0,0,0,0,0,1 ", "mean 0,0,0,0,0,1\n", "mean 0,0,0,0,0,1\r", "mean 0,0,0,0,0,1\0", "\u{1f3b2}", "\ud800", "m\u00e9an 0,0,0,0,0,1",
        "\u00e9".repeat(126), "\u{1f3b2}".repeat(64), `mean 0,0,0,0,0,1${"\u{1f3b2}".repeat(100)}`];
    for (const line of lines) equal(`the line ${JSON.stringify(line)}`, database.answer(line), "error bad-line");
    for (const line of [undefined, null, 1, ["mean 0,0,0,0,0,1"], {}, Symbol("mean"), new String("mean 0,0,0,0,0,1"), new TextEncoder().encode("mean 0,0,0,0,0,1")]) {
        equal(`a line that is a ${typeof line}`, refusedWith(() => database.answer(line)), "TypeError");
    }
}

function refuseOthers() {
    for (const [roll, refusal] of ROLLS) {
        const asked = { play: () => database.play(SIX, roll), moves: () => database.moves(SIX, roll), loss: () => database.loss(SIX, roll, TWO), playTo: () => database.playTo(SIX, roll, TWO) };
        for (const [name, ask] of Object.entries(asked)) equal(`${name} with the roll ${JSON.stringify(roll, (_, value) => String(value))}`, refusedWith(ask), refusal);
    }
    const none = [0, 0, 0, 0, 0, 0];
    for (const [name, ask] of [["play", () => database.play(none, ROLL)], ["moves", () => database.moves(none, ROLL)], ["loss", () => database.loss(none, ROLL, none)]]) {
        equal(`${name} of no checker`, refusedWith(ask), "finished");
    }
    equal("a play that isn't one", refusedWith(() => database.loss(SIX, ROLL, SIX)), "not-legal");
    equal("its moves", refusedWith(() => database.playTo(SIX, ROLL, SIX)), "not-legal");
    for (const [number, refusal] of NUMBERS) {
        for (const [name, ask] of Object.entries({
            position: () => database.position(number), within: () => database.within(SIX, number), means: () => database.means(number),
            "means, so many": () => database.means(0, number), positions: () => database.positions(number, 1), epcs: () => database.epcs(number), distributions: () => database.distributions(0, number),
        })) equal(`${name} with the number ${String(number)}`, refusedWith(ask), refusal);
    }
    equal("a position without a rank", refusedWith(() => database.position()), "TypeError");
    for (const rank of [64, 65, 65535, 65536, 65536 + 1, 2 ** 32, 2 ** 53 - 1]) {
        equal(`the rank ${rank}`, refusedWith(() => database.position(rank)), "no-rank");
        equal(`a table from ${rank} on`, refusedWith(() => database.means(rank, 1)), "no-rank");
        equal(`a table of ${rank + 1}`, refusedWith(() => database.distributions(0, rank + (rank === 64 ? 1 : 0))), "no-rank");
    }
    equal("no ranks from the end on", database.means(64).length, 0);
    equal("from behind the end on", refusedWith(() => database.means(65)), "no-rank");
    equal("within many rolls", database.within(SIX, 2 ** 40).thousandths, 1000);
    for (const [fraction, refusal] of [
        [null, "TypeError"], [undefined, "TypeError"], ["1/2", "TypeError"], [{}, "TypeError"], [{ numerator: 1, denominator: 2 }, "TypeError"],
        [{ numerator: 1n }, "TypeError"], [{ numerator: -1n, denominator: 2n }, "RangeError"], [{ numerator: 1n, denominator: 0n }, "RangeError"],
        [{ numerator: 2n ** 192n + 1n, denominator: 2n }, "RangeError"], [{ numerator: 181n, denominator: 1n }, "RangeError"],
        [{ numerator: 1n, denominator: 6n * 36n ** 33n + 1n }, "RangeError"],
    ]) equal("the thousandths of a wrong fraction", refusedWith(() => database.thousandths(fraction)), refusal);
    for (const [numerator, denominator, wanted] of [[0n, 1n, 0], [1n, 2000n, 1], [999n, 2000000n, 0], [180n, 1n, 180000], [7n ** 40n, 36n ** 22n, 368], [6n * 36n ** 22n, 6n * 36n ** 22n, 1000]]) {
        equal(`${numerator}/${denominator} in thousandths`, database.thousandths({ numerator, denominator }), wanted);
    }
    for (const table of [null, [1n, 2n], new Uint8Array(4), new BigUint64Array(3)]) equal("doubles of no table", refusedWith(() => asDoubles(table)), "TypeError");
    compareStill("other wrong arguments");
}

async function refuseOpening() {
    for (const file of [undefined, null, "race.db", 8, [1, 2, 3], {}, () => eight]) {
        equal(`opening a ${typeof file}`, await refusedLater(() => Bearoff.open(file)), "TypeError");
    }
    for (const [bound, refusal] of [...NUMBERS, [undefined, "TypeError"], [91, "over-bound"], [255, "over-bound"], [256, "over-bound"], [300, "over-bound"], [2 ** 40, "over-bound"]]) {
        equal(`building ${String(bound)}`, await refusedLater(() => Bearoff.build(bound)), refusal);
    }
    for (const module of [null, {}, eight, "wide.wasm", 1]) {
        equal("another module", await refusedLater(() => Bearoff.open(eight, { module }).then(() => "none")), module === null ? "the answer none" : "TypeError");
    }
    equal("words that are null", await refusedLater(() => Bearoff.open(eight, null)), "TypeError");
    // views of a buffer are what they show, and what was handed over is not kept
    const around = new Uint8Array(eight.length + 20);
    around.set(eight, 10);
    const views = [new Uint8Array(around.buffer, 10, eight.length), new DataView(around.buffer, 10, eight.length), around.slice(10, -10).buffer];
    const shared = new SharedArrayBuffer(eight.length);
    new Uint8Array(shared).set(eight);
    for (const view of [...views, shared]) {
        const opened = await Bearoff.open(view);
        around[10 + 32] ^= 255;
        equal("a view", opened.answer("mean 0,0,0,0,0,1"), "mean 5/4 epc 245/24 10.208");
        around[10 + 32] ^= 255;
        opened.close();
    }
    for (const bound of [0, 1, -0]) {
        const small = await Bearoff.build(bound);
        equal(`${bound} pips`, [small.bound, small.positionCount, small.means().length, small.answer("mean 0,0,0,0,0,0")].join(), `${Math.abs(bound)},${bound + 1},${3 * bound + 3},mean 0/1 epc 0/1 0.000`);
        small.close();
    }
}

// Each damage is refused as the program refuses it, and so is a file of any length.
async function refuseDamages() {
    const long = new Uint8Array(21_000_000);
    long.set(eight);
    const damaged = [new Uint8Array(0), eight.slice(0, 20), eight.slice(0, -1), Uint8Array.of(...eight, 0), long];
    const changed = (file, place) => {
        const other = file.slice();
        other[place] ^= 1 + (place % 7);
        damaged.push(other);
    };
    for (let place = 0; place < eight.length; place += place < 40 ? 1 : 467) changed(eight, place);
    // and of a large file a mean, a play and two shares
    const race = new Uint8Array(bytesOf("race.db"));
    const record = 32 + 426 * 20000;
    for (const place of [record + 15, record + 21, record + 200, race.length - 1]) changed(race, place);
    const faults = new Set();
    const own = mkdtempSync(join(tmpdir(), "damaged-"));
    for (const [number, other] of damaged.entries()) {
        const path = join(own, "file");
        writeFileSync(path, other);
        const { status, stderr } = spawnSync(program, ["check", path], { encoding: "utf8" });
        try {
            (await Bearoff.open(other)).close();
            equal(`damage ${number}`, "accepted", status === 0 ? "accepted" : stderr);
        } catch (error) {
            if (!(error instanceof DamagedError)) throw error;
            equal(`damage ${number}`, `bearoff: refused ${error.line}\n`, stderr);
            equal(`damage ${number}, its kind`, [error.code, error.name, error instanceof BearoffError, error.message.endsWith(error.line), error.status >= 16].join(), "damaged,DamagedError,true,true,true");
            faults.add(error.fault);
        }
    }
    rmSync(own, { recursive: true });
    faults.size >= 9 && !faults.has("") || wrong(`only the faults ${[...faults]} were met`);
    compareStill("damages");
}

// A closed database refuses everything, and another one takes its memory.
async function refuseClosed() {
    const opened = await Bearoff.open(eight);
    equal("open", opened.isOpen, true);
    opened.close();
    opened.close();
    equal("closed", opened.isOpen, false);
    const other = await Bearoff.build(1);
    for (const [name, ask] of Object.entries({
        mean: () => opened.mean(SIX), epc: () => opened.epc(SIX), wastage: () => opened.wastage(SIX), distribution: () => opened.distribution(SIX),
        within: () => opened.within(SIX, 1), positionInfo: () => opened.positionInfo(SIX), rank: () => opened.rank(SIX), position: () => opened.position(1),
        play: () => opened.play(SIX, ROLL), playTo: () => opened.playTo(SIX, ROLL, TWO), loss: () => opened.loss(SIX, ROLL, TWO), moves: () => opened.moves(SIX, ROLL),
        answer: () => opened.answer("mean 0,0,0,0,0,1"), thousandths: () => opened.thousandths({ numerator: 1n, denominator: 2n }), positions: () => opened.positions(),
        means: () => opened.means(), epcs: () => opened.epcs(), distributions: () => opened.distributions(0, 0), bytes: () => opened.bytes(), upgrade: () => opened.upgrade(),
        version: () => opened.version, libraryVersion: () => opened.libraryVersion,
    })) equal(`${name} after close`, refusedWith(ask), "not-open");
    equal("the bound after close", opened.bound, 8);
    equal("the other one", other.answer("mean 1,0,0,0,0,0"), "mean 1/1 epc 49/6 8.167");
    other.close();
    if (Symbol.dispose) equal("disposal", Bearoff.prototype[Symbol.dispose], Bearoff.prototype.close);
}

// After a trap the instance is not used again, neither by its database nor by the next one. The call is led to an address
// outside the memory, where the machine stops it.
async function refuseTrapped() {
    const module = await loadModule();
    const { exports } = await WebAssembly.instantiate(module, {});
    let isTrapped = false;
    const far = 1n << 31n;
    const leading = { ...exports, bearoff_rounded_mean: (at, position, out) => exports.bearoff_rounded_mean(at, isTrapped ? far : position, out) };
    const engine = new Engine(leading, module);
    engine.put(eight);
    engine.open();
    const { Database } = await partOf("database.js");
    const opened = new Database(engine);
    equal("before a trap", opened.mean(SIX).denominator, 4n);
    isTrapped = true;
    equal("a trap", refusedWith(() => opened.mean(SIX)), "trapped");
    isTrapped = false;
    // the reason stays that of the first call, which is no call of the module's any more
    const reason = engine.trap;
    equal("the reason of a trap", reason instanceof WebAssembly.RuntimeError, true);
    try {
        opened.mean(SIX);
    } catch (error) {
        equal("the reason of a call after it", error.cause === reason, true);
    }
    for (const [name, ask] of Object.entries({ mean: () => opened.mean(SIX), rank: () => opened.rank(SIX), answer: () => opened.answer("mean 0,0,0,0,0,1"), means: () => opened.means(), wastage: () => opened.wastage(SIX) })) {
        equal(`${name} after a trap`, refusedWith(ask), "trapped");
    }
    opened.close();
    equal("the next engine is another", (await Engine.start(module)) === engine, false);
    compareStill("a trap of another");
    // one that wasn't trapped waits for the next database, once
    const waits = await Engine.start(module);
    waits.release();
    equal("an engine that waited", (await Engine.start(module)) === waits, true);
    equal("and only once", (await Engine.start(module)) === waits, false);
}

// Memory that can't grow is an answer, and the databases that are open stay so.
async function refuseMemory() {
    const module = await loadModule();
    const { exports } = await WebAssembly.instantiate(module, {});
    const memory = { get buffer() { return exports.memory.buffer; }, grow: () => { throw new RangeError("full"); } };
    const engine = new Engine({ ...exports, memory: exports.memory }, module);
    engine.exports = { ...exports, memory };
    equal("no memory for a build", refusedWith(() => engine.build(58)), "no-memory");
    equal("no memory for a board", refusedWith(() => engine.build(90)), "no-memory");
    equal("no memory for a file", refusedWith(() => engine.put(new Uint8Array(14_000_000))), "no-memory");
    const { instantiate } = WebAssembly;
    WebAssembly.instantiate = async () => { throw new RangeError("full"); };
    await Engine.start(module).catch(() => {}); // the one that waits, if there is one
    equal("no memory for an instance", await refusedLater(() => Bearoff.open(eight)), "no-memory");
    WebAssembly.instantiate = instantiate;
    compareStill("want of memory");
}

// The module itself refuses rooms that are too small for a build, and bounds that are too great.
async function refuseRooms() {
    const engine = await Engine.start(await loadModule());
    engine.build(8);
    for (const [bound, room, status] of [[8, eight.length - 1, 8], [8, 0, 8], [44, 1000, 8], [59, 100000, 4], [255, 100, 4], [8, eight.length, 0]]) {
        const [work, front] = [BigInt(engine.file), BigInt(engine.file + 200000)];
        const is = engine.call("bearoff_build", bound > 44 ? 2 : 1, bound, work, BigInt(room), front, BigInt(room), engine.atTold);
        equal(`a room of ${room} bytes for ${bound} pips`, is, status);
    }
}

// A package whose module isn't there says so, and finds it once it is there.
async function refuseMissing() {
    const own = mkdtempSync(join(tmpdir(), "package-"));
    const isModule = (name) => name.endsWith(".wasm");
    const parts = packageParts();
    for (const name of parts.filter((part) => !isModule(part))) writeFileSync(join(own, name), packageBytes(name));
    const missing = await import(pathToFileURL(join(own, "bearoff.js")).href);
    const refusedThere = (ask) => ask().then(() => "none", (error) => (error instanceof missing.BearoffError ? error.code : String(error)));
    equal("no module", await refusedThere(() => missing.Bearoff.open(eight)), "no-module");
    for (const name of parts.filter(isModule)) writeFileSync(join(own, name), "no module");
    equal("bytes that are no module", await refusedThere(() => missing.Bearoff.build(1)), "no-module");
    const { validate } = WebAssembly;
    WebAssembly.validate = () => false;
    equal("no WebAssembly", await refusedThere(() => missing.loadModule()), "no-module");
    WebAssembly.validate = validate;
    for (const name of parts.filter(isModule)) writeFileSync(join(own, name), packageBytes(name));
    equal("a module that came later", await refusedThere(() => missing.Bearoff.open(eight)), "none");
    equal("compiled once", (await missing.loadModule()) === (await missing.loadModule()), true);
    rmSync(own, { recursive: true });
}

// The types and the script name the same.
function compareNames() {
    const types = textOf("bearoff.d.ts");
    const body = types.slice(types.indexOf("export class Bearoff {"));
    const told = [...body.matchAll(/^ {4}(?:readonly )?(?:static )?(\w+)[(:]/gm)].map(([, name]) => name).sort();
    const Database = Object.getPrototypeOf(Bearoff);
    const own = [Database, Bearoff].flatMap((it) => Object.getOwnPropertyNames(it.prototype));
    const there = [...new Set([...own.filter((name) => name !== "constructor"), "open", "build"])].sort();
    equal("what the types name", told.filter((name) => name !== "constructor").join(), there.join());
}

refusePositions();
refuseFive();
answerLong();
refuseOthers();
await refuseOpening();
await refuseDamages();
await refuseClosed();
await refuseTrapped();
await refuseRooms();
await refuseMissing();
await refuseMemory();
compareNames();
compareStill("all");
end();
