// Board files in the package: they are built, and opened beside databases by what their headers say; what they answer is
// compared with replies that were computed outside, and what has no answer is refused. boards.mjs PACKAGE PROGRAM FOLDER
import { spawnSync } from "node:child_process";
import { mkdtempSync, readFileSync, rmSync, writeFileSync } from "node:fs";
import { tmpdir } from "node:os";
import { join } from "node:path";
import { bytesOf, end, equal, FILES, partOf, program, refusedWith, smallBoard, wrong } from "./given.mjs";
import { written } from "./written.mjs";

const { Bearoff, DamagedError, asDoubles } = await partOf("bearoff.js");
const WHOLE = 36n ** 33n;
const LAST = [0, 0, 0, 0, 0, 15];

// What has no answer.
function compareRefusals(board) {
    for (const [name, ask] of Object.entries({
        mean: (position) => board.mean(position), epc: (position) => board.epc(position), wastage: (position) => board.wastage(position),
        distribution: (position) => board.distribution(position), within: (position) => board.within(position, 3), rank: (position) => board.rank(position),
        play: (position) => board.play(position, [2, 1]), moves: (position) => board.moves(position, [2, 1]), loss: (position) => board.loss(position, [2, 1], LAST),
    })) {
        equal(`${name} over the bound`, refusedWith(() => ask([0, 0, 0, 0, 0, 10])), "over-bound");
        for (const many of [[0, 0, 0, 0, 0, 16], [255, 255, 255, 255, 255, 255]]) equal(`${name} of too many`, refusedWith(() => ask(many)), "too-many");
        equal(`${name} of five counts`, refusedWith(() => ask([0, 0, 0, 0, 1])), "TypeError");
    }
    equal("a play of none", refusedWith(() => board.play([0, 0, 0, 0, 0, 0], [2, 1])), "finished");
    equal("a die of 7", refusedWith(() => board.moves([1, 0, 0, 0, 0, 0], [7, 1])), "bad-roll");
    equal("a play that isn't one", refusedWith(() => board.loss([1, 0, 0, 0, 0, 0], [2, 1], LAST)), "not-legal");
    for (const rank of [board.positionCount, 65535, 2 ** 40]) equal(`the rank ${rank}`, refusedWith(() => board.position(rank)), "no-rank");
    equal("an upgrade", refusedWith(() => board.upgrade()), "not-old");
    for (const [fraction, refusal] of [
        [{ numerator: 181n, denominator: 1n }, "RangeError"], [{ numerator: 1n, denominator: 0n }, "RangeError"], [{ numerator: 0n, denominator: 6n * WHOLE + 1n }, "RangeError"],
        [{ numerator: 2n ** 192n, denominator: 1n }, "RangeError"], [{ numerator: -1n, denominator: 1n }, "RangeError"],
        [{ numerator: 6n * WHOLE, denominator: 6n * WHOLE }, "the answer 1000"], [{ numerator: 180n, denominator: 1n }, "the answer 180000"], [{ numerator: 1n, denominator: 2000n }, "the answer 1"],
    ]) equal(`the thousandths of ${fraction.numerator}/${fraction.denominator}`, refusedWith(() => board.thousandths(fraction)), refusal);
    for (const [table, whole] of [[new BigUint64Array(4), WHOLE], [new BigUint64Array(4), 36n ** 22n], [new BigUint64Array(3), undefined], [new BigUint64Array(6), 36n], [new BigUint64Array(6), 33]]) {
        equal("doubles of no table", refusedWith(() => asDoubles(table, whole)), "TypeError");
    }
}

// A file in which a byte is another is refused as the program refuses it.
async function compareDamages(file) {
    const damaged = [file.slice(0, -1), Uint8Array.of(...file, 0), file.slice(0, 32)];
    for (let place = 0; place < file.length; place += place < 40 ? 1 : 211) {
        const other = file.slice();
        other[place] ^= place === 9 ? 4 : 1 + (place % 7);
        damaged.push(other);
    }
    const own = mkdtempSync(join(tmpdir(), "boards-"));
    const faults = new Set();
    for (const [number, other] of damaged.entries()) {
        const path = join(own, "file");
        writeFileSync(path, other);
        const { status, stderr } = spawnSync(program, ["check", "--board", path], { encoding: "utf8" });
        try {
            (await Bearoff.open(other)).close();
            equal(`damage ${number}`, "accepted", status === 0 ? "accepted" : stderr);
        } catch (error) {
            if (!(error instanceof DamagedError)) throw error;
            equal(`damage ${number}`, `bearoff: refused ${error.line}\n`, stderr);
            faults.add(error.fault);
        }
    }
    rmSync(own, { recursive: true });
    faults.size >= 9 && !faults.has("") || wrong(`only the faults ${[...faults]} were met`);
    // one that says it is of the other kind
    const other = new Uint8Array(bytesOf("eight"));
    other[9] = 3;
    equal("a database that says it is a board", await Bearoff.open(other).then(() => "opened", ({ code }) => code), "damaged");
}

async function compareClosed(file) {
    const board = await Bearoff.open(file);
    const database = await Bearoff.open(bytesOf("eight"));
    equal("a board, its version", [board.version, board.bound, board.positionCount, board.denominator, board.isOpen].join(), [3, 8, 64, WHOLE, true].join());
    equal("a database, its version", [database.version, database.bound, database.positionCount, database.denominator].join(), [1, 8, 64, 36n ** 22n].join());
    board.close();
    const ONE = [1, 0, 0, 0, 0, 0];
    for (const [name, ask] of Object.entries({
        mean: () => board.mean(ONE), epc: () => board.epc(ONE), wastage: () => board.wastage(ONE), distribution: () => board.distribution(ONE), within: () => board.within(ONE, 1),
        rank: () => board.rank(ONE), position: () => board.position(1), play: () => board.play(ONE, [2, 1]), loss: () => board.loss(ONE, [2, 1], ONE), moves: () => board.moves(ONE, [2, 1]),
        answer: () => board.answer("rank 1,0,0,0,0,0"), thousandths: () => board.thousandths({ numerator: 1n, denominator: 2n }), positions: () => board.positions(), means: () => board.means(),
        epcs: () => board.epcs(), distributions: () => board.distributions(), bytes: () => board.bytes(), upgrade: () => board.upgrade(), version: () => board.version,
    })) equal(`${name} after close`, refusedWith(ask), "not-open");
    // its memory is that of the next one, of either kind
    const next = await Bearoff.open(bytesOf("eight"));
    equal("a database after a board", [next.version, next.answer("mean 1,0,0,0,0,0"), next.mean(ONE).thousandths].join(), "1,mean 1/1 epc 49/6 8.167,1000");
    next.close();
    const again = await Bearoff.open(file);
    equal("a board after a database", [again.version, again.mean(ONE).thousandths].join(), "3,1000");
    if (Symbol.dispose) again[Symbol.dispose]();
    else again.close();
    equal("a board that was disposed of", refusedWith(() => again.mean(ONE)), "not-open");
    database.close();
}

// The bounds that are built.
async function compareBounds() {
    for (const bound of [91, 255, 256, 300, 2 ** 40]) {
        equal(`building ${bound}`, await Bearoff.build(bound).then(() => "built", ({ code }) => code), "over-bound");
    }
    for (const [bound, version, pips] of [[58, 2, 22n], [59, 3, 33n]]) {
        const built = await Bearoff.build(bound);
        equal(`building ${bound}`, [built.bound, built.version, built.denominator].join(), [bound, version, 36n ** pips].join());
        if (version === 3) compareRefusals(built);
        built.close();
    }
}

const eight = await smallBoard(8);
await compareClosed(eight);
await compareDamages(eight);
await compareBounds();

const board = await Bearoff.open(bytesOf(FILES[90]));
const rows = readFileSync(new URL("../../tests/board_rows.txt", import.meta.url), "utf8").trimEnd().split("\n");
for (let row = 0; row < rows.length; row += 2) {
    equal(rows[row], board.answer(rows[row]), rows[row + 1]);
    equal(`${rows[row]}, by its call`, written(board, rows[row]), rows[row + 1]);
}
board.close();
end();
