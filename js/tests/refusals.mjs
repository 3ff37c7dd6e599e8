// What a call tells that could be refused for several reasons: the rows of tests/refusals.txt, of a database and of a board
// of 8 pips, open and closed. refusals.mjs PACKAGE PROGRAM FOLDER
import { readFileSync } from "node:fs";
import { bytesOf, end, equal, partOf, saidBy, smallBoard } from "./given.mjs";

const { Bearoff, BearoffError } = await partOf("bearoff.js");
const rows = readFileSync(new URL("../../tests/refusals.txt", import.meta.url), "ascii").split("\n").filter((row) => row && !row.startsWith("#"));

// What a call tells, by the word of a row: what is none of what it takes is an error of JavaScript's own.
async function told(ask) {
    try {
        await ask();
        return "none";
    } catch (error) {
        if (error instanceof BearoffError) return error.code === "malformed" ? "bad-line" : error.code;
        if (error instanceof TypeError || error instanceof RangeError) return "bad-line";
        throw error;
    }
}

// no module is looked for where there is no file, and no bound
for (const ask of [() => Bearoff.open("race.db"), () => Bearoff.build("8")]) {
    const { validate } = WebAssembly;
    WebAssembly.validate = () => false;
    equal("a wrong type where no module can be loaded", await told(ask), "bad-line");
    WebAssembly.validate = validate;
}

const CALLS = {
    mean: (database) => [
        ...["mean", "epc", "wastage", "distribution", "variance", "rank"].map((name) => (position) => database[name](position)),
        (position) => database.within(position, 3),
    ],
    play: (database) => [(position, roll) => database.play(position, roll), (position, roll) => database.moves(position, roll)],
    loss: (database) => [(position, roll, to) => database.loss(position, roll, to)],
    "play-to": (database) => [(position, roll, to) => database.playTo(position, roll, to)],
    position: (database) => [([rank]) => database.position(rank)],
    table: (database) => ["positions", "means", "epcs", "distributions"].map((name) => ([first], [count]) => database[name](first, count)),
    line: () => [],
    build: () => [([bound]) => Bearoff.build(bound)],
};

let count = 0;
for (const [kind, file] of [["database", bytesOf("eight")], ["board", await smallBoard(8)]]) {
    const [open, closed] = [await Bearoff.open(file), await Bearoff.open(file)];
    closed.close();
    for (const row of rows) {
        const [call, state, position, roll, to, wanted] = row.trim().split(/ +/);
        // nobody lends a room here
        if (wanted === "buffer-too-small") continue;
        const words = [position.split(",").map(Number), [...roll].map(Number), to.split(",").map(Number)];
        for (const ask of CALLS[call](state === "closed" ? closed : open)) {
            equal(`${row}, of a ${kind}`, await told(() => ask(...words)), wanted);
            count += 1;
        }
    }
    // what is of no type that a call takes is told before all else, whichever argument it is
    for (const [name, ask] of Object.entries({
        position: () => closed.position("1"), means: () => closed.means("1"), within: () => closed.within([1, 0, 0, 0, 0, 0], "1"), answer: () => closed.answer(1),
        thousandths: () => closed.thousandths(1), playTo: () => closed.playTo([1], [2, 1], [1]), positionInfo: () => closed.positionInfo([1]),
    })) equal(`${name} of a closed ${kind}`, await told(ask), "bad-line");
    // and the first of several that are wrong is the one that is named
    for (const [name, ask] of Object.entries({
        play: () => open.play(1, [1.5, 2]), moves: () => open.moves(1, [1.5, 2]), loss: () => open.loss(1, [1.5, 2], [1]), playTo: () => open.playTo(1, [1.5, 2], [1]), within: () => open.within(1, 1.5),
    })) equal(`the first that is wrong of ${name}`, saidBy(ask), "TypeError: a position is six counts, and not 1");
    open.close();
}
equal("rows that were asked", count > 400, true);

end();
