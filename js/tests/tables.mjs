// Tables know what their numbers are, and so do parts of them that cut no number: of databases and boards each number is the
// nearest double, and where nobody can tell what numbers are they are refused. tables.mjs PACKAGE PROGRAM FOLDER
import { bytesOf, end, equal, FILES, partOf, saidBy, smallBoard, wrong } from "./given.mjs";
import { isNearest } from "./written.mjs";

const { Bearoff, asDoubles, asNumber } = await partOf("bearoff.js");

const wide = (table, place) => (table[place] << 128n) | (table[place + 1] << 64n) | table[place + 2];

// The numbers of each table of a database, as doubles: those of its last ranks, where it has many. In rows of 34 shares those
// that a database can't have are no doubles.
function compareTables(name, database, shares) {
    const count = Math.min(database.positionCount, 1000);
    const first = database.positionCount - count;
    const [means, epcs, distributions] = ["means", "epcs", "distributions"].map((table) => database[table](first));
    for (const [table, each, row] of [[means, 1, 1], [distributions, shares, 34]]) {
        equal(`${name}, its whole`, table.denominator, database.denominator);
        const [doubles, bare] = [asDoubles(table), new BigUint64Array(table)];
        const all = asDoubles(bare, database.denominator);
        equal(`${name}, how many doubles`, [doubles.length, all.length].join(), [each * count, row * count].join());
        for (let place = 0; place < all.length; place++) {
            if (!isNearest(all[place], wide(table, 3 * place), database.denominator)) wrong(`${name}: ${all[place]} is not the nearest to number ${place}`);
        }
        const counted = (from, to) => all.slice(from, to).filter((_, place) => (from + place) % row < each).join();
        equal(`${name}, those that count`, doubles.join(), counted(0, all.length));
        equal(`${name}, by its whole`, asDoubles(table, database.denominator).join(), doubles.join());
        const WANTS = "TypeError: this array doesn't know its denominator; pass it, for example database.denominator";
        for (const other of [bare, structuredClone(table), table.map((word) => word), table.filter(() => true), BigUint64Array.from(table), table.subarray(1), table.subarray(0, 4), table.slice(1, 4), table.slice(0, -1)]) {
            equal(`${name}, without its whole`, saidBy(() => asDoubles(other)), WANTS);
        }
        for (const whole of [36n ** 22n, 36n ** 33n, 36n, 0n]) {
            if (whole !== database.denominator) equal(`${name}, over ${whole}`, saidBy(() => asDoubles(table, whole)), "TypeError: the numbers of this table have another denominator");
        }
        // parts of whole numbers: views, copies, and parts of parts
        const [from, to, end] = [9, 120, all.length];
        for (const [part, wanted] of [
            [table.subarray(from, to), counted(3, 40)], [table.slice(from, to), counted(3, 40)],
            [table.subarray(from), counted(3, end)], [table.slice(-6), counted(end - 2, end)],
            [table.subarray(from, to).subarray(60, -3), counted(23, 39)], [table.slice(from, to).slice(93), counted(34, 40)],
            [table.subarray(1).subarray(2), WANTS], [table.subarray(from, from), ""], [table.subarray(), doubles.join()], [table.slice(), doubles.join()],
        ]) {
            equal(`${name}, a part`, saidBy(() => asDoubles(part).join()), wanted);
            equal(`${name}, a part is an array`, part instanceof BigUint64Array, true);
        }
        const copied = table.slice(from, to);
        const before = table[from];
        copied[0] += 1n;
        equal(`${name}, a copy`, table[from], before);
        table.subarray(from, to)[0] += 1n;
        equal(`${name}, a view`, table[from], before + 1n);
        table[from] = before;
    }
    const pips = asDoubles(epcs);
    equal(`${name}, how many effective pip counts`, [pips.length, epcs.denominator].join(), [count, null].join());
    for (let rank = 0; rank < count; rank++) {
        const [numerator, denominator] = [wide(epcs, 7 * rank), wide(epcs, 7 * rank + 3)];
        if (!isNearest(pips[rank], numerator, denominator)) wrong(`${name}: ${pips[rank]} is not the nearest to the effective pip count of rank ${rank}`);
        equal(`${name}, by its fraction`, asNumber({ numerator, denominator }), pips[rank]);
    }
    equal(`${name}, a row`, asDoubles(epcs.subarray(7, 14)).join(), `${pips[1]}`);
    for (const ask of [() => asDoubles(epcs, database.denominator), () => asDoubles(epcs.subarray(1)), () => asDoubles(epcs.slice(0, 3))]) {
        equal(`${name}, effective pip counts over a whole`, saidBy(ask).split(":")[0], "TypeError");
    }
    equal(`${name}, seven ranks`, asDoubles(database.means(first + 5, 7)).join(), asDoubles(means).subarray(5, 12).join());
    for (const position of [database.position(1), database.position(first + count - 1)]) {
        for (const exact of [database.mean(position), database.epc(position), ...database.distribution(position)]) {
            equal(`${name}, ${position} as a number`, isNearest(asNumber(exact), exact.numerator, exact.denominator), true);
        }
    }
}

for (const name of [FILES[8], FILES[44]]) {
    const database = await Bearoff.open(bytesOf(name));
    compareTables(name, database, 23);
    database.close();
}
const small = await Bearoff.open(await smallBoard(8));
compareTables("a board of 8 pips", small, 34);
small.close();
const board = await Bearoff.build(90);
equal("the means of a board", asDoubles(board.means()).length, 54264);
equal("the last of them", asDoubles(board.means()).at(-1).toFixed(2), "12.27");
compareTables("a board", board, 34);
board.close();

// words of which single bits are set, in any place
for (let bit = 0n; bit < 192n; bit++) {
    const words = [128n, 64n, 0n].map((shift) => BigInt.asUintN(64, (1n << bit) >> shift));
    equal(`bit ${bit}`, isNearest(asDoubles(BigUint64Array.from(words), 36n ** 33n)[0], 1n << bit, 36n ** 33n), true);
}

// ties, and numbers of any size
const odd = 2n ** 53n + 1n;
for (const [numerator, denominator, wanted] of [
    [odd, 1n, 2 ** 53], [odd + 2n, 1n, 2 ** 53 + 4], [odd, 2n ** 60n, 2 ** -7], [odd * 36n ** 33n + 1n, 36n ** 33n, 2 ** 53 + 2],
    [odd * 36n ** 33n - 1n, 36n ** 33n, 2 ** 53], [1n, 3n, 1 / 3], [-1n, 3n, -1 / 3], [-odd, 1n, -(2 ** 53)], [0n, 7n, 0], [10n ** 60n, 3n * 10n ** 30n, 10 ** 30 / 3],
]) equal(`${numerator}/${denominator} as a number`, asNumber({ numerator, denominator }), wanted);

end();
