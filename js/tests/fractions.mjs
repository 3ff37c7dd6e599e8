// Exact numbers as objects and in JSON, lists that are taken as positions, and `using`, which closes a database.
// fractions.mjs PACKAGE PROGRAM FOLDER
import { createRequire } from "node:module";
import { resolve } from "node:path";
import { bytesOf, end, equal, partOf, refusedWith, wrong } from "./given.mjs";

const { Bearoff, asNumber } = await partOf("bearoff.js");
const database = await Bearoff.open(bytesOf("eight"));
const SIX = [0, 0, 0, 0, 0, 1];

// What JSON has of a fraction is its digits, which lead back to it.
function comparedInJson(name, fraction) {
    const told = JSON.parse(JSON.stringify(fraction));
    equal(`${name}, the numerator in JSON`, told.numerator, fraction.numerator.toString());
    equal(`${name}, the denominator in JSON`, told.denominator, fraction.denominator.toString());
    equal(`${name}, what JSON has`, Object.keys(told).join(), Object.keys(fraction).join());
    equal(`${name}, in thousandths`, told.thousandths, fraction.thousandths);
    const again = { ...told, numerator: BigInt(told.numerator), denominator: BigInt(told.denominator) };
    equal(`${name}, and back`, asNumber(again), told.value);
    equal(`${name}, as the module takes it`, database.thousandths(again), database.thousandths(fraction));
    equal(`${name}, cloned`, Object.values(structuredClone(fraction)).join(), Object.values(fraction).join());
}

for (let rank = 0; rank < database.positionCount; rank++) {
    const position = database.position(rank);
    comparedInJson(`the mean of ${position}`, database.mean(position));
    comparedInJson(`the effective pip count of ${position}`, database.epc(position));
    for (const share of database.distribution(position)) comparedInJson(`a share of ${position}`, share);
    if (rank === 0) continue;
    for (const { to, loss } of database.moves(position, [2, 1])) {
        comparedInJson(`the loss of ${position} to ${to}`, loss);
        comparedInJson(`the loss of ${position} to ${to}, by its call`, database.loss(position, [1, 2], to));
    }
}
equal("a mean in JSON", JSON.stringify(database.mean(SIX)), '{"numerator":"5","denominator":"4","value":1.25,"thousandths":1250}');
const loss = database.loss([0, 0, 0, 2, 0, 0], [2, 1], [0, 1, 1, 0, 0, 0]);
equal("a loss in JSON", JSON.stringify(loss), `{"numerator":"1","denominator":"9","value":${1 / 9}}`);
const choices = '[{"to":[0,0,0,0,0,0],"loss":{"numerator":"0","denominator":"1","value":0}}]';
equal("choices in JSON", JSON.stringify(database.moves([1, 0, 0, 0, 0, 0], [2, 1])), choices);
equal("what a fraction has", Object.keys(database.mean(SIX)).join(), "numerator,denominator,value,thousandths");

// what JavaScript's operators make of exact numbers: each is the nearest double where a number is wanted
const [mean, greater] = [database.mean(SIX), database.mean([0, 0, 0, 2, 0, 0])]; // 5/4 and more
const double = asNumber(greater);
for (const [name, is, wanted] of [
    ["<", mean < greater, true], ["<, the other way", greater < mean, false], ["<=", mean <= greater, true], [">", mean > greater, false],
    [">=", mean >= mean, true], ["< a number", mean < 1.26, true], ["> a number", mean > 1.24, true], ["== a number", mean == 1.25, true],
    ["+", mean + 1, 2.25], ["+ of two", mean + greater, 1.25 + double], ["-", greater - mean, double - 1.25], ["*", mean * 8, 10],
    ["/", mean / 2, 0.625], ["%", mean % 1, 0.25], ["**", mean ** 2, 1.5625], ["unary +", +mean, 1.25], ["unary -", -mean, -1.25],
    ["Number", Number(mean), 1.25], ["Math.max", Math.max(mean, greater), double], ["toFixed", (+mean).toFixed(1), "1.3"],
    ["Intl", new Intl.NumberFormat("en").format(mean), "1.25"], ["valueOf", mean.valueOf(), 1.25], ["isNaN", isNaN(mean), false],
    ["a template", `${mean}`, "5/4"], ["String", String(mean), "5/4"], ["concat", "".concat(mean), "5/4"], ["join", [mean, greater].join(), `5/4,${greater}`],
    ["a key", Object.keys({ [mean]: 1 })[0], "5/4"], ["===", mean === database.mean(SIX), false],
    ["a sum", [mean, mean, mean].reduce((sum, one) => sum + one, 0), 3.75], ["a double's digits", JSON.stringify([+mean]), "[1.25]"],
]) equal(`an exact number with ${name}`, is, wanted);
const less = (one, other) => one.numerator * other.denominator < other.numerator * one.denominator;
for (const name of ["mean", "epc", "wastage"]) {
    const sorted = Array.from({ length: database.positionCount }, (_, rank) => database[name](database.position(rank))).reverse()
        .sort((one, other) => one - other);
    equal(`sorted by ${name}, out of order`, sorted.filter((one, place) => place > 0 && less(one, sorted[place - 1])).length, 0);
}

// a wastage and a chance within some rolls are exact, and in lowest terms
equal("a wastage", `${database.wastage(SIX)} ${JSON.stringify(database.wastage(SIX))}`, `101/24 {"numerator":"101","denominator":"24","value":${101 / 24},"thousandths":4208}`);
equal("that of no checker", `${database.wastage([0, 0, 0, 0, 0, 0])}`, "0");
equal("a chance within", `${database.within(SIX, 1)} ${JSON.stringify(database.within(SIX, 1))}`, '3/4 {"numerator":"3","denominator":"4","value":0.75,"thousandths":750}');
equal("chances that are sure", [0, 2, 1000].map((rolls) => `${database.within(SIX, rolls)}`).join(), "0,1,1");
for (let rank = 0; rank < database.positionCount; rank++) {
    const position = database.position(rank);
    const { pips } = database.positionInfo(position);
    const [epc, wastage] = [database.epc(position), database.wastage(position)];
    equal(`the wastage of ${position}`, `${wastage.numerator + BigInt(pips) * wastage.denominator}/${wastage.denominator}`, `${epc.numerator}/${epc.denominator}`);
    equal(`the wastage of ${position} in thousandths`, wastage.thousandths, epc.thousandths - 1000 * pips);
    equal(`the wastage of ${position}, below 0 or 0`, wastage > 0, rank > 0);
    comparedInJson(`the wastage of ${position}`, wastage);
    let sum = 0n;
    database.distribution(position).forEach(({ numerator }, rolls) => {
        sum += numerator;
        const chance = database.within(position, rolls);
        equal(`within ${rolls} of ${position}`, chance.numerator * database.denominator, sum * chance.denominator);
        equal(`within ${rolls} of ${position}, in thousandths`, chance.thousandths, database.thousandths(chance));
        const isLowest = [2n, 3n].every((prime) => chance.numerator % prime !== 0n || chance.denominator % prime !== 0n);
        equal(`within ${rolls} of ${position}, in lowest terms`, isLowest, true);
        comparedInJson(`within ${rolls} of ${position}`, chance);
    });
}

// a fraction of JSON is none, and neither is a number
for (const given of [JSON.parse(JSON.stringify(database.mean(SIX))), 1.25, null]) {
    equal(`the thousandths of ${JSON.stringify(given)}`, refusedWith(() => database.thousandths(given)), "TypeError");
}

// lists of six numbers, whatever kind they are of
for (const kind of [Array, Uint8Array, Int8Array, Uint16Array, Int32Array, Float64Array]) {
    equal(`a list of the kind ${kind.name}`, asNumber(database.mean(kind.from(SIX))), 1.25);
}
equal("a list that is split", asNumber(database.mean("0,0,0,0,0,1".split(",").map(Number))), 1.25);
for (const list of [[], [1], SIX.slice(1), [...SIX, 0], ["0", "0", "0", "0", "0", "1"]]) {
    equal(`the list ${JSON.stringify(list)}`, refusedWith(() => database.mean(list)), "TypeError");
}

if (Symbol.dispose) {
    const other = await Bearoff.open(bytesOf("eight"));
    equal("what closes a database", other[Symbol.dispose], other.close);
    other[Symbol.dispose]();
    equal("a database that was closed so", other.isOpen, false);
    equal("what it answers then", refusedWith(() => other.mean(SIX)), "not-open");
}

// what CommonJS is given is the package itself, where this node can give it that
const [major, minor] = process.versions.node.split(".").map(Number);
if (major > 22 || (major === 22 && minor >= 12) || (major === 20 && minor >= 19)) {
    const required = createRequire(import.meta.url)(resolve(process.argv[2], "bearoff.js"));
    equal("what is required", required.Bearoff, Bearoff);
} else if (major >= 20) {
    wrong(`the page says from which node on it can be required, and not that of ${process.versions.node}`);
}
end();
