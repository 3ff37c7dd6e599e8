// Measures the package for JavaScript, one line a figure, each the best of five runs: javascript.mjs PACKAGE PIPS
import { resolve } from "node:path";
import { pathToFileURL } from "node:url";

const [, , folder, pips] = process.argv;
const { asDoubles, Bearoff } = await import(pathToFileURL(resolve(folder, "bearoff.js")).href);
const { abilities } = await import(pathToFileURL(resolve(folder, "abilities.js")).href);

// The least number of milliseconds of five runs, after one that is not counted.
async function least(run) {
    await run();
    let best = Infinity;
    for (let time = 0; time < 5; time++) {
        const start = performance.now();
        await run();
        best = Math.min(best, performance.now() - start);
    }
    return best;
}

const figure = (name, text) => console.log(`${`${name}, ${abilities()}`.padEnd(58)} ${text}`);
const milliseconds = async (run) => `${(await least(run)).toFixed(1)} ms`;

const database = await Bearoff.build(Number(pips));
const points = database.positions();
const positions = Array.from({ length: database.positionCount }, (_, rank) => Array.from(points.subarray(6 * rank, 6 * rank + 6)));
for (let place = positions.length - 1, chance = 1; place > 0; place--) {
    chance = (chance * 48271) % 2147483647;
    const other = chance % (place + 1);
    [positions[place], positions[other]] = [positions[other], positions[place]];
}
const rolled = positions.filter((position) => position.some((count) => count > 0));

// How many calls a second, over positions in no order.
async function rate(name, asked, ask) {
    figure(`${name} a second, one call each`, Math.round((1000 * asked.length) / await least(() => asked.forEach(ask))).toLocaleString("en"));
}

figure(`build and check of ${pips} pips`, await milliseconds(async () => (await Bearoff.build(Number(pips))).close()));
const bytes = database.bytes();
figure(`opening a file of ${pips} pips`, await milliseconds(async () => (await Bearoff.open(bytes)).close()));
await rate("means", positions, (position) => database.mean(position));
await rate("effective pip counts", positions, (position) => database.epc(position));
await rate("distributions", positions, (position) => database.distribution(position));
await rate("plays", rolled, (position) => database.play(position, [2, 1]));
await rate("lists of moves", rolled.slice(0, 5000), (position) => database.moves(position, [2, 1]));
await rate("lines", positions, (position) => database.answer(`mean ${position}`));
figure(`all means of ${pips} pips`, await milliseconds(() => database.means()));
figure("the same as doubles", await milliseconds(() => asDoubles(database.means())));
figure(`all effective pip counts of ${pips} pips`, await milliseconds(() => database.epcs()));
figure(`all distributions of ${pips} pips`, await milliseconds(() => database.distributions()));
figure("the same as doubles", await milliseconds(() => asDoubles(database.distributions())));
