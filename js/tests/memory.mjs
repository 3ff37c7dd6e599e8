// Opens a thousand databases in one process, and sees its memory stay: those that are closed, those that are dropped, and
// those that are refused. memory.mjs PACKAGE PROGRAM FOLDER
import { bytesOf, end, equal, partOf, wrong } from "./given.mjs";

const { Bearoff } = await partOf("bearoff.js");
const right = new Uint8Array(bytesOf("eight"));
const damaged = right.slice(0, -1);
const resident = () => process.memoryUsage.rss() / 1e6;

// The most that the process has had more than before, in megabytes.
async function grown(times, openOne) {
    await openOne();
    const before = resident();
    let most = 0;
    for (let time = 0; time < times; time++) {
        await openOne();
        if (time % 20 === 19) most = Math.max(most, resident() - before);
    }
    return most;
}

async function closed() {
    const database = await Bearoff.open(right);
    equal("an answer", database.mean([0, 0, 0, 0, 0, 1]).thousandths, 1250);
    database.close();
}

async function refused() {
    await Bearoff.open(damaged).then(() => wrong("a damaged file was opened"), ({ line }) => equal("its line", line, "header bad-length"));
}

async function dropped() {
    equal("an answer", (await Bearoff.open(right)).mean([0, 0, 0, 0, 0, 1]).thousandths, 1250);
}

// the memory moves by some megabytes; a thousand files that are kept take 27, and instances more
for (const [name, times, openOne] of [["closed", 1000, closed], ["refused", 1000, refused], ["dropped", 150, dropped]]) {
    const most = await grown(times, openOne);
    if (most > 20) wrong(`${times} databases that were ${name} took ${most.toFixed(0)} MB`);
}
end();
