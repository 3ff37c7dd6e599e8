// Drives the page in the headless browsers that are installed, Chromium and Firefox, as a reader would,
// and compares what it shows with the program's replies. The variable BROWSERS names those to be driven, PARTS the
// parts alone that are, LEFT_OUT those that aren't, and PICTURES a folder for a picture of each width and colours. With
// BRIEF the longest parts look at fewer lessons and sizes, in which tests/page/mutants plants its faults.
import { execFileSync, spawn } from "node:child_process";
import { createHash } from "node:crypto";
import { mkdtempSync, openSync, readFileSync, readSync, rmSync, writeFileSync, writeSync } from "node:fs";
import { createServer } from "node:http";
import { availableParallelism, tmpdir } from "node:os";
import { join } from "node:path";
import { after, test } from "node:test";
import { pathToFileURL } from "node:url";
import { installed, started } from "./browser.mjs";
import { readLessons } from "../../web/lesson/text.js";
import { positions } from "../../web/question/themes.js";
import { audit } from "./audit.mjs";
import { legalFrom, tokenOf } from "./stand_in.mjs";
import { effectOf, equal as same, isJoined, pagePath, part, programPath, ROOT, testedFolder,
    wrong as fault } from "./given.mjs";

const address = pathToFileURL(pagePath()).href;
const program = programPath();
const folder = testedFolder();
const pictures = process.env.PICTURES;
const isBrief = Boolean(process.env.BRIEF);
const few = (all, ...places) => (isBrief ? places.map((place) => all[place]) : all);
const [chosen, left] = ["PARTS", "LEFT_OUT"].map((name) => process.env[name]?.split(" "));
const asked = new Map();
let browserName = "";

const wrong = (text) => fault(`in ${browserName}: ${text}`);
const equal = (name, is, wanted) => same(`in ${browserName}: ${name}`, is, wanted);
// Each word shows what is wanted in an open page, or what matches it.
async function sees(page, name, wanted) {
    const words = Object.keys(wanted);
    for (const [place, is] of (await page.look(words)).entries()) {
        const want = wanted[words[place]];
        equal(`${name}: ${words[place]}`, is, !(want instanceof RegExp) ? want : want.test(is) ? is : want.source);
    }
}
// A key of the page as a selector, and a position in its field.
const keyed = (key) => `[data-key="${key}"]`;
const focusOn = (page, selector) => page.value(`document.querySelector(${JSON.stringify(selector)}).focus()`);
const press = async (page, ...keys) => { for (const key of keys) await page.key(key); };
const wait = (milliseconds) => new Promise((keep) => setTimeout(keep, milliseconds));

const pipsOf = (position) => position.split(",").reduce((sum, count, place) => sum + count * (place + 1), 0);

// The program over a file, which it checks once, behind named pipes: those of a child can't be read at once.
const answering = (words) => {
    const place = mkdtempSync(join(tmpdir(), "asked-"));
    execFileSync("mkfifo", ["lines", "replies"], { cwd: place });
    spawn("sh", ["-c", 'exec "$@" <lines >replies', "sh", program, "query", ...words], { cwd: place, stdio: "ignore" }).unref();
    const streams = [openSync(join(place, "lines"), "w"), openSync(join(place, "replies"), "r")];
    rmSync(place, { recursive: true });
    return streams;
};

// The program's reply to a line about a position, of the whole board where that has more than 44 pips.
function ask(line) {
    if (!asked.has(line)) {
        const [, position = ""] = line.split(" ");
        const words = pipsOf(position) > 44 ? ["--board", join(folder, "whole.board")] : [join(folder, "race.db")];
        if (!asked.has(words[0])) asked.set(words[0], answering(words));
        const [lines, replies] = asked.get(words[0]);
        writeSync(lines, `${line}\n`);
        let reply = "";
        for (const piece = Buffer.alloc(65536); !reply.endsWith("\n");) {
            const count = readSync(replies, piece);
            if (count === 0) throw new Error(`the program ended at ${line}`);
            reply += piece.toString("latin1", 0, count);
        }
        asked.set(line, reply.trim());
    }
    return asked.get(line);
}
const READY = 'document.body.dataset.ready && document.querySelector("#numbers .figures")';
const HOME = 'document.body.dataset.ready && document.querySelector(\'[data-key="lesson 1"]\')';
const KNOWN = '!document.querySelector(".figures").textContent.includes("\\u2026")';

// A page at an address of the board, once the numbers of its position are there.
async function known(browser, hash, how = {}) {
    const page = await browser.open(address + hash, how);
    await page.until(`${READY} && ${KNOWN}`);
    return page;
}

// Keeps what the bar shows, each position with the numbers beside it, and what the page's policy refuses. Without
// frames, as where a browser draws none, nothing is kept of the bar.
const WATCH = `window.watched = { ready: 0, bar: [], pairs: [], refused: [] };
document.addEventListener("securitypolicyviolation", ({ violatedDirective, blockedURI }) => watched.refused.push(violatedDirective + " " + blockedURI));
(function look() {
    const bar = document.getElementById("bar");
    if (document.body && document.body.dataset.ready) {
        watched.ready = performance.now();
        return;
    }
    if (bar && !bar.hidden) watched.bar.push(document.getElementById("progress").value);
    requestAnimationFrame(look);
})();
(function observe() {
    const seen = new Set();
    const keep = (...pair) => {
        const text = JSON.stringify(pair);
        if (!seen.has(text)) watched.pairs.push(pair);
        seen.add(text);
    };
    new MutationObserver(() => {
        const board = [1, 2, 3, 4, 5, 6].map((point) => document.querySelector('#board [data-point="' + point + '"]')?.dataset.count).join();
        const figures = [...document.querySelectorAll(".figure dd")].map((figure) => figure.textContent.trim().split(" ")[0]);
        if (figures.length === 4) keep(board, figures);
        const refusal = document.querySelector(".refusal")?.textContent.match(/^\\d+ pips/);
        if (refusal) keep(board, [refusal[0].split(" ")[0]]);
        for (const row of document.querySelectorAll(".kept tbody tr")) {
            const position = row.querySelector(".show").getAttribute("aria-label").match(/\\d+/g).join();
            const cells = [...row.querySelectorAll("td[data-head]")].map((cell) => cell.textContent);
            if (cells.length === 4) keep(position, cells);
        }
    }).observe(document, { subtree: true, childList: true, characterData: true, attributes: true });
})();`;

// Every number that was ever beside a position is the program's for it.
async function compareWatched(page, name, least) {
    const { pairs, refused } = await page.value("watched");
    let told = 0;
    for (const [position, figures] of pairs) {
        const right = [String(pipsOf(position))];
        if (figures.length === 4 && figures[1] !== "\u2026") {
            const [, mean, , , effective] = ask(`mean ${position}`).split(" ");
            right.push(rounded(over(mean)), effective, (Number(effective) - pipsOf(position)).toFixed(3));
            told += 1;
        }
        figures.forEach((figure, place) => {
            if (figure !== "\u2026" && figure !== "\u2013" && right[place] !== undefined && figure !== right[place]) {
                wrong(`${name}: beside ${position} once stood ${figures.join(" ")}, and right is ${right.join(" ")}`);
            }
        });
    }
    if (told < least) wrong(`${name}: only ${told} positions had numbers`);
    equal(`${name}: what the policy refused`, refused, []);
}

// What the page shows, read from it.
const SHOWN = `({
    values: [1, 2, 3, 4, 5, 6].map((point) => document.querySelector('#board [data-point="' + point + '"]').dataset.count).join(),
    figures: [...document.querySelectorAll(".figure dd")].map((figure) => figure.textContent.trim().split(" ")[0]),
    exact: [...document.querySelectorAll(".exact dd")].map((figure) => figure.textContent),
    said: document.getElementById("said").textContent,
})`;

// The numbers on the page are those of the program for the position.
async function compare(page, name, position) {
    await page.until(`document.getElementById("counts").value === "${position}"`)
        .catch(() => wrong(`${name}: the board isn't ${position}`));
    const [, mean, , epc, effective] = ask(`mean ${position}`).split(" ");
    await page.until(`document.querySelectorAll(".figure dd")[2].textContent.startsWith("${effective}")`)
        .catch(() => wrong(`${name}: no effective pip count of ${effective}`));
    const shown = await page.value(SHOWN);
    const pips = pipsOf(position);
    equal(`${name}, the points`, shown.values, position);
    equal(`${name}, pips and effective`, [shown.figures[0], shown.figures[2]], [String(pips), effective]);
    equal(`${name}, exact`, shown.exact, [mean, epc]);
    equal(`${name}, wastage`, shown.figures[3], (Number(effective) - pips).toFixed(3));
    equal(`${name}, said`, shown.said.includes(`effective pip count ${effective}`), true);
}

// Every roll's best play is the recorded one with the loss of the next best, and the chosen roll's
// plays are those of the program.
async function compareRolls(page, position) {
    await page.there(".rolls .next");
    const rolls = await page.value(`[...document.querySelectorAll(".rolls button")].map((roll) =>
        [roll.dataset.key.slice(5), roll.querySelector(".best").textContent, roll.querySelector(".next").textContent])`);
    equal("how many rolls", rolls.length, 21);
    for (const [roll, text, next] of rolls) {
        equal(`the best play of ${roll}`, effectOf(text), effectOf(ask(`play ${position} ${roll}`).split(" to ")[0].slice(5)));
        equal(`${text} as players write it`, isJoined(text), true);
        const losses = lossesOf(position, roll).map(over).map(rounded).sort((one, other) => one - other);
        equal(`the next best of ${roll}`, next, losses.length === 1 ? "only play" : `then \u2212${losses[1]}`);
    }
    await page.click(keyed("roll 31"));
    await page.there(".plays");
    const costs = await costsOf(page);
    equal("what the plays of 31 lose", costs, lossesOf(position, "31"));
    const [shown] = await page.look([".plays [aria-pressed=true] .moves"]);
    await sees(page, "an arrow for each way", { "count #board .arc": shown.split(" ").length });
    await page.click(".plays button:last-child");
    // a long fraction is told as a decimal
    const [loss] = (await page.value('document.querySelector(".plays button:last-child .cost").title')).split(" ");
    await page.known(".loss");
    const [told] = await page.look([".loss"]);
    const toldLoss = told.match(/ loses (\S+) of a roll/)?.[1];
    equal("exactly", loss.length <= 24 ? toldLoss : /^\d\.\d{3}$/.test(toldLoss) && loss, loss);
    const last = over(costs.at(-1));
    equal("in EPC", told.split(", ")[1] ?? "nothing", last[0] === 0n ? "nothing" : `${inPips(last)} pips of EPC.`);
}

// Sets a position in the field.
async function giveCounts(page, position) {
    await page.click("#counts");
    await page.value('document.getElementById("counts").select()');
    await page.value(`document.execCommand("insertText", false, ${JSON.stringify(position)})`);
    await page.key("Enter");
}

// What the plays of the chosen roll lose, as the page has it, and as the program has it.
const costsOf = (page) =>
    page.value('[...document.querySelectorAll("#plays .cost")].map((cost) => cost.title.split(" ")[0])');
const movesOf = (position, roll) => ask(`moves ${position} ${roll}`).split(" ").slice(1).map((word) => word.split(":"));
const lossesOf = (position, roll) => movesOf(position, roll).map(([, loss]) => loss);

// A fraction, a sum of some with one more, and one in thousandths, to the nearest.
const over = (fraction) => fraction.split("/").map(BigInt);
const added = ([one, whole], more) => [over(more)].map(([above, below]) => [one * below + above * whole, whole * below])[0];
const rounded = ([above, below]) => (Number((2000n * above + below) / (2n * below)) / 1000).toFixed(3);
const inPips = ([above, below]) => rounded([49n * above, 6n * below]);

// The bars are as long as the chances beside them.
async function compareBars(page) {
    const bars = await page.value(`[...document.querySelectorAll(".chances tbody tr")].map((row) =>
        [Number(row.querySelector(".share").textContent.split(" ")[0]), row.querySelector("rect").getBoundingClientRect().width])`);
    const most = bars.reduce((one, other) => (other[0] > one[0] ? other : one));
    for (const [share, width] of bars) {
        if (Math.abs(width / most[1] - share / most[0]) > 0.02) wrong(`a bar for ${share} % is ${width} wide, where ${most[0]} % has ${most[1]}`);
    }
    if (most[1] < 50) wrong(`the longest bar is ${most[1]} wide`);
}

async function driveBoard(browser) {
    const page = await browser.open(`${address}#at=2,2,2,2,2,2`, { before: WATCH });
    await page.until(READY);
    const isMouse = await page.value('matchMedia("(hover: hover)").matches');
    const how = await page.value('document.getElementById("how").innerText');
    equal("how a point is set", how.startsWith(isMouse ? "Click" : "Tap"), true);
    if (browser.name === "Chromium") equal("with a mouse", isMouse, true);
    await compare(page, "the first position", "2,2,2,2,2,2");
    await compareBars(page);
    await compareRolls(page, "2,2,2,2,2,2");
    await page.click(keyed("clear"));
    await page.until('document.getElementById("counts").value === "0,0,0,0,0,0"');
    for (const point of [6, 6, 4]) await page.click(keyed(`point ${point}`));
    await compare(page, "set up by clicks", "0,0,0,1,0,2");
    await page.click(keyed("point 6"), { shift: true });
    await page.click(keyed("Add 1"));
    await page.click(keyed("Remove 4"));
    await compare(page, "changed by clicks", "1,0,0,0,0,1");
    await page.click(keyed("point 1"), { button: "right" });
    await compare(page, "a right-click", "0,0,0,0,0,1");
    await focusOn(page, keyed("point 5"));
    await press(page, "4", "ArrowLeft", "ArrowUp", "ArrowRight", "ArrowRight", "3", "ArrowDown");
    await compare(page, "set up by keyboard", "0,0,0,2,4,2");
    await page.click(keyed("clear"));
    await focusOn(page, keyed("point 1"));
    await press(page, "1", "2");
    await compare(page, "two digits", "12,0,0,0,0,0");
    await page.click("#counts");
    for (const text of ["9 9", "0 0 0 4 4 1"]) {
        await page.value('document.getElementById("counts").select()');
        await press(page, ...text, "Enter");
        await page.until(`document.getElementById("why").hidden === ${text !== "9 9"}`);
        await sees(page, "why not", { "#why": text === "9 9" ? "Six counts are wanted, and here are 2." : "" });
    }
    await compare(page, "nine checkers", "0,0,0,4,4,1");
    await compareRolls(page, "0,0,0,4,4,1");
    equal("nothing went wrong", page.troubles(), []);
    return page;
}

// How long it takes, and that the bar moves on.
async function driveTimes(page) {
    const { ready, bar } = await page.value("watched");
    console.log(`page: ready after ${ready.toFixed(0)} ms, with a bar that moved ${new Set(bar).size} times`);
    (new Set(bar).size > 5 && bar.every((part, place) => place === 0 || part >= bar[place - 1]))
        || wrong(`the bar moved on so: ${bar.join(" ")}`);
    const times = await page.value(`(async () => {
        const times = [];
        for (const [key, pips] of [["Add 2", 44], ["Remove 2", 42], ["Add 1", 43], ["Remove 1", 42], ["Add 2", 44]]) {
            const start = performance.now();
            document.querySelector('[data-key="' + key + '"]').click();
            while (!document.getElementById("said").textContent.startsWith(pips + " pips")) await new Promise((keep) => setTimeout(keep, 1));
            times.push(performance.now() - start);
        }
        return times.sort((one, other) => one - other);
    })()`);
    console.log(`page: a click was answered in ${times[2].toFixed(0)} ms, the middle of five`);
    await compareWatched(page, "the board", 6);
}

// One stop of Tab for the rolls and one for the plays, arrows within them, and the focus where one was.
async function driveKeyboard(browser) {
    const page = await browser.open(`${address}#at=0,0,0,1,0,1&p=1,0,0,0,0,0&p=2,0,0,0,0,0`);
    await page.until(`${READY} && document.querySelector(".rolls .next")`);
    const go = async (from, keys) => {
        await focusOn(page, from);
        const path = [];
        for (const key of keys) {
            await page.key(key);
            await wait(50);
            path.push(...await page.look(["focus"]));
        }
        return path;
    };
    const plays = ask("moves 0,0,0,1,0,1 21").split(" ").length - 1;
    const path = await go("#guess", ["Tab", "ArrowRight", "ArrowRight", "ArrowLeft", "Enter", "Tab", "End", "Tab", "Enter"]);
    equal("where keys lead", path.map((key) => (key.startsWith("play ") ? "play" : key)),
        ["roll 11", "roll 21", "roll 22", "roll 21", "roll 21", "play", "play", "onward", "roll 21"]);
    equal("to the first and the last play", path[5] !== path[6], plays > 1);
    await page.until(`document.getElementById("counts").value === "${ask("play 0,0,0,1,0,1 21").split(" to ")[1]}"`);
    equal("Keep", await go("#keep", ["Enter"]), ["keep"]);
    await sees(page, "kept", { "count .kept tbody tr": 3 });
    equal("Escape", (await go(keyed("roll 31"), ["Enter", "Tab", "Escape"])).map((key) => key.split(" ")[0]),
        ["roll", "play", "roll"]);
    await page.known(".kept td[data-head]");
    const [rows] = await page.look(["keys .kept .remove"]);
    equal("Remove", await go(keyed(rows[0]), ["Enter", "Enter", "Enter"]), [rows[1], rows[2], "keep"]);
    equal("nothing went wrong", page.troubles(), []);
}

// An XGID and an ID of GNU Backgammon in the field, with their roll; and one that is no bearoff race, in words.
async function drivePasted(browser) {
    const page = await known(browser, "#at=1,0,0,0,0,0");
    const told = JSON.parse(readFileSync(new URL("../callers/notation_texts.json", import.meta.url), "utf8"));
    const dice = told.read.filter(([text, points, , roll]) => roll && pipsOf(points.join()) > 0
        && pipsOf(points.join()) <= 44 && /^(XGID|Position|GNU|[A-Za-z0-9+/]{14}:)/.test(text));
    for (const [text, points, , roll] of [...dice.slice(0, 3), ...dice.slice(-3)]) {
        await giveCounts(page, text);
        await compare(page, text, points.join());
        await page.there(".plays");
        await sees(page, text, { "keys .rolls [aria-pressed=true]": [`roll ${roll.join("")}`] });
        equal("its plays", await costsOf(page), lossesOf(points.join(), roll.join("")));
    }
    const [at] = await page.look(["value #counts"]);
    for (const code of ["outside", "contact", "bar", "other-side", "too-many", "malformed"]) {
        const [text, , line] = told.refused.find(([given, is]) => is === code && given.startsWith("XGID="))
            || told.refused.find(([given, is]) => is === code && /[A-Za-z]{3}/.test(given));
        await giveCounts(page, text);
        await page.until('!document.getElementById("why").hidden');
        await sees(page, `${code}, in words`, { "#why": `This is no bearoff race: ${line}` });
        equal(`${code}: the board stays`, (await page.value(SHOWN)).values, at);
        await giveCounts(page, at);
        await page.until('document.getElementById("why").hidden');
    }
    equal("nothing went wrong", page.troubles(), []);
}

async function driveGuess(page) {
    await page.click("#guess");
    await page.click(keyed("roll 21"));
    await page.there(".plays");
    await sees(page, "a guess hides the best play, its arcs and its loss", { "#grid": /^[^/]*$/, "count .arc": 0,
        "count #plays .cost": 0 });
    await page.click(".plays button:last-child");
    await page.known(".verdict");
    const [verdict, said] = await page.look([".verdict p", "#said"]);
    /One guess has lost \d+\.\d{3} of a roll\./.test(verdict) || wrong(`the verdict: ${verdict}`);
    verdict.startsWith(said) || wrong(`said is ${said}, and the verdict ${verdict}`);
    await page.click(keyed("reset"));
    await page.until('document.querySelector("#plays h3").textContent.includes("Which play is best?")');
    await page.click("#guess");
}

// The lesson of three losses of 1/18.
async function driveSum(browser) {
    const page = await browser.open(`${address}#at=0,0,0,1,0,1&guess=1&p=0,0,0,1,0,0&p=1,1,0,0,0,0`);
    await page.until(`${READY} && document.querySelector(".rolls button")`);
    await sees(page, "the kept numbers are hidden", { "all .kept td[data-head]": Array(8).fill("\u2026") });
    let sum = [0n, 1n];
    for (const roll of ["52", "61", "41"]) {
        await page.click(keyed(`roll ${roll}`));
        await page.there(".plays");
        const [text] = await page.look([".plays button:last-child .moves"]);
        await page.click(".plays button:last-child");
        await page.known(".verdict");
        const [title] = (await page.value(`document.querySelector('${keyed(`play ${text}`)} .cost').title`)).split(" ");
        sum = added(sum, title);
    }
    const told = (await page.look([".verdict p"]))[0].match(/Exactly: (\d+)\/(\d+)/);
    equal("the sum of three losses", told ? BigInt(told[1]) * sum[1] === BigInt(told[2]) * sum[0] : sum[0] === 0n, true);
    await sees(page, "then the kept numbers are there", { ".kept": /^[^\u2026]*$/ });
}

// A machine on which the first build takes so many milliseconds, as the page is told. The second
// worker begins `late` milliseconds after it was asked; before the scripts of the first `bad` of
// such workers stands `prefix`. What the page asks of the workers is kept.
const machine = (took, { late = 0, bad = 0, prefix = "" } = {}) => `(() => {
    const Real = window.Worker;
    const address = URL.createObjectURL;
    window.workers = [];
    URL.createObjectURL = (file) => address(workers.length > 0 && workers.length <= ${bad} ? new Blob([${JSON.stringify(prefix)}, file]) : file);
    window.Worker = class extends Real {
        constructor(where) {
            super(where);
            this.isSecond = workers.length > 0;
            this.asked = [];
            workers.push(this);
            this.addEventListener("message", ({ data }) => { if (data.reply?.took !== undefined) data.reply.took = ${took}; });
        }

        postMessage(message, lent) {
            this.asked.push(message.question.kind + " " + (message.question.bound || ""));
            if (this.isSecond && message.question.kind === "start") setTimeout(() => super.postMessage(message, lent), ${late});
            else super.postMessage(message, lent);
        }

        terminate() {
            this.isEnded = true;
            super.terminate();
        }
    };
})();
`;
const SLOW = machine(60000);
const NO_MEMORY = 'WebAssembly.instantiate = async () => { throw new RangeError("could not allocate memory"); }; WebAssembly.Instance = class { constructor() { throw new RangeError("could not allocate memory"); } };';
const WORKERS = "workers.map(({ asked, isEnded }) => [asked[0], Boolean(isEnded)])";

// The database of 90 pips: unasked and unseen on a fast machine, where something needs it on a slow one, and where it
// can't be had the first one goes on. Each number on the way is the program's.
async function driveWider(browser) {
    const [near, far] = ["2,2,2,2,2,1", "0,0,0,3,5,7"];
    const shows = (page, name, open, hidden = {}) => sees(page, name, { "#open": open, "count #trouble": 1,
        "hidden #bar": true, "hidden #trouble": true, "hidden #wider": true, ...hidden });
    const isOpen = (page, bound) => page.until(`document.getElementById("open").textContent === "${bound} pips"`);
    const open = async (hash, how, what = `${READY} && ${KNOWN} && document.querySelector(".rolls .next")`) => {
        const page = await browser.open(address + hash, { before: machine(...how) + WATCH });
        await page.until(what);
        return page;
    };
    const give = async (page, name, position) => {
        await giveCounts(page, position);
        await compare(page, name, position);
    };

    // a fast machine, whose second build takes its time so that it is met
    const fast = await open("#at=2,2,2,2,2,2&roll=31", [500, { late: 1200 }]);
    await shows(fast, "fast: the first number comes of 44 pips", "44 pips");
    await fast.until("workers.length === 2");
    equal("fast: what is asked", await fast.value(WORKERS), [["start 44", false], ["start 90", false]]);
    await give(fast, "fast: while 90 pips are built", near);
    await shows(fast, "fast: nothing is said of it", "44 pips");
    await fast.until('document.querySelectorAll(".rolls .next").length === 21');
    await fast.value('window.before = document.querySelector("main").innerHTML');
    await isOpen(fast, 90);
    equal("fast: nothing changes with it", await fast.value('document.querySelector("main").innerHTML'), await fast.value("before"));
    equal("fast: one worker is left", (await fast.value(WORKERS)).map(([, isEnded]) => isEnded), [true, false]);
    await give(fast, "fast: 79 pips", far);
    await compareRolls(fast, far);
    await sees(fast, "fast: the address", { hash: /^(?!.*pips)/ });
    await compareWatched(fast, "fast", 2);

    // a slow one: nothing is built that nothing needs
    const slow = await open("#at=2,2,2,2,2,2", [5000, { late: 2500 }]);
    await wait(500);
    equal("slow: not unasked", await slow.value(WORKERS), [["start 44", false]]);
    await giveCounts(slow, far);
    await slow.until("workers.length === 2 && !document.getElementById('bar').hidden");
    await shows(slow, "slow: it says so", "44 pips", { "hidden #bar": false,
        "#numbers .hint": "The database of 90 pips is being built for it.",
        "#said": "79 pips: the database of 90 pips is being built." });
    equal("slow: nothing is known yet", (await slow.value(SHOWN)).figures, ["79", "\u2026", "\u2026", "\u2026"]);
    await give(slow, "slow: the first answers meanwhile", near);
    await shows(slow, "slow: and nothing waits", "44 pips");
    await giveCounts(slow, far);
    await slow.until("!document.getElementById('bar').hidden");
    await slow.poke("#keep");
    await isOpen(slow, 90);
    await compare(slow, "slow: 79 pips", far);
    await slow.known(".kept");
    await shows(slow, "slow: done", "90 pips");
    await compareWatched(slow, "slow", 2);

    // what needs it from the first: one build alone
    const linked = await open(`#at=${far}`, [5000], `${READY} && ${KNOWN}`);
    await compare(linked, "a link to 79 pips", far);
    equal("a link to 79 pips builds once", await linked.value(WORKERS), [["start 90", false]]);

    // no memory for it: unasked it is silent, and where it is needed it is said; then it is tried again by its button
    for (const [what, prefix] of few([["no memory", NO_MEMORY], ["a worker that dies", "setTimeout(() => { throw new Error('gone'); }, "
        + "0); self.onmessage = () => {}; Object.defineProperty(self, 'onmessage', { set() {} });"]], 0)) {
        const page = await open("#at=2,2,2,2,2,2", [500, { bad: 2, prefix }]);
        await page.until("workers.length === 2 && workers[1].isEnded")
            .catch(() => wrong(`${what}: the second worker isn't let go`));
        await shows(page, `${what}: in silence`, "44 pips");
        equal(`${what}: its workers`, await page.value(WORKERS), [["start 44", false], ["start 90", true]]);
        await give(page, `${what}: the first answers`, near);
        await giveCounts(page, far);
        await page.until("!document.getElementById('trouble').hidden");
        await shows(page, `${what}: where it is needed`, "44 pips", { "hidden #trouble": false, "hidden #wider": false,
            "#trouble": /^The database of 90 pips couldn\u2019t be built: .* That of 44 pips goes on\.$/s });
        await give(page, `${what}: the first still answers`, near);
        await giveCounts(page, far);
        await page.until("!document.getElementById('wider').hidden");
        await page.click("#wider");
        await sees(page, `${what}: the focus stays`, { focus: "numbers" });
        await isOpen(page, 90);
        await compare(page, `${what}: tried again`, far);
        await shows(page, `${what}: and there`, "90 pips");
        await compareWatched(page, what, 2);
    }
}

// On the free board a roll is guessed by moving checkers, by mouse, by dragging, by keys and by
// touch: what it loses is the program's.
async function driveGuessed(browser) {
    const position = "0,1,0,1,0,1";
    const telephone = { width: 360, height: 780, mobile: true };
    const isInSight = async (page, name, ...selectors) => equal(`${name}: in sight`, await page.value(OUT_OF_SIGHT(selectors)), []);
    const ASKED = ["#board svg", "#board .guessing button", "#plays h3"];
    for (const way of ["mouse", "drag", "keys", ...(browser.name === "Chromium" ? ["touch"] : [])]) {
        const isSmall = way === "touch";
        const page = await browser.open(`${address}#at=${position}&guess=1`, isSmall ? telephone : {});
        await page.until(`${READY} && document.querySelector(".rolls button")`);
        // with few plays, and with more than the sheet has room for
        for (const [at, roll] of isSmall ? [[position, "52"], ["2,2,2,2,2,2", "31"]] : []) {
            const linked = await browser.open(`${address}#at=${at}&guess=1&roll=${roll}`, telephone);
            await linked.until(MAKING);
            await isInSight(linked, `a link to a guess of ${roll}`, ...ASKED);
            await linked.close();
        }
        let sum = [0n, 1n];
        for (const [place, roll] of ["52", "31", "22"].entries()) {
            const tile = keyed(`roll ${roll}`);
            if (isSmall) await page.aim(tile);
            await (isSmall ? page.tap(tile) : page.click(tile));
            await page.until(MAKING);
            if (isSmall) await isInSight(page, `${way} ${roll}`, ...ASKED);
            const plays = movesOf(position, roll);
            const [to, loss] = plays[(place + 1) % plays.length];
            if (way === "keys") await focusOn(page, '#board [tabindex="0"].to-play');
            else await page.aim("#board svg");
            await WAYS[way](page, movesTo(position, roll, to));
            await page.known("#plays .verdict");
            equal(`${way} ${roll}: what it loses`,
                await page.value('document.querySelector(".plays [aria-pressed=true] .cost").title'), `${loss} of a roll`);
            await sees(page, `${way} ${roll}`, { focus: /^play /, "count #board [role=spinbutton]": 6 });
            equal(`${way} ${roll}: the board`, (await page.value(SHOWN)).values, position);
            sum = added(sum, loss);
            if (isSmall) await isInSight(page, `${way} ${roll}: its verdict`, "#plays .verdict p");
            if (isSmall) await page.tap(keyed("close"));
        }
        const told = (await page.look(["#said", "#plays"])).join("").match(/Exactly: (\d+)\/(\d+)/)?.slice(1).map(BigInt);
        if (!isSmall && told) equal(`${way}: what three lost`, told[0] * sum[1] === sum[0] * told[1], true);
        else if (!isSmall) equal(`${way}: what three lost is long`, String(sum[1]).length > 12, true);
        equal(`${way}: nothing went wrong`, page.troubles(), []);
    }
}

// Drops a file on the page, or chooses it at its foot.
const put = (page, bytes, how = "drop", name = "own.db") => page.value(`(() => {
    const bytes = Uint8Array.from(atob(${JSON.stringify(Buffer.from(bytes).toString("base64"))}), (letter) => letter.charCodeAt(0));
    const transfer = new DataTransfer();
    transfer.items.add(new File([bytes], "${name}"));
    if (${JSON.stringify(how)} === "drop") {
        document.body.dispatchEvent(new DragEvent("drop", { dataTransfer: transfer, bubbles: true, cancelable: true }));
    } else {
        document.getElementById("file").files = transfer.files;
        document.getElementById("file").dispatchEvent(new Event("change", { bubbles: true }));
    }
})()`);

async function driveFiles(page) {
    const eight = readFileSync(join(folder, "eight"));
    const damaged = Buffer.from(eight);
    damaged[32 + 426 + 3] ^= 1;
    await put(page, damaged);
    await page.until('!document.getElementById("trouble").hidden');
    let line = "";
    writeFileSync(join(folder, "damaged"), damaged);
    try {
        execFileSync(program, ["check", join(folder, "damaged")], { stdio: "pipe" });
    } catch (error) {
        line = error.stderr.toString().replace("bearoff: refused ", "").trim();
    }
    const [trouble] = await page.look(["#trouble"]);
    (line && trouble.includes(`First fault: ${line}.`)) || wrong(`the refusal says "${trouble}", and the program "${line}"`);
    await sees(page, "the former database stays", { "#open": "44 pips" });
    await put(page, eight, "choose");
    await page.until('document.getElementById("open").textContent === "8 pips"');
    await sees(page, "the trouble is gone", { "hidden #trouble": true });
    await page.click(keyed("clear"));
    for (let checker = 0; checker < 5; checker += 1) await page.click(keyed("Add 1"));
    await compare(page, "over a file of one's own", "5,0,0,0,0,0");
}

// A board that changes while a dropped file is checked and while 90 pips are built, twice in a tick, and with Keep in
// between: no number is ever beside a position that it isn't of.
async function driveMoments(browser) {
    const race = readFileSync(join(folder, "race.db"));
    race[race.length - 1] ^= 1;
    const page = await known(browser, "#p=2,2,2,2,2,2", { before: SLOW + WATCH });
    await put(page, race);
    // in the turn in which the bar is seen, since the check may be over before the next one
    equal("a board that changes while a file is checked", await page.value(`new Promise(function look(keep) {
        if (document.getElementById("bar").hidden) return setTimeout(look, 1, keep);
        for (const key of ["Remove 6", "", "Remove 5", "Remove 5"]) {
            document.querySelector(key ? '[data-key="' + key + '"]' : "#keep").click();
        }
        keep({ board: ${SHOWN}.values, bar: document.getElementById("bar").hidden });
    })`), { board: "2,2,2,2,0,1", bar: false });
    await page.until('!document.getElementById("trouble").hidden');
    await compare(page, "after the refusal", "2,2,2,2,0,1");
    await page.known(".kept td[data-head]");
    await compareWatched(page, "while a file is checked", 3);

    const wider = await known(browser, "#at=2,2,2,2,2,2", { before: machine(60000, { late: 300 }) + WATCH });
    await wider.value('location.hash = "#at=0,0,0,3,5,3"');
    await wider.until("workers.length === 2");
    await wider.value(`(async () => {
        for (const key of ["Remove 6", "Remove 6", "Remove 6", "", "Add 1", "Add 1"]) {
            if (key === "Remove 6") await new Promise((keep) => setTimeout(keep, 40));
            document.querySelector(key ? '[data-key="' + key + '"]' : "#keep").click();
        }
    })()`);
    await wider.until('document.getElementById("open").textContent === "90 pips"');
    await compare(wider, "after 90 pips were built", "2,0,0,3,5,0");
    await wider.known(".kept td[data-head]");
    await sees(wider, "one is kept", { "count .kept td[data-head]": 4 });
    await compareWatched(wider, "while 90 pips are built", 2);
}

// Each of three kept positions has its numbers.
const SORTED = `${READY} && document.querySelectorAll(".kept [data-head=EPC]").length === 3 && !document.querySelector(".kept").textContent.includes("\\u2026")`;
const LESSON = new URLSearchParams([["t", "<b>A lesson</b>"], ["p", "0,0,0,4,4,1"],
        ["c", '<img src=x onerror="document.title=1"> & "quotes"'], ["p", "15,0,0,0,0,0"], ["c", "'fifteen'"],
    ["p", "2,2,2,2,2,2"]]);

async function driveLesson(browser) {
    const page = await browser.open(`${address}#${LESSON}`);
    await page.until(SORTED);
    const order = ["0,0,0,4,4,1", "2,2,2,2,2,2", "15,0,0,0,0,0"];
    const counts = order.map((position) => ask(`mean ${position}`).split(" ").pop());
    const inputs = (used) => used.value('[...document.querySelectorAll(".kept input")].map((input) => input.value)');
    const captions = [LESSON.get("c"), "", "'fifteen'"];
    equal("captions are text", await inputs(page), captions);
    await sees(page, "no markup was read, and they are sorted", {
        "count img, b:not(dialog b, [data-key=today] b)": 0, "#lesson": "<b>A lesson</b>",
        "all .kept [data-head=EPC]": counts,
        "all .kept [data-head=Wastage]": counts.map((count, place) => (Number(count) - pipsOf(order[place])).toFixed(3)) });
    equal("the title of the page", await page.value("document.title"), "<b>A lesson</b> \u2013 Bearing off");
    await page.until('location.hash.includes("at=")');
    const again = await browser.open(address + await page.value("location.hash"));
    await again.until(SORTED);
    equal("the address keeps all", await inputs(again), captions);
    equal("nothing went wrong", [...page.troubles(), ...again.troubles()], []);
}

async function driveHistory(browser) {
    const page = await known(browser, "#at=1,0,0,0,0,0");
    await page.until('location.hash === "#at=1,0,0,0,0,0"');
    for (const selector of [keyed("Add 4"), "#keep", keyed("roll 21")]) {
        await page.poke(selector);
        await wait(400);
    }
    const state = '[document.getElementById("counts").value, document.querySelectorAll(".kept tbody tr").length, '
        + 'document.querySelectorAll(".rolls [aria-pressed=true]").length].join(" ")';
    equal("before Back", await page.value(state), "1,0,0,1,0,0 1 1");
    for (const [move, wanted] of [["back", "1,0,0,1,0,0 1 0"], ["back", "1,0,0,1,0,0 0 0"], ["back", "1,0,0,0,0,0 0 0"],
        ["forward", "1,0,0,1,0,0 0 0"], ["forward", "1,0,0,1,0,0 1 0"], ["forward", "1,0,0,1,0,0 1 1"]]) {
        await page[move]();
        await page.until(`${state} === "${wanted}"`)
            .catch(async () => wrong(`${move}: ${await page.value(state)}, and not ${wanted}`));
    }
    await compare(page, "after Forward", "1,0,0,1,0,0");
    // as a link of an older page has it
    await page.value('location.hash = "#at=0,0,0,3,5,3&pips=58"');
    await page.until('document.getElementById("open").textContent === "90 pips" && document.querySelector(".figures")');
    await page.until('document.querySelector(".figure dd").textContent.trim() === "55"');
}

async function driveCopy(browser) {
    const page = await known(browser, "#at=1,0,0,0,0,0");
    await page.click(keyed("Add 4"));
    await page.click("#copy");
    await page.until('document.getElementById("copied").textContent');
    await sees(page, "on a disk it says so, and the address is as it is now", { "#copied": /opens only here/,
        hash: "#at=1,0,0,1,0,0" });
    const [isHidden, value, told] = await page.look(["hidden #link", "value #link", "#copy"]);
    (isHidden ? told === "Copied" : value === await page.value("location.href")) || wrong(`the link: ${value} ${told}`);
}

// The pictures that the page saves, kept for the test.
const SAVED = `(() => {
    window.saved = [];
    URL.createObjectURL = (file) => { saved.push({ file }); return "blob:kept"; };
    HTMLAnchorElement.prototype.click = function () { saved.at(-1).name = this.download; };
})()`;

// An SVG file that is well-formed, and a PNG one with a checker where one stands.
async function driveSaved(browser) {
    const words = new URLSearchParams([["at", "1,0,0,2,0,0"], ["p", "1,0,0,2,0,0"], ["c", "<b>Three</b> & more"]]);
    const page = await browser.open(`${address}#${words}`);
    await page.until(`${READY} && ${KNOWN} && document.querySelector(".rolls .next")`);
    await page.value(SAVED); // once the worker, which comes from such an address too, is there
    await page.click("#save-svg");
    await page.until("saved[0]?.name");
    const svg = await page.value(`saved[0].file.text().then((text) => {
        const whole = new DOMParser().parseFromString(text, "image/svg+xml");
        return [whole.documentElement.localName, whole.querySelectorAll("circle").length, whole.querySelectorAll("b").length,
            [...whole.querySelectorAll("text")].slice(-2).map((line) => line.textContent)];
    })`);
    equal("an SVG file", svg, ["svg", 3, 0, ["<b>Three</b> & more", "1,0,0,2,0,0"]]);
    await page.click("#save-png");
    await page.until("saved[1]?.name");
    const png = await page.value(`createImageBitmap(saved[1].file).then((picture) => {
        const canvas = document.createElement("canvas");
        [canvas.width, canvas.height] = [picture.width, picture.height];
        const context = canvas.getContext("2d");
        context.drawImage(picture, 0, 0);
        const isChecker = (x, y) => [...context.getImageData(2 * (x + 32), 2 * (y + 64), 1, 1).data].join() === "244,234,212,255";
        const counts = [550, 450, 350, 250, 150, 50].map((x) => [300, 240, 180].filter((y) => isChecker(x, y)).length);
        return [picture.width, picture.height, counts.join(), saved[1].file.type, saved.map(({ name }) => name)];
    })`);
    equal("a PNG file", png, [1496, 1050, "1,0,0,2,0,0", "image/png",
            ["bearoff-1-0-0-2-0-0.svg", "bearoff-1-0-0-2-0-0.png"]]);
    equal("nothing went wrong", page.troubles(), []);
}

// A browser without memories of 64-bit addresses gets the narrowed module; one without WebAssembly, without workers or
// without script is told so, and but for the last has the board all the same.
async function driveOlder(browser) {
    const older = "const validate = WebAssembly.validate; WebAssembly.validate = (bytes) => bytes.length === 8 && validate(bytes); delete window.DecompressionStream;";
    const page = await browser.open(`${address}#at=7,4,2,0,0,0`, { before: older });
    await page.until(READY);
    await compare(page, "with 32-bit addresses", "7,4,2,0,0,0");
    equal("nothing went wrong", page.troubles(), []);
    for (const [what, words] of [["WebAssembly", "runs no WebAssembly"], ["Worker", "runs no workers"]]) {
        const poor = await browser.open(`${address}#at=2,2,2,2,2,2`, { before: `delete window.${what};` });
        await poor.until('!document.getElementById("trouble").hidden && document.querySelector("[role=spinbutton]")');
        equal(`no ${what}`,
            await poor.value(`document.getElementById("trouble").textContent.startsWith("Nothing can be computed here: this browser ${words}")`), true);
        equal(`no wait without ${what}`, await poor.value('document.getElementById("bar").hidden'), true);
    }
    const still = await browser.open(address, { scripts: false });
    await still.send("DOM.enable");
    let text = "";
    for (let tries = 0; tries < 100 && !text.includes("scripts are turned off"); tries += 1) {
        await wait(50);
        const { nodes } = await still.send("Accessibility.getFullAXTree");
        text = nodes.map(({ name }) => name?.value || "").join(" ");
    }
    equal("no script", [text.includes("scripts are turned off"), text.includes("Starting")], [true, false]);
}

// On a server the page asks for nothing but itself, and its policy lets it ask for nothing.
async function driveHosted(browser) {
    const requests = [];
    const server = createServer((request, response) => {
        requests.push(request.url);
        response.writeHead(200, { "Content-Type": "text/html; charset=utf-8" });
        response.end(readFileSync(pagePath()));
    });
    await new Promise((keep) => server.listen(0, "127.0.0.1", keep));
    try {
        const here = `http://127.0.0.1:${server.address().port}/bearoff.html`;
        const page = await browser.open(`${here}#at=7,4,2,0,0,0&p=15,0,0,0,0,0`, { before: WATCH });
        await page.until(`${READY} && ${KNOWN}`);
        await compare(page, "on a server", "7,4,2,0,0,0");
        await page.click("#copy");
        await page.until('document.getElementById("copied").textContent');
        equal("on a server the link opens elsewhere too",
            await page.value('document.getElementById("copied").textContent.includes("only here")'), false);
        await compareWatched(page, "on a server", 1);
        equal("nothing went wrong", page.troubles(), []);
        const tried = await page.value(`Promise.all([
            fetch("/x").then(() => "fetched", () => "refused"),
            new Promise((keep) => { const image = new Image(); image.onload = () => keep("loaded"); image.onerror = () => keep("refused"); image.src = "/x.png"; }),
            new Promise((keep) => { const code = document.createElement("script"); code.textContent = "window.ran = true"; document.body.append(code); keep(window.ran ? "ran" : "refused"); }),
            new Promise((keep) => { const code = document.createElement("script"); code.onload = () => keep("ran"); code.onerror = () => keep("refused"); code.src = "/x.js"; document.body.append(code); }),
        ])`);
        equal("what the policy refuses", tried, ["refused", "refused", "refused", "refused"]);
        equal("what was asked for", requests, ["/bearoff.html"]);
    } finally {
        server.closeAllConnections();
        server.close();
    }
}

const point = (place) => (place === 0 ? '[data-key="off"]' : `[data-key="point ${place}"]`);

// How a play is made on the board: by clicks, by dragging, by taps, or by keys alone. Each is given
// single moves; what is made is played by its button, or by Enter.
const WAYS = {
    ...Object.fromEntries([["mouse", "click"], ["touch", "tap"]].map(([way, act]) => [way, async (page, moves) => {
        for (const selector of [...moves.flat().map(point), keyed("made")]) await page[act](selector);
    }])),
    drag: async (page, moves) => {
        for (const [from, to] of moves) await page.drag(point(from), point(to));
        await page.click(keyed("made"));
    },
    keys: async (page, moves) => {
        const go = async (place) => {
            const order = [6, 5, 4, 3, 2, 1, 0];
            const at = await page.value("Number(document.activeElement.dataset.point)");
            const away = order.indexOf(place) - order.indexOf(at);
            for (let count = Math.abs(away); count > 0; count -= 1) await page.key(away > 0 ? "ArrowRight"
                    : "ArrowLeft");
            await page.key("Enter");
        };
        for (const [from, to] of moves) {
            await go(from);
            await go(to);
        }
        await page.key("Enter");
    },
};

// The single moves of some play that leads from a position to another one, by the rules.
const movesTo = (position, roll, to) => legalFrom(position.split(",").map(Number))
    .find(({ dice }) => dice.join("") === roll).plays.find((play) => play.to.join() === to).moves;

const textOf = (moves) => moves.map(([from, to]) => `${from}/${to || "off"}`).join(" ");
const NEXT = keyed("next question");
const MAKING = 'document.querySelector("#board .source") && document.querySelector(".plays")';

// Practise: twenty questions by its seed, each play made in the way of its place: each verdict, what it loses and the score are
// the program's.
// What was missed is asked once more, and then counts for nothing.
async function playDrill(page, hash, way, next) {
    await page.until(`document.body.dataset.ready && document.querySelector('${NEXT}')`);
    let sum = [0n, 1n];
    let [missed, right] = [0, 0];
    for (let place = 0; place < 20 + missed; place += 1) {
        const words = place < 20 ? `Question ${place + 1} of 20.` : `Once more, ${place - 19} of ${missed}.`;
        await page.until(`document.querySelector("#coach .asks").textContent.startsWith("${words}") && ${MAKING}`);
        const position = (await page.value(SHOWN)).values;
        const [dice, texts] = await page.look(["#coach .asks .heard", "all .plays .moves"]);
        const roll = dice.startsWith("Double") ? dice.slice(-1).repeat(2) : dice.replace(" and ", "");
        const plays = movesOf(position, roll);
        const isBest = ([, loss]) => loss.startsWith("0/");
        if (plays.length < 2 || plays.filter(isBest).length !== 1) wrong(`${position} ${roll} has nothing to decide`);
        await sees(page, `${words} tells no loss`, { "count #plays .cost, #board .arc": 0 });
        const [to, loss] = place < 20 || place % 2 === 0 ? plays[(7 * place) % plays.length] : plays.find(isBest);
        const moves = movesTo(position, roll, to);
        await way(place)(page, moves, texts);
        await page.known("#coach .verdict");
        const [strong, verdict, shown] = await page.look(["#coach .verdict b", "#coach .verdict .rest", ".plays [aria-pressed=true] .moves"]);
        equal(`${words} what was played`, effectOf(shown), effectOf(textOf(moves)));
        equal(`${words} what it loses`,
            await page.value('document.querySelector(".plays [aria-pressed=true] .cost").title'), `${loss} of a roll`);
        const lost = over(loss);
        equal(`${words} its size`, strong, lost[0] === 0n ? "Best!" : rounded(lost) < 0.02 ? "Tiny mistake"
            : rounded(lost) < 0.08 ? "Small mistake" : "Big mistake");
        const best = verdict.match(/best is ([^.]*)\./)?.[1] || verdict.match(/^(.*) is best\./)?.[1] || "";
        equal(`${words} what is best`, effectOf(best), effectOf(ask(`play ${position} ${roll}`).split(" to ")[0].slice(5)));
        equal(`${words} the verdict`, verdict, lost[0] === 0n ? `${shown} is best.`
            : `${shown} loses ${rounded(lost)} of a roll; best is ${best}. In EPC: ${inPips(lost)} pips.`);
        if (place < 20) {
            sum = added(sum, loss);
            if (lost[0] > 0n) missed += 1;
        } else if (lost[0] === 0n) right += 1;
        await next(page);
    }
    await page.known(".score");
    const [told] = await page.look([".score"]);
    // a fraction that is too long to be read is left out
    const divisor = (one, other) => (other === 0n ? one : divisor(other, one % other));
    const lowest = sum.map((part) => part / divisor(...sum)).join("/");
    equal(`${hash}: the score, exactly`, told.match(/Exactly: (.*) of a roll/)?.[1] ?? null,
        lowest.length <= 24 ? lowest : null);
    equal(`${hash}: the score`, told.split(" Exactly")[0],
        `You played 20 of 20, and lost ${rounded(sum)} rolls, or ${inPips(sum)} pips of EPC.`);
    await sees(page, `${hash}: what was missed`, { ".score + p": `${missed === 1 ? "One was missed" : `${missed} were missed`
        }; asked once more, ${right} ${right === 1 ? "was" : "were"} right.` });
    equal(`${hash}: nothing went wrong`, page.troubles(), []);
}

// Drills by mouse, through the list and by dragging; by touch alone; and by keyboard alone.
async function driveDrill(browser) {
    const drill = "#drill=middle&seed=2026&ask=play";
    const page = await browser.open(address + drill);
    const byList = (used, moves, texts) =>
        used.click(keyed(`play ${texts.find((one) => effectOf(one) === effectOf(textOf(moves)))}`));
    await playDrill(page, drill, (place) => [byList, WAYS.drag, WAYS.mouse][place % 3], (used) => used.click(NEXT));
    await page.click(keyed("mistakes"));
    await page.until('document.querySelector("#coach h2").textContent === "Mistakes of a drill"');
    for (const position of ["0,0,0,0,4,4", "3,0,0,0,0,0", "7,4,2,0,0,0"]) {
        equal(`the rank of ${position}`, positions(44)[Number(ask(`rank ${position}`).split(" ")[1])].join(), position);
    }
    equal("nothing went wrong", page.troubles(), []);

    const touch = "#drill=all&seed=31&ask=play&level=hard";
    await playDrill(await browser.open(address + touch, { width: 360, height: 780, mobile: true }), touch,
        () => WAYS.touch, (used) => used.tap(NEXT));

    const keys = "#drill=high&seed=5&ask=play&level=easy";
    const typed = await browser.open(address + keys);
    await typed.until('document.body.dataset.ready && document.querySelector("#board .source")');
    equal("Tabs to the board", await tabsTo(typed, 'document.activeElement.classList.contains("to-play")') < 6, true);
    await playDrill(typed, keys, () => WAYS.keys, (used) => used.key("Enter"));
}

// What a script does in the page.
const click = (key) => `document.querySelector('[data-key="${key}"]').click()`;
const touchBoard = 'document.querySelector("#board .source").dispatchEvent(new MouseEvent("click", { bubbles: true }))';
const playLast = 'document.querySelector(".plays button:last-child").click()';
const given = (key, text) => `{ const field = document.querySelector('[data-key="${key}"]');
    field.value = ${JSON.stringify(text)}; field.dispatchEvent(new Event("change", { bubbles: true })); }`;
const write = (key, text, then) => `${given(key, text)} ${click(then)}`;

// Keeps what is heard, one after the other.
const HEARD = `window.heard = [];
new MutationObserver(() => {
    const said = document.getElementById("said")?.textContent;
    if (said && heard.at(-1) !== said) heard.push(said);
}).observe(document, { subtree: true, childList: true, characterData: true });`;

// How many Tabs lead to where something is true.
async function tabsTo(page, is) {
    let tabs = 0;
    for (; tabs < 40 && !(await page.value(is)); tabs += 1) await page.key("Tab");
    return tabs;
}

// How a thing is acted on, by its selector, its role and its name: by Tab and Enter, by a tap, or by what a reader is
// told of the page, where one thing of the role has such a name.
const ACTS = {
    keys: async (page, selector) => {
        const tabs = await tabsTo(page, `document.activeElement.matches(${JSON.stringify(selector)})`);
        if (tabs === 40) throw new Error(`Tab doesn't lead to ${selector}`);
        await page.key("Enter");
    },
    touch: async (page, selector) => {
        await page.aim(selector);
        await page.tap(selector);
    },
    told: async (page, selector, name) => {
        const { nodes } = await page.send("Accessibility.getFullAXTree");
        const found = nodes.filter((node) => !node.ignored && node.role?.value === "button" && name.test(node.name?.value));
        if (found.length === 0) throw new Error(`no button is called ${name}`);
        const { object: { objectId } } = await page.send("DOM.resolveNode", { backendNodeId: found[0].backendDOMNodeId });
        await page.send("Runtime.callFunctionOn", { objectId, functionDeclaration: "function () { this.click(); }" });
    },
};

// A whole session by keyboard alone, by touch alone, and by what is told: from home through ten questions, each with its
// verdict and with what it lost, and once more through what was missed, to the review and home.
async function driveSession(browser) {
    for (const [way, act] of few(Object.entries(ACTS), 0)) {
        const page = await browser.open(address, { before: `localStorage.clear(); ${HEARD}`,
            ...(way === "touch" ? { width: 360, height: 780, mobile: true } : {}) });
        await page.send("DOM.enable");
        await page.until(HOME);
        await act(page, keyed("today"), /^Begin ten new$/);
        let [asked, missed] = [0, 0];
        for (; asked < 30; asked += 1) {
            await page.until(`${MAKING} || document.querySelector(".reviewed")`);
            if ((await page.look(["count .reviewed"]))[0] > 0) break;
            const which = asked < 10 ? `Question ${asked + 1} of 10.` : `Once more, ${asked - 9} of ${missed}.`;
            await sees(page, `${way}: ${which}`, { "#coach .asks": RegExp(`^${which}`), "count #coach .verdict": 0,
                "count .plays .cost": 0, "count #board [role=button]": 7, "count .bar-of span": 10 });
            await act(page, '.plays [tabindex="0"]', /^[1-6]\/\S/);
            await page.known("#coach .verdict");
            const isRight = / is best/.test((await page.look(["#coach .verdict"]))[0]);
            if (asked < 10 && !isRight) missed += 1;
            await sees(page, `${way}: the verdict of ${which}`, { focus: "next question",
                "count #board figure": isRight ? 0 : 2, "#steering": /(Next|Score)$/ });
            await act(page, NEXT, /^(Next|Score)$/);
        }
        equal(`${way}: ten, and what was missed once more`, asked, 10 + missed);
        await page.known("#review");
        if (missed > 0) await page.there(".reviewed .why > *");
        const [throws] = await page.look(["count .reviewed .why .compared"]); // where one tells the plays apart
        await sees(page, `${way}: the review`, { "count .reviewed > li": 10, "count .reviewed > .lost": missed,
            "count .reviewed .compared": missed > 0 ? 1 + throws : 0, ".score": /^You played 10 of 10, / });
        const heard = await page.value("window.heard");
        equal(`${way}: what is heard`, [
            heard.filter((text) => /^(Question|Once more).* Which play of \d-\d is best\? The board: /.test(text)).length,
            heard.filter((text) => /^\S.*( is best|; best is )/.test(text) && !/^(Question|Once)/.test(text)).length,
            heard.at(-1)], [asked, asked, "The drill is over."]);
        await act(page, keyed("finish"), /^Done$/);
        await page.until(`${HOME} && location.hash === "#home"`);
        await sees(page, `${way}: home`, { ".daily-told": /^Today\u2019s ten are done\./, focus: "today" });
        equal(`${way}: nothing went wrong`, page.troubles(), []);
        await page.close();
    }
}

// What of some parts of the page isn't in sight whole, nothing being scrolled: its top, middle and
// bottom are what a click there meets.
const OUT_OF_SIGHT = (selectors) => `${JSON.stringify(selectors)}.flatMap((selector) => {
    const all = [...document.querySelectorAll(selector)];
    if (all.length === 0) return [selector + " is missing"];
    return all.flatMap((element) => {
        const { left, top, right, bottom } = element.getBoundingClientRect();
        const meets = [top + 2, (top + bottom) / 2, bottom - 2].every((y) => element.contains(document.elementFromPoint((left + right) / 2, y)));
        return right > left && top >= 0 && left >= 0 && bottom <= innerHeight && right <= innerWidth && meets ? []
            : [selector + " at " + Math.round(top) + " to " + Math.round(bottom) + ' of ' + innerHeight];
    });
})`;

// What edits a position, or shows what isn't asked, and can be seen.
const EDITING = `[...document.querySelectorAll("[role=spinbutton], #counts, #keep, .steps button, #how, #guess, .rolls button")]
    .filter((element) => element.getBoundingClientRect().width > 0).map((element) => element.id || element.className || element.dataset.key)`;

// One trains at four sizes: what begins is in sight with its question, board and buttons, and what
// is said of it with the way on; nothing edits a position; and the focus is never lost.
async function driveSight(browser) {
    let [measured, actions] = [0, 0];
    const sizes = [[360, 780, true], [768, 1024, true], [1180, 800, false], [780, 360, true]];
    for (const [width, height, mobile] of few(sizes, 0, 3)) {
        const page = await browser.open(address, { width, height, mobile });
        await page.until(HOME);
        const press = (selector) => page.value(`(() => {
            const element = document.querySelector(${JSON.stringify(selector)});
            element.focus();
            element.dispatchEvent(new MouseEvent("click", { bubbles: true, cancelable: true }));
        })()`);
        const look = async (name, ...parts) => {
            measured += 1;
            const size = `${width} x ${height}, ${name}`;
            const hasLong = height < 500 && await page.value('Boolean(document.querySelector("#coach .says"))');
            // the long text of a lesson is scrolled within its box where a telephone lies on its side
            const isSeen = (part) => !hasLong || !part.startsWith("#coach");
            equal(`${size}: out of sight`, await page.value(OUT_OF_SIGHT(["#coach h2", "#board svg",
                    "#steering button, #steering a", ...parts].filter(isSeen))), []);
            equal(`${size}: what edits`, await page.value(EDITING), []);
            equal(`${size}: how wide`, await page.value("document.documentElement.scrollWidth"), width);
        };
        const acted = async (name) => {
            actions += 1;
            const at = await page.value('document.activeElement === document.body ? "" : document.activeElement.id || document.activeElement.dataset.key');
            if (!at) wrong(`${width} x ${height}, ${name}: the focus is lost`);
            return at;
        };
        // from far below, where the lessons stand
        const numbers = Array.from({ length: 17 }, (_, place) => place + 1);
        const titles = await page.look(numbers.map((number) => keyed(`lesson ${number}`)));
        for (const [place, title] of few([...titles.entries()], 0, 2, 11, 16)) {
            await page.value('location.hash = "#home"');
            await page.until(HOME);
            await focusOn(page, keyed(`lesson ${place + 1}`));
            await page.value("scrollTo(0, document.documentElement.scrollHeight)");
            await page.poke(keyed(`lesson ${place + 1}`));
            await page.until(`document.querySelector("#coach h2")?.textContent === ${JSON.stringify(title)} && ${KNOWN.replace("!", 'document.querySelector(".figures") === null || !')}`);
            equal(`${title} begins where one goes on`, await acted(title), "coach");
            const count = Number((await page.look(["#coach .how"]))[0].match(/of (\d+)/)[1]);
            for (let step = 1; step <= count; step += 1) {
                const name = `${title}, step ${step}`;
                const parts = ["#coach .says", "#coach .asks", ".estimate input", keyed("tell"), keyed("answer"), "#coach .die"];
                const counts = await page.look(parts.map((part) => `count ${part}`));
                const [hasAnswer, dice] = counts.slice(-2);
                const hasRoll = dice > 0;
                if (hasRoll) await page.there("#board .source");
                await look(name, ...parts.slice(0, 4).filter((_, at) => counts[at] > 0));
                equal(`${name}: dice where a roll is asked`, dice, hasRoll ? 2 : 0);
                if (hasRoll) {
                    await press(".plays button:last-child");
                    await page.known("#coach .verdict");
                    await acted(`${name}, a play`);
                    await look(`${name}, its verdict`, "#coach .verdict");
                }
                if (hasAnswer) {
                    await press(keyed("answer"));
                    await page.there(".answers");
                    await acted(`${name}, the answer`);
                    await look(`${name}, its answer`, "#coach .answers");
                }
                if (step === count) break;
                await press('[data-key="next step"]');
                await acted(`${name}, next`);
            }
            if (count > 1) {
                await press('[data-key="previous step"]');
                await acted(`${title}, previous`);
            }
        }
        await press('[data-key="end training"]');
        equal("the end of a lesson", await acted("the end"), "today");

        for (const [asked, level] of [["play", "hard"], ["effective", "any"]]) {
            for (const [key, value] of [["theme", "all"], ["asked", asked], ["level", level], ["seed", "12"]]) {
                await page.value(given(key, value));
            }
            await page.aim(keyed("begin drill"));
            await press(keyed("begin drill"));
            await page.until(asked === "play" ? MAKING
                : 'document.querySelector(".estimate input") && document.querySelector("#coach .asks")');
            equal("a drill begins where one goes on", await acted("a drill"), "coach");
            if (asked === "play") equal(`${width} x ${height}: Tabs to the first play`,
                await tabsTo(page, '(document.activeElement.dataset.key || "").startsWith("play ")') < 10, true);
            for (let place = 0; place < (isBrief ? 2 : 4); place += 1) {
                const name = `${asked}, question ${place + 1}`;
                await look(name, "#coach .asks", ...(asked === "play" ? [] : ["#numbers .estimate input", keyed("tell")]));
                if (asked === "play") {
                    // the first by the board, with its undo, and the others by the list
                    if (place === 0) {
                        await press("#board .source");
                        await acted(`${name}, picked`);
                        await press("#board .target");
                        await acted(`${name}, moved`);
                        await look(`${name}, moved`, keyed("undo"));
                        await press(keyed("undo"));
                        await acted(`${name}, undone`);
                    }
                    await press(`.plays button:${place < 2 ? `nth-child(${place + 1})` : "last-child"}`);
                    await page.known("#coach .verdict");
                    equal(`${name}: the focus is at the way on`, await acted(`${name}, played`), "next question");
                    await look(`${name}, its verdict`, "#coach .verdict", NEXT);
                } else {
                    await page.value(given("estimate", "x"));
                    await press('[data-key="tell"]');
                    await acted(`${name}, a word`);
                    await look(`${name}, a word`, "#estimate-why p");
                    await page.value(given("estimate", "40"));
                    // a number that is still being computed is compared in a moment
                    for (let tried = 0; tried < 40
                            && await page.value('document.querySelector("#numbers .verdict") === null'); tried += 1) {
                        if (tried > 0) await wait(100);
                        await press('[data-key="tell"]');
                    }
                    await page.until('document.querySelector("#numbers .verdict")');
                    equal(`${name}: the focus is at the way on`, await acted(`${name}, estimated`), "next question");
                    await look(`${name}, its verdict`, "#numbers .verdict", NEXT);
                }
                await press(NEXT);
                await acted(`${name}, next`);
                await page.until(asked === "play"
                        ? 'document.querySelector("#board .source") && document.querySelector(".plays")'
                    : 'document.querySelector(".estimate input")');
            }
            await press('[data-key="previous question"]');
            await acted(`${asked}, previous`);
            await press('[data-key="end training"]');
            equal("the end of a drill", await acted("the end"), "today");
        }
        equal(`${width} x ${height}: nothing went wrong`, page.troubles(), []);
    }
    console.log(`page: ${measured} states of lessons and drills were in sight, and ${actions} actions kept the focus`);
}

// A play on the board in each browser: by dragging, by clicks and by keys, taken back, and played.
async function drivePlayed(browser) {
    const text = "lesson: One\nstep: 0,0,0,1,0,1\nroll: 52\nask: Which?\nstep: 0,0,0,4,4,1\nroll: 33\nask: Which?\n"
        + "step: 0,2,0,1,0,1\nroll: 31\nask: Which?";
    const page = await browser.open(`${address}#${new URLSearchParams([["text", text]])}`);
    await page.until('document.body.dataset.ready && document.querySelector("#board .source")');
    const board = async () => (await page.value(SHOWN)).values;
    for (const [name, from, to, points, seen] of [
        ["a place where nothing goes, and the checker is back", 6, 5, "0,0,0,1,0,1", { "count #board .picked": 0 }],
        ["dragged", 6, 1, "1,0,0,1,0,0", {}], ["the play", 4, 2, "1,1,0,0,0,0", { [keyed("made")]: "Play 6/1 4/2" }]]) {
        await page.drag(point(from), point(to));
        equal(name, await board(), points);
        await sees(page, name, seen);
    }
    await page.click(keyed("undo"));
    await page.click(keyed("undo"));
    equal("undone", await board(), "0,0,0,1,0,1");
    await page.drag(point(6), point(0));
    await sees(page, "with both dice", { [keyed("made")]: "Play 6/off" });
    await page.click(keyed("made"));
    await page.known("#coach .verdict");
    await sees(page, "its verdict",
        { "#coach .verdict .rest": "6/off loses 0.056 of a roll; best is 6/1 4/2. In EPC: 0.454 pips." });
    for (const [way, to, roll] of [["mouse", 0, "33"], ["keys", 1, "31"]]) {
        await page.click(keyed("next step"));
        await page.there("#board .source");
        const position = await board();
        const [end, loss] = movesOf(position, roll)[to];
        if (way === "mouse") {
            await page.drag(point(5), point(4));
            equal("dropped on a point that it can't reach", await board(), position);
            await sees(page, "dropped there", { "count #board .picked": 0 });
        }
        await WAYS[way](page, movesTo(position, roll, end));
        await page.there("#plays .cost");
        equal(`by ${way}`, await page.value('document.querySelector(".plays [aria-pressed=true] .cost").title'),
            `${loss} of a roll`);
    }
    equal("nothing went wrong", page.troubles(), []);
}

// Each lesson that comes with the page, step by step: its text, its board, and its answer, which opens; and an
// estimate.
async function driveLessons(browser) {
    const page = await browser.open(address);
    await page.until(HOME);
    await sees(page, "how many lessons", { "count .lessons a": 17 });
    for (let number = 1; number <= 17; number += 1) {
        await page.value('location.hash = "#home"');
        await page.until(HOME);
        const [title] = await page.look([keyed(`lesson ${number}`)]);
        await page.click(keyed(`lesson ${number}`));
        await page.until(`document.querySelector("#coach h2")?.textContent === ${JSON.stringify(title)}`);
        for (let step = 1, last = false; !last; step += 1) {
            await page.until(`document.querySelector("#coach .how").textContent.startsWith("Step ${step} of")`);
            const position = (await page.value(SHOWN)).values;
            const [numbers, figures, answers, nexts] = await page.look(["count #numbers", "count .figure",
                `count ${keyed("answer")}`, `count ${keyed("next step")}`]);
            if (answers > 0) {
                await sees(page, `${title}, step ${step}: closed`, { "count .answers": 0 });
                await page.click(keyed("answer"));
                await page.until('document.querySelector(".answers").textContent.length > 0');
                if (numbers > 0 && figures === 0) {
                    await page.until(`document.querySelector(".figure") && ${KNOWN}`);
                    equal(`${title}, step ${step}: its number`, (await page.value(SHOWN)).figures[2],
                        ask(`mean ${position}`).split(" ")[4]);
                }
            }
            last = nexts === 0;
            if (!last) await page.click(keyed("next step"));
        }
    }
    const guess = await browser.open(`${address}#at=7,4,2,0,0,0&estimate=effective`);
    await guess.until('document.querySelector(".rolls .next") && document.querySelector(".estimate input")');
    await sees(guess, "no number before the estimate", { "count #numbers .figure, .chances": 0, "count #whole": 0 });
    await guess.click(".estimate input");
    await press(guess, "5", "1", "Enter");
    await guess.there("#numbers .verdict");
    const off = Math.abs(51 - Number(ask("mean 7,4,2,0,0,0").split(" ")[4])).toFixed(3);
    await sees(guess, "how far off",
        { "#numbers .verdict": `You said 51.000: ${off} pips off. The mean error so far is ${off} pips.` });
    for (const hash of ["#view=board&at=7,4,2,0,0,0", "#view=board&at=2,2,2,2,2,2&roll=31"]) {
        const small = await browser.open(address + hash, { width: 480, height: 320 });
        await small.until(`${READY} && ${KNOWN}`);
        equal(`${hash} fits, and leads to the whole page`, await small.value(`[document.documentElement.scrollWidth <= 480,
            document.documentElement.scrollHeight <= 320, document.getElementById("whole").getAttribute("href"),
            document.getElementById("whole").offsetHeight > 0]`), [true, true, hash.replace("view=board&", ""), true]);
        const entries = await small.value("history.length");
        for (const place of [1, 1, 3]) {
            await small.click(point(place));
            await wait(300);
        }
        equal(`${hash}: what is set up there is no entry of the page around`,
            await small.value('[history.length, location.hash.includes("view=board&at=")]'), [entries, true]);
        await small.close();
    }
    equal("nothing went wrong", page.troubles(), []);
}

// Keeps where each thing that can be clicked stands in the page, from the first drawing on, and moved where it isn't
// there any more or is another element.
const PLACES = `window.places = { first: null, count: 0, seen: 0, moved: [] };
new MutationObserver(() => {
    const things = () => [...document.querySelectorAll("main a, main button, main input, main select, main summary, main [role=spinbutton]")];
    const nameOf = (thing) => thing.dataset.key || thing.id || thing.localName;
    const placeOf = (thing) => {
        const { left, top, width } = thing.getBoundingClientRect();
        return width > 0 ? [left + scrollX, top + scrollY] : null;
    };
    if (!document.querySelector('[data-key="lesson 1"], #board svg')) return;
    if (document.body.dataset.ready) places.seen += 1;
    places.first ||= new Map(things().map((thing) => [thing, placeOf(thing)]).filter(([, place]) => place));
    places.count = Math.max(places.count, places.first.size);
    for (const [thing, place] of places.first) {
        const now = thing.isConnected ? placeOf(thing) : null;
        const far = now ? Math.max(Math.abs(now[0] - place[0]), Math.abs(now[1] - place[1])) : Infinity;
        if (far < 1) continue;
        places.moved.push(nameOf(thing) + (now ? " by " + far.toFixed(0) : " is gone"));
        places.first.delete(thing);
    }
}).observe(document, { subtree: true, childList: true, characterData: true, attributes: true });`;

// Nothing that can be clicked moves while the database is built and the first answers come, at home and beside the
// board, and there nor while another position is answered; so what was aimed at is what is clicked.
async function driveStill(browser) {
    for (const [width, height, mobile] of [[1280, 900, false], [768, 1024, true], [360, 780, true]]) {
        const home = await browser.open(address, { width, height, mobile, before: PLACES });
        await home.until(HOME);
        await wait(1000);
        const page = await browser.open(`${address}#at=2,2,2,2,2,2`, { width, height, mobile, before: PLACES });
        await page.until(`${READY} && ${KNOWN} && document.querySelector(".rolls .next")`);
        const told = "[places.count > 40, places.seen > 0, places.moved.length, places.moved.slice(0, 3)]";
        equal(`${width} x ${height}: what moved at home`, await home.value(told), [true, true, 0, []]);
        equal(`${width} x ${height}: what moved while the page began`, await page.value(told), [true, true, 0, []]);
        if (mobile) continue;
        await page.value('document.querySelector(\'[data-key="Remove 6"]\').click()');
        await page.until(`document.getElementById("said").textContent.startsWith("36 pips") && document.querySelector(".rolls .next")`);
        equal(`${width} x ${height}: what moved with another position`, await page.value("places.moved.slice(0, 3)"),
            []);
    }
}

// Keeps a processor busy, until the test has ended at the latest.
const BUSY = "const parent = process.ppid; while (process.ppid === parent);";

// A click on a lesson opens it, whenever it comes: what is aimed at before the database is open is
// clicked at each tenth millisecond from when the page is ready to half a second later, and its end as
// soon as that one is open; at each other of these times on a busy machine.
async function driveClicks(browser) {
    const lost = [];
    const isOpen = (number) => `location.hash.includes("lesson=${number}&") && document.querySelector("#coach h2")`;
    const clickAt = async (offset, number) => {
        const page = await browser.open(address);
        const place = await page.aim(`[data-key="lesson ${number}"]`);
        const early = !(await page.value("document.body.dataset.ready"));
        await page.until(HOME);
        await wait(offset);
        await page.press(place);
        const opened = async (what, is) => {
            const isLost = await page.until(is).then(() => false, () => true);
            if (isLost) lost.push(`${what} at ${offset} ms`);
            return !isLost;
        };
        if (await opened("the first", isOpen(number))) {
            await page.click('[data-key="end training"]');
            await opened("the way home", HOME);
        }
        equal("nothing went wrong", page.troubles(), []);
        await page.close();
        return early;
    };
    let [early, step] = [0, isBrief ? 100 : 20];
    for (const isBusy of [false, true]) {
        const count = isBusy ? availableParallelism() : 0;
        const loops = Array.from({ length: count }, () => spawn(process.execPath, ["-e", BUSY]));
        try {
            for (let offset = isBusy ? 10 : 0; offset <= 500 && lost.length < 5; offset += step) {
                early += await clickAt(offset, offset / 10 % 15 + 1);
            }
        } finally {
            for (const loop of loops) loop.kill();
        }
    }
    equal("clicks on lessons that were lost", lost, []);
    if (lost.length === 0) equal("aimed at before the page was ready", early > 800 / step, true);
}

// A match of each form whose last play was made a worse one, from the drop to the first question that comes back: what it
// lost is what the program says.
async function driveGames(browser) {
    const [mat, sgf] = ["mat", "sgf"].map((kind) =>
        readFileSync(join(ROOT, `python/tests/matches/short.${kind}`), "utf8"));
    const worse = [[mat.replace(/ 22\) 53: 5\/0 6\/3[^]*/, " 22) 53: 5/0 4/1\n"), "x.mat"],
        [mat.replace(/ 22\) 53: 5\/0 6\/3[^]*/, " 22) 53: 6/1 5/2\n"), "x.mat"],
        [sgf.replace(";W[53ezfc]\n;B[32wzux]", ";W[53fafc]"), "x.sgf"], [sgf.replace("ezfc]\n;B[32wzux]", "facz]"), "x.sgf"]];
    let count = 0;
    for (const [text, name] of worse) {
        const page = await browser.open(address, { width: 360, height: 780, mobile: true });
        await page.until(HOME);
        await put(page, text, "drop", name);
        await page.until('document.querySelector("#games .reviewed") || document.querySelector("#match-why p")');
        const fault = await page.value('document.querySelector("#match-why").textContent');
        if (fault) {
            fault.includes("no play of 53 leads from 1,0,0,0,3,2") || fault.includes("has no checker")
                || wrong(`${name}: ${fault}`);
            continue;
        }
        count += 1;
        const losses = lossesOf("1,0,0,0,3,2", "53").map(over).filter(([above]) => above > 0n);
        const [told, asks] = await page.value(`[[...document.querySelectorAll("#games .lost dd:last-child")].at(-1)?.textContent,
            document.querySelectorAll('[data-key^="ask "]').length]`);
        equal(`${name}: what it lost`,
            losses.some((loss) => told === `${rounded(loss)} rolls, ${inPips(loss)} pips`), true);
        equal(`${name}: one player missed`, asks, 1);
        await page.value(`document.querySelector('[data-key^="ask "]').click()`);
        await page.value('location.hash = "#home"');
        await page.until(`document.querySelector('[data-key="today"]')?.textContent.includes("1 again")`);
        await page.value(`document.querySelector('[data-key="today"]').scrollIntoView({ block: "center" })`);
        await page.tap('[data-key="today"]');
        await page.until('document.querySelector("#board .source")');
        equal(`${name}: the miss is asked`, (await page.value(SHOWN)).values, "1,0,0,0,3,2");
        equal("nothing went wrong", page.troubles(), []);
        await page.close();
    }
    equal("matches of both forms", count >= 2, true);
}

const TEACHING = encodeURI("#t=What wastage is&at=0,0,0,4,4,1&roll=31&p=0,0,0,4,4,1&c=Nine on the high points&p=2,2,2,2,2,2&c=Two on each point&p=15,0,0,0,0,0&c=Fifteen on the ace point");

// A finger drags a checker in a drill, a lesson and a guess, and the page stays where it is; a
// finger on a board that isn't played on scrolls.
async function driveFinger(browser) {
    for (const [width, height] of [[360, 780], [780, 360]]) {
        for (const [what, hash] of [["a drill", "#drill=fifteen&seed=5&ask=play&level=hard"], ["a lesson", "#lesson=3"],
                ["a guess", "#at=2,3,0,2,2,6&guess=1&roll=22"]]) {
            const page = await browser.open(address + hash, { width, height, mobile: true });
            await page.until('document.querySelector("#board .source") && document.querySelector(".plays")');
            await page.value('document.getElementById("board").scrollIntoView({ block: "nearest", behavior: "instant" })');
            // the first checker that can go to another point, by one tap that is taken back
            const [from, to] = await page.value(`(() => {
                for (const source of document.querySelectorAll("#board .source")) {
                    const from = source.dataset.point;
                    source.dispatchEvent(new MouseEvent("click", { bubbles: true }));
                    const to = [...document.querySelectorAll("#board .target")].map((target) => target.dataset.point).find((point) => point !== "0");
                    document.querySelector('#board [data-point="' + from + '"]').dispatchEvent(new MouseEvent("click", { bubbles: true }));
                    if (to) return [from, to];
                }
            })()`);
            const counts = () =>
                    page.value('[1, 2, 3, 4, 5, 6].map((point) => Number(document.querySelector(\'#board [data-point="\' + point + \'"]\').dataset.count))');
            const [before, top] = [await counts(), await page.value("scrollY")];
            await page.swipe(`#board [data-point="${from}"] .ground`, `#board [data-point="${to}"] .ground`);
            await wait(100);
            const after = await counts();
            equal(`${width} x ${height}, ${what}: a finger drags from ${from} to ${to}`,
                [after[from - 1] - before[from - 1], after[to - 1] - before[to - 1]], [-1, 1]);
            equal(`${width} x ${height}, ${what}: the page stays`, await page.value("scrollY"), top);
            await page.close();
        }
    }
    const page = await known(browser, "#at=0,0,0,4,4,1", { width: 360, height: 780, mobile: true });
    await page.swipe("#board .number:last-of-type", "h1");
    await wait(300);
    equal("a finger scrolls from the free board", await page.value("scrollY > 20"), true);
    await page.close();
}

// A telephone and a tablet: the plays of a tapped roll are in sight with a board, and so is what they lose exactly.
async function driveTouch(browser) {
    for (const [width, height] of [[360, 780], [768, 1024]]) {
        const name = `${width} x ${height}`;
        const page = await browser.open(`${address}#at=0,0,0,4,4,1&p=2,2,2,2,2,2`, { width, height, mobile: true });
        await page.until(`${READY} && document.querySelector(".rolls .next")`);
        const words = await page.value('document.getElementById("how").innerText');
        equal(`${name}: no mouse`, [words.includes("right-click"), words.startsWith("Tap")], [false, true]);
        equal(`${name}: no plays yet`, await page.value('document.getElementById("plays").offsetHeight'), 0);
        await page.aim(keyed("roll 53"));
        await page.tap(keyed("roll 53"));
        await page.there(".plays");
        equal(`${name}: what is in sight`, await page.value(`[".small", ".plays button", '${keyed("close")}',
            '${keyed("onward")}', ".shown .loss"].filter((selector) => {
                const box = document.querySelector(selector).getBoundingClientRect();
                const { left, top, right, bottom } = box;
                const at = document.elementFromPoint((left + right) / 2, (top + bottom) / 2);
                return !(box.width > 0 && top >= 0 && left >= 0 && bottom <= innerHeight && right <= innerWidth
                    && at?.closest(selector));
            })`), []);
        equal(`${name}: so is the tile`, await page.value(`document.querySelector('${keyed("roll 53")}').getBoundingClientRect().bottom
            <= document.getElementById("plays").getBoundingClientRect().top`), true);
        await page.tap(".plays button:nth-child(2)");
        await page.there('.plays button:nth-child(2)[aria-pressed="true"]');
        const title = await page.value('document.querySelector(".plays button:nth-child(2) .cost").title');
        const [loss] = await page.look([".loss"]);
        equal(`${name}: the exact loss`, loss.includes(title.startsWith("0/") ? "loses nothing" : `loses ${title}`), true);
        await sees(page, `${name}: the small board shows it`, { "count .small .arc": 2 });
        await page.tap(keyed("close"));
        await page.until('document.getElementById("plays").offsetHeight === 0');
        equal(`${name}: what one taps is big enough`, await page.value(`[...document.querySelectorAll("button:not(.plain)")]
            .filter(({ offsetHeight, offsetWidth }) => offsetHeight > 0 && (offsetHeight < 24 || offsetWidth < 24))
            .map((button) => button.outerHTML.slice(0, 80))`), []);
        equal(`${name}: nothing went wrong`, page.troubles(), []);
    }
    const page = await browser.open(address + TEACHING, { width: 360, height: 780, mobile: true });
    await page.until(`${READY} && document.querySelector(".plays")`);
    for (const act of ['document.documentElement.style.fontSize = "32px"', 'document.querySelector("details").open = true']) {
        await page.value(act);
        equal(`at 360 pixels, ${act}`, await page.value("document.documentElement.scrollWidth"), 360);
    }
}

// One page of A4, and one of US Letter.
async function drivePrint(browser) {
    // as many pages of A4 and of US Letter
    const pages = async (page, what, count) => {
        for (const [paper, width, height] of [["A4", 8.27, 11.69], ["US Letter", 8.5, 11]]) {
            const bytes = await page.pdf(width, height);
            const found = bytes.toString("latin1").match(/\/Type\s*\/Page\b(?!s)/g) || [];
            equal(`pages of ${paper} for ${what}`, [bytes.subarray(0, 5).toString(), found.length], ["%PDF-", count]);
            if (pictures) writeFileSync(join(pictures, `${what} on ${paper}.pdf`.replaceAll(/[ #/]/g, "-")), bytes);
        }
    };
    // what stands there: the text, the checkers of each board, how many dice, and what else is there
    const printed = async (page) => {
        await page.send("Emulation.setEmulatedMedia", { media: "print" });
        return page.value(`[document.getElementById("printed").innerText.replace(/\\s+/g, " "),
            [...document.querySelectorAll("#printed .small")].filter((board) => board.getBoundingClientRect().width > 100)
                .map((board) => board.querySelectorAll("circle.checker").length),
            document.querySelectorAll("#printed .die").length, [".top", "#rolls", "#coach", "#steering", "#review"]
                .filter((part) => document.querySelector(part)?.offsetHeight > 0)]`);
    };
    for (const [what, hash] of [["a lesson", TEACHING], ["ten positions", `#at=2,2,2,2,2,2&roll=11&t=Ten&${
        Array.from({ length: 10 }, (_, count) => `p=${count},1,0,0,0,1&c=number ${count}`).join("&")}`],
    ["a guess", `${TEACHING}&guess=1`]]) {
        const page = await browser.open(address + encodeURI(decodeURI(hash)));
        await page.until(`${READY} && document.querySelector(".plays")`);
        await pages(page, what, 1);
    }
    // a drill, what was answered of it, and its score
    for (const [hash, act, dice, words] of [
        ["#drill=fifteen&seed=5&ask=play&level=hard", playLast, 40, ["Drill: All fifteen checkers, Play, hard", "loses", "best is"]],
        ["#drill=few&seed=5&ask=play", `for (let place = 0; place < 20; place += 1) ${click("next question")}`, 40,
            ["Drill: Two to four checkers, Play", "Seed 5"]],
        ["#drill=all&seed=5&ask=effective", write("estimate", "60", "tell"), 0,
            ["What is the EPC?", "You said 60.000", "It is"]],
    ]) {
        const page = await browser.open(address + hash);
        await page.until(dice ? MAKING : 'document.querySelector("[data-key=estimate]") && document.querySelector(".drill-printed li")');
        await page.value(act);
        await wait(100);
        const [text, boards, thrown, others] = await printed(page);
        equal(`${hash} on paper`, [boards.length, thrown, others, words.filter((word) => !text.includes(word))],
            [20, dice, [], []]);
        await pages(page, hash, text.includes("Answers") ? 2 : 1);
        await page.close();
    }
    // a class's sheet, and the key on a page of its own
    const ofClass = await browser.open(`${address}#teacher`);
    await ofClass.until(`document.body.dataset.ready && document.querySelector('${keyed("sheet")}')`);
    await ofClass.value(write("positions", "2,2,2,2,2,2 31\n0,0,0,1,0,1 52", "sheet"));
    await ofClass.there(".key li");
    await pages(ofClass, "a sheet", 2);
    const [sheet, ...drawn] = await printed(ofClass);
    equal("a class's sheet on paper", [drawn, ["Name", "Key", "6/1 4/2"].filter((word) => !sheet.includes(word))],
        [[[12, 2], 4, []], []]);
    // each lesson of the page, whole: its title, and of each step the board, the text, the question, the dice and the
    // answer
    const { lessons } = readLessons(readFileSync(new URL("../../web/lessons.txt", import.meta.url), "utf8"));
    for (const [number, { title, steps }] of few([...lessons.entries()], 2)) {
        const page = await browser.open(`${address}#lesson=${number + 1}`);
        await page.until('document.body.dataset.ready && document.querySelector("#printed h2")');
        await pages(page, title, 1);
        const [text, boards, dice, others] = await printed(page);
        equal(`${title} on paper`, [boards, dice, others, [title, ...steps.flatMap((step) => [step.text, step.ask, step.answer])]
            .filter((part) => !text.includes(part))], [steps.map(({ points }) => points.reduce((sum, count) => sum + count, 0)),
            2 * steps.filter(({ roll }) => roll).length, [], []]);
        await page.close();
    }
}

// What is wrong in what an open page draws, read back from it: texts that are cut off, lie over
// each other or under something else, things to press that do, and shapes of a board that leave it
// or its points. What is fixed to the window may lie over what is scrolled under it.
const LAID_OUT = `(() => {
    const [faults, counts] = [[], { texts: 0, things: 0, shapes: 0 }];
    const named = (element) => (element.dataset?.key || element.id || element.getAttribute("class") || element.tagName.toLowerCase());
    const isDrawn = (element) => {
        if (element.closest(".heard, dialog:not([open]), script, style, noscript, option")) return false;
        for (let at = element; at; at = at.parentElement) if (getComputedStyle(at).clipPath !== "none") return false;
        const { width, height } = element.getBoundingClientRect();
        return width > 1 && height > 1 && element.checkVisibility({ visibilityProperty: true });
    };
    const isFixed = (element) => {
        for (let at = element; at; at = at.parentElement) if (["fixed", "sticky"].includes(getComputedStyle(at).position)) return true;
        return false;
    };
    const meets = (one, other, by = 1) => one.left < other.right - by && other.left < one.right - by && one.top < other.bottom - by && other.top < one.bottom - by;
    // where something is looked at: not under what is fixed, or scrolled away in a part of the page
    const isSeen = (element, { left, top, right, bottom }, isTold = true) => {
        const [x, y] = [(left + right) / 2, (top + bottom) / 2];
        if (x < 0 || y < 0 || x >= innerWidth || y >= innerHeight) return false;
        for (let at = element.parentElement; at; at = at.parentElement) {
            const box = at.getBoundingClientRect();
            if (["auto", "scroll"].includes(getComputedStyle(at).overflowY) && (y < box.top || y > box.bottom)) return false;
        }
        const over = document.elementFromPoint(x, y);
        if (!over || over.contains(element) || element.contains(over) || element.closest("svg")?.contains(over) || element.closest("label")?.contains(over)) return true;
        if (isTold && !isFixed(over)) faults.push(named(element) + " lies under " + named(over));
        return false;
    };

    // the letters of each line, without the room above and below them
    const letters = [];
    const walker = document.createTreeWalker(document.body, NodeFilter.SHOW_TEXT);
    for (let node = walker.nextNode(); node; node = walker.nextNode()) {
        const element = node.parentElement;
        if (!node.data.trim() || !isDrawn(element)) continue;
        const range = document.createRange();
        for (const { index, 0: word } of element.closest("svg") ? [] : node.data.matchAll(/[A-Za-z]{2,}/g)) {
            range.setStart(node, index);
            range.setEnd(node, index + word.length);
            if (new Set([...range.getClientRects()].map(({ top }) => Math.round(top))).size > 1) faults.push('"' + word + '" is broken');
        }
        range.selectNodeContents(node);
        for (const { left, top, right, bottom } of element.closest("svg") ? [element.getBoundingClientRect()] : range.getClientRects()) {
            if (right - left < 1) continue;
            const inset = 0.24 * (bottom - top);
            const box = { left, top: top + inset, right, bottom: bottom - inset };
            const text = node.data.trim().slice(0, 30);
            counts.texts += 1;
            if (left < -1 || right > document.documentElement.clientWidth + 1) faults.push('"' + text + '" leaves the window');
            for (let at = element; at && at !== document.body; at = at.parentElement) {
                const { overflowX, overflowY } = getComputedStyle(at);
                const around = at.getBoundingClientRect();
                const isHolder = at.matches("button, a.button, .figure, label, select, th, td:not(.bar)");
                if ((isHolder || overflowX !== "visible") && (left < around.left - 1 || right > around.right + 1)) faults.push('"' + text + '" is cut off by ' + named(at));
                if ((isHolder || ["hidden", "clip"].includes(overflowY)) && (box.top < around.top - 1 || box.bottom > around.bottom + 1)) faults.push('"' + text + '" is cut off above or below by ' + named(at));
            }
            if (isSeen(element, box)) letters.push({ node, text, box });
        }
    }
    for (const [place, one] of letters.entries()) {
        for (const other of letters.slice(place + 1)) {
            if (one.node !== other.node && meets(one.box, other.box)) faults.push('"' + one.text + '" lies over "' + other.text + '"');
        }
    }

    // what one presses: whole in the window's width, and none over another
    const things = [...document.querySelectorAll("button, input, select, textarea, summary, main a, [role=spinbutton], .to-play [role=button]")].filter(isDrawn);
    counts.things = things.length;
    const boxes = things.map((thing) => ({ thing, box: thing.getBoundingClientRect() }));
    for (const { thing, box } of boxes) if (box.left < -1 || box.right > document.documentElement.clientWidth + 1) faults.push(named(thing) + " leaves the window");
    const seen = boxes.filter(({ thing, box }) => isSeen(thing, box, false));
    for (const [place, { thing, box }] of seen.entries()) {
        for (const other of seen.slice(place + 1)) {
            const isApart = thing.contains(other.thing) || other.thing.contains(thing) || isFixed(thing) !== isFixed(other.thing);
            if (!isApart && meets(box, other.box)) faults.push(named(thing) + " lies over " + named(other.thing));
        }
    }

    // no text under a field, such as the name of the field
    for (const { node, text, box } of letters) {
        for (const other of seen) {
            if (other.thing.matches("input, select, textarea") && !other.thing.contains(node) && !isFixed(other.thing) && meets(box, other.box)) faults.push('"' + text + '" lies under ' + named(other.thing));
        }
    }

    // what a board has: within it, and each checker within its point
    for (const board of [...document.querySelectorAll("svg")].filter(isDrawn)) {
        const around = board.getBoundingClientRect();
        for (const shape of board.querySelectorAll("circle:not(.dragged), rect, text, polygon, .way")) {
            const box = shape.getBoundingClientRect();
            counts.shapes += 1;
            if (box.left < around.left - 1 || box.right > around.right + 1 || box.top < around.top - 1 || box.bottom > around.bottom + 1) faults.push((shape.getAttribute("class") || shape.tagName) + " leaves " + named(board));
        }
        const wedges = [...board.querySelectorAll(".wedge")].map((wedge) => wedge.getBoundingClientRect());
        for (const checker of wedges.length > 0 ? board.querySelectorAll("circle.checker") : []) {
            const box = checker.getBoundingClientRect();
            if (!wedges.some(({ left, right }) => box.left >= left - 1 && box.right <= right + 1)) faults.push("a checker stands between the points of " + named(board));
        }
        for (const tally of board.querySelectorAll(".tally")) {
            const box = tally.getBoundingClientRect();
            if (![...board.querySelectorAll(".checker")].some((checker) => {
                const { left, top, right, bottom } = checker.getBoundingClientRect();
                return box.left >= left - 1 && box.right <= right + 1 && box.top >= top - 1 && box.bottom <= bottom + 1;
            })) faults.push("a tally isn't on a checker of " + named(board));
        }
    }
    return { faults: [...new Set(faults)], counts };
})()`;

const ALL_SIZES = [[360, 780], [1180, 800], [320, 568], [844, 390], [1280, 800], [1920, 1080]];

// What is pictured: the name, the address, what is waited for, what is done then, and what is waited for after that; and
// what else there is of it: what runs before, and in which sizes it is looked at beside the first two.
const PICTURED = [
    ["start", TEACHING, ".plays .cost", ""],
    ["lesson", "#lesson=3", "#board .source", ""],
    ["answer", "#lesson=1", keyed("answer"), click("answer")],
    ["beginning", "#at=0,0,0,3,5,7&roll=22", ".plays .cost", ""],
    ["beginning lesson", "#lesson=16", keyed("answer"), click("answer"), ".figures"],
    ["beginning play", "#lesson=16&step=4", "#board .source", touchBoard, "#board .target"],
    ["question", "#drill=all&seed=31&ask=play&level=hard", "#board .source", touchBoard, "#board .target", { sizes: ALL_SIZES }],
    ["drill", "#drill=all&seed=31&ask=play&level=hard", "#board .source", playLast, "#reasons figure", { sizes: ALL_SIZES }],
    ["estimate", "#drill=all&seed=31&ask=effective", ".estimate input", write("estimate", "40", "tell"), "#numbers .verdict"],
    ["no estimate", "#drill=all&seed=31&ask=wastage", ".estimate input", click("tell"), "#estimate-why p"],
    ["estimating", "#lesson=17&step=4", ".worth .now", write("estimate", "57", "tell"), "#coach .verdict"],
    ["own rule", "#lesson=17&step=6", ".worth .now", "scrollTo(0, 400)"],
    ["both sides", "#at=1,0,0,0,0,0", ".figures", `document.getElementById("counts").value =
        "XGID=-ABC--D------------a-b--c-:0:0:-1:12:0:0:0:0:10"; document.getElementById("counts").dispatchEvent(new Event("change"))`,
    ".sides"],
    ["refusal", "#at=1,0,0,0,0,0", ".figures", 'location.hash = "#at=0,0,0,0,0,15&lesson=99"', ".refusal",
        { before: machine(500, { bad: 9, prefix: NO_MEMORY }) }],
    ["guess", "#at=2,2,2,2,2,2&roll=31&guess=1", "#board .source", touchBoard, "#board .target"],
    ["editor", "#at=0,0,0,1,0,1&t=Two checkers&p=0,0,0,1,0,1&c=Four and six&p=3,0,0,0,0,0&c=Three on the ace point",
        keyed("draft begin"), click("draft begin"), "#draft label"],
    ["home", "", keyed("lesson 1"), click("all that is kept")],
    ["words", "#lesson=1", ".words summary", 'document.querySelector(".words summary").click()'],
    ["review", "#list=2,2,2,2,2,2,31.0,0,0,1,0,1,52&ask=play", "#board .source", `(async () => {
        while (!document.querySelector(".reviewed")) {
            if (document.querySelector("#board .source")) document.querySelector(".plays button:last-child")?.click();
            await new Promise((keep) => setTimeout(keep, 50));
            document.querySelector('[data-key="next question"]')?.click();
        }
    })()`, ".reviewed .signs", { sizes: ALL_SIZES }],
    ["teacher", "#teacher", keyed("sheet"), write("positions", "2,2,2,2,2,2 31\n0,0,0,1,0,1 52\n1,0,0,0,0,0 65", "sheet"),
        ".key li", { sizes: ALL_SIZES }],
    ["results", "#teacher", keyed("show results"), write("results", ["Ada", "Bo with a name as long as names can be, and no longer one"]
        .map((name) => tokenOf("all", 7, "play", "hard", "", encodeURIComponent(name), "0,56,120", "6o,51_42,62(2)_51(2)"))
        .join("\n"), "show results"), ".pupils.questions", { sizes: ALL_SIZES }],
    ["games", "#games", keyed("read match"), write("match text",
        readFileSync(join(ROOT, "python/tests/matches/short.mat"), "utf8"), "read match"),
    "body:has(#bar[hidden]) #games .reviewed li", { sizes: ALL_SIZES }],
    ["print", "#lesson=3", "#printed h2", "print"],
    ["embedded", "#view=board&at=7,4,2,0,0,0", ".figures", ""],
];

// The pictures of docs/, by the names of what is pictured: docs/pictures.txt has of each a sum of what is to be read and
// pressed there, so that none is of another page. `make pictures` takes them anew.
const OF_DOCS = { "start 1180": "page", "start 360": "page-telephone", "lesson 1180": "page-lesson", "drill 1180": "page-drill" };
const WORDS_THERE = `[...document.querySelectorAll("h1, h2, h3, label, button, #lessons a")].map((it) => it.innerText.trim()).join("\\n")`;

// Pictures of what the page is used for, on a telephone and on a desk: nothing in them is cut off,
// lies over something else, or is too faint to read. The start is looked at in more widths and
// colours.
async function takePictures(browser) {
    const all = { texts: 0, things: 0, shapes: 0, contrasts: 0, names: 0 };
    const sums = [];
    const look = async (page, name) => {
        const { faults, counts } = await page.value(LAID_OUT);
        for (const fault of faults.slice(0, 12)) wrong(`${name}: ${fault}`);
        for (const [what, count] of Object.entries(counts)) all[what] += count;
        if (pictures) writeFileSync(join(pictures, `${name.replaceAll(" ", "-")}.png`), await page.picture(false));
    };
    const audited = async (page, name, isStart) => {
        const { faults, compared, labels } = await audit(page, isStart);
        for (const fault of faults) wrong(`${name}: ${fault}`);
        all.contrasts += compared;
        all.names += labels;
    };
    const brief = ["start", "lesson", "drill", "editor", "print", "embedded"];
    const pictured = PICTURED.filter(([what]) => !isBrief || brief.includes(what));
    for (const [what, hash, there, act, then = "body", { before, sizes = ALL_SIZES.slice(0, 2) } = {}] of pictured) {
        for (const [[width, height], colours] of few(sizes, 0, 1).flatMap((size) => [[size, "light"], [size, "dark"]])) {
            const isFirst = colours === "light" && ALL_SIZES.slice(0, 2).some(([wide]) => wide === width);
            const name = `${what} ${width}${isFirst ? "" : ` ${colours}`}`;
            const page = await browser.open(address + encodeURI(decodeURI(hash)),
                { width, height, colours, before, mobile: width < 900 });
            await page.until(`document.body.dataset.ready && document.querySelector(${JSON.stringify(there)})`);
            if (act === "print") await page.send("Emulation.setEmulatedMedia", { media: "print" });
            else if (act) await page.value(act);
            await page.until(`document.querySelector(${JSON.stringify(then)}) && !(document.querySelector("#numbers, #steering")?.textContent.includes("\u2026"))`);
            await wait(200);
            if (colours === "light") await look(page, name);
            else if (pictures && process.env.DARK) writeFileSync(join(pictures, `${name.replaceAll(" ", "-")}.png`), await page.picture(false));
            if (isFirst && OF_DOCS[name]) {
                const sum = createHash("sha256").update(await page.value(WORDS_THERE)).digest("hex");
                sums.push(`${OF_DOCS[name]}.png ${sum.slice(0, 16)}`);
            }
            equal(`${name}: nothing stands out`, await page.value("document.documentElement.scrollWidth"), width);
            await audited(page, name, false);
            await page.close();
        }
    }
    for (const [width, height] of few([[360, 780], [768, 1024], [1180, 800], [1920, 1080]], 0)) {
        for (const colours of ["light", "dark", "forced"]) {
            const page = await browser.open(address + TEACHING, { width, height, colours, mobile: width < 900 });
            await page.until(`${READY} && document.querySelector(".plays") && ${KNOWN}`);
            equal(`nothing stands out at ${width}, ${colours}`,
                await page.value("document.documentElement.scrollWidth"), width);
            await audited(page, `${width} wide, ${colours}`);
            if (pictures) writeFileSync(join(pictures, `${width}-${colours}.png`), await page.picture(false));
            if (pictures) writeFileSync(join(pictures, `${width}-${colours}-whole.png`), await page.picture(true));
            await page.close();
        }
    }
    if (pictures) writeFileSync(join(pictures, "pictures.txt"), `${sums.sort().join("\n")}\n`);
    else equal("the pictures of docs/ are of this page", sums.sort().join("\n"), readFileSync(join(ROOT, "docs/pictures.txt"), "utf8").trim());
    console.log(`page: ${all.texts} texts, ${all.things} things to press and ${all.shapes} shapes were in their places, ${all.contrasts} contrasts enough, and ${all.names} names right`);
}

// The parts in which Chromium alone is driven, since a script runs first there and media are set.
const OWN = {
    times: async (browser) => driveTimes(await driveBoard(browser)),
    files: async (browser) => {
        const page = await known(browser, "#at=0,0,0,4,4,1", { before: SLOW });
        await driveGuess(page);
        await driveFiles(page);
    },
    wider: driveWider, moments: driveMoments, older: driveOlder, hosted: driveHosted, touch: driveTouch,
        finger: driveFinger, print: drivePrint,
    pictures: takePictures, drill: driveDrill, sight: driveSight, lessons: driveLessons,
        still: driveStill, clicks: driveClicks, games: driveGames, session: driveSession,
};

// Those in which each browser is.
const ALL = {
    board: driveBoard, pasted: drivePasted, played: drivePlayed, guessed: driveGuessed, keyboard: driveKeyboard,
        sum: driveSum, lesson: driveLesson, history: driveHistory, copy: driveCopy, saved: driveSaved,
};

function drive(browser) {
    const isChromium = browser.name === "Chromium";
    const whole = isChromium ? { ...OWN, ...ALL, board: null } : ALL;
    for (const [name, body] of Object.entries(whole)) {
        if (body === null || chosen?.includes(name) === false || left?.includes(name)) continue;
        part(`${name}, in ${browser.name}`, async () => {
            browserName = browser.name;
            await body(browser);
        });
    }
}

const kinds = process.env.BROWSERS?.split(" ") || ["chromium", "firefox"];
for (const kind of kinds.filter((name) => !installed(name))) {
    test(`in ${kind}`, { skip: `${kind} is not installed, and can't be had from Debian` }, () => {});
}
const browsers = await started(kinds.filter((name) => installed(name)));
browsers.forEach(drive);
after(() => Promise.all(browsers.map((browser) => browser.close())));
