// The package for JavaScript, as installed: it answers what the program is asked, every
// position of 8 pips and a thousand of 44 and of 58, by each call, by lines and in whole tables;
// board files, beside replies that were computed outside and beside databases;
// hostile arguments of each kind; a thousand openings in one process; positions in other
// notations, which GNU Backgammon has written and read; its types under tsc --strict, with lines
// that may not compile; the examples of docs/embedding.md and of js/README.md; and in the browsers
// that are installed, as a module in a page and in a worker, and in a bundle of esbuild. What is
// tried is what its archive has.
import assert from "node:assert/strict";
import { spawnSync } from "node:child_process";
import {
    cpSync, existsSync, mkdirSync, mkdtempSync, readdirSync, readFileSync, rmSync, writeFileSync,
} from "node:fs";
import { tmpdir } from "node:os";
import { join } from "node:path";
import { after, test } from "node:test";
import { pathToFileURL } from "node:url";
import { installed } from "./browser.mjs";
import { modulesFolder, pagePath, programPath, ROOT, testedFolder } from "./given.mjs";

const WIDE = "--experimental-wasm-memory64";
const TYPED = "XGID=-C--B-A------------d--cba-:0:0:-1:21:0:0:0:0:10 AAAA2vEAAAAAAA:cAkFAAAAAAAE top 21; 38; "
    + "malformed; 5; 4; 6/4 4/3; 0,0,1,0,0,0; 0; 0,0,0,0,0,1; 1.000; 2; 101/24; 3/4; true; 6.208; 0.75; damaged too-short "
    + "header too-short; 10208; true; 1250; "
    + '[{"numerator":"5","denominator":"4","value":1.25,"thousandths":1250},{"numerator":"0","denominator":"1","value":0}]\n';
// what belongs in the package, and nothing else
const BELONGS = [
    "README.md", "THIRD-PARTY-LICENCES.txt", "package.json", "wide.wasm", "narrow.wasm",
    ...["bearoff", "matches", "notation"].flatMap((name) => [`${name}.js`, `${name}.d.ts`, `${name}.d.cts`]),
    ...["abilities", "checks", "database", "engine", "errors", "fractions", "given", "kinds", "modules", "numbers"]
        .map((name) => `${name}.js`),
].sort();
const PRINTED = "1.250 rolls, 10.208 pips\n4/2 2/1\n";
const version = readFileSync(join(ROOT, "VERSION"), "utf8").trim();
const archive = `bearoff-${version}.tgz`;
const work = mkdtempSync(join(tmpdir(), "bearoff-package-"));
after(() => rmSync(work, { recursive: true, force: true }));

// Runs a command, which has to end with status 0, and tells what it wrote.
function run(words, options = {}) {
    const [command, ...rest] = words;
    const done = spawnSync(command, rest, { encoding: "utf8", maxBuffer: 2 ** 28, ...options });
    const told = `ran:  ${words.join(" ")}\ncame: status ${done.status ?? done.error ?? done.signal}\n`;
    assert.equal(done.status, 0, `${told}${`${done.stdout}${done.stderr}`.slice(-3000)}`);
    return done.stdout;
}

function unpacked(file, folder) {
    mkdirSync(folder, { recursive: true });
    run(["tar", "-xzf", file, "-C", folder]);
    return join(folder, "package");
}

const has = (command) => spawnSync("sh", ["-c", `command -v ${command}`]).status === 0;
const skip = (command) => (has(command) ? false : `${command} is not installed, and can't be had from Debian`);

const made = ["one", "two"].map((name) => join(work, name));
made.forEach((folder) => run([join(ROOT, "packaging/js"), modulesFolder(), folder]));
const folder = unpacked(join(made[0], archive), join(work, "unpacked"));
const site = join(work, "site");
mkdirSync(join(site, "node_modules"), { recursive: true });
cpSync(folder, join(site, "node_modules/bearoff"), { recursive: true });
cpSync(join(testedFolder(), "race.db"), join(site, "race.db"));
const typed = readdirSync(join(ROOT, "js/tests")).filter((name) => name.startsWith("typed"));
for (const name of [...typed, "tsconfig.json"]) cpSync(join(ROOT, "js/tests", name), join(site, name));
writeFileSync(join(site, "package.json"), '{ "type": "module" }\n');

// The blocks of code of a page, one behind the other.
function blocks(page) {
    const text = readFileSync(join(ROOT, page), "utf8");
    const found = [...text.matchAll(/^```js\n(.*?)^```$/gms)].map(([, block]) => block);
    assert.notEqual(found.length, 0, `${page} has no example`);
    return found.join("");
}

// A script of js/tests, over the package, the program and its files.
const script = (name, words = [], flags = []) => run(
    [process.execPath, ...flags, join(ROOT, "js/tests", name), folder, programPath(), testedFolder(), ...words]);

test("two archives are the same", () => {
    const [one, two] = made.map((place) => readFileSync(join(place, archive)));
    assert.ok(one.equals(two));
});

test("the archive has the files of the folder", () => {
    run(["diff", "-r", folder, join(made[0], "package")]);
});

test("it has what belongs there, and nothing else", () => {
    assert.deepEqual(readdirSync(folder).sort(), BELONGS);
});

test("the licences of others", () => {
    const licences = readFileSync(join(ROOT, "packaging/third-party-licences.txt"), "utf8");
    assert.equal(readFileSync(join(folder, "THIRD-PARTY-LICENCES.txt"), "utf8"), licences);
    assert.ok(readFileSync(pagePath(), "utf8").endsWith(`<!--\n${licences}-->\n</html>\n`));
});

test("npm would pack what belongs there", { skip: skip("npm") }, () => {
    const told = run(["npm", "pack", "--dry-run", "--offline", "--json"],
        { cwd: join(made[0], "package"), env: { ...process.env, HOME: work } });
    assert.deepEqual(JSON.parse(told)[0].files.map(({ path }) => path).sort(), BELONGS);
});

test("npm packs the same files", { skip: skip("npm") }, () => {
    run(["npm", "pack", "--offline", "--silent", "--pack-destination", work],
        { cwd: join(made[0], "package"), env: { ...process.env, HOME: work } });
    run(["diff", "-r", folder, unpacked(join(work, archive), join(work, "npm"))]);
});

test("what it answers", () => { script("answers.mjs"); });
test("what it refuses", () => { script("hostile.mjs"); });
test("the order of refusals", () => { script("refusals.mjs"); });
test("board files", () => { script("boards.mjs"); });
test("tables, and their numbers as doubles", () => { script("tables.mjs"); });

test("what a database is opened from, and fractions as texts", () => { script("opened.mjs"); });
test("its memory", () => { script("memory.mjs"); });
test("fractions, lists and closing", () => { script("fractions.mjs"); });
test("other notations", () => { script("notation.mjs"); });
test("what GNU Backgammon says of notations is there", {
    skip: existsSync("/usr/games/gnubg") ? false : skip("gnubg"),
}, () => {
    assert.ok(existsSync(join(testedFolder(), "gnubg_says")), "gnubg_says is missing: run make tested");
});

// where node has memories of 64-bit addresses if it is told to, the other form of the module too
const form = (...flags) => spawnSync(process.execPath, [...flags, "-e",
    `import(${JSON.stringify(pathToFileURL(join(folder, "abilities.js")).href)}).then((it) => console.log(it.abilities()))`],
{ encoding: "utf8" }).stdout.trim();
const hasBoth = form() === "narrow" && form(WIDE) === "wide";
const one = { skip: hasBoth ? false : "this node has one form of memories, so one of the modules is tried" };
test("what it answers with wide addresses", one, () => { script("answers.mjs", ["8", "44"], [WIDE]); });
test("what it refuses with wide addresses", one, () => { script("hostile.mjs", [], [WIDE]); });
test("board files with wide addresses", one, () => { script("boards.mjs", [], [WIDE]); });

test("its types", () => {
    run(["tsc", "--project", "."], { cwd: site });
    assert.equal(run([process.execPath, "typed.js"], { cwd: site }), TYPED);
});

const [major, minor] = process.versions.node.split(".").map(Number);
const requires = major > 22 || (major === 22 && minor >= 12) || (major === 20 && minor >= 19);
test("what is written as CommonJS", {
    skip: requires ? false : "this node gives CommonJS no module, so that is compiled and not run",
}, () => {
    run(["tsc", "--project", "."], { cwd: site });
    assert.equal(run([process.execPath, "typed_common.cjs"], { cwd: site }),
        '1.25 malformed {"numerator":"5","denominator":"4","value":1.25,"thousandths":1250}\n');
});

test("the example of docs/embedding.md", () => {
    writeFileSync(join(site, "example.js"), blocks("docs/embedding.md"));
    assert.equal(run([process.execPath, "example.js"], { cwd: site }), PRINTED);
});

test("the examples of js/README.md", () => {
    // one behind the other: a line that tells its answer has it
    const told = blocks("js/README.md").replace(/^(?!const )(.*); \/\/ (.*)$/gm,
        "assert.deepStrictEqual(structuredClone($1), $2);");
    const tables = "assert.deepStrictEqual([means, points, shares].map((table) => table.length / 26314), [1, 6, 23]);";
    const text = `import assert from "node:assert";\n${told}${tables}\n`;
    assert.equal(text.match(/^assert/gm).length, 16, "js/README.md has no examples that tell fifteen answers");
    writeFileSync(join(site, "readme.js"), text);
    assert.equal(run([process.execPath, "readme.js"], { cwd: site }), "");
});

test("in browsers", {
    skip: installed() || installed("firefox") ? false : "no browser is installed, and none can be had from Debian",
}, () => { script("browser.mjs"); });
