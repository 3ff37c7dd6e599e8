// Loads the package as a module into each browser that is installed, from a local server: in a page and in a module worker,
// which posts what it was answered, and as esbuild bundles it for browsers; in Chromium also where memories have no addresses
// of 64 bits. browser.mjs PACKAGE PROGRAM FOLDER. Says what went wrong, and fails.
import { spawnSync } from "node:child_process";
import { createServer } from "node:http";
import { extname } from "node:path";
import { started } from "../../tests/page/browser.mjs";
import { bytesOf, end, equal, linesOf, packageBytes, wrong } from "./given.mjs";

const TYPES = { ".js": "text/javascript", ".wasm": "application/wasm", "/": "text/html; charset=utf-8" };

// What the page asks, and its worker: some lines, a table, a refusal, and a database that is built.
const ASKED = `
import { asDoubles, Bearoff } from "/package/bearoff.js";

export async function told(words) {
    const database = await Bearoff.open(await (await fetch("/eight")).arrayBuffer(), words);
    const lines = await (await fetch("/questions")).json();
    const replies = lines.map((line) => database.answer(line));
    const means = asDoubles(database.means());
    const built = await Bearoff.build(8, words);
    const bytes = built.bytes();
    const same = bytes.length === database.bytes().length && bytes.every((byte, place) => byte === database.bytes()[place]);
    let code = "";
    try { database.mean([0, 0, 0, 0, 0, 9]); } catch (error) { code = error.code; }
    database.close();
    const six = [0, 0, 0, 0, 0, 1];
    return { replies, six: means[built.rank(six)].toFixed(12), same, code, epc: built.epc(six) };
}`;

const WORKER = `
import { told } from "/asked.js";
import { loadModule } from "/package/bearoff.js";

onmessage = async ({ data }) => {
    const isHanded = data.module !== undefined;
    postMessage(await told(isHanded ? data : undefined).catch((error) => String(error)));
};`;

const PAGE = `<!doctype html><meta charset="utf-8"><title>bearoff</title><link rel="icon" href="data:,">
<script type="module">
import { loadModule } from "/package/bearoff.js";
const { told } = await import(new URLSearchParams(location.search).get("asked"));

const asked = (words) => new Promise((keep) => {
    const worker = new Worker("/worker.js", { type: "module" });
    worker.onmessage = ({ data }) => keep(data);
    worker.onerror = ({ message }) => keep(message);
    worker.postMessage(words);
});
const fail = (error) => String(error);
const done = { page: await told().catch(fail), worker: await asked({}), handed: await asked({ module: await loadModule() }) };
for (const it of Object.values(done)) if (it.epc) it.epc = it.epc.value;
window.done = done;
</script>`;

// the same script with the package in it, as it lies beside the modules' files
const { stdout: bundle, stderr: refused } = spawnSync("esbuild", ["--bundle", "--platform=browser", "--format=esm"],
    { input: ASKED.replace("/package/", "./"), cwd: process.argv[2], encoding: "utf8" });
equal("what esbuild says", refused, "");
const lines = linesOf("questions_8").slice(300, 500);
const replies = linesOf("replies_8").slice(300, 500);
const fetched = [];
const server = createServer((request, response) => {
    const path = new URL(request.url, "http://localhost").pathname;
    fetched.push(path);
    const given = {
        "/": PAGE, "/asked.js": ASKED, "/package/asked.js": bundle, "/worker.js": WORKER, "/questions": JSON.stringify(lines), "/eight": bytesOf("eight"),
    }[path] ?? (path.startsWith("/package/") ? packageBytes(path.slice("/package/".length)) : null);
    response.writeHead(given === null ? 404 : 200, { "Content-Type": TYPES[extname(path)] || TYPES[path] || "application/octet-stream" });
    response.end(given ?? "");
}).listen(0, "127.0.0.1");
await new Promise((keep) => server.on("listening", keep));
const address = `http://127.0.0.1:${server.address().port}/`;

const browsers = await started();
try {
    // the worker that is handed no module finds out for itself what can run there
    const NARROWED = "const validate = WebAssembly.validate; WebAssembly.validate = (bytes) => bytes.length !== 13 && validate(bytes);";
    for (const browser of browsers) for (const [how, before, form, asked] of [
        ["as it is", "", "wide", "/asked.js"],
        ["narrowed", NARROWED, "narrow", "/asked.js"],
        ["in a bundle", "", "wide", "/package/asked.js"],
        ["in a narrowed bundle", NARROWED, "narrow", "/package/asked.js"],
    ]) {
        const [name, isChromium] = [`${browser.name}, ${how}`, browser.name === "Chromium"];
        if (before && !isChromium) continue;
        fetched.length = 0;
        const page = await browser.open(`${address}?asked=${asked}`, { before });
        await page.until("window.done", 30000).catch((error) => wrong(`${name}: ${error.message}; ${page.troubles().join()}; ${fetched.join(" ")}`));
        const done = (await page.value("window.done")) || {};
        for (const [where, is] of Object.entries(done)) {
            equal(`${name}, the ${where}, replies that are others`, replies.filter((reply, place) => reply !== is.replies?.[place]).length, 0);
            equal(`${name}, the ${where}`, JSON.stringify(is.replies ? { ...is, replies: is.replies.length } : is), JSON.stringify({ replies: 200, six: "1.250000000000", same: true, code: "over-bound", epc: 245 / 24 }));
        }
        if (isChromium) equal(`${name}, the form that the page fetched`, fetched.includes(`/package/${form}.wasm`), true);
        equal(`${name}, what went wrong`, page.troubles().join(), "");
    }
} finally {
    await Promise.all(browsers.map((browser) => browser.close()));
    server.close();
}
end();
