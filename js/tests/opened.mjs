// What a database is opened from, and the texts of what it is not; fractions as texts.
// opened.mjs PACKAGE PROGRAM FOLDER
import { bytesOf, end, equal, partOf } from "./given.mjs";

const { asNumber, Bearoff } = await partOf("bearoff.js");
const eight = bytesOf("eight");
const buffer = eight.buffer.slice(eight.byteOffset, eight.byteOffset + eight.length);

const said = async (make) => {
    try {
        return `none, but ${await make()}`;
    } catch (error) {
        return `${error.name}: ${error.message}`;
    }
};

const blob = new Blob([eight]);
const sources = {
    "a buffer": buffer,
    "a view": eight,
    "a view of words": new Uint16Array(buffer),
    "a blob": blob,
    "a part of a blob": new Blob(["before", eight, "behind"]).slice(6, 6 + eight.length),
    "an answer": new Response(eight),
    "an answer of a blob": new Response(blob),
    "what gives a buffer": { arrayBuffer: async () => buffer },
};
if (globalThis.File) sources["a file"] = new File([eight], "eight");
if (globalThis.SharedArrayBuffer) {
    sources["a shared buffer"] = new SharedArrayBuffer(eight.length);
    new Uint8Array(sources["a shared buffer"]).set(eight);
}
for (const [name, source] of Object.entries(sources)) {
    const database = await Bearoff.open(source);
    equal(`${name}, its positions`, database.positionCount, 64);
    equal(`${name}, its bytes`, Buffer.compare(database.bytes(), eight), 0);
    database.close();
}

const used = new Response(eight);
await used.arrayBuffer();
equal("an answer that was read", await said(() => Bearoff.open(used)), "TypeError: the answer was read before");

const MOST = 15060844; // bytes of a right file

// What comes without an end is read no further than is needed to refuse it, with the refusal of all of it.
function endless(first, part) {
    const source = { given: 0, isCancelled: false };
    const pull = (controller) => {
        const bytes = source.given === 0 ? first : part;
        source.given += bytes.length ?? 0;
        if (source.given > 4 * MOST) controller.error(new Error("read on"));
        else controller.enqueue(bytes);
    };
    const cancel = () => { source.isCancelled = true; };
    return [new Response(new ReadableStream({ pull, cancel }, { highWaterMark: 0 })), source];
}
for (const [name, first, wanted] of [["zeros", new Uint8Array(65536), "bad-magic"], ["a database with more behind it", eight, "bad-length"]]) {
    const [answer, source] = endless(first, new Uint8Array(65536));
    const fault = await Bearoff.open(answer).then(() => "none", (error) => error.fault ?? String(error));
    equal(`an answer without an end, of ${name}`, fault, wanted);
    equal(`what was read of ${name}`, source.given > MOST && source.given <= MOST + 65536 + eight.length, true);
    equal(`the rest of ${name}`, source.isCancelled, true);
}
const blobLike = { stream: () => endless(new Uint8Array(65536), new Uint8Array(65536))[0].body, arrayBuffer() { throw new Error("all of it"); } };
equal("a blob without an end", await Bearoff.open(blobLike).then(() => "none", (error) => error.fault ?? String(error)), "bad-magic");
// the longest file is right, and not with a byte behind it, in whatever parts they come
const longest = bytesOf("large.db");
equal("the longest file", longest.length, MOST);
const parts = (...bytes) => new Response(new ReadableStream({
    start(controller) {
        bytes.forEach((part) => controller.enqueue(new Uint8Array(part)));
        controller.close();
    },
}));
equal("it in two parts", (await Bearoff.open(parts(longest.subarray(0, 7), longest.subarray(7)))).bound, 58);
for (const source of [parts(longest, [0]), parts([...longest.subarray(0, 7)], longest.subarray(7), [0]), new Blob([longest, "x"])]) {
    equal("it with a byte behind it", await Bearoff.open(source).then(() => "none", ({ fault }) => fault), "bad-length");
}
for (const length of [MOST + 1, MOST + 70000]) {
    const long = new Uint8Array(length);
    long.set(eight);
    const faults = [];
    for (const source of [long, new Blob([long]), new Response(long)]) {
        faults.push(await Bearoff.open(source).then(() => "none", ({ code, line }) => `${code} ${line}`));
    }
    equal(`${length} bytes, as a view, a blob and an answer`, new Set(faults).size, 1);
    equal(`${length} bytes, the fault`, faults[0].startsWith("damaged"), true);
}
equal("an answer in parts of one byte", (await Bearoff.open(new Response(new ReadableStream({
    start(controller) {
        for (const byte of eight) controller.enqueue(new Uint8Array([byte]));
        controller.close();
    },
})))).positionCount, 64);
equal("an answer of empty parts", await said(() => Bearoff.open(endless(new Uint8Array(0), new Uint8Array(0))[0])),
    "TypeError: the stream of the file has more than 1000 empty parts");
equal("an answer that breaks off", await said(() => Bearoff.open(new Response(new ReadableStream({
    pull(controller) { controller.error(new RangeError("gone")); },
})))), "RangeError: gone");
equal("an answer of texts", await said(() => Bearoff.open(new Response(new ReadableStream({
    pull(controller) { controller.enqueue("eight"); },
})))), "TypeError: a file is read as bytes, and not as a string");
equal("an answer without a body", (await said(() => Bearoff.open(new Response()))).slice(0, 13), "DamagedError:");
equal("an answer without a file", await said(() => Bearoff.open(new Response("none", { status: 404, statusText: "Not Found" }))),
    "TypeError: no file came, but the answer 404 Not Found");
equal("a damaged blob", (await said(() => Bearoff.open(blob.slice(1)))).slice(0, 13), "DamagedError:");
for (const [wrong, named] of [[undefined, "undefined"], [null, "null"], ["eight", "a string"], [{}, "an object"], [[1], "a list"],
    [{ arrayBuffer: async () => "bytes" }, "an object"], [{ arrayBuffer: 1 }, "an object"]]) {
    equal(`the file ${named}`, await said(() => Bearoff.open(wrong)),
        `TypeError: a file is an ArrayBuffer, a view of one, a Blob or a Response, and not ${named}`);
}
equal("a database by new", await said(() => new Bearoff()), "TypeError: a database is made by Bearoff.open or Bearoff.build");
equal("a database by new, of bytes", await said(() => new Bearoff(eight)), "TypeError: a database is made by Bearoff.open or Bearoff.build");

for (const [wrong, text] of [[5, "a fraction is an object, and not 5"], [undefined, "a fraction is an object, and not undefined"],
    ["5/4", "a fraction is an object, and not a string"], [{}, "a numerator is a bigint, and not undefined"],
    [{ numerator: 5, denominator: 4 }, "a numerator is a bigint, and not 5"],
    [{ numerator: 5n, denominator: "4" }, "a denominator is a bigint, and not a string"]]) {
    equal(`the number of ${text}`, await said(() => asNumber(wrong)), `TypeError: ${text}`);
}

const database = await Bearoff.open(blob);
equal("a mean as a text", `${database.mean([0, 0, 0, 0, 0, 1])}`, "5/4");
equal("an effective pip count as a text", `${database.epc([0, 0, 0, 0, 0, 1])}`, "245/24");
equal("a whole number as a text", `${database.mean([1, 0, 0, 0, 0, 0])}`, "1");
equal("no loss as a text", `${database.moves([0, 0, 0, 0, 0, 1], [6, 6])[0].loss}`, "0");
equal("a share as a text", `${database.distribution([1, 0, 0, 0, 0, 0])[1]}`, `${36n ** 22n}/${36n ** 22n}`);
end();
