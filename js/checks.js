// What a caller may hand over. Each argument is read once, into a value of its own, before anything is done with it: so
// nothing of a wrong one reaches the module, and one that changes while it is read is only what was read.
import { MOST_FILE_BYTES } from "./kinds.js";

// Six counts and two dice are bytes in the module.
const MOST_BYTE = 255;
const MOST_RANK = 65535;
const MOST_SHOWN = 100;

// A stream that gives nothing may do so without an end.
const MOST_EMPTY_PARTS = 1000;

// How many characters a text may have that says a position, as a reader or another program has written it: many times as
// many as any such text. That is looked at before anything else is done with it.
export const MOST_TEXT = 1000;

// Whether a text has more. Its length alone counts some characters twice.
export const isTooLong = (text) =>
    text.length > MOST_TEXT && (text.length > 2 * MOST_TEXT || [...text].length > MOST_TEXT);

export const printable = (text) => text.replace(/[^ -~]/gu, "?");

// What a refusal shows of a text, on one line.
export function shown(text) {
    const line = printable(text.slice(0, 2 * MOST_TEXT).replace(/[ \t\r\n\u00a0]+/gu, " ").replace(/^ | $/gu, ""));
    return line.length <= MOST_SHOWN ? line : `${line.slice(0, MOST_SHOWN)}...`;
}

const isList = (value) => Array.isArray(value) || (ArrayBuffer.isView(value) && !(value instanceof DataView));

// What stands in the text of a refusal for a value that isn't what it has to be.
function named(value) {
    if (value === null) return "null";
    if (typeof value === "number") return String(value);
    if (typeof value === "object") return isList(value) ? "a list" : "an object";
    return typeof value === "undefined" ? "undefined" : `a ${typeof value}`;
}

function readWhole(value, name) {
    if (typeof value !== "number") throw new TypeError(`${name} is a number, and not ${named(value)}`);
    if (!Number.isInteger(value)) throw new RangeError(`${name} is a whole number, and not ${value}`);
    return value;
}

function readNatural(value, name, most) {
    if (readWhole(value, name) < 0 || value > most) throw new RangeError(`${name} is 0 to ${most}, and not ${value}`);
    return value;
}

// The members of a list, each read once.
function readList(value, length, what) {
    if (!isList(value)) throw new TypeError(`${what}, and not ${named(value)}`);
    if (value.length !== length) throw new TypeError(`${what}, and not ${value.length}`);
    const members = [];
    for (let place = 0; place < length; place++) members.push(value[place]);
    return members;
}

// Six counts, each a byte.
export function readPosition(value) {
    const counts = readList(value, 6, "a position is six counts");
    for (const count of counts) readNatural(count, "a count", MOST_BYTE);
    return counts;
}

// A die, as it fits the module: a whole number that no byte holds is none that a die shows, and so is 0.
function readDie(value) {
    const die = readWhole(value, "a die");
    return die >= 0 && die <= MOST_BYTE ? die : 0;
}

export function readRoll(value) {
    const [one, other] = readList(value, 2, "a roll is two dice");
    return [readDie(one), readDie(other)];
}

// A rank, as it fits the module: no database has one of its greatest number.
export const readRank = (value) => Math.min(readNatural(value, "a rank", Number.MAX_SAFE_INTEGER), MOST_RANK);

// A pip bound, as it fits the module.
export const readBound = (value) => Math.min(readNatural(value, "a bound", Number.MAX_SAFE_INTEGER), MOST_BYTE);

// A number of rolls, as it fits the module: from 33 rolls on all checkers are off, whatever stands.
export const readRolls = (value) => Math.min(readNatural(value, "a number of rolls", Number.MAX_SAFE_INTEGER), MOST_BYTE);

// A range of ranks: the first, and how many; all that follow where no count is told.
export function readRange(first, count, all) {
    const from = readNatural(first, "the first rank", Number.MAX_SAFE_INTEGER);
    const usual = Math.max(0, all - from);
    return [from, count === undefined ? usual : readNatural(count, "the number of ranks", Number.MAX_SAFE_INTEGER)];
}

export function readLine(value) {
    if (typeof value !== "string") throw new TypeError(`a line is a string, and not ${named(value)}`);
    return value;
}

// The numerator and the denominator of a fraction.
export function readNumbers(value) {
    if (typeof value !== "object" || value === null) throw new TypeError(`a fraction is an object, and not ${named(value)}`);
    return [["numerator", value.numerator], ["denominator", value.denominator]].map(([name, number]) => {
        if (typeof number !== "bigint") throw new TypeError(`a ${name} is a bigint, and not ${named(number)}`);
        return number;
    });
}

// A fraction, with numbers that fit into so many bits.
export function readFraction(value, bits) {
    const most = (1n << BigInt(bits)) - 1n;
    const numbers = readNumbers(value);
    ["numerator", "denominator"].forEach((name, place) => {
        const number = numbers[place];
        if (number < 0n || number > most) throw new RangeError(`a ${name} is 0 to 2^${bits} - 1, and not ${number}`);
    });
    return numbers;
}

const tagOf = (value) => Object.prototype.toString.call(value);

const isBuffer = (value) => ["[object ArrayBuffer]", "[object SharedArrayBuffer]"].includes(tagOf(value));

// What a stream gives, until it ends or has more bytes than any right file.
async function readStream(stream) {
    const [reader, bytes] = [stream.getReader(), new Uint8Array(MOST_FILE_BYTES + 1)];
    let [length, empty] = [0, 0];
    try {
        while (length < bytes.length) {
            const { done, value } = await reader.read();
            if (done) break;
            if (!(value instanceof Uint8Array)) throw new TypeError(`a file is read as bytes, and not as ${named(value)}`);
            empty += value.length === 0;
            if (empty > MOST_EMPTY_PARTS) throw new TypeError(`the stream of the file has more than ${MOST_EMPTY_PARTS} empty parts`);
            const part = value.subarray(0, bytes.length - length);
            bytes.set(part, length);
            length += part.length;
        }
    } finally {
        reader.cancel().catch(() => {}); // nobody waits for the rest
    }
    return bytes.subarray(0, length);
}

// The bytes of a file: those of a buffer, those that a view of one shows, or what a blob or the answer of a server has. Of
// these no more is read than is needed to refuse what is too long.
export async function readBytes(value) {
    if (ArrayBuffer.isView(value)) return new Uint8Array(value.buffer, value.byteOffset, value.byteLength);
    if (isBuffer(value)) return new Uint8Array(value);
    if (typeof value?.arrayBuffer === "function") {
        if (value.ok === false) throw new TypeError(`no file came, but the answer ${value.status} ${value.statusText}`);
        if (value.bodyUsed) throw new TypeError("the answer was read before");
        const stream = typeof value.stream === "function" ? value.stream() : value.body;
        if (typeof stream?.getReader === "function") return readStream(stream);
        const buffer = await value.arrayBuffer();
        if (isBuffer(buffer)) return new Uint8Array(buffer);
    }
    throw new TypeError(`a file is an ArrayBuffer, a view of one, a Blob or a Response, and not ${named(value)}`);
}

export function readModule(value) {
    if (tagOf(value) !== "[object WebAssembly.Module]") {
        throw new TypeError(`a module is a WebAssembly.Module, and not ${named(value)}`);
    }
    return value;
}
