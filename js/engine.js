// One instance of the proved module: its memory, what lies where in it, and its calls. Every number here comes out of the
// module; what is done is to hand over bytes and to read what came back.
import { BearoffError, DamagedError, refusal } from "./errors.js";
import { Fraction, Rounded } from "./fractions.js";
import { BOARD_VERSION, DATABASE, kindOf, LAST_DATABASE_BOUND, MOST_FILE_BYTES, WORDS } from "./kinds.js";

const PAGE_BYTES = 65536;
const LINE_BYTES = 256; // more than any line that asks something
const FAULT_BYTES = 32;

// The struct of an open file, which only the module writes.
const DATABASE_BYTES = 17680;

// What a call answers: the longest reply to a line, the results of a roll, or a part of a table.
export const OUTPUT_BYTES = 131072;

// How many bytes other files have: up to 44 pips, of a board, and of an upgrade.
const OLD_FILE_BYTES = 11209796;
const BOARD_FILE_BYTES = 14643664;
const UPGRADE_BYTES = 7608420;
const LAST_OLD_BOUND = 44;

const ENCODER = new TextEncoder();
const DECODER = new TextDecoder();

// The instance that waits for its next database, for each module. It goes where memory is wanted.
const waiting = new WeakMap();

export class Engine {
    // An instance of a compiled module, without a database: one that waits, or a new one.
    static async start(module) {
        const engine = waiting.get(module)?.deref();
        waiting.delete(module);
        if (engine) return engine;
        try {
            const { exports } = await WebAssembly.instantiate(module, {});
            return new Engine(exports, module);
        } catch (cause) {
            if (!(cause instanceof RangeError)) throw cause;
            throw new BearoffError("no-memory", "no memory for an instance of the module", { cause });
        }
    }

    constructor(exports, module) {
        this.exports = exports;
        this.module = module;
        this.trap = null; // what a call was ended by
        this.end = Number(exports.__heap_base.value);
        this.position = this.#take(16);
        this.to = this.#take(16);
        this.fraction = this.#take(48);
        this.told = this.#take(16);
        this.line = this.#take(LINE_BYTES);
        this.output = this.#take(OUTPUT_BYTES);
        this.database = this.#take(DATABASE_BYTES);
        this.file = this.#take(1);
        this.fileBytes = 0;
        this.#lend(this.file + 1);
        // the addresses as the module takes them
        this.atPosition = BigInt(this.position);
        this.atTo = BigInt(this.to);
        this.atTold = BigInt(this.told);
        this.atOutput = BigInt(this.output);
        this.atDatabase = BigInt(this.database);
        this.shut();
    }

    // Gives the instance back, for the next database. One that was trapped is used no more.
    release() {
        this.shut();
        if (!this.trap) waiting.set(this.module, new WeakRef(this));
    }

    // The place of so many bytes behind what was taken before.
    #take(bytes) {
        const start = Math.ceil(this.end / 16) * 16;
        this.end = start + bytes;
        return start;
    }

    // Lets the memory reach so far.
    #lend(end) {
        const { memory } = this.exports;
        const missing = Math.ceil((end - memory.buffer.byteLength) / PAGE_BYTES);
        if (missing > 0) {
            try {
                try {
                    memory.grow(BigInt(missing));
                } catch (error) {
                    if (!(error instanceof TypeError)) throw error;
                    memory.grow(missing); // a memory with addresses of 32 bits
                }
            } catch (cause) {
                throw new BearoffError("no-memory", `no memory for ${missing * PAGE_BYTES} bytes more`, { cause });
            }
        }
        this.bytes = new Uint8Array(memory.buffer);
        this.view = new DataView(memory.buffer);
    }

    // Two rooms of so many bytes behind a place.
    #rooms(start, bytes, more = bytes) {
        const one = Math.ceil(start / 16) * 16;
        const other = Math.ceil((one + bytes) / 16) * 16;
        this.#lend(other + more);
        return [one, other];
    }

    // Makes a call, and says what it answers. Where it doesn't return, nobody knows what it left in the memory, and none
    // is made any more.
    call(name, ...words) {
        if (this.trap) throw new BearoffError("trapped", "the module was stopped before", { cause: this.trap });
        try {
            return this.exports[name](...words);
        } catch (cause) {
            this.trap = cause;
            throw new BearoffError("trapped", `the module was stopped: ${cause.message}`, { cause });
        }
    }

    // A call that has to succeed; `asked` says what it is for.
    ask(asked, name, ...words) {
        const status = this.call(name, ...words);
        if (status !== 0) throw refusal(status, asked);
    }

    // Leaves a database that is not open.
    shut() {
        this.bytes.fill(0, this.database, this.database + DATABASE_BYTES);
        this.view.setBigUint64(this.database, BigInt(this.file), true); // no null, where there are no bytes
        this.fileBytes = 0;
        this.kind = DATABASE;
    }

    // Builds the file of a bound with the proved builder, where files lie.
    build(bound) {
        const [version, room] = bound > LAST_DATABASE_BOUND ? [BOARD_VERSION, BOARD_FILE_BYTES]
            : bound > LAST_OLD_BOUND ? [2, MOST_FILE_BYTES] : [1, OLD_FILE_BYTES];
        // the work room of a board file has no byte
        const workBytes = version === BOARD_VERSION ? 0 : room;
        const [front, work] = this.#rooms(this.file, room, workBytes);
        this.ask(`build ${bound}`, "bearoff_build", version, bound, BigInt(work), BigInt(workBytes), BigInt(front), BigInt(room),
            this.atTold);
        this.fileBytes = this.number(this.told);
    }

    // Puts a file where files lie. Of one that is longer than any right one its front is enough to be refused for the
    // same fault.
    put(file) {
        const length = Math.min(file.length, MOST_FILE_BYTES + 1);
        this.#lend(this.file + length + 1);
        this.bytes.set(file.subarray(0, length), this.file);
        this.fileBytes = length;
    }

    // Checks the file that lies there with the proved checker, and opens it.
    open() {
        const status = this.call("bearoff_open", this.atDatabase, BigInt(this.file), BigInt(this.fileBytes), this.atOutput,
            BigInt(FAULT_BYTES), this.atTold);
        if (status !== 0) throw new DamagedError(status, this.text(this.output, this.number(this.told)));
        this.ask("about", "bearoff_about", this.atDatabase, this.atTold);
        this.version = this.view.getUint16(this.told, true);
        this.bound = this.bytes[this.told + 2];
        this.count = this.view.getUint32(this.told + 4, true);
        this.kind = kindOf(this.version);
    }

    // The bytes of the open file.
    fileOf() {
        return this.bytes.slice(this.file, this.file + this.fileBytes);
    }

    // The bytes of the open file as one of version 2.
    upgrade() {
        const length = BigInt(UPGRADE_BYTES);
        const [work, room] = this.#rooms(this.file + this.fileBytes, UPGRADE_BYTES);
        this.ask("upgrade", "bearoff_upgrade", BigInt(this.file), BigInt(this.fileBytes), BigInt(work), length, BigInt(room),
            length, this.atTold);
        return this.bytes.slice(room, room + this.number(this.told));
    }

    // Puts six counts at a place, and a fraction at its own.
    setCounts(place, counts) {
        for (let point = 0; point < 6; point++) this.bytes[place + point] = counts[point];
    }

    setFraction(numbers) {
        numbers.forEach((number, place) => {
            for (let word = 0; word < WORDS; word++) {
                const bits = BigInt.asUintN(64, number >> BigInt(64 * (WORDS - 1 - word)));
                this.view.setBigUint64(this.fraction + 8 * (WORDS * place + word), bits, true);
            }
        });
    }

    // Puts a line where lines lie, and says how many bytes it has. Of one that is longer than any question its front is
    // enough to be none.
    setLine(line) {
        return ENCODER.encodeInto(line, this.bytes.subarray(this.line, this.line + LINE_BYTES)).written;
    }

    // A number in three words, the greatest first.
    numeral(place) {
        let number = 0n;
        for (let word = 0; word < WORDS; word++) {
            const bits = this.view.getBigUint64(place + 8 * word, true);
            number = number === 0n ? bits : (number << 64n) | bits;
        }
        return number;
    }

    fractionAt(place) {
        return new Fraction(this.numeral(place), this.numeral(place + 8 * WORDS));
    }

    // A fraction with its thousandths behind it.
    roundedAt(place) {
        const bytes = 8 * WORDS;
        return new Rounded(this.numeral(place), this.numeral(place + bytes), this.number(place + 2 * bytes));
    }

    // A number of 64 bits that is small.
    number(place) {
        return Number(this.view.getBigUint64(place, true));
    }

    countsAt(place) {
        return Array.from(this.bytes.subarray(place, place + 6));
    }

    // A play: its moves, how many they are, and where it leads.
    playAt(place) {
        const { bytes } = this;
        const moves = Array.from({ length: bytes[place + 8] }, (_, move) =>
            ({ from: bytes[place + 2 * move], to: bytes[place + 2 * move + 1] }));
        return { moves, to: this.countsAt(place + 9) };
    }

    text(place, length) {
        return DECODER.decode(this.bytes.subarray(place, place + length));
    }
}
