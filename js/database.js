// What a checked database answers. Each call checks what it is given, asks the module once, and reads what it wrote.
import {
    readBound, readBytes, readFraction, readLine, readModule, readPosition, readRange, readRank, readRoll, readRolls,
} from "./checks.js";
import { Engine, OUTPUT_BYTES } from "./engine.js";
import { BearoffError, refusal } from "./errors.js";
import { Fraction, reduced, Rounded } from "./fractions.js";
import { BOARD, SHARES, WORDS } from "./kinds.js";
import { Table } from "./numbers.js";

// How many bytes the elements of the module's tables have, and a result of a roll.
const POSITION_BYTES = 6;
const MEAN_BYTES = 8 * WORDS;
const EPC_BYTES = 16 * WORDS + 8;
const DISTRIBUTION_BYTES = 8 * WORDS * SHARES;
const RESULT_BYTES = 8 + 16 * WORDS;
const MOST_RESULTS = 127;

// The database, of a kind, of the file that is put where files lie. Where it is refused the instance waits for another.
function opened(Kind, engine, put) {
    try {
        put();
        engine.open();
        return new Kind(engine);
    } catch (error) {
        engine.release();
        throw error;
    }
}

export class Database {
    #engine;

    #kind;

    #bound;

    #count;

    // Checks the bytes of a file, over a compiled module, and opens it.
    static async open(bytes, module) {
        const file = await readBytes(bytes);
        const engine = await Engine.start(readModule(module));
        return opened(this, engine, () => engine.put(file));
    }

    // Builds the file of a bound, checks it as any other, and opens it; `built` is called before the check, with the
    // number of its bytes.
    static async build(bound, module, built = () => {}) {
        const most = readBound(bound);
        const engine = await Engine.start(readModule(module));
        return opened(this, engine, () => {
            engine.build(most);
            built(engine.fileBytes);
        });
    }

    constructor(engine) {
        if (!(engine instanceof Engine)) throw new TypeError("a database is made by Bearoff.open or Bearoff.build");
        this.#engine = engine;
        this.#kind = engine.kind;
        this.#bound = engine.bound;
        this.#count = engine.count;
    }

    // Lets go of the instance. Every later call is refused.
    close() {
        this.#engine?.release();
        this.#engine = null;
    }

    get isOpen() {
        return this.#engine !== null;
    }

    get bound() {
        return this.#bound;
    }

    get positionCount() {
        return this.#count;
    }

    get denominator() {
        return this.#kind.denominator;
    }

    get version() {
        return this.#instance("version").version;
    }

    get libraryVersion() {
        const engine = this.#instance("library version");
        engine.ask("library version", "bearoff_library_version", engine.atTold, engine.atTold + 2n, engine.atTold + 4n);
        return [0, 2, 4].map((place) => engine.view.getUint16(engine.told + place, true)).join(".");
    }

    mean(position) {
        return this.#rounded("mean", "bearoff_rounded_mean", position);
    }

    epc(position) {
        return this.#rounded("epc", "bearoff_epc", position);
    }

    wastage(position) {
        const counts = readPosition(position);
        const { numerator, denominator, thousandths } = this.#rounded("wastage", "bearoff_epc", counts);
        const { pips } = this.positionInfo(counts);
        return new Rounded(numerator - BigInt(pips) * denominator, denominator, thousandths - 1000 * pips);
    }

    distribution(position) {
        const engine = this.#askOf("distribution", "bearoff_distribution", position);
        return Array.from({ length: this.#kind.rolls + 1 },
            (_, share) => new Fraction(engine.numeral(engine.output + MEAN_BYTES * share), this.denominator));
    }

    variance(position) {
        const shares = this.distribution(position);
        const [mean, squares] = [1n, 2n].map((power) =>
            shares.reduce((sum, { numerator }, rolls) => sum + BigInt(rolls) ** power * numerator, 0n));
        return new Fraction(...reduced(squares * this.denominator - mean ** 2n, this.denominator ** 2n));
    }

    standardDeviation(position) {
        return Math.sqrt(this.variance(position).value);
    }

    within(position, rolls) {
        const [counts, most] = [readPosition(position), readRolls(rolls)];
        const engine = this.#askOf("within", "bearoff_within", counts, most);
        const chance = reduced(engine.numeral(engine.output), this.denominator);
        return new Rounded(...chance, engine.number(engine.output + MEAN_BYTES));
    }

    positionInfo(position) {
        const counts = readPosition(position);
        const engine = this.#instance("positionInfo");
        engine.setCounts(engine.position, counts);
        engine.ask(`position info ${counts}`, "bearoff_position_info", engine.atPosition, engine.atOutput);
        const [pips, checkers, off] = engine.bytes.subarray(engine.output, engine.output + 3);
        return { pips, checkers, off };
    }

    rank(position) {
        const engine = this.#askOf("rank", "bearoff_rank", position);
        return engine.view.getUint16(engine.output, true);
    }

    position(rank) {
        const asked = readRank(rank);
        const engine = this.#instance("position");
        engine.ask(`position ${rank}`, "bearoff_position_of", engine.atDatabase, asked, engine.atOutput);
        return engine.countsAt(engine.output);
    }

    play(position, roll) {
        const [counts, dice] = [readPosition(position), readRoll(roll)];
        const engine = this.#askOf("play", "bearoff_play", counts, ...dice);
        return engine.playAt(engine.output);
    }

    playTo(position, roll, to) {
        const [counts, dice, target] = [readPosition(position), readRoll(roll), readPosition(to)];
        const engine = this.#instance("playTo");
        engine.setCounts(engine.position, counts);
        engine.setCounts(engine.to, target);
        engine.ask(`playTo ${counts} ${dice.join("")} ${target}`, "bearoff_play_to", engine.atPosition, ...dice, engine.atTo,
            engine.atOutput);
        return engine.playAt(engine.output);
    }

    loss(position, roll, to) {
        const [counts, dice, target] = [readPosition(position), readRoll(roll), readPosition(to)];
        const engine = this.#instance("loss");
        engine.setCounts(engine.position, counts);
        engine.setCounts(engine.to, target);
        engine.ask(`loss ${counts} ${dice.join("")} ${target}`, "bearoff_loss", engine.atDatabase, engine.atPosition, ...dice,
            engine.atTo, engine.atOutput);
        return engine.fractionAt(engine.output);
    }

    moves(position, roll) {
        const [counts, dice] = [readPosition(position), readRoll(roll)];
        const engine = this.#instance("moves");
        engine.setCounts(engine.position, counts);
        engine.ask(`moves ${counts} ${dice.join("")}`, "bearoff_moves", engine.atDatabase, engine.atPosition, ...dice,
            engine.atOutput, BigInt(MOST_RESULTS), engine.atTold);
        return Array.from({ length: engine.number(engine.told) }, (_, result) => {
            const place = engine.output + RESULT_BYTES * result;
            return { to: engine.countsAt(place), loss: engine.fractionAt(place + 8) };
        });
    }

    answer(line) {
        const asked = readLine(line);
        const engine = this.#instance("answer");
        const length = engine.setLine(asked);
        engine.ask("answer", "bearoff_answer_line", engine.atDatabase, BigInt(engine.line), BigInt(length), engine.atOutput,
            BigInt(OUTPUT_BYTES), engine.atTold);
        return engine.text(engine.output, engine.number(engine.told));
    }

    thousandths(fraction) {
        const numbers = readFraction(fraction, 64 * WORDS);
        const engine = this.#instance("thousandths");
        engine.setFraction(numbers);
        if (!engine.call("bearoff_thousandths", BigInt(engine.fraction), engine.atTold)) {
            throw new RangeError("a fraction in thousandths is at most 180, and its denominator is 1 to 6 * 36^33");
        }
        return engine.number(engine.told);
    }

    positions(first = 0, count = undefined) {
        return this.#listed("bearoff_listed_positions", POSITION_BYTES, first, count);
    }

    means(first = 0, count = undefined) {
        return new Table(this.#listed("bearoff_listed_means", MEAN_BYTES, first, count), this.denominator);
    }

    epcs(first = 0, count = undefined) {
        return new Table(this.#listed("bearoff_listed_epcs", EPC_BYTES, first, count), null);
    }

    distributions(first = 0, count = undefined) {
        const listed = this.#listed("bearoff_listed_distributions", DISTRIBUTION_BYTES, first, count);
        return new Table(listed, this.denominator, this.#kind.rolls + 1);
    }

    bytes() {
        return this.#instance("bytes").fileOf();
    }

    upgrade() {
        const engine = this.#instance("upgrade");
        if (this.#kind === BOARD) throw new BearoffError("not-old", "upgrade: the file is a board file, and has no upgrade");
        return engine.upgrade();
    }

    // The instance of a database that wasn't closed.
    #instance(asked) {
        if (!this.#engine) throw new BearoffError("not-open", `${asked}: the database was closed`, { status: 1 });
        return this.#engine;
    }

    // Asks something of a position, whose answer is written where outputs lie.
    #askOf(asked, name, position, ...words) {
        const counts = readPosition(position);
        const engine = this.#instance(asked);
        engine.setCounts(engine.position, counts);
        const status = engine.call(name, engine.atDatabase, engine.atPosition, ...words, engine.atOutput);
        if (status !== 0) throw refusal(status, `${[asked, counts, ...words].join(" ")}`);
        return engine;
    }

    #rounded(asked, name, position) {
        const engine = this.#askOf(asked, name, position);
        return engine.roundedAt(engine.output);
    }

    // A range of ranks that the open database has: the first, and how many.
    #range(first, count) {
        const [from, all] = readRange(first, count, this.#count);
        this.#instance("a table");
        if (from + all > this.#count) throw refusal(10, `${all} ranks from ${from} on`);
        return [from, all];
    }

    // What the module lists of a range of ranks, copied out by parts that the room for outputs holds.
    #listed(name, each, first, count) {
        const [from, all] = this.#range(first, count);
        const engine = this.#instance("a table");
        const table = new Uint8Array(all * each);
        const most = Math.floor(OUTPUT_BYTES / each);
        for (let done = 0; done < all; done += most) {
            const part = Math.min(most, all - done);
            engine.ask("a table", name, engine.atDatabase, from + done, engine.atOutput, BigInt(part));
            table.set(engine.bytes.subarray(engine.output, engine.output + part * each), done * each);
        }
        return table;
    }
}

if (Symbol.dispose) Database.prototype[Symbol.dispose] = Database.prototype.close;
