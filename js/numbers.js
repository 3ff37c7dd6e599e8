// Exact numbers as doubles, each the nearest, and the tables that hold many of them.

import { readNumbers } from "./checks.js";
import { SHARES, WORDS } from "./kinds.js";

// Under this a double may have fewer bits; no number of a database but 0 is so small.
const SMALLEST = 2 ** -900;

// How many bits a quotient has that is rounded to the 53 of a double: some more.
const QUOTIENT_BITS = 56;

// The double that is nearest to a fraction, and of two that are as near the even one.
function nearest(numerator, denominator) {
    if (numerator < 0n) return -nearest(-numerator, denominator);
    const near = Number(numerator) / Number(denominator);
    if (!(near > SMALLEST && near < 1 / SMALLEST)) return near;
    const shift = QUOTIENT_BITS - Math.ceil(Math.log2(near));
    const above = shift > 0 ? numerator << BigInt(shift) : numerator;
    const below = shift > 0 ? denominator : denominator << BigInt(-shift);
    const quotient = above / below;
    // where something is left the last bit says so, and all is rounded at once
    return Number(quotient * below === above ? quotient : quotient | 1n) * 2 ** -shift;
}

export const asNumber = (fraction) => nearest(...readNumbers(fraction));

// How many words an element has that becomes a double: a numerator, or a fraction with its thousandths.
const wordsOf = (denominator) => (denominator === null ? 2 * WORDS + 1 : WORDS);

// A table as a database returns it, which knows what its numbers are: numerators over a denominator, or, if that is null,
// a numerator, a denominator and thousandths in each row. A part of it that cuts no number knows it too. In rows of
// distributions the first shares count, and the others are 0.
export class Table extends BigUint64Array {
    static get [Symbol.species]() {
        return BigUint64Array;
    }

    #denominator;

    #shares;

    #place;

    constructor({ buffer, byteOffset, byteLength }, denominator, shares = SHARES, place = 0) {
        super(buffer, byteOffset, byteLength / 8);
        this.#denominator = denominator;
        this.#shares = shares;
        this.#place = place;
    }

    get denominator() {
        return this.#denominator;
    }

    subarray(...range) {
        const view = super.subarray(...range);
        return this.#part(view, view);
    }

    slice(...range) {
        return this.#part(super.slice(...range), super.subarray(...range));
    }

    // A part, or a copy of it, which is a table if the view of it begins and ends between two numbers.
    #part(part, view) {
        const [each, before] = [wordsOf(this.#denominator), (view.byteOffset - this.byteOffset) / 8];
        if (before % each !== 0 || view.length % each !== 0) return part;
        return new Table(part, this.#denominator, this.#shares, this.#place + before / each);
    }

    // Whether a number counts.
    counts(number) {
        return (this.#place + number) % SHARES < this.#shares;
    }
}

// What a table's numbers are over. A table knows it; for another array the caller passes it.
function wholeOf(table, denominator) {
    if (!(table instanceof BigUint64Array)) throw new TypeError("a table is a BigUint64Array");
    if (table instanceof Table) {
        if (denominator === undefined || denominator === table.denominator) return table.denominator;
        throw new TypeError("the numbers of this table have another denominator");
    }
    if (denominator === undefined) {
        throw new TypeError("this array doesn't know its denominator; pass it, for example database.denominator");
    }
    if (denominator !== 36n ** 22n && denominator !== 36n ** 33n) {
        throw new TypeError("numerators are over 36n ** 22n, or over 36n ** 33n");
    }
    if (table.length % WORDS !== 0) {
        throw new TypeError(`a numerator has ${WORDS} words, and this array ${table.length}`);
    }
    return denominator;
}

// The numbers of a table, each in words of 64 bits, the greatest first.
export function asDoubles(table, denominator = undefined) {
    const whole = wholeOf(table, denominator);
    const each = wordsOf(whole);
    const halves = new Uint32Array(table.buffer, table.byteOffset, 2 * table.length);
    // the words before the first that is not 0 are passed over, since a bigint of each would take longer
    const numberAt = (place) => {
        const end = place + WORDS;
        let first = place;
        while (first < end - 1 && (halves[2 * first] | halves[2 * first + 1]) === 0) first++;
        let number = table[first];
        while (++first < end) number = (number << 64n) | table[first];
        return number;
    };
    const [doubles, isTable] = [new Float64Array(table.length / each), table instanceof Table];
    let count = 0;
    for (let row = 0; row < doubles.length; row++) {
        if (isTable && !table.counts(row)) continue;
        const numerator = numberAt(each * row);
        doubles[count++] = numerator === 0n ? 0 : nearest(numerator, whole ?? numberAt(each * row + WORDS));
    }
    return doubles.slice(0, count);
}
