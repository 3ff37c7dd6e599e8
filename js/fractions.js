// Exact numbers as the calls answer them. JSON has no bigint: there each is a text of its digits. As a text a number is
// written as 5/4, and a whole one as 3. Where JavaScript wants a number, as in a comparison, a sum or a sort, it is the
// nearest double. That is a property, too, which a structured clone has where it loses the methods.
import { asNumber } from "./numbers.js";

export class Fraction {
    constructor(numerator, denominator) {
        this.numerator = numerator;
        this.denominator = denominator;
        this.value = asNumber(this);
    }

    toJSON() {
        return { ...this, numerator: `${this.numerator}`, denominator: `${this.denominator}` };
    }

    valueOf() {
        return this.value;
    }

    toString() {
        return this.denominator === 1n ? `${this.numerator}` : `${this.numerator}/${this.denominator}`;
    }
}

// A numerator over a whole, in lowest terms.
export function reduced(numerator, whole) {
    let [divisor, rest] = [numerator, whole];
    while (rest > 0n) [divisor, rest] = [rest, divisor % rest];
    return [numerator / divisor, whole / divisor];
}

export class Rounded extends Fraction {
    constructor(numerator, denominator, thousandths) {
        super(numerator, denominator);
        this.thousandths = thousandths;
    }
}
