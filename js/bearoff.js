// Exact, formally verified bearoff tables for backgammon. Calls are described in bearoff.d.ts.
import { readBound, readBytes } from "./checks.js";
import { Database } from "./database.js";
import { Fraction, reduced } from "./fractions.js";
import { playText, positionOf, rollOf, sidesOf, targetOf } from "./given.js";
import { loadModule } from "./modules.js";

export { BearoffError, DamagedError } from "./errors.js";
export { asDoubles, asNumber } from "./numbers.js";
export { loadModule };

const withText = (play) => ({ ...play, text: playText(play.moves) });

// A database over the module of this package, or over another that is given. Where a call takes lists it takes texts too.
export class Bearoff extends Database {
    static async open(bytes, { module } = {}) {
        const file = await readBytes(bytes);
        return super.open(file, module ?? await loadModule());
    }

    static async build(bound, { module } = {}) {
        const most = readBound(bound);
        return super.build(most, module ?? await loadModule());
    }

    mean(position) {
        return super.mean(positionOf(position));
    }

    epc(position) {
        return super.epc(positionOf(position));
    }

    wastage(position) {
        return super.wastage(positionOf(position));
    }

    distribution(position) {
        return super.distribution(positionOf(position));
    }

    variance(position) {
        return super.variance(positionOf(position));
    }

    within(position, rolls) {
        return super.within(positionOf(position), rolls);
    }

    positionInfo(position) {
        return super.positionInfo(positionOf(position));
    }

    rank(position) {
        return super.rank(positionOf(position));
    }

    play(position, roll) {
        return withText(super.play(positionOf(position), rollOf(roll)));
    }

    playTo(position, roll, to) {
        const [counts, dice] = [positionOf(position), rollOf(roll)];
        return withText(super.playTo(counts, dice, targetOf(counts, to)));
    }

    loss(position, roll, to) {
        const [counts, dice] = [positionOf(position), rollOf(roll)];
        return super.loss(counts, dice, targetOf(counts, to));
    }

    moves(position, roll) {
        return super.moves(positionOf(position), rollOf(roll));
    }

    // The chance that one side is off before the other, by the recorded plays of both, which roll in turn.
    wins(mine, theirs, onRoll = "mine") {
        if (onRoll !== "mine" && onRoll !== "theirs") throw new TypeError("who is on roll is mine or theirs");
        const [one, other] = sidesOf(mine, theirs);
        const [shares, past] = [super.distribution(one), super.distribution(other)];
        // the chance that the other side is not off yet, before or after its throw of each turn
        let [left, chance] = [this.denominator, 0n];
        shares.forEach(({ numerator }, turn) => {
            const before = left;
            left -= past[turn].numerator;
            chance += numerator * (onRoll === "mine" ? before : left);
        });
        return new Fraction(...reduced(chance, this.denominator * this.denominator));
    }
}
