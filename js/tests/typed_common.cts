// A caller that is written as CommonJS: what it imports has its types, of both parts of the package.
import { asNumber, Bearoff, BearoffError } from "bearoff";
import type { Position, Rounded } from "bearoff";
import notation = require("bearoff/notation");

declare const console: { log(text: string): void };

async function ask(): Promise<string> {
    const race: notation.Race = notation.read("0 0 0 0 0 1");
    const six: Position = race.mine;
    const database: Bearoff = await Bearoff.build(8);
    const mean: Rounded = database.mean(six);
    try {
        notation.read("7,1");
    } catch (error) {
        if (error instanceof BearoffError) return `${asNumber(mean)} ${error.code} ${JSON.stringify(mean)}`;
    }
    return "nothing was refused";
}

// @ts-expect-error a path
export const wrong = (): Promise<Bearoff> => Bearoff.open("race.db");

void ask().then((told) => console.log(told));
