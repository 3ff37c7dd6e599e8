// What the types let through, and what they refuse: a line below @ts-expect-error that compiles is an error.
import { asDoubles, asNumber, Bearoff, BearoffError, DamagedError, loadModule } from "bearoff";
import type { Choice, Counts, Exact, FileBytes, Fraction, FractionText, Play, Position, Roll, Rounded, Table } from "bearoff";
import { fromGnubg, fromXgid, NotARaceError, read, toGnubg, toXgid } from "bearoff/notation";
import type { GivenRace, NoRaceCode, OnRoll, Race } from "bearoff/notation";
import { bearoffs, readMatch } from "bearoff/matches";
import type { BadMatchError, Match } from "bearoff/matches";

declare const console: { log(text: string): void };

const six: Position = [0, 0, 0, 0, 0, 1];
const roll: Roll = [2, 1];
const database: Bearoff = await Bearoff.build(8);
const mean: Rounded = database.mean("0,0,0,0,0,1");
const exact: bigint = mean.numerator;
const play: Play = database.play(six, roll);
const first: Choice | undefined = database.moves(six, roll)[0];
const loss: Fraction = database.loss("0,0,0,0,0,1", "2-1", play);
const counts: Counts = database.position(database.rank(new Uint8Array([0, 0, 0, 0, 0, 1])));
const halves: BigUint64Array = database.means(0, 3);
const table: Table = database.distributions();
const itsWhole: bigint | null = table.denominator;
const part: BigUint64Array = table.subarray(0, 3);
const doubles: Float64Array = asDoubles(halves);
const whole: bigint = database.denominator;
const over: Float64Array = asDoubles(halves, whole);
const texts: string[] = play.text.split(" ").filter((text, place) => text === `${play.moves[place]?.from}/${play.moves[place]?.to}`);
const split: number[] = "0,0,0,0,0,1".split(",").map(Number);
const effective: Rounded = database.epc(split);
const share: Exact | undefined = database.distribution(split)[1];
const digits: FractionText | undefined = share?.toJSON();
const thousandths: number = mean.toJSON().thousandths;
const chance: Rounded = database.within({ mine: six }, 1);
const variance: Exact = database.variance("0,0,0,0,0,1");
const isLess: boolean = mean < effective && chance <= mean && variance < mean && database.standardDeviation(six) < 1;
const sum: number = +database.wastage(six) + Number(chance) + mean.value;
const closing: Disposable = await Bearoff.build(0);
closing[Symbol.dispose]();
const again: Bearoff = await Bearoff.open(database.upgrade(), { module: await loadModule() });

const race: Race = read("xwQAgHY8AAAAAA:MAEFAAAAAAAE");
const given: GivenRace = { mine: race.mine, theirs: new Uint8Array(6), dice: [1, 2] };
const onRoll: OnRoll | null = fromXgid(toXgid(race)).onRoll;
const notations: string[] = [toXgid(race), toGnubg(given), onRoll ?? "", fromGnubg(toGnubg(race)).dice?.join("") ?? ""];
const pips: number = database.positionInfo(race.mine).pips;

function named(error: unknown): string {
    if (error instanceof NotARaceError) {
        const code: NoRaceCode = error.code;
        return code;
    }
    if (error instanceof DamagedError) return `${error.code} ${error.fault} ${error.line}`;
    return error instanceof BearoffError ? error.code : "another";
}

const source: FileBytes = { arrayBuffer: () => Promise.resolve(new ArrayBuffer(3)) };
const refused: string = await Bearoff.open(source).then(() => "none", named);
const refusal: string = await Promise.resolve("").then(read).then(() => "none", named);
const told = [notations.join(" "), pips, refusal,
    exact, mean.denominator, texts.join(" "), first?.to.join(), loss.numerator, counts.join(), over[1] === doubles[1] && itsWhole === whole && asDoubles(part).length === 1 ? doubles[1]?.toFixed(3) : "another", again.version,
    `${again.wastage(six)}`, `${chance}`, isLess, sum.toFixed(3), asNumber(again.distribution(six)[1]!).toFixed(2), refused,
    effective.thousandths, digits?.numerator === `${share?.numerator}`, thousandths, JSON.stringify([mean, loss])];
console.log(told.join("; "));

// What is never called: matches, and what doesn't compile.
export async function wrong(): Promise<void> {
    const match: Match = readMatch("7 point match");
    const errors: Fraction[] = bearoffs(match).map(({ points, dice, to }) => database.loss(points, dice, to));
    const why = (error: BadMatchError): "malformed" | "illegal" | "turn" | "variation" => error.code;
    void [errors, why];
    // @ts-expect-error a number
    database.mean(6);
    // @ts-expect-error texts in a list of the caller's
    database.mean("0,0,0,0,0,1".split(","));
    // @ts-expect-error a fraction as JSON has it is none
    asNumber(mean.toJSON());
    // @ts-expect-error nothing that closes it is handed over
    database[Symbol.dispose](database);
    // @ts-expect-error a sum of an object and a number
    void (mean + 1);
    // @ts-expect-error a sum of two objects
    void (mean + loss);
    // @ts-expect-error a difference of two objects
    void (mean - effective);
    // @ts-expect-error an object as the base of a power
    void (mean ** 2);
    // @ts-expect-error an object and a number are compared
    void (mean < 2);
    // @ts-expect-error they can't be equal
    void (mean === 1.25);
    // @ts-expect-error an object where a number is wanted
    Math.max(mean, 1);
    // @ts-expect-error an object that is a number
    const rolls: number = database.within(six, 1);
    void rolls;
    // @ts-expect-error thousandths are no fraction
    asNumber(mean.thousandths);
    // @ts-expect-error and can't be changed
    mean.thousandths = 1;
    // @ts-expect-error a share has no thousandths
    void share?.thousandths;
    // @ts-expect-error a text among counts
    database.epc([0, 0, 0, 0, 0, "1"]);
    // @ts-expect-error nothing
    database.positionInfo(null);
    // @ts-expect-error bigints
    database.rank([0n, 0n, 0n, 0n, 0n, 1n]);
    // @ts-expect-error three dice
    database.play(six, [2, 1, 1]);
    // @ts-expect-error a roll that is neither
    database.moves(six, true);
    // @ts-expect-error no roll
    database.play(six);
    // @ts-expect-error a rank that is a text
    database.position("1");
    // @ts-expect-error a line that is none
    database.answer(["mean 0,0,0,0,0,1"]);
    // @ts-expect-error counts that are no text
    read([0, 0, 0, 0, 0, 1]);
    // @ts-expect-error what the other player has is null in what six counts tell
    database.mean(race.theirs);
    // @ts-expect-error nobody is on roll there
    toXgid({ mine: six, theirs: six, onRoll: "left" });
    // @ts-expect-error the dice are a text
    toGnubg({ mine: six, theirs: six, dice: "21" });
    // @ts-expect-error a path
    await Bearoff.open("race.db");
    // @ts-expect-error a bound that is a text
    await Bearoff.build("44");
    // @ts-expect-error a whole that is a double
    asDoubles(halves, 36 ** 22);
    // @ts-expect-error a table of positions has no whole
    database.positions().denominator;
    // @ts-expect-error a table keeps its whole
    table.denominator = whole;
    // @ts-expect-error a module that is an address
    await Bearoff.build(44, { module: "wide.wasm" });
    // @ts-expect-error it is opened, and not made
    new Bearoff();
    // @ts-expect-error what can't be changed
    database.bound = 58;
    // @ts-expect-error a numerator is a bigint
    const numerator: number = mean.numerator;
    void numerator;
    // @ts-expect-error no such code
    void ((new Error() as BearoffError).code === "too-few");
    // @ts-expect-error there is no such call
    database.distance(six);
}
