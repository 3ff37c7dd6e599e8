/**
 * Exact, formally verified bearoff tables for backgammon.
 *
 * A database is the bytes of a file that `bearoff build` writes, or what {@link Bearoff.build} makes. A board file, which
 * has positions to 90 pips, is one too, with greater numbers: each call says where it differs. It is checked once,
 * and accepted exactly where it is right: every mean in it is the least over all strategies, the recorded plays reach
 * these means, and the recorded shares are those of these plays. That is proved of the WebAssembly module of this package,
 * and so is what the module answers; the script hands numbers over.
 *
 * Each argument is checked before the module is asked. One of another type, or a list of another length, is a
 * `TypeError`; a number that isn't whole, or is out of the range that is told, or a move that can't be made, a `RangeError`;
 * a text that is no position a `NotARaceError` of `bearoff/notation`; and what the database has no answer to a
 * {@link BearoffError}, whose `code` is told at each call. Every call on a database that was closed has the
 * code `not-open`. A call that could be refused for several reasons tells the first of these: the first argument that is
 * none of what is taken, `not-open`, `bad-roll`, `too-many` of any position, `over-bound` and `finished` of the first one,
 * `not-legal`. A call that was refused changes nothing.
 */

declare global {
    // as in the types of newer versions of JavaScript, with which these merge: `using` closes a database
    interface SymbolConstructor {
        readonly dispose: unique symbol;
    }
    interface Disposable {
        [Symbol.dispose](): void;
    }
}

/**
 * How many checkers stand on the points 1 to 6 of the home board, the ace point first; the others of 15 are borne off.
 * Six counts, each a whole number from 0 to 255, and they are a position where they add up to at most 15.
 */
export type Position = readonly number[] | Uint8Array;

/** Six counts, the ace point first, in a list of the caller's own. */
export type Counts = [number, number, number, number, number, number];

/**
 * What is taken as a position: six counts, a text that `read` of `bearoff/notation` takes, as an XGID, or the race that it
 * makes of one, of which it is the position of the player on roll.
 */
export type AnyPosition = Position | string | { readonly mine: Position };

/** The two dice of a roll, in either order, 1 to 6 each. */
export type Roll = readonly [number, number] | Uint8Array;

/** What is taken as a roll: its two dice, also as a text like `21` or `2-1`, or the number 21. */
export type AnyRoll = Roll | string | number;

/**
 * What is taken as a play: the position that it leads to, a {@link Play}, a {@link Choice}, or its moves as a player writes
 * them, as in `4/2 2/1`, `6/off(2)` or `6/4/3`.
 */
export type AnyPlay = AnyPosition | { readonly to: Position };

/** An exact number. The denominator is not 0. */
export interface Fraction {
    readonly numerator: bigint;
    readonly denominator: bigint;
}

/** What `JSON.stringify` writes of an exact number: JSON has no bigint, so each is a text of its digits. */
export interface FractionText {
    readonly numerator: string;
    readonly denominator: string;
    readonly value: number;
}

/**
 * An exact number that a call has answered. `JSON.stringify` takes it, and as a text it is `5/4`, or `3`. In comparisons,
 * sums and sorts it is the double that is nearest to it, so `==` and `===` between two of them ask whether they are one
 * object. TypeScript has no sums of objects: there it is `mean.value + 1`.
 */
export interface Exact extends Fraction {
    /** The double that is nearest to it. A copy that `postMessage` or `structuredClone` makes has it, and no method. */
    readonly value: number;
    valueOf(): number;
    toJSON(): FractionText;
    toString(): string;
}

/** An exact number in lowest terms, and in thousandths, a whole number, rounded to the nearest and a half up. */
export interface Rounded extends Exact {
    readonly thousandths: number;
    toJSON(): FractionText & { readonly thousandths: number };
}

/** One checker's move: from a point, 1 to 6, to a lower one, or to 0 where it is borne off. */
export interface Move {
    readonly from: number;
    readonly to: number;
}

/** A play: its 1 to 4 moves in the order in which they are made, the position that it leads to, and the moves as a text. */
export interface Play {
    readonly moves: Move[];
    readonly to: Counts;
    /** The moves as a player writes them: `4/2 2/1`, and `6/off` where a checker is borne off. */
    readonly text: string;
}

/**
 * A position that a roll can lead to, and what it costs, in rolls and in lowest terms: the least mean number of rolls after
 * it, less the least such mean among all positions that the roll can lead to.
 */
export interface Choice {
    readonly to: Counts;
    readonly loss: Exact;
}

/** The pip count of a position, 0 to 90, its checkers, 0 to 15, and how many of 15 are borne off. */
export interface PositionInfo {
    readonly pips: number;
    readonly checkers: number;
    readonly off: number;
}

/** The name of a refusal. */
export type RefusalCode =
    /** The database was closed. */
    | "not-open"
    /** A die is not 1 to 6. */
    | "bad-roll"
    /** A position has more than 15 checkers. */
    | "too-many"
    /** The position, or the bound that is to be built, has more pips than there can be. */
    | "over-bound"
    /** A play is asked for and no checker is left. */
    | "finished"
    /** The roll doesn't lead to that position. */
    | "not-legal"
    /** The file that is to be upgraded is of version 2 already, or a board file. */
    | "not-old"
    /** The database has no position of that rank, or fewer than asked from there on. */
    | "no-rank"
    /** The bytes failed verification: a {@link DamagedError}. */
    | "damaged"
    /** There is no memory for the database. */
    | "no-memory"
    /** There is no WebAssembly here, or the module's file can't be read or compiled. */
    | "no-module"
    /** The module was stopped by the machine that runs it, and this database answers nothing more. */
    | "trapped"
    /** A text is no bearoff race: a `NotARaceError` of `bearoff/notation`. */
    | "malformed" | "bar" | "outside" | "contact" | "other-side"
    /** A text is no match: a `BadMatchError` of `bearoff/matches`, whose code may be `malformed`, too. */
    | "illegal" | "turn" | "variation"
    /** The module says what no caller of this package can bring about. */
    | "changed"
    | "buffer-too-small"
    | "unknown";

/** A call that has no answer. The message says what was asked, and why there is none. */
export class BearoffError extends Error {
    /** The name of the refusal. */
    readonly code: RefusalCode;
    /** The status that the module gave, as in `bearoff.h`, or 0 where it gave none. */
    readonly status: number;
}

/** The bytes failed verification. Its `code` is `damaged`. */
export class DamagedError extends BearoffError {
    readonly code: "damaged";
    /** What kind of fault the first one is. */
    readonly fault:
        | "too-short" | "bad-magic" | "bad-version" | "bad-bound" | "bad-count" | "bad-record-bytes" | "bad-reserved"
        | "bad-length" | "bad-play" | "not-least" | "bad-mean" | "bad-spread";
    /** The line of the first fault, as `bearoff check` writes it: `mean rank 1`. */
    readonly line: string;
}

/**
 * The bytes of a file: a buffer, a view of one, or what gives a buffer, as a `Blob`, a `File` and a `Response` do. Of these
 * three at most 15 MB are kept: what is longer than any right file is refused without the rest of it being read.
 */
export type FileBytes = ArrayBufferLike | ArrayBufferView | { arrayBuffer(): Promise<ArrayBuffer> };

export interface Options {
    /**
     * The compiled `WebAssembly.Module` to use, one of the two files of this package: for places where the package can't
     * read them itself, or that share one module. Without it the package reads the one that can run here, once.
     */
    readonly module?: object;
}

/**
 * The module that can run here, compiled: `wide.wasm` where memories can have addresses of 64 bits, and else
 * `narrow.wasm`. It can be posted to a worker. Refused as `no-module`.
 */
export function loadModule(): Promise<object>;

/** The double that is nearest to a fraction of your own; one that a call answered has it as `value`. A `TypeError` where it is none. */
export function asNumber(fraction: Fraction): number;

/**
 * A table of numbers as {@link Bearoff.means}, {@link Bearoff.epcs} and {@link Bearoff.distributions} hand it out, which
 * knows what they are. What `subarray` and `slice` take of it knows that too, where no number is cut; any other array that is
 * made of it, as by `map` or `structuredClone`, is a `BigUint64Array` and no more.
 */
export interface Table extends BigUint64Array {
    /** What its numbers are over: {@link Bearoff.denominator}, or null where each row has a numerator and a denominator. */
    readonly denominator: bigint | null;
}

/**
 * The numbers of a {@link Table} as doubles, each the nearest: rolls, chances, or effective pip counts. Of another
 * `BigUint64Array` nobody knows what its numbers are, so `denominator` has to say what they are over. A `TypeError` where it is
 * missing or another one, and where the array isn't made of whole numbers. A million numbers take about a second.
 */
export function asDoubles(table: BigUint64Array, denominator?: bigint): Float64Array;

/**
 * A checked database, in a memory of its own: 4 MB and its file, or twice its file where it was built. `close` gives it
 * back for the next one; without it the memory goes when nothing refers to the database any more.
 */
export class Bearoff {
    private constructor();

    /**
     * Copies the bytes of a file, checks them and opens it, a board file where its header says so: 0.2 to 0.4 s for 44
     * pips, in which the thread does nothing else, so a page asks in a worker. The bytes stay as they are until the promise
     * is kept, and may be changed then. A {@link DamagedError} if they fail verification, and `no-memory`. The answer
     * of a server that has no such file is a `TypeError`.
     */
    static open(bytes: FileBytes, options?: Options): Promise<Bearoff>;

    /**
     * Builds the database of a pip bound, 0 to 58, or the board file of one of 59 to 90, checks it as any other, and opens
     * it: 0.3 to 0.9 s for 44 pips, and some seconds for 90, in which the thread does nothing else. Refused as `over-bound`
     * where the bound is over 90, and as `no-memory`.
     */
    static build(bound: number, options?: Options): Promise<Bearoff>;

    /** Lets go of the memory. Every later call is refused as `not-open`, but for another `close`, which does nothing. */
    close(): void;

    /** The same as `close`, for `using`, where JavaScript has it. */
    [Symbol.dispose](): void;

    /** Whether it wasn't closed. */
    readonly isOpen: boolean;

    /** The greatest pip count of its positions: 0 to 58, and of a board file 0 to 90. */
    readonly bound: number;

    /** How many positions it has: those of at most its bound. Their ranks are 0 to one less. */
    readonly positionCount: number;

    /** The version of its file: 1, 2 where the records leave out the shares that are known, and 3 of a board file. */
    readonly version: number;

    /** What its chances add up to, and what its whole tables are over: 36n ** 22n, and of a board file 36n ** 33n. */
    readonly denominator: bigint;

    /** The version of the module, as `1.2.3`. */
    readonly libraryVersion: string;

    /**
     * The least mean number of rolls until all checkers are off, over all strategies. Refused as `too-many` or
     * `over-bound`, as is every call below that says so by "a position of the database".
     */
    mean(position: AnyPosition): Rounded;

    /** The effective pip count of a position of the database, in pips: 49/6 for each roll of the mean. */
    epc(position: AnyPosition): Rounded;

    /**
     * The effective pip count of a position of the database less its pip count, in pips. It is 0 where no checker is left,
     * and more of every other position of the home board.
     */
    wastage(position: AnyPosition): Rounded;

    /**
     * The chances of being off in exactly 0 to 22 rolls, from a position of the database by the recorded plays: 23
     * fractions over 36^22, whose numerators add up to 36^22. Of a board file they are 34, to 33 rolls, over 36^33.
     */
    distribution(position: AnyPosition): Exact[];

    /** The variance of the number of rolls, in rolls squared, from a position of the database by the recorded plays. */
    variance(position: AnyPosition): Exact;

    /** The standard deviation of that number: the square root of its variance. */
    standardDeviation(position: AnyPosition): number;

    /**
     * The chance of being off within a number of rolls, 0 or more, from a position of the database by the recorded plays.
     */
    within(position: AnyPosition, rolls: number): Rounded;

    /** What any position of at most 15 checkers stands at. Refused as `too-many`. */
    positionInfo(position: AnyPosition): PositionInfo;

    /**
     * How many positions are before a position of the database: those of fewer pips, and of as many pips those with the
     * smaller counts, that of the ace point first.
     */
    rank(position: AnyPosition): number;

    /** The position of a rank, 0 or more. Refused as `no-rank`. */
    position(rank: number): Counts;

    /**
     * The recorded play of a roll from a position of the database. No play has a smaller mean; there may be others as good.
     * Refused as `bad-roll` too, and as `finished` where no checker is left.
     */
    play(position: AnyPosition, roll: AnyRoll): Play;

    /**
     * The first play of a roll that leads from one position of at most 15 checkers to another. Refused as `bad-roll`,
     * `too-many` or `not-legal`.
     */
    playTo(position: AnyPosition, roll: AnyRoll, to: AnyPlay): Play;

    /**
     * What a play to the position `to` costs, in rolls and in lowest terms, beside the best one. Refused as `play` is, and as
     * `not-legal`.
     */
    loss(position: AnyPosition, roll: AnyRoll, to: AnyPlay): Exact;

    /**
     * Every position that a roll can lead to from a position of the database, once, at most 127, the best first, and of
     * those that cost as much that of the lower rank. Refused as `play` is.
     */
    moves(position: AnyPosition, roll: AnyRoll): Choice[];

    /**
     * The chance that `mine` is off before `theirs`, where the players roll in turn and both make the recorded plays. `mine`
     * rolls first, unless `onRoll` is `theirs`. Where `theirs` is missing both sides are those of one XGID, Position ID or
     * race; a `TypeError` where that doesn't tell them. It is exact of these plays, which take the fewest rolls in the mean,
     * and are no plays for the win; and it says nothing of the cube.
     */
    wins(mine: AnyPosition, theirs?: AnyPosition | null, onRoll?: "mine" | "theirs"): Exact;

    /**
     * What `bearoff query` writes for a line, as `mean 0,0,0,0,0,1`, without a line ending: `mean POSITION`, `dist
     * POSITION`, `play POSITION ROLL`, `loss POSITION ROLL POSITION`, `moves POSITION ROLL` or `rank POSITION`. A line that
     * asks nothing, or is refused, is answered too, by a text that begins with `error`; so is one of any length.
     */
    answer(line: string): string;

    /**
     * A fraction in thousandths, rounded to the nearest and a half up. A `RangeError` where the fraction is over 180, or
     * its denominator is 0 or over 6 * 36^33: every number of a file is in that range.
     */
    thousandths(fraction: Fraction): number;

    /**
     * Whole tables: of `count` ranks from `first` on, or of all from there on, by rising rank. Refused as `no-rank` where
     * the database has fewer. Each is a copy of the caller's own. A number has three words of 64 bits, the greatest first.
     *
     * Positions: six bytes for each.
     */
    positions(first?: number, count?: number): Uint8Array;

    /** Means: three words for each, those of a numerator over {@link Bearoff.denominator}. */
    means(first?: number, count?: number): Table;

    /**
     * Effective pip counts: seven words for each, three of the numerator, three of the denominator, in lowest terms, and the
     * thousandths.
     */
    epcs(first?: number, count?: number): Table;

    /**
     * Distributions: 102 words for each, three of each of 34 numerators over {@link Bearoff.denominator}. Except
     * in a board file those over 22 rolls are 0, and {@link asDoubles} leaves them out.
     */
    distributions(first?: number, count?: number): Table;

    /** The bytes of its file: a copy. */
    bytes(): Uint8Array;

    /**
     * The bytes of a file of version 2 that says the same. Refused as `not-old` where its file is of version 2 already, or a
     * board file.
     */
    upgrade(): Uint8Array;
}
