/**
 * Positions as players have them: XGIDs, the IDs of GNU Backgammon, and six counts in any usual spelling. Nothing here
 * needs the WebAssembly module.
 *
 * A text that is no bearoff race, that can't be read without a guess, or that has more than 1000 characters, is refused as
 * a {@link NotARaceError}; what is no text is a `TypeError`.
 */
import { BearoffError } from "./bearoff.js";
import type { Counts, Position, Roll } from "./bearoff.js";

export { BearoffError };

/**
 * Who is on roll. The player at the bottom of the board has the capital letters of an XGID, and is player 1 of GNU
 * Backgammon.
 */
export type OnRoll = "bottom" | "top";

/**
 * A bearoff race as it is read: the checkers of the player on roll, those of the other player, the dice, the higher first,
 * and who is on roll. What a text doesn't tell is null: six counts tell the first alone, and a Position ID the first two.
 */
export interface Race {
    readonly mine: Counts;
    readonly theirs: Counts | null;
    readonly dice: [number, number] | null;
    readonly onRoll: OnRoll | null;
}

/** A bearoff race that is to be written; a {@link Race} is one. What is left out isn't told. */
export interface GivenRace {
    readonly mine: Position;
    readonly theirs?: Position | null;
    readonly dice?: Roll | null;
    readonly onRoll?: OnRoll | null;
}

/** Why there is no race. */
export type NoRaceCode =
    /** The text isn't written as its notation says, or leaves something to guess. */
    | "malformed"
    /** A player has more than 15 checkers. */
    | "too-many"
    /** A checker is on the bar. */
    | "bar"
    /** The player on roll has a checker outside the home board. */
    | "outside"
    /** The other player has a checker behind one of the player on roll. */
    | "contact"
    /** The other player has a checker outside the home board, or isn't told where a race is to be written. */
    | "other-side";

/** A text that is no bearoff race, or a race that can't be written. The message says what is wrong, and of which text. */
export class NotARaceError extends BearoffError {
    readonly code: NoRaceCode;
}

/**
 * The race of an XGID, of a Position ID with or without a Match ID, or of six counts, that of the ace point first. Between
 * the counts stand commas, semicolons, slashes, hyphens or spaces, the same throughout, and around them may be brackets.
 * What an XGID or a Match ID says of the cube, the score and the match is not asked.
 */
export function read(text: string): Race;

/**
 * The race of an XGID, of ten fields; `XGID=` may be missing. The dice are told where they are thrown, and not where a
 * double is offered.
 */
export function fromXgid(text: string): Race;

/**
 * The race of a Position ID, alone or with a Match ID behind a colon or a space, or both as GNU Backgammon prints them above
 * its board. The Position ID is seen by the player on roll.
 */
export function fromGnubg(text: string): Race;

/**
 * The XGID of a race, of a money game without Jacoby and beavers and with the cube in the middle. Where the race doesn't
 * tell who is on roll, that player is put at the bottom. A {@link NotARaceError} where a side has more than 15 checkers, the
 * other player's checkers aren't told, or the dice are none.
 */
export function toXgid(race: GivenRace): string;

/**
 * The Position ID of a race, and behind a colon the Match ID where the race tells the dice or who is on roll: that of a game
 * as {@link toXgid} writes it. It refuses what `toXgid` refuses.
 */
export function toGnubg(race: GivenRace): string;
