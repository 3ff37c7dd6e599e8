/**
 * Matches as text files: the `.mat` form of Jellyfish, which GNU Backgammon and XG export, and the `.sgf` form of GNU
 * Backgammon. Each game is replayed on a board of its own. Nothing here needs the WebAssembly module.
 */
import { BearoffError } from "./bearoff.js";
import type { Counts } from "./bearoff.js";

export { BearoffError };

/**
 * A roll of a match and what was played: the number of the game, of the move in it and of the line; the player, 0 in the
 * left column; the dice and the play as they stand there, an empty text where nothing was played; the player's checkers
 * before and after it, of 26 places from those that are off, which aren't counted, to the bar; and the other player's.
 */
export interface MatchPlay {
    readonly game: number;
    readonly move: number;
    readonly line: number;
    readonly player: 0 | 1;
    readonly dice: readonly [number, number];
    readonly text: string;
    readonly before: readonly number[];
    readonly after: readonly number[];
    readonly other: readonly number[];
}

/** A bearoff play, with the player's home board before and after it. */
export interface BearoffPlay extends MatchPlay {
    readonly points: Counts;
    readonly to: Counts;
}

/** A match: its length, which is 0 for money games, both names, how many games it has, and its rolls in their order. */
export interface Match {
    readonly length: number;
    readonly names: readonly [string, string];
    readonly games: number;
    readonly plays: readonly MatchPlay[];
}

/** Why a text is no match: it isn't written as one, a play can't be made, it isn't that player's turn, or another game. */
export type BadMatchCode = "malformed" | "illegal" | "turn" | "variation";

/** A text that is no match, or one that can't be replayed. The message names the line. */
export class BadMatchError extends BearoffError {
    readonly code: BadMatchCode;
    readonly line: number;
}

/** The match of a text. */
export function readMatch(text: string): Match;

/** The plays of a match that are bearoff races for their player, without a last roll at which nothing was played. */
export function bearoffs(match: Match): BearoffPlay[];
