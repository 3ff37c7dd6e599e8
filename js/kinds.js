// The two kinds of file, and what differs between them: the most rolls that have a share, and what all chances add up to.

export const DATABASE = { rolls: 22, denominator: 36n ** 22n };

export const BOARD = { rolls: 33, denominator: 36n ** 33n };

// How many words of 64 bits a number of the module has, the greatest first, and a distribution shares: those over the most
// rolls are 0.
export const WORDS = 3;
export const SHARES = 34;

// A right file has at most so many bytes, and a longer one is refused for its length at the latest.
export const MOST_FILE_BYTES = 15060844;

// Over this bound a file that is built is a board file.
export const LAST_DATABASE_BOUND = 58;

// The kind of a file of a version.
export const BOARD_VERSION = 3;

export const kindOf = (version) => (version === BOARD_VERSION ? BOARD : DATABASE);
