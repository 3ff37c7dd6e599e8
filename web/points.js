// A position as six counts, and the rolls.

export const MOST_CHECKERS = 15;

export const sumOf = (counts) => counts.reduce((sum, count) => sum + count, 0);

export const pipsOf = (counts) =>
    counts.reduce((sum, count, place) => sum + count * (place + 1), 0);

// A position in words, as a reader hears it.
export function inWords(points) {
    const told = [6, 5, 4, 3, 2, 1].filter((point) => points[point - 1] > 0)
        .map((point) => `${points[point - 1]} on ${point}`);
    return `${told.join(", ") || "no checker"}, ${MOST_CHECKERS - sumOf(points)} borne off`;
}

// The bounds, in pips, of what the page builds: the first database, and the whole board.
export const FIRST = 44;
export const GREATEST = 90;

// Six counts of at most 15 checkers in all, or null.
export function readPoints(text) {
    const counts = text.split(",");
    if (counts.length !== 6 || !counts.every((count) => /^\d{1,2}$/.test(count))) return null;
    const points = counts.map(Number);
    return sumOf(points) <= MOST_CHECKERS ? points : null;
}

// Every roll, the higher die first.
export const ROLLS = Array.from({ length: 6 }, (_, high) =>
    Array.from({ length: high + 1 }, (_, low) => [high + 1, low + 1])).flat();

export const sameRoll = (one, other) => Boolean(one && other && one.join() === other.join());

export const keyOf = (points) => points.join();
