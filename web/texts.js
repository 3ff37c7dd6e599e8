// Numbers, fractions, plays and refusals as the page writes them.

// What the statuses of a refused file mean, in plain words.
export const FAULTS = {
    16: "It is shorter than the header of a database.",
    17: "It doesn't begin like a bearoff database.",
    18: "It is of a version that isn't known here.",
    19: "It states a pip bound over the greatest that there is.",
    20: "It states another number of positions than its bound has.",
    21: "It states records of another length.",
    22: "A byte that has to be zero isn't.",
    23: "It has more or fewer bytes than its header says.",
    24: "A recorded play is not legal.",
    25: "A recorded play doesn't reach the least mean.",
    26: "A recorded mean is not that of the recorded plays.",
    27: "A recorded chance is not that of the recorded plays.",
};

// What the other statuses mean that a position can have.
export const REFUSALS = {
    3: "A position has at most 15 checkers.",
    4: "The position has more pips than the database.",
};

// A text on one line, of at most so many characters, none cut in half.
export const oneLine = (text, most) =>
    text.replace(/\p{Surrogate}/gu, "").replace(/\s+/g, " ").trim().slice(0, most)
        .replace(/[\ud800-\udbff]$/, "").trimEnd();

// Thousandths as a decimal.
export function decimal(thousandths) {
    const digits = thousandths.toString().padStart(4, "0");
    return `${digits.slice(0, -3)}.${digits.slice(-3)}`;
}

// Thousandths of a chance as a percentage.
export function percent(thousandths) {
    const digits = thousandths.toString().padStart(2, "0");
    return `${digits.slice(0, -1)}.${digits.slice(-1)} %`;
}

// The moves of a play by checker: those of one joined, the highest first.
export function joined(moves) {
    const ways = [];
    for (const [from, to] of [...moves].sort(([one], [other]) => other - one)) {
        const way = ways.find((other) => other.to === from);
        if (way) way.to = to;
        else ways.push({ from, to });
    }
    return ways.sort((one, other) => other.from - one.from || one.to - other.to);
}

// A play as players write it: moves of one checker joined, equal ones counted.
export function notation(moves) {
    const texts = joined(moves).map(({ from, to }) => `${from}/${to === 0 ? "off" : to}`);
    return [...new Set(texts)].map((text) => {
        const count = texts.filter((other) => other === text).length;
        return count > 1 ? `${text}(${count})` : text;
    }).join(" ");
}

export const COMING = "\u2026"; // what isn't known yet

const divisor = (one, other) => (other === 0n ? one : divisor(other, one % other));

function lowest(above, below) {
    const common = divisor(above, below);
    return `${above / common}/${below / common}`;
}

// The sum of texts like "1/18", in lowest terms.
export function sumOfFractions(fractions) {
    const [above, below] = fractions.map((text) => text.split("/").map(BigInt)).reduce(
        ([one, under], [other, over]) => [one * over + other * under, under * over], [0n, 1n]);
    return lowest(above, below);
}

// So many rolls, as a text like "1/18", in pips of the effective count: 49/6 for each.
export function inPips(rolls) {
    const [above, below] = rolls.split("/").map(BigInt);
    return lowest(49n * above, 6n * below);
}

// As many characters a fraction has at most where it stands in a sentence.
const MOST_READ = 24;

// Whether a fraction can be read at a glance.
export const isShort = (fraction) => fraction.length <= MOST_READ;

// A fraction as it stands in a sentence: as a decimal where it is long.
export const inSentence = (fraction) => (isShort(fraction) ? fraction : decimalOf(fraction));

// A text like "1/18" as a decimal, to the nearest thousandth and a half up.
export function decimalOf(fraction) {
    const [above, below] = fraction.split("/").map(BigInt);
    return decimal((2000n * above + below) / (2n * below));
}
