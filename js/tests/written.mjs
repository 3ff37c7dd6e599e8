// What the program writes for a line, put together from the calls of the package; and what such texts are made of.

const fraction = ({ numerator, denominator }) => `${numerator}/${denominator}`;
const divisor = (one, other) => (other === 0n ? one : divisor(other, one % other));
const decimal = (thousandths) => `${Math.floor(thousandths / 1000)}.${String(thousandths % 1000).padStart(3, "0")}`;
export const number = (text) => text.split(",").map(Number);

// A number over another in thousandths, to the nearest and a half up, as the definition says.
export const nearest = ({ numerator, denominator }) => Number((2000n * numerator + denominator) / (2n * denominator));

const view = new DataView(new ArrayBuffer(8));

// Whether no double is nearer to a fraction, and of two that are as near this one is the even one.
export function isNearest(double, numerator, denominator) {
    if (numerator === 0n) return Object.is(double, 0);
    view.setFloat64(0, double);
    const bits = view.getBigUint64(0);
    const [exponent, front] = [(bits >> 52n) - 1075n, (bits & (2n ** 52n - 1n)) | (2n ** 52n)];
    const up = exponent < 0n ? -exponent : 0n;
    const [is, wanted] = [(front << (exponent < 0n ? 0n : exponent)) * denominator, numerator << up];
    const unit = denominator << (exponent < 0n ? 0n : exponent);
    const off = is > wanted ? is - wanted : wanted - is;
    // below a power of two doubles are twice as near to one another
    if (front === 2n ** 52n && is > wanted) return 4n * off <= unit;
    return 2n * off < unit || (2n * off === unit && front % 2n === 0n);
}

function lowest({ numerator, denominator }) {
    const common = divisor(numerator, denominator);
    return `${numerator / common}/${denominator / common}`;
}

// What the program writes for a line, put together from what the calls answer.
export function written(database, line) {
    const [word, at, dice, to] = line.split(" ");
    const position = number(at);
    const roll = dice && [...dice].map(Number);
    if (word === "mean") {
        const epc = database.epc(position);
        return `mean ${fraction(database.mean(position))} epc ${fraction(epc)} ${decimal(epc.thousandths)}`;
    }
    if (word === "dist") {
        const shares = database.distribution(position).map((share, rolls) => [rolls, share]);
        return `dist ${shares.filter(([, share]) => share.numerator > 0n).map(([rolls, share]) => `${rolls}:${lowest(share)}`).join(" ")}`;
    }
    if (word === "play") {
        const play = database.play(position, roll);
        return `play ${play.moves.map((move) => `${move.from}/${move.to === 0 ? "off" : move.to}`).join(" ")} to ${play.to}`;
    }
    if (word === "loss") return `loss ${fraction(database.loss(position, roll, number(to)))}`;
    if (word === "rank") return `rank ${database.rank(position)}`;
    return `moves ${database.moves(position, roll).map((choice) => `${choice.to}:${fraction(choice.loss)}`).join(" ")}`;
}

// Where moves lead, checker by checker.
export function walked(position, moves) {
    const counts = [...position];
    for (const { from, to } of moves) {
        counts[from - 1] -= 1;
        if (to > 0) counts[to - 1] += 1;
    }
    return counts.join();
}
