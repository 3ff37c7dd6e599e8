// Asks the package everything that the program was asked, and compares what it answers with the program's lines: each call,
// the texts of its replies, whole tables, and the bytes of files: of databases and of a board of 90 pips, which to 58 pips
// says what a database says. answers.mjs PACKAGE PROGRAM FOLDER [BOUND..]
import { bytesOf, end, equal, FILES, linesOf, partOf, refusedWith, textOf, wrong } from "./given.mjs";
import { isNearest, nearest, number, walked, written } from "./written.mjs";

const { Bearoff, BearoffError, asDoubles, asNumber } = await partOf("bearoff.js");
const { read } = await partOf("notation.js");
const { version } = JSON.parse(textOf("package.json"));
const REFUSED = ["too-many", "over-bound", "finished", "not-legal"];

function compareLines(database, bound) {
    const lines = linesOf(`questions_${bound}`);
    const replies = linesOf(`replies_${bound}`);
    equal(`the replies over ${bound} pips`, replies.length, lines.length);
    const seen = new Set();
    lines.forEach((line, place) => {
        const reply = replies[place];
        const name = `${line}, over ${bound} pips`;
        equal(name, database.answer(line), reply);
        seen.add(reply.split(" ")[reply.startsWith("error") ? 1 : 0]);
        if (reply === "error bad-line") return;
        let is;
        try {
            is = written(database, line);
        } catch (error) {
            if (!(error instanceof BearoffError && REFUSED.includes(error.code))) throw error;
            is = `error ${error.code}`;
        }
        equal(`${name}, by its call`, is, reply);
    });
    for (const kind of ["mean", "dist", "play", "loss", "moves", "bad-line", ...REFUSED]) {
        // 48 pips are over the bound of 44, and over no greater one
        seen.has(kind) || (bound >= 58 && kind === "over-bound") || wrong(`no reply ${kind} over ${bound} pips`);
    }
    return new Set(lines.filter((_, place) => replies[place].startsWith("mean")).map((line) => line.split(" ")[1]));
}

// What else is known of a position.
function comparePosition(database, name, position) {
    const { pips, checkers, off } = database.positionInfo(position);
    equal(`${name}, pips`, pips, position.reduce((sum, count, place) => sum + count * (place + 1), 0));
    equal(`${name}, checkers`, checkers, position.reduce((sum, count) => sum + count, 0));
    equal(`${name}, off`, off, 15 - checkers);
    const [mean, epc] = [database.mean(position), database.epc(position)];
    equal(`${name}, the mean in thousandths`, mean.thousandths, nearest(mean));
    equal(`${name}, the mean as a double`, isNearest(asNumber(mean), mean.numerator, mean.denominator), true);
    equal(`${name}, the thousandths of the mean`, database.thousandths(mean), mean.thousandths);
    equal(`${name}, the effective pip count in thousandths`, epc.thousandths, nearest(epc));
    equal(`${name}, 49/6 pips a roll`, epc.numerator * 6n * mean.denominator, 49n * mean.numerator * epc.denominator);
    equal(`${name}, wastage`, database.wastage(position).thousandths, epc.thousandths - 1000 * pips);
    const rank = database.rank(position);
    equal(`${name}, its rank's position`, database.position(rank).join(), position.join());
    equal(`${name}, by the line`, database.answer(`rank ${position}`), `rank ${rank}`);
    const [whole, shares] = [database.denominator, database.distribution(position)];
    equal(`${name}, how many shares`, shares.length, database.version === 3 ? 34 : 23);
    let [sum, all, spread] = [0n, 0n, 0n];
    shares.forEach((share, rolls) => {
        sum += share.numerator;
        all += share.numerator * BigInt(rolls);
        spread += share.numerator * (BigInt(rolls) * mean.denominator - mean.numerator) ** 2n;
        equal(`${name}, the whole`, share.denominator, whole);
        equal(`${name}, a share in thousandths`, database.thousandths(share), nearest(share));
        equal(`${name}, within ${rolls}`, database.within(position, rolls).thousandths, nearest({ numerator: sum, denominator: whole }));
    });
    equal(`${name}, all shares`, sum, whole);
    const variance = database.variance(position);
    equal(`${name}, the variance`, spread * variance.denominator, variance.numerator * whole * mean.denominator ** 2n);
    equal(`${name}, the standard deviation`, database.standardDeviation(position), Math.sqrt(asNumber(variance)));
    equal(`${name}, within many`, database.within(position, 1000).thousandths, 1000);
    equal(`${name}, the mean of the shares`, all * mean.denominator, mean.numerator * whole);
    for (const roll of [[2, 1], [6, 6]]) {
        for (const { to } of checkers > 0 ? database.moves(position, roll) : []) {
            const play = database.playTo(position, roll, to);
            equal(`${name}, a play to ${to}`, play.to.join(), to.join());
            equal(`${name}, its moves`, walked(position, play.moves), to.join());
        }
    }
}

// A text, or what was answered, stands for a list.
function compareTexts(database) {
    const xgid = "XGID=-ABC--D------------a-b--c-:0:0:1:21:0:0:0:0:10";
    const [mine, theirs] = [[1, 2, 3, 0, 0, 4], [3, 0, 0, 2, 0, 1]];
    const same = (name, is, wanted) => equal(name, JSON.stringify(is), JSON.stringify(wanted));
    for (const call of ["mean", "epc", "wastage", "distribution", "positionInfo", "rank"]) {
        for (const text of [xgid, read(xgid), "1,2,3,0,0,4", " 1 2 3 0 0 4"]) same(`${call} of a text`, database[call](text), database[call](mine));
    }
    same("within of a text", database.within(xgid, 5), database.within(mine, 5));
    const [play, moves] = [database.play(mine, [2, 1]), database.moves(mine, [2, 1])];
    for (const roll of ["21", "1-2", " 2, 1 ", 21, 12]) {
        same(`a play of ${roll}`, database.play(xgid, roll), play);
        same(`the moves of ${roll}`, database.moves(xgid, roll), moves);
    }
    equal("a play as a text", play.text, "2/off 1/off");
    for (const choice of moves) {
        const one = database.playTo(mine, "21", choice);
        for (const to of [choice, one, one.text, choice.to.join(), choice.to]) same(`what ${one.text} costs`, database.loss(xgid, "21", to), choice.loss);
        same(`how to play ${one.text}`, database.playTo(xgid, 21, one.text), one);
    }
    // one checker on the six point is off in one roll with 3/4; from the ace point always
    const wins = [[database.wins(xgid), database.wins(mine, theirs)], [database.wins([0, 0, 0, 0, 0, 1], "0,0,0,0,0,1"), "13/16"],
        [database.wins("0,0,0,0,0,1", "1,0,0,0,0,0"), "3/4"], [database.wins("1,0,0,0,0,0", "0,0,0,0,0,1", "theirs"), "1/4"]];
    for (const [is, wanted] of wins) equal("who is off first", `${is}`, `${wanted}`);
    equal("both sides", (Number(database.wins(mine, theirs)) + Number(database.wins(theirs, mine, "theirs"))).toFixed(12), "1.000000000000");
    for (const words of [[mine], ["1,2,3,0,0,4"], [mine, theirs, "top"], [mine, theirs, null]]) {
        equal("wins of one side, or of nobody's turn", refusedWith(() => database.wins(...words)), "TypeError");
    }
}

// Of each bound the position from which a double one leads to more results than any other roll of any position does.
const LONGEST = { 44: ["4,2,2,2,2,2", 100], 58: ["3,3,2,2,2,3", 108] };

function compareLongest(database, bound) {
    const [at, count] = LONGEST[bound];
    const moves = database.moves(number(at), [1, 1]);
    equal(`the results of ${at}`, moves.length, count);
    equal(`the results of ${at}, each once`, new Set(moves.map(({ to }) => to.join())).size, count);
    equal(`the results of ${at}, by the line`, database.answer(`moves ${at} 11`), written(database, `moves ${at} 11`));
}

// The number of three words that stands at a place of a table.
const wordsAt = (table, place) => (table[place] << 128n) | (table[place + 1] << 64n) | table[place + 2];

// Whole tables, beside the calls for one position, which were compared with the program's lines, and the sums of all shares.
function compareTables(database, bound, asked) {
    const [count, whole, rolls] = [database.positionCount, database.denominator, database.version === 3 ? 34 : 23];
    const lengths = { positions: 6, means: 3, epcs: 7, distributions: 102 };
    const tables = Object.fromEntries(Object.keys(lengths).map((name) => [name, database[name]()]));
    for (const [name, table] of Object.entries(tables)) {
        const each = lengths[name];
        equal(`how many ${name} of ${bound} pips`, table.length, each * count);
        for (const [first, some] of [[0, 1], [count - 1, 1], [7, Math.min(400, count - 7)], [count, 0], [3, 0]]) {
            equal(`${some} ${name} from ${first} on`, database[name](first, some).join(), table.slice(each * first, each * (first + some)).join());
        }
        for (const [first, some] of [[0, count + 1], [count + 1, 0], [count, 1]]) equal(`${some} ${name} from ${first} on`, refusedWith(() => database[name](first, some)), "no-rank");
        equal(`${name} from 5 on`, database[name](5).length, each * (count - 5));
        const before = table[0];
        table[0] += typeof before === "bigint" ? 1n : 1;
        equal(`${name} are copies`, database[name](0, 1)[0], before);
        table[0] = before;
    }
    const { positions, means, epcs, distributions } = tables;
    const [doubles, shares] = [asDoubles(means), asDoubles(distributions)];
    for (const text of asked) {
        const position = number(text);
        const rank = database.rank(position);
        const name = `${text} in the tables of ${bound} pips`;
        equal(`${name}, the position`, positions.subarray(6 * rank, 6 * rank + 6).join(), text);
        const [mean, epc] = [database.mean(position), database.epc(position)];
        equal(`${name}, the mean`, wordsAt(means, 3 * rank) * mean.denominator, mean.numerator * whole);
        equal(`${name}, near the mean`, Math.abs(doubles[rank] - asNumber(mean)) <= 1e-15 * doubles[rank], true);
        const place = 7 * rank;
        equal(`${name}, the effective pip count`, [wordsAt(epcs, place), wordsAt(epcs, place + 3), epcs[place + 6]].join(),
            [epc.numerator, epc.denominator, epc.thousandths].join());
        database.distribution(position).forEach((share, place) => {
            equal(`${name}, the share of ${place}`, wordsAt(distributions, 102 * rank + 3 * place), share.numerator);
            equal(`${name}, near it`, Math.abs(shares[rolls * rank + place] - asNumber(share)) <= 1e-15, true);
        });
    }
    for (let rank = 0; rank < count; rank++) {
        let sum = 0n;
        for (let place = 0; place < rolls; place++) sum += wordsAt(distributions, 102 * rank + 3 * place);
        if (sum !== whole) wrong(`the shares of rank ${rank} add up to ${sum}`);
    }
    return tables;
}

// To 58 pips a board says what a database says.
async function compareWithDatabase(board, { positions, means, distributions }) {
    const database = await Bearoff.open(bytesOf(FILES[58]));
    const [count, more] = [database.positionCount, 36n ** 11n];
    equal("the positions of 58 pips", positions.subarray(0, 6 * count).join(), database.positions().join());
    const [itsMeans, itsShares] = [database.means(), database.distributions()];
    for (let rank = 0; rank < count; rank++) {
        if (wordsAt(means, 3 * rank) !== wordsAt(itsMeans, 3 * rank) * more) wrong(`the mean of rank ${rank} is not that of the database`);
        for (let place = 102 * rank; place < 102 * rank + 102; place += 3) {
            if (wordsAt(distributions, place) !== wordsAt(itsShares, place) * more) wrong(`a share of rank ${rank} is not that of the database`);
        }
    }
    for (let rank = 1; rank < count; rank += 463) {
        const position = database.position(rank);
        for (const roll of ["21", "11", "65"]) for (const name of ["play", "moves"]) {
            equal(`${name} of ${position}`, JSON.stringify(board[name](position, roll)), JSON.stringify(database[name](position, roll)));
        }
    }
    database.close();
}

for (const bound of process.argv.length > 5 ? process.argv.slice(5).map(Number) : [8, 44, 58, 90]) {
    const file = bytesOf(FILES[bound]);
    const built = await Bearoff.build(bound);
    equal(`the file of ${bound} pips`, Buffer.compare(Buffer.from(built.bytes()), file), 0);
    equal(`the bound of ${bound} pips`, built.bound, bound);
    equal(`the version of ${bound} pips`, [built.version, built.denominator].join(), [[1, 36n ** 22n], [2, 36n ** 22n], [3, 36n ** 33n]][(bound > 44) + (bound > 58)].join());
    equal("the version of the library", built.libraryVersion, version);
    built.close();
    const database = await Bearoff.open(file);
    if (bound > 8) compareTexts(database);
    const asked = compareLines(database, bound);
    for (const text of bound === 8 ? asked : [...asked].slice(0, 100)) comparePosition(database, text, number(text));
    const tables = compareTables(database, bound, asked);
    if (database.version === 3) await compareWithDatabase(database, tables);
    if (bound in LONGEST) compareLongest(database, bound);
    if (bound <= 44) {
        const upgraded = database.upgrade();
        equal(`the upgrade of ${bound} pips`, Buffer.compare(Buffer.from(upgraded), bytesOf(`${FILES[bound]}_new`)), 0);
        const newer = await Bearoff.open(upgraded);
        equal("its version", newer.version, 2);
        for (const text of [...asked].slice(0, 50)) equal(`${text}, upgraded`, newer.answer(`dist ${text}`), database.answer(`dist ${text}`));
        newer.close();
    }
    database.close();
}
end();
