// Matches as the page reads them, beside the package for Python: the same plays, and the same words where
// one is refused, of the stored matches and of many texts that are nearly matches; and from a drop to the
// first question that comes back.
import { spawnSync } from "node:child_process";
import { readFileSync } from "node:fs";
import { join } from "node:path";
import { bearoffs, readMatch } from "../../js/matches.js";
import { equal, part, ROOT, wrong } from "./given.mjs";

const stored = (name) => readFileSync(join(ROOT, "python/tests/matches", name), "utf8");
const FILES = ["short.mat", "short.sgf"].map(stored);
const [SHORT, SAVED] = FILES;

const ASK = `
import json, sys
sys.path.insert(0, sys.argv[1])
from bearoff.matches import BadMatch, read_match
from bearoff.grading import _ends
def told(text):
    try:
        match = read_match(text)
    except BadMatch as error:
        return [error.reason, error.line, str(error)]
    return [match.length, match.names, match.games, len(match.plays), [
        [turn.game, turn.move, turn.line, turn.player, turn.dice, turn.text, turn.position, turn.to]
        for place, turn in enumerate(match.plays)
        if turn.is_bearoff and (turn.text or not _ends(match, place))]]
print(json.dumps([told(text) for text in json.load(sys.stdin)]))
`;

// What the package for Python says of some texts.
function byPython(texts) {
    const { status, stdout, stderr } = spawnSync("/usr/bin/python3", ["-I", "-c", ASK, join(ROOT, "python")],
        { input: JSON.stringify(texts), encoding: "utf8", maxBuffer: 1e9 });
    if (status !== 0) throw new Error(stderr);
    return JSON.parse(stdout);
}

function byPage(text) {
    try {
        const match = readMatch(text);
        return [match.length, match.names, match.games, match.plays.length, bearoffs(match).map((turn) =>
            [turn.game, turn.move, turn.line, turn.player, turn.dice, turn.text, turn.points, turn.to])];
    } catch (error) {
        return [error.code, error.line, error.message];
    }
}

function compare(texts) {
    const told = byPython(texts);
    for (const [place, text] of texts.entries()) {
        const [is, wanted] = [byPage(text), told[place]].map((one) => JSON.stringify(one));
        if (is !== wanted) wrong(`of ${JSON.stringify(text.slice(0, 300))} the page says\n${is}\nand Python\n${wanted}`);
    }
    return told;
}

part("the stored matches, and both forms alike", () => {
    const [mat, sgf] = compare(FILES);
    const board = (point) => Array.from({ length: 26 }, (_, place) => (place === point ? 1 : 0));
    equal("none with contact, or with a checker outside", [[3, 20], [3, 23], [3, 25], [7, 1], [25, 1]].map(([mine, other]) =>
        bearoffs({ plays: [{ before: board(mine), after: board(0), other: board(other), text: "3/off" }] }).length),
    [1, 0, 0, 0, 0]);
    equal("bearoff plays", [mat[4].length > 10, sgf[4].map((turn) => turn.slice(6))], [true, mat[4].map((turn) => turn.slice(6))]);
});

// The rows of tests/matches.txt; and of each its text, its verdict, and the words that it has.
const rows = readFileSync(join(ROOT, "tests/matches.txt"), "utf8").split("\n").filter((line) => /^[a-z]/.test(line));
const textOf = (row) => {
    const [verdict, of, old, now, words] = row.split(/ \| ?/).map(decodeURIComponent);
    const [name, number] = of.split(" ");
    const text = { mat: SHORT, sgf: SAVED, head: SAVED.split("\n")[0], text: "" }[name];
    const lines = number ? text.split("\n") : [text];
    const at = number ? Number(number) - 1 : 0;
    if (old !== "" && lines[at].split(old).length !== 2) wrong(`${row}: what it takes the place of stands not once`);
    lines[at] = old === "" ? lines[at] + now : lines[at].replace(old, () => now);
    return { row, text: lines.join("\n"), verdict, words };
};

part("each row of texts of matches", () => {
    const told = rows.map(textOf);
    for (const { row, text, verdict, words } of told) {
        const [first, second, third, ...more] = byPage(text);
        if (more.length === 0) {
            equal(row, [`${first} ${second}`, third.startsWith(`line ${second}: `), third.includes(words)], [verdict, true, true]);
        } else equal(row, [`read ${more[0]} ${more[1].length}`, [first, third, ...second].join(" ")], [verdict, words]);
    }
    compare(told.map(({ text }) => text));
});

part("texts that are nearly matches", () => {
    let state = Number(process.env.SEED) || 20261128;
    const below = (count) => {
        state = (48271 * state) % 2147483647;
        return Math.floor((state / 2147483647) * count);
    };
    const one = (list) => list[below(list.length)];
    const WORDS = ["31:", "66:", "8/5", "bar/20", "6/off", "24/18*", "6/off(2)", "13/11/9", "Cannot", "Move", "Takes",
        "Drops", "Doubles => 2", "Wins 1 point", "Wins 2 points and the match", "and the match", "7 point match", "Game 1",
        "Game 2", "1)", "22)", "Ann : 0", " : 3 ", "; x", ';[Variation "NackGammon"]', "\t", "\n", "\r\n", "0/1", "5/8", "99/1",
        "x", "é", "\u{1F3B2}", "  ", ";B[31aabb]", ";W[double]", "(;GM[6]", ")", "[", "]", "\\", "AB[a]", "MI[length:7]",
        "RU[Nackgammon]", "RU[Crawford:Jacoby]", "PW[Ann]", "PB[Bo\\]b]", "GM[7]", ";W[52yx]", "B[11]", "y", "z",
        "\u0130", "\u0131", "\u017f", "\u212a", "\u0660", "\uff11", "\u00b2", "07", "\0", "\x1b", "\ud800",
        ..."\v\f\r\x1c\x1f\x85\xa0\u2003\u2028\ufeff\u180e\u200b"];
    const changed = (text) => {
        let made = text;
        for (let count = 1 + below(3); count > 0; count -= 1) {
            const lines = made.split("\n");
            const [at, other] = [below(lines.length), below(lines.length)];
            const [from, length] = [below(made.length), below(9)];
            made = one([
                () => lines.filter((_, place) => place !== at).join("\n"),
                () => [...lines.slice(0, at), lines[other], ...lines.slice(at)].join("\n"),
                () => made.slice(0, from) + made.slice(from + length),
                () => made.slice(0, from) + one(WORDS) + made.slice(from + (below(2) && length)),
                () => made.slice(0, from),
                () => made.replaceAll(/\d(?=\/)/g, (digit) => (below(40) === 0 ? String(below(26)) : digit)),
            ])();
        }
        return made;
    };
    const texts = Array.from({ length: 1500 }, () => changed(one(FILES)));
    compare(texts);
    compare([`7 point match\n${"x".repeat(1001)}`, `;${"x".repeat(1001)}`, `${SHORT}\n\n`, SHORT.replaceAll("\n", "\r\n"),
        SHORT.replaceAll("\n", "\r"), SHORT.replaceAll(" ", "\t"), ` \n${SAVED}`]);
});
