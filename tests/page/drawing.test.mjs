// What the page's script draws, and what it reads from an address, under node.
import { board, dicePicture, die, lookedAt, miniature, placeUnder, played, watched } from "../../web/board/drawing.js";
import { asSvg, linesOf } from "../../web/board/picture.js";
import { byLoss } from "../../web/board/state.js";
import { chances, kept, numbers } from "../../web/board/view.js";
import { Bar, Client, reached } from "../../web/client.js";
import { MOST_KEPT, readLink, START, writeLink } from "../../web/link.js";
import { readPoints, ROLLS } from "../../web/points.js";
import { followingOf, kindsOf, numbersFrom } from "../../web/question/questions.js";
import { decimal, notation, percent } from "../../web/texts.js";
import { build, draw, h } from "../../web/tree.js";
import { abilities } from "../../js/abilities.js";
import { Browser } from "./browser.mjs";
import { equal, part } from "./given.mjs";
import { newDocument, Window, Worker, tell, textOf } from "./stand_in.mjs";

const caption = "<img src=x onerror=\"document.title='no'\"> & \"quotes\", 'too' \u2212 100%";
const document = newDocument();
const all = (node, tag) => (node.localName === tag ? [node] : [])
        .concat([...node.childNodes].flatMap((child) => all(child, tag)));
const classed = (node, tag, name) => all(node, tag).filter((element) => element.getAttribute("class") === name);
const act = { add() {}, press: () => false, clear() {} };
const answer = {
    bound: 44, standing: { pips: 6, checkers: 1, off: 14 }, mean: { text: "1.250", exact: "5/4" },
    effective: { text: "10.208", exact: "245/24", thousandths: 10208n }, wastage: { text: "4.208" },
};

part("texts of numbers", async () => {
    for (const [thousandths, text] of [[0n, "0.000"], [7n, "0.007"], [999n, "0.999"], [1000n, "1.000"],
            [57000n, "57.000"]]) {
        equal("a decimal", decimal(thousandths), text);
    }
    for (const [thousandths, text] of [[0n, "0.0 %"], [4n, "0.4 %"], [306n, "30.6 %"],
            [1000n, "100.0 %"]]) equal("a percentage", percent(thousandths), text);
    for (const [moves, text] of [
        [[[4, 2], [2, 0]], "4/off"], [[[4, 3], [3, 2], [2, 1], [1, 0]], "4/off"], [Array(4).fill([4, 0]), "4/off(4)"],
            [[[6, 5], [5, 3], [4, 0]], "6/3 4/off"],
        [[[6, 3], [6, 3], [3, 0], [3, 0]], "6/off(2)"], [[[6, 3], [6, 3], [3, 0], [5, 2]], "6/off 6/3 5/2"],
            [[[2, 0], [6, 4]], "6/4 2/off"],
        [[[6, 4], [6, 4], [4, 2], [5, 3]], "6/2 6/4 5/3"], [[], ""], [[[6, 1]], "6/1"],
            [[[2, 1], [2, 1], [1, 0], [1, 0]], "2/off(2)"],
    ]) equal(`the play ${JSON.stringify(moves)}`, notation(moves), text);
});

part("a step that goes on, and doesn't end before it is done", async () => {
    const parts = [0, 100, 400, 4000].map((passed) => reached({ from: 0.1, until: 0.5, usual: 400 }, passed));
    equal("a bar that moves on", parts.every((part, place) => part < 0.5
            && (place === 0 ? part === 0.1 : part > parts[place - 1])), true);
});

part("positions and addresses", async () => {
    for (const [text, points] of [
        ["0,0,0,0,0,1", [0, 0, 0, 0, 0, 1]], ["15,0,0,0,0,0", [15, 0, 0, 0, 0, 0]], ["15,1,0,0,0,0", null],
            ["1,2,3", null],
        ["", null], ["1,1,1,1,1,-1", null], ["1,1,1,1,1,1,1", null], ["1,1,1,1,1,1e1", null], ["1,1,1,1,1,", null],
    ]) equal(`the position ${text}`, readPoints(text), points);
    const state = {
        points: [0, 0, 0, 0, 0, 1], title: "A lesson & more", roll: [3, 1], guess: true, bound: 90,
        kept: [{ points: [1, 2, 0, 0, 0, 0], caption }, { points: [15, 0, 0, 0, 0, 0], caption: "" }],
    };
    const back = readLink(writeLink(state));
    for (const name of Object.keys(state)) equal(`what the address keeps: ${name}`, back[name], state[name]);
    equal("an empty address", readLink("").points, START);
    equal("a bad address", readLink("#at=99,0,0,0,0,0&p=x&c=lost&roll=70&t=%20&pips=90").kept, []);
    equal("a roll the other way round", readLink("#roll=13").roll, [3, 1]);
    const many = Array.from({ length: 14 }, (_, count) => `p=${count},0,0,0,0,0`).join("&");
    equal("the most positions", readLink(`#${many}`).kept.length, MOST_KEPT);
});

part("the board", async () => {
    const drawn = build(document, board([0, 0, 0, 2, 0, 3], [[6, 3], [4, 0]], act));
    equal("checkers on the board", classed(drawn, "circle", "checker").length, 5);
    equal("checkers in the tray", classed(drawn, "rect", "checker").length, 10);
    equal("arcs", classed(drawn, "path", "way").length, 2);
    equal("a checker that comes down", classed(drawn, "circle", "landing").length, 1);
    equal("checkers that leave", classed(drawn, "circle", "leaving").map((ring) => ring.getAttribute("cx")),
        ["50", "250"]);
    const spins = all(drawn, "g").filter((group) => group.getAttribute("role") === "spinbutton");
    equal("points", spins.map((spin) => [spin.getAttribute("aria-label"),
            spin.getAttribute("aria-valuenow")].join(" ")),
        ["Point 6 3", "Point 5 0", "Point 4 2", "Point 3 0", "Point 2 0", "Point 1 0"]);
    equal("the most of a point", spins[0].getAttribute("aria-valuemax"), "13");
    equal("in words", spins.map((spin) => spin.getAttribute("aria-valuetext")).slice(0, 2),
        ["3 checkers", "0 checkers"]);
    for (const view of [board([15, 0, 0, 0, 0, 0], [], act), lookedAt([15, 0, 0, 0, 0, 0], [])]) {
        const checkers = classed(build(document, view), "circle",
            "checker").map((checker) => Number(checker.getAttribute("cy")));
        equal("a stack of 15 stays on the board",
            [checkers.length, checkers.every((y) => y > 20 && y < 330), new Set(checkers).size], [15, true, 15]);
    }
    equal("how many stand in a stack", classed(build(document, board([5, 4, 0, 0, 0, 0], [], act)), "text",
            "tally").map((text) => text.textContent), ["5"]);
    // how many stand there is over each arc and ring of a play, and none meets it
    for (const [points, moves] of [[[7, 5, 0, 0, 0, 0], [[2, 0], [1, 0]]],
            [[0, 0, 0, 5, 0, 5], [[6, 4], [6, 4], [4, 2], [4, 2]]], [[0, 0, 0, 0, 0, 15], Array(4).fill([6, 5])],
        [[1, 6, 0, 1, 0, 1], [[6, 1], [4, 1]]], [[5, 5, 5, 0, 0, 0], Array(4).fill([3, 0])]]) {
        for (const view of [watched(points, moves), lookedAt(points, moves), board(points, moves, act)]) {
            const drawn = build(document, view);
            const order = [...all(drawn, "path"), ...all(drawn, "circle")].map((node) => node.getAttribute("class"));
            equal("arcs are there", order.includes("way"), true);
            const list = [drawn, ...[...(function* walk(node) { for (const child of node.childNodes) {
                yield child;
                yield* walk(child);
            } })(drawn)]];
            const place = (name) => list.map((node) => node.getAttribute?.("class")).lastIndexOf(name);
            equal(`a tally of ${points} is drawn after the play`,
                place("tally") > Math.max(place("way"), place("landing"), place("leaving"), place("checker")), true);
            const tallies = classed(drawn, "text",
                "tally").map((text) => [Number(text.getAttribute("x")), Number(text.getAttribute("y")) - 8]);
            equal(`each stack of ${points} has one`, classed(drawn, "text", "tally").map((text) => text.textContent),
                [...points].reverse().filter((count) => count > 4).map(String));
            const rings = ["leaving", "landing"].flatMap((name) => classed(drawn, "circle", name))
                    .map((ring) => [Number(ring.getAttribute("cx")), Number(ring.getAttribute("cy"))]);
            const along = classed(drawn, "path", "way").flatMap((way) => {
                const [x, y, a, b, c, d, e, f] = way.getAttribute("d").match(/[\d.]+/g).map(Number);
                return Array.from({ length: 41 }, (_, part) => part / 40).map((t) => [[x, a, c, e],
                        [y, b, d, f]].map(([p, q, r, s]) => (1 - t) ** 3 * p + 3 * (1 - t) ** 2 * t * q
                    + 3 * (1 - t) * t * t * r + t ** 3 * s));
            });
            equal(`no arc or ring of ${points} meets a tally`,
                tallies.filter(([x, y]) => along.some(([u, v]) => Math.abs(x - u) < 20 && Math.abs(y - v) < 16)
                || rings.some(([u, v]) => Math.hypot(x - u, y - v) < 47)), []);
        }
    }
    equal("a miniature", all(build(document, miniature([1, 2, 3, 4, 5, 0])),
            "circle").map((disc) => disc.getAttribute("cx")).filter((x) => x === "88").length, 1);
    equal("in a miniature", all(build(document, miniature([1, 2, 3, 4, 5, 0])), "circle").length, 15);
});

part("what stands in a picture", async () => {
    const spots = (value) => all(build(document, die(value)),
        "circle").map((spot) => `${spot.getAttribute("cx")},${spot.getAttribute("cy")}`).sort().join(" ");
    for (const [value, places] of [
        [1, "10,10"], [2, "15,15 5,5"], [3, "10,10 15,15 5,5"], [4, "15,15 15,5 5,15 5,5"],
            [5, "10,10 15,15 15,5 5,15 5,5"], [6, "15,10 15,15 15,5 5,10 5,15 5,5"],
    ]) equal(`the spots of a ${value}`, spots(value), places);
    const points = [3, 0, 7, 2, 0, 1];
    for (const view of [board(points, [], act), watched(points, []), lookedAt(points, []),
            played({ points, ways: new Map(), play: null }, { picked: null, stop: null }, act)]) {
        const drawn = classed(build(document, view), "circle", "checker");
        for (const [place, count] of points.entries()) {
            const stack = drawn.filter((checker) => Number(checker.getAttribute("cx")) === 550 - 100 * place)
                    .map((checker) => Number(checker.getAttribute("cy")));
            const apart = count < 6 ? 60 : 240 / (count - 1);
            equal(`the checkers of point ${place + 1}`, stack,
                Array.from({ length: count }, (_, higher) => 300 - apart * higher));
        }
    }
    // each arc begins in the middle of the checker that leaves, and ends where it lands; both have rings
    const ends = (moves) => {
        const drawn = build(document, watched([0, 0, 0, 2, 0, 3], moves));
        return [classed(drawn, "path", "way").map((way) => way.getAttribute("d").match(/[\d.]+/g).map(Number))
                .map((way) => [...way.slice(0, 2), ...way.slice(-2)].join(" ")),
            ...["leaving", "landing"].map((kind) => classed(drawn, "circle",
                kind).map((ring) => `${ring.getAttribute("cx")} ${ring.getAttribute("cy")}`))];
    };
    equal("a move and one off", ends([[6, 3], [4, 0]]),
        [["50 180 350 300", "250 240 650 180"], ["50 180", "250 240"], ["350 300"]]);
    equal("two of a point", ends([[6, 4], [6, 4]]),
        [["50 180 250 120"], ["50 180", "50 240"], ["250 180", "250 120"]]);
    equal("one that goes on", ends([[6, 5], [5, 0]]), [["50 180 650 180"], ["50 180"], []]);
    const times = (moves) => [...build(document, watched([0, 0, 0, 2, 0, 3], moves)).querySelectorAll("text.times")]
        .map((text) => text.textContent);
    equal("how many go the same way", [[[6, 3], [4, 0]], [[6, 4], [6, 4]], [[6, 5], [5, 4], [6, 5], [5, 4]],
        [[6, 5], [6, 5], [6, 5], [4, 3]]].map(times), [[], ["2"], ["2"], ["3"]]);
    // no arrow leaves the felt, whose upper edge is at -48, though the stack is the tallest
    const highest = (moves) => Math.min(...classed(build(document, watched([0, 0, 0, 0, 0, 15], moves)), "path", "way")
        .map((way) => way.getAttribute("d").match(/-?[\d.]+/g).map(Number)).map(([, y, , one, , other, , low]) =>
            Math.min(...Array.from({ length: 41 }, (_, part) => part / 40).map((t) =>
                (1 - t) ** 3 * y + 3 * (1 - t) ** 2 * t * one + 3 * (1 - t) * t * t * other + t ** 3 * low))));
    equal("arrows from a tall stack", [[[6, 5]], [[6, 0], [6, 5], [6, 4], [6, 3]]].map((moves) => highest(moves) > -40), [true, true]);
    // the checkers have keys of their own, and a moved one keeps its
    const keyed = (made) => new Map([...build(document, played({ points: [0, 0, 0, 2, 0, 3], ways: new Map(), play: null },
        { picked: null, stop: null, made }, act)).querySelectorAll(".glides circle")].map((disc) =>
        [disc.getAttribute("data-key"), `${disc.getAttribute("cx")} ${disc.getAttribute("cy")}`]));
    equal("a checker that glides", [...keyed([[6, 3]])].filter(([key, at]) => keyed([]).get(key) !== at),
        [["checker 6.2", "350 300"]]);
    equal("in an order that stays, so that none is taken out and put in again", [...keyed([[6, 3]]).keys()],
        [...keyed([]).keys()]);
    equal("one that is borne off", [keyed([]).size, keyed([[4, 0]]).size], [5, 4]);
    const dice = (roll) => [...build(document, watched([0, 0, 0, 2, 0, 3], [], roll)).querySelectorAll(".thrown > g")]
        .map((die) => die.querySelectorAll("circle").length);
    equal("the dice that were thrown", [dice([6, 5]), dice([1, 1]), dice(null)], [[6, 5], [1, 1], []]);
    const marks = build(document, played({ points: [0, 0, 0, 2, 0, 3],
            ways: new Map([[6, new Map([[3, []], [0, []]])]]), play: null }, { picked: 6, stop: null }, act));
    equal("rings where a checker can go", [classed(marks, "circle",
            "spot").map((ring) => `${ring.getAttribute("cx")} ${ring.getAttribute("cy")}`),
        classed(marks, "rect", "spot").length, classed(marks, "circle",
        "mark").map((ring) => `${ring.getAttribute("cx")} ${ring.getAttribute("cy")}`)], [["350 300"], 1, ["50 180"]]);
    equal("the places under a board's width", [0, 0.1, 0.15, 0.5, 0.85, 0.9, 1, -0.1, 1.1].map(placeUnder),
        [6, 6, 5, 3, 1, 0, 0, null, null]);
    const small = [...all(build(document, miniature([2, 0, 0, 0, 0, 7])),
            "circle")].map((disc) => `${disc.getAttribute("cx")} ${Number(disc.getAttribute("cy")).toFixed(2)}`);
    equal("the discs of a miniature", small.sort(),
        [...Array.from({ length: 7 }, (_, higher) => `8 ${(35 - 5 * higher).toFixed(2)}`), "88 30.00",
        "88 35.00"].sort());
});

// How many stand on a point is over each ring of a play that is being made, and far from it.
part("counts over the rings of a play that is made", () => {
    for (const [points, picked, to] of [
        [[15, 0, 0, 0, 0, 0], 1, 0], [[0, 0, 0, 5, 0, 9], 6, 4], [[5, 5, 5, 0, 0, 0], 3, 1],
            [[0, 0, 14, 0, 0, 1], 6, 3],
    ]) {
        const ways = new Map(points.flatMap((count, place) => (count > 0 ? [[place + 1, new Map([[to, []]])]] : [])));
        for (const chosen of [null, picked]) {
            const drawn = build(document, played({ points, ways, play: null }, { picked: chosen, stop: null }, act));
            const order = [...drawn.querySelectorAll("*")].map((node) => node.getAttribute("class"));
            const tallies = [...drawn.querySelectorAll("text.tally")];
            equal(`${points}, ${chosen}: each high stack is counted`, tallies.map((text) => text.textContent),
                [...points].reverse().filter((count) => count > 4).map(String));
            const rings = [...drawn.querySelectorAll("circle.mark, circle.spot")];
            equal(`${points}, ${chosen}: there are rings`, rings.length > 0 || to === 0, true);
            const last = Math.max(...["mark", "spot", "checker"].map((name) => order.lastIndexOf(name)));
            equal(`${points}, ${chosen}: the counts are drawn last`, order.indexOf("under-tally") > last, true);
            const met = rings.filter((ring) => tallies.some((text) => {
                const [across, down] = [["cx", "x", 0], ["cy", "y", 8]].map(([one, other, lower]) =>
                    Number(ring.getAttribute(one)) - (Number(text.getAttribute(other)) - lower));
                return Math.hypot(across, down) < Number(ring.getAttribute("r")) + 20;
            }));
            equal(`${points}, ${chosen}: no ring meets a count`, met.length, 0);
        }
    }
});

part("each roll has its name in words, beside its picture", () => {
    for (const [high, low] of ROLLS) {
        const span = build(document, h("p", {}, dicePicture([high, low])));
        const words = high === low ? `Double ${high}` : `${high} and ${low}`;
        equal(`${high}-${low} in words`, span.textContent, words);
        const [heard, dice] = span.childNodes;
        equal(`${high}-${low} is heard, and its picture isn't`,
            [heard.getAttribute("class"), dice.getAttribute("aria-hidden")], ["heard", "true"]);
        const spots = [...dice.querySelectorAll("svg")].map((one) => one.querySelectorAll("circle").length);
        equal(`${high}-${low} as dice`, spots, [high, low]);
    }
});

// The numbers are those of the generator that C++ calls minstd_rand, whose ten thousandth its standard names.
part("the numbers of a seed", () => {
    const numbers = (seed, count) => {
        const drawn = numbersFrom(seed);
        return Array.from({ length: count }, () => drawn.next().value);
    };
    equal("of the first seed", numbers(1, 5), [48271, 182605794, 1291394886, 1914720637, 2078669041]);
    equal("its ten thousandth", numbers(1, 10000).at(-1), 399268537);
    equal("of another one", numbers(7, 1), [7 * 48271]);
    equal("of the greatest", numbers(999999999, 1), [Number((999999999n * 48271n) % 2147483647n)]);
    // a half of the questions tempt, and a half follow their theme's name, at places that tell nothing of each other
    let [both, places] = [0, Array(20).fill(0)];
    for (let seed = 1; seed <= 400; seed += 1) {
        const [tempts, follows] = [kindsOf(seed), followingOf(seed)];
        equal(`seed ${seed}: halves`, [tempts.length, ...[tempts, follows].map((are) => are.filter(Boolean).length)],
            [20, 10, 10]);
        both += tempts.filter((tempting, place) => tempting && follows[place]).length;
        places = places.map((count, place) => count + (follows[place] ? 1 : 0));
    }
    equal("a quarter are both", both > 1800 && both < 2200, true);
    equal("and each place is as likely", places.every((count) => count > 150 && count < 250), true);
});

part("each word of a link, there and back", () => {
    const whole = {
        points: [0, 0, 1, 0, 0, 1], kept: [{ points: [1, 0, 0, 0, 0, 0], caption: "one & two" },
            { points: [0, 2, 0, 0, 0, 0], caption: "" }], title: "T = 1", roll: [6, 1],
        guess: true, bound: 90, isCompact: true, drill: { theme: "few", seed: 999999999, ask: "play", level: "easy" },
            place: 6, estimate: "pips", lesson: 12, text: "", step: 3,
    };
    const text = "lesson: L\nstep: 1,0,0,0,0,0\nroll: 52\ntext: a=b&c";
    for (const state of [whole, { ...whole, lesson: null, text },
            { ...whole, drill: { theme: "ace", seed: 1, ask: "wastage" }, guess: false, roll: null, bound: 44,
        isCompact: false, estimate: null, place: 0, step: 1, title: "", kept: [] }]) {
        const back = readLink(writeLink(state));
        for (const name of Object.keys(state)) equal(`the word of ${name}`, back[name], state[name]);
        equal("and nothing wrong in it", back.faults, []);
    }
});

part("pictures as files", async () => {
    const picture = asSvg([0, 0, 0, 2, 0, 3], caption);
    equal("checkers in a picture", [picture.match(/<circle /g).length, picture.match(/<rect [^>]*height="18"/g).length],
        [5, 10]);
    equal("each shape has its colours", (picture.match(/<(circle|rect|polygon|text) /g) || []).length,
        (picture.match(/ fill="#/g) || []).length);
    equal("no markup in a caption", [picture.includes("<img"), picture.includes("&#60;img src=x onerror=&#34;")],
        [false, true]);
    equal("the counts below", picture.includes(">0,0,0,2,0,3</text></svg>"), true);
    equal("half a letter", asSvg([1, 0, 0, 0, 0, 0], "\ud83d\u0007").includes(">\ufffd\ufffd<"), true);
    equal("the lines of a caption", linesOf(`${"ab ".repeat(20)}${"c".repeat(60)}`).map((line) => line.length),
        [50, 8, 52, 8]);
    equal("no line", linesOf(""), []);
});

part("panels", async () => {
    const play = (text, loss, exact, isRecorded = false) => ({ text, loss, exact, isRecorded,
            isBest: exact.startsWith("0/") });
    const list = [play("4/2 4/3", 111n, "1/9"), play("6/4 2/1", 0n, "0/1"), play("4/2 2/1", 0n, "0/1", true),
        play("5/3 5/4", 0n, "1/9000")];
    equal("the best first", byLoss(list).map(({ text }) => text), ["4/2 2/1", "6/4 2/1", "5/3 5/4", "4/2 4/3"]);
    const chance = (number, exactly, within) => ({ rolls: number, exactly, within, exactlyText: percent(exactly),
            withinText: percent(within) });
    const table = chances([chance(2, 306n, 306n), chance(3, 612n, 918n), chance(4, 82n, 1000n), chance(5, 0n, 1000n),
            chance(6, 0n, 1000n)]);
    equal("chances", ["2 30.6 %", "61.2 %", "91.8 %", "100.0 %",
            "less than 0.05 %: 5, 6."].every((word) => textOf(table).includes(word)), true);
    equal("bars", all(build(document, table), "rect").map((bar) => Number(bar.getAttribute("width")).toFixed(1)),
        ["50.0", "100.0", "13.4"]);
    const figures = (tree) => all(build(document, h("div", {}, tree)),
        "dd").map((node) => node.textContent.trim().split(" ")[0]);
    equal("numbers", figures(numbers(answer)), ["6", "1.250", "10.208", "4.208", "5/4", "245/24"]);
    equal("numbers that come", figures(numbers(undefined, true)), Array(6).fill("\u2026"));
    equal("numbers that don't", figures(numbers(undefined, false)), ["\u2013", "\u2013", "\u2013", "\u2013"]);
    const over = (pips, bound) => textOf(numbers({ refusal: "Over.", status: 4, bound, standing: { pips } }));
    equal("over 44", [over(50, 44), over(58, 8)],
        ["50 pips. Over. It goes to 44 pips.", "58 pips. Over. It goes to 8 pips."]);
    equal("over 58", [over(59, 58), over(90, 44)],
        ["59 pips. Over. It goes to 58 pips.", "90 pips. Over. It goes to 44 pips."]);
    equal("numbers that 90 pips bring", [figures(numbers(undefined, true, 55)),
            textOf(numbers(undefined, true, 55)).includes("90 pips is being built")],
        [["55", ...Array(5).fill("\u2026")], true]);
    const entries = [{ points: [0, 0, 0, 0, 0, 1], caption }, { points: [2, 0, 0, 0, 0, 0], caption: "" }];
    const rows = build(document, kept(entries, ([first]) => (first === 0 ? answer : undefined), false, {}));
    equal("captions", all(rows, "input").map((input) => input.getAttribute("value")), [caption, ""]);
    equal("a caption makes no element", all(rows, "img").length, 0);
    equal("a caption in print", classed(rows, "span", "printed").map((node) => node.textContent), [caption, ""]);
    equal("wastage is the last", all(rows, "td").filter((cell) => cell.getAttribute("data-head") === "Wastage")
            .map((cell) => cell.textContent), ["4.208", "\u2026"]);
    equal("a refusal in a row", textOf(kept([entries[0]], () => ({ refusal: "Over.", standing: { pips: 60 } }), false,
            {})).includes("60 Over."), true);
});

part("what is drawn anew stays where it can", async () => {
    const place = document.createElement("div");
    const button = (key, ...text) => h("button", { "data-key": key, title: text[0] === "A" ? "first" : null }, ...text);
    document.body.appendChild(place);
    draw(document, place, [button("a", "A"), button("b", "B"), h("input", { "data-key": "c", value: "one" })]);
    const [first, second, field] = place.childNodes;
    second.focus();
    field.value = "edited";
    draw(document, place, [button("b", "B2"), button("a", "other"), h("input", { "data-key": "c", value: "one" })]);
    equal("elements stay by their keys", [place.childNodes[0] === second, place.childNodes[1] === first,
            place.childNodes[2] === field], [true, true, true]);
    equal("with other texts", place.textContent, "B2other");
    equal("an attribute goes", first.getAttribute("title"), null);
    equal("the focus stays", document.activeElement === second, true);
    equal("what is typed stays", field.value, "edited");
    draw(document, place, [h("input", { "data-key": "c", value: "two" })]);
    equal("another value is shown", [field.value, place.childNodes.length], ["two", 1]);
    const clicks = [];
    draw(document, place, [h("button", { click: () => clicks.push(1) })]);
    draw(document, place, [h("button", { click: () => clicks.push(2) })]);
    draw(document, place, [h("button", {})]);
    tell(place.childNodes[0], "click");
    draw(document, place, [h("button", { click: () => clicks.push(3) })]);
    tell(place.childNodes[0], "click");
    equal("a button does what it was given last, once", clicks, [3]);
});

part("the bar", async () => {
    const bar = new Bar(document, new Window());
    bar.show({ from: 0.1, until: 0.5, usual: 400, text: "Building" });
    equal("a step", [document.getElementById("bar").hidden, document.getElementById("step").textContent,
            document.getElementById("progress").value], [false, "Building", 0.1]);
    bar.show(null);
    equal("no step", document.getElementById("bar").hidden, true);
});

part("the page's side of the worker", async () => {
    globalThis.Worker = Worker;
    const steps = [];
    const client = new Client("", (step) => steps.push(step));
    const [one, other] = [client.ask({ kind: "one" }), client.ask({ kind: "other" })];
    client.worker.onmessage({ data: { step: "building" } });
    client.worker.onmessage({ data: { number: 2, reply: "second" } });
    client.worker.onmessage({ data: { number: 1, failure: { message: "no", status: 25, line: "record 1" } } });
    const refusal = await one.catch((failure) => failure);
    equal("replies", [await other, refusal.message, refusal.status, refusal.line, steps],
        ["second", "no", 25, "record 1", ["building"]]);
    const late = client.ask({ kind: "late" });
    client.worker.onerror({ message: "gone" });
    equal("a worker that is gone", [(await late.catch(({ message }) => message)),
            await client.ask({}).catch(({ message }) => message), client.isDead], ["gone", "gone", true]);
});

part("a browser that ends makes what waits for it fail", async () => {
    for (const [ended, how] of [["/bin/false", "the browser ended with 1"],
            ["/nowhere/browser", "the browser doesn't start: spawn /nowhere/browser ENOENT"]]) {
        const dead = new Browser(ended);
        equal("a browser that is gone", await dead.send("Browser.getVersion").catch(({ message }) => message), how);
        equal("and is asked later", await dead.send("Browser.getVersion").catch(({ message }) => message), how);
    }
});

part("what a browser can", () => {
    equal("no WebAssembly", abilities(null), "none");
    equal("this node", ["wide", "narrow"].includes(abilities()), true);
    equal("no 64-bit memories", abilities({ validate: (bytes) => bytes.length === 8 }), "narrow");
    equal("neither", abilities({ validate: () => false }), "none");
});
