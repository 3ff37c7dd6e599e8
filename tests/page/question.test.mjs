// What is asked, without a browser: which questions are drawn, and how a play is made on the board, by clicks and keys;
// and lessons: their steps, estimates and values, one on paper, and one that is made on the page.
import { reachedBy, ways } from "../../web/board/steps.js";
import { measuredOf } from "../../web/lesson/state.js";
import { meanOf, readEstimate, readLessons, writeLesson } from "../../web/lesson/text.js";
import { readLink } from "../../web/link.js";
import { ROLLS } from "../../web/points.js";
import { drawn } from "../../web/question/asks.js";
import { drawQuestions, drillOf, kindsOf, mostOf, numbersFrom } from "../../web/question/questions.js";
import { resetGuesses } from "../../web/question/state.js";
import { isNamed, LEVELS, levelsOf, positions, THEMES } from "../../web/question/themes.js";
import { reckoned } from "../../web/rules.js";
import { about, answerTo, equal, legalFrom, linkOf, numbersOf, settled, test, Used, wrong, textOf } from "./stand_in.mjs";

// A play that is made on the board, by clicks and by keys.
test("plays on the board", async () => {
    const used = new Used(linkOf("lesson: One\nstep: 0,0,0,1,0,1\nroll: 52\nask: Which?\nanswer: That.\n"
        + "step: 0,0,0,0,2,1\nroll: 41\nask: And here?"), { plays: legalFrom });
    const points = () => [6, 5, 4, 3, 2, 1, 0].map((point) =>
        used.at("board").querySelector(`[data-point="${point}"]`));
    const of = (name) => points().map((point) => point.getAttribute(name));
    // what each point can do, as it is heard
    const sees = (name, wanted, { marks, spots, ...more } = {}) => {
        const rings = (kind) => [...used.at("board").querySelectorAll(`.${kind}`)]
            .map((ring) => ring.getAttribute("cx") || "off");
        equal(`${name}: what each can do`, of("aria-label").map((label) =>
            label.replace(/^.*?checkers?/, "").replace(", ", "") || "-").join(), wanted);
        if (marks) equal(`${name}: rings`, [rings("mark").join(), rings("spot").join()], [marks, spots || ""]);
        used.sees(name, more);
    };
    const NOTHING = "-,-,-,-,-,-,-";
    const CAN_MOVE = "can move,-,can move,-,-,-,-";
    about("a play on the board");
    sees("nothing moves before the plays are known", NOTHING);
    used.click("point 6");
    sees("nor is picked", NOTHING, { "state picked": null });
    equal("they are buttons", of("role"), Array(7).fill("button"));
    await used.ready();
    sees("what can move", CAN_MOVE, { marks: "50,250", "there made": false, "there undo": false,
        "in steering": "Move a checker, or choose from the list." });
    equal("where nothing can be done", of("aria-disabled"), [null, "true", null, "true", "true", "true", "true"]);
    equal("one stop of Tab", of("tabindex").map((at, place) => at === "0" && place).filter((at) => at !== false), [0]);
    for (const [does, name, wanted, more] of [
        ["off, point 3", "a place where nothing can go", CAN_MOVE, { "state picked": null, "length steps": 0,
            said: "No checker can move from there.", "begins #steering": "No checker can move from there." }],
        ["point 6, point 5", "nor from the one that was picked", CAN_MOVE, { said: "The checker can\u2019t go there." }],
        ["point 6", "picked",
            "its checker is to move,-,a checker can go there,-,-,a checker can go there,a checker can go there",
            { said: "Point 6: to point 1, point 4, off.", marks: "50", spots: "250,550,off",
                "aria-pressed of point 6": "true", "aria-pressed of point 4": "false" }],
        ["point 6", "put back", CAN_MOVE, { "state picked": null, marks: "50,250" }],
        ["point 6, point 4", "moved", "-,-,can move,-,-,-,-", { board: "0,0,0,2,0,0", said: "From point 6 to point 4.",
            "there undo": true, "there made": false, "count #board .guessing": 0 }],
        ["point 4, off", "whole", NOTHING, { board: "0,0,0,1,0,0", made: "Play 6/off", "data-count of off": "14",
            said: "6/off is made: Enter plays it, Backspace undoes.", "length guesses": 0, "not in plays": "best.",
            "play 6/off": "6/off " }],
    ]) {
        await used.do(does);
        sees(name, wanted, more);
    }
    await used.run("a play on the board", [
        ["one step back", "undo", { board: "0,0,0,2,0,0", "there made": false, focus: "undo" }],
        ["a checker that was picked is put back first", "point 4, undo",
            { board: "0,0,0,2,0,0", "state picked": null }],
        ["all back", "undo", { board: "0,0,0,1,0,1", "there undo": false, focus: "point 4", "state steps": [] }],
        ["one order", "point 6, point 1, point 4, point 2", { made: "Play 6/1 4/2" }],
        ["and the other one are one play", "undo, undo, point 4, point 2, point 6, point 1", { made: "Play 6/1 4/2" }],
        ["and back", "undo, undo", { "state steps": [] }],
    ]);
    const at = (point) => () => { used.find(`point ${point}`).focus(); };
    used.find("point 6").focus();
    equal("arrows lead from point to point", ["ArrowLeft", "ArrowRight", "ArrowRight", "ArrowLeft", "ArrowLeft"]
        .map((key) =>
        [used.press(key).defaultPrevented, used.focus()].join(" ")),
    ["false point 6", "true point 5", "true point 4", "true point 5", "true point 6"]);
    equal("Enter picks, and Escape puts back", ["Enter", "Escape"].map((key) =>
        [used.press(key).defaultPrevented, used.session.state.hand.picked]), [[true, 6], [true, null]]);
    await used.run("", [
        ["to the place of those that are off", [at(6), "press Space", ...Array(6).fill("press ArrowRight")],
            { focus: "off" }],
        ["with both dice at once", "press Enter", { board: "0,0,0,1,0,0", made: "Play 6/off" }],
        ["Backspace takes both back", "press Backspace", { board: "0,0,0,1,0,1" }],
    ]);
    used.find("point 6").focus();
    equal("another key is not used", ["a", "Tab"].filter((key) => used.press(key).defaultPrevented), []);
    await used.run("", [["a play that is made is guessed", "point 6, point 1, point 4, point 2, made",
        { guesses: "6/1 4/2", focus: "next step" }]]);
    used.session.become(resetGuesses(used.session.state));
    await used.run("", [
        ["a play of the list ends what was begun", "point 4, point 2, play 6/off", { "state steps": [],
            board: "0,0,0,1,0,1", guesses: "6/off", "there point 6": false, focus: "next step",
            "#coach .verdict b": "Small mistake", "count #coach .scale .is": 2,
            "#coach .verdict .rest": "6/off loses 0.056 of a roll; best is 6/1 4/2. In EPC: 0.454 pips." }]]);
    const figures = [...used.at("board").querySelectorAll("figure")];
    equal("the boards show it and the best, with the arcs of its own play, and are looked at", figures.map((one) =>
        [one.querySelector("figcaption").textContent.trim(), one.getAttribute("class"),
            one.querySelectorAll(".arc").length,
            one.querySelectorAll(".arc .landing").length, one.querySelector("svg").getAttribute("role"),
            one.querySelector("marker").getAttribute("id")]),
    [["Yours 6/off \u22120.056", "lost", 1, 0, "img", "yours-tip"], ["Best 6/1 4/2", "good", 2, 2, "img", "best-tip"]]);
    equal("the position is beside each", figures.map((board) => [1, 2, 3, 4, 5, 6].map((point) =>
        board.querySelector(`[data-point="${point}"]`).getAttribute("data-count")).join()),
            Array(2).fill("0,0,0,1,0,1"));
    await used.run("", [
        ["the answer", "answer", { "in coach": "That.", focus: "next step", "there answer": false }],
        ["the next step", "next step", { board: "0,0,0,0,2,1", focus: "point 6" }],
        ["what was begun is of its question alone", "point 6, point 5, point 5, previous step, next step",
            { board: "0,0,0,0,2,1", "state steps": [], "state picked": null }],
        ["made", "point 6, point 2, point 5, point 4", { made: "Play 6/2 5/4", "length guesses": 1 }],
        ["its guess, after the last step", [at(4), "press Enter"], { guesses: "6/off, 6/2 5/4", focus: "finish",
            finish: "End of the lesson", "count #coach .die": 2 }],
    ]);
    used.at("rolls").querySelector("button").focus();
    await used.run("", [["Escape leaves the roll that is asked", "press Escape", { "state roll": [4, 1] }]]);
});

// Each play that the module lists can be made on a board, step by step, and no other.
test("the steps of plays", () => {
    about("the steps of plays");
    const endsOf = (points, roll, ends) => {
        const [found, seen] = [new Set(), new Set()];
        const walk = (made) => {
            const at = reachedBy(points, roll, made);
            const key = `${at.points} ${at.dice}`;
            if (seen.has(key)) return;
            seen.add(key);
            if (at.dice.length === 0 || at.points.every((count) => count === 0)) {
                found.add(at.points.join());
                return;
            }
            const all = ways(at, ends);
            if (all.size === 0) wrong(`${points} ${roll}: no way on from ${key}`);
            for (const [from, places] of all) {
                for (const [to, more] of places) {
                    if (more[0].move[0] !== from || more.at(-1).move[1] !== to) {
                        wrong(`${points} ${roll}: ${from} to ${to} is ${JSON.stringify(more)}`);
                    }
                    walk([...made, ...more]);
                }
            }
        };
        walk([]);
        return [...found].sort();
    };
    const few = positions(18).filter((points) => points.some((count) => count > 0)
        && points.reduce((sum, count) => sum + count, 0) < 5);
    equal("how many positions", few.length > 150, true);
    for (const points of [...few, [2, 2, 2, 2, 2, 2], [0, 5, 0, 3, 0, 2], [7, 4, 2, 0, 0, 0], [0, 0, 0, 4, 4, 1]]) {
        for (const { dice, plays } of legalFrom(points)) {
            const all = plays.map(({ to }) => to.join());
            for (const some of all.length > 1 ? [all, all.slice(0, -1)] : [all]) {
                equal(`${some.length} plays of ${points} ${dice}`, endsOf(points, dice, new Set(some)),
                    [...some].sort());
            }
        }
    }
    for (const [name, points, roll, wanted] of [
        ["with one die and with both", [0, 0, 0, 1, 0, 1], [5, 2], ["6: 1 4 0", "4: 2"]],
        ["a double", [0, 0, 0, 0, 0, 2], [1, 1], ["6: 5 4 3 2"]],
            ["off with a higher die", [0, 0, 1, 0, 0, 0], [6, 5], ["3: 0"]]]) {
        const { plays } = legalFrom(points).find(({ dice }) => dice.join() === roll.join());
        equal(name, [...ways(reachedBy(points, roll, []), new Set(plays.map(({ to }) => to.join())))]
            .map(([point, places]) => `${point}: ${[...places.keys()].join(" ")}`), wanted);
    }
});

const themeNamed = (name) => THEMES.find((theme) => theme.name === name);

// Two plays, of which the best fills each point, and the other one loses so much and leaves them.
const two = (points, loss = 50n) => [{ isBest: true, to: points.map((count) => Math.max(1, count)), loss: 0n },
    { isBest: false, to: points, loss }];

test("which questions are drawn", () => {
    about("which questions are drawn");
    const all = positions(44);
    equal("positions in the order of their ranks", [all.length, all.slice(0, 7).join(" ")], [26314,
        "0,0,0,0,0,0 1,0,0,0,0,0 0,1,0,0,0,0 2,0,0,0,0,0 0,0,1,0,0,0 1,1,0,0,0,0 3,0,0,0,0,0"]);
    const numbers = numbersFrom(1);
    equal("numbers", [1, 2, 3].map(() => numbers.next().value), [48271, 182605794, 1291394886]);
    const drawTwo = (points) => two(points);
    const text = (drill) => JSON.stringify(drawQuestions(drill, ROLLS, drawTwo));
    const drill = { theme: "gaps", seed: 7, ask: "play" };
    equal("a seed draws the same, and another seed another", [{ ...drill }, { ...drill, seed: 8 }].map((one) =>
        text(one) === text(drill)), [true, false]);
    for (const { name, has } of THEMES) {
        const questions = drawQuestions({ ...drill, theme: name, ask: "effective" }, ROLLS, drawTwo);
        equal(`${name}: of its theme, each once`, [questions.length,
            questions.every(({ points, roll }) => has(points) && roll === null),
            new Set(questions.map(({ points }) => points.join())).size],
        [Math.min(20, positions(mostOf({ theme: name })).filter(has).length), true, questions.length]);
    }
    equal("the whole board", [positions(90).length, positions(90).at(-1), THEMES.filter(({ most }) => most === 90)
        .map(({ name }) => name)], [54264, [0, 0, 0, 0, 0, 15], ["board", "fifteen", "stacks"]]);
    equal("older drills ask what they asked", ["all", "low", "gaps", "middle", "high", "few", "fewer"].map((theme) =>
        mostOf({ theme })), Array(7).fill(44));
    for (const [name, has, hasNot] of [["low", "4,0,1,0,0,0", "4,0,0,1,0,0"], ["gaps", "2,0,3,0,0,0", "0,2,3,0,0,0"],
        ["middle", "5,0,0,0,0,0", "10,0,0,0,0,0"], ["high", "0,0,0,1,1,1", "0,0,1,1,1,1"],
            ["ace", "3,0,0,0,0,0", "1,1,0,0,0,0"],
        ["few", "0,0,0,0,0,4", "0,0,0,0,0,5"], ["fifteen", "0,0,0,3,5,7", "0,0,0,3,5,6"],
            ["stacks", "0,0,0,3,5,5", "0,0,0,3,4,5"],
        ["stacks", "0,0,0,4,5,6", "0,0,1,3,5,6"]]) {
        equal(`${name}: ${has} and not ${hasNot}`, [has, hasNot].map((counts) =>
            themeNamed(name).has(counts.split(",").map(Number))), [true, false]);
    }
    const tie = (points) => ({ isBest: true, to: points, loss: 0n });
    for (const [name, plays] of [["one play", () => [{ isBest: true }]],
        ["a tie", (points) => [two(points)[0], tie(points), two(points)[1]]],
        ["gaps that stay", (points) => [tie(points), two(points)[1]]],
        ["gaps that each play fills", (points) => [two(points)[0], { ...two(points)[0], isBest: false, loss: 50n }]]]) {
        equal(`${name} is not asked`, drawQuestions(drill, ROLLS, plays).length, 0);
    }
    // where the best play leaves the gaps, one that fills some loses little, but in an easy or a hard drill
    const points = [2, 0, 2, 1, 1, 0];
    const areNamed = (plays, level = "any") => [true, false, null].map((follows) =>
        isNamed(themeNamed("gaps"), points, plays, level, follows));
    const decoy = (loss, level) => areNamed([tie(points), { ...two(points)[0], isBest: false, loss }], level);
    equal("decoys", [decoy(40n), decoy(41n), decoy(41n, "mixed"), decoy(41n, "easy"), decoy(41n, "hard")],
        [[false, true, true], [false, false, false], [false, false, false], [false, true, true], [false, true, true]]);
    equal("a gap that is filled", areNamed(two(points)), [true, false, true]);
    equal("no other theme's name says what to play", THEMES.filter(({ does }) => does)
        .map(({ name, words }) => [name, words]),
        [["gaps", "Gaps"], ["fewer", "How many to bear off"]]);
    equal("a small database has none", drawn({ bound: 8 }, drill).length, 0);
    equal("links", ["gaps&seed=7", "ace&seed=7&ask=play", "gaps&seed=0", "x&seed=1"].map((words) =>
        readLink(`#drill=${words}`).drill), [drill, null, null, null]);
});

test("what each level asks", () => {
    about("what each level asks");
    const [natural, tempted] = [[0, 0, 0, 0, 0, 0], [2, 0, 0, 0, 0, 0]];
    const asks = (name, loss, best, tempts = null, isTempting = false) =>
        LEVELS.find((level) => level.name === name).isAsked(
        [{ to: best, isBest: true, loss: 0n }, { to: [1, 0, 0, 0, 0, 0], isBest: false, loss }], tempts,
            { isTempting });
    equal("an easy one", [[80n, natural], [79n, natural], [500n, tempted]].map((words) => asks("easy", ...words)),
        [true, false, false]);
    for (const [tempts, wanted] of [[true, [true, true, false, false, false, false]],
        [false, [false, false, true, true, false, false]], [null, [true, true, true, true, false, false]]]) {
        equal(`a mixed one, ${tempts}`, [[500n, tempted], [1n, tempted], [1n, natural], [20n, natural], [21n, natural],
            [0n, tempted]].map(([loss, best]) => asks("mixed", loss, best, tempts)), wanted);
    }
    // the natural rule, that of the fewest aces and that of the least count are right and wrong in turn
    const failed = [["0,2,0,0,0,0", "1,1,0,0,0,0"], ["2,0,0,0,0,0", "0,2,0,0,0,0"], ["2,0,0,0,0,1", "0,1,1,0,1,0"],
        ["2,0,0,0,0,0", "1,0,0,0,0,0"], ["1,0,0,0,0,0", "0,1,1,0,0,0"], ["1,0,0,0,0,1", "0,2,0,0,0,0"]]
        .map((plays) => plays.map((to, place) =>
            ({ to: to.split(",").map(Number), loss: 9n * BigInt(place), isBest: place === 0 })));
    const { isAsked, plan } = LEVELS.find(({ name }) => name === "hard");
    const planned = [[true, true], [true, false], [false, true], [false, false]]
        .map(([isNatural, others]) => ({ natural: isNatural, others }));
    const kinds = failed.map((plays) => planned.map((kind) => isAsked(plays, kind, {})));
    equal("of which kind each is", kinds.map((are) => are.indexOf(true)), [2, -1, 3, 3, 0, 1]);
    equal("of one kind alone, but where the natural rule chooses both",
        kinds.map((are) => are.filter(Boolean).length), [1, 0, 1, 1, 1, 1]);
    equal("of any kind, and close", [0n, 1n, 30n, 31n].map((loss) => asks("hard", loss, natural)),
        [false, true, true, false]);
    equal("how many of each kind are planned", planned.map((kind) =>
        plan.filter((one) => JSON.stringify(one) === JSON.stringify(kind)).length), [3, 5, 6, 6]);
    equal("and where each question tempts", [1n, 40n, 41n, 0n].map((loss) => asks("hard", loss, tempted, false, true)),
        [true, true, false, false]);
    equal("no level but those that are there", [["fewer", "play"], ["all", "pips"], ["low", "play"], ["all", "play"]]
        .map(([theme, ask]) => levelsOf({ theme, ask }).map(({ name }) => name).join()),
    ["any,hard", "any", "any,easy,mixed", "any,easy,mixed,hard,first"]);
    equal("a drill has one of them", [["fewer", "play", "easy"], ["all", "wastage", "hard"]]
        .map(([theme, ask, level]) =>
        drillOf({ theme, seed: 1, ask, level }).level), [undefined, undefined]);
    // at each place a half of the seeds tempts, at whatever place after it too, and of each drill ten questions do
    const mixed = Array.from({ length: 400 }, (_, seed) => kindsOf(997 * seed + 1));
    equal("ten of each tempt", mixed.every((tempts) => tempts.length === 20 && tempts.filter(Boolean).length === 10),
        true);
    const countsOf = (length, is) => Array.from({ length }, (_, place) =>
        mixed.filter((tempts) => is(tempts, place)).length);
    equal("no place tells", countsOf(20, (tempts, place) => tempts[place])
        .filter((count) => count < 150 || count > 250), []);
    equal("nor what came before", countsOf(19, (tempts, place) => tempts[place] === tempts[place + 1])
        .filter((count) => count < 140 || count > 240), []);
    equal("a seed mixes the same", kindsOf(31).join(), kindsOf(31).join());
    const drill = { theme: "all", seed: 31, ask: "play", level: "mixed" };
    const byRoll = (points, [high]) => [[[2, 0, 0, 0, 0, 0], 0n], [[1, 0, 0, 0, 0, 0], 90n]]
        .map(([to, loss], place, both) => ({ isBest: place === 0, to: high > 3 ? to : both[1 - place][0],
            loss: place === 0 || high > 3 ? loss : 5n }));
    equal("a mixed drill tempts where its seed says", drawQuestions(drill, ROLLS, byRoll)
        .map(({ roll: [high] }) => high > 3)
        .join(), kindsOf(31).join());
    equal("where nothing tempts, it asks the rest", drawQuestions(drill, ROLLS, (points) => byRoll(points, [1])).length,
        20);
});

test("what a lesson's text says, and numbers", () => {
    about("texts");
    const lesson = { title: "A <b>lesson</b>",
        steps: [{ points: [0, 0, 0, 1, 0, 1], roll: [5, 2], text: "One & <i>two</i>", ask: "Which?", answer: "This." },
            { points: [1, 0, 0, 0, 0, 0], roll: null, text: "Last", ask: "", answer: "" }] };
    equal("a lesson comes back", readLessons(writeLesson(lesson)), { lessons: [lesson], fault: "" });
    equal("lines go on", readLessons("lesson: x\nstep: 1,0,0,0,0,0\ntext: a\nb\n\n# c\nfrom: d\nask: e").lessons[0]
        .steps[0], { points: [1, 0, 0, 0, 0, 0], roll: null, text: "a b", ask: "e", answer: "" });
    for (const [given, fault] of [["", "There is no lesson in it."], ["lesson: x", "A lesson has no step."],
        ["step: 1,0,0,0,0,0", "Line 1: a lesson begins with its title"],
        ["lesson: x\nstep: 1,2", "Line 2: a step is six counts with commas between them"],
        ["lesson: x\nstep: 1,0,0,0,0,0\nroll: 7", "Line 3: a roll is two digits from 1 to 6"],
        ["hello", "Line 1: no such word"], ["lesson: x\ntext: y", "Line 2: a step comes first"]]) {
        equal(`refused: ${given}`, readLessons(given), { lessons: [], fault });
    }
    const most = "lesson: x\nstep: 1,0,0,0,0,0\n# ".padEnd(10 ** 6, "x");
    const long = "Lessons have at most 1000000 characters.";
    equal("lessons of a million characters", [most, `${most}x`, "\n".repeat(3e7)]
        .map((text) => readLessons(text).fault),
        ["", long, long]);
    equal("estimates", ["7", "7.5", "-0,25", "7.1234", "x", "1e3"].map((word) => String(readEstimate(word))),
        ["7000", "7500", "-250", "null", "null", "null"]);
    equal("a mean", [meanOf([1n, 2n]), meanOf([1n, 1n, 2n])].map(String), ["2", "1"]);
    equal("how an estimate is reached", [[[2, 2, 0, 2, 1, 1], "pips"], [[3, 2, 4, 0, 1, 1], "effective"], [[3, 2, 4, 0, 1, 1], "wastage"],
        [[9, 0, 0, 0, 0, 0], "effective"], [[9, 0, 0, 0, 0, 0], "wastage"], [[1, 0, 1, 0, 0, 0], "effective"]]
        .map((words) => reckoned(...words)), [
        "1 \u00d7 6 + 1 \u00d7 5 + 2 \u00d7 4 + 2 \u00d7 2 + 2 \u00d7 1 = 25",
        "30 pips + 8\u00bd for the race + 4 over one on the ace + 1 over one on the deuce + "
            + "1 over three on the three + 1 for high gaps = 45\u00bd",
        "8\u00bd for the race + 4 over one on the ace + 1 over one on the deuce + "
            + "1 over three on the three + 1 for high gaps = 15\u00bd",
        "7 for each of 5 rolls without a double + 1 = 36", "7 for each of 5 rolls without a double + 1 \u2212 9 pips = 27",
        "for so few checkers no rule holds: count their rolls, 8\u2159 pips each"]);
});

const OTHER = (what) => `The file is ${what}. This page reads databases, matches (.mat, .sgf) and lessons.`;

// A file as a browser hands it over.
const fileOf = (name, text) => Object.assign(new Blob([text]), { name });

test("lessons", async () => {
    const used = await Used.open(linkOf("lesson: <b>One</b>\nstep: 0,0,0,1,0,1\nroll: 52\ntext: <i>first</i>\n"
        + "ask: Which?\nanswer: That one.\nstep: 1,0,0,0,0,0\ntext: second"));
    await used.run("a lesson", [
        ["its first step, with its answer closed", "", { board: "0,0,0,1,0,1", "state roll": [5, 2],
            "in coach": "<i>first</i>",
            "count #coach i, #coach b": 0, "not in coach": "That one." }],
        ["which opens", "answer", { "in coach": "That one.", said: "That one." }],
        ["the second", "next step", { board: "1,0,0,0,0,0", "there next step": false, "not in coach": "That one." }],
    ]);
    used.window.pass(1000);
    const { step, text } = readLink(used.look("hash"));
    equal("its link", [step, readLessons(text).lessons[0].title], [2, "<b>One</b>"]);
    await used.run("a lesson", [["a step as it is heard, and closed again", "previous step", {
        said: "Step 1 of 2. <i>first</i> Which? The board: 1 on 6, 1 on 4, 13 borne off.", "in coach": "Step 1 of 2",
        title: "Step 1 of 2: <b>One</b> \u2013 Bearing off", "not in coach": "That one." }]]);
    const own = "lesson: Own\nstep: 2,0,0,0,0,0\n";
    for (const [name, given, trouble] of [["own.txt", `${own}text: mine`, ""],
        ["own", `# ours\n${own}text: mine`, ""],
        ["lesson.mat", "lesson: Own\nhello", "The lesson can't be read. Line 2: no such word"],
        ["long.txt", `${own}# `.padEnd(10 ** 7, "x"),
            "The lesson can't be read. Lessons have at most 1000000 characters."],
        ["bad.txt", "hello", OTHER("neither a match, which begins with its length or a parenthesis, nor a lesson, "
            + "which begins with \u201clesson:\u201d")], ["game.mat", Uint8Array.of(0x89, 0x50, 0x4e, 0x47, 1), OTHER("a picture")],
        ["one.txt", "RGMH\u0000", OTHER("a match of eXtreme Gammon in its own form: save it there as text (.mat)")],
        ["two.sgf", '{"format":"BGF","version":"1.0"}', OTHER("a match of BGBlitz in its own form: save it there as .mat or .sgf")]]) {
        await used.drop(fileOf(name, given));
        await used.worker.answerAll();
        used.sees(`the file ${name}`, { board: "2,0,0,0,0,0", "in coach": "mine", trouble });
    }
    const number = await Used.open(linkOf("lesson: One\nstep: 1,0,0,0,0,0\nask: How many?\nanswer: One."));
    await number.run("a number that is asked", [
        ["it is hidden", "", { figures: [], chances: "", said: "" }],
        ["and comes with the answer", "answer", { figures: numbersOf([1, 0, 0, 0, 0, 0]), "in coach": "One." }],
        ["as text", ["copy-text", settled], { clipboard: "1,0,0,0,0,0\n\n. . . . . O\n6 5 4 3 2 1",
            copied: "The position is copied as text." }],
    ]);
    const words = await Used.open(linkOf("lesson: W\nstep: 1,0,0,0,0,0\ntext: The EPC.\nstep: 2,0,0,0,0,0\n"
        + "text: EPC and pips."));
    await words.run("words that a beginner doesn't know", [
        ["are explained", "", { "#coach .words summary": "A word: EPC" }],
        ["once", "next step", { "#coach .words summary": "A word: pip" }],
    ]);
    const compact = await Used.open("#view=board&at=1,0,0,0,0,0");
    equal("compact", compact.document.body.classList.contains("compact"), true);
    await compact.do("Add 1, pass 1000, Add 2, pass 1000, Add 3, pass 1000");
    equal("no entry of what is around it", [compact.window.entries, compact.at("whole").getAttribute("href")],
        [["#view=board&at=2,1,1,0,0,0"], "#at=2,1,1,0,0,0"]);
});

test("a lesson that asks for estimates", async () => {
    about("a lesson's lines");
    const text = "lesson: Counting\nstep: 3,2,3,0,3,2\nestimate: pips\nrule: additions\nask: How many?\n"
        + "answer: 43 pips.\nstep: 7,0,0,0,0,0\nestimate: effective\nrule: own\nanswer: 29.\n"
        + "step: 1,0,0,0,0,0\ntext: The end.";
    equal("there and back", writeLesson(readLessons(text).lessons[0]), text);
    const both = "a step has a roll or an estimate";
    for (const [line, why] of [["estimate: mean", "what is estimated is pips, effective, wastage"],
        ["rule: mine", "a rule is rolls, eight, additions, greater, own"],
        ["roll: 31\nestimate: pips", both], ["estimate: pips\nroll: 31", both]]) {
        equal(line, readLessons(`lesson: x\nstep: 1,0,0,0,0,0\n${line}`).fault,
            `Line ${2 + line.split("\n").length}: ${why}`);
    }

    const used = await Used.open(linkOf(text));
    await used.run("a step that asks for an estimate", [
        ["a field, and no number", "", { "there estimate": true, figures: [], chances: "", "not in said": "43 pips",
            "in numbers": "Your estimate of the pip count", "class of answer": null, "not in coach": "43 pips." }],
        ["how far it was off, and that it isn't near", "estimate=42, tell",
            { "#coach .verdict": "You said 42.000: 1.000 pips off.",
            "count #numbers .verdict": 0, figures: numbersOf([3, 2, 3, 0, 3, 2]), "count #coach .verdict.good": 0,
            "in coach": "43 pips.", "there answer": false, focus: "next step",
            "begins said": "You said 42.000: 1.000 pips off. 43 pips. 43 pips, mean" }],
    ]);

    about("what each rule is worth");
    const rows = () => [...used.at("worth").querySelectorAll("tbody tr")].map((row) => [row.getAttribute("data-rule"),
        row.getAttribute("class"), ...[...row.querySelectorAll("td")].map((cell) => cell.textContent)].join(" "));
    equal("they are there", rows(), ["rolls", "eight", "additions", "greater"].map((name) =>
        `${name} ${name === "additions" ? "now" : ""} 1.00 2.00 30.01`));
    used.sees("over how many", { "hidden worth": false, "count #worth input": 0,
        "in worth": ["all 26,313 of the open database", "any shape, 3,000"] });
    await used.run("what each rule is worth", [["the field is where one goes on", "next step", { focus: "estimate",
        "value estimate": "" }]]);
    const own = (mean) => equal("one's own", rows().at(-1), `own now 1.00 ${mean} 30.01`);
    equal("one's own has fields", [...used.at("worth").querySelectorAll("input")].map(({ value }) => value),
        ["8.5", "2", "1", "1", "1", "0"]);
    own("2.70");
    const WHY = "A weight is a whole or a half number of pips, from 0 to 20.";
    for (const [place, value, weights, mean, why = ""] of [
        [0, "9", [18, 4, 2, 2, 2, 0], "2.80"], [5, "0,5", [18, 4, 2, 2, 2, 1], "2.90"],
        ...["x", "", "-1", "20.5", "1.25", "100"].map((none) => [1, none, [18, 4, 2, 2, 2, 1], "2.90", WHY]),
        [1, "20", [18, 40, 2, 2, 2, 1], "6.50"]]) {
        await used.do([`weight ${place}=${value}`]);
        used.sees(`the weight ${place} of ${value}`, { "state weights": weights, "weight-why": why });
        own(mean);
    }
    used.sees("measured once, and its half", { asked: "", "value weight 5": "0.5", "role of weight-why": "alert" });
    await used.run("what each rule is worth", [
        ["the answer without an estimate", "answer", { "there estimate": false, figures: numbersOf([7, 0, 0, 0, 0, 0]),
            "in coach": "29.", "count #coach .verdict": 0 }],
        ["a step without a rule has no table", "next step", { "hidden worth": true, worth: "",
            figures: numbersOf([1, 0, 0, 0, 0, 0]) }],
        ["back there, it asks anew", "previous step", { "there estimate": true, "value weight 1": "20" }],
        ["beside another position neither is there", [`go ${linkOf(text, { at: "1,1,0,0,0,0" })}`],
            { "there estimate": false, "hidden worth": true, worth: "", figures: numbersOf([1, 1, 0, 0, 0, 0]),
                "there back to it": true }],
        ["elsewhere nothing is asked", ["go #at=7,0,0,0,0,0"],
            { "there estimate": false, "hidden worth": true, figures: numbersOf([7, 0, 0, 0, 0, 0]) }],
    ]);
    equal("of another database nothing is told", [{ database: 1 }, null]
        .map((measures) => measuredOf({ measures, database: 2 })),
        [null, null]);
});

test("values in a lesson", async () => {
    about("values in a lesson");
    const text = "lesson: Values\nstep: 0,0,0,1,0,1\nroll: 52\n"
        + "text: {pips} pips, {mean} rolls, {EPC} and {wastage}, {other} {PIPS}.\nask: Is {best} best?\n"
        + "answer: {best}.\nstep: 2,0,0,0,0,0\ntext: {EPC}\nanswer: {best} {pips}\nstep: 0,0,0,0,9,0\ntext: {pips}";
    const used = new Used(linkOf(text));
    used.sees("nothing yet", { "in coach": "\u2026 pips, \u2026 rolls, \u2026 and \u2026, {other} {PIPS}." });
    await used.ready();
    const [pips, mean, effective, wastage] = numbersOf([0, 0, 0, 1, 0, 1]);
    const first = `${pips} pips, ${mean} rolls, ${effective} and ${wastage}, {other} {PIPS}.`;
    const second = answerTo([2, 0, 0, 0, 0, 0]).effective.text;
    await used.run("values in a lesson", [
        ["each of its own step, and on paper", "pass 1000", { "in coach": [first, "Is best of 52 best?"],
            "in printed": [first, second, "best of 52.", "\u2026 2"] }],
        ["an answer is told and heard with them", "answer", { "in coach": "best of 52.", said: "best of 52." }],
        ["a step is heard with them", "next step", { "begins said": `Step 2 of 3. ${second} The board:` }],
        ["without a roll there is no best play", "answer", { said: "\u2026 2", asked: "" }],
        ["over the bound nothing is known", "next step", { "in coach": "\u2026" }],
    ]);
    equal("the link has the words", used.window.entries.map((hash) =>
        new URLSearchParams(hash.slice(1)).get("text"))[0], text);
    await used.widened();
    used.sees("the whole board has it", { "in coach": "45" });
    used.window.type(linkOf("lesson: Other\nstep: 1,0,0,0,0,0\ntext: EPC {EPC}."));
    used.sees("another lesson has none of these", { "in coach": "EPC \u2026." });
    await used.worker.answerAll(90);
    used.sees("but its own", { "in coach": `EPC ${answerTo([1, 0, 0, 0, 0, 0]).effective.text}.` });
    const plain = await Used.open(linkOf("lesson: x\nstep: 1,0,0,0,0,0\ntext: {nothing}"));
    await plain.run("", [
        ["a lesson without them asks for none", "", { "state filled": null, "in coach": "{nothing}" }],
        ["the editor names them", ["go #at=1,0,0,0,0,0", "draft begin"],
            { "in draft": ["{pips}", "{mean}", "{EPC}", "{wastage}", "{best}"] }],
    ]);
});

// A lesson that is made on the page: of kept positions, edited, tried, and taken away as a link and as a file.
test("a lesson of one's own", async () => {
    const [FIRST, SECOND] = ["0,0,0,1,0,1", "3,0,0,0,0,0"];
    const used = await Used.open(`#t=Mine&at=${FIRST}&p=${FIRST}&c=First&p=${SECOND}&c=<b>Second</b>`);
    const steps = "all #draft li > div > span:first-child";
    const told = '#draft [role="status"]';
    await used.run("a lesson of one's own", [
        ["away at first", "", { "hidden editing": true, draft: "" }],
        ["of what is kept", "draft begin", { "hidden editing": false, [steps]: [FIRST, SECOND],
            "value draft title": "Mine",
            "value draft text 1": "First", "value draft text 2": "<b>Second</b>", focus: "draft title",
                "scrolled editing": 1 }],
        ["on one line", ["draft title=  A lesson\n of mine ", "draft roll 1=70", "draft text 1=One.\nstep: two",
            "draft ask 1=Which?", "draft answer 1=That one: 6/off."],
        { "value draft title": "A lesson of mine", "value draft text 1": "One. step: two" }],
        ["a roll that is none", "draft try", { [told]: "Step 1: a roll is two digits from 1 to 6.",
            "state given": null }],
        ["the fault is gone", "draft roll 1=25", { [told]: "" }],
        ["the board's position", "draft add", { [steps]: [FIRST, SECOND, FIRST], "value draft text 3": "" }],
        ["one up", "draft ask 3=And?, draft up 3", { [steps]: [FIRST, FIRST, SECOND], "value draft ask 3": "And?",
            focus: "draft up 3" }],
        ["and up", "draft up 3", { "there draft up 3": false, focus: "draft remove 3" }],
    ]);
    equal("its keys", used.session.state.draft.steps.map(({ key }) => key), [3, 1, 2]);
    const wanted = { title: "A lesson of mine", steps: [
        { points: [0, 0, 0, 1, 0, 1], roll: [5, 2], text: "One. step: two", ask: "Which?", answer: "That one: 6/off." },
        { points: [3, 0, 0, 0, 0, 0], roll: null, text: "<b>Second</b>", ask: "", answer: "" },
    ] };
    await used.run("a lesson of one's own", [
        ["removed", "draft remove 3", { [steps]: [FIRST, SECOND], focus: "draft remove 1" }],
        ["saved", ["draft save", settled], { [told]: "The lesson is saved as lesson.txt." }],
        ["copied", ["draft copy", settled], { [told]: "The link of the lesson is copied." }],
    ]);
    const [file] = [...used.window.files.values()].slice(-1);
    equal("as a file", [readLessons(file.text), file.type, used.document.saved.at(-1).download],
        [{ lessons: [wanted], fault: "" }, "text/plain", "lesson.txt"]);
    equal("as a link", readLessons(readLink(used.window.copied.replace(/^[^#]*/, "")).text).lessons, [wanted]);
    used.window.navigator = { clipboard: { writeText: async () => { throw new Error("no"); } } };
    await used.run("a lesson of one's own", [
        ["where nothing is copied", ["draft copy", settled],
            { [told]: "The browser lets this page copy nothing: try the lesson, and copy its address." }],
        ["tried", "draft try", { "state given": wanted, "hidden editing": true, board: FIRST, "in coach": "Which?",
            focus: "coach" }],
        ["and edited on", "end training", { "hidden editing": false, [steps]: [FIRST, SECOND] }],
    ]);
    const anew = await Used.open("#at=1,0,0,0,0,0", { stored: used.window.stored });
    anew.sees("after the page was loaded anew", { "hidden editing": false, "state draft": used.session.state.draft });
    for (const text of ["{", "7", '{"title":1,"steps":[]}', '{"title":"x","steps":[{"points":[99]}]}',
        '{"title":"x","steps":[{"key":1,"points":[1,0,0,0,0,0],"roll":5,"text":"","ask":"","answer":""}]}']) {
        const page = await Used.open("", { stored: new Map([["bearoff lesson", text]]) });
        page.sees(`kept was ${text}`, { "state draft": null });
    }
    await used.run("a lesson of one's own", [
        ["without a title", ["draft title= ", "draft copy"], { [told]: "A lesson has a title." }],
        ["without a step", "draft remove 1, draft remove 2", { "there draft try": false, "there draft copy": false,
            focus: "draft add" }],
        ["closed", "draft close", { "hidden editing": true, focus: "draft begin" }],
        ["of the board's position, where none is kept", [`remove ${FIRST}`, `remove ${SECOND}`, "draft begin"],
            { [steps]: [FIRST] }],
    ]);
});

// What is printed of a lesson: each step with its board, and the answers.
test("a lesson on paper", async () => {
    about("a lesson on paper");
    const used = await Used.open(linkOf("lesson: <b>One</b>\nstep: 0,0,0,1,0,1\nroll: 52\ntext: First.\nask: Which?\n"
        + "answer: That.\nstep: 3,0,0,0,0,0\ntext: Second."));
    equal("its boards, dice and texts", [...used.at("printed").querySelectorAll(".steps-printed > li")].map((item) =>
        [item.querySelectorAll("circle.checker").length, item.querySelectorAll(".die").length,
            item.querySelector("p").textContent.trim()]), [[2, 2, "First. Which? 5 and 2"], [3, 0, "Second."]]);
    await used.run("a lesson on paper", [
        ["its title and answers", "", { "#printed h2": "<b>One</b>", "all #printed h3 + ol li": ["That.", "\u2013"] }],
        ["without a lesson nothing", "end training", { printed: "" }],
    ]);
});
