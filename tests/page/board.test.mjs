// The free board, without a browser: what each click, key, typed position and address does, what is kept and saved, and
// what is guessed there; and the databases behind it: the wrong moments that there were, and others like them, the
// whole board, which is built beside the open one, and browsers that can't.
import { readFileSync } from "node:fs";
import { received, wanted } from "../../web/asks.js";
import { asSvg } from "../../web/board/picture.js";
import { pressed } from "../../web/board/state.js";
import { moved, verdict } from "../../web/board/view.js";
import { readEstimate } from "../../web/lesson/text.js";
import { readCounts, readLink, readTyped, START, writeLink } from "../../web/link.js";
import { ROLLS } from "../../web/points.js";
import { begin } from "../../web/state.js";
import { inSentence, isShort, sumOfFractions } from "../../web/texts.js";
import { about, answerTo, bytesAs, equal, heard, legalFrom, linkOf, losing, numbersOf, pipsOf, rollsFrom, settled, tell, test,
    Used, WAITS, Worker, wrong, textOf } from "./stand_in.mjs";

test("clicks", async () => {
    about("clicks");
    const used = await Used.open("#at=1,0,0,0,0,0");
    await used.do("point 3");
    equal("adds", used.board, [1, 0, 1, 0, 0, 0]);
    used.click("point 3", { shiftKey: true });
    used.sees("with shift takes away", { board: "1,0,0,0,0,0" });
    tell(used.find("point 1"), "contextmenu").defaultPrevented || wrong("a right-click opens a menu");
    used.sees("a right-click takes away", { board: "0,0,0,0,0,0" });
    tell(used.find("point 1"), "contextmenu");
    await used.worker.answerAll();
    used.sees("from nothing nothing, and no rolls where all are off", { board: "0,0,0,0,0,0", "hidden rolls": true });
    for (let count = 0; count < 17; count += 1) used.click("Add 1");
    const four = [0, 0, 0, 1, 0, 0];
    await used.run("clicks", [
        ["at most fifteen, and none elsewhere", "Add 2", { board: "15,0,0,0,0,0", "aria-disabled of Add 2": "true",
            "aria-disabled of Remove 1": null }],
        ["cleared", "clear", { board: "0,0,0,0,0,0" }],
        ["buttons", "Add 5, Add 4, Remove 5", { board: four.join(), said: heard(four) }],
    ]);
    used.click("print");
    used.click("promises");
    equal("printed, and the promises", [used.window.printed, used.at("proved").isShown], [1, true]);
    used.at("counts").value = "4";
    const before = used.find("point 4");
    used.click("Add 4");
    equal("an element stays", used.find("point 4") === before, true);
    const over = () => used.document.body.classList.contains("over");
    equal("a file may be dropped", [tell(used.document, "dragover").defaultPrevented, over()], [true, true]);
    tell(used.document, "dragleave");
    equal("or not", over(), false);
});

test("keys", async () => {
    about("keys");
    const used = await Used.open("#at=0,0,0,0,0,0");
    const press = (point, key, more = {}) => tell(used.find(`point ${point}`), "keydown", { key, ...more });
    // digits on a point, each with the time that passes after it, and its count
    for (const [typed, wait, count] of [["12", 100, 12], ["1", 2000, 1], ["19", 100, 9], ["7", 2000, 7], ["5", 2000, 5],
        ["15", 999, 15], ["123", 100, 3], ["0", 2000, 0], ["015", 100, 15], ["12", 1001, 2]]) {
        used.window.pass(3000);
        for (const key of typed) {
            press(2, key);
            used.window.pass(wait);
        }
        equal(`the digits ${typed}, ${wait} ms apart`, used.board[1], count);
    }
    used.window.pass(3000);
    press(2, "1");
    press(3, "2");
    equal("digits on two points", used.board.slice(1, 3), [1, 2]);
    for (const key of ["1", "ArrowUp", "2"]) press(3, key);
    equal("a digit after an arrow", used.board[2], 2);
    for (const [key, count] of [["ArrowUp", 3], ["ArrowDown", 2], ["+", 3], ["-", 2], ["PageUp", 7], ["PageDown", 2],
        ["End", 14], ["Home", 0], ["Delete", 0]]) {
        equal(`${key} is used`, [press(3, key).defaultPrevented, used.board[2]], [true, count]);
    }
    equal("another key is not", [["a"], ["Tab"], ["1", { ctrlKey: true }], ["1", { altKey: true }],
        ["1", { metaKey: true }]]
        .filter((words) => press(3, ...words).defaultPrevented), []);
    for (const [key, to] of [["ArrowLeft", "point 4"], ["ArrowRight", "point 2"]]) {
        press(3, key);
        equal(`${key} leads`, used.focus(), to);
    }
    equal("pure", pressed(used.session.state, 1, "x", 0), null);

    about("arrows within the rolls");
    await used.do("clear, Add 6");
    const buttons = (name) => [...used.at(name).querySelectorAll("button")];
    const stops = (name) => buttons(name).filter((node) => node.getAttribute("tabindex") === "0")
        .map((node) => node.getAttribute("data-key")).join();
    equal("one stop of Tab of 21", [stops("grid"), buttons("grid").length], ["roll 11", 21]);
    buttons("grid").forEach((node, place) => { node.offsetTop = Math.floor(place / 4); });
    used.find("roll 11").focus();
    for (const [key, roll] of [["ArrowRight", "21"], ["ArrowDown", "33"], ["ArrowLeft", "32"], ["ArrowUp", "11"],
        ["End", "66"], ["Home", "11"]]) {
        equal(`${key} is used, leads on, and Tab stops there`,
            [used.press(key).defaultPrevented, used.focus(), stops("grid")],
            [true, `roll ${roll}`, `roll ${roll}`]);
    }
    equal("nowhere else", used.press("ArrowLeft").defaultPrevented, false);
    equal("the end of the rows", [["ArrowDown", 19], ["ArrowRight", 20], ["ArrowUp", 3], ["x", 3]].map(([key, place]) =>
        moved(key, place, 21, 4)), [null, null, null, null]);

    about("arrows within the plays");
    await used.do("roll 31");
    equal("its plays", used.plays(), ["play 3/off 1/0", "play 3/off 1/1", "play 3/1 1/2"]);
    buttons("plays").forEach((node, place) => { node.offsetTop = place; });
    used.find("play 3/off 1/0").focus();
    used.press("ArrowDown");
    equal("down, and one stop of Tab there", [used.focus(), stops("plays")], ["play 3/off 1/1", "play 3/off 1/1"]);
    tell(used.at("rolls"), "keydown", { key: "Escape" });
    used.sees("Escape closes", { focus: "roll 31", plays: [] });
});

test("typed counts", async () => {
    about("typed counts");
    for (const text of ["1,2,3,0,0,9", " 1 2 3 0 0 9 ", "1.2.3.0.0.9", "1;2;3;0;0;9", "1, 2, 3, 0, 0, 9"]) {
        equal(text, readCounts(text).points, [1, 2, 3, 0, 0, 9]);
    }
    equal("two digits", readCounts("0, 0, 0, 0, 0, 15").points, [0, 0, 0, 0, 0, 15]);
    const none = "A count is a whole number; commas or spaces stand between the six.";
    for (const [text, fault] of [
        ["1,2,3", "Six counts are wanted, and here are 3."], ["7", "Six counts are wanted, and here is 1."],
        ["", "Six counts are wanted, and here are 0."], ["16,0,0,0,0,0", "There are 15 checkers, and here are 16."],
        ["1,2,x,0,0,0", none], ["1.5,2,2,2,2,2", none], ["-1,2,2,2,2,2", none],
    ]) equal(`why not ${text}`, readCounts(text), { fault });
    const used = await Used.open("#at=2,2,2,2,2,2");
    const give = (value) => tell(used.at("counts"), "change", { target: { value } });
    give("9,9,0,0,0,0");
    used.sees("refused, and the board stays", { why: "There are 15 checkers, and here are 18.", "hidden why": false,
        "value counts": "9,9,0,0,0,0", "aria-invalid of counts": "true", board: "2,2,2,2,2,2" });
    give("7 4 2 0 0 0");
    used.sees("taken", { board: "7,4,2,0,0,0", "hidden why": true, "value counts": "7,4,2,0,0,0",
        "aria-invalid of counts": "false" });
    give("1");
    used.click("Add 1");
    used.sees("a click ends the fault", { "hidden why": true, "value counts": "8,4,2,0,0,0" });
});

// What players have: the texts that the packages read and refuse, each by its line.
const TEXTS = JSON.parse(readFileSync(new URL("../callers/notation_texts.json", import.meta.url), "utf8"));

test("positions as players have them", async () => {
    about("positions as players have them");
    for (const [text, points, theirs, roll] of TEXTS.read) equal(`read ${text}`, readTyped(text),
        { points, roll, theirs });
    let ids = 0;
    for (const [text, , line] of TEXTS.refused) {
        if (readCounts(text).points) continue; // the field takes more spellings of counts
        const { fault } = readTyped(text);
        if (/[a-z]{3}|:/i.test(text)) {
            equal(`refused ${text}`, fault, `This is no bearoff race: ${line}`);
            ids += 1;
        } else if (!fault || fault === "undefined") wrong(`${text} isn't refused in words`);
    }
    equal("IDs that are refused", ids > 40, true);
    // how long a text may be is looked at before anything else
    equal("a text of 1000 characters", readTyped("1,2,3,0,0,4".padEnd(1000)),
        { points: [1, 2, 3, 0, 0, 4], roll: null, theirs: null });
    for (const long of ["1,2,3,0,0,4".padEnd(1001), "1,".repeat(2.5e6), "1 ".repeat(10 ** 7), "x".repeat(10 ** 7)]) {
        equal("a longer one", [readTyped(long), readEstimate(long)],
            [{ fault: "A position has at most 1000 characters, and this text has more." }, null]);
    }
    equal("a link that is too long", [readLink(`#at=1,0,0,0,0,0&t=${"x".repeat(4e6)}`).points,
        readLink(`#t=${"x".repeat(4e6)}`).faults], [START, ["The link is too long, and was left out."]]);
    const used = await Used.open("#at=1,2,3,0,0,4");
    const field = used.at("counts");
    const give = (text, name = "change", more = {}) => {
        field.focus();
        field.value = text;
        tell(field, name, more);
    };
    used.sees("it is said that it takes them", { "in how": "XGID", "aria-describedby of counts": "why how" });
    const xgid = "XGID=-ABC--D------------a-b--c-:0:0:-1:12:0:0:0:0:10";
    const taken = { board: "3,0,0,2,0,1", "state roll": [2, 1], "value counts": "3,0,0,2,0,1" };
    const race = () => [...used.at("numbers").querySelectorAll(".sides tr")].slice(1)
        .map((row) => [...row.childNodes].map((node) => node.textContent));
    await used.do("clear");
    give(xgid);
    used.sees("the other player is on roll", { ...taken, "hidden why": true });
    equal("both sides, which aren't known yet", race(),
        [["On roll", ...WAITS.slice(1)], ["Other side", "38", ...WAITS.slice(2)]]);
    await used.worker.answerAll();
    const [mine, theirs] = [[3, 0, 0, 2, 0, 1], [1, 2, 3, 0, 0, 4]]
        .map((points) => numbersOf(points).filter((_, at) => at !== 1));
    equal("both sides", race(), [["On roll", ...mine], ["Other side", ...theirs]]);
    const other = ` The other side: 38 pips, effective pip count ${theirs[1]}, wastage ${theirs[2]}.`;
    used.sees("nothing of who wins, and the other side is heard too", { said: heard([3, 0, 0, 2, 0, 1]) + other,
        "in numbers": "Nothing is said of who wins." });
    await used.do("Remove 1");
    used.sees("of another position there is no other side", { "state theirs": null, "count #numbers .sides": 0 });
    give(xgid);
    await used.worker.answerAll();
    used.sees("and heard once, with its roll", { said: heard([3, 0, 0, 2, 0, 1]) + other,
        "aria-pressed of roll 21": "true" });
    equal("and its plays", used.plays().length > 0, true);
    used.window.pass(1000);
    equal("its link", used.look("hash"), "#at=3,0,0,2,0,1&roll=21");
    give(xgid);
    used.sees("the same once more", taken);
    give("xwQAgHY8AAAAAA");
    await used.worker.answerAll();
    used.sees("without dice", { board: "1,2,3,0,0,4", "state roll": null, plays: [] });
    const [text, , line] = TEXTS.refused.find(([, code]) => code === "contact");
    for (const [name, more] of [["change", {}], ["input", { inputType: "insertFromPaste" }]]) {
        give(text, name, more);
        used.sees(`refused at ${name}, and the board stays`, { why: `This is no bearoff race: ${line}`,
            "hidden why": false,
            "role of why": "alert", "value counts": text, "aria-invalid of counts": "true", board: "1,2,3,0,0,4",
            "state roll": null });
        give("1,2,3,0,0,4");
        used.sees("then it is well", { "hidden why": true });
    }
    give("XGID=-ABC", "input", { inputType: "insertText" });
    equal("what is still typed isn't judged", [used.at("why").hidden, field.value], [true, "XGID=-ABC"]);
    give(xgid, "input", { inputType: "insertFromPaste" });
    used.sees("what is pasted is taken at once", taken);
});

test("rolls and plays", async () => {
    const used = await Used.open("#at=0,0,0,1,0,1");
    const arcs = () => [...used.at("board").querySelectorAll("path")]
        .filter((node) => node.getAttribute("d").includes("C")).length;
    await used.run("rolls and plays", [
        ["each roll has its best play and the next loss", "", { "roll 31": "3 and 1 3/off 1/0 then \u22120.000" }],
        ["one is pressed, comes into sight, and opens the sheet", "roll 31", { "aria-pressed of roll 31": "true",
            "aria-pressed of roll 21": "false", "scrolled roll 31": 1, "in plays": "3/off 1/0 loses nothing.",
            "class of rolls": "opened" }],
        ["what it loses, exactly", "play 3/1 1/2", { "in plays": "3/1 1/2 loses 1/18 of a roll, 0.454 pips of EPC.",
            "play 3/1 1/2": "3/1 1/2 \u22120.056", "aria-pressed of play 3/1 1/2": "true" }],
    ]);
    equal("arcs with their halos", arcs(), 4);
    equal("exactly, for a mouse that is held over it", [...used.find("play 3/1 1/2").querySelectorAll("*")]
        .map((node) => node.getAttribute("title")).filter(Boolean), ["1/18 of a roll"]);
    equal("a small board", [...used.at("plays").querySelectorAll("svg")].some((node) =>
        (node.getAttribute("aria-label") || "").startsWith("The board: 1 on 6, 1 on 4, 13 borne off")), true);
    await used.run("rolls and plays", [
        ["its position, and the roll is over", "onward, pass 1000", { board: "2,0,0,1,0,1", "class of rolls": "",
            hash: "#at=2,0,0,1,0,1", focus: "roll 31" }],
        ["chosen twice is none", "roll 52, roll 52", { plays: [] }],
        ["closed", "roll 61, close", { plays: [], focus: "roll 61" }],
        ["a roll of another position is not chosen", "roll 61, clear, Add 1", { plays: [] }],
    ]);
});

test("guesses", async () => {
    about("guesses");
    const used = await Used.open("#at=0,0,0,1,0,1&guess=1&roll=52&p=0,0,0,1,0,1&p=0,0,0,1,0,0");
    const [high, low] = ["0,0,0,1,0,1", "0,0,0,1,0,0"];
    equal("checked", used.at("guess").checked, true);
    used.sees("nothing tells", { [`row ${high}`]: WAITS, [`row ${low}`]: WAITS, keys: [high, low],
        sorting: "Their numbers are hidden while you guess.", "not in grid": "/",
        plays: ["play 5/1 2/2", "play 5/off 2/0", "play 5/off 2/1"], "count #plays [title]": 0, "count #plays .good": 0,
        "count #board .arc": 0 });
    equal("nor their words", ["best ", "as good", "0.056", "loses", "1/18"].filter((word) =>
        used.text("plays").replace("Which play is best?", "").includes(word)), []);
    let said = [];
    const { MutationObserver } = used.document.defaultView;
    new MutationObserver((changes) => said.push(...changes.flatMap(({ addedNodes }) =>
        [...addedNodes].map((node) => node.data).filter(Boolean)))).observe(used.at("said"), { childList: true });
    await used.run("guesses", [
        ["then it tells, and so do the kept", "play 5/1 2/2", {
            "in plays": "One guess has lost 0.056 of a roll. Exactly: 1/18.", "in roll 52": "5/off 2/0",
                "not in roll 31": "/",
            [`row ${high}`]: numbersOf([0, 0, 0, 1, 0, 1]), [`row ${low}`]: numbersOf([0, 0, 0, 1, 0, 0]),
                keys: [low, high] }],
        ["a roll counts once", "play 5/off 2/1", { "in plays": "One guess has lost" }],
        ["three of 1/18 are 1/6", "roll 31, play 3/1 1/2, roll 41, play 4/1 1/2",
            { "in plays": "3 guesses have lost 0.167 of a roll. Exactly: 1/6." }],
    ]);
    equal("said once", said.slice(0, 1),
        ["5/1 2/2 loses 0.056 of a roll; best is 5/off 2/0. One guess has lost 0.056 of a roll."]);
    const long = `${7n ** 40n}/${36n ** 22n}`;
    equal("a long fraction", [isShort(long), inSentence(long), isShort("1/18"), inSentence("1/18"),
        inSentence("1/6140942214464815497216")], [false, "0.368", true, "1/18", "1/6140942214464815497216"]);
    equal("is in no sentence", textOf(verdict({ isMiss: true, first: "One.", all: "All.", exact: long }, {}))
        .includes("Exactly"), false);
    await used.run("guesses", [
        ["a guessed roll is not guessed again", "roll 52, roll 52",
            { "not in plays": "Which play", "length guesses": 3 }],
        ["in another position it is", "Add 2, roll 52", { "in plays": "Which play", "not in roll 52": "/" }],
        ["and here it isn't", "set up, Remove 2", { "in roll 52": "/" }],
    ]);
    said = [];
    await used.do("roll 62, play 6/off 2/1");
    equal("one as good", said.filter(Boolean), ["Which play of 6-2 is best?",
        "6/off 2/1 is best, as is 6/off 2/0. 4 guesses have lost 0.167 of a roll."]);
    await used.run("guesses", [
        ["begun anew", "reset", { "length guesses": 0, "in plays": "Which play is best?", focus: "roll 62" }],
        ["and counted anew", "play 6/1 2/2", { "in plays": "One guess has lost 0.056" }],
    ]);
    said = [];
    for (const roll of ["31", "41"]) {
        used.click(`roll ${roll}`);
        used.click(losing(roll));
    }
    await used.worker.answerAll();
    equal("two at once", said.filter(Boolean), [["31", "2 guesses have lost 0.111"],
        ["41", "3 guesses have lost 0.167"]]
        .flatMap(([[one, other], lost]) => [`Which play of ${one}-${other} is best?`,
            `${one}/1 ${other}/2 loses 0.056 of a roll; best is ${one}/off ${other}/0. ${lost} of a roll.`]));
    tell(used.at("guess"), "change", { target: { checked: false } });
    used.window.pass(1000);
    used.sees("not guessing", { "not in plays": "guess", "in roll 31": "/" });
    equal("nor by its link", used.look("hash").includes("guess"), false);
    equal("sums", [[], ["1/18", "1/18", "1/18"], ["1/3", "1/6"], ["0/1"]].map(sumOfFractions),
        ["0/1", "1/6", "1/2", "0/1"]);
});

// On the free board a play that is to be guessed is made by moving checkers, too.
test("a guess on the board", async () => {
    let used = await Used.open("#at=0,0,0,1,0,1&guess=1", { plays: legalFrom });
    const editor = { "role of point 6": "spinbutton", "there Add 6": true };
    const playing = { "role of point 6": "button", "there Add 6": false, "there off": true };
    await used.run("a guess on the board", [["without a roll the board is set up", "", editor]]);
    used.at("board").scrolled = 0;
    await used.run("", [
        ["with a roll a play is made on it, and on no other board", "roll 52", { ...playing, "set up": "Set up",
            "scrolled board": 1, said: "Which play of 5-2 is best?", "count #plays svg.small": 0,
            "#board .hint": "Move a checker, or choose from the list." }],
        ["picked", "point 6", { "state picked": 6, "#board .hint": "Where to? A ring marks each place.",
            "there undo": true,
            "there set up": false }],
        ["undone", "point 1, undo", { board: "0,0,0,1,0,1", "state steps": [] }],
        ["made", "point 6, point 1, point 4, point 2", { made: "Play 6/1 4/2", "length guesses": 0,
            "play 6/1 4/2": "6/1 4/2 " }],
    ]);
    used.at("plays").scrolled = 0;
    const byKeys = ["Enter", ...Array(6).fill("ArrowRight"), "Enter", "Enter"].map((key) => `press ${key}`);
    await used.run("", [
        ["guessed, and the board is set up again", "made", { guesses: "6/1 4/2", focus: "play 6/1 4/2",
            "scrolled plays": 1,
            "begins said": "6/1 4/2 is best.", "begins #plays .verdict": "6/1 4/2 is best.", ...editor,
            "count #board .arc": 2, "there made": false }],
        ["counted anew, it is made again", "reset", playing],
        ["by keys", [() => used.find("point 6").focus(), ...byKeys], { guesses: "6/off", focus: "play 6/off" }],
        ["Escape puts a checker back", ["roll 61", () => used.find("point 6").focus(), "press Enter", "press Escape"],
            { "state picked": null, "state roll": [6, 1] }],
        ["and then leaves the roll", "press Escape", { "state roll": null, ...editor, focus: "roll 61" }],
        ["so does the button", "roll 61, set up", { "state roll": null, ...editor, focus: "roll 61" }],
        ["and a point is set", "Add 1", { board: "1,0,0,1,0,1" }],
    ]);
    used = await Used.open("#at=0,0,0,1,0,1&roll=52&guess=1&view=board", { plays: legalFrom });
    used.sees("a board in another page is none to play on", editor);
    used = await Used.open("#at=0,0,0,1,0,1&roll=52", { plays: legalFrom });
    used.sees("nor is one where nothing is guessed", { ...editor, "count #plays svg.small": 1 });
    used = await Used.open("#at=0,2,0,1,0,1&roll=31", { plays: legalFrom });
    const [, second, third] = used.plays();
    await used.run("", [[second, "1/18 of a roll, 0.454"], [third, "2/18 of a roll, 0.907"]].map(([play, lost]) =>
        ["what it loses", play, { "#plays .loss": `${play.slice(5)} loses ${lost} pips of EPC.` }]));
});

test("what is kept", async () => {
    const used = await Used.open("#at=2,0,0,0,0,0");
    await used.run("keeping", [
        ["kept", "keep", { "length kept": 1, keep: "Kept below", focus: "keep", "aria-disabled of keep": "true" }],
        ["once", "keep", { "length kept": 1 }],
        ["three", "Add 3, keep, Add 2, keep", {}],
    ]);
    const order = used.keys;
    equal("each is there", [...order].sort(), ["2,0,0,0,0,0", "2,0,1,0,0,0", "2,1,1,0,0,0"]);
    const counts = order.map((key) => answerTo(key.split(",").map(Number)).effective.thousandths);
    equal("sorted", counts.every((count, place) => place === 0 || count >= counts[place - 1]), true);
    await used.run("keeping", [
        ["a caption", [`caption ${order[1]}=<b>second</b>`, "pass 1000"],
            { [`value caption ${order[1]}`]: "<b>second</b>" }]]);
    equal("in the link", readLink(used.look("hash")).kept.map(({ points, caption }) => points.join() === order[1]
        && caption)
        .filter(Boolean), ["<b>second</b>"]);
    await used.run("keeping", [
        ["one is removed, and the focus is at the next", [`remove ${order[1]}`], { keys: [order[0], order[2]],
            focus: `remove ${order[2]}` }],
        ["then at the one before", [`remove ${order[2]}`], { focus: `remove ${order[0]}` }],
        ["shown", [`show ${order[0]}`], { board: order[0], "scrolled board": 1 }],
        ["none is left", [`remove ${order[0]}`], { keys: [], "hidden keeping": true, focus: "keep" }],
    ]);
    for (let count = 0; count < 12; count += 1) ["Add 1", "keep"].forEach((key) => used.click(key));
    used.sees("ten at most", { "length kept": 10, keep: "Ten are kept" });
    await used.answered("ten");
});

test("Back and Forward", async () => {
    const used = await Used.open("#at=1,0,0,0,0,0&t=A%20lesson");
    await used.run("Back and Forward", [["the first address", "", { hash: "#t=A+lesson&at=1,0,0,0,0,0" }]]);
    equal("is one", used.window.entries.length, 1);
    used.window.pass(1000);
    const links = [used.look("hash")];
    for (const key of ["Add 2", "keep", "roll 31", "Add 3", "clear"]) {
        await used.do([key, "pass 1000"]);
        links.push(used.look("hash"));
    }
    equal("each is a step", [used.window.entries.length, new Set(links).size], [6, 6]);
    for (const [way, place] of [..."43210"].map((at) => ["back", at]).concat([..."12345"]
        .map((at) => ["forward", at]))) {
        await used.do(way);
        equal(`${way} to ${place}`, writeLink(used.session.state), links[place]);
    }
    equal("no entry is lost, and nothing is kept again", [used.window.entries, used.rows.length], [links, 1]);
    for (let count = 0; count < 5; count += 1) {
        used.click("Add 1");
        used.window.pass(50);
    }
    used.window.pass(1000);
    equal("what follows at once is one step", [used.window.entries.length, used.look("hash").includes("at=5,")],
        [7, true]);
    await used.worker.answerAll();
    used.window.pass(1000);
    used.click("Add 1");
    used.click("Add 1");
    used.window.go(-1);
    used.window.pass(1000);
    equal("Back within a step", [used.board[0], used.window.place], [5, 6]);
    const soon = await Used.open("#at=1,0,0,0,0,0&t=T");
    soon.click("Add 1");
    equal("a step right after the address was completed", soon.window.entries.length, 2);
    soon.window.go(-1);
    equal("is undone", soon.board[0], 1);

    about("an address that a reader typed");
    const typed = await Used.open("#at=1,0,0,0,0,0");
    await typed.do("pass 1000, go #roll=21&at=1,0,0,0,0,1, pass 1000");
    equal("is a step, and its order is none", typed.window.entries, ["#at=1,0,0,0,0,0", "#at=1,0,0,0,0,1&roll=21"]);

    about("an address that is set before the page is told of it");
    const kept = await Used.open("#at=1,0,0,0,0,0");
    kept.window.pass(1000);
    for (const [hash, clicks, when] of [["#at=0,0,0,0,0,1", 2, "what followed a change is written"],
        ["#at=0,0,0,0,1,0", 0, "the board changes"], ["#at=2,0,0,0,1,0", 2, "it is the board's own"]]) {
        for (let count = 0; count < clicks; count += 1) kept.click("Add 1");
        kept.window.history.pushState(null, "", hash);
        if (clicks > 0) kept.window.pass(1000);
        else kept.click("Add 1");
        equal(`it stays when ${when}`, kept.look("hash"), hash);
        kept.window.go(0);
        kept.sees("then it is on the board", { board: hash.slice(4), hash });
        if (hash !== "#at=2,0,0,0,1,0") kept.window.pass(1000);
    }
    kept.click("Add 1");
    kept.window.pass(1000);
    equal("and is followed by the next", kept.look("hash"), "#at=3,0,0,0,1,0");

    about("a link that is set in an open page");
    const open = await Used.open("#at=2,2,2,2,2,2");
    open.window.pass(1000);
    open.window.type("#at=0,0,0,3,5,3&pips=90&p=1,1,0,0,0,0&c=first");
    open.check("set");
    await open.worker.answerAll();
    equal("it is built once", Worker.last.asked.map(({ question }) => [question.kind, question.bound].join(" ")),
        ["start 90"]);
    open.sees("the bar", { "hidden bar": false });
    await open.widened();
    open.sees("55 pips", { figures: numbersOf([0, 0, 0, 3, 5, 3]), keys: ["1,1,0,0,0,0"] });
    open.window.pass(1000);
    open.window.type("#at=0,0,0,1,0,0");
    await settled();
    open.sees("90 pips stay", { asked: "ask" });
    await open.worker.answerAll(90);
    open.window.pass(1000);
    open.sees("a link", { board: "0,0,0,1,0,0", hash: "#at=0,0,0,1,0,0" });
    equal("which is one entry", open.window.entries.length, 3);
    open.window.type("#at=0,0,0,1,0,0&pips=90&t=<b>T</b>");
    open.sees("the title is text", { lesson: "<b>T</b>", "count #lesson *": 0, "hidden lesson": false });
    equal("twice the same", readLink("#p=1,0,0,0,0,0&c=a&p=2,0,0,0,0,0&p=1,0,0,0,0,0&c=b&p=9,9,0,0,0,0&c=x")
        .kept.map(({ points, caption }) => `${points[0]} ${caption}`), ["1 a", "2 "]);
    const same = await Used.open("#at=2,2,2,2,2,2");
    same.window.pass(1000);
    same.window.type("#at=2,2,2,2,2,2&pips=90");
    await settled();
    same.sees("90 pips for the position that is there", { asked: "" });
    equal("once", Worker.last.asked.map(({ question }) => question.kind), ["start"]);
});

test("Copy the link, and pictures", async () => {
    about("a browser that takes no more addresses");
    const full = await Used.open("#at=2,2,2,2,2,2", { before: (window) => {
        window.history.pushState = () => { throw new Error("too many"); };
    } });
    await full.run("", [["the page goes on, and the address follows", "pass 1000, Add 1, pass 1000",
        { figures: numbersOf([3, 2, 2, 2, 2, 2]), hash: "#at=3,2,2,2,2,2" }]]);
    full.window.history.replaceState = full.window.history.pushState;
    full.click("Add 1");
    full.click("copy");
    await settled();
    const clipboard = "https://here/page.html#at=4,2,2,2,2,2";
    full.sees("the link that is copied is of now", { clipboard });

    about("Copy the link");
    const copied = await Used.open("#at=2,2,2,2,2,2");
    for (const key of ["Add 1", "Add 1", "copy"]) copied.click(key);
    await settled();
    copied.sees("it says so", { clipboard, copied: "The link is copied.", copy: "Copied", "hidden link": true });
    copied.window.pass(2000);
    copied.sees("and then no more", { copy: "Copy the link" });
    const disk = await Used.open("#at=2,2,2,2,2,2", { protocol: "file:" });
    disk.click("copy");
    await settled();
    disk.sees("on a disk", {
        copied: "The link is copied. This page is a file of this device, so the link opens only here." });
    const shut = await Used.open("#at=2,2,2,2,2,2", { navigator: {}, before: (_, document) => {
        document.getElementById("link").hidden = true;
    } });
    shut.click("copy");
    await settled();
    shut.sees("where it can't", { "begins copied": "The browser lets this page copy nothing.", "hidden link": false,
        "value link": "https://here/page.html#at=2,2,2,2,2,2" });
    equal("it is chosen", shut.at("link").isSelected, true);

    about("a picture, with the caption of where it is kept");
    for (const [hash, caption] of [["#at=0,0,0,0,4,1", ""],
        ["#at=0,0,0,0,4,1&p=1,0,0,0,0,0&c=other&p=0,0,0,0,4,1&c=Five", "Five"]]) {
        const used = await Used.open(hash);
        used.click("save-svg");
        await settled();
        const [[address, { text, type }]] = used.window.files;
        const [link] = used.document.saved;
        equal("a file", [type, link.href, link.download, used.text("copied"), text], ["image/svg+xml", address,
            "bearoff-0-0-0-0-4-1.svg", "The picture is saved as bearoff-0-0-0-0-4-1.svg.",
                asSvg([0, 0, 0, 0, 4, 1], caption)]);
        used.window.pass(60000);
        equal("and then the file is gone", used.window.files.size, 0);
        used.click("save-png");
        await settled();
        equal("where no picture is drawn", [used.document.saved.length, used.text("copied")],
            [1, "The browser makes no such picture: it can't."]);
    }
});

test("what is chosen is heard", async () => {
    const used = await Used.open("#at=1,0,0,1,0,1", { plays: legalFrom });
    const { plays } = legalFrom([1, 0, 0, 1, 0, 1]).find(({ dice }) => dice.join("") === "31");
    const loses = ({ text, lossText }) => `${text} loses ${lossText} of a roll.`;
    await used.run("what is chosen is heard", [
        ["a roll", "roll 31",
            { said: `3-1: best is ${plays[0].text}. The next of ${plays.length - 1} others, ${loses(plays[1])}` }],
        ["a play", `play ${plays[2].text}`, { said: loses(plays[2]) }],
        ["the best one", `play ${plays[0].text}`, { said: `${plays[0].text} loses nothing.` }],
        ["none any more", "close", { said: "" }],
    ]);
    const only = await Used.open("#at=1,0,0,0,0,0", { plays: legalFrom });
    await only.run("", [["the only play", "roll 66", { said: "6-6: best is 1/off. It is the only play." }]]);
    const coming = new Used("#at=1,0,0,1,0,1");
    coming.click("roll 31");
    coming.sees("nothing while it isn't known", { said: "" });
});

test("Guess first is turned off", async () => {
    const used = await Used.open("#at=0,0,0,1,0,1&guess=1&roll=52");
    const guess = (checked) => () => { tell(used.at("guess"), "change", { target: { checked } }); };
    const told = "Guessing has ended: One guess has lost 0.056 of a roll.";
    await used.run("Guess first is turned off", [
        ["nothing was guessed", [guess(false)], { "hidden notice": true, "state guess": false }],
        ["guesses end, and are told", [guess(true), "play 5/1 2/2", guess(false)],
            { notice: told, said: told, "length guesses": 0 }],
    ]);
});

const TWO = "#at=2,2,2,2,2,2";
const REFUSED = { message: "refused", status: 25, line: "record 3 mean" };
const NONE = Array(4).fill("\u2013");
const DEAD = "Nothing more can be computed here: out of memory. Load the page anew.";

test("the wrong moments", async () => {
    about("while a dropped file is checked");
    let used = await Used.open(`${TWO}&p=2,2,2,2,2,2`);
    await used.drop();
    used.click("Remove 6");
    used.sees("a checker less", { asked: "open", board: "2,2,2,2,2,1", figures: WAITS, "not in roll 31": "/" });
    used.click("keep");
    used.sees("kept in between", { "row 2,2,2,2,2,1": WAITS, asked: "open" });
    await used.worker.refuse(REFUSED);
    const trouble = "The file was refused, and nothing of it is used. A recorded play doesn't reach the least mean. "
        + "First fault: record 3 mean.";
    used.sees("the reason, beside the field too", { trouble, open: "44 pips", "file-why": trouble,
        "hidden file-why": false, "aria-describedby of file": "file-why", "hidden bar": true });
    await used.worker.answerAll();
    const own = numbersOf([2, 2, 2, 2, 2, 1]);
    used.sees("each has its own numbers", { "row 2,2,2,2,2,1": own, figures: own });

    about("two changes in one tick");
    used = await Used.open(TWO);
    used.click("Remove 6");
    used.click("Remove 6");
    used.sees("both count", { board: "2,2,2,2,2,0" });
    equal("asked of the first alone", used.worker.asked.map(({ question }) => question.points.join()), ["2,2,2,2,2,1"]);
    await used.worker.answer(answerTo([2, 2, 2, 2, 2, 1]));
    used.sees("the late answer of the first isn't shown", { figures: WAITS });
    await used.worker.answerAll();
    used.sees("both answered", { figures: numbersOf([2, 2, 2, 2, 2, 0]) });

    about("kept before the answer");
    used = await Used.open(TWO);
    for (const key of ["Add 1", "keep", "Remove 1"]) used.click(key);
    used.check("changed at once");
    await used.worker.answerAll();
    used.sees("answered", { "row 3,2,2,2,2,2": numbersOf([3, 2, 2, 2, 2, 2]) });

    about("before any database");
    used = new Used("#p=1,0,0,0,0,0");
    used.check("at once");
    used.click("Add 2");
    await settled();
    used.sees("nothing is known, and nothing is asked", { figures: WAITS, asked: "start" });
    await used.ready();
    equal("then it is", used.figures[0], "3");

    about("a worker that dies");
    used = await Used.open("#p=1,0,0,0,0,0");
    used.click("Add 2");
    used.worker.onerror({ message: "out of memory" });
    await settled();
    used.sees("dead", { trouble: DEAD, figures: NONE, "hidden bar": true, "hidden rolls": true });
    used.click("Add 2");
    used.sees("nothing is asked", { asked: "ask" });
    await used.drop();
    used.sees("a file later", { "hidden bar": true, "begins trouble": "Nothing more" });

    about("workers that never come so far");
    for (const [how, fail, words] of [
        ["one that dies while it builds", (worker) => worker.onerror({}), "the worker stopped. Load the page anew."],
        ["one whose words can't be read", (worker) => worker.onmessageerror(), "can't be read"],
        ["a build that fails", (worker) => worker.refuse({ message: "no memory", status: 0, line: "" }),
            "This didn't work: no memory."]]) {
        used = new Used(TWO);
        await fail(used.worker);
        await settled();
        used.sees(how, { "in trouble": words, "hidden bar": true, figures: NONE,
            "in numbers": "No database is open." });
    }

    about("a question that fails");
    used = await Used.open("#at=1,0,0,0,0,0&p=2,0,0,0,0,0");
    used.click("Add 2");
    await used.worker.refuse({ message: "unreachable", status: 0, line: "" });
    used.sees("it isn't asked again", { numbers: "This didn't work: unreachable.", asked: "" });
    await used.do("Remove 2");
    equal("the next one is", used.figures[0], "1");

    about("a file that can't be read");
    used = await Used.open(TWO);
    await used.drop(bytesAs(async () => { throw new Error("a folder"); }));
    used.sees("words", { trouble: "This didn't work: a folder.", "hidden bar": true });

    about("two loads");
    used = await Used.open(TWO);
    const load = async () => {
        tell(used.at("file"), "change", { target: { files: [bytesAs(async () => new ArrayBuffer(8))] } });
        await settled();
    };
    await load();
    used.click("Add 1");
    await load();
    await used.worker.answer({ bound: 8, positions: 64 });
    used.sees("the first is open, and nothing is asked of it", { asked: "open", "hidden bar": false });
    await used.worker.answer({ bound: 90, positions: 54264 });
    await used.worker.answerAll(90);
    used.sees("the second is open", { figures: numbersOf([3, 2, 2, 2, 2, 2]), "hidden bar": true });

    about("an answer of a database that is no more");
    const asked = { ...begin(readLink("")), database: { bound: 44 } };
    const sizeOf = (state) => received(state, asked.database, wanted(asked), answerTo([2, 2, 2, 2, 2, 2])).answers.size;
    equal("it is dropped, and its own is kept", [{ ...asked, database: { bound: 8 } }, asked].map(sizeOf), [0, 1]);
});

// What the newest worker was asked, or "none" where there is no second one at work.
const built = (used) => (Worker.last === used.worker || Worker.last.isEnded ? "none"
    : Worker.last.asked.map(({ question }) => [question.kind, question.bound].join(" ")).join());
const FAR = [0, 0, 0, 3, 5, 3]; // 55 pips
const GIVE_FAR = [`counts=${FAR}`];
const GOES_ON = { "hidden trouble": true, "hidden wider": true, "hidden bar": true };

test("90 pips, unasked and unseen where it is quick, and where something needs them", async () => {
    about("90 pips on a fast machine");
    let used = await Used.open(`${TWO}&roll=31`, { took: 800 });
    const [first, plays] = [used.worker, used.plays()];
    equal("unasked", [built(used), Worker.last.asked[0].question.module, first.isEnded], ["start 90", "wide", false]);
    const shown = { ...GOES_ON, figures: numbersOf([2, 2, 2, 2, 2, 2]), plays, open: "44 pips" };
    used.sees("in silence", shown);
    Worker.last.onmessage({ data: { step: { from: 0.1, until: 0.5, usual: 400, text: "Building" } } });
    used.sees("also while it is built", shown);
    await used.run("", [
        ["the first answers meanwhile", "Remove 6", { figures: numbersOf([2, 2, 2, 2, 2, 1]) }],
        ["and again", "Add 6, roll 31", shown],
    ]);
    equal("and goes on", used.worker.isEnded, false);
    const [said, tree] = [used.text("said"), used.at("rolls").innerHTML];
    await used.widened();
    used.sees("it takes the place of the first, and nothing changes",
        { ...shown, open: "90 pips", known: "54,264", said });
    equal("but the workers", [first.isEnded, used.worker.isEnded, used.at("rolls").innerHTML === tree,
        used.window.location.hash.includes("pips")], [true, false, true, false]);
    await used.do("Remove 6");
    equal("it answers from then on", [used.figures, first.asked.length, Worker.last === used.worker],
        [numbersOf([2, 2, 2, 2, 2, 1]), 0, true]);

    about("how fast");
    for (const [took, is] of [[1, "start 90"], [2490, "start 90"], [2510, "none"], [60000, "none"],
        [undefined, "none"]]) {
        equal(`after ${took} ms`, built(await Used.open("", { took })), is);
    }

    about("90 pips on a slow machine");
    used = await Used.open(TWO, { took: 3000 });
    equal("not unasked", built(used), "none");
    await used.do(["counts=2,2,2,2,2,1"]);
    equal("36 pips don't need it", [built(used), used.figures], ["none", numbersOf([2, 2, 2, 2, 2, 1])]);
    await used.do(["counts=2,2,2,2,4,2"]);
    used.sees("52 pips need it, and what comes has its room", {
        figures: ["52", ...WAITS.slice(1)], "in numbers": "The database of 90 pips is being built for it.",
        said: "52 pips: the database of 90 pips is being built.", "hidden bar": false, "hidden rolls": false,
        "hidden chances": false, "hidden wider": true, "in roll 31": "\u2026" });
    equal("it is built", built(used), "start 90");
    Worker.last.onmessage({ data: { step: { from: 0.1, until: 0.5, usual: 400, text: "Building it" } } });
    equal("the bar says what it is at", used.text("step"), "Building it");
    await used.run("", [
        ["the first answers meanwhile, and nothing waits", "clear, Add 1",
            { figures: numbersOf([1, 0, 0, 0, 0, 0]), "hidden bar": true }],
        ["back to what waits", GIVE_FAR, { figures: ["55", ...WAITS.slice(1)], "hidden bar": false,
            step: "Building it" }],
        ["so does the table", "keep", { [`row ${FAR}`]: WAITS }],
    ]);
    used.click("roll 31");
    await used.widened();
    used.sees("then it is answered", { figures: numbersOf(FAR), [`row ${FAR}`]: numbersOf(FAR), "hidden bar": true,
        said: heard(FAR) });
    equal("with its plays", used.plays().length > 0, true);

    about("what needs 90 pips");
    const lessons = "lesson: One\nstep: 1,0,0,0,0,0\nstep: 0,0,0,3,5,3\nask: What?\nanswer: That.\n"
        + "lesson: Two\nstep: 1,0,0,0,0,0";
    for (const [hash, is] of [["#pips=90", "start 90"], [`#p=${FAR}&at=1,0,0,0,0,0`, "start 90"],
        ["#lesson=1", "start 90"],
        ["#lesson=2", "none"], [linkOf("lesson: L\nstep: 1,0,0,0,0,0\nstep: 0,0,0,0,9,0"), "start 90"],
        ["#lesson=2&p=0,0,0,0,0,15", "start 90"], ["#drill=stacks&seed=3&ask=effective", "start 90"],
        ["#pips=58", "start 90"], ["#pips=44", "none"], [`#view=board&p=${FAR}&at=1,0,0,0,0,0`, "start 90"],
        ["#drill=all&seed=3&ask=play", "none"]]) {
        used = await Used.open(hash, { lessons, took: 5000 });
        equal(`${hash}, slow`, built(used), is);
        used.sees(`${hash}: is it said`, { "hidden bar": is === "none", "hidden trouble": true });
    }
    equal("a board in another page builds nothing unasked",
        built(await Used.open("#view=board&at=1,0,0,0,0,0", { took: 10 })), "none");
    used = await Used.open("#lesson=1", { lessons, took: 5000 });
    await used.widened();
    await used.run("", [
        ["the step that needs it", "next step", { board: FAR.join() }],
            ["has its numbers", "answer", { figures: numbersOf(FAR) }],
    ]);
    equal("and nothing is built", built(used), "none");
    used = await Used.open(TWO, { lessons });
    const before = Worker.made;
    await used.do("Add 6");
    equal("48 pips need it, once", built(used), "start 90");
    await used.do("Add 1");
    equal("49 too, and it goes on", [built(used), Worker.made - before], ["start 90", 1]);
    used.sees("its numbers aren't there", { figures: ["49", ...WAITS.slice(1)] });

    about("an estimate that waits for 90 pips");
    used = await Used.open("#at=1,0,0,0,0,0&estimate=pips", { took: 5000 });
    await used.run("", [
        ["its pip count isn't told", GIVE_FAR, { figures: [], said: "", "not in numbers": "55" }],
        ["it can't be compared yet", "estimate=55, tell", { "length estimates": 0, focus: "estimate",
            "in numbers": "The number is still being computed: compare in a moment." }],
    ]);
    await used.widened();
    await used.run("", [
        ["then it is hidden as any", "", { figures: [] }],
        ["and compared", "estimate=55, tell",
            { "in numbers": "You said 55.000: 0.000 pips off.", figures: numbersOf(FAR) }],
    ]);
});

test("90 pips that can't be had", async () => {
    const failures = {
        "a build that fails": () => Worker.last.refuse({ message: "no memory", status: 0, line: "" }),
        "a worker that dies": async () => {
            Worker.last.onerror({ message: "no memory" });
            await settled();
        },
    };
    const waits = { figures: ["55", ...WAITS.slice(1)] };
    for (const [how, fail] of Object.entries(failures)) {
        about(`${how}, unasked`);
        const used = await Used.open("#at=1,0,0,0,0,0", { took: 100 });
        const second = Worker.last;
        await fail();
        used.sees("in silence", { ...GOES_ON, open: "44 pips" });
        await used.do("Add 2");
        used.sees("the first answers", { figures: numbersOf([1, 1, 0, 0, 0, 0]) });
        equal("nothing else", [second.isEnded, used.worker.isEnded, Worker.last === second], [true, false, true]);
        await used.do(GIVE_FAR);
        used.sees("tried again where it is needed", { ...waits, "hidden bar": false });
        equal("it is built", built(used), "start 90");
        await fail();
        used.sees("and said", {
            trouble: "The database of 90 pips couldn\u2019t be built: no memory. That of 44 pips goes on.",
            "hidden trouble": false, "hidden wider": false, "hidden bar": true, figures: [],
            numbers: "55 pips. The position has more pips than the database.It goes to 44 pips." });
        equal("not once more by itself", [built(used), used.worker.isEnded], ["none", false]);
        await used.do("Remove 6");
        used.sees("nor for another one", { "begins numbers": "49 pips." });
        equal("none is built", built(used), "none");
        await used.run("", [
            ["the first still answers", "clear", { figures: numbersOf([0, 0, 0, 0, 0, 0]), "hidden wider": true }],
            ["tried once more by its button", [`go #at=${FAR}`, "wider"],
                { ...waits, focus: "numbers", "hidden trouble": true, "hidden wider": true }],
        ]);
        equal("it is built once more", built(used), "start 90");
        await used.widened();
        used.sees("and then it is there", { figures: numbersOf(FAR), open: "90 pips", "hidden trouble": true });
    }

    about("a second worker that can't be made");
    let made = 0;
    let used = await Used.open("#at=1,0,0,0,0,0", { took: 5000 });
    const real = globalThis.Worker;
    globalThis.Worker = class { constructor() { made += 1; throw new Error("too many workers"); } };
    await used.do(GIVE_FAR);
    globalThis.Worker = real;
    used.sees("is told", { "hidden wider": false,
        trouble: "The database of 90 pips couldn\u2019t be built: too many workers. That of 44 pips goes on." });
    equal("and tried once", made, 1);

    about("the first worker dies while 90 pips are built");
    used = await Used.open("#at=1,0,0,0,0,0", { took: 100 });
    used.click("Add 2");
    used.worker.onerror({ message: "out of memory" });
    await settled();
    used.sees("both end", { trouble: DEAD, "hidden bar": true, figures: NONE });
    equal("the second too", Worker.last.isEnded, true);
});

test("a file of one's own, and 90 pips", async () => {
    const open = async (used) => {
        await used.drop();
        await used.worker.answer({ bound: 8, positions: 64 });
    };
    about("what is asked when 90 pips come");
    let used = await Used.open("#at=1,0,0,0,0,0", { took: 100 });
    used.click("Add 2");
    const late = used.worker;
    equal("it was asked of the first", late.asked.length, 1);
    await used.widened();
    used.sees("it is asked of the second", { figures: numbersOf([1, 1, 0, 0, 0, 0]) });
    equal("alone", late.isEnded, true);

    about("a file while 90 pips are built");
    used = await Used.open("#at=1,0,0,0,0,0", { took: 100 });
    let second = Worker.last;
    await used.drop();
    used.sees("ends that", { asked: "open", "hidden bar": false });
    equal("the build", second.isEnded, true);
    await used.worker.refuse(REFUSED);
    used.sees("refused, it is begun anew", { "begins trouble": "The file was refused" });
    equal("by another one", [built(used), Worker.last !== second], ["start 90", true]);
    second = Worker.last;
    await open(used);
    used.sees("nothing of the former database stays", { figures: WAITS, plays: [], asked: "ask" });
    await used.worker.answerAll(8);
    used.sees("a file of one's own stays, and answers", { open: "8 pips", figures: numbersOf([1, 0, 0, 0, 0, 0]) });
    equal("and nothing is built", [built(used), second.isEnded], ["none", true]);
    for (const [key, is] of [["Add 6", "none"], ["Add 5", "start 90"]]) {
        used.click(key);
        await used.worker.answerAll(8);
        equal(`7 pips are in it, and 12 aren't: ${key}`, built(used), is);
    }
    used.sees("12 pips", { figures: ["12", ...WAITS.slice(1)], "hidden notice": true });
    used.worker.asked.length = 0;
    equal("something was known", used.session.state.answers.size > 0, true);
    await used.widened();
    used.sees("which is said", { figures: numbersOf([1, 0, 0, 0, 1, 1]), open: "90 pips",
        notice: "Your file goes to 8 pips, so the database of 90 pips was built in its place." });

    about("a file's own plays go with it");
    used = await Used.open(`#at=1,0,0,0,0,0&roll=21&p=${FAR}`, { took: 5000 });
    await open(used);
    await used.worker.answerAll(8);
    equal("known", [used.figures[0], used.plays().length > 0, built(used)], ["1", true, "start 90"]);
    second = Worker.last;
    await second.answer({ bound: 90, positions: 54264, took: 900 });
    used.sees("nothing of them stays", { figures: WAITS, plays: [] });
    equal("and they are asked", second.asked.length, 1);

    about("drills that need more");
    used = await Used.open("#at=1,0,0,0,0,0", { took: 5000 });
    await open(used);
    await used.worker.answerAll(8);
    used.window.type("#at=1,0,0,0,0,0&drill=all&seed=3&ask=play");
    await used.worker.answerAll(8);
    for (const [needs, has] of [[44, 8], [90, 44]]) {
        if (has === 44) used = await Used.open("#drill=stacks&seed=3&ask=effective", { took: 5000 });
        used.sees("it waits", { "state questions": null,
            "in coach": `A drill of this theme needs ${needs} pips, and the open database has ${has}.` });
        equal("for the whole board", built(used), "start 90");
        await used.widened();
        used.sees("and has it", { "in coach": "Question 1 of 20.", "length questions": 20 });
        const pips = used.session.state.run.questions.map(({ points }) => pipsOf(points));
        equal("of its theme", [Math.min(...pips) > 44, Math.max(...pips) > 70], [has === 44, has === 44]);
    }
});

test("browsers that can't", async () => {
    about("browsers that can't");
    const none = { "begins trouble": "Nothing can be computed here: this browser runs no WebAssembly" };
    let used = new Used(TWO, { WebAssembly: null });
    used.sees("no WebAssembly", { ...none, board: "2,2,2,2,2,2", figures: NONE });
    used.click("Add 1");
    used.sees("and it is set", { board: "3,2,2,2,2,2", figures: NONE });
    used = new Used(TWO, { Worker: undefined });
    used.sees("no workers", { "begins trouble": "Nothing can be computed here: this browser runs no workers" });
    for (const [hash, bound] of [["", 44], ["#pips=90", 44], [`#at=${FAR}`, 90], ["#at=0,0,0,0,0,15", 90],
        ["#at=0,0,0,0,4,4", 44], ["#at=0,0,0,0,9,0", 90], ["#at=0,0,0,11,0,0", 44],
            ["#p=0,0,0,0,0,8&at=1,0,0,0,0,0", 44]]) {
        // it is at work before the page is drawn
        const [{ question }] = new Used(hash).worker.asked;
        equal(`what is asked first of ${hash}`, [question.kind, question.bound, question.module],
            ["start", bound, "wide"]);
    }
    equal("the rolls", [ROLLS.length, rollsFrom([1, 0, 0, 0, 0, 0]).length, pipsOf([1, 1, 1, 1, 1, 1])], [21, 21, 21]);
});
