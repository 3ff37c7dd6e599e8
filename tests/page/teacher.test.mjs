// One's own games, and what a teacher has, without a browser: a match from its text or its file to the first of its
// misses that comes back, a class's drill with its sheet and key, and the results that come back.
import { readFileSync } from "node:fs";
import { fail } from "../../web/fields.js";
import { readLink, readTyped } from "../../web/link.js";
import { inWords } from "../../web/points.js";
import { about, equal, pipsOf, settled, tell, test, tokenOf, Used } from "./stand_in.mjs";

test("one's own games", async () => {
    const match = (kind) => readFileSync(new URL(`../../python/tests/matches/short.${kind}`, import.meta.url), "utf8");
    const used = await Used.open("#games");
    const LOUD = "class of read match";
    const INVALID = "aria-invalid of match text";
    await used.run("one's own games", [
        ["at first", "", { "aria-describedby of match text": "match-why", "count .reviewed": 0, [LOUD]: "first",
            "accept of match file": ".mat,.sgf,.txt" }],
        ["a fault", ["match text=7 point match\n\nGame 2", "read match"], { focus: "match text", [INVALID]: "true",
            "match-why": "No match: line 3: it should be game 1: Game 2", "role of match-why": "alert", '#games [role="status"]': "" }],
        ["a match", [`match text=${match("mat")}`, "read match"],
            { "match-why": "", [LOUD]: null, [INVALID]: "false" }],
    ]);
    const rows = () => [...used.document.querySelectorAll("#games .reviewed li")];
    const textsOf = (node, selector) => [...node.querySelectorAll(selector)].map((one) => one.textContent);
    const { turns, rows: graded, names } = used.session.state.match;
    const isOver = ({ points }) => pipsOf(points) > 44;
    equal("each bearoff play of at most 44 pips", graded.map((row) => !row), turns.map(isOver));
    const known = turns.map((turn, place) => ({ ...turn, ...graded[place] })).filter(({ play }) => play);
    // what some plays have lost, which the stand-in has in eighteenths of a roll, in rolls and in pips
    const lostBy = (...plays) => plays.reduce((sum, { play }) => sum + Number(play.exact.split("/")[0]), 0);
    const told = (...plays) => [18, 108 / 49].map((parts) => (lostBy(...plays) / parts).toFixed(3));
    equal("each has its own", rows().map((row) => [row.className,
        row.querySelector("svg.small").getAttribute("aria-label"),
        ...textsOf(row, ".which, .heard, dt, dd")]), known.map((one) => [one.play.isBest ? "good" : "lost",
        `The board: ${inWords(one.points)}`, `Game ${one.game}, move ${one.move}`,
        one.dice[0] === one.dice[1] ? `Double ${one.dice[0]}` : one.dice.join(" and "), names[one.player],
            one.play.text,
        "Best", one.best.text, "Lost", one.choices === 1 ? "the only play" : one.play.isBest ? "nothing"
            : `${told(one)[0]} rolls, ${told(one)[1]} pips`]));
    equal("of both players", [...used.document.querySelectorAll("#games tbody tr")]
        .map((line) => textsOf(line, "th, td")),
        names.map((name, player) => {
            const theirs = known.filter((one) => one.player === player);
            return [name, theirs.length, theirs.filter(({ choices }) => choices > 1).length,
                theirs.filter(({ play }) => !play.isBest).length, ...told(...theirs),
                ...(turns.some(isOver) ? [turns.filter((turn) => turn.player === player && isOver(turn)).length] : []),
                lostBy(...theirs) > 0 ? "Ask me these" : ""].map(String);
        }));
    const player = [0, 1].find((one) => used.find(`ask ${one}`));
    const misses = known.filter((one) => one.player === player && one.play.loss > 0n)
        .map(({ points, play }) => [points, Number(play.loss)]);
    await used.run("", [["its misses come back", [`ask ${player}`, `ask ${player}`],
        { "in games": `${misses.length} questions come back from today on.` }]]);
    equal("each once", used.session.state.student.memory.cards.map(({ points, lost }) => [points, lost]), misses);
    const [dearest] = misses.reduce((most, one) => (one[1] > most[1] ? one : most));
    await used.run("", [
        ["from today on", "go #home", { "begins #today .begin": `Begin ${misses.length} again` }],
        ["the dearest first", "today", { board: dearest.join() }],
        ["Back to the games", "go #games", { screen: "games" }],
    ]);
    equal("they are there", rows().length > 0, true);
    const { state } = used.session;
    used.session.become(fail(state, "match", "line 3"));
    used.sees("a fault of the database, and no plays", { "count #games .reviewed": 0, "not in games": "No bearoff" });
    const { place } = turns.map((turn, at) => ({ ...turn, place: at }))
        .find((turn) => turn.points.join() === dearest.join());
    used.session.become({ ...state, match: { ...state.match, rows: graded.map((row, at) =>
        (at === place ? { ...row, choices: 1 } : null)) } });
    await used.run("", [["one of them", [`ask ${player}`], { "in games": ["One question comes back from today on.",
        "the only play"],
        'all #games td[data-head="with a choice"]': ["0", "0"] }]]);
    tell(used.find("match file"), "change", { target: { files: [new Blob([match("mat").replace(/^;.*\n+/, "")])] } });
    await settled();
    await used.answered("chosen");
    used.sees("a file that is chosen, whatever its name, of which nothing was said yet", { "not in games": "back from today" });
    equal("it is read", rows().length, known.length);
    await used.do("go #at=1,0,0,0,0,0");
    await used.drop(Object.assign(new Blob([Buffer.from(match("sgf").replace("PW[", "PW[J\u00fc"), "latin1")]),
        { name: "x.txt" }));
    await settled();
    await used.answered("a file");
    used.sees("a file that is dropped, of an older code", { screen: "games" });
    equal("its plays and names", [rows().length > 0, used.session.state.match.names[0].startsWith("J\u00fc")],
        [true, true]);
});

test("a class's drill", async () => {
    const used = await Used.open("#teacher");
    const XGID = "XGID=-ABC--D------------a-b--c-:0:0:-1:12:0:0:0:0:10";
    const write = (text, key, ask = "play") => [`positions=${text}`, `asked=${ask}`, key];
    await used.run("a class's drill", [
        ["1,1,0,0,0,0 21\n\nx", "Line 3: A count is a whole number; commas or spaces stand between the six."],
        ["1,1,0,0,0,0", "Line 1: A play is asked, so a roll stands behind the position, as in 2,2,2,2,2,2 31."],
        ["0,0,0,0,0,0 21", "Line 1: There is no checker."],
        [Array(61).fill("1,1,0,0,0,0 21").join("\n"), "Line 61: A drill has at most 60 positions."],
    ].map(([text, why]) => [`refused, ${text.slice(0, 20)}`, write(text, "sheet"),
        { "positions-why": why, focus: "positions", "there print sheet": false }]));
    // two at once: the first is let go
    for (const text of ["3,0,0,0,0,0 11", `1,1,0,0,0,0 12\r\n\n2 2 2 2 2 2 3-1\n${XGID}\n${XGID} 61`]) {
        used.give("positions", text);
        used.click("sheet");
    }
    await used.answered("both sheets");
    used.sees("the fault is gone, and dice stand there", { "positions-why": "",
        "all .key .heard": ["2 and 1", "3 and 1", "2 and 1", "6 and 1"] });
    const { drill: { list }, key } = used.session.state.sheet;
    equal("positions, one a line", list.map(({ points, roll }) => `${points} ${roll.join("")}`),
        ["1,1,0,0,0,0 21", "2,2,2,2,2,2 31", ...["21", "61"].map((roll) => `${readTyped(XGID).points} ${roll}`)]);
    equal("the key without playing", used.look("all .key li").map((text) => text.match(/best of.*/)[0]), key);
    await used.run("a class's drill", [
        ["on paper", "print sheet", { "count #printed .drill-printed .small": 4, "#printed .name-line": "Name",
            "all #printed .answers-printed li": key }],
        ["the class link", [...write("1,1,0,0,0,0 21\n2,2,2,2,2,2", "copy class", "effective"), settled],
            { "in teaching": "The link of the class is copied." }],
        ["a seed that is none", ["positions=", "seed=x", "sheet"], { "not in teaching": "is copied",
            "positions-why": "A seed is a whole number from 1 to 999999999." }],
        ["an ace point has nothing to play", ["theme=ace", "asked=play", "seed=5", "sheet"], { "positions-why": "" }],
    ]);
    equal("so the EPC is asked", used.session.state.sheet.drill, { theme: "ace", seed: 5, ask: "effective" });
    await used.do("theme=all, seed=");
    equal("printed", used.window.printed, 1);
    const link = used.window.copied.replace(/^[^#]*/, "");
    equal("the link", [link, readLink(link).faults], ["#list=1,1,0,0,0,0.2,2,2,2,2,2&ask=effective", []]);
    (await Used.open(link)).sees("asks everybody the same", { "length questions": 2, board: "1,1,0,0,0,0",
        "in coach": "Positions of a class" });
    await used.run("a class's drill", [["without positions, of the theme", write("", "open class"),
        { "length questions": 20 }]]);
    equal("no list", used.session.state.drill.list, undefined);
    equal("what a list can't be", readLink("#list=1,1,0,0,0,0&ask=play").faults.length, 1);
});

test("results", async () => {
    const one = (name, lost, drill = "all~7~play~hard~", played = lost.map(() => "x")) =>
        tokenOf(...drill.split("~"), encodeURIComponent(name).replaceAll("~", "%7E"), lost, played);
    const used = await Used.open("#teacher");
    const rowsOf = (table) => [...used.document.querySelectorAll(`${table} tbody tr`)].map((row) =>
        [...row.children].map((cell) => cell.textContent).join(" "));
    const give = async (name, text, { pupils = [], questions = [], why = "", ...seen }) => {
        await used.run("results", [[name, [`results=${text}`],
            { "results-why": why, "aria-invalid of results": String(why !== ""), "value results": text, ...seen }]]);
        equal(name, [rowsOf(".pupils:not(.questions)"), rowsOf(".questions")], [pupils, questions]);
    };
    await give("nothing yet", "", { "role of results-why": "alert" });
    const three = [one("Ada L.", [56, 0, "x", 0]), one("Bo", [0, 0, 20, 1]), one("<i>Cy</i>~", [0, 70, 20, 7])];
    const told = { pupils: ["Bo 4 2 0.021", "<i>Cy</i>~ 4 3 0.097", "Ada L. 3 1 0.056"], questions: ["Question 3 2 of 3 \u2013",
        "Question 4 2 of 3 \u2013", "Question 1 1 of 3 \u2013", "Question 2 1 of 3 \u2013"] };
    await give("who answered most and lost least first, and which questions most have missed",
        `Dear teacher,\n\n${three.join("\n")}\n\nBye`, told);
    equal("each is a link", [...used.document.querySelectorAll(".questions a")].map((node) =>
        readLink(node.getAttribute("href"))).map(({ place, drill }) => [place, drill.level]),
    [[2, "hard"], [3, "hard"], [0, "hard"], [1, "hard"]]);
    // what mails and messengers do to it
    const wrapped = (text, width, start) => text.match(new RegExp(`.{1,${width}}`, "g")).join(`\n${start}`);
    for (const [name, text] of [["wrapped", three.map((text) => wrapped(text, 30, "")).join("\n\n")],
        ["quoted", `> ${three.map((text) => wrapped(text, 40, "> > ")).join("\n> name of the class\n> ")}`],
        ["of quoted-printable", three.map((text) => wrapped(text, 19, "").replaceAll("\n", "=\n")).join("\n")],
        ["on one line", three.join(" ")], ["at the start of a sentence", three.map((text) => `B${text.slice(1)}`).join("")]]) {
        await give(name, text, told);
    }
    const plays = (name, ...all) => one(name, all.map((text) => (text === "6o(2)" ? 0 : 56)), "all~7~play~hard~", all);
    await give("what was played by whom", [plays("Ada", "6o(2)", "51_42"), plays("Bo", "6o(2)", "6o(2)"), plays("Cy", "6o(2)", "51_42")].join("\n"),
        { pupils: ["Bo 2 0 0.000", "Ada 2 1 0.056", "Cy 2 1 0.056"], questions: [
            "Question 2 2 of 3 6/off(2) (best): Bo; 5/1 4/2 (\u22120.056): Ada, Cy",
                "Question 1 0 of 3 6/off(2) (best): Ada, Bo, Cy"] });
    await give("of a list too", one("A", [0], "all~1~play~any~1,1,0,0,0,0,21"), { pupils: ["A 1 0 0.000"],
        ".pupils caption": "Drill: Positions of a class, Play" });
    await give("of which drill", one("Ada", [56, 0]), { pupils: ["Ada 2 1 0.056"],
        questions: ["Question 1 1 of 1 \u2013"],
        ".pupils caption": "Drill: All positions, Play, hard" });
    await give("estimates that are a pip off are missed", one("Ada", [999, 1000, 0], "few~3~effective~any~", ["-1.500", "12.000", "x"]),
        { pupils: ["Ada 3 1 1.999"], questions: ["Question 2 1 of 1 12.000 (\u22121.000): Ada", "Question 1 0 of 1 \u22121.500 (\u22120.999): Ada"],
            "in .pupils": "lost, in pips" });
    await give("two of one name", [one("Ada", [56, 0]), one("Ada", [0, 0])].join("\n"),
        { pupils: ["Ada 2 0 0.000", "Ada 2 1 0.056"], questions: ["Question 1 1 of 2 \u2013"] });
    await give("nothing missed", one("\u202eAda", [0, 0]), { pupils: ["Ada 2 0 0.000"] });
    await used.run("results", [["they are there again", "go #home, go #teacher",
        { "value results": one("\u202eAda", [0, 0]) }]]);
    const cut = "isn\u2019t whole: a part of it was lost or changed.";
    const bad = "can\u2019t be read.";
    const good = one("Bo", [0, 56]);
    for (const [words, why] of [
        [good.slice(0, -3), `of Bo ${cut}`], [good.replace("56", "5"), `of Bo ${cut}`], [good.replace("56", "65"), `of Bo ${cut}`],
        ["bearoff[", cut], ["bearoff[]", cut], [good.replace("bearoff[2", "bearoff[3"), `of Bo ${cut}`],
        [tokenOf("x").replace("[2~", "[").replace(/~[^~]*]/, "]"), cut], [one("", [0, 0]), bad], [one("A", ["y", 0]), `of A ${bad}`],
        [one("A", [0, "-1"]), `of A ${bad}`], [one("A", Array(61).fill(0)), `of A ${bad}`], [one("A", [0, 0], "all~7~play~harder~"), `of A ${bad}`],
        [one("A", [0, 0], "nowhere~7~play~any~"), `of A ${bad}`], [one("A", [0, 0], "fewer~7~play~easy~"), `of A ${bad}`],
        [one("A", [0, 0], "all~7~play~hard~", ["67", "x"]), `of A ${bad}`], [one("A", [0, 0], "all~7~play~hard~", ["x"]), `of A ${bad}`],
        [one("A", [0, 0], "all~8~play~hard~"), "of A is of another drill than the first."],
        [one("A", [0]), "of A is of another drill than the first."],
    ]) {
        await give(`good ones are taken and bad ones named, ${words.slice(0, 60)}`, `${good}\n${words}\n${good}`, {
            why: `Result 2 ${why}`, pupils: ["Bo 2 1 0.056", "Bo 2 1 0.056"], questions: ["Question 2 2 of 2 \u2013"] });
    }
    for (const [words, why] of [["hello", "There is no result in it."], ["x".repeat(200001), "It has more than 200000 characters."],
        [one("A", [0], "none~1~play~any~"), `Result 1 of A ${bad}`]]) await give(`refused, ${words.slice(0, 60)}`, words, { why });
    await give("an empty field is none", "", {});
});
