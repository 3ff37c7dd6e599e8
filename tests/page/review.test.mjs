// The end of a drill, without a browser: its questions to the last, what was missed and is asked once more, the review,
// the score, the result as a text, and the sheet.
import { readLessons } from "../../web/lesson/text.js";
import { readLink } from "../../web/link.js";
import { isFar } from "../../web/question/questions.js";
import { withRun } from "../../web/question/state.js";
import { openedOf } from "../../web/review/state.js";
import { decimal } from "../../web/texts.js";
import { about, answerTo, asGood, best, drawFrom, equal, losing, pipsOf, settled, test, tokenOf, Used } from "./stand_in.mjs";

const GAPS = "#drill=gaps&seed=7&ask=play";
const asked = drawFrom({ theme: "gaps", seed: 7, ask: "play" });
const EDITS = ["Add 1", "Remove 1", "clear", "close", "onward"];

test("a drill of plays", async () => {
    const used = await Used.open(GAPS);
    const [{ points: first, roll: [high, low] }] = asked;
    const position = first.map((count, place) => count > 0 && `${count} on ${place + 1}`).filter(Boolean).reverse();
    const gone = 15 - first.reduce((sum, count) => sum + count, 0);
    await used.run("a drill of plays", [["the first question is where one goes on, and nothing edits or tells", "", {
        board: first.join(), "state roll": [high, low], "hidden coach": false, focus: "coach",
        said: `Question 1 of 20. Which play of ${high}-${low} is best? The board: ${position.join(", ")}, ${gone} `
            + "borne off.",
        title: "Question 1 of 20: Gaps \u2013 Bearing off", "count #plays .cost": 0, grid: "", "not in coach": "lost",
        ...Object.fromEntries(EDITS.map((key) => [`there ${key}`, false])) }]]);
    equal("in sight, with all plays", [used.document.body.scrolled, used.plays().length], [1, 3]);
    for (const [place, { points, roll }] of asked.entries()) {
        used.sees(`question ${place + 1}`, { board: points.join(), "in coach": `Question ${place + 1} of 20`,
            "next question": "Skip" });
        if (place < 19) {
            const play = place < 7 ? losing(roll) : asGood(roll);
            const [made, right] = [play, best(roll)].map((key) => key.slice(5));
            await used.run("", [[`the verdict of question ${place + 1}`, [play],
                { focus: "next question", "next question": "Next",
                "#coach .verdict b": place < 7 ? "Small mistake" : "Best!",
                "count #coach .scale .is": place < 7 ? 2 : 0,
                "#coach .verdict .rest": place < 7 ? `${made} loses 0.056 of a roll; best is ${right}. In EPC: 0.454 pips.`
                    : `${made} is best, as is ${right}.` }]]);
        }
        await used.do("next question");
        if (place < 19) equal(`question ${place + 2} comes into sight, and its board is where one goes on`,
            [used.document.body.scrolled, used.document.activeElement.getAttribute("role")], [2 * place + 3, "button"]);
    }
    for (const [place, { points, roll }] of asked.slice(0, 7).entries()) {
        await used.run("once more", [
            [`question ${place + 1}`, "", { board: points.join(), "in coach": `Once more, ${place + 1} of 7.`,
                "count #plays .cost, #coach .verdict": 0, grid: "" }],
            ["the way on from there", [place < 3 ? best(roll) : losing(roll)],
                { "next question": place < 6 ? "Next" : "Score" }],
        ]);
        await used.do("next question");
    }
    await used.run("the end", [["the score", "", {
        "in coach": ["7 were missed; asked once more, 3 were right.",
            "You played 19 of 20, and lost 0.389 rolls, or 3.176 pips of EPC. Exactly: 7/18 of a roll."],
        title: "Drill: Gaps \u2013 Bearing off", said: "The drill is over.", focus: "coach", plays: [],
        "count #coach .verdict": 0 }]]);
    const mistakes = used.find("mistakes").getAttribute("href");
    equal("the mistakes", readLessons(readLink(mistakes).text).lessons[0].steps.map(({ points }) => points.join()),
        asked.slice(0, 7).map(({ points }) => points.join()));
    used.window.pass(1000);
    equal("the seed is in the link", readLink(used.look("hash")).drill, { theme: "gaps", seed: 7, ask: "play" });
    await used.run("the end", [
        ["over another position it is away", [`go ${used.find("look around").getAttribute("href")}`],
            { "hidden coach": true, "there Add 1": true }],
        ["and with Back it is there again", "back", { "in coach": "You played 19 of 20, and lost 0.389 rolls" }],
        ["another one like it", "another drill", { "length guesses": 0, "in coach": "Question 1 of 20.",
            focus: "coach" }],
    ]);
    const { theme, seed } = used.session.state.drill;
    equal("of another seed", [theme, seed === 7], ["gaps", false]);
    await used.run("the end", [["it ends", "end training", { "hidden coach": true, "state guess": false, focus: "today",
        said: "The drill is over.", title: "Bearing off, proved" }]]);
    (await Used.open("#at=0,0,0,0,0,0&t=My title")).sees("a title", { title: "My title \u2013 Bearing off" });
});

test("a drill of estimates", async () => {
    const ACE = "#drill=ace&seed=3&ask=effective";
    let used = new Used(ACE);
    await used.worker.answer({ bound: 44, positions: 26313 });
    about("a drill of estimates");
    used.sees("while it is drawn nothing is estimated", { "there estimate": false, figures: [], numbers: "" });
    used = await Used.open(ACE);
    const { questions } = used.session.state.run;
    const right = questions.map(({ points }) => answerTo(points).effective.thousandths);
    const inAll = (errors) => decimal((2n * errors.reduce((sum, error) => sum + error, 0n)
        + BigInt(errors.length)) / BigInt(2 * errors.length));
    const errors = [];
    for (const [place, exact] of right.entries()) {
        const told = place === 0 ? exact % 1000000n : place === 1 ? 1n : 7000n;
        errors.push(exact > told ? exact - told : told - exact);
        await used.run("a drill of estimates", [
            ["hidden, and nothing is typed yet", "", { figures: [], chances: "", "not in said": "effective",
                "value estimate": "" }],
            ["told, and above", [`estimate=${decimal(told)}`, "tell"], {
                "in numbers": `${decimal(errors.at(-1))} pips off. The mean error so far is ${inAll(errors)} pips.`,
                "in coach": `${place + 1} estimated, mean error ${inAll(errors)} pips.`, "next question": "Next" }],
        ]);
        equal("with its numbers", used.figures.length, 4);
        await used.do("next question");
    }
    equal("fifteen stacks, and what each was off", [questions.length,
        used.session.state.run.estimates.map(({ error }) => error)
        .join()], [15, errors.join()]);
    await used.run("a drill of estimates", [
        ["once more", "", { board: questions[0].points.join(), figures: [], "there estimate": true,
            "in coach": "Once more, 1 of 15. What is the EPC?" }],
        ["which counts for nothing", "estimate=5, tell",
            { "in coach": `15 estimated, mean error ${inAll(errors)} pips.` }],
        ["the score of estimates", [`go ${ACE}&question=31`], { "in coach": [
            `You estimated 15 of 15. The mean error is ${inAll(errors)} pips.`,
            "15 were a pip or more off; asked once more, 0 were nearer."] }],
    ]);
    equal("how far is far", [["effective", 1000n], ["effective", 999n], ["wastage", 1000n], ["wastage", 999n],
        ["pips", 1n],
        ["pips", 0n]].map(([kind, error]) => isFar({ kind, error })), [true, false, true, false, true, false]);
});

test("a drill of pip counts, some wrong", async () => {
    const FEWER = "#drill=few&seed=9&ask=pips";
    let used = await Used.open(FEWER);
    const { questions } = used.session.state.run;
    const count = (pips) => [`estimate=${pips}`, "tell", "next question"];
    for (const [place, { points }] of questions.slice(0, 4).entries()) await used.do(count(pipsOf(points)
        + (place % 2)));
    const reload = async () => {
        used.window.pass(1000);
        used = await Used.open(used.look("hash"), { stored: used.window.stored });
    };
    const comesBack = (place) => ({ board: questions[2 * place - 1].points.join(), "there estimate": true,
        "in coach": `Once more, ${place} of 2. What is the pip count?` });
    await used.run("a drill of pip counts, some wrong", [["what was wrong comes back alone",
        [`go ${FEWER}&question=21`],
        comesBack(1)]]);
    await reload();
    used.sees("after a reload too", comesBack(1));
    await used.do(count(pipsOf(questions[1].points)));
    await reload();
    await used.run("", [
        ["the second, after a reload", "", comesBack(2)],
        ["what was right once more stays answered", "previous question", { "there estimate": false,
            "in numbers": ": 0.000 pips off." }],
        ["their score", ["next question", ...count(1)], { "in coach": [
            "You estimated 4 of 20. The mean error is 0.500 pips.", "2 were wrong; asked once more, 1 was right."] }],
        ["Back", "pass 1000, back", { "there estimate": false, "length estimatesAgain": 2 }],
    ]);
    used = await Used.open(FEWER);
    await used.run("", [["where none was wrong nothing comes back",
        [...count(pipsOf(questions[0].points)), `go ${FEWER}&question=21`],
        { "in coach": "You estimated 1 of 20. The mean error is 0.000 pips.", "not in coach": "nce more" }]]);

    used = await Used.open("#drill=ace&seed=3&ask=effective");
    await used.run("fewer questions than were asked for", [["it is said", "", { "length questions": 15,
        "in coach": "Seed 3. 15 of 20 questions were found." }]]);
    used = await Used.open("#drill=all&seed=3&ask=effective");
    used.sees("and else nothing of it", { "length questions": 20, "not in coach": "were found" });
    used.session.become(withRun(used.session.state, { questions: [] }));
    used.sees("no question at all", { "in coach": "No question of this theme was found." });
});

// From home through ten questions to the review, and Back.
test("the review", async () => {
    about("from home to the review, and Back");
    const lessons = "lesson: One\nstep: 0,0,0,1,0,1\nroll: 52\ntext: On the EPC.\nask: Which?\nanswer: That.";
    const used = await Used.open("", { lessons });
    await used.run("from home to the review, and Back", [
        ["nothing is heard of a position at home", "", { said: "" }],
        ["a question", "today", { screen: "question", "state page": "board", "count .bar-of span": 10,
            "count .bar-of .now": 1,
            "count #coach .verdict": 0 }]]);
    const { questions } = used.session.state.run;
    const bar = () => [...used.document.querySelectorAll(".bar-of span")]
        .map((one) => one.className.split(" ")[0][4] ?? "").join("");
    for (const [place, { roll }] of questions.entries()) {
        await used.run("", [[`the verdict of ${place}`, [place === 3 ? losing(roll) : best(roll), "pass 1000"],
            { screen: "verdict", "in #coach .verdict": place === 3 ? "loses 0.056" : "is best" }]]);
        equal(`the bar at ${place}`, bar(), "rrrmrrrrrr".slice(0, place + 1));
        await used.do("next question");
    }
    const { roll: [high, low], points, roll } = questions[3];
    await used.run("", [
        ["what was missed is asked again", "", { screen: "question" }],
        ["the review, with the dearest open, of its own position, and why", [best(roll), "pass 1000", "next question"],
            {
            screen: "review", "all .reviewed .which": [..."123456789", "10"], "count .reviewed > .good": 9,
            "all .reviewed li.lost dd": [`${high}/1 ${low}/2`, `${high}/off ${low}/0`, "\u22120.056"],
            "count .reviewed .compared": 2, "count .reviewed li.lost .compared figure, .reviewed li.lost .signs": 5,
            ".signs th[scope=row]": `Of ${points} with ${roll}`, "there fitting lesson": false,
                "all .first": ["Done"] }],
        ["and closes", "open 3", { "count .reviewed .compared": 0, "aria-expanded of open 3": "false" }],
        ["Back to the last question", "pass 1000, back", { screen: "verdict", "state place": 10 }],
        ["and on to the review", "forward", { screen: "review" }],
        ["home", "finish, pass 1000", { screen: "home", focus: "today",
            "begins .daily-told": "Today\u2019s ten are done.",
            hash: "#home" }],
        ["Back to the review", "back", { screen: "review" }],
        ["the focus goes on where a screen begins", "go #teacher", { focus: "teaching" }],
    ]);
    const misses = [5n, 9n, 7n].map((loss, place) => ({ at: `${place},1,0,0,0,0`, roll: [2, 1], play: { loss } }));
    equal("the dearest of some", openedOf({ drill: { ask: "play" }, run: { estimates: [], guesses: misses,
        questions: misses.map(({ at, roll: dice }) => ({ points: at.split(",").map(Number), roll: dice })) } }).place, 1);
});

test("the rows of the review", async () => {
    const lessons = Array.from({ length: 17 }, (_, place) => `lesson: L${place + 1}\nstep: 1,0,0,0,0,0`).join("\n");
    const used = await Used.open("#list=2,2,2,2,2,2,31.0,0,0,1,0,1,52.0,0,3,0,0,0,61&ask=play", { lessons });
    const boards = () => [...used.document.querySelectorAll(".reviewed .row svg.small")]
        .map((board) => board.getAttribute("aria-label").replace(/.*: (.*),.*/, "$1"));
    const plays = [losing("31"), asGood("52"), losing("61"), best("31"), losing("61")];
    await used.run("the rows of plays", [["each has its own, and the first of the dearest is open",
        plays.flatMap((play) => [play, "next question"]), { "all .reviewed .which": ["1", "2", "3"],
            "all .reviewed .row .heard": ["3 and 1", "5 and 2", "6 and 1"],
            "all .reviewed .row dt": Array(3).fill(["Yours", "Best", "Lost, in rolls"]).flat(),
            "all .reviewed .row dd": ["3/1 1/2", "3/off 1/0", "\u22120.056", "5/off 2/1", "5/off 2/0", "nothing",
                "6/1 1/2", "6/off 1/0", "\u22120.056"],
            "aria-expanded of open 0": "true", "aria-label of open 0": "Why, question 1", "there open 1": false,
            "all .reviewed li > .compared figcaption": ["Yours 3/1 1/2 \u22120.056", "Best 3/off 1/0 "],
            ".reviewed .why th[scope=row]": "Of 2,2,2,2,2,2 with 3,1", "fitting lesson": "L7",
            "href of fitting lesson": "#lesson=7", "count #review > .fits:first-child": 1,
            "all #steering button": ["Previous", "Done"] }]]);
    equal("its board", boards(), ["2 on 6, 2 on 5, 2 on 4, 2 on 3, 2 on 2, 2 on 1", "1 on 6, 1 on 4", "3 on 3"]);
    await used.run("", [["nothing is open in the next drill", "open 0, finish", { "state opened": undefined }]]);
    const numbers = await Used.open("#list=1,1,0,0,0,0.2,0,0,0,0,0&ask=wastage");
    const [first, second] = numbers.session.state.run.questions.map(({ points }) => answerTo(points).wastage.thousandths);
    await numbers.run("the rows of estimates", [["each has its own",
        ["estimate=-1.5", "tell", "next question", "estimate=8",
        "tell", ...Array(3).fill("next question")], { screen: "review", "count .reviewed button": 0,
        "all .reviewed dt": Array(2).fill(["Yours", "Right", "Off, in pips"]).flat(),
            "all .reviewed dd": ["\u22121.500",
            decimal(first), decimal(first + 1500n), "8.000", decimal(second), decimal(second - 8000n)] }]]);
});

// A drill's result goes back to a teacher as a text.
test("a result", async () => {
    const used = await Used.open("#drill=all&seed=7&ask=play&level=hard");
    const { questions } = used.session.state.run;
    const plays = questions.map(({ roll }, place) => (place === 2 ? null : place < 4 ? losing(roll) : best(roll)));
    const text = (name) => tokenOf("all", 7, "play", "hard", "", name, `56,56,x,56${",0".repeat(16)}`, plays.map((key) =>
        key?.slice(5).replaceAll("/off", "o").replaceAll("/", "").replaceAll(" ", "_") ?? "x"));
    const denied = { clipboard: { writeText: async () => { throw new Error("denied"); } } };
    await used.run("a result", [
        ["none at a question", "", { "there copy result": false }],
        ["at the end alone", [...plays.flatMap((key) => [...(key ? [key] : []), "next question"]),
            ...Array(3).fill("next question")], { "there copy result": true }],
        ["it has a name", "copy result", { clipboard: null, focus: "result name", "in coach": "A result has a name." }],
        ["its text", ["result name=  Ada\n  L. ", "copy result", settled], { clipboard: text("Ada%20L."),
            "in coach": "The result is copied: send it back." }],
        ["or it stands there", [() => { used.window.navigator = denied; }, "result name=Bo", "copy result", settled],
            { "in coach": `The browser lets this page copy nothing. The result: ${text("Bo")}` }],
        ["it isn't said of another drill", "another drill", { "not in coach": "copy nothing", "state notes": {} }],
    ]);
    const ten = await Used.open("#drill=all&seed=7&ask=play&ten=&question=11");
    for (let left = 0; ten.find("next question") && left < 12; left += 1) await ten.do("next question");
    ten.sees("none of today's ten, which each has of its own",
        { "in coach": "You played", "there copy result": false });
    const told = await Used.open("#drill=ace&seed=7&ask=pips");
    const pips = told.session.state.run.questions.map(({ points }) => pipsOf(points));
    await told.run("a result", [["of estimates", [...[0, 1, 2].flatMap((place) =>
        [`estimate=${pips[place] + place}`, "tell", "next question"]), ...Array(12 + 2).fill("next question"),
    "result name=Cy", "copy result", settled],
        { clipboard: tokenOf("ace", 7, "pips", "any", "", "Cy", `0,1000,2000${",x".repeat(12)}`,
            `${[0, 1, 2].map((place) => `${pips[place] + place}.000`).join()}${",x".repeat(12)}`) }]]);
});

// A drill and its score on paper: its questions, and what was answered.
test("a drill on paper", async () => {
    const used = await Used.open(GAPS);
    const items = () => [...used.at("printed").querySelectorAll(".drill-printed > li")];
    const [{ roll: [high, low], roll }] = asked;
    const answers = "all #printed .answers-printed li";
    await used.run("a drill on paper", [["its title, and no answer before one is given", "", {
        "#printed h2": "Drill: Gaps, Play", "in printed": "Seed 7. Which play is best?", [answers]: [],
        "all #printed .line": asked.map(({ roll: [one, other] }) =>
            (one === other ? `Double ${one}` : `${one} and ${other}`)) }]]);
    equal("its boards and dice", items().map((item) => [item.querySelectorAll("circle.checker").length,
        item.querySelectorAll(".die").length]), asked.map(({ points }) =>
            [points.reduce((sum, count) => sum + count, 0), 2]));
    await used.run("a drill on paper", [
        ["what was answered, and nothing else", [losing(roll)], { "not in printed": "You played", [answers]: [
            `${high}/1 ${low}/2 loses 0.056 of a roll; best is ${high}/off ${low}/0.`, ...Array(19).fill("\u2013")] }],
        ["the score", Array(21).fill("next question"), { "in printed": "You played 1 of 20, and lost" }],
    ]);
    equal("all of it", items().length, 20);
    const ace = await Used.open("#drill=ace&seed=7&ask=effective");
    await ace.run("a drill of estimates on paper", [["no dice", "estimate=60, tell",
        { "in printed": "What is the EPC?", "count #printed .die": 0 }]]);
    const [{ exact, error }] = ace.session.state.run.estimates;
    equal("what was estimated, and what it is, and nothing of the others", ace.look(answers),
        [`You said 60.000: ${decimal(error)} pips off. It is ${decimal(exact)}.`, ...Array(14).fill("\u2013")]);
});
