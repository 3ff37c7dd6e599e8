// What is said of an answer, without a browser: what a play has lost and why, how far an estimate was off, and what
// stays of a run when the page is loaded anew.
import { readLink } from "../../web/link.js";
import { inWords } from "../../web/points.js";
import { giveEstimate, guessKey, missedOf, NO_RUN, verdictOf } from "../../web/question/state.js";
import { mistakesOf } from "../../web/review/state.js";
import { begin } from "../../web/state.js";
import { about, answerTo, asGood, best, drawFrom, equal, losing, settled, tell, test, Used, WAITS,
    whyFrom } from "./stand_in.mjs";

const GAPS = "#drill=gaps&seed=7&ask=play";
const asked = drawFrom({ theme: "gaps", seed: 7, ask: "play" });

// A play that loses less than half a thousandth is no mistake.
test("a loss that rounds to nothing", () => {
    about("a loss that rounds to nothing");
    const [points, roll] = [[0, 0, 0, 1, 0, 1], [5, 2]];
    const right = { text: "6/1 4/2", isBest: true, isRecorded: true, loss: 0n, lossText: "0.000", exact: "0/1" };
    const [slightly, missed] = [[0n, "1/3000"], [1n, "1/1000"]].map(([loss, exact]) => ({
        ...begin(readLink("#guess=1")), points, roll, drill: { theme: "all", seed: 1, ask: "play" },
        place: 0, run: { ...NO_RUN, questions: [{ points, roll }], guesses: [{ at: points.join(), roll, best: right,
            play: { text: "6/off", isBest: false, isRecorded: false, loss, lossText: `0.00${loss}`, exact } }] } }));
    equal("what is told, asked again, and a mistake", [slightly, missed].map((one) =>
        [verdictOf(one).first, missedOf(one).length, mistakesOf(one) !== ""]), [
        ["6/off loses less than 0.0005 of a roll, no mistake; best is 6/1 4/2.", 0, false],
        ["6/off loses 0.001 of a roll; best is 6/1 4/2.", 1, true]]);
    equal("and it is no best play", verdictOf(slightly).isBest, false);
});

// What is said of a play that loses stands beside it alone, and comes late.
test("why a play loses", async () => {
    const used = await Used.open(GAPS);
    const [one, two, three] = used.session.state.run.questions;
    const says = () => (used.at("reasons").hidden ? null
        : [...[...used.at("reasons").querySelectorAll("tbody tr")]
            .map((row) => [...row.children].map((cell) => cell.textContent)),
            [...used.at("reasons").querySelectorAll("figure svg")].map((board) => board.getAttribute("aria-label"))]);
    const told = ({ points, roll }) => {
        const { rows, throws: { replies } } = whyFrom(points, roll,
            used.session.state.run.guesses.find(({ at }) => at === points.join()).play.to);
        return [...rows.map(Object.values), replies.map(({ points: at }) => `The board: ${inWords(at)}`)];
    };
    about("why a play loses");
    equal("before a play", says(), null);
    used.click(losing(one.roll));
    await settled();
    used.sees("what is asked then", { asked: "why", "next question": "Next", focus: "next question" });
    equal("and not known yet", says(), null);
    await used.worker.answerAll();
    used.sees("once it is known", { focus: "next question",
        "all #reasons thead th, #reasons figcaption b": ["Yours", "Best", "Yours", "Best"],
        "begins #reasons p": "Because of ", "begins said": "Because of ", "count #reasons details[open]": 0,
        "#reasons details p": "Of the 36 next throws 23 are worse for yours, none better. The costliest is 6-5:" });
    equal("it is told", says(), told(one));
    for (const [name, does, wanted] of [["not beside the next question", "next question", null],
        ["why the best play is right", best(two.roll), "two"],
        ["the former question has its own again", "previous question", told(one)],
        ["nothing where one looks around", [`go ${used.find("look around").getAttribute("href")}`], null]]) {
        await used.do(does);
        equal(name, says(), wanted === "two" ? told(two) : wanted);
    }
    await used.do("back");
    while (used.session.state.place < 2) await used.do("next question");
    used.click(losing(three.roll));
    await settled();
    equal("not what is said of another play", [says(), used.session.state.why.says !== null], [null, true]);
    used.click("next question");
    await used.worker.answerAll();
    equal("what comes too late is shown nowhere", says(), null);
    await used.do("previous question");
    equal("and there it is", says(), told(three));

    const miss = { at: "2,2,2,2,2,2", roll: [3, 1], play: { text: "3/1" } };
    const others = [{ at: "2,2,2,2,2,1" }, { roll: [3, 2] }, { play: { text: "3/off" } }];
    equal("another miss has another key", others.filter((other) => guessKey({ ...miss, ...other }) === guessKey(miss)),
        []);
    const free = await Used.open("#at=2,2,2,2,2,2&guess=1&roll=31");
    await free.run("", [["nothing where nobody trains", "play 3/1 1/2", { "in plays": "loses", "hidden reasons": true,
        "state why": null }]]);
});

// An estimate on the free board.
test("estimates", async () => {
    const used = await Used.open("#at=1,0,0,0,0,0&p=1,0,0,0,0,0&estimate=wastage");
    const enter = (value) => () => { tell(used.find("estimate"), "keydown", { key: "Enter", target: { value } }); };
    const [first, second] = [[1, 0, 0, 0, 0, 0], [0, 1, 0, 0, 0, 0]]
        .map((points) => answerTo(points).wastage.thousandths);
    const far = (place) => String(used.session.state.run.estimates[place].error);
    await used.run("estimates", [
        ["the kept is hidden too", "", { "row 1,0,0,0,0,0": WAITS }],
        ["no number is no estimate", "estimate=x, tell", { "length estimates": 0 }],
        ["Enter", [enter("7")], { "length estimates": 1 }],
        ["another position", ["Remove 1", "Add 2", enter("-999")], { "length estimates": 2 }],
    ]);
    equal("how far off, and below", [far(0), far(1)],
        [first > 7000n ? first - 7000n : 7000n - first, second + 999000n].map(String));
    const small = { ...begin(readLink("#at=1,0,0,0,0,0&estimate=effective")), answers: new Map([["1,0,0,0,0,0",
        { ...answerTo([1, 0, 0, 0, 0, 0]), effective: { text: "8.167", thousandths: 8167n } }]]) };
    equal("above", ["9", "7.167"].map((word) => String(giveEstimate(small, word).run.estimates[0].error)), ["833", "1000"]);
    tell(used.find("estimated"), "change", { target: { value: "" } });
    await used.worker.answerAll();
    used.sees("off", { "state estimate": null });
    equal("and its figures", used.figures.length, 4);
    await used.run("", [["an ace point has nothing to play", "go #home, theme=ace, asked=play, seed=5, begin drill",
        { "state drill": { theme: "ace", seed: 5, ask: "effective" } }]]);

    const none = await Used.open("#at=1,0,0,0,0,0&estimate=effective");
    await none.run("estimates that are none", [["nothing is wrong yet", "",
        { "estimate-why": "", "role of estimate-why": "alert",
        "aria-describedby of estimate": "estimate-why", "aria-invalid of estimate": "false" }],
    ...["abc", "51.1234", "51.", "", "1e3", "1234"].map((text) =>
        [`the estimate ${text}`, [`estimate=${text}`, "tell"], {
        "estimate-why": "An estimate is a number with at most three decimals, such as 51 or 51.5.",
        "aria-invalid of estimate": "true", "value estimate": text, focus: "estimate", "length estimates": 0 }]),
    ["a right one", "estimate=8, tell", { "length estimates": 1, "begins said": "You said 8.000: ",
        "begins #numbers .because": "At the board: 7 for each of 1 roll " }]]);
});

// A run goes on where it was: after a reload, Back and Forward, and another position.
test("runs that go on", async () => {
    let used = await Used.open(GAPS);
    const soFar = "3 played, 0.111 rolls lost.";
    const again = async (link, stored) => {
        const next = await Used.open(link, { stored });
        next.window.pass(1000);
        return next;
    };
    await used.do([losing(asked[0].roll), "pass 1000", "next question", "pass 1000", asGood(asked[1].roll), "pass 1000",
        "next question", "pass 1000", losing(asked[2].roll), "pass 1000"]);
    await used.run("a run that goes on", [["so far", "", { "in coach": soFar, "state place": 2 }]]);
    equal("its link has the question", [readLink(used.look("hash")).place, used.look("hash").includes("question=3"),
        used.window.entries.length > 2], [2, true, true]);
    await used.run("", [
        ["Back to the first", [() => used.window.go(-2)], { board: asked[0].points.join(),
            "in coach": ["Question 1 of 20.", soFar], "count #coach .verdict": 1 }],
        ["another position", [() => used.window.go(-used.window.place), "go #at=1,0,0,0,0,0"],
            { "hidden coach": true, "state drill": null, "length guesses": 0 }],
        ["and Back", "back", { "in coach": soFar, "length guesses": 3, asked: "" }],
    ]);
    const { stored } = used.window;
    equal("what is kept is no number", Object.values(JSON.parse([...stored.values()][0])).map(({ guesses }) =>
        guesses.map(([points, roll, text]) => [points.join(), roll.join(), text.includes("/")])),
    [asked.slice(0, 3).map(({ points, roll }) => [points.join(), roll.join(), true])]);
    used = await again(`${GAPS}&question=4&at=${asked[3].points}&roll=${asked[3].roll.join("")}`, stored);
    await used.run("", [["a reload", "", { board: asked[3].points.join(), "in coach": ["Question 4 of 20.", soFar] }]]);
    equal("what was missed is known", used.session.state.run.guesses.map(({ play, best: { text } }) => [play.exact, text]),
        asked.slice(0, 3).map(({ roll: [high, low] }, place) =>
            [place === 1 ? "0/1" : "1/18", `${high}/off ${low}/0`]));
    await used.run("", [["what was answered stays answered", "previous question",
        { "count #coach .verdict": 1, "there made": false, "next question": "Next" }]]);
    used = await again(`${GAPS}&question=4&at=1,1,0,0,0,0`, stored);
    await used.run("", [
        ["a reload over another position", "", { board: "1,1,0,0,0,0", "length guesses": 3, "there back to it": true,
            "hidden steering": true, "there Add 1": true }],
        ["and back to the question", "back to it", { board: asked[3].points.join(), "state roll": asked[3].roll }],
    ]);
    (await again("#drill=gaps&seed=8&ask=play", stored)).sees("another drill has its own", { "length guesses": 0 });
    used = await again(GAPS, stored);
    await used.run("", [
        ["a run that isn't finished is there at its link", "", { "length guesses": 3 }],
        ["begun anew", "go #home, theme=gaps, seed= 7 , begin drill",
            { "length guesses": 0, "in coach": "Question 1 of 20.",
            "state drill": { theme: "gaps", seed: 7, ask: "play" } }],
    ]);
    const spoilt = { guesses: [[asked[0].points, asked[0].roll, "6/7"], [[99, 0, 0, 0, 0, 0], [1, 1], "x"],
        [asked[1].points, [7, 1], "x"], [asked[1].points, [2, 1], 5], 3], again: [], estimates: [[[1], "pips", "1"]] };
    for (const text of ["{", "7", "null", '{"gaps,7,play,any":{"guesses":7}}', '{"gaps,7,play,any":null}',
        JSON.stringify({ "gaps,7,play,any": spoilt })]) {
        (await again(GAPS, new Map([["bearoff drills", text]]))).sees(`kept was ${text.slice(0, 30)}`,
            { "length guesses": 0, "in coach": "Question 1 of 20." });
    }
    used = await Used.open(GAPS, { sessionStorage: undefined });
    await used.run("", [["a browser that keeps nothing", losing(asked[0].roll), { "length guesses": 1 }]]);

    about("a run over the whole board that goes on");
    const [stacks] = drawFrom({ theme: "stacks", seed: 3, ask: "play" });
    const run = { guesses: [[stacks.points, stacks.roll, losing(stacks.roll).slice(5)]], again: [], estimates: [],
        estimatesAgain: [] };
    used = await Used.open("#drill=stacks&seed=3&ask=play&at=1,0,0,0,0,0", { took: 100,
        stored: new Map([["bearoff drills", JSON.stringify({ "stacks,3,play,any": run })]]) });
    used.sees("nothing of it is asked of 44 pips", { "length guesses": 0, open: "44 pips" });
    equal("but kept", used.session.state.run.picks !== null, true);
    await used.widened();
    equal("it is asked of the whole board", [used.session.state.run.picks,
        used.session.state.run.guesses.map(({ play }) => play.exact)],
        [null, ["1/18"]]);

    used = await Used.open("#drill=ace&seed=3&ask=wastage");
    await used.run("a run of estimates that goes on", [["the focus goes on", "estimate=-1.5, tell, pass 1000",
        { focus: "next question" }]]);
    const [{ error }] = used.session.state.run.estimates;
    used = await again(used.look("hash"), used.window.stored);
    used.sees("it isn't asked anew", { "there estimate": false, "in numbers": "You said \u22121.500: " });
    equal("a reload", used.session.state.run.estimates.map(({ told, error: off, kind }) => [told, off, kind].join(" ")),
        [`-1500 ${error} wastage`]);

    about("a question once more after a reload");
    const FEW = "#drill=few&seed=6&ask=play&level=hard";
    used = await Used.open(FEW);
    const { questions } = used.session.state.run;
    for (const [place, { roll }] of questions.slice(0, 4).entries()) {
        await used.do([place === 0 ? best(roll) : losing(roll), "next question"]);
    }
    await used.run("a question once more after a reload", [
        ["a link to what is asked once more", [`go ${FEW}&question=${questions.length + 1}`],
            { board: questions[1].points.join(), "in coach": "Once more, 1 of 3." }],
        ["its place", [best(questions[1].roll), "next question", "pass 1000"], { "state place": questions.length + 1,
            "state drill": { theme: "few", seed: 6, ask: "play", level: "hard" } }],
    ]);
    used = await again(used.look("hash"), used.window.stored);
    used.sees("a reload", { "in coach": "Once more, 2 of 3.", "length again": 1, "length guesses": 4 });
    await used.run("", [["the right one once more", "previous question", { "count #coach .verdict.good": 1 }]]);

    used = await again(`${GAPS}&question=4&at=1,1,0,0,0,0`, stored);
    tell(used.at("guess"), "change", { target: { checked: false } });
    await used.worker.answerAll();
    await used.run("Guess first is turned off", [["the drill ends, and says so", "",
        { "state drill": null, "hidden coach": true,
        notice: "The drill has ended, since its plays are hidden no longer.", "hidden notice": false,
        "in said": "The drill has ended" }]]);
});
