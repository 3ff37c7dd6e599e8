// Home, without a browser: what each screen has, today's ten and what stays of them, lessons with their drills and
// marks, a drill of one's choice, and what is said of a link that can't be taken.
import { readFileSync } from "node:fs";
import { giveMatch } from "../../web/games/state.js";
import { drillOfLesson, fittingLesson, lessonOfDrill, ROOMS } from "../../web/lesson/rooms.js";
import { giveLesson, learntBetween } from "../../web/lesson/state.js";
import { readLink } from "../../web/link.js";
import { isFar } from "../../web/question/questions.js";
import { askNext, giveEstimate, missedOf } from "../../web/question/state.js";
import { THEMES } from "../../web/question/themes.js";
import { about, best, equal, linkOf, losing, memoryOf, settled, tell, test, Used } from "./stand_in.mjs";

// Which parts of the page are in the document on each screen.
test("what is on each screen", async () => {
    about("what is on each screen");
    const PARTS = ["coach", "steering", "review", "today", "path", "doors", "games", "teaching", "top", "setting",
        "how", "right",
        "rolls", "heading", "grid", "keeping", "editing", "more", "printed", "promise", "tools", "foot", "whole"];
    const FREE = "top setting how right rolls heading grid more promise tools foot";
    const lessons = "lesson: One\nstep: 0,0,0,1,0,1\nroll: 52\ntext: On the EPC.\nask: Which?\nanswer: That.";
    const there = (used) => PARTS.filter((name) => used.document.getElementById(name)).join(" ");
    for (const [hash, screen, parts] of [
        ["", "home", "today path doors promise foot"], ["#home", "home", "today path doors promise foot"],
        ["#games", "games", "games promise foot"], ["#teacher", "teacher", "teaching printed promise foot"],
        ["#at=2,2,2,2,2,2", "board", FREE], ["#p=1,0,0,0,0,0", "board", FREE.replace("grid", "grid keeping")],
        ["#view=board&at=1,0,0,0,0,0", "embedded", "top right whole"],
            ["#lesson=1", "step", "coach steering top rolls printed"],
        ["#drill=gaps&seed=7&ask=play", "question", "coach steering top rolls printed"],
        ["#drill=gaps&seed=7&ask=pips", "question", "coach steering top right printed"],
        ["#drill=gaps&seed=7&ask=play&at=2,2,2,2,2,2", "board", `coach ${FREE}`],
    ]) {
        const used = await Used.open(hash, { lessons });
        used.sees(`at "${hash}"`, { screen });
        equal(`at "${hash}", what is there, and no more than one is loud`,
            [there(used), used.document.body.dataset.screen,
            used.document.querySelectorAll(".first").length <= 1], [parts, screen, true]);
    }
    const waiting = new Used("#drill=gaps&seed=7&ask=play");
    equal("while questions are drawn", [waiting.look("screen"), there(waiting)], ["waiting", "coach steering"]);
});

test("lessons, their drills and marks", async () => {
    const lessons = "lesson: One\nstep: 0,0,0,1,0,1\nroll: 52\ntext: On the EPC.\nask: Which?\nanswer: That.\n"
        + "lesson: Two\nstep: 1,0,0,0,0,0";
    const used = await Used.open("", { lessons });
    await used.run("lessons, their drills and marks", [
        ["no mark", "", { "there mark 1": false, "aria-label of drill 1": "Drill: One",
            "all .rooms h3": ["Count", "Shape"] }]]);
    await used.do([`go ${used.find("lesson 1").getAttribute("href")}`]);
    const lessonsOf = () => used.session.state.student.memory.lessons;
    equal("not read yet", lessonsOf(), []);
    await used.do("answer");
    equal("read", [lessonsOf(), used.window.kept.get("bearoff memory").endsWith("\nlesson 1 0 0")],
        [[[1, 0, 0]], true]);
    await used.run("", [["its mark, and the board as it was", "end training", { "mark 1": "read",
        "href of free board": "#at=0,0,0,1,0,1" }]]);
    await used.do("drill 1");
    const { drill } = used.session.state;
    equal("its drill", [drill.theme, drill.ask, lessonOfDrill(drill)], ["all", "wastage", 1]);
    await used.do(Array(20).fill(["estimate=999", "tell", "next question"]).flat());
    const mark = `${used.session.state.run.estimates.filter((one) => !isFar(one)).length} of 20`;
    await used.run("", [["how much was right stays", "go #home", { "mark 1": mark }]]);
    (await Used.open("", { lessons, kept: used.window.kept })).sees("when the page is loaded anew", { "mark 1": mark });
    await used.do("drill 2");
    equal("the drill of another lesson", lessonOfDrill(used.session.state.drill), 2);
    await used.run("", [["the doors, and what can be chosen", "go #home", {
        "href of your games": "#games", "href of teachers": "#teacher",
        "all [data-key=level] option": ["Any", "Easy", "Mixed", "Hard"] }]]);
    const two = { drill: null, lesson: 1, lessons: [{ steps: [{ answer: "" }, { answer: "" }] }], isAnswered: false };
    equal("a lesson is read at its last step", [1, 2].map((step) =>
        learntBetween({ ...two, step: 0 }, { ...two, step })),
        [null, [1, 0, 0]]);
    const numbers = ROOMS.flatMap((room) => room.lessons.map(([number]) => number));
    equal("each lesson is in one room", [...numbers].sort((one, other) => one - other),
        Array.from({ length: 17 }, (_, place) => place + 1));
    equal("each drill is of one lesson", numbers.map((number) => lessonOfDrill(drillOfLesson(number, 7))), numbers);
    for (const [made, wanted, lesson] of [["1,1,0,0,0,0", "2,0,0,0,0,0", 10], ["1,0,0,0,0,0", "0,0,0,0,0,0", 10],
        ["2,0,0,1,0,0", "2,1,0,1,0,0", 15], ["2,1,1,1,0,0", "2,1,0,1,0,0", 7], ["2,1,0,1,0,0", "2,0,0,1,0,0", 7],
        ["2,0,0,1,0,1", "1,1,1,1,0,0", 2], ["3,1,1,0,0,0", "2,2,1,0,0,0", 1], ["1,3,1,0,0,0", "1,2,2,0,0,0", 2],
        ["1,1,1,1,0,0", "2,1,1,0,0,0", null], ["1,1,1,0,0,0", "2,1,1,0,0,0", 15]]) {
        const [play, right] = [made, wanted].map((counts) => ({ to: counts.split(",").map(Number) }));
        equal(`the lesson that fits ${made} where ${wanted} is best`, fittingLesson({ play, best: right }), lesson);
    }
});

// What a student did stays on the device, and today's ten are of it.
const day = 20784; // that of the clock of these pages
const kept = (used) => used.window.kept.get("bearoff memory");
const linesOf = (used, word) => kept(used).split("\n").filter((line) => line.startsWith(word));
const onDay = (used, days) => ({ kept: used.window.kept, date: new Date(2026, 10, 27 + days, 9) });
const BEGINNING = "Each question shows a few checkers and two dice: move them so that all are off the board soonest.";
const comeBack = (count) => `${count} question${count === 1 ? " comes" : "s come"} back tomorrow.`;

// The rating of what is kept, with ten plays at random before the first, of a tenth of a roll each.
function ratedBy(text) {
    const [lost, random, plays] = text.match(/rating (.*)/)[1].split(" ").map(Number);
    const rating = Math.round((100 * (random - lost)) / (random + 1e6 * 0.98 ** plays));
    return rating < 0 ? `\u2212${-rating}` : rating;
}

// Answers the questions of a drill, of which some are missed.
async function play(used, isMissed) {
    for (const [place, { roll }] of used.session.state.run.questions.entries()) {
        await used.do([isMissed(place) ? losing(roll) : best(roll), "next question"]);
    }
}

test("a student's days", async () => {
    let used = await Used.open();
    await used.run("the first day", [["the panel, and what stays where", "",
        { "hidden today": false, ".daily-told": `${BEGINNING} Ten questions, the first ones easy, about three minutes. `
            + "What you miss comes back tomorrow.",
        "#today .begin": "Begin ten new", "in today": "What you answer stays on this device; nothing of it is sent.",
        "count #today .days": 0 }]]);
    equal("nothing is kept", used.window.kept.size, 0);
    const drill = { theme: "all", seed: day, ask: "play", level: "first", due: [] };
    await used.run("", [["today's ten", "today", { "state drill": drill, "length questions": 10, focus: "coach",
        "hidden today": true, title: "Question 1 of 10: Today\u2019s ten \u2013 Bearing off",
        "in coach": ["Today\u2019s ten", "Question 1 of 10.", "Ten that are new: All positions."] }]]);
    const { questions } = used.session.state.run;
    equal("its link", readLink(used.look("hash")).drill, drill);
    await used.do(losing(questions[0].roll));
    equal("one is missed", kept(used),
        `bearoff memory 5\nlearnt 0\nsizes 0 1 0\nrating 56000 19000 1\nlevel all easy 0 56000 19000 ${day}\ntheme all 1 1 56\n`
        + `day ${day} 1 1 0\ncard ${questions[0].points} ${questions[0].roll.join("")} all 0 ${day + 1} 56\n`
        + `ten all ${day} play first -\npick ${questions[0].points} ${questions[0].roll.join("")} ${
            losing(questions[0].roll).slice(5).replace(" ", "_")}`);
    await used.do("next question");
    for (const { roll } of questions.slice(1)) {
        await used.do([roll === questions[1].roll ? losing(roll) : best(roll), "next question"]);
    }
    const missed = missedOf(used.session.state);
    equal("ten are kept, and a run", linesOf(used, "day"), [`day ${day} 10 ${missed.length} 1`]);
    const before = kept(used);
    for (const { roll } of missed) await used.do([losing(roll), "next question"]);
    equal("once more counts for nothing", kept(used), before);
    const many = comeBack(missed.length);
    await used.run("", [
        ["the score", "", { "in coach": many }],
        ["after ten", "end training", { "class of today": "begin", ".daily-told": `Today\u2019s ten are done. ${many}`,
            "#today .begin": "Ten more ten new",
            "all #today dd": ["1 day", "0 questions", `0.0${Math.round(5.6 * missed.length)} rolls`,
                `${ratedBy(before)} of 100`] }],
        ["it is open", "all that is kept", { "aria-expanded of all that is kept": "true", "in today":
            `Today\u2019s ten were done once. Misses by what they lost, in rolls: 0 less than 0.020, ${missed.length
            } 0.020 or more, 0 0.080 or more.` }],
    ]);
    equal("their bars", [...used.document.querySelectorAll(".days .right-part")]
        .map((bar) => bar.getAttribute("height")),
        [String(4 * (10 - missed.length))]);
    equal("the last days", used.document.querySelector(".days").getAttribute("aria-label"),
        `Right on each of the last fourteen days: ${"none, ".repeat(13)}${10 - missed.length} of 10`);
    await used.run("", [["ten more", "today", { "length questions": 10 }]]);
    equal("are others", used.session.state.drill.seed === day, false);

    const anew = await Used.open(used.window.entries[1], { kept: used.window.kept, stored: used.window.stored });
    await anew.run("loaded anew", [["what was answered is there once", "", { "length guesses": 10 }]]);
    equal("and kept once", kept(anew), before);

    const next = await Used.open("", onDay(used, 1));
    const fresh = 10 - missed.length;
    const again = `${missed.length} that you missed come${missed.length === 1 ? "s" : ""} back`;
    await next.run("the day after", [
        ["what comes back", "", { ".daily-told": `${again}, ${fresh} are new: Gaps, any. About three minutes.`,
            "#today .begin": `Begin ${missed.length} again, ${fresh} new` }],
        ["what is said of them", "today", { "in coach": `${missed.length} again, ${fresh} new: Gaps.` }],
    ]);
    equal("they are first", next.session.state.run.questions.slice(0, missed.length)
        .map(({ points, roll }) => [points, roll]),
        missed.map(({ points, roll }) => [points, roll]));
    await play(next, () => false);
    equal("right, they come after three days", linesOf(next, "card").map((line) => line.split(" ").slice(3).join(" ")),
        missed.map(() => `all 1 ${day + 4} 56`));
    equal("themes of their own", linesOf(next, "theme"),
        [`theme all ${10 + missed.length} ${missed.length} ${56 * missed.length}`,
        `theme gaps ${fresh} 0 0`]);
    const row = "#today dd";
    await next.run("", [
        ["nothing comes tomorrow", "", { "in coach": "Nothing comes back tomorrow." }],
        ["two days in a row", "end training", { [row]: "2 days" }],
        ["a day that begins meanwhile", [() => {
            next.window.date = new Date(2026, 10, 31, 9);
            next.window.listeners.get("focus")({});
        }], { "begins .daily-told": `${missed.length} that you missed`, [row]: "0 days" }],
    ]);

    const text = kept(next);
    const clipboard = { writeText: async () => { throw new Error("denied"); } };
    await next.run("a text that is taken along", [
        ["it is closed", "", { "aria-expanded of all that is kept": "false", "there memory text": false }],
        ["copied", ["all that is kept", "copy memory", settled], { clipboard: text, "value memory text": text,
            "in today": "The text is copied.",
                levels: "Levels, by the last twenty answers of each theme: All positions, any; Gaps, mixed." }],
        ["not copied", [() => { next.window.navigator = { clipboard }; }, "copy memory", settled],
            { "in today": "The browser lets this page copy nothing: copy the text from the field." }],
        ["less than is kept isn't taken", [`memory text=bearoff memory 4`, "take memory"], {
            "memory-why": `The text holds less than is kept here: 0 days, 0 questions that come back, 0 learnt, and not 2 days, ${
                missed.length} questions that come back, 0 learnt.`, "take memory": "Restore it all the same" }],
        ["another text is asked anew", [`memory text=bearoff memory 3`, "take memory"],
            { "take memory": "Restore it all the same", "state memory": next.session.state.student.memory }],
        ["what else is done takes the question back", "copy memory, all that is kept, all that is kept", {
            "take memory": "Restore from this text", "memory-why": "", "there undo memory": false }],
        ["forgetting is asked", "forget", { forget: "Delete 2 days?", "begins .daily-told": `${missed.length} that`,
            "in today": `Tap again to delete all: 2 days, ${missed.length} questions` }],
        ["all is forgotten", "forget", { "begins .daily-told": BEGINNING, "in today": "All is deleted.",
            focus: "forget" }],
        ["and is there again", "undo memory", { "begins .daily-told": `${missed.length} that`,
            "in today": "As it was before: 2 days." }],
        ["also after ten were begun", "today, end training, all that is kept, all that is kept", { "there undo memory": true }],
        ["which can be undone, too", "undo memory", { "begins .daily-told": BEGINNING }],
        ["a fault", [`memory text=${text}\nday x`, "take memory"], {
            "memory-why": `Nothing of the text is restored. Line ${text.split("\n").length + 1} can't be read.`,
            "role of memory-why": "alert", "aria-invalid of memory text": "true", focus: "memory text" }],
    ]);
    equal("nothing is kept", next.window.kept.size, 0);
    await next.run("", [["it is there again, once", [`memory text=${text}`, "take memory", "take memory"],
        { "memory-why": "",
        "begins .daily-told": `${missed.length} that you missed`, "in today": "The text is restored." }]]);
    equal("all of it", kept(next), text);

    const other = await Used.open("", onDay(next, 4));
    await other.do("all that is kept, forget, forget");
    const hears = (key) => () => next.window.listeners.get("storage")({ key });
    await next.run("two pages of a browser", [
        ["another key is none of it", [hears("other")], { "begins .daily-told": `${missed.length} that` }],
        ["one hears of the other", [hears("bearoff memory")], { "begins .daily-told": BEGINNING }],
    ]);

    used = await Used.open("", { localStorage: undefined });
    await used.run("without a store", [["it is said", "", {
        "in today": "This browser keeps nothing for the page: what you answer is there till it closes." }]]);
    await used.do("today");
    await play(used, (place) => place === 0);
    await used.run("", [["it works till then", "end training",
        { "begins .daily-told": "Today\u2019s ten are done." }]]);
    equal("with its day", used.session.state.student.memory.days[0].slice(0, 2), [day, 10]);
    used = await Used.open("", { kept: memoryOf("bearoff memory 9") });
    used.sees("what is of a newer page", { "in today":
        "What is kept here can't be read, and stays as it is. It is of version 9, and this page knows 5." });
    await used.do("all that is kept, forget");
    used.sees("without a day", { forget: "Delete all?" });
    await used.do("forget");
    equal("it is gone", used.window.kept.size, 0);
    await used.do("undo memory");
    equal("and there again", kept(used), "bearoff memory 9");
});

// What was begun of ten goes on, in any tab, till the next day is over.
test("ten that were interrupted", async () => {
    about("ten that were interrupted");
    const used = await Used.open();
    await used.do("today");
    const { drill, run: { questions } } = used.session.state;
    for (const place of [0, 1, 3]) {
        const { roll } = questions[place];
        if (place === 3) await used.do("next question");
        await used.do([place === 1 ? losing(roll) : best(roll), "next question"]);
    }
    const words = (whose, till) =>
        `3 of ${whose}\u2019s ten are answered. The other 7 wait till ${till} is over.`;
    const goesOn = { "#today .begin": "Go on 3 of 10", "class of today": "begin first" };
    await used.run("", [["home offers them", "end training", { ...goesOn,
        ".daily-told": words("today", "tomorrow") }]]);
    const text = kept(used);
    for (const [name, days, told] of [["another tab", 0, words("today", "tomorrow")],
        ["the next day", 1, words("yesterday", "today")]]) {
        const next = await Used.open("", { ...onDay(used, days), kept: new Map(used.window.kept) });
        await next.run(`ten that were interrupted, ${name}`, [
            ["offered", "", { ...goesOn, ".daily-told": told }],
            ["at the one that was left open", "today", { "state drill": drill, "state place": 2, "length guesses": 3,
                title: "Question 3 of 10: Today\u2019s ten \u2013 Bearing off" }],
        ]);
        equal("its marks", next.document.querySelector(".bar-of").getAttribute("aria-label"), "Of 10: 2 right, 1 missed");
        equal("nothing counts again", kept(next), text);
        for (const place of [2, 4, 5, 6, 7, 8, 9]) {
            await next.do([() => next.session.change(askNext, place), best(questions[place].roll)]);
        }
        equal("they are done", [linesOf(next, "ten").map((line) => line.split(" ").at(-1)), linesOf(next, "pick"),
            linesOf(next, "day")[0].split(" ").at(-1)], [["done"], [], "1"]);
        await next.run("", [["and not offered any more", "end training",
            { "#today .begin": days === 0 ? "Ten more ten new" : "Begin 1 again, 9 new" }]]);
    }
    const late = await Used.open("", onDay(used, 2));
    late.sees("after that day they are over", { "#today .begin": "Begin 1 again, 9 new" });
    about("what another tab has answered meanwhile");
    const other = await Used.open("", { kept: used.window.kept });
    await other.do("today");
    await other.do([best(questions[2].roll)]);
    used.window.listeners.get("storage")({ key: "bearoff memory" });
    await used.do("today");
    equal("goes on from there", [used.session.state.place, used.session.state.run.guesses.length], [4, 4]);
    await other.do([() => other.session.change(askNext, 4), best(questions[4].roll)]);
    used.window.listeners.get("storage")({ key: "bearoff memory" });
    await used.do([() => used.session.change(askNext, 5), best(questions[5].roll)]);
    equal("and stays beside what is answered here", linesOf(used, "pick").length, 6);
    about("the same ten in two tabs");
    const asked = () => linesOf(used, "day").at(-1);
    const before = asked();
    await other.do([() => other.session.change(askNext, 5), best(questions[5].roll)]);
    equal("the same question counts once", [asked(), linesOf(used, "pick").length], [before, 6]);
    for (const tab of [used, other]) {
        for (const place of [6, 7, 8, 9]) await tab.do([() => tab.session.change(askNext, place), best(questions[place].roll)]);
    }
    equal("and the ten once", asked(), `day ${day} 10 1 1`);
    about("ten others");
    const given = await Used.open("", { kept: new Map([["bearoff memory", text]]) });
    await given.run("", [["in place of those that were interrupted", "ten others", { title: "Question 1 of 10: Today\u2019s ten \u2013 Bearing off",
        "length guesses": 0 }]]);
    equal("nothing of these is lost before an answer", kept(given), text);
    await given.run("", [["they are others", [best(given.session.state.run.questions[0].roll), "end training"],
        { "#today .begin": "Go on 1 of 10" }]]);
    about("estimates that were interrupted");
    const guess = await Used.open("", { kept: memoryOf("bearoff memory 5",
        "card 1,2,3,0,0,0 - pips 0 5 1000", "card 1,1,0,0,0,0 - pips 0 5 1000", `day ${day - 1} 3 2 0`) });
    await guess.run("", [["some are due", "estimates", { title: "Question 1 of 10: Ten estimates \u2013 Bearing off" }],
        ["one is answered", "estimate=14, tell, end training", { "in today": "Go on Pip count: 1 of 10" }],
        ["they go on", "estimates", { "state place": 1, "length estimates": 1 }]]);
});

// What is told goes away once the reader goes on, and what can't be kept is told while one trains.
test("what is told, and till when", async () => {
    about("what is told, and till when");
    const match = readFileSync(new URL("../../python/tests/matches/short.mat", import.meta.url), "utf8");
    const used = await Used.open();
    used.session.become({ ...used.session.state, trouble: "The file was refused." }, false);
    used.at("today").focus();
    await used.run("", [["a refusal", "", { trouble: "The file was refused.", "hidden trouble": false }],
        ["the next thing that is done", "today", { "hidden trouble": true, trouble: "" }],
        ["a lesson that is none", [() => used.session.change(giveLesson, "x")], { "begins trouble": "The lesson can" }],
        ["twice", [() => used.session.change(giveLesson, "x")], { "begins trouble": "The lesson can" }],
        ["a match on a question", [() => used.session.change(giveMatch, match)],
            { "hidden trouble": true, screen: "question", "begins notice": "The match is read. It waits at" }],
        ["none", [() => used.session.change(giveMatch, "x")], { "begins notice": "No match: " }],
        ["gone with the question", "next question", { "hidden notice": true }],
        ["where it waits", "end training, go #games", { "hidden notice": true, screen: "games" }],
    ]);
    const full = await Used.open("", { localStorage: {
        getItem: () => null, removeItem() {}, setItem() { throw new Error("full"); } } });
    await full.do("today");
    full.sees("before an answer", { "unkept-why": "" });
    await full.do([best(full.session.state.run.questions[0].roll)]);
    full.sees("a store without room", { "role of unkept-why": "alert", "unkept-why":
        "The browser has no more room for what you answer: what is new is there till the page closes." });
});

test("what counts for the ten, and for a rating", async () => {
    let used = await Used.open(`#drill=all&seed=${day}&ask=play`);
    about("other drills don't count for the ten");
    await play(used, () => false);
    equal("twenty that are right", kept(used).split("\n").at(-1), `day ${day} 20 0 0`);
    await used.run("", [["what is asked then", "end training", { "not in .daily-told": "are done",
        "class of today": "begin first" }]]);
    used = await Used.open(`#drill=all&seed=${day}&ask=effective&ten=`);
    await used.do(Array(10).fill(["estimate=1", "tell", "next question"]).flat());
    equal("ten estimates", linesOf(used, "day"), [`day ${day} 10 10 0`]);

    const twelve = Array.from({ length: 12 },
        (_, count) => `card ${1 + count},1,0,0,0,0 31 all 0 ${day} ${50 + count}`);
    used = await Used.open("", { kept: memoryOf("bearoff memory 3", `day ${day - 1} 20 12 2`, ...twelve) });
    await used.run("ten that come back", [
        ["none is new", "", { ".daily-told": "Ten that you missed come back. New ones follow these.",
            "#today .begin": "Begin 10 again" }],
        ["the dearest first", "today", { board: "12,1,0,0,0,0", "in coach": "10 again." }],
    ]);
    equal("ten", used.session.state.drill.due.length, 10);
    await play(used, () => true);
    for (const { roll } of missedOf(used.session.state)) await used.do([best(roll), "next question"]);
    await used.run("", [
        ["those that wait", "", { "in coach": "10 of 12 questions come back tomorrow, what you missed last first." }],
        ["the others follow at once", "end training", { "begins .daily-told": "Today\u2019s ten are done. 10 of 12",
            "#today .begin": "Ten more 2 again, 8 new" }],
    ]);

    about("a rating");
    used = await Used.open();
    await used.do("today");
    const [first, second] = used.session.state.run.questions;
    for (const [name, does, rating] of [["a play at random loses the mean of all", best(first.roll), "0 19000 1"],
        ["one that loses", `next question, ${losing(second.roll)}`, "56000 37620 2"]]) {
        await used.do(does);
        equal(name, linesOf(used, "rating"), [`rating ${rating}`]);
    }
    await used.run("", [["told", "end training, all that is kept",
        { "in today": "The rating begins at 0, and looks at about the "
        + "last fifty plays: 100 where nothing was lost, 0 where as much was lost as by plays at random." }]]);
    // it begins where a beginner stands, who plays at random, and its sign is a minus; what is lost each is of plays
    const themes = ["theme low 2 1 100", "theme pips 2 1 2000"];
    for (const [words, rating] of [["0 0 0", "0"], ["300000 400000 200", "24"], ["0 400000 200", "96"],
        ["500000 400000 200", "\u221224"], ["5000000 400000 9", "\u2212100"]]) {
        const shown = await Used.open("", { kept: memoryOf("bearoff memory 3", `rating ${words}`, ...themes,
            `day ${day} 20 9 1`) });
        equal(`the rating of ${words}`, shown.look("all #today dt, #today dd").slice(4),
            ["Average loss", "0.050 rolls", "Rating", `${rating} of 100`]);
    }

    used = await Used.open("#at=1,0,0,1,0,0&guess=1&roll=31");
    await used.run("what counts", [["a link goes where it says", "", { "count .student": 0, board: "1,0,0,1,0,0" }]]);
    for (const [name, does] of [["no guess on the free board", []],
        ["nor of a lesson", [`go ${linkOf("lesson: One\nstep: 0,0,0,1,0,1\nroll: 31\nask: Which?")}`]]]) {
        await used.do([...does, losing("31")]);
        equal(name, used.window.kept.size, 0);
    }
    await used.do("go #drill=ace&seed=3&ask=effective");
    used.session.change(giveEstimate, "1");
    const [[name, count, far, lost]] = used.session.state.student.memory.themes;
    equal("an estimate does", [name, count, far, lost > 1000, kept(used).split("\n").at(-1)],
        ["effective", 1, 1, true, `card ${used.session.state.points} - effective 0 ${day + 1} ${lost}`]);
    await used.do("end training, all that is kept");
    equal("in pips", used.look("all #today tbody tr:last-child > *").slice(0, 3).concat(
        used.text("#today tbody tr:last-child td:last-child").replace(/[\d.]+/, "N")), ["EPC", "1", "1", "N pips"]);
    const counted = () => used.session.state.student.memory.themes.map(([theme, times]) => `${theme} ${times}`);
    await used.do("go #drill=gaps&seed=7&ask=play");
    await used.do([losing(used.session.state.run.questions[0].roll)]);
    equal("and each drill", counted(), ["effective 1", "gaps 1"]);
    await used.do("go #drill=gaps&seed=8&ask=play, back");
    equal("not the way back to it", counted(), ["effective 1", "gaps 1"]);
    const within = await Used.open("#view=board&at=1,0,0,1,0,0");
    within.sees("the embedded view has no panel", { "hidden today": true, "count .student": 0 });
});

// A question like one that comes back is asked in its place, and estimates come back in a drill of their own.
test("what comes back otherwise", async () => {
    const open = (...lines) => Used.open("", { kept: memoryOf("bearoff memory 2", ...lines) });
    for (const isRight of [true, false]) {
        about(`a question like one that comes back, ${isRight}`);
        const used = await open(`card 4,1,0,0,0,0 31 low 2 ${day} 56`, "theme low 3 1 56");
        await used.do("today");
        const [{ points, roll, card }] = used.session.state.run.questions;
        const due = { points: [4, 1, 0, 0, 0, 0], roll: [3, 1] };
        equal("another position, of its theme", [points.join() === "4,1,0,0,0,0",
            THEMES.find(({ name }) => name === "low").has(points), used.board, card], [false, true, points, due]);
        used.window.pass(1000);
        equal("the link asks everybody the same", readLink(used.look("hash")).drill.due, [{ ...due, theme: "low" }]);
        await used.do([isRight ? best(roll) : losing(roll)]);
        equal("what comes back then", linesOf(used, "card"), [isRight ? `card 4,1,0,0,0,0 31 low 3 ${day + 21} 56`
            : `card ${points} ${roll.join("")} low 1 ${day + 1} 56`]);
    }
    const used = await open(`card 1,2,0,0,0,0 - pips 1 ${day - 1} 2000`, `card 1,0,0,0,0,0 31 all 0 ${day + 1} 56`,
        "theme pips 2 1 2000");
    const drill = { theme: "all", seed: day, ask: "pips", due: [{ points: [1, 2, 0, 0, 0, 0], roll: null }] };
    const cards = () => linesOf(used, "card").filter((line) => line.includes(" - pips "));
    await used.run("estimates that come back", [
        ["a button of their own", "", { estimates: "Estimates Pip count: 1 again, 9 new",
            "#today .begin": "Begin ten new" }],
        ["they are first", "estimates, pass 1000", { board: "1,2,0,0,0,0", "length questions": 10, "state drill": drill,
            title: "Question 1 of 10: Ten estimates \u2013 Bearing off", "in coach": ["Ten estimates, Pip count",
                "Question 1 of 10. What is the pip count?", "1 again, 9 new: All positions."] }],
        ["right", "estimate=5, tell", {}],
    ]);
    equal("their link", readLink(used.look("hash")).drill, drill);
    equal("right, it comes after seven days", cards(), [`card 1,2,0,0,0,0 - pips 2 ${day + 7} 2000`]);
    await used.do("next question, estimate=999, tell");
    equal("wrong, the next day", cards().filter((line) =>
        line.endsWith(`- pips 0 ${day + 1} ${used.session.state.run.estimates[1].error}`)).length, 1);
    await used.do([`go #drill=all&seed=${day}&ask=pips&ten=1,2,0,0,0,0&question=11`]);
    for (let left = 0; used.find("estimate") && left < 12; left += 1) await used.do("next question");
    used.sees("how many come back", { "in coach": comeBack(2) });
    (await open()).sees("no button where none are due", { "there estimates": false });
});

// Nothing that can't be taken is passed over in silence.
test("nothing in silence", async () => {
    about("links that can't be taken");
    const lessons = "lesson: One\nstep: 1,0,0,0,0,0\nlesson: Two\nstep: 2,0,0,0,0,0";
    const open = await Used.open("", { lessons });
    open.window.pass(1000);
    const none = (word, why) => `The link has ${word}, which can't be taken: ${why}.`;
    const [COUNTS, ROLL, PIPS] = ["a position is six counts of at most 15 checkers", "a roll is two digits from 1 to 6",
        "the databases have 44 or 90 pips"];
    for (const [hash, words] of [
        ...[["at=99,0,0,0,0,0", COUNTS], ["p=1,2", COUNTS], ["roll=70", ROLL], ["pips=59", PIPS], ["pips=", PIPS],
            ["guess=yes", "it is 1 or left out"], ["view=all", "the only other view is board"],
            ["drill=x", "there is no such theme", "drill=x&seed=1"],
            ["seed=12345678901", "a seed is a whole number from 1 to 999999999", "drill=gaps&seed=12345678901"],
            ["ask=all", "a drill asks play, pips, effective, wastage", "drill=gaps&seed=7&ask=all"],
            ["level=6", "a level is any, easy, mixed, hard", "drill=gaps&seed=7&level=6"],
            ["question=x", "it is the number of one", "drill=gaps&seed=7&question=x"],
            ["estimate=all", "what is estimated is pips, effective, wastage"], ["lesson=x", "it is the number of one"],
        ].map(([word, why, hash = word]) => [`#${hash}`, none(word, why)]),
        ["#drill=gaps", "The link has a drill without a seed."],
        ["#drill=ace&seed=7", "The link's drill has nothing to decide: Ace point alone, Play."],
        ["#lesson=13", "The link asks for lesson 13, and there are 2."],
        ["#lesson=2&step=9", "The link asks for step 9, and the lesson has 1."],
        ["#text=hello", "The lesson of the link can't be read. Line 1: no such word"],
        ["#at=1&roll=1", `${none("at=1", COUNTS)} ${none("roll=1", ROLL)}`],
    ]) {
        new Used(hash, { lessons }).sees(`at the start, ${hash}`, { notice: words, "hidden notice": false,
            "role of notice": "alert" });
        open.window.type(hash);
        open.sees(`in an open page, ${hash}`, { notice: words, "begins said": words });
        open.window.pass(1000);
        open.window.type("#at=1,0,0,0,0,0");
        open.sees("a right one after it", { "hidden notice": true, notice: "" });
    }
    for (const hash of ["", "#pips=44", "#pips=58",
        "#at=1,0,0,0,0,0&p=1,0,0,0,0,0&c=x&roll=13&guess=1&pips=90&t=T&view=board",
        "#drill=gaps&seed=7", "#drill=gaps&seed=7&ask=play&level=hard&question=3", "#drill=ace&seed=7&ask=pips",
        "#estimate=pips", "#lesson=2&step=1"]) {
        new Used(hash, { lessons }).sees(`a right link, ${hash}`, { "hidden notice": true });
    }
    const linked = await Used.open("#drill=fewer&seed=3&level=easy");
    linked.sees("a level that a link's theme hasn't",
        { notice: "The link's drill has no questions of level easy: any are asked." });
    equal("is none", linked.session.state.drill.level, undefined);

    const used = await Used.open("");
    await used.run("seeds that are none", [["where it is said why", "", { "aria-describedby of seed": "seed-why" }],
        ...["12345678901", "0", "x", "1.5", "-1"].map((seed) => [`the seed ${seed}`, [`seed=${seed}`, "begin drill"], {
            "seed-why": "A seed is a whole number from 1 to 999999999. Without one each drill is another.",
            "role of seed-why": "alert", "aria-invalid of seed": "true", "state drill": null }])]);
    const seeds = [];
    for (let count = 0; count < 3; count += 1) {
        await used.do("go #home, seed=, begin drill");
        const { seed } = used.session.state.drill;
        seeds.push(seed);
        used.sees("a seed of its own", { "state notes": {}, "in coach": `Seed ${seed}` });
    }
    equal("each another, of the size that a link can have", [new Set(seeds).size, seeds.every((seed) =>
        Number.isInteger(seed) && seed > 0 && seed <= 999999999)], [3, true]);
    await used.do("go #home");
    tell(used.find("seed"), "keydown", { key: "a" });
    used.sees("another key than Enter begins nothing", { screen: "home" });
    const press = () => { tell(used.find("seed"), "keydown", { key: "Enter" }); };
    for (const [theme, ask, level, how, notice, is] of [
        ["ace", "play", "any", "begin drill", "Ace point alone: nothing is to be decided there, so the EPC is asked.",
            "effective "],
        ["gaps", "play", "hard", press, "", "play hard"],
        ["fewer", "play", "easy", "begin drill", "How many to bear off: no question there is easy, so any are asked.",
            "play "],
        ["fewer", "play", "mixed", "begin drill", "How many to bear off: no question there is mixed, so any are asked.",
            "play "],
        ["all", "wastage", "hard", "begin drill", "Plays alone are hard: any positions are asked.", "wastage "],
        ["fewer", "play", "hard", "begin drill", "", "play hard"]]) {
        await used.run("no level goes in silence", [[`${theme}, ${ask}, ${level}`,
            ["go #home", `theme=${theme}`, `asked=${ask}`, `level=${level}`, how], { notice }]]);
        const { drill } = used.session.state;
        equal("what is asked", `${drill.ask} ${drill.level ?? ""}`, is);
    }
});
