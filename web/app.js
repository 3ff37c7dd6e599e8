// The page: draws the state and passes on clicks, keys, drops, Back and Forward.
import { abilities } from "../js/abilities.js";
import { boardActions } from "./board/actions.js";
import { Bar, Workers } from "./client.js";
import { draftActions } from "./editor/state.js";
import { fill, focusing } from "./fields.js";
import { takeFile } from "./files.js";
import { gamesActions } from "./games/state.js";
import { Past } from "./history.js";
import { dayOf, Store } from "./home/memory.js";
import { homeActions, withMemory } from "./home/state.js";
import { picksOf, readDraft, readPicks, withPicks, writeDraft, writePicks } from "./kept.js";
import { lessonActions } from "./lesson/state.js";
import { readLessons } from "./lesson/text.js";
import { readLink, writeLink } from "./link.js";
import { Page } from "./page.js";
import { questionActions } from "./question/state.js";
import { reviewActions } from "./review/state.js";
import { Session } from "./session.js";
import { visit } from "./state.js";
import { teacherActions } from "./teacher/state.js";

const MOST_SEED = 999999999;

const today = (window) => dayOf(new window.Date());

// What the parts of the page do with a session.
function actionsOf(session, past, page, document, window, store) {
    const given = {
        session, past, document, window, store, ...focusing(document), at: (name) => page.at(name),
        change: (how, ...words) => session.change(how, ...words), today: () => today(window),
        anySeed: () => 1 + Math.floor(Math.random() * MOST_SEED),
    };
    return {
        fill: (key, text) => session.become(fill(session.state, key, text), false),
        ...boardActions(given), ...lessonActions(given), ...questionActions(given), ...reviewActions(given),
        ...homeActions(given), ...gamesActions(given), ...draftActions(given), ...teacherActions(given),
    };
}

// What the markup has listens, and so do the document and the window.
function listen(at, document, window, session, act) {
    const click = (name, does) => at(name).addEventListener("click", does);
    for (const [name, does] of [["keep", act.keep], ["wider", act.retry], ["print", act.print],
        ["copy-text", act.copyPosition], ["copy", act.copyLink]]) click(name, () => does());
    for (const kind of ["svg", "png"]) click(`save-${kind}`, () => act.save(kind));
    click("promises", () => at("proved").showModal());
    at("guess").addEventListener("change", ({ target }) => act.guess(target.checked));
    at("counts").addEventListener("change", ({ target }) => act.type(target.value));
    at("counts").addEventListener("input", ({ target, inputType }) => {
        if (inputType === "insertFromPaste") act.type(target.value);
    });
    at("rolls").addEventListener("keydown", ({ key }) => { if (key === "Escape") act.close(); });
    at("file").addEventListener("change", ({ target }) => {
        act.take(target.files[0]);
        target.value = ""; // so that the same file can be chosen again
    });
    const over = (name, isOver, does = () => {}) => document.addEventListener(name, (event) => {
        if (name !== "dragleave") event.preventDefault();
        document.body.classList.toggle("over", isOver);
        does(event);
    });
    over("dragover", true);
    over("dragleave", false);
    over("drop", false, (event) => act.take(event.dataTransfer.files[0]));
    for (const name of ["popstate", "hashchange"]) window.addEventListener(name, act.go);
    window.addEventListener("storage", ({ key }) => { if (Store.isAbout(key)) act.look(); });
    window.addEventListener("focus", () => {
        if (today(window) !== session.state.student.day) act.look();
    });
}

// The module that a browser can run, by its name, or why it runs none.
function moduleFor(window) {
    const able = abilities(window.WebAssembly);
    if (able === "none") throw new Error("this browser runs no WebAssembly; one of the last few years can");
    if (!window.Worker) throw new Error("this browser runs no workers; one of the last few years can");
    return able;
}

// Starts the page: `parts` are the worker's script and the two modules in base 64.
export function start(document, window, parts) {
    const [page, past, store] = [new Page(document), new Past(window), new Store(window)];
    let act = null;
    const session = new Session(readLink(window.location.hash), (state, isStep) => {
        page.show(state, act);
        workers.tell(state);
        past.remember(writeLink(state), isStep && !state.isCompact);
        writePicks(window, picksOf(state));
        writeDraft(window, state.draft);
    }, readLessons(parts.lessons || "").lessons);
    const workers = new Workers(parts.worker, new Bar(document, window), session);
    act = actionsOf(session, past, page, document, window, store);
    session.remember = act.remember;
    session.learn = act.learn;
    act.take = (file) => takeFile(file, window, session, workers, act);
    act.go = () => {
        if (!past.isElsewhere()) return;
        session.become(visit(session.state, readLink(window.location.hash)), false);
        session.ask();
    };
    // what was kept is read, and the page is drawn, once the worker is at work
    let [database, why] = [null, ""];
    try {
        database = session.begin((isSecond) => workers.make(isSecond), parts[moduleFor(window)]);
    } catch (error) {
        why = `Nothing can be computed here: ${error.message}.`;
    }
    const { memory } = session.state.student;
    session.state = {
        ...withMemory(withPicks(session.state, readPicks(window)), store.read(memory), today(window), store.why),
        draft: readDraft(window),
    };
    listen((name) => page.at(name), document, window, session, act);
    if (database) session.open(database);
    else session.end(why);
    return session;
}
