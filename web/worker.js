// What the worker does: it builds, checks and answers, so that the page never stands still.
import { Database } from "../js/database.js";
import { boardComputes } from "./board/asks.js";
import { gamesComputes } from "./games/state.js";
import { countedIn, lessonComputes } from "./lesson/state.js";
import { questionComputes } from "./question/asks.js";
import { measured } from "./rules.js";
import { teacherComputes } from "./teacher/state.js";

// One desk of the worker: the compiled module, and the open database.
export class Desk {
    // A desk with the module that a page carries: packed by gzip, and in base 64.
    static async at(text, unpack, tell) {
        const packed = Uint8Array.from(atob(text), (letter) => letter.charCodeAt(0));
        return new Desk(await WebAssembly.compile(unpack(packed)), tell);
    }

    constructor(module, tell) {
        this.module = module;
        this.tell = tell;
        this.database = null;
        this.counted = null; // its positions with their effective pip counts, once they are wanted
    }

    // Builds and opens the database of a bound; `took` is in milliseconds.
    async build(bound) {
        const usual = bound > 44 ? 800 : 400;
        const begun = performance.now();
        this.tell({
            from: 0.1, until: 0.55, usual, text: `Building the database of ${bound} pips\u2026`,
        });
        const opened = this.become(await Database.build(bound, this.module, (bytes) => {
            this.tell({
                from: 0.55, until: 1, usual,
                text: `Checking all of its ${(bytes / 1e6).toFixed(0)} MB\u2026`,
            });
        }));
        return { ...opened, took: performance.now() - begun };
    }

    // Checks a file and opens it; where it is refused the database that was open stays so.
    async open(file) {
        return this.become(await Database.open(file, this.module));
    }

    // A database takes the place of the one that was open.
    become(database) {
        this.database?.close();
        this.database = database;
        this.counted = null;
        return { bound: database.bound, positions: database.positionCount };
    }

    // How far the rules of thumb are off over all positions, and the one of these weights.
    measure(weights) {
        this.counted ??= countedIn(this.database);
        return { count: this.counted.length, rows: measured(this.counted, weights) };
    }

    // The reply to a question of a page.
    async take({ kind, ...question }) {
        if (!Object.hasOwn(COMPUTED, kind)) throw new Error("no such question");
        return COMPUTED[kind](this, question);
    }
}

// What is computed of each kind of question.
const COMPUTED = {
    open(desk, { file }) {
        desk.tell({ from: 0.1, until: 1, usual: 400, text: "Checking the file\u2026" });
        return desk.open(file);
    },
    ...boardComputes, ...questionComputes, ...lessonComputes, ...teacherComputes, ...gamesComputes,
};

// Answers a page's messages in order; the first has the module and a bound to build.
export function serve(scope, unpack) {
    let desk = null;
    let last = Promise.resolve();
    const answerOne = async ({ number, question }) => {
        try {
            if (question.kind === "start") {
                const tell = (step) => scope.postMessage({ step });
                desk = await Desk.at(question.module, unpack, tell);
                scope.postMessage({ number, reply: await desk.build(question.bound) });
                return;
            }
            if (!desk) throw new Error("the module didn't start");
            scope.postMessage({ number, reply: await desk.take(question) });
        } catch (error) {
            const failure = {
                message: error.message, status: error.status || 0, line: error.line || "",
            };
            scope.postMessage({ number, failure });
        }
    };
    scope.onmessage = ({ data }) => {
        last = last.then(() => answerOne(data));
    };
}
