// The page's side of the worker, and a bar for its steps, which say how long they take.
import { needsMore } from "./databases.js";

// What went wrong in the worker.
class Failure extends Error {
    constructor({ message, status, line }) {
        super(message);
        this.status = status;
        this.line = line;
    }
}

export class Client {
    // A worker that runs a script, and what is called with each step that it begins.
    constructor(script, tell) {
        this.address = URL.createObjectURL(new Blob([script], { type: "text/javascript" }));
        this.tell = tell;
        this.waiting = new Map();
        this.number = 0;
        this.isDead = false;
        this.worker = new Worker(this.address);
        this.worker.onmessage = ({ data }) => this.receive(data);
        this.worker.onmessageerror = () => this.fail("what the worker answered can't be read");
        this.worker.onerror = (event) => this.fail(event.message || "the worker stopped");
    }

    receive(data) {
        if (data.number === undefined) {
            this.tell(data.step);
            return;
        }
        const { keep, refuse } = this.waiting.get(data.number);
        this.waiting.delete(data.number);
        if (data.failure) refuse(new Failure(data.failure));
        else keep(data.reply);
    }

    // The worker is gone: what is asked of it now or later fails.
    fail(message) {
        this.isDead = true;
        this.message = message;
        for (const { refuse } of this.waiting.values()) {
            refuse(new Failure({ message, status: 0, line: "" }));
        }
        this.waiting.clear();
    }

    // The worker isn't wanted any more.
    close() {
        this.worker.terminate();
        URL.revokeObjectURL(this.address);
        this.fail("the worker was let go");
    }

    ask(question, lent = []) {
        this.number += 1;
        const { number } = this;
        return new Promise((keep, refuse) => {
            if (this.isDead) throw new Failure({ message: this.message, status: 0, line: "" });
            this.waiting.set(number, { keep, refuse });
            this.worker.postMessage({ number, question }, lent);
        });
    }
}

// How far a step is after some milliseconds: two thirds in its usual time, never whole.
export function reached({ from, until, usual }, passed) {
    return from + (until - from) * (1 - Math.exp(-passed / usual));
}

// What the two workers are at; that of the second one is told where something needs it.
export class Workers {
    constructor(script, bar, session) {
        Object.assign(this, { script, bar, session, steps: { first: null, second: null } });
    }

    tell({ work: { loads, isWidening } } = this.session.state) {
        const second = isWidening && needsMore(this.session.state) ? this.steps.second : null;
        this.bar.show(loads > 0 ? this.steps.first : second);
    }

    make(isSecond) {
        const name = isSecond ? "second" : "first";
        this.begin("Starting\u2026", name);
        this.tell();
        return new Client(this.script, (step) => {
            this.steps[this.session.second ? name : "first"] = step;
            this.tell();
        });
    }

    begin(text, name = "first") { this.steps[name] = { from: 0.02, until: 0.1, usual: 200, text }; }
}

export class Bar {
    constructor(document, window) {
        this.at = (name) => document.getElementById(name);
        this.window = window;
        this.frame = 0;
        this.step = null;
    }

    // Begins a step, unless it is the one that is shown, or ends the last one where there is none.
    show(step) {
        if (step === this.step) return;
        this.step = step;
        this.window.cancelAnimationFrame(this.frame);
        this.at("bar").hidden = !step;
        if (!step) return;
        this.at("step").textContent = step.text;
        const start = this.window.performance.now();
        const move = () => {
            this.at("progress").value = reached(step, this.window.performance.now() - start);
            this.frame = this.window.requestAnimationFrame(move);
        };
        move();
    }
}
