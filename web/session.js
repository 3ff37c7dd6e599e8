// Asks the worker for what the state wants, one question after the other, and loads databases.
import { noReply, received, wanted } from "./asks.js";
import {
    dropped, ended, firstBound, loading, notWidened, opened, refused, wantsMore, widened, widening,
} from "./databases.js";
import { answeredBetween } from "./kept.js";
import { learntBetween } from "./lesson/state.js";
import { GREATEST } from "./points.js";
import { begin, passed } from "./state.js";
import { FAULTS } from "./texts.js";

// Why a database was not opened, in words.
function whyNot(failure) {
    return failure.status
        ? "The file was refused, and nothing of it is used. "
            + `${FAULTS[failure.status] || failure.message} First fault: ${failure.line}.`
        : `This didn't work: ${failure.message}.`;
}

export class Session {
    // A session over a link's state; `changed` is told each state, and whether the reader made it.
    constructor(link, changed, lessons) {
        this.state = begin(link, lessons);
        this.changed = changed;
        this.client = null; // with the worker that has the open database
        this.second = null; // with one that builds the whole board meanwhile
        this.isAsking = false;
        // the state once something was answered, and once a lesson was read or its drill done
        this.remember = (state) => state;
        this.learn = (state) => state;
    }

    // Starts a worker and its first build; `makeClient` is told whether it is the second.
    begin(makeClient, module) {
        this.start = (client, bound) => client.ask({ kind: "start", module, bound });
        this.makeClient = makeClient;
        this.client = makeClient(false);
        return this.start(this.client, firstBound(this.state));
    }

    become(state, isStep) {
        if (state === this.state) return;
        this.state = state;
        this.changed(state, isStep);
    }

    // A change that the reader made: a function of the state and of what else it is given.
    change(how, ...words) {
        const next = how(passed(this.state), ...words);
        const [answer, lesson] = [answeredBetween, learntBetween].map((what) =>
            what(this.state, next));
        const told = answer ? this.remember(next, answer) : next;
        this.become(lesson ? this.learn(told, lesson) : told, true);
        this.ask();
    }

    // Asks until nothing is wanted. A question that fails has no answer but these words.
    async ask() {
        if (this.isAsking) return;
        this.isAsking = true;
        for (let question = wanted(this.state); question; question = wanted(this.state)) {
            const { database } = this.state;
            const { client } = this;
            let reply;
            try {
                reply = await client.ask(question);
            } catch (failure) {
                if (client !== this.client) continue;
                if (client.isDead) {
                    this.stop(failure);
                    break;
                }
                reply = noReply(question, database, `This didn't work: ${failure.message}.`);
            }
            this.become(received(this.state, database, question, reply), false);
        }
        this.isAsking = false;
        this.widen();
    }

    // Waits for a database; one that is refused leaves the open one as it is.
    async open(reply, isOwn) {
        this.become(loading(this.state), false);
        try {
            const database = await reply;
            this.become(opened(this.state, database, isOwn), false);
        } catch (failure) {
            if (this.client.isDead) this.stop(failure);
            else this.become(refused(this.state, whyNot(failure)), false);
        }
        await this.ask();
    }

    // Opens a file, once it is read; a build under way is given up.
    load(question, lent) {
        if (!this.client) return;
        this.drop();
        this.open((async () => {
            const whole = await question;
            return this.client.ask(whole, lent(whole));
        })(), true);
    }

    // Builds the whole board in a second worker, while the open database answers.
    async widen() {
        if (!wantsMore(this.state)) return;
        this.become(widening(this.state), false);
        let second = null;
        try {
            second = this.makeClient(true);
            this.second = second;
            const database = await this.start(second, GREATEST);
            const first = this.client;
            this.client = second;
            this.second = null;
            first.close();
            this.become(widened(this.state, database), false);
        } catch (failure) {
            if (second !== this.second) return;
            this.second = null;
            second?.close();
            this.become(notWidened(this.state, failure.message), false);
        }
        await this.ask();
    }

    // Lets go of the second worker.
    drop() {
        const { second } = this;
        if (!second) return;
        this.second = null;
        second.close();
        this.become(dropped(this.state), false);
    }

    // The worker is gone.
    stop({ message }) {
        this.end(`Nothing more can be computed here: ${message}. Load the page anew.`);
    }

    // Nothing comes any more, for the reason in these words.
    end(words) {
        this.drop();
        this.become(ended(this.state, words), false);
    }
}
