// Questions to the open database: when each is asked, a failed one's reply, and its effect.
import { boardAsks } from "./board/asks.js";
import { gamesAsks } from "./games/state.js";
import { lessonAsks } from "./lesson/state.js";
import { questionAsks } from "./question/asks.js";
import { teacherAsks } from "./teacher/state.js";

const KINDS = { ...boardAsks, ...questionAsks, ...lessonAsks, ...teacherAsks, ...gamesAsks };
// The next question to the open database, or null; none while one is loading.
export function wanted(state) {
    if (!state.database || state.work.loads > 0) return null;
    for (const [kind, { wants }] of Object.entries(KINDS)) {
        const question = wants(state);
        if (question) return { kind, ...question };
    }
    return null;
}

// What stands for the reply to a question that failed.
export const noReply = ({ kind }, database, refusal) => KINDS[kind].none(refusal, database);

// The state with a reply; one of a database that was closed is dropped.
export const received = (state, database, question, reply) => (state.database !== database ? state
    : KINDS[question.kind].becomes(state, question, reply));
