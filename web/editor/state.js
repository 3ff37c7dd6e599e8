// A lesson that is made on the page, and what is done with it.
import { saveAs } from "../board/picture.js";
import { copied, note } from "../fields.js";
import { giveLesson } from "../lesson/state.js";
import { LONGEST_TEXT, readLessons, writeLesson } from "../lesson/text.js";
import { oneLine } from "../texts.js";

const draftOf = (state, steps) => ({ ...state, draft: { ...state.draft, steps }, notes: {} });

// A step for a position, whose key no other has.
const stepFor = (steps, points, text = "") =>
    ({
        key: 1 + Math.max(0, ...steps.map(({ key }) => key)), points, roll: "", text, ask: "",
        answer: "",
    });

// A new lesson of the kept positions with their captions, or of the board's.
export function beginDraft(state) {
    const positions = state.kept.length > 0 ? state.kept : [{ points: state.points, caption: "" }];
    const steps = positions.reduce((made, { points, caption }) =>
        [...made, stepFor(made, points, caption)], []);
    return { ...state, draft: { title: state.title, steps }, notes: {} };
}

const closeDraft = (state) => ({ ...state, draft: null, notes: {} });

export const titleDraft = (state, title) => ({
    ...state, draft: { ...state.draft, title: oneLine(title, LONGEST_TEXT) }, notes: {},
});

const addDraft = (state) =>
    draftOf(state, [...state.draft.steps, stepFor(state.draft.steps, state.points)]);

const removeDraft = (state, place) =>
    draftOf(state, state.draft.steps.filter((_, other) => other !== place));

export const writeDraft = (state, place, word, text) =>
    draftOf(state,
        state.draft.steps.map((step, other) =>
            (other === place ? { ...step, [word]: oneLine(text, LONGEST_TEXT) } : step)));

// A step at another place.
function moveDraft(state, from, to) {
    const steps = state.draft.steps.filter((_, place) => place !== from);
    steps.splice(to, 0, state.draft.steps[from]);
    return draftOf(state, steps);
}

// The text of the lesson that is made, or why it is none yet.
export function draftText({ draft: { title, steps } }) {
    if (title === "") return { text: "", fault: "A lesson has a title." };
    const wrong = steps.findIndex(({ roll }) => roll !== "" && !/^[1-6]{2}$/.test(roll));
    if (wrong >= 0) {
        return { text: "", fault: `Step ${wrong + 1}: a roll is two digits from 1 to 6.` };
    }
    const text = writeLesson({
        title, steps: steps.map((step) =>
            ({ ...step, roll: step.roll === "" ? null : [...step.roll] })),
    });
    return { text, fault: readLessons(text).fault };
}

// What is done with a lesson of one's own.
export function draftActions({ session, change, document, window, focusOn }) {
    const withDraft = (use) => {
        const { text, fault } = draftText(session.state);
        if (fault) change(note, "draft", fault);
        else use(text);
    };
    return {
        beginDraft() {
            change(beginDraft);
            document.getElementById("editing").scrollIntoView({ block: "start" });
            focusOn(["draft title"], "editing");
        },
        titleDraft: (title) => change(titleDraft, title),
        addDraft: () => change(addDraft),
        writeDraft: (place, word, text) => change(writeDraft, place, word, text),
        moveDraft(from, to) {
            const { key } = session.state.draft.steps[from];
            change(moveDraft, from, to);
            focusOn([`draft up ${key}`, `draft remove ${key}`], "editing");
        },
        removeDraft(place) {
            const { steps } = session.state.draft;
            const next = steps[place + 1] || steps[place - 1];
            change(removeDraft, place);
            focusOn(next ? [`draft remove ${next.key}`] : ["draft add"], "editing");
        },
        closeDraft() {
            change(closeDraft);
            focusOn(["draft begin"], "more");
        },
        // the lesson that is made, opened, as a link, or as a file; or why it is none yet
        tryDraft: () => withDraft((text) => change(giveLesson, text)),
        copyDraft: () => withDraft(async (text) => {
            const page = window.location.href.replace(/#.*/, "");
            const href = `${page}#${new URLSearchParams({ text })}`;
            change(note, "draft", await copied(window, href, "The link of the lesson is copied.",
                "The browser lets this page copy nothing: try the lesson, and copy its address."));
        }),
        saveDraft: () => withDraft((text) => {
            saveAs(document, window, new window.Blob([text], { type: "text/plain" }), "lesson.txt");
            change(note, "draft", "The lesson is saved as lesson.txt.");
        }),
    };
}
