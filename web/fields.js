// Fields of the screens by their keys: what was typed there, what is said beside them, where the focus goes.

// What is in them at first; what is kept stands where no other text was typed.
export const EMPTY_FIELDS = {
    theme: "all", asked: "play", level: "any", seed: "", positions: "", results: "", estimate: "",
    "result name": "", "match text": "", "memory text": null,
};

// The state with what a field has now.
export const fill = (state, key, text) => (state.fields[key] === text ? state
    : { ...state, fields: { ...state.fields, [key]: text } });

// The attributes of a field by its key; Enter in it does something, where that is told.
export const field = ({ fields }, act, key, enter = null) => ({
    "data-key": key, value: fields[key], change: ({ target }) => act.fill(key, target.value),
    keydown: enter && (({ key: pressed, target }) => {
        if (pressed !== "Enter") return;
        act.fill(key, target.value);
        enter();
    }),
});

// A message beside a field or a button, till the position changes.
export const note = (state, place, words, isFault = false) =>
    ({ ...state, notes: { ...state.notes, [place]: { words, isFault } } });
export const fail = (state, place, words) => note(state, place, words, true);
export const toldAt = ({ notes }, place) => (notes[place]?.isFault === false ? notes[place].words : "");
export const faultAt = ({ notes }, place) => (notes[place]?.isFault ? notes[place].words : "");

// What comes of a text that is copied, in words.
export async function copied(window, text, told, otherwise) {
    try {
        await window.navigator.clipboard.writeText(text);
        return told;
    } catch {
        return otherwise;
    }
}

// Where the focus goes after something was done.
export function focusing(document) {
    const keyed = (key) => document.querySelector(`[data-key="${key}"]`);
    return {
        focus: (key) => keyed(key)?.focus(),
        // the first of some keys that is there, or else a part of the page
        focusOn(keys, name) {
            const found = keys.map(keyed).find(Boolean);
            (found || document.getElementById(name))?.focus({ preventScroll: true });
        },
        onBoard: () => document.querySelector('#board [tabindex="0"].to-play'),
        isWithin: (name) => document.getElementById(name)?.contains(document.activeElement),
    };
}
