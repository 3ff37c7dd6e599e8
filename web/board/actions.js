// Actions of the board: its position, a roll, a play, and the kept positions.
import { triedAgain } from "../databases.js";
import { Dragging } from "./dragging.js";
import { copied } from "../fields.js";
import { asText } from "../lesson/text.js";
import { modeOf } from "../mode.js";
import { savePicture } from "./picture.js";
import {
    addCheckers, captionOf, choosePlay, chooseRoll, hasBegun, keep, lookingAt, makingOf, orderOf, playOn, pressed,
    remove, setCaption, setPoints, stopAt, touch, typePosition, undo,
} from "./state.js";

const LONG = 1500; // milliseconds that a button says what it did

// What is done on the board.
export function boardActions({
    session, past, at, change, document, window, focus, focusOn, onBoard, isWithin,
}) {
    // where a checker that is dragged is taken, and then where it is dropped
    const pick = (place, isFirst) => {
        if (isFirst) change((state) => touch(lookingAt(state, state.hand.shown, state.hand.steps), place));
        else change((state) =>
            touch(state, makingOf(state)?.ways.get(state.hand.picked)?.has(place) ? place : null));
        return session.state.hand.picked !== null;
    };
    const dragging = new Dragging(document, pick);
    return {
        add: (point, count) => change(addCheckers, point, count),
        clear: () => change(setPoints, [0, 0, 0, 0, 0, 0]),
        press(point, key) {
            const next = pressed(session.state, point, key, window.performance.now());
            if (next === null) return false;
            change(() => next);
            return true;
        },
        type(text) {
            change(typePosition, text);
            // an ID of the position that was there already gives way to its counts
            if (!session.state.hand.typed) {
                document.getElementById("counts").value = session.state.points.join();
            }
        },
        // a play that is to be guessed can be made on the board, and so that comes into sight
        roll(roll, button) {
            change(chooseRoll, roll);
            if (roll && button) {
                (makingOf(session.state) ? document.getElementById("board") : button)
                    .scrollIntoView({ block: "nearest" });
            }
        },
        // a play while training leads to the next question, a guess to its loss
        play(text) {
            const isAsked = makingOf(session.state) !== null;
            change(choosePlay, text);
            if (!isAsked) return;
            if (modeOf(session.state).trains) {
                document.body.scrollIntoView({ block: "start" });
                focusOn(["next question", "next step", "next lesson", "finish"], "steering");
            } else {
                document.getElementById("plays").scrollIntoView({ block: "nearest" });
                focusOn([`play ${text}`], "plays");
            }
        },
        touch: (place) => change(touch, place),
        undo() {
            change(undo);
            focusOn(["undo"], "coach");
            if (!document.querySelector('[data-key="undo"]')) {
                onBoard()?.focus({ preventScroll: true });
            }
        },
        // takes back what was begun on the board, and else leaves it
        leave() {
            if (hasBegun(session.state)) this.undo();
            else this.close();
        },
        retry() {
            change(triedAgain);
            focusOn([], "numbers");
        },
        grab: (event) => dragging.grab(event),
        close() {
            if (modeOf(session.state).trains) return;
            const { roll } = session.state;
            change(chooseRoll, null);
            if (roll) focus(`roll ${roll.join("")}`);
        },
        onward() {
            const { roll } = session.state;
            const wasWithin = isWithin("plays");
            change(playOn);
            if (wasWithin && roll) focus(`roll ${roll.join("")}`);
        },
        // no step of the reader's: the message stays
        stop: (group, key) => session.become(stopAt(session.state, group, key), false),
        keep: () => change(keep),
        print: () => window.print(),
        save: (kind) => savePicture(document, window, kind, session.state.points, captionOf(session.state)),
        // copies the board's position as text, or says that it can't be, and where the text stands
        async copyPosition() {
            const { points } = session.state;
            at("copied").textContent = await copied(window, asText(points), "The position is copied as text.",
                `The browser lets this page copy nothing. The position is ${points.join()}.`);
        },
        // copies the address, and says so, or that it can't be and where it stands
        async copyLink() {
            past.settle();
            const href = window.location.href.replace(/#.*/, "") + past.current;
            const where = window.location.protocol === "file:"
                ? " This page is a file of this device, so the link opens only here." : "";
            try {
                await window.navigator.clipboard.writeText(href);
                at("copied").textContent = `The link is copied.${where}`;
                at("copy").textContent = "Copied";
                window.setTimeout(() => { at("copy").textContent = "Copy the link"; }, LONG);
                at("link").hidden = true;
            } catch {
                at("copied").textContent =
                    `The browser lets this page copy nothing. Copy the link from here:${where}`;
                at("link").hidden = false;
                at("link").value = href;
                at("link").select();
            }
        },
        show(points) {
            change(setPoints, points);
            document.getElementById("board").scrollIntoView({ block: "nearest" });
        },
        caption: (key, caption) => change(setCaption, key, caption),
        // the focus goes to the row that takes the place of the one that was removed
        remove(key) {
            const keys = orderOf(session.state).map(({ points }) => points.join());
            const place = keys.indexOf(key);
            change(remove, key);
            const next = keys[place + 1] || keys[place - 1];
            if (next) focus(`remove ${next}`);
            else document.getElementById("keep").focus();
        },
    };
}
