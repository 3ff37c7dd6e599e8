// A checker that is dragged on a board where a play is made.
import { placeUnder, VIEW } from "./drawing.js";

const FAR = 6; // pixels from which on a press is no click

export class Dragging {
    // `touch` is called with the place where a checker is taken, then dropped; null is outside.
    constructor(document, touch) {
        this.document = document;
        this.touch = touch;
        this.from = null;
        this.isDragging = false;
        this.move = (event) => this.moved(event);
        this.end = (event) => this.ended(event);
        this.wasDragged = false; // since the last press on the board
        // the click on the board that follows a drag is none
        document.addEventListener("click", (event) => {
            if (this.wasDragged && this.board.contains(event.target)) event.stopPropagation();
        }, true);
    }

    // Where the pointer is on the board.
    at({ clientX, clientY }) {
        const { left, top, width, height } = this.board.getBoundingClientRect();
        const part = (clientY - top) / height;
        const x = VIEW.x + (VIEW.width * (clientX - left)) / width;
        // beyond the points and the tray there is the frame
        const place = part < -0.2 || part > 1.2 || clientX < left || clientX > left + width ? null
            : placeUnder(Math.max(0, Math.min(1, x / 700)));
        return { x, y: VIEW.y + VIEW.height * part, place };
    }

    grab(event) {
        this.wasDragged = false;
        if (event.button !== 0 || !event.isPrimary) return;
        this.board = event.currentTarget;
        this.start = [event.clientX, event.clientY];
        this.from = this.at(event).place;
        this.document.addEventListener("pointermove", this.move);
        this.document.addEventListener("pointerup", this.end);
        this.document.addEventListener("pointercancel", this.end);
    }

    moved(event) {
        const far = Math.hypot(event.clientX - this.start[0], event.clientY - this.start[1]);
        if (!this.isDragging && far < FAR) return;
        if (!this.isDragging) {
            this.isDragging = true;
            if (!this.touch(this.from, true)) {
                this.let();
                return;
            }
        }
        const { x, y } = this.at(event);
        this.draw(x, y);
    }

    ended(event) {
        const { isDragging } = this;
        const { place } = this.at(event);
        this.let();
        if (!isDragging) return;
        this.wasDragged = true;
        this.touch(event.type === "pointerup" ? place : null, false);
    }

    draw(x, y) {
        const dragged = this.board.querySelector(".dragged");
        if (!dragged) return;
        dragged.setAttribute("cx", x);
        dragged.setAttribute("cy", y);
    }

    let() {
        this.draw(-100, -100);
        this.isDragging = false;
        for (const [name, listener] of [["pointermove", this.move], ["pointerup", this.end],
            ["pointercancel", this.end]]) {
            this.document.removeEventListener(name, listener);
        }
    }
}
