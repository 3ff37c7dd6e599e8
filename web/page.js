// The parts of the page, and what is put into them.
import { draw } from "./tree.js";
import { view } from "./view.js";

// The page of a document, on which what is asked anew comes into sight.
export class Page {
    constructor(document) {
        this.document = document;
        // its parts by id; those that a screen lacks are out of the document, alerts aside
        this.parts = new Map([...document.querySelectorAll("[id]")].map((part) => [part.id, part]));
        this.places = new Map();
        this.trained = ["", "", ""]; // the lesson or drill, which step or question of it, and the screen
    }

    at(name) { return this.parts.get(name); }

    place(name, isHidden) {
        const part = this.at(name);
        part.hidden = isHidden;
        if (part.getAttribute("role") === "alert") return;
        if (!this.places.has(name)) this.places.set(name, this.document.createComment(name));
        const place = this.places.get(name);
        if (isHidden && part.parentNode) part.replaceWith(place);
        else if (!isHidden && place.parentNode) place.replaceWith(part);
    }

    // Puts what is shown into the document.
    put(shown) {
        const [{ document }, at] = [this, (name) => this.at(name)];
        const had = document.activeElement;
        // what isn't known yet keeps the room that it had, so that nothing jumps
        const room = at("chances").offsetHeight;
        at("chances").style.minHeight = shown.isKnown || room === 0 ? "" : `${room}px`;
        for (const [name, tree] of Object.entries(shown.trees)) draw(document, at(name), tree);
        for (const [name, text] of Object.entries(shown.texts)) {
            if (at(name).textContent !== text) at(name).textContent = text;
        }
        for (const [name, isHidden] of Object.entries(shown.hidden)) this.place(name, isHidden);
        if (at("counts").getAttribute("data-told") !== shown.counts) {
            at("counts").setAttribute("data-told", shown.counts);
            at("counts").value = shown.counts;
        }
        at("counts").setAttribute("aria-invalid", String(shown.isRefused));
        document.title = shown.title;
        at("keep").setAttribute("aria-disabled", String(!shown.canKeep));
        at("guess").checked = shown.guess;
        at("whole").setAttribute("href", shown.whole);
        at("rolls").classList.toggle("opened", shown.isOpen);
        document.body.dataset.screen = shown.screen;
        for (const [name, is] of Object.entries(shown.classes)) document.body.classList.toggle(name, is);
        // a focus whose element went goes on where the screen begins
        if (had && had !== document.body && !document.body.contains(had)) {
            at(shown.begins).focus({ preventScroll: true });
        }
    }

    // Shows a state; what begins is where Tab and a reader go on.
    show(state, act) {
        const shown = view(state, act);
        this.put(shown);
        const [[was, at, former], [what, which, screen]] = [this.trained, shown.trained];
        const isOther = former !== "" && screen !== former && !(what && was);
        if (isOther || (what && (what !== was || which !== at))) {
            this.document.body.scrollIntoView({ block: "start" });
        }
        if (what && what !== was) this.at("coach").focus({ preventScroll: true });
        this.trained = shown.trained;
        if (state.database) this.document.body.dataset.ready = String(state.database.bound);
    }
}
