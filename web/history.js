// The history: a change is a step for Back; what follows at once belongs to it.

const ONE_STEP = 250; // milliseconds

export class Past {
    constructor(window) {
        this.window = window;
        this.current = window.location.hash; // the address as the page knows it
        this.written = this.current; // what the page last wrote or read there
        this.timer = null;
        this.isStep = false; // whether what is written now is a step
    }

    // The address of a state; `isStep` where Back shall undo what led to it.
    remember(link, isStep) {
        if (link === this.current) return;
        this.current = link;
        if (this.timer === null || (isStep && !this.isStep)) {
            this.isStep = isStep;
            this.write(link, isStep);
        }
        this.window.clearTimeout(this.timer);
        this.timer = this.window.setTimeout(() => this.settle(), ONE_STEP);
    }

    // Writes what followed the last step.
    settle() {
        this.window.clearTimeout(this.timer);
        this.timer = null;
        if (this.window.location.hash !== this.current) this.write(this.current, false);
    }

    // An address that something else has set stays, since the page is still to be told of it.
    write(link, isStep) {
        if (this.window.location.hash !== this.written) return;
        try {
            if (isStep) this.window.history.pushState(null, "", link);
            else this.window.history.replaceState(null, "", link);
        } catch {
            // too many in a while: what comes next, or the link that is copied, writes it
        }
        this.written = this.window.location.hash;
    }

    // Whether Back, Forward or the reader changed the address.
    isElsewhere() {
        this.written = this.window.location.hash;
        if (this.written === this.current) return false;
        this.window.clearTimeout(this.timer);
        this.timer = null;
        this.current = this.written;
        return true;
    }
}
