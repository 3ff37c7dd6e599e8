// What a call throws that has no answer.

// The refusals by the status that the module gives: a name, and what it means.
const MEANINGS = new Map([
    [1, ["not-open", "the database is not open"]],
    [2, ["bad-roll", "a die is not 1 to 6"]],
    [3, ["too-many", "more than 15 checkers"]],
    [4, ["over-bound", "more pips than the bound"]],
    [5, ["finished", "no checker is left"]],
    [6, ["not-legal", "the roll doesn't lead there"]],
    [7, ["changed", "the bytes changed since they were verified"]],
    [8, ["buffer-too-small", "the buffer is too small"]],
    [9, ["not-old", "the file is of version 2 already"]],
    [10, ["no-rank", "the database has no such rank"]],
]);

// The first faults of bytes that fail verification.
const FAULT_NAMES = new Map([
    [16, "too-short"],
    [17, "bad-magic"],
    [18, "bad-version"],
    [19, "bad-bound"],
    [20, "bad-count"],
    [21, "bad-record-bytes"],
    [22, "bad-reserved"],
    [23, "bad-length"],
    [24, "bad-play"],
    [25, "not-least"],
    [26, "bad-mean"],
    [27, "bad-spread"],
]);

export class BearoffError extends Error {
    constructor(code, message, { status = 0, cause } = {}) {
        super(message, cause === undefined ? undefined : { cause });
        this.code = code;
        this.status = status;
    }

    get name() {
        return "BearoffError";
    }
}

export class DamagedError extends BearoffError {
    constructor(status, line) {
        super("damaged", `not a valid database: ${line}`, { status });
        this.fault = FAULT_NAMES.get(status) || "";
        this.line = line;
    }

    get name() {
        return "DamagedError";
    }
}

// The refusal of what was asked, in the words of the caller's question.
export function refusal(status, asked) {
    const [code, meaning] = MEANINGS.get(status) || ["unknown", `the status ${status}`];
    return new BearoffError(code, `${asked}: ${meaning}`, { status });
}
