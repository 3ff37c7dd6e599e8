// Which form of the module can run here.

// A module with nothing but a memory of 64-bit addresses, and one with nothing at all.
const WIDE_MEMORY = new Uint8Array([0, 97, 115, 109, 1, 0, 0, 0, 5, 3, 1, 4, 1]);
const NOTHING = new Uint8Array([0, 97, 115, 109, 1, 0, 0, 0]);

// "wide" with 64-bit memories, "narrow" without them, and "none" with neither.
export function abilities(engine = globalThis.WebAssembly) {
    try {
        if (engine.validate(WIDE_MEMORY)) return "wide";
        return engine.validate(NOTHING) ? "narrow" : "none";
    } catch {
        return "none";
    }
}
