// The module in its two forms, which lie beside this file, and the one of them that can run here.
import { abilities } from "./abilities.js";
import { BearoffError } from "./errors.js";

let loaded = null;

// Where the forms lie. Each address is written out, so that bundlers find it.
const ADDRESSES = {
    wide: () => new URL("./wide.wasm", import.meta.url),
    narrow: () => new URL("./narrow.wasm", import.meta.url),
};

// The bytes at an address, of a disk or of a server.
async function bytesAt(address) {
    if (address.protocol === "file:") {
        const { readFile } = await import(/* webpackIgnore: true */ /* @vite-ignore */ "node:fs/promises");
        return readFile(address);
    }
    const response = await fetch(address);
    if (!response.ok) throw new Error(`${response.status} ${response.statusText}`);
    return response.arrayBuffer();
}

async function load() {
    const form = abilities();
    if (form === "none") throw new BearoffError("no-module", "there is no WebAssembly here");
    const address = ADDRESSES[form]();
    try {
        return await WebAssembly.compile(await bytesAt(address));
    } catch (cause) {
        throw new BearoffError("no-module", `${address}: ${cause.message}`, { cause });
    }
}

// The module that can run here, compiled once.
export function loadModule() {
    loaded ??= load().catch((error) => {
        loaded = null;
        throw error;
    });
    return loaded;
}
