// Headless browsers, driven with nothing but node's own library: Chromium over the pipe of its debugging protocol, and
// Firefox over the socket of its own. A browser that ends before it is closed makes every wait fail.
import { spawn } from "node:child_process";
import { existsSync, mkdtempSync, readFileSync, rmSync, writeFileSync } from "node:fs";
import { connect } from "node:net";
import { tmpdir } from "node:os";
import { delimiter, join } from "node:path";

const NAMES = {
    chromium: ["chromium", "chromium-browser", "google-chrome"],
    firefox: ["firefox-esr", "firefox"],
};

// A headless Chromium has no mouse unless it is told so.
const MOUSE = "--blink-settings=primaryHoverType=2,availableHoverTypes=2,primaryPointerType=4,availablePointerTypes=4";

const wait = (milliseconds) => new Promise((keep) => setTimeout(keep, milliseconds));

// Where a browser is installed, or null.
export function installed(kind = "chromium") {
    for (const folder of (process.env.PATH || "").split(delimiter)) {
        for (const name of NAMES[kind]) {
            if (existsSync(join(folder, name))) return join(folder, name);
        }
    }
    return null;
}

// What both browsers have: a folder of their own, and words that wait for a reply.
class Program {
    constructor(program, words, stdio) {
        this.folder = mkdtempSync(join(tmpdir(), "page-"));
        this.waiting = new Map();
        this.number = 0;
        this.ended = null;
        this.prepare();
        this.process = spawn(program, words(this.folder), { stdio, env: { ...process.env, HOME: this.folder } });
        this.over = new Promise((keep) => {
            this.process.once("error", (error) => keep(`doesn't start: ${error.message}`));
            this.process.once("exit", (code, signal) => keep(`ended with ${signal || code}`));
        });
        this.over.then((how) => {
            this.ended = `the browser ${how}`;
            for (const { refuse } of this.waiting.values()) refuse(new Error(this.ended));
            this.waiting.clear();
        });
    }

    prepare() {}

    request(write) {
        this.number += 1;
        const id = this.number;
        return new Promise((keep, refuse) => {
            if (this.ended) throw new Error(this.ended);
            this.waiting.set(id, { keep, refuse });
            write(id);
        });
    }

    replied(id, error, result) {
        const { keep, refuse } = this.waiting.get(id) || {};
        this.waiting.delete(id);
        if (error) refuse?.(new Error(error));
        else keep?.(result);
    }

    async finish(end) {
        await Promise.race([end.catch(() => {}).then(() => this.over), wait(10000)]);
        if (!this.ended) this.process.kill("SIGKILL");
        await this.over;
        rmSync(this.folder, { recursive: true, force: true, maxRetries: 10, retryDelay: 200 });
    }
}

// In a page: what is seen by each word.
const look = (words) => words.map((word) => {
    const [, how, selector = word] = /^(count|all|hidden|value|keys) (.*)$/s.exec(word) || [];
    const { activeElement } = document;
    if (word === "focus") return activeElement.getAttribute("data-key") || activeElement.id;
    if (word === "hash") return location.hash;
    const all = [...document.querySelectorAll(selector)];
    return {
        count: all.length, all: all.map((one) => one.textContent), hidden: all[0]?.hidden ?? true,
        value: all[0]?.value, keys: all.map((one) => one.dataset.key),
    }[how] ?? (how ? null : all[0]?.textContent ?? null);
});

// What both have of a page.
class AnyPage {
    // Waits until an expression is true, with more patience than any machine wants, and says for how many milliseconds.
    async until(expression) {
        const [start, most] = [performance.now(), Number(process.env.PATIENCE || 120000)];
        while (!(await this.value(`(() => { try { return Boolean(${expression}); } catch { return false; } })()`))) {
            if (performance.now() - start > most) throw new Error(`never true: ${expression}`);
            await wait(10);
        }
        return performance.now() - start;
    }

    // Waits for an element, or for one that has no dots of what isn't known yet.
    there(selector) { return this.until(`document.querySelector(${JSON.stringify(selector)})`); }

    known(selector) {
        return this.until(`((all) => all.length > 0 && all.every(({ textContent }) => !textContent.includes("\u2026")))(
            [...document.querySelectorAll(${JSON.stringify(selector)})])`);
    }

    // What is seen, each by a word: the focus, the address, what there is of a selector, and else its text.
    look(words) { return this.value(`(${look})(${JSON.stringify(words)})`); }

    // A click that a script makes, where an element stands or not.
    poke(selector) { return this.value(`document.querySelector(${JSON.stringify(selector)}).click()`); }

    // Where the middle of an element is, in the window.
    async middle(selector) {
        await this.there(selector);
        return this.value(`(() => {
            const box = document.querySelector(${JSON.stringify(selector)}).getBoundingClientRect();
            return { x: Math.round(box.x + box.width / 2), y: Math.round(box.y + box.height / 2) };
        })()`);
    }

    // Brings an element into sight, once it is there, and says where its middle is.
    async aim(selector) {
        await this.there(selector);
        return this.value(`(() => {
            const element = document.querySelector(${JSON.stringify(selector)});
            element.scrollIntoView({ block: "center", behavior: "instant" });
            const box = element.getBoundingClientRect();
            return { x: box.x + box.width / 2, y: box.y + box.height / 2 };
        })()`);
    }
}

export class Browser extends Program {
    constructor(program) {
        super(program, (folder) => [
            "--headless=new", "--no-sandbox", MOUSE, "--disable-gpu", "--disable-dev-shm-usage", "--hide-scrollbars",
            `--user-data-dir=${folder}`, "--remote-debugging-pipe", "about:blank",
        ], ["ignore", "ignore", "ignore", "pipe", "pipe"]);
        [, , , this.to, this.from] = this.process.stdio;
        this.name = "Chromium";
        this.events = [];
        let left = "";
        this.to.on("error", () => {});
        this.from.setEncoding("utf8");
        this.from.on("data", (text) => {
            const messages = (left + text).split("\0");
            left = messages.pop();
            messages.forEach((message) => this.receive(JSON.parse(message)));
        });
    }

    receive(message) {
        if (message.id === undefined) this.events.push(message);
        else this.replied(message.id, message.error?.message, message.result);
    }

    send(method, params = {}, sessionId = undefined) {
        return this.request((id) => this.to.write(`${JSON.stringify({ id, method, params, sessionId })}\0`));
    }

    // A page at an address, of a size, in light, dark or forced colours, in which a script runs before all others.
    async open(address, { width = 1280, height = 900, colours = "light", mobile = false, before = "",
            scripts = true } = {}) {
        const { targetId } = await this.send("Target.createTarget", { url: "about:blank" });
        const { sessionId } = await this.send("Target.attachToTarget", { targetId, flatten: true });
        const page = new Page(this, sessionId, targetId);
        await page.send("Page.enable");
        await page.send("Runtime.enable");
        await page.send("Log.enable");
        await page.send("Emulation.setDeviceMetricsOverride", { width, height, deviceScaleFactor: 1, mobile });
        if (mobile) await page.send("Emulation.setTouchEmulationEnabled", { enabled: true });
        if (!scripts) await page.send("Emulation.setScriptExecutionDisabled", { value: true });
        await page.send("Emulation.setEmulatedMedia", {
            features: colours === "forced" ? [{ name: "forced-colors", value: "active" }]
                : [{ name: "prefers-color-scheme", value: colours }],
        });
        if (before) await page.send("Page.addScriptToEvaluateOnNewDocument", { source: before });
        await page.send("Page.navigate", { url: address });
        return page;
    }

    async close() {
        await this.finish(this.send("Browser.close"));
    }
}

export class Page extends AnyPage {
    constructor(browser, sessionId, targetId) {
        super();
        Object.assign(this, { browser, sessionId, targetId });
    }

    send(method, params = {}) {
        return this.browser.send(method, params, this.sessionId);
    }

    // The value of an expression in the page.
    async value(expression) {
        const { result, exceptionDetails } = await this.send("Runtime.evaluate", {
            expression, awaitPromise: true, returnByValue: true, userGesture: true,
        });
        if (exceptionDetails) throw new Error(exceptionDetails.exception?.description || exceptionDetails.text);
        return result.value;
    }

    // A click in the middle of an element, once it is there.
    async click(selector, words = {}) {
        await this.press(await this.aim(selector), words);
    }

    // A click at a place of the window, whatever stands there.
    async press({ x, y }, { shift = false, button = "left" } = {}) {
        for (const type of ["mousePressed", "mouseReleased"]) {
            await this.send("Input.dispatchMouseEvent",
                { type, x, y, button, clickCount: 1, modifiers: shift ? 8 : 0 });
        }
    }

    // A drag from the middle of an element to that of another one, both in sight.
    async drag(from, to) {
        const [start, end] = [await this.middle(from), await this.middle(to)];
        const mouse = (type, x, y) => this.send("Input.dispatchMouseEvent",
            { type, x, y, button: "left", buttons: type === "mouseReleased" ? 0 : 1, clickCount: 1 });
        await mouse("mousePressed", start.x, start.y);
        for (const part of [0.2, 0.6, 1]) await mouse("mouseMoved", start.x + part * (end.x - start.x),
            start.y + part * (end.y - start.y));
        await mouse("mouseReleased", end.x, end.y);
    }

    // A tap there, where it is in sight.
    async tap(selector) {
        const { x, y } = await this.value(`(() => {
            const box = document.querySelector(${JSON.stringify(selector)}).getBoundingClientRect();
            return { x: box.x + box.width / 2, y: box.y + box.height / 2 };
        })()`);
        await this.send("Input.dispatchTouchEvent", { type: "touchStart", touchPoints: [{ x, y }] });
        await this.send("Input.dispatchTouchEvent", { type: "touchEnd", touchPoints: [] });
    }

    // A finger that moves from the middle of an element to that of another one, both in sight.
    async swipe(from, to) {
        const [start, end] = [await this.middle(from), await this.middle(to)];
        const touch = (type, ...touchPoints) => this.send("Input.dispatchTouchEvent", { type, touchPoints });
        await touch("touchStart", start);
        for (let part = 1; part <= 8; part += 1) {
            await touch("touchMove", { x: start.x + (part / 8) * (end.x - start.x),
                    y: start.y + (part / 8) * (end.y - start.y) });
            await wait(16);
        }
        await touch("touchEnd");
    }

    async key(key) {
        const text = key.length === 1 ? key : key === "Enter" ? "\r" : undefined;
        const code = { Tab: 9, Enter: 13, Escape: 27 }[key];
        const words = { key, code: key, windowsVirtualKeyCode: code };
        await this.send("Input.dispatchKeyEvent", { type: text ? "keyDown" : "rawKeyDown", text, ...words });
        await this.send("Input.dispatchKeyEvent", { type: "keyUp", ...words });
    }

    async back() {
        await this.value("history.back()");
    }

    async forward() {
        await this.value("history.forward()");
    }

    async picture(whole = true) {
        const { data } = await this.send("Page.captureScreenshot", { format: "png", captureBeyondViewport: whole });
        return Buffer.from(data, "base64");
    }

    // As it is printed on paper of so many inches.
    async pdf(paperWidth, paperHeight) {
        const { data } = await this.send("Page.printToPDF", {
            printBackground: true, preferCSSPageSize: false, paperWidth, paperHeight,
            marginTop: 0.4, marginBottom: 0.4, marginLeft: 0.4, marginRight: 0.4,
        });
        return Buffer.from(data, "base64");
    }

    async close() {
        await this.browser.send("Target.closeTarget", { targetId: this.targetId });
    }

    // What went wrong in the page, and what its policy refused.
    troubles() {
        return this.browser.events.filter((event) => event.sessionId === this.sessionId)
                .flatMap(({ method, params }) => {
            if (method === "Runtime.exceptionThrown") {
                return [params.exceptionDetails.exception?.description || params.exceptionDetails.text];
            }
            return method === "Log.entryAdded" && params.entry.level === "error" ? [params.entry.text] : [];
        });
    }
}

// The keys of the protocol for browsers, where they aren't what they write.
const KEYS = {
    Tab: "\uE004", Enter: "\uE007", Shift: "\uE008", Escape: "\uE00C", ArrowLeft: "\uE012", ArrowUp: "\uE013",
    ArrowRight: "\uE014", ArrowDown: "\uE015", End: "\uE010", Home: "\uE011",
};

const ELEMENT = "element-6066-11e4-a52e-4f735466cecf";

export class Firefox extends Program {
    constructor(program) {
        super(program, (folder) => ["--headless", "--marionette", "--no-remote", "--profile", folder, "about:blank"],
            ["ignore", "ignore", "ignore"]);
        this.name = "Firefox";
    }

    prepare() {
        writeFileSync(join(this.folder, "user.js"), [
            'user_pref("marionette.port", 0);', 'user_pref("browser.shell.checkDefaultBrowser", false);',
            'user_pref("datareporting.policy.dataSubmissionEnabled", false);',
            'user_pref("app.update.enabled", false);', 'user_pref("browser.startup.page", 0);',
        ].join("\n"));
    }

    // Connects, once it listens, and begins.
    async start() {
        const file = join(this.folder, "MarionetteActivePort");
        for (let tries = 0; !existsSync(file) || readFileSync(file, "utf8").trim() === ""; tries += 1) {
            if (this.ended || tries > 600) throw new Error(this.ended || "Firefox doesn't listen");
            await wait(50);
        }
        this.socket = connect(Number(readFileSync(file, "utf8")), "127.0.0.1");
        this.socket.on("error", () => {});
        let left = Buffer.alloc(0);
        this.socket.on("data", (bytes) => {
            left = Buffer.concat([left, bytes]);
            for (;;) {
                const colon = left.indexOf(58);
                const length = Number(left.subarray(0, Math.max(0, colon)).toString());
                if (colon < 0 || left.length < colon + 1 + length) return;
                const message = JSON.parse(left.subarray(colon + 1, colon + 1 + length).toString());
                left = left.subarray(colon + 1 + length);
                if (Array.isArray(message)) this.replied(message[1], message[2]?.message, message[3]);
            }
        });
        await this.send("WebDriver:NewSession", { capabilities: { alwaysMatch: {} } });
        await this.send("WebDriver:SetTimeouts", { script: 60000, pageLoad: 60000 });
        return this;
    }

    send(command, params = {}) {
        return this.request((id) => {
            const text = Buffer.from(JSON.stringify([0, id, command, params]));
            this.socket.write(Buffer.concat([Buffer.from(`${text.length}:`), text]));
        });
    }

    async open(address, { width = 1280, height = 900 } = {}) {
        await this.send("WebDriver:SetWindowRect", { width, height });
        await this.send("WebDriver:Navigate", { url: "about:blank" });
        await this.send("WebDriver:Navigate", { url: address });
        return new FirefoxPage(this);
    }

    async close() {
        await this.finish(this.send("Marionette:Quit", { flags: ["eForceQuit"] }));
    }
}

class FirefoxPage extends AnyPage {
    constructor(browser) {
        super();
        this.browser = browser;
    }

    async value(expression) {
        const script = `const done = arguments[arguments.length - 1];
            Promise.resolve().then(() => (${expression})).then(
                (value) => done({ value: value === undefined ? null : value }),
                (error) => done({ error: String(error && error.stack || error) }));`;
        const { value: reply } = await this.browser.send("WebDriver:ExecuteAsyncScript", { script, args: [] });
        if (reply.error) throw new Error(reply.error);
        return reply.value;
    }

    async perform(type, actions, more = {}) {
        await this.browser.send("WebDriver:PerformActions", { actions: [{ type, id: type, actions, ...more }] });
    }

    async click(selector, { shift = false, button = "left" } = {}) {
        await this.there(selector);
        await this.value(`document.querySelector(${JSON.stringify(selector)}).scrollIntoView({ block: "center", behavior: "instant" })`);
        const { value } = await this.browser.send("WebDriver:FindElement", { using: "css selector", value: selector });
        const which = button === "right" ? 2 : 0;
        if (shift) await this.perform("key", [{ type: "keyDown", value: KEYS.Shift }]);
        await this.perform("pointer", [
            { type: "pointerMove", x: 0, y: 0, origin: { [ELEMENT]: value[ELEMENT] } },
            { type: "pointerDown", button: which }, { type: "pointerUp", button: which },
        ], { parameters: { pointerType: "mouse" } });
        if (shift) await this.perform("key", [{ type: "keyUp", value: KEYS.Shift }]);
    }

    async drag(from, to) {
        const [start, end] = [await this.middle(from), await this.middle(to)];
        const move = ({ x, y }) => ({ type: "pointerMove", x, y, origin: "viewport", duration: 50 });
        await this.perform("pointer", [
            move(start), { type: "pointerDown", button: 0 }, move({ x: Math.round((start.x + end.x) / 2), y: start.y }),
                move(end), { type: "pointerUp", button: 0 },
        ], { parameters: { pointerType: "mouse" } });
    }

    async key(key) {
        const value = KEYS[key] || key;
        await this.perform("key", [{ type: "keyDown", value }, { type: "keyUp", value }]);
    }

    async back() {
        await this.browser.send("WebDriver:Back");
    }

    async forward() {
        await this.browser.send("WebDriver:Forward");
    }

    troubles() {
        return [];
    }
}

// The browsers that are installed, each started.
export async function started(kinds = ["chromium", "firefox"]) {
    const found = kinds.map((kind) => [kind, installed(kind)]).filter(([, program]) => program);
    return Promise.all(found.map(([kind, program]) => (kind === "chromium" ? new Browser(program)
            : new Firefox(program).start())));
}
