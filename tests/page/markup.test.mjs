// What the page's markup and style say without a script: the language, what is read aloud when it
// changes, the dialog and how it closes, what is promised there, and whether shapes and texts stand
// out from what is behind them, in the light, in the dark and on paper.
import { readdirSync, readFileSync } from "node:fs";
import { equal, pagePath, part } from "./given.mjs";
import { newDocument } from "./stand_in.mjs";

const webText = (name) => readFileSync(new URL(`../../web/${name}`, import.meta.url), "utf8");
const styleText = readdirSync(new URL("../../web/", import.meta.url), { recursive: true })
    .filter((name) => name.endsWith(".css")).map(webText).join("");
const onOneLine = (text) => text.replace(/\s+/g, " ").trim();

part("the language, and how wide a telephone takes the page", () => {
    const document = newDocument();
    equal("language", document.documentElement.getAttribute("lang"), "en");
    const content = document.querySelector('meta[name="viewport"]').getAttribute("content");
    equal("it can be made larger", content, "width=device-width, initial-scale=1");
    equal("light and dark", document.querySelector('meta[name="color-scheme"]').getAttribute("content"), "light dark");
});

part("what is read aloud when it changes", () => {
    const document = newDocument();
    const live = [...document.querySelectorAll("[role=status], [role=alert], [role=log], [aria-live]")]
        .map((element) => [element.id, element.getAttribute("role"), element.getAttribute("aria-live")]);
    equal("regions", live, [
        ["notice", "alert", null], ["trouble", "alert", null], ["said", "status", "polite"],
        ["why", "alert", null], ["copied", "status", null],
    ]);
    for (const [id] of live) {
        const hidden = document.getElementById(id).closest("[aria-hidden]");
        equal(`${id} isn't kept from a reader`, hidden, null);
    }
    // it is read though it isn't seen
    equal("what is said is heard alone", document.getElementById("said").getAttribute("class"), "heard");
    equal("and so still laid out", /\.heard \{[^}]*display: none/.test(styleText), false);
});

part("each dialog has a name and closes", () => {
    const dialogs = [...newDocument().querySelectorAll("dialog")];
    equal("dialogs", dialogs.map(({ id }) => id), ["proved"]);
    for (const dialog of dialogs) {
        const heading = dialog.querySelector(`#${dialog.getAttribute("aria-labelledby")}`);
        equal(`${dialog.id}: its name`, heading?.textContent, "What is promised, and what isn\u2019t");
        const forms = [...dialog.querySelectorAll('form[method="dialog"]')];
        equal(`${dialog.id}: a form that closes it`, forms.length, 1);
        const buttons = forms.flatMap((form) => [...form.querySelectorAll("button")]);
        equal(`${dialog.id}: by one button`, buttons.map((button) => [button.textContent, button.type]),
            [["Close", "submit"]]);
        equal(`${dialog.id}: it isn't open`, dialog.hasAttribute("open"), false);
    }
});

// What is promised, and what isn't, each in its own words.
const PROMISED = [
    "For every database or board file that the checker accepts, and every position within its pip bound",
    "the mean is the least mean number of rolls over all strategies, also those that look at the history",
    "the plays are legal and reach it, and a play's loss is the mean after it less the least mean after that roll",
    "the chances are those of the recorded plays",
    "where plays tie, the builder records the one to the position of lowest rank",
    "the effective pip count is exactly 49/6 of the mean, decimals are rounded to the nearest",
    "the wastage is that less the pip count",
    "The checker accepts exactly such databases, so whoever built one need not be trusted",
    "These are contracts of the functions that this page calls, proved for the code before it was compiled",
];
const NOT_PROMISED = [
    "Not proved are the definitions themselves", "the prover, the compiler",
        "the tool that narrows the module's addresses",
    "the browser, and this page's script, which keeps the bytes",
    "Each of the 36 throws counts equally",
    "The least mean is not always the best chance to be off within so many rolls",
    "nothing is said of winning chances or of an opponent",
];

part("what is promised, and what isn't", () => {
    const document = newDocument();
    document.body.innerHTML = webText("promises.html");
    const said = onOneLine(document.body.textContent);
    for (const words of [...PROMISED, ...NOT_PROMISED]) equal(words, said.includes(words), true);
    const [first, ...parts] = said.split("Not proved are");
    equal("what isn't promised stands behind what is", [
        parts.length, PROMISED.every((words) => first.includes(words)),
            NOT_PROMISED.some((words) => first.includes(words)),
    ], [1, true, false]);
});

part("the page that was made has them", () => {
    const page = readFileSync(pagePath(), "utf8");
    equal("the promises", page.includes(webText("promises.html")), true);
    equal("the language", /^<!doctype html>\n<html lang="en">/.test(page), true);
    equal("nothing was left to be put in", page.match(/<!--[A-Z]+-->|\/\*[A-Z]+\*\//g), null);
    const dialog = page.slice(page.indexOf("<dialog"), page.indexOf("</dialog>"));
    equal("they stand in the dialog", dialog.includes(webText("promises.html")), true);
});

// The colours of each way to see the page, by their names.
function schemesOf(style) {
    const colours = (text) => Object.fromEntries([...text.matchAll(/--([a-z-]+): (#[\da-f]{3,6});/g)]
        .map(([, name, value]) => [name, value]));
    const block = (before) => {
        const from = style.indexOf(":root {", style.indexOf(before));
        return style.slice(from, style.indexOf("}", from));
    };
    return {
        light: colours(block("")), dark: colours(block("@media (prefers-color-scheme: dark)")),
        paper: colours(block("@media print")),
    };
}

function lightOf(colour) {
    const digits = colour.length === 4 ? [...colour.slice(1)].map((digit) => digit + digit)
        : colour.slice(1).match(/../g);
    const [red, green, blue] = digits.map((digit) => parseInt(digit, 16) / 255)
        .map((share) => (share <= 0.04045 ? share / 12.92 : ((share + 0.055) / 1.055) ** 2.4));
    return 0.2126 * red + 0.7152 * green + 0.0722 * blue;
}

function contrast(one, other) {
    const [more, less] = [lightOf(one), lightOf(other)].sort((first, second) => second - first);
    return (more + 0.05) / (less + 0.05);
}

// What stands on what, and how much it has to stand out: texts, shapes that say something, and the
// points of the board, which are told by their numbers too.
const STANDS_OUT = [
    [4.5, ["ink on paper", "ink on card", "soft on paper", "soft on card", "ink on accent-soft", "bad on card",
            "bad on paper", "good on card", "good on paper", "accent on card", "card on accent", "tally on disc",
            "number on frame", "spot on die"]],
    [3, [
        "disc on felt", "disc on wedge-odd", "disc on wedge-even", "disc on frame-edge", "disc-edge on disc", "ring on halo",
            "ring on felt", "line on card", "line on paper", "accent on accent-soft",
    ]],
    [1.2, ["wedge-odd on felt", "wedge-even on felt"]],
];

part("shapes and texts stand out, in the light, in the dark and on paper", () => {
    const schemes = schemesOf(styleText);
    const names = Object.keys(schemes.light).sort();
    equal("how many colours", names.length, 27);
    for (const [scheme, colours] of Object.entries(schemes)) {
        equal(`${scheme}: each colour`, Object.keys(colours).sort(), names);
        for (const [least, pairs] of STANDS_OUT) {
            for (const pair of pairs) {
                const [over, under] = pair.split(" on ").map((name) => colours[name]);
                const found = over && under ? contrast(over, under) : 0;
                equal(`${scheme}: ${pair}, ${found.toFixed(2)} and not ${least}`, found >= least, true);
            }
        }
    }
});
