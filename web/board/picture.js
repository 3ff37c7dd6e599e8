// A picture of a position as a file with its own colours, and how files are saved.
import { lookedAt, VIEW } from "./drawing.js";
import { h } from "../tree.js";

const DRAWN = { width: VIEW.width, height: VIEW.height };
const LINE_HEIGHT = 34; // of a caption
const LINE_LETTERS = 52; // in a line of a caption
const DOTS = 2; // dots of a PNG picture for each unit of the drawing

// What the page's style says of these classes, in the light.
const LOOKS = {
    frame: { fill: "#5b3d2a" },
    "bar-wood": { fill: "#744f36" },
    hinge: { fill: "#c9a24b" },
    felt: { fill: "#2f6352" },
    tray: { fill: "#3a261a" },
    "wedge odd": { fill: "#a9613f" },
    "wedge even": { fill: "#1b4034" },
    checker: { fill: "#f4ead4", stroke: "#6d5233", "stroke-width": 2 },
    "under-tally": { fill: "#f4ead4" },
    tally: { fill: "#4b361f", "font-size": 24, "font-weight": 700, "text-anchor": "middle" },
    number: { fill: "#ecdcbc", "font-size": 22, "text-anchor": "middle" },
    caption: { fill: "#1f2a27", "font-size": 26, "text-anchor": "middle" },
};

// A text within markup, with a replacement sign for what can't stand there.
const escaped = (text) =>
    String(text).replace(/[&<>"']/g, (letter) => `&#${letter.codePointAt(0)};`)
    .replace(/[\p{Cc}\p{Cs}\ufffe\uffff]/gu, "\ufffd");

// A tree as text, with the looks of its classes.
function markup(tree) {
    if (typeof tree !== "object") return escaped(tree);
    const { class: name, ...rest } = tree.attributes;
    const attributes = Object.entries({ ...rest, ...LOOKS[name] })
        .filter(([, value]) => typeof value === "string" || typeof value === "number")
        .map(([key, value]) => ` ${key}="${escaped(value)}"`);
    return `<${tree.tag}${attributes.join("")}>${tree.children.map(markup).join("")}</${tree.tag}>`;
}

// The words of a caption in lines; a word that is longer than a line is cut.
export function linesOf(caption) {
    const words = caption.split(/\s+/)
        .flatMap((word) => word.match(new RegExp(`.{1,${LINE_LETTERS}}`, "gu")) || []);
    const lines = [];
    for (const word of words) {
        const longer = lines.length > 0 ? `${lines.at(-1)} ${word}` : "";
        if (longer !== "" && longer.length <= LINE_LETTERS) lines[lines.length - 1] = longer;
        else lines.push(word);
    }
    return lines;
}

// How large the picture of a caption is.
const sizeOf = (caption) => ({
    ...DRAWN, height: DRAWN.height + LINE_HEIGHT * (linesOf(caption).length + 1) + LINE_HEIGHT / 2,
});

// The picture as the text of an SVG file.
export function asSvg(points, caption = "") {
    const { width, height } = sizeOf(caption);
    const below = [...linesOf(caption), points.join()].map((line, place) =>
        h("text", { class: "caption", x: VIEW.x + width / 2,
            y: VIEW.y + DRAWN.height + LINE_HEIGHT * (place + 1) },
            line));
    const { attributes, children } = lookedAt(points, []);
    const { viewBox, class: small, ...names } = attributes;
    return `${markup(h("svg", {
        xmlns: "http://www.w3.org/2000/svg", width, height, viewBox: `${VIEW.x} ${VIEW.y} ${width} ${height}`,
        "font-family": "sans-serif", ...names,
    }, h("rect", { x: VIEW.x, y: VIEW.y, width, height, fill: "#fffefb" }), children, below))}\n`;
}

// The picture as a PNG file, which the browser draws from the other one.
async function asPng(document, window, points, caption = "") {
    const { width, height } = sizeOf(caption);
    const image = new window.Image();
    image.src = `data:image/svg+xml;charset=utf-8,${encodeURIComponent(asSvg(points, caption))}`;
    await image.decode();
    const canvas = document.createElement("canvas");
    [canvas.width, canvas.height] = [DOTS * width, DOTS * height];
    canvas.getContext("2d").drawImage(image, 0, 0, canvas.width, canvas.height);
    return new Promise((keep, refuse) => canvas.toBlob((blob) =>
        (blob ? keep(blob) : refuse(new Error("the browser drew nothing"))), "image/png"));
}

const SAVING = 60000; // milliseconds that a file is there for the browser to save

// Saves a file by a name, which it answers.
export function saveAs(document, window, file, name) {
    const link = document.createElement("a");
    link.href = window.URL.createObjectURL(file);
    link.download = name;
    link.click();
    window.setTimeout(() => window.URL.revokeObjectURL(link.href), SAVING);
    return name;
}

// Saves a picture of a position as a file, or says why it can't be.
export async function savePicture(document, window, kind, points, caption) {
    const told = document.getElementById("copied");
    try {
        const picture = kind === "png" ? await asPng(document, window, points, caption)
            : new window.Blob([asSvg(points, caption)], { type: "image/svg+xml" });
        const name = saveAs(document, window, picture, `bearoff-${points.join("-")}.${kind}`);
        told.textContent = `The picture is saved as ${name}.`;
    } catch (error) {
        told.textContent = `The browser makes no such picture: ${error.message}.`;
    }
}
