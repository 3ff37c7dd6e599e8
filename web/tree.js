// What the page draws, as plain trees of tags, attributes and texts.

const SVG = "http://www.w3.org/2000/svg";
const SVG_TAGS = new Set(
    ["svg", "g", "path", "circle", "rect", "text", "line", "polygon", "title", "defs", "marker"]);

const isThere = (child) => child !== null && child !== undefined && child !== false;

export function h(tag, attributes = {}, ...children) {
    return { tag, attributes, children: children.flat(Infinity).filter(isThere) };
}

// A button, by a key that no other thing on the page has.
export const button = (key, text, click, more = {}) =>
    h("button", { type: "button", "data-key": key, click, ...more }, text);

// A table: its attributes, its caption, the name of each column, which may be none, and its rows.
export const table = (words, caption, heads, rows) => h("table", words, caption,
    h("thead", {}, h("tr", {}, heads.map((name) =>
        (name ? h("th", { scope: "col" }, name) : h("td", {}))))),
    h("tbody", {}, rows));

// Beside a field, why what was typed there can't be taken; it is heard once it comes.
export const fault = (id, words) =>
    h("div", { role: "alert", id }, words && h("p", { class: "trouble" }, words));

// The attributes that an element was last given, among them its listeners.
const given = new WeakMap();

const isSet = (value) => isThere(value) && typeof value !== "function";

// The events that an element listens to, once; its last tree says what it does.
const listening = new WeakMap();

function listen(element, name) {
    const names = listening.get(element) || new Set();
    listening.set(element, names);
    if (names.has(name)) return;
    names.add(name);
    element.addEventListener(name, (event) => {
        const listener = given.get(element)[name];
        if (typeof listener === "function") listener(event);
    });
}

// Sets a tree's attributes and drops former ones; functions listen, false and null are none.
function dress(element, attributes) {
    const former = given.get(element);
    given.set(element, attributes);
    for (const name of new Set([...Object.keys(former || {}), ...Object.keys(attributes)])) {
        const [old, value] = [former?.[name], attributes[name]];
        if (typeof value === "function") listen(element, name);
        if (!isSet(value)) {
            if (isSet(old)) element.removeAttribute(name);
        } else if (value !== old) {
            element.setAttribute(name, value === true ? "" : String(value));
            // What is seen in a field, once it was edited
            if (name === "value") element.value = value;
        }
    }
}

// The element of a tree.
export function build(document, tree) {
    if (typeof tree !== "object") return document.createTextNode(String(tree));
    const element = SVG_TAGS.has(tree.tag)
        ? document.createElementNS(SVG, tree.tag)
        : document.createElement(tree.tag);
    dress(element, tree.attributes);
    for (const child of tree.children) element.appendChild(build(document, child));
    return element;
}

// Whether a node can become what a tree says.
function fits(node, tree) {
    const attributes = given.get(node);
    if (typeof tree !== "object" || !attributes) {
        return typeof tree !== "object" && !attributes && node.nodeType === 3;
    }
    return node.localName === tree.tag && attributes["data-key"] === tree.attributes["data-key"];
}

function change(document, node, tree) {
    if (typeof tree === "object") {
        dress(node, tree.attributes);
        fill(document, node, tree.children);
    } else if (node.data !== String(tree)) {
        node.data = String(tree);
    }
    return node;
}

function fill(document, parent, trees) {
    const former = [...parent.childNodes];
    const nodes = trees.map((tree) => {
        const place = former.findIndex((node) => fits(node, tree));
        return place < 0
            ? build(document, tree) : change(document, former.splice(place, 1)[0], tree);
    });
    for (const node of former) parent.removeChild(node);
    nodes.forEach((node, place) => {
        if (parent.childNodes[place] !== node) {
            parent.insertBefore(node, parent.childNodes[place] || null);
        }
    });
}

// Draws trees into an element; elements that stay keep focus, caret and scrolling.
export function draw(document, parent, ...trees) {
    const active = document.activeElement;
    fill(document, parent, trees.flat(Infinity).filter(isThere));
    if (active && active !== document.activeElement && parent.contains(active)) {
        active.focus({ preventScroll: true });
    }
}
