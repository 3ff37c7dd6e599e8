// What a page says to a reader who hears it, and whether it can be seen: roles and names in
// Chromium's own accessibility tree, labels that have what is seen, one stop of Tab for a group,
// and contrasts of what is drawn.

// The roles of what one acts on, each of which needs a name.
const ACTED_ON = new Set(["button", "checkbox", "textbox", "spinbutton", "link", "toolbar", "progressbar",
        "DisclosureTriangle"]);

// The roles of what has to have a name too, since it stands for something.
const NAMED = new Set(["image", "img", "table", "region", "dialog"]);

// In the page: what is seen, and its contrasts. Colours are those that the browser computed.
const look = (isStart) => `(() => {
    const isStart = ${isStart};
    const parsed = (text) => {
        const numbers = (text.match(/[\\d.]+/g) || []).map(Number);
        const alpha = numbers[3] ?? 1;
        return text === "none" || numbers.length < 3 || alpha === 0 ? null : { rgb: numbers.slice(0, 3), alpha };
    };
    const light = (rgb) => rgb.map((part) => part / 255)
        .map((part) => (part <= 0.04045 ? part / 12.92 : ((part + 0.055) / 1.055) ** 2.4))
        .reduce((sum, part, place) => sum + part * [0.2126, 0.7152, 0.0722][place], 0);
    const contrast = (one, other) => {
        const [more, less] = [light(one), light(other)].sort((a, b) => b - a);
        return (more + 0.05) / (less + 0.05);
    };
    const ground = (element) => {
        for (let at = element; at; at = at.parentElement) {
            const colour = parsed(getComputedStyle(at).backgroundColor);
            if (colour && colour.alpha === 1) return colour.rgb;
        }
        return parsed(getComputedStyle(document.documentElement).backgroundColor)?.rgb || [255, 255, 255];
    };
    const isSeen = (element) => {
        const box = element.getBoundingClientRect();
        return box.width > 1 && box.height > 1 && getComputedStyle(element).visibility === "visible" && !element.closest(".heard");
    };
    const faults = [];
    let compared = 0;
    const enough = (what, one, other, least) => {
        compared += 1;
        if (!one || !other) faults.push(what + ": a colour is missing");
        else if (contrast(one, other) < least) faults.push(what + ": a contrast of " + contrast(one, other).toFixed(2) + ", and not " + least);
    };
    const named = (element) => element.tagName.toLowerCase() + "." + (element.getAttribute("class") || element.id || "") + " " + (element.textContent || "").trim().slice(0, 30);

    const walker = document.createTreeWalker(document.body, NodeFilter.SHOW_TEXT);
    for (let node = walker.nextNode(); node; node = walker.nextNode()) {
        const element = node.parentElement;
        if (!node.data.trim() || element.closest("svg, script, style, dialog:not([open])") || !isSeen(element)) continue;
        enough("the text of " + named(element), parsed(getComputedStyle(element).color)?.rgb, ground(element), 4.5);
    }
    for (const field of document.querySelectorAll("input[type=text]")) {
        if (isSeen(field)) enough("what is typed", parsed(getComputedStyle(field).color)?.rgb, ground(field), 4.5);
        if (isSeen(field)) enough("a placeholder", parsed(getComputedStyle(field, "::placeholder").color)?.rgb, ground(field), 4.5);
    }
    for (const element of document.querySelectorAll("button, input[type=text], .board, .right, #plays")) {
        if (!isSeen(element) || parseFloat(getComputedStyle(element).borderTopWidth) === 0) continue;
        enough("the border of " + named(element), parsed(getComputedStyle(element).borderTopColor)?.rgb, ground(element.parentElement), 3);
    }
    const paint = (selector, property) => {
        const element = document.querySelector(selector);
        return element ? parsed(getComputedStyle(element)[property])?.rgb : null;
    };
    for (const [what, one, other, least] of [
        ["an arc over its halo", paint("#board .way", "stroke"), paint("#board path.halo", "stroke"), 3],
        ["a ring that leaves over its halo", paint("#board .leaving", "stroke"), paint("#board circle.halo", "stroke"), 3],
        ["a ring that lands over its halo", paint("#board .leaving", "stroke"), paint("#board circle.halo", "stroke"), 3],
        ["the tip of an arc over the felt", paint("#board marker path", "fill"), paint("#board .felt", "fill"), 3],
        ["a checker over the felt", paint("#board rect.checker", "fill"), paint("#board .felt", "fill"), 3],
        ["a checker over an odd point", paint("#board rect.checker", "fill"), paint("#board .odd", "fill"), 3],
        ["a checker over an even point", paint("#board rect.checker", "fill"), paint("#board .even", "fill"), 3],
        ["the edge of a checker", paint("#board .checker", "stroke"), paint("#board rect.checker", "fill"), 3],
        ["a checker that is off over the tray", paint("#board rect.checker", "fill"), paint("#board .tray", "fill"), 3],
        ["a point's number", paint("#board .number", "fill"), paint("#board .frame", "fill"), 4.5],
        ["a bar", paint(".bar rect", "fill"), ground(document.querySelector("#chances")), 3],
        ["the edge of a die", paint(".die rect", "stroke"), paint(".die rect", "fill"), 3],
        ["the pips of a die", paint(".die circle", "fill"), paint(".die rect", "fill"), 3],
        ["a checker of a small picture", paint(".miniature circle", "fill"), ground(document.querySelector(".show")), 3],
        ["a point of a small picture", paint(".miniature line", "stroke"), ground(document.querySelector(".show")), 3],
    ]) if (isStart || (one && other)) enough(what, one, other, least);

    // what is focused by keyboard is seen to be
    const before = document.activeElement;
    for (const selector of ["#keep", "#counts", '[data-key="roll 21"]', "[data-key^='play ']", "#guess", "#promises", "#steering button", '[data-key="end training"]', '[data-key="look around"]', ".estimate input"]) {
        if (isStart && !document.querySelector(selector)) continue;
        const element = document.querySelector(selector);
        if (!isStart && (!element || !isSeen(element))) continue;
        element.focus({ focusVisible: true, preventScroll: true });
        const style = getComputedStyle(element);
        if (style.outlineStyle === "none" || parseFloat(style.outlineWidth) < 2) faults.push("no ring around " + selector);
        else enough("the ring around " + selector, parsed(style.outlineColor)?.rgb, ground(element.parentElement), 3);
    }
    const third = [...document.querySelectorAll('[data-key="point 3"]')].find(isSeen);
    third?.focus({ focusVisible: true, preventScroll: true });
    if (third) enough("the ring around a point", paint('[data-key="point 3"] .ground', "stroke"), paint("#board .felt", "fill"), 3);
    if (before && before !== document.body) before.focus({ preventScroll: true });
    else document.activeElement.blur();

    const ids = [...document.querySelectorAll("[id]")].map(({ id }) => id);
    for (const id of ids) if (ids.indexOf(id) !== ids.lastIndexOf(id)) faults.push("the id " + id + " stands twice");
    for (const [selector, what] of [["#grid [tabindex='0']", "rolls"], [".plays [tabindex='0']", "plays"]]) {
        const stops = document.querySelectorAll(selector).length;
        if (stops !== 1 && (isStart || document.querySelector(selector.split(" ")[0])?.childElementCount > 0)) faults.push(stops + " stops of Tab among the " + what);
    }

    // what is seen of each thing that one acts on, for its name
    let number = 0;
    const seen = [...document.querySelectorAll("button, input, select, [role=spinbutton], summary")].filter(isSeen).map((element) => {
        number += 1;
        element.setAttribute("data-audited", number);
        const copy = element.cloneNode(true);
        copy.querySelectorAll('[aria-hidden="true"], .heard, svg, option').forEach((part) => part.remove());
        const label = element.labels?.[0] ? element.labels[0].cloneNode(true) : null;
        label?.querySelectorAll("input, select").forEach((part) => part.remove());
        return { number, text: (copy.textContent + " " + (label ? label.textContent : "")).replace(/\\s+/g, " ").trim() };
    });
    return { faults, compared, seen };
})()`;

// The faults of an open page, in words, and how much was compared. At its start a roll of it is
// chosen, and positions are kept.
export async function audit(page, isStart = true) {
    const { faults, compared, seen } = await page.value(look(isStart));
    await page.send("DOM.enable");
    await page.send("Accessibility.enable");
    const { nodes } = await page.send("Accessibility.getFullAXTree");
    const told = nodes.filter(({ ignored }) => !ignored)
            .map(({ role, name, value, backendDOMNodeId, properties = [] }) => ({
        role: role?.value, value: value?.value, name: (name?.value || "").replace(/\s+/g, " ").trim(),
            node: backendDOMNodeId,
        properties: Object.fromEntries(properties.map((property) => [property.name, property.value?.value])),
    }));
    const roles = (role) => told.filter((node) => node.role === role);
    for (const { role, name } of told) {
        if ((ACTED_ON.has(role) || NAMED.has(role)) && !name) faults.push(`a ${role} has no name`);
    }
    for (const [role, count] of [["banner", 1], ["main", 1], ["contentinfo", 1], ["spinbutton", 6], ["toolbar", 2],
            ["status", 2]]) {
        if (!isStart && role !== "main") continue;
        if (roles(role).length !== count) faults.push(`${roles(role).length} of the role ${role}, and not ${count}`);
    }
    for (const { name, value } of roles("spinbutton")) {
        if (!/^Point [1-6]$/.test(name) || !/^\d+$/.test(value)) faults.push(`a point is called ${name}, ${value}`);
    }
    if (isStart && !roles("group").some(({ name }) =>
            name.startsWith("Home board"))) faults.push("the board has no name");
    const toolbars = roles("toolbar").map(({ name }) => name).sort().join();
    if (isStart && toolbars !== "Plays,The 21 rolls") faults.push(`the groups are called ${toolbars}`);
    const levels = roles("heading").map(({ properties }) => properties.level);
    if (levels.filter((level) => level === 1).length !== 1
            || levels.some((level, place) => level > (levels[place - 1] ?? 0)
        + 1)) faults.push(`headings of the levels ${levels}`);
    const pressed = told.filter(({ role, properties }) => role === "button" && properties.pressed === "true")
            .map(({ name }) => name);
    if (isStart && pressed.length !== 2) faults.push(`pressed are ${pressed.join("; ")}`);
    const names = [...roles("button"), ...roles("textbox")].map(({ role, name }) => `${role} ${name}`);
    for (const name of new Set(names)) {
        if (names.indexOf(name) !== names.lastIndexOf(name)) faults.push(`two are called ${name}`);
    }

    // what is seen on a thing is part of its name
    const { root } = await page.send("DOM.getDocument", { depth: -1 });
    const { nodeIds } = await page.send("DOM.querySelectorAll", { nodeId: root.nodeId, selector: "[data-audited]" });
    let labels = 0;
    for (const nodeId of nodeIds) {
        const { node } = await page.send("DOM.describeNode", { nodeId });
        const number = Number(node.attributes[node.attributes.indexOf("data-audited") + 1]);
        const { text } = seen.find((one) => one.number === number);
        const found = told.find((one) => one.node === node.backendNodeId);
        if (!found) faults.push(`what shows "${text}" isn't told`);
        else if (!found.name.toLowerCase()
                .includes(text.toLowerCase())) faults.push(`what shows "${text}" is called "${found.name}"`);
        else labels += 1;
    }
    return { faults, compared, labels, told: told.length };
}
