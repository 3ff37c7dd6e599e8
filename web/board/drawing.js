// The board: frame, bar, points, checkers, tray, dice, and the moves of a play.
import { inWords, MOST_CHECKERS, sumOf } from "../points.js";
import { joined } from "../texts.js";
import { button, h } from "../tree.js";

// What is drawn: the points are 600 wide, from 0 on, and the tray 100; the dice lie above them.
export const VIEW = { x: -32, y: -64, width: 748, height: 440 };
const VIEW_BOX = `${VIEW.x} ${VIEW.y} ${VIEW.width} ${VIEW.height}`;
const WIDTH = 100; // of a point
const TOP = -48; // of the felt
const FLOOR = 330;
const RADIUS = 30;
const TALLEST = 300; // of a stack
const POINTS = [6, 5, 4, 3, 2, 1];

const middle = (point) => (point === 0 ? 6.5 : 6 - point + 0.5) * WIDTH;

// How far apart the middles of a stack's checkers are.
const step = (count) => Math.min(2 * RADIUS, (TALLEST - 2 * RADIUS) / Math.max(1, count - 1));

const height = (place, count) => FLOOR - RADIUS - place * step(count);

const checker = (point, place, count, more = {}) => h("circle", {
    class: "checker", cx: middle(point), cy: height(place, count), r: RADIUS - 1.5, ...more,
});

const stack = (point, count) =>
    Array.from({ length: count }, (_, place) => checker(point, place, count));

// The checkers after some moves, each with a key in a fixed order, so that they glide.
function gliding(start, made) {
    const standing = start.map((count, place) =>
        Array.from({ length: count }, (_, number) => `checker ${place + 1}.${number}`));
    const keys = standing.flat();
    for (const [from, to] of made) {
        const key = standing[from - 1].pop();
        if (to > 0) standing[to - 1].push(key);
    }
    const drawn = new Map(standing.flatMap((stood, place) => stood.map((key, number) =>
        [key, checker(place + 1, number, stood.length, { "data-key": key })])));
    return h("g", { class: "glides", "data-key": "checkers" },
        keys.filter((key) => drawn.has(key)).map((key) => drawn.get(key)));
}

function tray(off) {
    const thick = 18;
    return h("g", {},
        h("rect", { class: "tray", x: 610, y: TOP, width: 84, height: FLOOR + 4 - TOP, rx: 4 }),
        Array.from({ length: off }, (_, place) => h("rect", {
            class: "checker", x: 6 * WIDTH + 20, y: FLOOR - (place + 1) * (thick + 2), width: 60,
            height: thick, rx: 5,
        })));
}

// The tip of an arc, by a name that stands once in the page.
const tip = (name) => h("defs", {}, h("marker", {
    id: name, viewBox: "0 0 10 10", refX: 7, refY: 5, markerWidth: 5, markerHeight: 5,
    orient: "auto",
}, h("path", { d: "M 0 0 L 10 5 L 0 10 z" })));

// The ways of a play's checkers, equal ones counted, short ones first.
function waysOf(moves) {
    const ways = [];
    for (const { from, to } of joined(moves)) {
        const alike = ways.find((way) => way.from === from && way.to === to);
        if (alike) alike.count += 1;
        else ways.push({ from, to, count: 1 });
    }
    return ways.sort((one, other) => (one.from - one.to) - (other.from - other.to));
}

// A play's ways as arrows within the felt, counted, with rings at their ends and a halo.
function arcs(points, moves, name) {
    const counts = [...points];
    let off = 0;
    return h("g", { class: "arcs", "aria-hidden": "true" }, waysOf(moves).map((way, number) => {
        const { from, to, count } = way;
        const ring = (kind, cx, cy) => ["halo", kind].map((layer) =>
            h("circle", { class: layer, cx, cy, r: RADIUS - 3 }));
        const rings = Array.from({ length: count }, () => {
            counts[from - 1] -= 1;
            const top = height(counts[from - 1], points[from - 1]);
            if (to === 0) return { top, low: FLOOR - 150 - 24 * off };
            counts[to - 1] += 1;
            return { top, low: height(counts[to - 1] - 1, Math.max(counts[to - 1], points[to - 1])) };
        });
        if (to === 0) off += 1;
        const [x, landed, y, low] = [middle(from), middle(to), rings[0].top, rings.at(-1).low];
        const high = Math.max(TOP + 20, Math.min(y, low) - 50 - 18 * number);
        const path = `M ${x} ${y} C ${x} ${high}, ${landed} ${high}, ${landed} ${low}`;
        const [across, over] = [(x + landed) / 2, (y + 6 * high + low) / 8];
        return h("g", { class: "arc" },
            rings.map(({ top, low: lands }) =>
                [ring("leaving", x, top), to > 0 && ring("landing", landed, lands)]),
            h("path", { class: "halo", d: path }),
            h("path", { class: "way", d: path, "marker-end": `url(#${name})` }),
            count > 1 && [h("circle", { class: "times", cx: across, cy: over, r: 17 }),
                h("text", { class: "times", x: across, y: over + 8 }, count)]);
    }));
}

// The count of a stack of over four, on its lowest checker, above all that is drawn.
const tallies = (points) => h("g", { class: "tallies", "aria-hidden": "true" },
    POINTS.filter((point) => points[point - 1] > 4).map((point) => [
        h("circle", { class: "under-tally", cx: middle(point), cy: height(0, 1), r: RADIUS - 10 }),
        h("text", { class: "tally", x: middle(point), y: height(0, 1) + 8 }, points[point - 1]),
    ]));

function wedge(point) {
    const left = (6 - point) * WIDTH;
    return h("polygon", {
        class: point % 2 === 0 ? "wedge even" : "wedge odd",
        points: `${left + 6},${FLOOR + 4} ${left + WIDTH - 6},${FLOOR + 4} ${left + WIDTH / 2},46`,
    });
}

// What stands on a point: its wedge and its checkers.
const standing = (points, point) => [wedge(point), stack(point, points[point - 1])];

function column(points, point, free, act) {
    const count = points[point - 1];
    return h("g", {
        class: "point", tabindex: 0, role: "spinbutton", "data-key": `point ${point}`,
        "data-point": point, "data-count": count,
        "aria-label": `Point ${point}`, "aria-valuenow": count, "aria-valuemin": 0,
        "aria-valuemax": count + free,
        "aria-valuetext": count === 1 ? "1 checker" : `${count} checkers`,
        click: (event) => act.add(point, event.shiftKey ? -1 : 1),
        contextmenu: (event) => { event.preventDefault(); act.add(point, -1); },
        keydown: (event) => {
            const next = { ArrowLeft: point + 1, ArrowRight: point - 1 }[event.key];
            const group = next
                && event.currentTarget.parentNode.querySelector(`[data-point="${next}"]`);
            if (group) group.focus();
            const isAlone = !event.ctrlKey && !event.metaKey && !event.altKey;
            if (isAlone && act.press(point, event.key)) event.preventDefault();
        },
    },
        h("rect", { class: "ground", x: (6 - point) * WIDTH + 2, y: 4, width: WIDTH - 4,
            height: FLOOR - 2, rx: 6 }),
        standing(points, point));
}

// The frame, the bar to the left with its hinges, and the felt.
const GROUND = [
    h("rect", { class: "frame", ...VIEW, rx: 12 }),
    h("rect", { class: "bar-wood", x: VIEW.x, y: VIEW.y, width: 24, height: VIEW.height, rx: 6 }),
    [20, 270].map((y) => h("rect", { class: "hinge", x: VIEW.x + 8, y, width: 8, height: 44, rx: 3 })),
    h("rect", { class: "felt", x: 0, y: TOP, width: 602, height: FLOOR + 4 - TOP, rx: 4 }),
];

const SPOTS = { 1: [4], 2: [0, 8], 3: [0, 4, 8], 4: [0, 2, 6, 8], 5: [0, 2, 4, 6, 8], 6: [0, 2, 3, 5, 6, 8] };

// The dice where they were thrown, above the points.
const thrown = (roll) => roll && h("g", { class: "thrown", "aria-hidden": "true" },
    roll.map((value, place) => h("g", {}, h("rect", {
        x: 248 + 58 * place, y: TOP + 3, width: 46, height: 46, rx: 9,
    }), SPOTS[value].map((spot) => h("circle", {
        cx: 260 + 58 * place + 11 * (spot % 3), cy: TOP + 15 + 11 * Math.floor(spot / 3), r: 4.4,
    })))));

const number = (x, ...text) =>
    h("text", { class: "number", x, y: 362, "aria-hidden": "true" }, ...text);

// The board to set up, with a play: `act` has add, press and clear.
export function board(points, moves, act) {
    const free = MOST_CHECKERS - sumOf(points);
    const small = (word, sign, point, count, isPossible) => button(`${word} ${point}`,
        h("span", { "aria-hidden": "true" }, sign), () => act.add(point, count), {
            "aria-disabled": isPossible ? null : "true",
            "aria-label": `${word} a checker ${count > 0 ? "to" : "from"} point ${point}`,
        });
    return h("div", { class: "board" },
        h("svg", { viewBox: VIEW_BOX, role: "group",
            "aria-label": "Home board, set up point by point" },
            tip("tip"),
            GROUND,
            POINTS.map((point) => column(points, point, free, act)),
            h("g", { role: "img", "aria-label": `${free} borne off` }, tray(free)),
            arcs(points, moves, "tip"),
            tallies(points),
            POINTS.map((point) => number(middle(point), point)),
            number(650, `off ${free}`)),
        h("div", { class: "steps" },
            POINTS.map((point) => h("span", {},
                small("Remove", "\u2212", point, -1, points[point - 1] > 0),
                small("Add", "+", point, 1, free > 0))),
            h("span", {}, button("clear", "Clear", () => act.clear(), { class: "clear" }))));
}

// The places of a board on which a play is made, in the order of Tab.
const STOPS = [...POINTS, 0];

// A ring around a checker that can move, or where it can go.
function mark(points, place, isSource, isTarget) {
    const count = place > 0 ? points[place - 1] : 0;
    if (isTarget) {
        return place === 0
            ? h("rect", { class: "spot", x: 615, y: TOP + 5, width: 74, height: FLOOR - 6 - TOP, rx: 4 })
            : h("circle", {
                class: "spot", cx: middle(place), cy: height(count, count + 1), r: RADIUS - 4,
            });
    }
    return isSource && h("circle", {
        class: "mark", cx: middle(place), cy: height(count - 1, count), r: RADIUS - 7,
    });
}

// What can be done next with a play that is made, in words.
export const nextOf = (play, begun) => (play ? `${play.text}?` : begun ? "Where to? A ring marks each place."
    : "Move a checker, or choose from the list.");

// What stands below a board where a play is guessed, and nothing is trained.
const guessing = (play, begun, act) => h("div", { class: "steering guessing" },
    h("p", { class: "hint" }, nextOf(play, begun)),
    play && button("made", `Play ${play.text}`, () => act.play(play.text), { class: "first" }),
    begun ? button("undo", "Undo", () => act.undo()) : button("set up", "Set up", () => act.close()));

// The board on which a play is made: `ways` of each checker, the one `picked`, Tab's `stop`.
export function played({ points, ways, play }, { picked, stop, begun, isAlone, roll, start = points, made = [] }, act) {
    const free = MOST_CHECKERS - sumOf(points);
    const to = ways.get(picked);
    const keys = STOPS.map((place) => (place === 0 ? "off" : `point ${place}`));
    const at = keys.includes(stop) ? stop : `point ${[...ways.keys()][0] || 6}`;
    const one = (place, ...drawn) => {
        const [isPicked, isTarget, isSource] =
            [place === picked, Boolean(to?.has(place)), place > 0 && ways.has(place)];
        const count = place > 0 ? points[place - 1] : free;
        const key = place === 0 ? "off" : `point ${place}`;
        const how = isPicked ? ", its checker is to move"
            : isTarget ? ", a checker can go there" : isSource && !to ? ", can move" : "";
        const many = count === 1 ? "1 checker" : `${count} checkers`;
        return h("g", {
            class: ["point to-play", isPicked && "picked", isTarget && "target", isSource && "source"]
                .filter(Boolean).join(" "),
            role: "button", tabindex: key === at ? 0 : -1, "data-key": key, "data-point": place,
            "data-count": count,
            "aria-label": `${place === 0 ? "Off" : `Point ${place}`}, ${many}${how}`,
            "aria-pressed": isSource ? String(isPicked) : null,
            "aria-disabled": isTarget || isSource ? null : "true",
            focusin: () => act.stop("board", key),
            click: () => act.touch(place),
            keydown: (event) => {
                const next = STOPS[STOPS.indexOf(place)
                    + ({ ArrowLeft: -1, ArrowRight: 1 }[event.key] || NaN)];
                const group = event.currentTarget.parentNode;
                if (next !== undefined) group.querySelector(`[data-point="${next}"]`).focus();
                else if (event.key === "Enter" || event.key === " ") {
                    if (play) act.play(play.text);
                    else act.touch(place);
                } else if (["Backspace", "Delete"].includes(event.key)) act.undo();
                else if (event.key === "Escape") act.leave();
                else return;
                event.preventDefault();
            },
        },
            h("rect", { class: "ground", x: (place === 0 ? 600 : (6 - place) * WIDTH) + 2, y: 4,
                width: WIDTH - 4, height: FLOOR - 2, rx: 6 }),
            drawn);
    };
    const marks = STOPS.map((place) => [
        mark(points, place, !to && place > 0 && ways.has(place), Boolean(to?.has(place))),
        place === picked && mark(points, place, true, false),
    ]);
    return h("div", { class: "board" }, h("svg", {
        viewBox: VIEW_BOX, role: "group", class: "to-play",
        "aria-label": "Home board, to make a play on",
        pointerdown: (event) => act.grab(event),
    },
        GROUND,
        POINTS.map((point) => one(point, wedge(point))),
        one(0, tray(free)),
        thrown(roll),
        gliding(start, made),
        h("g", { class: "marks", "data-key": "marks" }, marks),
        tallies(points),
        POINTS.map((point) => number(middle(point), point)),
        number(650, `off ${free}`),
        h("circle", { class: "dragged", cx: -100, cy: -100, r: RADIUS - 1.5 })),
    isAlone && guessing(play, begun, act));
}

// Which place of such a board is under a part of its width.
export const placeUnder = (part) =>
    (part < 0 || part > 1 ? null : STOPS[Math.min(6, Math.floor(part * 7))]);

const toldOf = (points) => `The board: ${inWords(points)}`;

// A small board to look at, or a large one whose checkers glide.
export function lookedAt(points, moves, name = "small-tip", roll = null, isLarge = false) {
    const free = MOST_CHECKERS - sumOf(points);
    return h("svg", {
        class: isLarge ? null : "small", viewBox: VIEW_BOX, role: "img", "aria-label": toldOf(points),
    },
        moves.length > 0 && tip(name),
        GROUND,
        POINTS.map((point) => h("g", {
            "data-point": point, "data-count": points[point - 1],
        }, isLarge ? wedge(point) : standing(points, point), number(middle(point), point))),
        tray(free),
        thrown(roll),
        isLarge && gliding(points, []),
        arcs(points, moves, name),
        tallies(points),
        isLarge && number(650, `off ${free}`));
}

// The board where one only looks.
export const watched = (points, moves, roll = null) =>
    h("div", { class: "board" }, lookedAt(points, moves, "tip", roll, true));

// Two plays beside each other, each on a board of its own: yours, and the best.
const besides = (plays, what) => h("div", { class: "board compared" },
    plays.map(({ points, text, moves, roll, lossText = null }, place) => {
        const whose = ["Yours", "Best"][place];
        return h("figure", { class: ["lost", "good"][place], "data-play": text },
            h("figcaption", {}, h("b", {}, whose), ` ${text} `,
                lossText && h("span", { class: "cost" }, `\u2212${lossText}`)),
            lookedAt(points, moves, `${whose.toLowerCase()}-${what}`, roll));
    }));

// Two plays of a position: the one that was chosen with what it loses, and the best.
export const compared = (points, chosen, { text, moves }, roll = null) =>
    besides([{ ...chosen, points, roll }, { text, moves, points, roll }], "tip");

// The best plays of a throw that follows them.
export const replied = (replies) => besides(replies, "reply-tip");

// A small picture of a position for a table.
export function miniature(points) {
    return h("svg", { class: "miniature", viewBox: "0 0 96 40", "aria-hidden": "true" },
        POINTS.flatMap((point, place) => {
            const count = points[point - 1];
            const apart = Math.min(5, 32 / Math.max(1, count - 1));
            return [
                h("line", { x1: 16 * place + 3, x2: 16 * place + 13, y1: 38.5, y2: 38.5 }),
                ...Array.from({ length: count }, (_, disc) =>
                    h("circle", { cx: 16 * place + 8, cy: 35 - apart * disc, r: 2.6 })),
            ];
        }));
}

// A die beside a text.
export const die = (value) => h("svg", { class: "die", viewBox: "0 0 20 20", "aria-hidden": "true" },
    h("rect", { x: 1, y: 1, width: 18, height: 18, rx: 4 }),
    SPOTS[value].map((spot) => h("circle", { cx: 5 + 5 * (spot % 3), cy: 5 + 5 * Math.floor(spot / 3), r: 1.7 })));

const heard = (text) => h("span", { class: "heard" }, text);

export const dicePicture = ([one, other]) => [
    heard(one === other ? `Double ${one}` : `${one} and ${other}`),
    h("span", { class: "dice", "aria-hidden": "true" }, die(one), die(other)),
];
