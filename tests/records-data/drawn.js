// Draws a page of tools/timeline without a browser, and prints what is drawn, its key, and the board that it shows behind a step of the
// first course: usage: node drawn.js PAGE WIDTH HEIGHT [STEP]
const fs = require("fs");
const page = fs.readFileSync(process.argv[2], "utf8"), wide = Number(process.argv[3]), high = Number(process.argv[4]);
const step = Number(process.argv[5] || 1) - 1;
const inner = id => new RegExp(`<script id="${id}"[^>]*>([^]*?)</script>`).exec(page)[1];
const script = /<script>\n("use strict";[^]*?)<\/script>/.exec(page)[1];
const rects = [], words = [], lines = [], boxes = [];
let path = [];
const pen = new Proxy({}, {
    get: (own, name) => {
        if (name === "fillRect") return (x, y, w, h) => rects.push([x, y, w, h, own.fillStyle]);
        if (name === "fillText") return (text, x, y) => words.push([text, x, y]);
        if (name === "strokeRect") return (x, y, w, h) => boxes.push([x, y, w, h, own.strokeStyle]);
        if (name === "moveTo") return (x, y) => { path = [x, y]; };
        if (name === "lineTo") return (x, y) => path.push(x, y);
        if (name === "stroke") return () => lines.push([...path, own.strokeStyle]);
        return name in own ? own[name] : () => {};
    },
    set: (own, name, value) => { own[name] = value; return true; },
});
const element = () => {
    const made = { style: {}, dataset: {}, addEventListener: () => {}, inner: [], className: "" };
    made.append = (...parts) => { made.inner.push(...parts); };
    Object.defineProperty(made, "textContent", { get: () => made.inner.map(it => typeof it === "string" ? it : it.textContent).join(""), set: text => { made.inner = text === "" ? [] : [text]; } });
    return made;
};
const canvas = Object.assign(element(), { clientWidth: wide, clientHeight: high, getContext: () => pen });
const byId = { data: { textContent: inner("data") }, texts: { textContent: inner("texts") } };
const document = {
    body: element(), createElement: element, querySelector: () => canvas,
    getElementById: id => byId[id] || (byId[id] = element()),
};
const window = Object.assign(element(), { devicePixelRatio: 1 });
const ends = "\ndraw();\nshow();\n";
if (!script.endsWith(ends)) throw new Error("the page's script ends otherwise");
const told = new Function("document", "window", "location", "performance", "requestAnimationFrame",
    script.slice(0, -ends.length) + `
draw();
const drawn = { texts: courses[0].texts, lefts: LEFT, lane: LANE, tops: courses.map(it => it.lanes.map((_, i) => laneTop(it, i))), per: scale() };
choose(courses[0], ${step});
return { ...drawn, keys: keys.inner.map(it => it.textContent), head: panel.inner[0].textContent, board: panel.inner.slice(1).map(it => it.inner.filter(it => it !== " ").map(it => [it.className, it.textContent])), why: why.inner.map(it => it.textContent) };
`)(document, window, { hash: "" }, { now: () => 0 }, () => {});
process.stdout.write(JSON.stringify({ ...told, rects, words, lines, boxes }));
