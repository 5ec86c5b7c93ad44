// How strong the heat maps of a page of `desk page` draw a group: a number a cell that is drawn, below 0 where the colour is that of figures below 0.
//
//     node strengths.js PAGE GROUP
"use strict";
const fs = require("fs");

const page = fs.readFileSync(process.argv[2], "utf8"), group = Number(process.argv[3]);
const data = page.match(/id="data">(.*?)<\/script>/s)[1], script = page.match(/<script>(.*?)<\/script>/s)[1];
const at = JSON.parse(data).groups.findIndex((one) => one.group === group), high = 18, still = () => {};

// A canvas keeps each rectangle; everything else of a document does nothing.
class Canvas {
  constructor() { this.clientWidth = 640; this.style = {}; this.drawn = []; }
  getContext() {
    const { drawn } = this;
    const known = { measureText: (text) => ({ width: text.length }), fillRect(x, y) { drawn.push({ y, colour: this.fillStyle, strength: this.globalAlpha }); } };
    return new Proxy(known, { get: (object, name) => name in object ? object[name] : still });
  }
}
const elements = { data: { textContent: data } };
const document = { documentElement: {}, getElementById: (name) => elements[name] ||= new Canvas(), querySelectorAll: () => [] };
const window = { devicePixelRatio: 1, addEventListener: still, matchMedia: () => ({ addEventListener: still }) };
new Function("document", "window", "getComputedStyle", script)(document, window, () => ({ getPropertyValue: (name) => name }));

["run 1", "run 2", "difference"].forEach((name, map) => {
  const cells = elements["heat" + (map + 1)].drawn.filter(({ y, colour }) => y === at * high && /^--(more|less)$/.test(colour));
  console.log([name + ":", ...cells.map(({ colour, strength }) => (colour === "--less" ? -strength : strength).toFixed(3))].join(" "));
});
