// Runs the script of a page of `desk page` over a stand-in for a browser's document, clicks, and compares what it draws and tells with the lists:
// heat maps of both runs by one scale and of their difference, a group's curve on a click, the timeline, what each run selects, the deltas with their group in
// each run; a sorted column keeps ties in the list's order and each row whole. With schedules, in watt-hours and on their lines, also the bars and the table of
// surplus and shortfall, and the schedule beside a curve.
//
//     node page.js PAGE FIGURES POINTS LOG RUNS DELTAS [REPORT SCHEDULES]        the lists as csv, figures with --all
"use strict";
const assert = require("assert");
const fs = require("fs");

const page = fs.readFileSync(process.argv[2], "utf8");
const [figures, points, log, runs, deltas, report] = process.argv.slice(3, 9).map((name) => {
  const [head, ...lines] = fs.readFileSync(name, "utf8").trimEnd().split("\n").map((line) => line.split(","));
  return lines.map((line) => { const row = {}; head.forEach((column, at) => row[column] = line[at]); return row; });
});

const plans = {};
const lodgings = process.argv[9] === undefined ? "" : fs.readFileSync(process.argv[9], "utf8");
for (const [, group, energies] of lodgings.matchAll(/^lodge group=(\d+) energies=(\S+)/gm)) plans[group] = energies.split(",").map(Number);

// ---- the stand-in

const plain = (html) => html.replace(/<[^>]*>/g, "").replace(/&lt;/g, "<").replace(/&gt;/g, ">").replace(/&quot;/g, '"').replace(/&amp;/g, "&");
const dataOf = (tag) => Object.fromEntries([...tag.matchAll(/data-(\w+)="([^"]*)"/g)].map((found) => [found[1], found[2]]));
const cellsOf = (html, name) => [...html.matchAll(new RegExp(`<${name}( [^>]*)?>(.*?)</${name}>`, "g"))].map((found) => ({ dataset: dataOf(found[1] || ""), className: ((found[1] || "").match(/class="([^"]*)"/) || ["", ""])[1], textContent: plain(found[2]) }));

class Head {
  constructor(cell) { this.textContent = cell.textContent; this.attributes = {}; }
  getAttribute(name) { return name in this.attributes ? this.attributes[name] : null; }
  setAttribute(name, value) { this.attributes[name] = value; }
  removeAttribute(name) { delete this.attributes[name]; }
}

function rowOf(tag, html) {
  const classes = new Set();
  const toggle = (name, on) => on ? classes.add(name) : classes.delete(name);
  return { cells: cellsOf(html, "td"), dataset: dataOf(tag), classes, classList: { toggle } };
}

function tableOf(html) {
  const [, head, body] = html.match(/<thead><tr>(.*?)<\/tr><\/thead><tbody>(.*?)<\/tbody>/s);
  const rows = [...body.matchAll(/<tr( [^>]*)?>(.*?)<\/tr>/gs)].map((found) => rowOf(found[1] || "", found[2]));
  // Rows that are put behind all others leave their old place.
  const append = (...moved) => { const left = rows.filter((row) => !moved.includes(row)); rows.splice(0, rows.length, ...left, ...moved); };
  return { tBodies: [{ rows, append }], tHead: { rows: [{ cells: cellsOf(head, "th").map((cell) => new Head(cell)) }] } };
}

// What is drawn on a canvas: each rectangle and each corner of a line with its colour, a colour being its name in the page's style.
class Canvas {
  constructor(width) { this.clientWidth = width; this.style = {}; this.clear(); }
  clear() { this.rectangles = []; this.corners = []; }
  scrollIntoView() {}
  getContext() {
    const canvas = this;
    const still = () => {};
    return {
      globalAlpha: 1, fillStyle: "", strokeStyle: "",
      setTransform: still, fillText: still, setLineDash: still, beginPath: still, stroke: still,
      clearRect() { canvas.clear(); },
      measureText: (text) => ({ width: 6 * text.length }),
      fillRect(x, y, wide, high) { canvas.rectangles.push({ x, y, wide, high, colour: this.fillStyle, strength: this.globalAlpha }); },
      lineTo(x, y) { canvas.corners.push({ x, y, colour: this.strokeStyle }); },
    };
  }
}

const width = 640;
const tables = [...page.matchAll(/<table.*?<\/table>/gs)].map((found) => tableOf(found[0]));
const elements = { data: { textContent: page.match(/id="data">(.*?)<\/script>/s)[1] }, which: {}, told: {} };
for (const name of ["heat1", "heat2", "heat3", "curve", "time"]) elements[name] = new Canvas(width);
if (page.includes('id="deviation"')) Object.assign(elements, { deviation: new Canvas(width), deviated: {} });
const groupRows = () => tables.flatMap((table) => table.tBodies[0].rows).filter((row) => row.dataset.group !== undefined);
const nobody = { addEventListener() {} };
const document = {
  documentElement: {},
  getElementById: (name) => elements[name],
  querySelectorAll: (what) => what === "table" ? tables : what === "tr[data-group]" ? groupRows() : assert.fail(what),
};
const window = { devicePixelRatio: 1, matchMedia: () => nobody, ...nobody };
const getComputedStyle = () => ({ getPropertyValue: (name) => name });
const script = page.match(/<script>(.*?)<\/script>/s)[1];
new Function("document", "window", "getComputedStyle", script)(document, window, getComputedStyle);

// ---- figures: by run, group and quarter hour

const wanted = [{}, {}];
for (const { run, quarter, group, figure } of figures) (wanted[run - 1][group] ||= [])[quarter - 1] = Number(figure);
const groups = Object.keys(wanted[0]).filter((group) => wanted.some((run) => run[group].some((figure) => figure !== 0)));
const Q = figures.length / 128;

// ---- heat maps

// The rows that each map draws: run 1, run 2, and the difference.
const maps = [wanted[0], wanted[1], Object.fromEntries(groups.map((group) => [group, wanted[1][group].map((figure, q) => figure - wanted[0][group][q])]))];
const high = groups.length > 40 ? 8 : groups.length > 12 ? 11 : 18;

// The cells of a group's row in a map, each with the size of the figure and how strong it is drawn.
function cellsOn(map, group, at) {
  const left = 26, cells = Math.min(Q, width - left), size = (width - left) / cells;
  const rectangles = elements["heat" + (map + 1)].rectangles.filter(({ colour, y }) => (colour === "--more" || colour === "--less") && y === at * high);
  const drawn = new Map(rectangles.map((one) => [Math.round((one.x - left) / size), one]));
  const row = maps[map][group], strengths = [];
  for (let cell = 0; cell < cells; cell++) {
    const part = row.slice(Math.floor(cell * Q / cells), Math.floor((cell + 1) * Q / cells));
    const figure = part.reduce((best, one) => Math.abs(one) > Math.abs(best) ? one : best, 0);
    const one = drawn.get(cell);
    assert.strictEqual(one === undefined, figure === 0, `heat map ${map + 1}, group ${group}, cell ${cell}`);
    if (one === undefined) continue;
    assert.strictEqual(one.colour, figure > 0 ? "--more" : "--less");
    assert(one.strength > 0 && one.strength <= 1);
    strengths.push([Math.abs(figure), one.strength]);
    drawn.delete(cell);
  }
  assert.strictEqual(drawn.size, 0);
  return strengths;
}

// By one scale: the stronger the larger, alike where they are alike; the largest is full where they differ.
function oneScale(strengths, rows, name) {
  strengths.sort((a, b) => a[0] - b[0]);
  for (let i = 1; i < strengths.length; i++) assert.strictEqual(Math.sign(strengths[i][1] - strengths[i - 1][1]), Math.sign(strengths[i][0] - strengths[i - 1][0]), name);
  const most = rows.flat().reduce((best, figure) => Math.max(best, Math.abs(figure)), 0);
  if (strengths.length > 1 && strengths[0][0] < most) assert(Math.abs(strengths[strengths.length - 1][1] - 1) < 1e-9, name);
}

function heats() {
  groups.forEach((group, at) => {
    const [first, second, difference] = [0, 1, 2].map((map) => cellsOn(map, group, at));
    oneScale([...first, ...second], [maps[0][group], maps[1][group]], `both runs of group ${group}`);
    oneScale(difference, [maps[2][group]], `the difference of group ${group}`);
  });
  for (const name of ["heat1", "heat2", "heat3"]) {
    const drawn = elements[name].rectangles.filter(({ colour }) => colour === "--more" || colour === "--less");
    assert(drawn.every(({ y }) => y % high === 0 && y / high < groups.length));
  }
}

// ---- a group's curve

const digits = (text) => text.replace(/\u202f/g, "");

function curve(group) {
  assert.strictEqual(elements.which.textContent, "group " + group);
  const marked = groupRows().filter((row) => row.classes.has("picked")).map((row) => row.dataset.group);
  assert.deepStrictEqual(marked, Array(report === undefined ? 1 : 2).fill(String(group)));
  const corners = elements.curve.corners, plan = plans[group];
  assert.strictEqual(corners.length, (plan === undefined ? 4 : 6) * Q);
  const size = (corners[2 * Q - 1].x - corners[0].x) / Q;
  const all = [...wanted[0][group], ...wanted[1][group], ...plan || []];
  const low = Math.min(0, ...all), high = Math.max(0, ...all);
  const zero = heightOf(corners, all, low, high);
  for (let q = 0; q < Q; q++) {
    for (let run = 0; run < all.length / Q; run++) {
      const [begin, end] = corners.slice(2 * (run * Q + q), 2 * (run * Q + q) + 2);
      assert.strictEqual(begin.colour, ["--more", "--second", "--good"][run]);
      assert(Math.abs(begin.y - zero(all[run * Q + q])) < 1e-6 && begin.y === end.y, `curve of group ${group}, quarter hour ${q + 1}`);
      assert(Math.abs(end.x - begin.x - size) < 1e-6);
    }
    elements.curve.onmousemove({ offsetX: corners[0].x + (q + 0.5) * size });
    const planned = plan === undefined ? "" : `; schedule ${plan[q]} Wh`;
    assert.strictEqual(digits(elements.told.textContent), ` · quarter hour ${q + 1}: ${wanted[0][group][q]} and ${wanted[1][group][q]} Wh${planned}`);
  }
  elements.curve.onmousemove({ offsetX: 0 });
  assert.strictEqual(elements.told.textContent, "");
}

// The height of a figure, by two that are drawn: heights are as far apart as figures are, and larger is higher.
function heightOf(corners, all, low, high) {
  const a = all.indexOf(Math.min(...all)), b = all.indexOf(Math.max(...all));
  const slope = all[a] === all[b] ? 0 : (corners[2 * b].y - corners[2 * a].y) / (all[b] - all[a]);
  assert(all[a] === all[b] || slope < 0);
  assert(high > low);
  return (figure) => corners[2 * a].y + slope * (figure - all[a]);
}

// ---- surplus and shortfall

const sides = ["surplus", "shortfall"];

// The reports of a group, run 1 and run 2, in the list's order of groups.
function reports() {
  const [first, second] = ["1", "2"].map((run) => report.filter((row) => row.run === run));
  return first.map((row, at) => { assert.strictEqual(row.group, second[at].group); return [row, second[at]]; });
}

// A bar for each sum that is not 0: surplus to the right of the line, shortfall to its left, as long as the sum but a pixel at least; run 1 above run 2, which is fainter.
function bars() {
  const drawn = elements.deviation.rectangles.filter(({ colour }) => colour === "--more" || colour === "--less");
  const [line] = elements.deviation.rectangles.filter(({ colour, wide }) => colour === "--faint" && wide === 1);
  const rows = reports(), sums = rows.flatMap((runs, at) => runs.flatMap((row, run) => sides.map((side) => ({ at, run, side, sum: Number(row[side]) })))).filter(({ sum }) => sum !== 0);
  assert.strictEqual(drawn.length, sums.length);
  const most = (side) => Math.max(0, ...sums.filter((one) => one.side === side).map(({ sum }) => sum));
  const size = (width - 38) / Math.max(1, most("surplus") + most("shortfall")), step = rows.length > 24 ? 17 : 25;
  sums.forEach(({ at, run, side, sum }, place) => {
    const { x, y, wide, high, colour, strength } = drawn[place], over = side === "surplus";
    assert.deepStrictEqual([colour, strength], [over ? "--more" : "--less", run ? 0.5 : 1], `${side} of ${rows[at][0].group}`);
    assert(Math.abs(wide - Math.max(1, sum * size)) < 1e-6 && Math.abs((over ? x : x + wide) - line.x) < 1e-6, `${side} of ${rows[at][0].group}`);
    assert(y >= at * step && y + high <= (at + 1) * step && Math.floor((y - at * step) / (high + 3)) === run);
  });
  return step;
}

// What is told of a group, and its curve on a click where it has one.
function deviations() {
  const step = bars();
  reports().forEach((runs, at) => {
    const middle = { offsetY: (at + 0.5) * step }, before = elements.which.textContent, group = runs[0].group;
    elements.deviation.onmousemove(middle);
    assert.strictEqual(digits(elements.deviated.textContent), ` · group ${group}: ${runs.map((row) => `run ${row.run} surplus ${row.surplus}, shortfall ${row.shortfall}`).join("; ")} Wh`);
    elements.deviation.onclick(middle);
    assert.strictEqual(elements.which.textContent, groups.includes(group) ? "group " + group : before);
  });
  elements.deviation.onmousemove({ offsetY: report.length * step });
  assert.strictEqual(elements.deviated.textContent, "");
  const shown = tables[1].tBodies[0].rows.map((row) => row.cells.map((cell) => cell.dataset.n === undefined ? cell.textContent : cell.dataset.n));
  assert.deepStrictEqual(shown, reports().map(([first, second]) => [first.group, first.lodged, first.schedule, ...[first, second].flatMap((row) => sides.map((side) => row[side]))]));
}

// ---- the timeline

function timeline() {
  const dots = elements.time.rectangles.filter(({ colour }) => colour === "--more" || colour === "--second");
  assert.strictEqual(dots.length, log.length);
  log.forEach((row, at) => {
    assert.strictEqual(dots[at].colour, row.run === "1" ? "--more" : "--second");
    log.slice(0, at).forEach((other, before) => {
      if (other.run === row.run) assert.strictEqual(Math.sign(dots[at].x - dots[before].x), Math.sign(row.day - other.day));
      assert.strictEqual(Math.sign(dots[at].y - dots[before].y), Math.sign(row.point - other.point));
    });
  });
}

// ---- sorting

const valueOf = (cell) => cell.dataset.n === undefined ? cell.textContent : BigInt(cell.dataset.n);
const compare = (a, b) => a < b ? -1 : a > b ? 1 : 0;

function sorting(table) {
  const list = [...table.tBodies[0].rows], heads = table.tHead.rows[0].cells;
  const told = list.map((row) => row.cells.map((cell) => cell.textContent));
  heads.forEach((head, column) => [1, -1, 1].forEach((way) => {
    head.onclick();
    const order = list.map((row, at) => [valueOf(row.cells[column]), at]).sort((a, b) => way * compare(a[0], b[0]) || a[1] - b[1]).map(([, at]) => at);
    assert(table.tBodies[0].rows.length === list.length && order.every((at, place) => table.tBodies[0].rows[place] === list[at]), `sorted by ${head.textContent}`);
    const marks = heads.map((other) => other.getAttribute("aria-sort"));
    assert.deepStrictEqual(marks, heads.map((other) => other === head ? (way === 1 ? "ascending" : "descending") : null));
  }));
  assert.deepStrictEqual(list.map((row) => row.cells.map((cell) => cell.textContent)), told);
}

// A list's rows, in its order and in any: the mark of what counts stands beside its version.
function listed(table, list) {
  const shown = table.tBodies[0].rows.map((row) => row.cells.map((cell) => cell.dataset.n === undefined ? cell.textContent : cell.dataset.n).join());
  assert.deepStrictEqual([...shown].sort(), list.map((row) => Object.values(row).join()).sort());
  return shown;
}

// ---- what each run selects

// A paragraph a run: whether it is closed and issued, how many of its versions are settled; when that was.
function told({ run, closed, closed_day, closed_date, issued, issued_day, issued_date, selected, settled }) {
  const state = issued === "yes" ? "issued" : closed === "yes" ? "closed, not issued" : "not closed";
  const many = selected === "0" ? "no version selected" : `${settled} of ${selected} selected version${selected === "1" ? "" : "s"} settled`;
  const day = (number, date) => `day ${number}${date === "" ? "" : ` (${date})`}`;
  const next = issued === "yes" ? `, issued on ${day(issued_day, issued_date)}</span>` : `; to send its statuses: issue run=${run} day=`;
  const [line] = page.match(new RegExp(`^<p>run ${run} is .*</p>$`, "m"));
  assert(line.startsWith(`<p>run ${run} is ${state}: ${many}`), line);
  assert.strictEqual(line.includes("<br>"), closed === "yes", line);
  if (closed === "yes") assert(line.includes(`<br><span class="faint">closed on ${day(closed_day, closed_date)}${next}`), line);
}

function seriesOf({ kind, area, partner }) {
  const words = { exchange: `area ${area} with ${partner === "0" ? "outside" : "area " + partner}`, "group-sum": `area ${area} group ${partner}`, "operator-sum": `group ${partner}` };
  return `${kind} ${words[kind] || "area " + area}`;
}

// A row a point, by the list's marks: number, series, in which runs it is settled, version and status of each run, the other versions.
function selectedRow(number) {
  const rows = points.filter((row) => row.point === number);
  const picked = ["run_1", "run_2"].map((run) => rows.find((row) => row[run] === "yes"));
  const settled = picked.map((row) => row !== undefined && row.settled === "yes");
  const word = picked[1] === undefined ? "-" : settled[0] && settled[1] ? "both" : settled[0] ? "run 1" : settled[1] ? "run 2" : "no";
  const status = (row, run) => run === 1 && row === picked[0] ? row.status + ", as run 1" : row.status;
  const cells = picked.flatMap((row, run) => row === undefined ? ["", ""] : [row.version, status(row, run)]);
  const others = rows.filter((row) => row.version !== "" && !picked.includes(row)).map((row) => `${row.version} ${row.status}`).reverse();
  return [number, seriesOf(rows[0]), word, ...cells, others.join(", ")];
}

// ---- deltas

// Run 1 and run 2 of each delta, in the list's order.
function bothRuns() {
  const [first, second] = ["1", "2"].map((run) => deltas.filter((row) => row.run === run));
  return first.map((row, at) => { assert.strictEqual(row.area, second[at].area); return [row, second[at]]; });
}

const whose = ({ area }) => area === "0" ? "T" : "area " + area;

// A row a delta: its group in each run, that of run 2 marked where it is another; its sums and their difference.
function deltaRow([first, second]) {
  const numbers = [first.area, first.group, second.group, first.delta, second.delta, String(BigInt(second.delta) - BigInt(first.delta))];
  return { name: whose(first), numbers, marks: ["word", "", first.group === second.group ? "" : "moved", "", "", ""] };
}

// Above the groups an item for each delta that has two groups, and nothing where there is none.
function movedItems() {
  const [, items] = page.match(/<h2>Deltas with another group in run 2<\/h2><div class="scroll short"><ol class="calls" id="moved">\n(.*?)<\/ol>/s) || [];
  const shown = items === undefined ? [] : items.trimEnd().split("\n").map((item) => plain(item).replace(/^day \d+( \([\d-]+\))?: /, "").replace(/(\d) (?=\d{3})/g, "$1"));
  const moved = bothRuns().filter(([first, second]) => first.group !== second.group);
  assert.deepStrictEqual(shown, moved.map(([first, second]) => `${whose(first)}, run 2: group ${second.group} in the place of ${first.group}, which run 1 keeps; ${second.delta} Wh`));
  assert.strictEqual(items === undefined && !page.includes('id="moved"'), moved.length === 0);
}

assert.strictEqual(tables.length, report === undefined ? 5 : 6);
const [deltaTable, selectedTable, pointTable, logTable] = tables.slice(-4);
const deltaCells = deltaTable.tBodies[0].rows.map(({ cells }) => ({ name: cells[0].textContent, numbers: cells.map((cell) => cell.dataset.n), marks: cells.map((cell) => cell.className) }));
assert.deepStrictEqual(deltaTable.tHead.rows[0].cells.map((head) => head.textContent), ["delta", "group in run 1", "group in run 2", "run 1", "run 2", "difference"]);
assert.deepStrictEqual(deltaCells, bothRuns().map(deltaRow));
for (const { cells } of deltaTable.tBodies[0].rows) for (const cell of cells.slice(1)) assert.strictEqual(cell.textContent.replace(/ /g, ""), cell.dataset.n);
movedItems();
assert.deepStrictEqual(selectedTable.tBodies[0].rows.map((row) => row.cells.map((cell) => cell.textContent)), [...new Set(points.map((row) => row.point))].map(selectedRow));
for (const [table, list] of [[pointTable, points], [logTable, log]]) assert.deepStrictEqual(listed(table, list), list.map((row) => Object.values(row).join()));
runs.forEach(told);
timeline();
heats();
if (groups.length > 0) curve(Number(groups[0]));
if (report !== undefined) deviations();
const some = groups.filter((_, at) => at % Math.ceil(groups.length / 8) === 0);
for (const group of some) {
  groupRows().find((row) => row.dataset.group === group).onclick();
  curve(Number(group));
}
for (const group of some) for (const name of ["heat1", "heat2", "heat3"]) {
  elements[name].onclick({ offsetY: (groups.indexOf(group) + 0.5) * high });
  assert.strictEqual(elements.which.textContent, "group " + group);
}
elements.heat1.onclick({ offsetY: groups.length * high + 1 });
tables.forEach(sorting);
listed(pointTable, points);
listed(logTable, log);
