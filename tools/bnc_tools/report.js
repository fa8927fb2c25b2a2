"use strict";
// The page's script: the tree that folds, and the arithmetic of each derived line. All numbers are exact fractions of whole numbers (BigInt).

const data = JSON.parse(document.getElementById("data").textContent);
const SIGNS = { G: "\u2265", L: "\u2264", E: "=" };
const WORDS = {
  s: ["split", "split in two"], b: ["bound", "closed by its bound"], i: ["infeasible", "closed: it has no feasible point"],
  e: ["empty box", "closed: two of its bounds cross"], o: ["line", "a line of another kind"], a: ["seen", "a line that was shown above"],
};

// ---- exact numbers

function gcd(a, b) { while (b) { [a, b] = [b, a % b]; } return a < 0n ? -a : a; }
function fraction(n, d) { const g = gcd(n, d) || 1n; return { n: n / g, d: d / g }; }
function parse(word) { const [n, d] = word.split("/"); return { n: BigInt(n), d: BigInt(d || 1) }; }
function plus(a, b) { return fraction(a.n * b.d + b.n * a.d, a.d * b.d); }
function times(a, b) { return fraction(a.n * b.n, a.d * b.d); }
function order(a, b) { const c = a.n * b.d - b.n * a.d; return c < 0n ? -1 : c > 0n ? 1 : 0; }
function spelt(a) { return a.d === 1n ? `${a.n}` : `${a.n}/${a.d}`; }
function floor(a) { const q = a.n / a.d; return a.n < 0n && a.n % a.d ? q - 1n : q; }
function rounded(a, up) { return { n: up ? -floor({ n: -a.n, d: a.d }) : floor(a), d: 1n }; }
const ZERO = { n: 0n, d: 1n };

// ---- lines of the certificate

function flat(list) {
  const terms = [];
  for (let i = 0; i < list.length; i += 2) terms.push([list[i], parse(list[i + 1])]);
  return terms;
}

// Where a derived line stands in the page's list, or -1.
function placeOf(number) {
  if (!data.numbers) return number - data.given < data.lines.length ? number - data.given : -1;
  let low = 0, high = data.numbers.length - 1;
  while (low <= high) {
    const middle = (low + high) >> 1;
    if (data.numbers[middle] === number) return middle;
    if (data.numbers[middle] < number) low = middle + 1; else high = middle - 1;
  }
  return -1;
}

function numberAt(place) { return data.numbers ? data.numbers[place] : data.given + place; }

// The line of a number: label, name, sense, right side, terms, and for a derived one its reason. Null: it was left out of the page.
function lineOf(number) {
  if (number < data.given) {
    const [name, sense, side, terms] = data.rows[number];
    return { number, label: data.labels[number], name, sense, side: parse(side), terms: flat(terms), reason: null };
  }
  const place = placeOf(number);
  if (place < 0) return null;
  const words = data.lines[place].split(" ");
  const line = { number, label: words[0], name: words[0], sense: words[1], side: parse(words[2]), terms: flat(data.tables[+words[3]]), reason: words[4] };
  const rest = words.slice(5);
  line.parts = [];
  if (line.reason === "lin" || line.reason === "rnd") {
    for (let i = 0; i < rest.length; i += 2) line.parts.push([+rest[i], parse(rest[i + 1])]);
  } else {
    line.parts = rest.map(word => [+word, null]);
  }
  return line;
}

function fileLine(number) {
  if (number < data.given) return null;
  return data.fileLine !== null ? data.fileLine + number - data.given : data.fileLines[number - data.given];
}

// ---- elements

function make(tag, attributes, ...children) {
  const element = document.createElement(tag);
  for (const [name, value] of Object.entries(attributes || {})) {
    if (name.startsWith("on")) element.addEventListener(name.slice(2), value); else element.setAttribute(name, value);
  }
  element.append(...children.filter(child => child !== null && child !== undefined));
  return element;
}

function svg(tag, attributes, ...children) {
  const element = document.createElementNS("http://www.w3.org/2000/svg", tag);
  for (const [name, value] of Object.entries(attributes || {})) {
    if (name.startsWith("on")) element.addEventListener(name.slice(2), value); else element.setAttribute(name, value);
  }
  element.append(...children);
  return element;
}

function termsText(terms) {
  if (!terms.length) return "0";
  return terms.map(([column, value], at) => {
    const negative = value.n < 0n, size = negative ? { n: -value.n, d: value.d } : value;
    const sign = at === 0 ? (negative ? "-" : "") : (negative ? " - " : " + ");
    return sign + (size.n === 1n && size.d === 1n ? "" : spelt(size) + " ") + data.columns[column];
  }).join("");
}

function rowText(row) { return `${termsText(row.terms)} ${SIGNS[row.sense]} ${spelt(row.side)}`; }

// A row's text; a long one is cut, and opens.
function rowElement(row, most = 16) {
  if (row.terms.length <= most) return make("span", { class: row.terms.length < 2 ? "row short" : "row" }, rowText(row));
  const short = termsText(row.terms.slice(0, most - 4));
  const element = make("span", { class: "row" }, `${short} + .. `);
  element.append(make("button", { class: "link", onclick: () => element.replaceChildren(rowText(row)) }, `all ${row.terms.length} terms`),
    ` ${SIGNS[row.sense]} ${spelt(row.side)}`);
  return element;
}

function lineLink(number, text) {
  if (number < data.given) return make("span", {}, text);
  return make("button", { class: "link", onclick: () => openLine(number) }, text);
}

// A line's label, and for a row of the model its name.
function nameOf(number) {
  const line = lineOf(number);
  if (!line) return `line ${number}`;
  return number < data.given && line.name !== line.label && !/^(lower|upper) bound of /.test(line.name) ? `${line.label} ${line.name}` : line.label;
}

// ---- sums

function isAbsurd(row) {
  if (row.terms.length) return false;
  const c = order(row.side, ZERO);
  return row.sense === "G" ? c > 0 : row.sense === "L" ? c < 0 : c !== 0;
}

// The sense of a combination: that of the signs, or the line's own where all rows are equations.
function senseOf(line) {
  for (const [number, factor] of line.parts) {
    const row = lineOf(number);
    if (row.sense !== "E" && factor.n !== 0n) return (row.sense === "G") === (factor.n > 0n) ? "G" : "L";
  }
  return line.sense;
}

function sumOf(line) {
  const sums = new Map();
  let side = ZERO;
  for (const [number, factor] of line.parts) {
    const row = lineOf(number);
    side = plus(side, times(factor, row.side));
    for (const [column, value] of row.terms) sums.set(column, plus(sums.get(column) || ZERO, times(factor, value)));
  }
  const terms = [...sums].filter(([, value]) => value.n !== 0n).sort((a, b) => a[0] - b[0]);
  return { sense: senseOf(line), side, terms };
}

function sameTerms(a, b) {
  return a.length === b.length && a.every(([column, value], at) => column === b[at][0] && order(value, b[at][1]) === 0);
}

function asTight(row, line) {
  const c = order(row.side, line.side);
  return line.sense === "G" ? c >= 0 : line.sense === "L" ? c <= 0 : c === 0;
}

// Why a row shows a line, as a sentence; null where it doesn't.
function domination(row, line, what) {
  if (isAbsurd(row)) return `${what} is absurd: 0 ${SIGNS[row.sense]} ${spelt(row.side)} never holds. So no point is left here, and every row follows.`;
  if (sameTerms(row.terms, line.terms) && (row.sense === line.sense || row.sense === "E") && asTight(row, line)) {
    if (order(row.side, line.side) === 0) return `${what} is the line itself.`;
    return `${what} has the line\u2019s coefficients, and asks more: ${spelt(row.side)} against ${spelt(line.side)}.`;
  }
  return line.terms.length === 0 && !isAbsurd(line) ? "The line asks nothing: each point satisfies it." : null;
}

function verdict(text, otherwise) {
  return make("p", { class: text ? "verdict" : "verdict wrong" }, text || otherwise);
}

// ---- the arithmetic of a line

function arithmetic(line) {
  if (line.reason === "asm") return [make("p", {}, "It is assumed: a branch of a split. The split\u2019s line does without it again.")];
  if (line.reason === "sol") return [make("p", {}, "A listed point has this objective, so worse points need not be looked at.")];
  const missing = line.parts.find(([number]) => lineOf(number) === null);
  if (missing) {
    return [make("p", {}, `It names line ${missing[0]}, which this page leaves out: see line ${fileLine(missing[0])} of ${data.file}.`)];
  }
  return line.reason === "uns" ? cases(line) : combination(line);
}

function cases(line) {
  const [first, below, second, above] = line.parts.map(([number]) => number);
  const item = (branch, shown) => make("li", {}, "Where ", rowElement(lineOf(branch)), " (", lineLink(branch, nameOf(branch)), "), ",
    lineLink(shown, nameOf(shown)), " shows ", rowElement(lineOf(shown)), ".");
  const both = [first, second].every(number => domination(lineOf(number), line, "It"));
  const low = lineOf(below), high = lineOf(above);
  return [
    make("p", {}, "Two cases, and each whole point is in one of them:"),
    make("ul", {}, item(below, first), item(above, second)),
    verdict(both && sameTerms(low.terms, high.terms) ? "In both cases the line holds. So it needs neither assumption." : null, "The cases don\u2019t show the line."),
  ];
}

const MOST_PARTS = 60;

function combination(line) {
  const body = make("tbody", {}), sum = sumOf(line), kept = line.parts.length > MOST_PARTS ? MOST_PARTS - 10 : line.parts.length;
  const part = ([number, factor]) => {
    const row = lineOf(number), gives = { sense: row.sense === "E" ? "E" : sum.sense, side: times(factor, row.side), terms: row.terms.map(([c, v]) => [c, times(factor, v)]) };
    return make("tr", { class: "part" }, make("td", { class: "name" }, lineLink(number, nameOf(number))), make("td", {}, rowElement(row)),
      make("td", { class: "n" }, spelt(factor)), make("td", {}, rowElement(gives)));
  };
  body.append(...line.parts.slice(0, kept).map(part));
  if (kept < line.parts.length) {
    const rest = make("tr", {}, make("td", { colspan: 4 }, make("button", { onclick: () => rest.replaceWith(...line.parts.slice(kept).map(part)) },
      `Show the other ${line.parts.length - kept} lines`)));
    body.append(rest);
  }
  body.append(make("tr", { class: "sum" }, make("th", { scope: "row" }, "Sum"), make("td", {}), make("td", {}), make("td", {}, rowElement(sum))));
  const head = make("thead", {}, make("tr", {}, ...["Line", "Row", "Times", "Gives"].map((word, at) => make("th", at === 2 ? { class: "n", scope: "col" } : { scope: "col" }, word))));
  const made = [line.parts.length ? make("div", { class: "wide" }, make("table", { class: "arithmetic" }, head, body))
    : make("p", {}, "No line is added up: the sum is 0 \u2265 0.")];
  return made.concat(line.reason === "rnd" ? rounding(line, sum) : [verdict(domination(sum, line, "The sum"), "The sum doesn\u2019t show the line.")]);
}

function rounding(line, sum) {
  const whole = sum.terms.every(([, value]) => value.d === 1n);
  const up = sum.sense === "G", after = { ...sum, side: rounded(sum.side, up) };
  const text = order(after.side, sum.side) === 0 ? `${spelt(sum.side)} is whole already` : `${spelt(sum.side)} becomes ${spelt(after.side)}`;
  return [
    make("p", { class: "rounding" }, `Each coefficient is whole, and so is each column. So the right side may be rounded ${up ? "up" : "down"}: ${text}.`),
    verdict(whole ? domination(after, line, "The rounded sum") : null, "The sum doesn\u2019t show the line."),
  ];
}

// ---- what a line assumes

// The numbers of the assumptions that a line rests on; null where the page has no room for them.
function assumedBy(number) {
  if (data.assumed[number] !== undefined) return data.assumed[number];
  const node = nodeOfLine.get(number);
  if (node === undefined) return [];
  if (tree.mask[node] === "-") return null;
  const path = [];
  for (let at = node; at > 0; at = tree.parent[at]) path.push(at);
  path.reverse();
  const bits = tree.mask[node] ? BigInt("0x" + tree.mask[node]) : 0n;
  return path.filter((_, at) => (bits >> BigInt(at)) & 1n).map(at => tree.branch[at]);
}

function assumptions(line) {
  if (line.reason === "asm") return null;
  const found = assumedBy(line.number);
  if (found === null) return make("p", { class: "quiet" }, "This page leaves out what it assumes.");
  if (!found.length) return make("p", { class: "quiet" }, "It assumes nothing, so it holds at each feasible point.");
  const items = found.map(number => make("li", {}, lineOf(number) ? rowText(lineOf(number)) : `line ${number}`));
  return make("div", {}, make("p", { class: "quiet" }, "It holds where"), make("ul", { class: "path" }, ...items));
}

function lineBody(number) {
  const line = lineOf(number);
  const place = make("p", { class: "quiet" }, `${line.label} has the number ${number} and stands on line ${fileLine(number)} of `, make("code", {}, data.file), ".");
  return [make("p", {}, make("strong", {}, line.label + ": "), rowElement(line)), ...arithmetic(line), assumptions(line), place].filter(Boolean);
}

// ---- the tree

const tree = data.tree, count = tree.line.length;
const children = Array.from({ length: count }, () => []);
const depth = new Int32Array(count);
const nodeOfLine = new Map();
for (let at = 0; at < count; at++) {
  if (at) { children[tree.parent[at]].push(at); depth[at] = depth[tree.parent[at]] + 1; }
  if (!nodeOfLine.has(tree.line[at])) nodeOfLine.set(tree.line[at], at);
}
const way = new Set();
for (let at = tree.best === null ? -1 : tree.best; at >= 0; at = at ? tree.parent[at] : -1) way.add(at);
const open = new Uint8Array(count);
let chosen = -1;
const MOST_SHOWN = 3000, ROW = 34;
let step = 160; // from one level of the picture to the next

function labelOf(at) { const line = lineOf(tree.line[at]); return line ? line.label : `line ${tree.line[at]}`; }
function kindOf(at) { return at === tree.best ? "best" : tree.kind[at]; }
function isSolved(at) { return data.search !== null && data.search.found[at] !== undefined; }
function wordOf(at) { return at === tree.best ? "best point" : isSolved(at) ? "solved" : WORDS[tree.kind[at]][0]; }
function branchText(at) { const row = at ? lineOf(tree.branch[at]) : null; return row ? rowText(row) : ""; }
function short(text, most) { return text.length > most ? text.slice(0, most - 1) + "\u2026" : text; }

// Opens the nodes above a depth, and folds the others. The greatest depth that shows at most so many nodes, where none is given.
function openTo(level) { for (let at = 0; at < count; at++) open[at] = depth[at] < level ? 1 : 0; }

function levelFor(most) {
  const widths = [];
  for (let at = 0; at < count; at++) widths[depth[at]] = (widths[depth[at]] || 0) + 1;
  let shown = 0, level = 0;
  while (level < widths.length && shown + widths[level] <= most) shown += widths[level++];
  return Math.max(1, level - 1);
}

function shownLevel() {
  let level = 0;
  for (let at = 0; at < count; at++) if (open[at] && children[at].length && isShown(at)) level = Math.max(level, depth[at] + 1);
  return level;
}

function isShown(at) { for (let up = at; up > 0; up = tree.parent[up]) if (!open[tree.parent[up]]) return false; return true; }

// The nodes that are shown, each behind its parent, with its height in the picture.
function layout() {
  const shown = [], height = new Map(), left = [0];
  while (left.length) {
    const at = left.pop();
    shown.push(at);
    if (open[at]) for (let child = children[at].length - 1; child >= 0; child--) left.push(children[at][child]);
  }
  let row = 0;
  for (const at of shown) if (!open[at] || !children[at].length) height.set(at, ROW * (row++ + 0.7));
  for (let i = shown.length - 1; i >= 0; i--) {
    const at = shown[i];
    if (!height.has(at)) height.set(at, (height.get(children[at][0]) + height.get(children[at][children[at].length - 1])) / 2);
  }
  return { shown, height, rows: row };
}

function edge(at, height) {
  const x = 20 + step * depth[at], y = height.get(at), parent = tree.parent[at], start = x - step + widthOf(parent) + 23, turn = start + 10;
  const text = short(branchText(at), Math.floor((x - turn - 8) / 7));
  const group = svg("g", {}, svg("path", { class: way.has(at) ? "edge way" : "edge", d: `M${start} ${height.get(parent)}H${turn}V${y}H${x}` }),
    svg("text", { class: "branch", x: turn + 7, y: y - 5 }, text));
  group.append(svg("title", {}, branchText(at)));
  return group;
}

function widthOf(at) { return 16 + 8 * labelOf(at).length; }

function nodeGroup(at, height) {
  const x = 20 + step * depth[at], y = height.get(at), label = labelOf(at), width = widthOf(at), folded = children[at].length && !open[at];
  const node = svg("g", {
    class: `node k-${kindOf(at)}${at === chosen ? " chosen" : ""}`, tabindex: at === (chosen < 0 ? 0 : chosen) ? 0 : -1, role: "treeitem", "data-node": at,
    "aria-level": depth[at] + 1, "aria-label": `${label}, ${WORDS[tree.kind[at]][1]}${at ? ", " + branchText(at) : ""}`, onclick: () => choose(at),
  }, svg("rect", { x, y: y - 12, width, height: 24, rx: 12 }), svg("text", { x: x + width / 2, y: y + 4.5, "text-anchor": "middle" }, label));
  if (children[at].length) node.setAttribute("aria-expanded", folded ? "false" : "true");
  const made = [node];
  if (folded || tree.kind[at] !== "s" || !children[at].length) {
    const text = folded ? `${(tree.size[at] - 1).toLocaleString("en")} nodes below` : tree.kind[at] === "s" ? `${tree.size[at] - 1} nodes left out` : wordOf(at);
    made.push(svg("text", { class: "why", x: x + width + (folded ? 30 : 8), y: y + 4.5 }, (isSolved(at) ? "\u2605 " : "") + text));
  }
  if (children[at].length) made.push(foldMark(at, x + width + 14, y, folded));
  return made;
}

function foldMark(at, x, y, folded) {
  return svg("g", { class: "fold", "data-fold": at, onclick: () => { toggle(at); } }, svg("title", {}, folded ? "unfold" : "fold"), svg("circle", { cx: x, cy: y, r: 9 }),
    svg("path", { d: `M${x - 4} ${y}H${x + 4}${folded ? `M${x} ${y - 4}V${y + 4}` : ""}`, stroke: "currentColor", "stroke-width": 1.8 }));
}

function draw() {
  const picture = document.getElementById("picture"), { shown, height, rows } = layout();
  step = Math.max(...shown.map(widthOf)) + 46 + 7 * Math.min(18, Math.max(6, ...shown.map(at => branchText(at).length)));
  const width = 60 + step * Math.max(...shown.map(at => depth[at])) + 170;
  const drawing = svg("svg", { width, height: ROW * (rows + 0.4), role: "tree", "aria-label": "The tree of nodes", onkeydown: keys });
  for (const at of [...shown].sort((a, b) => way.has(a) - way.has(b))) if (at) drawing.append(edge(at, height));
  for (const at of shown) drawing.append(...nodeGroup(at, height));
  picture.replaceChildren(drawing);
  document.getElementById("shown").textContent = `${shown.length.toLocaleString("en")} of ${tree.size[0].toLocaleString("en")} nodes shown`;
  return height;
}

function redraw(at) {
  const height = draw();
  const picture = document.getElementById("picture"), y = height.get(at);
  if (y !== undefined) picture.scrollTo({ top: Math.max(0, y - picture.clientHeight / 2), left: Math.max(0, step * depth[at] - picture.clientWidth / 2) });
}

function toggle(at) {
  if (!children[at].length) return;
  open[at] = open[at] ? 0 : 1;
  if (layout().shown.length > MOST_SHOWN) { open[at] = 0; }
  redraw(at);
}

function focusNode(at) {
  const element = document.querySelector(`[data-node="${at}"]`);
  if (element) { document.querySelectorAll(".node[tabindex='0']").forEach(other => other.setAttribute("tabindex", -1)); element.setAttribute("tabindex", 0); element.focus(); }
}

function keys(event) {
  const at = +(event.target.dataset.node || -1);
  if (at < 0) return;
  const shown = layout().shown, here = shown.indexOf(at);
  let next = -1;
  if (event.key === "Enter" || event.key === " ") { choose(at); next = at; }
  else if (event.key === "ArrowDown") next = shown[here + 1] ?? at;
  else if (event.key === "ArrowUp") next = shown[here - 1] ?? at;
  else if (event.key === "ArrowRight") { if (children[at].length && !open[at]) { toggle(at); next = at; } else next = children[at][0] ?? at; }
  else if (event.key === "ArrowLeft") { if (children[at].length && open[at]) { toggle(at); next = at; } else next = at ? tree.parent[at] : at; }
  else return;
  event.preventDefault();
  focusNode(next);
}

// ---- the panel of a node

function choose(at) {
  chosen = at;
  for (const element of document.querySelectorAll(".node.chosen")) element.classList.remove("chosen");
  const element = document.querySelector(`[data-node="${at}"]`);
  if (element) element.classList.add("chosen");
  document.getElementById("panel").replaceChildren(...panelOf(at));
}

function panelOf(at) {
  const path = [];
  for (let up = at; up > 0; up = tree.parent[up]) path.push(make("li", {}, branchText(up)));
  const line = lineOf(tree.line[at]);
  const made = [make("h3", {}, `${labelOf(at)}: ${at === tree.best ? "it has the best point" : WORDS[tree.kind[at]][1]}`),
    path.length ? make("ul", { class: "path" }, ...path.reverse()) : make("p", { class: "quiet" }, "The root: the whole problem.")];
  made.push(...searched(at));
  if (children[at].length) made.push(make("p", {}, make("button", { onclick: () => toggle(at) }, open[at] ? "Fold" : "Unfold")));
  if (!line) return made.concat(make("p", {}, `This page leaves its line out: see line ${fileLine(tree.line[at])} of ${data.file}.`));
  return made.concat(lineBody(tree.line[at]));
}

function searched(at) {
  if (!data.search) return [];
  const made = [], relaxed = data.search.relaxed[at], found = data.search.found[at];
  if (relaxed) made.push(make("p", {}, `The relaxation had the value ${relaxed[0]} here, with ${relaxed[1]} in the column that was split.`));
  if (found !== undefined) made.push(make("p", {}, `\u2605 A better point was found here, with the objective ${found}.`));
  return made;
}

function startTree() {
  openTo(levelFor(40));
  redraw(0);
  const level = by => { openTo(Math.max(0, shownLevel() + by)); if (layout().shown.length > MOST_SHOWN) openTo(levelFor(MOST_SHOWN)); redraw(0); };
  document.getElementById("fewer").onclick = () => level(-1);
  document.getElementById("more").onclick = () => level(1);
  const best = document.getElementById("best");
  if (tree.best === null) best.remove();
  else best.onclick = () => { openTo(0); way.forEach(at => { open[at] = 1; }); redraw(tree.best); choose(tree.best); };
  choose(tree.best === null ? 0 : tree.best);
  document.getElementById("picture").scrollTo(0, Math.max(0, document.querySelector('[data-node="0"] rect').getAttribute("y") - 200));
}

// ---- lists of lines

const REASONS = { asm: "assumed", lin: "sum", rnd: "rounded sum", uns: "two cases", sol: "from a point" };
const PAGE = 25;
let from = 0, found = null;

function lineItem(number, prefix = "line") {
  const line = lineOf(number);
  const body = make("div", {});
  const item = make("details", { class: "line", id: `${prefix}-${number}`, "data-line": number, ontoggle: () => { if (item.open && !body.firstChild) body.append(...lineBody(number)); } },
    make("summary", {}, make("span", { class: "label" }, line.label), make("span", { class: "row" }, short(rowText(line), 90)),
      make("span", { class: "reason" }, REASONS[line.reason])), body);
  return item;
}

function listed() { return found || { length: data.lines.length, at: place => numberAt(place) }; }

function showLines() {
  const list = document.getElementById("list"), items = listed();
  from = Math.max(0, Math.min(from, Math.max(0, items.length - 1)));
  from -= from % PAGE;
  const made = [];
  for (let place = from; place < Math.min(items.length, from + PAGE); place++) made.push(lineItem(found ? items[place] : items.at(place)));
  list.replaceChildren(...made);
  document.getElementById("range").textContent = items.length ? `${(from + 1).toLocaleString("en")} to ${Math.min(items.length, from + PAGE).toLocaleString("en")} of ${items.length.toLocaleString("en")}` : "no line";
  document.getElementById("back").disabled = from === 0;
  document.getElementById("next").disabled = from + PAGE >= items.length;
}

function openLine(number) {
  const place = placeOf(number);
  if (place < 0) return;
  found = null;
  document.getElementById("find").value = "";
  from = place;
  showLines();
  const item = document.getElementById(`line-${number}`);
  item.classList.add("shown");
  item.open = true;
  item.scrollIntoView({ block: "center" });
  item.querySelector("summary").focus({ preventScroll: true });
}

function find() {
  const word = document.getElementById("find").value.trim().toLowerCase();
  found = null;
  if (word) {
    found = [];
    for (let place = 0; place < data.lines.length; place++) {
      const label = data.lines[place].slice(0, data.lines[place].indexOf(" ")).toLowerCase();
      if (label === word || String(numberAt(place)) === word || (label.startsWith(word) && found.length < 100000)) found.push(numberAt(place));
    }
  }
  from = 0;
  showLines();
}

function startLines() {
  document.getElementById("back").onclick = () => { from -= PAGE; showLines(); };
  document.getElementById("next").onclick = () => { from += PAGE; showLines(); };
  document.getElementById("find").oninput = find;
  showLines();
  const cuts = document.getElementById("cutlist");
  if (cuts) for (const number of data.cuts) cuts.append(lineItem(number, "cut"));
}

startLines();
startTree();
document.documentElement.dataset.ready = "yes";
