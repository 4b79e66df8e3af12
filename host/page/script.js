"use strict";
/* The page is whole without this: it zooms and pans the picture, lights chains, and sorts tables. */
(() => {
const all = (css, of = document) => [...of.querySelectorAll(css)];
const one = (css, of = document) => of.querySelector(css);
document.body.classList.add("scripted");

/* ---- tables: by a column, and the other way round when it is asked for again ---- */

const value = (row, column) => {
  const cell = row.cells[column], text = cell.dataset.value ?? cell.textContent;
  return cell.classList.contains("name") ? text : Number(text);
};
const compare = (a, b) => (typeof a === "string" ? a.localeCompare(b) : a < b ? -1 : a > b ? 1 : 0);

function sort(head) {
  const table = head.closest("table"), body = table.tBodies[0], column = head.cellIndex;
  const way = head.getAttribute("aria-sort") === "ascending" ? "descending" : "ascending";
  const sign = way === "ascending" ? 1 : -1;
  const rows = [...body.rows].sort((a, b) =>
    sign * compare(value(a, column), value(b, column)) || compare(value(a, 0), value(b, 0)));
  all("th", table).forEach(other => other.removeAttribute("aria-sort"));
  head.setAttribute("aria-sort", way);
  body.append(...rows);
}
all("th button").forEach(button => button.addEventListener("click", () => sort(button.closest("th"))));

/* ---- the window: which instants are looked at, and where they are ---- */

const drawing = one("#drawing");
if (!drawing) return;
const told = name => Number(drawing.dataset[name]);
const left = told("left"), right = told("right"), least = told("least"), thin = told("thin"), nearest = 4;
const height = drawing.viewBox.baseVal.height;
const whole = {from: told("from"), to: told("to")}, most = {from: told("earliest"), to: told("last")};
let view = {...whole}, width = told("width");
const marks = new Map();
const keep = mark => marks.set(mark, {a: Number(mark.dataset.a), b: mark.dataset.b === undefined ? undefined : Number(mark.dataset.b)});
all("[data-a]", drawing).forEach(keep);

const span = () => view.to - view.from;
const room = () => width - left - right;
const x = t => left + (Math.min(Math.max(t, view.from), view.to) - view.from) / span() * room();
const instant = at => view.from + (at - left) / room() * span();

function place(mark, {a, b}) {
  mark.setAttribute("x", x(a));
  if (b === undefined) {
    const out = a < view.from ? "earlier" : a > view.to ? "further" : "";
    mark.classList.toggle("earlier", out === "earlier");
    mark.classList.toggle("further", out === "further");
    mark.classList.toggle("away", out !== "" && !mark.classList.contains("due"));
  } else {
    const wide = Math.max(least, (b === Infinity ? width : x(b)) - x(a));
    mark.setAttribute("width", wide);
    mark.classList.toggle("thin", wide < thin);
    mark.classList.toggle("away", a > view.to || b < view.from || (b === view.from && a < b));
  }
}

function svg(name, attributes, text) {
  const made = document.createElementNS("http://www.w3.org/2000/svg", name);
  Object.entries(attributes).forEach(([key, to]) => made.setAttribute(key, to));
  made.textContent = text ?? "";
  return made;
}

/* The ticks from one number of the ruler to the next: 1, 2 or 5 and zeros. */
function step() {
  const digits = String(Math.ceil(view.to)).length, wanted = Math.max(1, span() * (7 * digits + 24) / room());
  const ten = 10 ** Math.floor(Math.log10(wanted));
  return [1, 2, 5, 10].map(n => n * ten).find(n => n >= wanted);
}

function rule() {
  const by = step(), bottom = height - 24, made = [];
  for (let t = Math.ceil(view.from / by) * by; t <= view.to; t += by) {
    made.push(svg("path", {d: `M${x(t)} 38V${bottom}`}), svg("text", {x: x(t), y: 34}, t), svg("text", {x: x(t), y: bottom + 14}, t));
  }
  one("#ruler").replaceChildren(...made);
}

function draw() {
  drawing.setAttribute("viewBox", `0 0 ${width} ${height}`);
  marks.forEach((instants, mark) => place(mark, instants));
  rule();
}
let asked = 0;
const drawSoon = () => { asked = asked || requestAnimationFrame(() => { asked = 0; draw(); }); };

/* No closer than a few ticks, no further than the run and its last deadline. */
function look(from, to) {
  const wide = Math.min(Math.max(to - from, nearest), most.to - most.from), middle = (from + to) / 2;
  const begin = Math.min(Math.max(middle - wide / 2, most.from), most.to - wide);
  view = {from: begin, to: begin + wide};
  drawSoon();
}
const zoom = (by, at = (view.from + view.to) / 2) => look(at - (at - view.from) * by, at + (view.to - at) * by);
const pan = by => look(view.from + by * span(), view.to + by * span());

/* ---- bars ---- */

const bar = record => one(`#bar-${record}`);
const body = job => marks.get(one(".body", job));
const lanes = all(".lane").map(lane => all(".job", lane).sort((a, b) => body(a).a - body(b).a || a.dataset.record - b.dataset.record));
const jobs = lanes.flat();
let chosen = null;

/* One bar is reached by the tab key, the others from it by the arrow keys. */
let current = null;
function stand(job) {
  jobs.forEach(other => other.setAttribute("tabindex", other === job ? 0 : -1));
  current = job;
}
function visit(job) {
  if (!job) return;
  stand(job);
  const {a, b} = body(job);
  if (a > view.to || b < view.from) look((a + b - span()) / 2, (a + b + span()) / 2);
  job.focus();
}

/* So that the bar can be read. */
function near(job) {
  const {a, b} = body(job), wide = Math.max(5 * (b - a), nearest);
  look((a + b - wide) / 2, (a + b + wide) / 2);
}

function beside(job, key) {
  const at = lanes.findIndex(lane => lane.includes(job)), lane = lanes[at], here = lane.indexOf(job);
  if (key === "ArrowLeft") return lane[here - 1];
  if (key === "ArrowRight") return lane[here + 1];
  if (key === "Home") return lane[0];
  if (key === "End") return lane.at(-1);
  const others = key === "ArrowUp" ? lanes.slice(0, at).reverse() : lanes.slice(at + 1);
  const next = others.find(other => other.length > 0) ?? [];
  const far = other => Math.abs(body(other).a - body(job).a);
  return [...next].sort((a, b) => far(a) - far(b))[0];
}

/* ---- the chosen one: its chain is lit, its reason shown ---- */

const reason = record => one(`#reason-${record}`);

/* What an earlier reason has told stands in this one, too, while it is shown. */
function complete(shown, chain) {
  const rest = one(".rest", shown);
  if (!rest || rest.hidden) return;
  const links = chain.slice(chain.indexOf(rest.dataset.of)).map(record => {
    const copy = one(`.link:not(.own)[data-of="${record}"]`).cloneNode(true);
    copy.classList.add("again");
    return copy;
  });
  rest.hidden = true;
  rest.after(...links);
}

function thread(chain) {
  const middle = job => { const box = one(".body", job); return Number(box.getAttribute("y")) + Number(box.getAttribute("height")) / 2; };
  one("#thread").replaceChildren(...chain.slice(1).map((cause, i) => {
    const at = svg("svg", {"data-a": body(bar(chain[i])).a, y: 0, overflow: "visible"});
    at.append(svg("path", {d: `M0 ${middle(bar(cause))}V${middle(bar(chain[i]))}`}));
    keep(at);
    return at;
  }));
}

function letGo() {
  all(".lit, .chosen").forEach(lit => lit.classList.remove("lit", "chosen"));
  all("[aria-current]").forEach(link => link.removeAttribute("aria-current"));
  all(".again").forEach(copy => copy.remove());
  all(".rest").forEach(rest => { rest.hidden = false; });
  all("#thread > *").forEach(knot => { marks.delete(knot); knot.remove(); });
  drawing.classList.remove("choosing");
  one("#chosen").textContent = "";
  chosen = null;
}

function choose(record) {
  const job = bar(record), shown = reason(record), chain = shown ? shown.dataset.chain.split(" ") : [record];
  letGo();
  chosen = job;
  drawing.classList.add("choosing");
  chain.forEach((each, i) => {
    bar(each).classList.add("lit");
    bar(each).style.setProperty("--step", Math.min(i, 12));
  });
  [job, one(`#row-${record}`), shown].forEach(part => part?.classList.add("chosen"));
  [job, one(`#late [data-record="${record}"]`)].forEach(part => part?.setAttribute("aria-current", "true"));
  if (shown) complete(shown, chain);
  else one("#chosen").textContent = one("title", job).textContent;
  thread(chain);
  stand(job);
  drawSoon();
}

/* From a list to the picture: all of the chain is looked at, or the one bar. */
function lead(record) {
  choose(record);
  const lit = all(".lit", drawing).map(body), from = Math.min(...lit.map(each => each.a)), to = Math.max(...lit.map(each => each.b));
  const edge = (to - from) / 16;
  if (lit.length > 1) look(from - edge, to + edge);
  else near(bar(record));
}

/* ---- keys, buttons, links ---- */

const deeds = {
  in: () => zoom(1 / 1.6), out: () => zoom(1.6), left: () => pan(-0.3), right: () => pan(0.3),
  whole: () => look(whole.from, whole.to), near: () => chosen && near(chosen),
};
const keys = {"+": "in", "=": "in", "-": "out", "0": "whole", z: "near", Z: "near"};
all("[data-do]").forEach(button => button.addEventListener("click", deeds[button.dataset.do]));

function press(event) {
  if (event.ctrlKey || event.metaKey || event.altKey) return;
  const job = event.target.closest(".job") ?? current, sideways = {ArrowLeft: "left", ArrowRight: "right"}[event.key];
  if (event.shiftKey && sideways) deeds[sideways]();
  else if (keys[event.key]) deeds[keys[event.key]]();
  else if (event.key === "Escape") letGo();
  else if (event.key === "Enter" || event.key === " ") choose(job.dataset.record);
  else if (event.key.startsWith("Arrow") || event.key === "Home" || event.key === "End") visit(beside(job, event.key));
  else return;
  event.preventDefault();
}
drawing.addEventListener("keydown", press);

document.addEventListener("click", event => {
  const link = event.target.closest("a[href^='#']");
  if (!link) return;
  event.preventDefault();
  const job = link.closest(".job");
  if (job && !dragged) choose(job.dataset.record);
  else if (!job) lead(link.getAttribute("href").split("-").pop());
  if (!job) drawing.scrollIntoView({block: "nearest"});
});

/* ---- wheel, drag and pinch ---- */

drawing.addEventListener("wheel", event => {
  const at = instant(event.offsetX * width / drawing.clientWidth), before = view.from + ":" + view.to;
  if (event.shiftKey || Math.abs(event.deltaX) > Math.abs(event.deltaY)) pan(Math.sign(event.deltaX || event.deltaY) * 0.1);
  else if (event.ctrlKey || chosen || drawing.contains(document.activeElement)) zoom(event.deltaY < 0 ? 1 / 1.25 : 1.25, at);
  if (event.ctrlKey || before !== view.from + ":" + view.to) event.preventDefault();
}, {passive: false});

const pointers = new Map();
let dragged = false;
const where = event => (event.clientX - drawing.getBoundingClientRect().left) * width / drawing.clientWidth;
drawing.addEventListener("dragstart", event => event.preventDefault());
drawing.addEventListener("pointerdown", event => {
  if (pointers.size === 0) dragged = false;
  pointers.set(event.pointerId, {first: where(event), now: where(event)});
});
drawing.addEventListener("pointermove", event => {
  const held = pointers.get(event.pointerId), before = [...pointers.values()].map(each => each.now);
  if (!held) return;
  const by = where(event) - held.now;
  if (!dragged && Math.abs(where(event) - held.first) < 5) return;
  dragged = true;
  if (event.pointerType === "mouse") drawing.setPointerCapture(event.pointerId);
  held.now = where(event);
  if (before.length === 1) pan(-by / room());
  else pinch(before, [...pointers.values()].map(each => each.now));
});
const release = event => { pointers.delete(event.pointerId); };
["pointerup", "pointercancel", "lostpointercapture"].forEach(kind => drawing.addEventListener(kind, release));
document.addEventListener("pointerup", release);

/* What was under the fingers stays there. */
function pinch([a, b], [c, d]) {
  const apart = Math.abs(c - d), was = Math.abs(a - b), at = instant((a + b) / 2);
  if (apart < 10 || was < 10) return;
  zoom(was / apart, at);
  pan(-((c + d) - (a + b)) / 2 / room());
}

/* ---- the width of the page, and paper ---- */

function fit() {
  width = Math.max(320, Math.round(one("figure").clientWidth));
  draw();
}
let seen = null;
addEventListener("beforeprint", () => {
  seen = {view, record: chosen?.dataset.record};
  letGo();
  view = {...whole};
  width = told("width");
  draw();
});
addEventListener("afterprint", () => {
  const before = seen;
  seen = null;
  view = before.view;
  if (before.record !== undefined) choose(before.record);
  fit();
});
new ResizeObserver(() => seen === null && fit()).observe(one("figure"));
fit();
stand(one(".job.late") ?? one(".job.place") ?? jobs[0] ?? null);
const wanted = location.hash.match(/^#(?:reason|bar|row)-(\d+)$/);
if (wanted && bar(wanted[1])) lead(wanted[1]);
})();
