// The panel beside the sheet: refusals, rings with what is due or what came of them, kept states.
import { isLost, saidOfRing, senseOf } from "./scene.js";
import { Sheet, shape } from "./sheet.js";

export const part = id => document.getElementById(id);
export const NAMES = ["A", "B", "C", "D"];

function made(name, more = {}, ...inner) {
  const element = Object.assign(document.createElement(name), more);
  element.append(...inner);
  return element;
}

export const say = words => {
  part("said").textContent = words;
};

// A refusal with its number, its word and what to do about it; none hides it.
export function showRefusal(refused, mend) {
  const card = part("refusal");
  card.hidden = !refused;
  card.replaceChildren();
  if (!refused) return;
  const sentence = words => words.charAt(0).toUpperCase() + words.slice(1);
  card.append(made("h2", {}, `Refused ${refused.number}, ${refused.word}`), made("p", {}, `${sentence(refused.meaning)}.`));
  if (refused.where) card.append(made("p", { id: "where" }, `Here: ${refused.where}.`));
  if (refused.advice) card.append(made("p", {}, made("strong", {}, "What to do: "), `${refused.advice}.`));
  if (mend) card.append(made("p", {}, made("button", { id: "mend", className: "main", onclick: mend }, "Mend the backward links")));
}

// A line for each record of a drawing: where its outline is, or why it has none. A line that is pointed at, or reached by keys, points at its outline.
export function showReasons(reasons = [], paths = [], point = () => {}) {
  const closed = paths.filter(path => path.area !== null).length;
  const lines = reasons.map((reason, record) => {
    const place = reason.place === null ? null : reason.place + (reason.open ? closed : 0), at = () => point(place);
    const words = [made("span", { className: "who" }, `${record}`), made("span", { className: "why" }, reason.said)];
    const line = made("li", { className: isLost(reason) ? "lost" : "" }, made("button", { onpointerenter: at, onfocus: at, onclick: at, onpointerleave: () => point(null), onblur: () => point(null) }, ...words));
    line.dataset.record = record;
    return line;
  });
  part("reasons").replaceChildren(...lines);
  part("outcome").hidden = !lines.length;
}

// A line for each record of a work space: the step due, or what came of it. Clicking it chooses it.
export function showRings(state, chosen, choose) {
  const lines = state.rings.map(ring => {
    const reason = state.reasons && state.reasons[ring.record], gone = !ring.points.length;
    const choice = made("button", { onclick: () => choose(ring.record) }, made("span", { className: "who" }, `${ring.record}`), made("span", { className: "why" }, saidOfRing(ring, reason)));
    const line = made("li", { className: `${ring.record === chosen ? "chosen" : ""}${(gone && ring.said && ring.said !== "no ring in the job") || isLost(reason) ? " lost" : ""}` }, choice);
    if (ring.record === chosen) choice.setAttribute("aria-current", "true");
    line.dataset.record = ring.record;
    return line;
  });
  part("rings").replaceChildren(...lines);
  const current = part("rings").querySelector(".chosen");
  if (current) current.scrollIntoView({ block: "nearest" });
}

export const plural = (count, word) => `${count.toLocaleString("en")} ${word}${count === 1 ? "" : "s"}`;

export function showProgress(state) {
  const counts = `${plural(state.steps, "step")} taken; ${plural(state.points, "point")} and ${plural(state.records, "record")} in use.`;
  const drawings = state.drawings > 1 ? ` ${state.drawings} drawings lie on the sheet.` : "";
  const same = state.same ? " All done: the same outlines as finished in one call." : state.done ? " All done." : "";
  part("progress").textContent = counts + drawings + same;
  part("progress").dataset.same = state.done ? String(state.same) : "";
}

// The four places: a small picture of what is kept, and what can be done with it.
export function showKept(state, actions) {
  const boxes = NAMES.map(name => {
    const kept = state.kept[name], box = made("div", {}, made("strong", {}, name));
    box.dataset.name = name;
    const button = (words, call) => made("button", { onclick: () => actions[call](name), title: `${words} ${name}` }, words);
    if (kept) {
      box.append(small(kept.rings), made("span", { className: "none" }, plural(kept.steps, "step")), button("Go back", "go_back"), button("Replace", "keep"), button("Drop", "drop"));
    } else {
      box.append(button("Keep", "keep"));
    }
    return box;
  });
  part("kept").replaceChildren(...boxes);
  for (const svg of part("kept").querySelectorAll("svg")) {
    const sheet = new Sheet(svg, true), rings = svg.rings;
    sheet.fit(rings.flatMap(ring => ring.points));
    for (const ring of rings) svg.append(shape("path", { class: `step ${ring.done ? `done ${senseOf(ring)}` : ""}`, d: sheet.ring(ring) }));
  }
}

// Drawn once it stands in the page and has a size.
function small(rings) {
  const svg = shape("svg", { role: "img", "aria-label": "the state that is kept" });
  svg.rings = rings.filter(ring => ring.points.length);
  return svg;
}

export function save(name, type, data) {
  const link = made("a", { href: URL.createObjectURL(new Blob([data], { type })), download: name });
  link.click();
  setTimeout(() => URL.revokeObjectURL(link.href), 10000);
}

// The picture as it stands, with its colours, without what only the pointer needs.
export async function picture(svg) {
  const copy = svg.cloneNode(true), rules = await (await fetch("/drawing.css")).text();
  const light = rules.replace(/@media[^{]*\{\s*svg \{[^}]*\}\s*\}/, "");
  copy.removeAttribute("tabindex");
  copy.setAttribute("xmlns", "http://www.w3.org/2000/svg");
  for (const only of copy.querySelectorAll(".hit, .grip, .sketch, .around, .within, .shown, .box, .window")) only.remove();
  copy.prepend(shape("style", {}, light));
  const [, , wide, high] = svg.getAttribute("viewBox").split(" ");
  copy.setAttribute("width", wide);
  copy.setAttribute("height", high);
  return new XMLSerializer().serializeToString(copy);
}
