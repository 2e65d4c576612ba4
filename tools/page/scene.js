// What stands on the sheet: the drawing with the outlines that come of it, or the rings as the steps have left them.
import { doubledArea, rings } from "./drawing.js";
import { shape } from "./sheet.js";

// With so few points their coordinates are written beside them.
const LABELLED = 24;
// Of a ring with more, points are small and edges are not for the pointer: so it can still be dragged.
const MANY = 300;
const WORDS = { piece: "piece", hole: "hole", flat: "flat path", line: "line", ring: "ring as drawn", lost: "ring without an outline", made: "point that was made", present: "where a ring's steps are", within: "lies in it", shown: "record that the window shows" };

const text = points => points.map(point => point.join(",")).join(" ");
export const isLost = reason => reason && reason.number >= 3 && reason.number <= 7;
const middle = points => [0, 1].map(axis => points.reduce((sum, point) => sum + point[axis], 0) / points.length);
// Large ones first, so that a hole lies on its piece and lines on all.
const largeFirst = paths => paths.map((path, place) => ({ ...path, place })).sort((a, b) => (a.area === null) - (b.area === null) || Math.abs(b.area) - Math.abs(a.area));

// The word of a ring, by its sense; the settings do not change it.
export function senseOf({ open, points }) {
  const area = open ? 0 : doubledArea(points);
  return open ? "line" : area > 0 ? "piece" : area < 0 ? "hole" : "flat";
}

// What is said of a ring that is stepped.
export function saidOfRing(ring, reason) {
  const gone = !ring.points.length;
  const why = reason ? reason.said : gone ? ring.said : ring.open ? "open, no steps" : ring.due === "done" ? `done, a ${senseOf(ring)}` : `due: ${ring.due}`;
  return `${why}${gone ? "" : `, ${ring.points.length} points`}${ring.cut_from === null ? "" : `, cut from ${ring.cut_from}`}`;
}

// What is said of a path under the pointer.
export function saidOf(paths, place, inside) {
  const path = paths[place], name = number => `${paths[number].word} ${number}`;
  const size = path.area === null ? "" : `, ${(Math.abs(path.area) / 2e6).toLocaleString("en", { maximumSignificantDigits: 6 })} mm²`;
  const within = inside && inside[place] ? (inside[place].length ? `. In it: ${inside[place].map(name).join(", ")}` : ". Nothing lies in it") : "";
  const order = path.area === null ? place - paths.filter(other => other.area !== null).length : place;
  return `${path.word} ${order}, ${path.points.length} points${size}${path.area === null ? "" : within}`;
}

export class Scene {
  constructor(sheet, legend) {
    Object.assign(this, { sheet, legend });
  }

  begin() {
    const { sheet } = this;
    this.kinds = new Set();
    this.layers = [shape("rect", { class: "paper", width: sheet.wide, height: sheet.high }), sheet.grid()];
  }

  add(name, attributes, words) {
    const made = shape(name, attributes, words);
    this.layers.push(made);
    return made;
  }

  end() {
    this.layers.push(this.sheet.bar());
    this.sheet.svg.replaceChildren(...this.layers);
    this.legend.replaceChildren(...Object.keys(WORDS).filter(kind => this.kinds.has(kind)).map(kind => this.legendLine(kind)));
  }

  legendLine(kind) {
    const line = document.createElement("li"), swatch = shape("svg", { viewBox: "0 0 22 12", "aria-hidden": "true" });
    if (kind === "piece" || kind === "hole") swatch.append(shape("rect", { class: `fill-${kind}`, x: 1, y: 1, width: 20, height: 10 }), shape("path", { class: `path ${kind}`, d: "M1 1 H21 V11 H1 Z" }));
    else if (kind === "made" || kind === "present") swatch.append(shape("circle", { class: kind, cx: 11, cy: 6, r: 4.5 }));
    else swatch.append(shape("path", { class: ["flat", "line"].includes(kind) ? `path ${kind}` : kind, d: "M1 6 H21" }));
    line.append(swatch, WORDS[kind]);
    return line;
  }

  // ---- outlines

  fills(paths) {
    for (const { word, points, place } of largeFirst(paths).filter(path => path.area !== null)) this.add("path", { class: `fill-${word}`, d: this.sheet.d(points, true), "data-path": place });
  }

  outlines(paths) {
    for (const { word, points, place } of largeFirst(paths)) {
      this.add("path", { class: `path ${word}`, d: this.sheet.d(points, word !== "line"), "data-path": place, "data-word": word, "data-points": text(points) });
      this.kinds.add(word);
    }
  }

  // The path under the pointer, and what lies in it.
  hovered(paths, place, inside) {
    if (place === null || !paths[place]) return;
    this.add("path", { class: "around", d: this.sheet.d(paths[place].points, paths[place].area !== null) });
    for (const number of (inside && inside[place]) || []) {
      this.add("path", { class: "within", d: this.sheet.d(paths[number].points, true), "data-within": number });
      this.kinds.add("within");
    }
  }

  // Points of the paths at a place where no ring has one.
  made(paths, drawn) {
    const known = new Set(drawn.flatMap(ring => ring.points).map(([x, y]) => `${x},${y}`));
    for (const point of paths.flatMap(path => path.points)) {
      if (known.has(`${point[0]},${point[1]}`)) continue;
      known.add(`${point[0]},${point[1]}`);
      const [cx, cy] = this.sheet.at(point);
      this.add("circle", { class: "made", cx, cy, r: 4.5 });
      this.kinds.add("made");
    }
  }

  // Coordinates above the points of the upper half and below the others; on the other side, or left out, where they would lie over others.
  labels(points) {
    const places = new Map(points.map(point => [`${point[0]},${point[1]}`, point])), taken = [];
    if (places.size > LABELLED) return;
    const [, half] = this.sheet.exact([0, this.sheet.high / 2]);
    for (const point of places.values()) {
      const [x, across] = this.sheet.at(point), words = (point[2] ? point : point.slice(0, 2)).join(","), wide = 3.4 * words.length;
      const free = y => taken.every(([otherX, otherY, otherWide]) => Math.abs(x - otherX) > wide + otherWide || Math.abs(y - otherY) > 13);
      const y = (point[1] >= half ? [across - 10, across + 20] : [across + 20, across - 10]).find(free);
      if (y === undefined) continue;
      taken.push([x, y, wide]);
      this.add("text", { class: "label", x, y, "text-anchor": "middle" }, words);
    }
  }

  asDrawn(ring) {
    this.add("path", { class: "ring", d: this.sheet.ring(ring), "data-ring": ring.record });
    this.kinds.add("ring");
  }

  // A ring without an outline; the answer writes its number, beside its middle.
  lostRing(ring, said) {
    const lost = this.add("path", { class: "lost", d: this.sheet.ring(ring), "data-lost": ring.record });
    lost.append(shape("title", {}, `record ${ring.record}: ${said}`));
    const [x, y] = this.sheet.at(middle(ring.points));
    this.kinds.add("lost");
    return () => this.add("text", { class: "number", x: x + 10, y: y - 8 }, ring.record);
  }

  // ---- the drawing, and what comes of it at once

  drawing({ fields, drawn, chosen, sketch, hover }) {
    this.begin();
    const all = rings(fields).filter(ring => ring.points.length), { paths = [], reasons = [], inside } = drawn || {}, numbers = [];
    this.fills(paths);
    for (const ring of all) {
      const reason = reasons[ring.record];
      if (isLost(reason)) numbers.push(this.lostRing(ring, reason.said));
      else this.asDrawn(ring);
    }
    this.outlines(paths);
    this.hovered(paths, hover, inside);
    this.made(paths, all);
    for (const ring of all) this.grips(ring, chosen, isLost(reasons[ring.record]));
    this.labels([...all.flatMap(ring => ring.points), ...paths.flatMap(path => path.points)]);
    for (const number of numbers) number();
    if (sketch) this.sketch(sketch);
    this.end();
  }

  // Edges that a point can be put into, and points that can be dragged.
  grips(ring, chosen, lost) {
    const { sheet } = this, count = ring.points.length, many = count > MANY;
    ring.numbers.forEach((number, k) => {
      // The edge from an open ring's first point, the line's end, is none.
      if (count > 1 && !many && !(ring.open && k === 0)) this.add("path", { class: "hit", d: sheet.d([ring.points[k], ring.points[(k + 1) % count]], false), "data-edge": number });
    });
    ring.numbers.forEach((number, k) => {
      const [cx, cy] = sheet.at(ring.points[k]);
      this.add("circle", { class: `point${number === chosen ? " chosen" : ""}${lost ? " lost-point" : ""}`, cx, cy, r: many ? 3 : 4.5, [many ? "data-point" : "data-at"]: number });
      if (!many) this.add("circle", { class: "grip", cx, cy, r: 12, "data-point": number });
    });
  }

  sketch({ places, pointer, open }) {
    const points = pointer ? [...places, pointer] : places;
    this.add("path", { class: "sketch", d: this.sheet.d(points, !open && points.length > 2) });
    for (const place of places) {
      const [cx, cy] = this.sheet.at(place);
      this.add("circle", { class: "point", cx, cy, r: 4.5 });
    }
  }

  // ---- the rings as the steps have left them

  steps({ state, ring: chosen, hover, window, shown }) {
    this.begin();
    const { begun, paths = [], reasons = [] } = state, numbers = [];
    for (const ring of begun.filter(ring => ring.points.length)) {
      const now = state.rings[ring.record], reason = reasons[ring.record];
      if ((now && now.said && !now.points.length) || isLost(reason)) numbers.push(this.lostRing(ring, reason ? reason.said : now.said));
      else this.asDrawn(ring);
    }
    const live = state.rings.filter(ring => ring.points.length && !isLost(reasons[ring.record]));
    for (const ring of live.map(ring => ({ ...ring, area: Math.abs(doubledArea(ring.points)) })).sort((a, b) => a.open - b.open || b.area - a.area)) {
      const sense = senseOf(ring), kind = ring.done ? `done ${sense}` : "";
      const path = this.add("path", { class: `step ${kind}${ring.record === chosen ? " chosen" : ""}`, d: this.sheet.ring(ring), "data-record": ring.record, "data-points": text(ring.points) });
      path.append(shape("title", {}, `record ${ring.record}: ${saidOfRing(ring, reasons[ring.record])}`));
      if (ring.done) this.kinds.add(sense);
    }
    if (state.done) this.outlines(paths);
    this.hovered(paths, hover, null);
    if (window) this.window(window, state.rings.filter(ring => shown.includes(ring.record) && ring.points.length));
    this.made(live, begun);
    this.places(live, chosen);
    this.labels(live.flatMap(ring => ring.points));
    for (const number of numbers) number();
    this.end();
  }

  // A box, from its least to its greatest x and y; none of one that is turned inside out.
  box(kind, [left, low, right, high]) {
    const [x, y2] = this.sheet.at([left, low]), [x2, y] = this.sheet.at([right, high]);
    if (x <= x2 && y <= y2) this.add("rect", { class: kind, x, y, width: x2 - x, height: y2 - y });
  }

  // The window, and the rings that it shows with their boxes, as they stand beside them.
  window({ left, top, right, bottom }, shown) {
    for (const ring of shown) {
      this.add("path", { class: "shown", d: this.sheet.ring(ring), "data-shown": ring.record });
      this.box("box", ring.box);
      this.kinds.add("shown");
    }
    this.box("window", [left, top, right, bottom]);
  }

  // Where each ring's loop is; with few rings each has its number beside its first point.
  places(live, chosen) {
    for (const { record, points, present } of live) {
      const [x, y] = this.sheet.at(points[0]);
      if (live.length <= LABELLED) this.add("text", { class: "record", x: x + 9, y: y + 15 }, record);
      if (present === null) continue;
      this.kinds.add("present");
      const [cx, cy] = this.sheet.at(points[present]);
      this.add("circle", { class: "present", cx, cy, r: record === chosen ? 8 : 5, "data-present": record });
    }
  }
}
