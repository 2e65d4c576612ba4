// Pointer and keys on the drawing.
import { moved, placeOf, rings } from "./drawing.js";
import { NAMES } from "./panel.js";

// A pointer that moved less, in pixels, has clicked; one that comes so near to a sketch's first point closes it.
const STILL = 4, NEAR = 12;

export function listen(app, sheet, does) {
  const svg = sheet.svg;
  let drag = null;

  const under = (event, kind) => {
    const found = document.elementFromPoint(event.clientX, event.clientY)?.closest(`[data-${kind}]`);
    return found ? Number(found.dataset[kind]) : null;
  };

  function down(event) {
    if (event.button !== 0) return;
    const start = sheet.place(event);
    const point = app.mode === "draw" && !app.sketch ? under(event, "point") : null;
    const window = app.mode === "step" && app.looking ? sheet.whole(start) : null;
    drag = { start, last: start, point, window, from: point === null ? null : placeOf(app.fields, point), begun: false };
    if (point !== null) {
      app.chosen = point;
      does.show();
    }
    // A finger hovers by touching.
    if (event.pointerType !== "mouse") hover(event);
    svg.setPointerCapture(event.pointerId);
  }

  function move(event) {
    const place = sheet.place(event);
    if (app.sketch) {
      app.sketch.pointer = [...sheet.whole(place), 0];
      does.show();
    }
    if (!drag) {
      hover(event);
      return;
    }
    if (!drag.begun && Math.hypot(place[0] - drag.start[0], place[1] - drag.start[1]) < STILL) return;
    if (drag.window) does.lookAt(drag.window, sheet.whole(place));
    else if (drag.point === null) {
      sheet.pan(place[0] - drag.last[0], place[1] - drag.last[1]);
      does.show();
    } else {
      if (!drag.begun) does.remember();
      does.change(moved(app.fields, drag.point, [...sheet.whole(place), drag.from[2]]), { again: true });
    }
    drag.begun = true;
    drag.last = place;
  }

  function up(event) {
    const still = drag && !drag.begun, window = drag && drag.window;
    drag = null;
    if (!still) return;
    if (app.sketch) sketchAt(sheet.place(event));
    else if (window) does.lookAt(window, window);
    else if (app.mode === "step") {
      const record = under(event, "record");
      if (record !== null) does.stepRing(record);
    } else if (under(event, "point") === null && app.chosen !== null) {
      app.chosen = null;
      does.show();
    }
  }

  function sketchAt(place) {
    const [first] = app.sketch.places, [x, y] = first ? sheet.at(first) : [Infinity, Infinity];
    if (app.sketch.places.length > 2 && Math.hypot(place[0] - x, place[1] - y) < NEAR) does.sketched(null);
    else does.sketched(sheet.whole(place));
  }

  function hover(event) {
    const path = app.sketch ? null : under(event, "path");
    if (path === app.hover) return;
    app.hover = path;
    does.show();
  }

  svg.addEventListener("pointerdown", down);
  svg.addEventListener("pointermove", move);
  svg.addEventListener("pointerup", up);
  svg.addEventListener("pointercancel", () => { drag = null; });
  svg.addEventListener("pointerleave", () => { if (app.hover !== null) { app.hover = null; does.show(); } });
  svg.addEventListener("dblclick", event => {
    const edge = app.mode === "draw" && !app.sketch && under(event, "point") === null ? under(event, "edge") : null;
    if (edge !== null) does.addAfter(edge, sheet.whole(sheet.place(event)));
  });
  svg.addEventListener("wheel", event => { event.preventDefault(); does.zoom(Math.exp(-event.deltaY / 400), sheet.place(event)); }, { passive: false });
  new ResizeObserver(() => {
    sheet.measure();
    if (sheet.fitted) does.fit();
    else does.show();
  }).observe(svg);

  // ---- keys

  const ARROWS = { ArrowLeft: [-1, 0], ArrowRight: [1, 0], ArrowUp: [0, 1], ArrowDown: [0, -1] };

  // The next point in drawing order, or the next ring; -1 for the one before.
  function next(by) {
    if (app.mode === "step") {
      const count = app.state.rings.length;
      if (count) does.choose(((app.ring ?? -by) + by + count) % count);
      return;
    }
    const numbers = rings(app.fields).flatMap(ring => ring.numbers), at = numbers.indexOf(app.chosen);
    if (!numbers.length) return;
    app.chosen = numbers[at < 0 ? (by > 0 ? 0 : numbers.length - 1) : (at + by + numbers.length) % numbers.length];
    does.show();
  }

  function nudge(event, [across, up]) {
    if (app.mode !== "draw" || app.chosen === null) return false;
    const by = event.altKey ? 1 : Math.max(1, sheet.unit() / 10) * (event.shiftKey ? 10 : 1);
    const [x, y, z] = placeOf(app.fields, app.chosen);
    does.change(moved(app.fields, app.chosen, [x + across * by, y + up * by, z]));
    return true;
  }

  const ANY = { 1: () => does.setMode("draw"), 2: () => does.setMode("step"), n: () => next(1), p: () => next(-1), "+": () => does.zoom(1.5), "=": () => does.zoom(1.5), "-": () => does.zoom(1 / 1.5), 0: does.fit };
  const DRAW = {
    a: () => app.chosen !== null && does.addAfter(app.chosen), Delete: does.removeChosen, Backspace: does.removeChosen, r: () => does.sketch(false), l: () => does.sketch(true),
    Enter: () => app.sketch && does.sketched(null), Escape: does.giveUp,
  };
  const STEP = {
    s: () => does.stepChosen(), e: () => does.stepChosen("end"), f: () => does.act("finish"), " ": does.play, o: does.startAgain, w: () => does.looking(), Escape: () => { does.looking(false); does.unlook(); },
  };

  function keyed(event) {
    const typing = /^(INPUT|TEXTAREA|SELECT)$/.test(event.target.tagName), pressing = event.target.tagName === "BUTTON" && /^( |Enter)$/.test(event.key);
    if (typing || pressing || event.metaKey) return;
    if (event.ctrlKey) {
      if (event.key === "z" && app.mode === "draw") {
        event.preventDefault();
        does.undo();
      }
      return;
    }
    const letter = event.key.toUpperCase();
    const keys = { ...ANY, ...(app.mode === "draw" ? DRAW : STEP) };
    if (app.mode === "step" && NAMES.includes(letter)) (event.shiftKey ? does.keep : does.goBack)(letter);
    else if (ARROWS[event.key]) {
      if (!nudge(event, ARROWS[event.key])) return;
    } else if (keys[event.key]) keys[event.key]();
    else return;
    event.preventDefault();
  }
  document.addEventListener("keydown", keyed);
}
