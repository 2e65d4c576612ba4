// The page: what is drawn, what is stepped, and what the buttons do. The server has the library; the drawing is held here.
import { empty, inserted, moved, placeOf, removed, ringOf, rings, turned, withoutRing, withRing } from "./drawing.js";
import { listen } from "./hands.js";
import { part, picture, save, say, showReasons, showRefusal } from "./panel.js";
import { saidOf, saidOfRing, Scene } from "./scene.js";
import { Sheet } from "./sheet.js";
import { stepper } from "./steps.js";
import { ask, latest } from "./talk.js";
import { viewer } from "./windows.js";

// mode: draw or step; chosen: a point's number; ring: the record that is stepped; drawn, state: the last answers; from: the drawing that the steps began with. window: the sides of one over
// the rings that are stepped; shown: the records in it; looking: whether a drag makes one.
const app = { mode: "draw", fields: empty(), drawn: null, chosen: null, sketch: null, hover: null, state: null, from: null, ring: null, name: "mine", calls: {}, past: [], playing: null, finishing: null, window: null, shown: [], looking: false };
const sheet = new Sheet(part("drawing")), scene = new Scene(sheet, part("legend"));

// A fault of the page itself is said, and the tests look for it.
function fault(words) {
  document.documentElement.dataset.fault = words;
  say(`The page has a fault: ${words}`);
}
addEventListener("error", event => fault(event.message));
addEventListener("unhandledrejection", event => fault(String(event.reason)));

// ---- showing

// Whatever changes before the next frame is drawn once.
let due = null;
function show() {
  due ??= requestAnimationFrame(draw);
}

function draw() {
  due = null;
  const stepping = app.mode === "step" && app.state;
  if (stepping) scene.steps(app);
  else scene.drawing(app);
  const paths = (stepping ? app.state.paths : app.drawn && app.drawn.paths) || [];
  const ring = stepping ? app.state.rings[app.ring] : null, chosen = ring ? `record ${ring.record}: ${saidOfRing(ring, (app.state.reasons || [])[ring.record])}` : "";
  part("about").textContent = app.hover === null || !paths[app.hover] ? chosen : saidOf(paths, app.hover, stepping ? null : app.drawn.inside);
  part("drawing").classList.toggle("sketching", Boolean(app.sketch) || Boolean(stepping && app.looking));
  for (const [id, open] of [["ring", false], ["line", true]]) part(id).textContent = `${app.sketch && app.sketch.open === open ? "End" : "New"} ${id}`;
  if (!stepping) showChosen();
}

function showChosen() {
  const { fields, chosen } = app, known = chosen !== null && fields.points[chosen];
  part("chosen").hidden = !known;
  if (!known) return;
  const record = ringOf(fields, chosen);
  part("chosen-name").textContent = `Point ${chosen}, record ${record}`;
  ["x", "y", "z"].forEach((axis, k) => {
    if (document.activeElement !== part(axis)) part(axis).value = placeOf(fields, chosen)[k];
  });
}

function showDrawn() {
  const { drawn } = app, counts = drawn.listing.split("\n")[0];
  part("listing").textContent = drawn.listing;
  if (document.activeElement !== part("text")) part("text").value = drawn.text;
  part("text-bad").hidden = true;
  part("collinear").checked = Boolean(app.fields.settings & 1);
  part("reverse").checked = Boolean(app.fields.settings & 2);
  const mendable = drawn.refused && drawn.refused.number === 6 && app.calls.mend;
  showRefusal(drawn.refused, mendable ? mend : null);
  showOutcome();
  say(drawn.refused ? `Refused ${drawn.refused.number}, ${drawn.refused.word}` : counts.replace(/closed (\d+) open (\d+)/, "Outlines: $1 closed, $2 open"));
}

function showOutcome() {
  const { reasons, paths } = app.mode === "draw" && app.drawn ? app.drawn : {};
  showReasons(reasons, paths, place => {
    app.hover = place;
    show();
  });
}

const everyPoint = () => (app.mode === "step" && app.state ? [...app.state.begun, ...app.state.rings] : rings(app.fields)).flatMap(ring => ring.points);

function fit() {
  sheet.fit(everyPoint());
  show();
}

// ---- drawing: every change is finished at once

// 0 for none. What is no rate is one above all, which the library refuses.
function rate() {
  const words = part("rate").value.trim();
  return words === "" ? 0 : /^[0-9]+$/.test(words) && Number(words) >= 1 && Number(words) <= 1000 ? Number(words) : 1001;
}

const finished = latest(async (from, fitted) => {
  const before = app.fields, said = await ask("draw", { ...from, rate: rate() });
  if (said.bad) {
    part("text-bad").hidden = false;
    part("text-bad").textContent = said.bad;
    say(said.bad);
    return;
  }
  // A drawing that was changed meanwhile is asked for next.
  if (!from.fields && app.fields !== before) return;
  app.drawn = said.answer;
  if (!from.fields) app.fields = said.answer.fields;
  if (app.chosen !== null && !app.fields.points[app.chosen]) app.chosen = null;
  showDrawn();
  if (fitted) sheet.fit(everyPoint());
  show();
});

function finish(from, fitted) {
  app.finishing = finished(from, fitted);
  return app.finishing;
}

function remember() {
  app.past.push(app.fields);
  if (app.past.length > 200) app.past.shift();
  part("undo").disabled = false;
}

// A new drawing in place of the old one; a drag remembers only where it began.
function change(fields, { again = false, fitted = false } = {}) {
  if (!again) remember();
  app.fields = fields;
  app.hover = null;
  show();
  return finish({ fields }, fitted);
}

function read(from, name) {
  remember();
  app.name = name;
  [app.chosen, app.hover, app.sketch] = [null, null, null];
  if (from.text !== undefined && document.activeElement === part("text")) part("text").blur();
  return finish(from, true);
}

function undo() {
  if (!app.past.length) return;
  app.fields = app.past.pop();
  app.chosen = null;
  part("undo").disabled = !app.past.length;
  show();
  finish({ fields: app.fields });
}

async function mend() {
  const said = await ask("mend", { fields: app.fields, rate: rate() });
  if (said.answer) change(said.answer.fields);
  else if (said.refused) showRefusal(said.refused);
  else say(said.bad);
}

// Begins a ring or a line, or ends the one that is being drawn.
function sketch(open) {
  if (app.sketch) {
    sketched(null);
    return;
  }
  app.sketch = { places: [], open, pointer: null };
  say(open ? "Click the line's points, then End line or Enter" : "Click the ring's points, then End ring, Enter or the first one");
  show();
}

// Adds a place to the ring that is being drawn, or ends it.
function sketched(place) {
  if (place) {
    app.sketch.places.push([...place, 0]);
    show();
    return;
  }
  const { places, open } = app.sketch;
  app.sketch = null;
  if (places.length > 1) change(withRing(app.fields, places, open));
  else show();
}

function giveUp() {
  [app.sketch, app.chosen] = [null, null];
  if (app.drawn) showDrawn();
  show();
}

function addAfter(number, place) {
  const [x, y, z] = placeOf(app.fields, number), [x2, y2] = placeOf(app.fields, app.fields.points[number][2]);
  app.chosen = number + 1;
  change(inserted(app.fields, number, place ? [...place, z] : [Math.round((x + x2) / 2), Math.round((y + y2) / 2), z]));
}

function removeChosen() {
  const number = app.chosen;
  if (number === null) return;
  app.chosen = null;
  change(removed(app.fields, number));
}

function setChosen() {
  const place = ["x", "y", "z"].map(axis => part(axis).value.trim());
  if (place.every(words => /^-?\d{1,9}$/.test(words))) change(moved(app.fields, app.chosen, place.map(Number)));
}

// ---- steps

const views = viewer(app, show);
const steps = stepper(app, show, fit, views.again);

async function setMode(mode) {
  steps.stop();
  await app.finishing;
  // What was stepped is as it was left, unless the drawing has changed.
  if (mode === app.mode || (mode === "step" && app.from !== app.fields && !(await steps.start()))) return;
  app.mode = mode;
  app.hover = null;
  app.sketch = null;
  for (const name of ["draw", "step"]) part(`mode-${name}`).setAttribute("aria-pressed", String(name === mode));
  part("draw").hidden = part("text").parentElement.hidden = mode !== "draw";
  part("steps").hidden = mode === "draw";
  showOutcome();
  sheet.measure();
  if (mode === "step") steps.showState();
  else {
    showDrawn();
    fit();
  }
}

async function startAgain() {
  if (await steps.start()) steps.showState();
}

// ---- the page begins

function buttons() {
  const clicks = {
    "mode-draw": () => setMode("draw"), "mode-step": () => setMode("step"), fit, closer: () => zoom(1.5), farther: () => zoom(1 / 1.5),
    ring: () => sketch(false), line: () => sketch(true), undo, clear: () => change(empty(), { fitted: true }),
    add: () => addAfter(app.chosen), remove: removeChosen, turn: () => change(turned(app.fields, ringOf(app.fields, app.chosen))),
    "remove-ring": () => { const ring = ringOf(app.fields, app.chosen); app.chosen = null; change(withoutRing(app.fields, ring)); },
    step: () => steps.stepChosen(), end: () => steps.stepChosen("end"), all: () => steps.act("finish"), again: startAgain, play: steps.play,
    lay: () => steps.lay({ text: app.samples[part("second-sample").value] }), look: () => views.looking(), unlook: views.unlook,
    "save-job": () => save(`${app.name}.job`, "application/octet-stream", Uint8Array.from(atob(app.drawn.file), letter => letter.charCodeAt(0))),
    "save-listing": () => save(`${app.name}.txt`, "text/plain", app.drawn.listing),
    "save-picture": async () => save(`${app.name}.svg`, "image/svg+xml", await picture(part("drawing"))),
  };
  for (const [id, click] of Object.entries(clicks)) part(id).onclick = click;
  for (const axis of ["x", "y", "z"]) part(axis).onchange = setChosen;
  for (const side of ["left", "top", "right", "bottom"]) part(`window-${side}`).onchange = views.typed;
  part("rate").oninput = () => finish({ fields: app.fields });
  part("sample").onchange = event => read({ text: app.samples[event.target.value] }, event.target.value);
  const bit = (id, value) => (part(id).onchange = () => change({ ...app.fields, settings: (app.fields.settings & ~value) | (part(id).checked ? value : 0) }));
  bit("collinear", 1);
  bit("reverse", 2);
  let typing = false;
  part("text").onblur = () => { typing = false; };
  part("text").oninput = event => {
    if (!typing) remember();
    typing = true;
    [app.name, app.chosen] = ["mine", null];
    finish({ text: event.target.value }, true);
  };
  part("file").onchange = event => openFile(event, read);
  part("second-file").onchange = event => openFile(event, steps.lay);
  part("undo").disabled = part("unlook").disabled = true;
}

// A job's file, or its text's, given to what takes it.
function openFile(event, take) {
  const [file] = event.target.files, reader = new FileReader();
  if (!file) return;
  reader.onload = () => take({ file: reader.result.split(",")[1] || "" }, file.name.replace(/\.[^.]*$/, ""));
  reader.readAsDataURL(file);
  event.target.value = "";
}

function zoom(times, place) {
  sheet.zoom(times, place);
  show();
}

async function begin() {
  buttons();
  listen(app, sheet, { show, change, remember, sketch, sketched, giveUp, addAfter, removeChosen, undo, setMode, startAgain, zoom, fit, ...steps, ...views });
  const { answer, bad } = await ask("begin");
  if (bad) {
    say(bad);
    return;
  }
  Object.assign(app, { samples: answer.samples, calls: answer.calls });
  const option = name => Object.assign(document.createElement("option"), { value: name, textContent: name });
  part("sample").append(...Object.keys(answer.samples).map(option));
  part("second-sample").append(...Object.keys(answer.samples).map(option));
  part("second").hidden = !answer.calls.lay_together;
  part("windows").hidden = !answer.calls.records_in;
  if (answer.text !== null) part("sample").prepend(Object.assign(option("given"), { textContent: "the job given" }));
  if (answer.text !== null) app.samples.given = answer.text;
  part("sample").value = answer.text === null ? "plate" : "given";
  await read({ text: app.samples[part("sample").value] }, part("sample").value);
  [app.past, part("undo").disabled] = [[], true];
  document.documentElement.dataset.ready = "yes";
}

begin();
