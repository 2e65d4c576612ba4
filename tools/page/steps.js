// Finishing by steps: the calls on this tab's work space, and the order in which its rings are stepped.
import { part, plural, say, showKept, showProgress, showRefusal, showRings } from "./panel.js";
import { ask, inTurn } from "./talk.js";

// What can be done to the work space of the page's state `app`; `show` draws the sheet anew, `fit` with all of it in sight; `changed` is told when the rings may be others.
export function stepper(app, show, fit, changed) {
  function showState() {
    const { state } = app;
    showRings(state, app.ring, choose);
    showProgress(state);
    showKept(state, { keep, go_back: goBack, drop });
    for (const id of ["step", "end", "all", "play"]) part(id).disabled = state.done;
    part("lay").disabled = part("second-file").disabled = state.steps > 0;
    say(state.done ? "Every ring is done" : `Steps due: ${plural(state.rings.filter(ring => !ring.done).length, "ring")}`);
    changed();
    show();
  }

  // Opens the drawing in this tab's work space.
  async function start() {
    stop();
    if (!(await call("open", { fields: app.fields }))) return false;
    app.from = app.fields;
    app.ring = nextRing("rising");
    return true;
  }

  // A call on the work space; whether it was answered. What is refused is shown, and changes nothing.
  const call = inTurn(async (name, more = {}) => {
    const said = await ask(name, more);
    if (!said.answer) stop();
    // Several steps in one call may have gone some way before one was refused.
    if (said.answer || (said.state && name !== "open")) app.state = said.answer || said.state;
    showRefusal(said.refused || null);
    if (said.bad) say(said.bad);
    return Boolean(said.answer);
  });

  async function act(name, more) {
    await call(name, more);
    // Going back may take the chosen ring away.
    if (!app.state.rings[app.ring]) app.ring = nextRing("rising");
    showState();
  }

  // The record that an order steps next; none if all are done.
  function nextRing(order) {
    const due = app.state.rings.filter(ring => !ring.done).map(ring => ring.record);
    if (!due.length) return null;
    if (order === "falling") return due[due.length - 1];
    if (order === "in turn") return due.find(record => record > app.ring) ?? due[0];
    return order === "shuffled" ? due[Math.floor(Math.random() * due.length)] : due[0];
  }

  function choose(record) {
    app.ring = record;
    showState();
  }

  const keep = name => act("keep", { name });
  const goBack = name => act("go_back", { name });
  const drop = name => act("drop", { name });

  // The chosen ring is stepped, or the lowest that has a step due.
  function stepChosen(calls) {
    const ring = app.state.rings[app.ring];
    return stepRing(ring && !ring.done ? app.ring : nextRing("rising"), calls);
  }

  // Clicking a ring steps it.
  async function stepRing(record, calls = "step") {
    if (record === null || !app.state.rings[record]) return;
    app.ring = record;
    if (app.state.rings[record].done) showState();
    else {
      await call(calls, { record });
      showState();
    }
  }

  function stop() {
    app.playing = null;
    part("play").textContent = "Play";
  }

  function play() {
    if (app.playing !== null) {
      stop();
      return;
    }
    part("play").textContent = "Pause";
    const mine = {};
    app.playing = mine;
    const turn = async () => {
      if (app.playing !== mine) return;
      const record = nextRing(part("order").value);
      if (record === null) {
        stop();
        return;
      }
      await stepRing(record);
      setTimeout(turn, 1000 / Number(part("speed").value));
    };
    turn();
  }

  async function lay(from) {
    if (!(await call("lay", from))) return;
    app.ring = nextRing("rising");
    fit();
    showState();
  }

  return { start, showState, act, stepRing, stepChosen, choose, keep, goBack, play, stop, lay };
}
