// A window over the rings that are stepped, dragged on the sheet or typed, and the records that it shows, which the library is asked for.
import { part, plural, say, showRefusal } from "./panel.js";
import { ask, latest } from "./talk.js";

const SIDES = ["left", "top", "right", "bottom"];
// A side is a number of 32 bits.
const LEAST = -(2 ** 31), GREATEST = 2 ** 31 - 1;

// What can be done with the window of the page's state `app`: its least and greatest x and y, and the records that it shows; `show` draws the sheet anew.
export function viewer(app, show) {
  const asked = latest(async () => {
    const { window } = app, said = window && app.state ? await ask("window", window) : null;
    // Another window is asked for next.
    if (app.window !== window) return;
    app.shown = said && said.answer ? said.answer.records : [];
    if (said && said.refused) showRefusal(said.refused);
    if (said && said.bad) say(said.bad);
    part("window-said").textContent = !window ? "" : app.shown.length ? `${plural(app.shown.length, "record")}: ${app.shown.join(", ")}` : "Nothing";
    part("window-said").dataset.shown = window ? app.shown.join(" ") : "none";
    show();
  });

  function look(window) {
    app.window = window;
    for (const side of SIDES) {
      const field = part(`window-${side}`);
      if (document.activeElement !== field || !window) field.value = window ? window[side] : "";
    }
    part("unlook").disabled = !window;
    show();
    return asked();
  }

  // Between two places, whichever way it is dragged.
  const lookAt = ([x, y], [x2, y2]) => look({ left: Math.min(x, x2), top: Math.min(y, y2), right: Math.max(x, x2), bottom: Math.max(y, y2) });

  // As typed, turned inside out too.
  function typed() {
    const sides = SIDES.map(side => part(`window-${side}`).value.trim());
    const good = words => /^-?\d{1,10}$/.test(words) && Number(words) >= LEAST && Number(words) <= GREATEST;
    if (sides.every(good)) look(Object.fromEntries(SIDES.map((side, k) => [side, Number(sides[k])])));
    else if (sides.every(words => words)) say("A window's sides are whole numbers of 32 bits");
  }

  // Whether dragging on the sheet makes a window, or moves the sheet.
  function looking(on = !app.looking) {
    app.looking = on && Boolean(app.calls.records_in);
    part("look").setAttribute("aria-pressed", String(app.looking));
    show();
  }

  // The rings may have changed.
  const again = () => (app.window ? asked() : undefined);

  return { lookAt, looking, typed, again, unlook: () => look(null) };
}
