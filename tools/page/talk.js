// The page's calls to the table. Each tab has a name of its own, made anew whenever the page is loaded.
const tab = crypto.randomUUID();

// The answer to a call: {answer}, {refused, state} or {bad}.
export async function ask(call, more = {}) {
  let said;
  try {
    said = await fetch("/call", { method: "POST", headers: { "Content-Type": "application/json" }, body: JSON.stringify({ tab, call, ...more }) });
  } catch {
    return { bad: "The table does not answer: tools/table was ended. Start it again and load this page." };
  }
  return said.ok ? said.json() : { bad: `The table refuses this call: ${(await said.text()).trim()}` };
}

// A function that makes its calls one after the other, each once the one before is answered: so the last answer is the last call's.
export function inTurn(make) {
  let last = Promise.resolve();
  return (...what) => {
    const next = last.then(() => make(...what));
    last = next.catch(() => {});
    return next;
  };
}

// A function that makes one call at a time: of those that come meanwhile only the last is made, after it. It answers when none is left.
export function latest(make) {
  let waiting = null, running = null;
  async function run() {
    try {
      while (waiting) {
        const what = waiting;
        waiting = null;
        await make(...what);
      }
    } finally {
      running = null;
    }
  }
  return (...what) => {
    waiting = what;
    return (running ??= run());
  };
}
