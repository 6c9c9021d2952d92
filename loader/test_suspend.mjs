// The checks of the loader with `{ suspend: true }`. They run in an engine that has promise integration: test.mjs runs them in node where it has it, and
// scripts/page_in_browser.mjs in a window of Chromium.
import { SplitInstance, SplitLoadError } from "./split_instance.mjs";

const FRAME = 16;
const TOP = 1000;
const later = (value) => new Promise((resolve) => setTimeout(() => resolve(value), 5));

// What a call comes to: its value, or the name of its error.
async function outcome(call) {
  try {
    return await call();
  } catch (error) {
    return error instanceof SplitLoadError ? `SplitLoadError of ${error.secondary}` : error.name;
  }
}

/**
 * Makes all checks.
 *
 * @param {(name: string) => Uint8Array} made The bytes of a module: `frames` and `chain` with `.primary` and `.0`, `.1` .., as test.mjs makes them.
 * @param {(what: string, got: unknown, expected: unknown) => void} check
 */
export async function checkSuspending(made, check) {
  const all = new Checks(made, check);
  for (const name of ["promises", "apart", "inOrder", "hazard", "callsBack", "callsBackLater", "fromTable", "fails", "wrong", "starts", "several", "loadedBefore", "suspendingImport"]) await all[name]();
}

class Checks {
  constructor(made, check) {
    Object.assign(this, { made, check });
  }

  // The pair of frames, whose secondary comes after a while.
  async frames({ host = (n) => n, give = () => later(this.made("frames.0")) } = {}) {
    const log = [];
    let asked = 0;
    const imports = { env: { log: (n) => log.push(n), host } };
    const split = await SplitInstance.instantiate(this.made("frames.primary"), () => ((asked += 1), give()), imports, { suspend: true });
    return { split, log, asked: () => asked, pointer: () => split.exports.sp.value };
  }

  async promises() {
    const { split, asked, pointer } = await this.frames();
    const call = split.exports.frame(4);
    this.check("suspend: a call gives a promise", [call instanceof Promise, split.loaded], [true, false]);
    this.check("suspend: the first call", [await call, split.loaded, asked(), pointer()], [8, true, 1, TOP]);
    this.check("suspend: a later call", [split.exports.frame(5) instanceof Promise, await split.exports.frame(5)], [true, 10]);
    this.check("suspend: other exports stay", [split.exports.sp instanceof WebAssembly.Global, Object.keys(split.exports)], [true, ["frame", "back", "after", "behind", "rare", "sp", "table"]]);
  }

  async apart() {
    const { split, asked, pointer, log } = await this.frames();
    const first = split.exports.frame(1);
    const lowered = pointer();
    const others = [split.exports.frame(2), split.exports.rare(3)];
    this.check("suspend: a second call waits", pointer(), lowered);
    this.check("suspend: two calls at once", [await first, await Promise.all(others), asked(), pointer()], [2, [4, 6], 1, TOP]);
    this.check("suspend: one after the other", log, [1, 2, 3]);
  }

  async inOrder() {
    const { split, log } = await this.frames();
    const calls = [1, 2, 3].map((n) => split.exports.frame(n));
    // a call that comes just when the first has ended must not overtake those that wait
    calls.push(calls[0].then(() => split.exports.frame(4)));
    await Promise.all(calls);
    this.check("suspend: calls keep their order", log, [1, 2, 3, 4]);
  }

  // What comes of two calls at once where nothing keeps them apart.
  async hazard() {
    let instance = null;
    const placeholder = new WebAssembly.Suspending(async (n) => {
      await later();
      return n * 2;
    });
    instance = await WebAssembly.instantiate(await WebAssembly.compile(this.made("frames.primary")), { env: { log() {}, host: (n) => n }, placeholder: { 0: placeholder } });
    const frame = WebAssembly.promising(instance.exports.frame);
    await Promise.all([frame(1), frame(2)]);
    this.check("two calls at once that nothing keeps apart", instance.exports.sp.value, TOP - FRAME);
  }

  async callsBack() {
    let back = null;
    let seen = null;
    const host = (n) => {
      try {
        return back(n);
      } catch (error) {
        seen = error;
        throw error;
      }
    };
    const { split, asked, log } = await this.frames({ host });
    back = split.exports.rare;
    this.check("suspend: an import that calls back", [await outcome(() => split.exports.back(1)), seen instanceof WebAssembly.SuspendError, asked()], ["SuspendError", true, 0]);
    await split.load();
    this.check("suspend: an import that calls back, loaded", [await split.exports.back(3), log], [6, [3]]);
  }

  // The call has been suspended, and goes on: what its import calls then is still in the middle of it.
  async callsBackLater() {
    let back = null;
    const { split, pointer } = await this.frames({ host: (n) => back(n) });
    back = split.exports.rare;
    this.check("suspend: an import that calls back after a load", [await split.exports.after(5), pointer()], [20, TOP]);
  }

  async fromTable() {
    let caught = null;
    const { split, log, asked } = await this.frames({ host: () => ((caught = sync(() => split.exports.table.get(0)(7))), 0) });
    this.check("suspend: a function from a table", [sync(() => split.exports.table.get(0)(7)), asked()], ["SuspendError", 0]);
    this.check("suspend: a function from a table, in an import", [await split.exports.back(1), caught], [0, "SuspendError"]);
    await split.load();
    await later();
    this.check("suspend: what could not be suspended is not called later", log, []);
    this.check("suspend: a function from a table, loaded", split.exports.table.get(0)(7), 14);
  }

  async fails() {
    const answers = [() => later().then(() => { throw new Error("not there"); }), () => later(this.made("frames.0"))];
    const { split, pointer } = await this.frames({ give: () => answers.shift()() });
    const calls = [split.exports.frame(1), split.exports.back(2)];
    this.check("suspend: a load that fails", [await outcome(() => calls[0]), split.loaded, pointer()], ["SplitLoadError of placeholder", false, TOP - FRAME]);
    this.check("suspend: what waits goes on", await calls[1], 2);
    this.check("suspend: then it comes", [await split.exports.frame(3), split.loaded], [6, true]);
  }

  async wrong() {
    const answers = ["chain.0", "frames.0"];
    const { split, log } = await this.frames({ give: () => later(this.made(answers.shift())) });
    this.check("suspend: another secondary", [await outcome(() => split.exports.rare(1)), log], ["SplitLoadError of placeholder", []]);
    this.check("suspend: the right one then", await split.exports.rare(2), 4);
  }

  async starts() {
    const log = [];
    const map = Object.fromEntries([0, 1, 2].map((at) => [`placeholder.${at}`, () => later(this.made(`started.${at}`))]));
    const split = await SplitInstance.instantiate(this.made("started.primary"), map, { env: { log: (n) => log.push(n) } }, { suspend: true });
    this.check("suspend: a start loads", [log, split.loaded, split.exports.sp.value], [[3, 1, 2, 2], true, TOP]);
  }

  async several() {
    const log = [];
    const map = Object.fromEntries([0, 1, 2].map((at) => [`placeholder.${at}`, () => later(this.made(`chain.${at}`))]));
    const split = await SplitInstance.instantiate(this.made("chain.primary"), map, { env: { log: (n) => log.push(n) } }, { suspend: true });
    const calls = [split.exports.three(1), split.exports.two(1), split.exports.both(0)];
    this.check("suspend: from one secondary into another", [await calls[0], split.loaded, split.exports.sp.value], [10, true, TOP]);
    this.check("suspend: those that wait", [await Promise.all(calls), log, split.exports.sp.value], [[10, 8, 975], [3, 1, 2, 2, 3, 2], TOP]);
  }

  async loadedBefore() {
    const { split, asked } = await this.frames();
    await Promise.all([split.load(), split.exports.frame(1), split.load("placeholder")]);
    this.check("suspend: load beside a call", [asked(), await split.exports.frame(6)], [1, 12]);
  }

  // An import that suspends on its own; the load then comes in code that goes on after it.
  async suspendingImport() {
    const { split, pointer } = await this.frames({ host: new WebAssembly.Suspending((n) => later(n + 1)) });
    this.check("suspend: an import that suspends", [await split.exports.back(1), await split.exports.behind(2), await split.exports.after(3), pointer()], [2, 6, 7, TOP]);
  }
}

function sync(call) {
  try {
    return call();
  } catch (error) {
    return error.name;
  }
}
