// What the page does, the same in the window and in the worker: which calls it makes, and what it shows of them.

/** What the module that was split imports. */
export const imports = { env: { log: () => {} } };

/** Calls that need the primary alone, and calls of functions that moved. */
export const FIRST = [["checked", 84, 2]];
export const LATER = [["words", 10], ["expr", 4]];

/** Makes calls, and shows each with its result, with which modules were there when it came back, and how long it took. */
export function makeCalls(split, calls, show) {
  for (const [name, ...args] of calls) {
    const began = performance.now();
    const result = split.exports[name](...args);
    show({ what: `${name}(${args.join(", ")})`, gives: String(result), there: split.loaded ? "primary and secondary" : "primary", ms: performance.now() - began });
  }
}
