// Uses of the loader, right and wrong: `tsc --strict` must take this file. (It is compiled, not run.)
import { SplitInstance, SplitLoadError, exportStart, fetchNow } from "binkit-loader";
import type { Code, SplitNames, SplitOptions, Suspending } from "binkit-loader";

interface App {
  readonly memory: WebAssembly.Memory;
  readonly counter: WebAssembly.Global;
  add(a: number, b: number): number;
  wide(a: bigint): [bigint, number];
}

declare const bytes: Uint8Array;
declare const module: WebAssembly.Module;

// ---- making an instance ----

const plain: SplitInstance = new SplitInstance(bytes, module);
const typed = new SplitInstance<App>(module, () => fetchNow(new URL("secondary.wasm", "http://localhost/")), { env: { log() {} } });
const several = new SplitInstance<App>(bytes, { "placeholder.0": module, "placeholder.1": () => bytes }, {}, { exportPrefix: "$" });
const fetched: Promise<SplitInstance<App>> = SplitInstance.instantiate<App>(fetch("primary.wasm"), () => fetch("secondary.wasm"));
const mixed = SplitInstance.instantiate<App>(module, { "placeholder.0": fetch("a.wasm"), "placeholder.1": Promise.resolve(bytes.buffer), "placeholder.2": async () => module });
const names: SplitNames = { importNamespace: "primary", placeholderNamespace: "placeholder" };
const named = SplitInstance.instantiate(bytes, bytes, undefined, { ...names, suspend: false });

// @ts-expect-error a secondary is needed
new SplitInstance(bytes);
// @ts-expect-error the constructor cannot wait for a promise
new SplitInstance(fetch("primary.wasm"), module);
// @ts-expect-error nor for a response of a secondary
new SplitInstance(bytes, new Response());
// @ts-expect-error nor for one in a map
new SplitInstance(bytes, { "placeholder.0": Promise.resolve(bytes) });
// @ts-expect-error calls can be suspended only where instantiate made the instance
new SplitInstance(bytes, module, {}, { suspend: true });
// @ts-expect-error an address is no module
SplitInstance.instantiate("primary.wasm", module);
// @ts-expect-error a function that gives no module
SplitInstance.instantiate(bytes, () => "secondary.wasm");
// @ts-expect-error there is no such option
SplitInstance.instantiate(bytes, module, {}, { prefix: "$" });
// @ts-expect-error a name is a text
const wrongNames: SplitNames = { exportPrefix: 7 };

// ---- its exports ----

const sum: number = typed.exports.add(1, 2);
const [high, low]: [bigint, number] = typed.exports.wide(1n);
const pages: number = typed.exports.memory.grow(1);
const untyped: WebAssembly.ExportValue = plain.exports.anything;
fetched.then((split) => split.exports.add(1, 2).toFixed());

// @ts-expect-error another type
typed.exports.add("1", 2);
// @ts-expect-error no such export
typed.exports.sub(1, 2);
// @ts-expect-error the exports are the instance's own
typed.exports = {};

// ---- loading ----

const done: Promise<void> = typed.load();
const one: Promise<void> = several.load("placeholder.1");
const is: [boolean, boolean] = [several.loaded, several.isLoaded("placeholder.0")];
const ready: Promise<void> = several.ready;

// @ts-expect-error placeholder modules are names
several.load(0);
// @ts-expect-error a name is needed
several.isLoaded();
// @ts-expect-error it tells, and is not told
several.loaded = true;

done.catch((error: unknown) => {
  if (!(error instanceof SplitLoadError)) throw error;
  const secondary: string = error.secondary;
  const cause: unknown = error.cause;
  return [secondary, cause];
});

// ---- calls that are suspended ----

async function suspended(): Promise<number> {
  const split = await SplitInstance.instantiate<App>(fetch("primary.wasm"), () => fetch("secondary.wasm"), {}, { suspend: true });
  const exports: Suspending<App> = split.exports;
  const global: WebAssembly.Global = exports.counter;
  // @ts-expect-error calls return promises
  const early: number = split.exports.add(1, 2);
  const pair: [bigint, number] = await split.exports.wide(1n);
  return (await exports.add(1, 2)) + pair[1] + Number(global.value);
}

// ---- bytes ----

const compiled: Promise<WebAssembly.Module> = WebAssembly.compile(exportStart(bytes));
const code: Code = fetchNow("secondary.wasm");
const options: SplitOptions = { suspend: true };
// @ts-expect-error a module has no bytes
exportStart(module);
// @ts-expect-error a number is no address
fetchNow(7);

export { code, compiled, done, high, is, low, mixed, named, one, options, pages, ready, sum, suspended, untyped, wrongNames };
