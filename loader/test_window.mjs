// The checks of the loader in a window, which scripts/page_in_browser.mjs opens: modules that a window does not instantiate at once, and calls that are
// suspended. The modules stand under /made/.
import { SplitInstance, SplitLoadError, fetchNow } from "./split_instance.mjs";
import { checkSuspending } from "./test_suspend.mjs";

const MOST_AT_ONCE = 8 * 1024 * 1024;
const imports = { env: { log() {}, host: (n) => n } };
const fetched = (name) => fetch(`/made/${name}`);
const bytesOf = async (name) => new Uint8Array(await (await fetched(name)).arrayBuffer());

async function outcome(call) {
  try {
    return await call();
  } catch (error) {
    return error instanceof SplitLoadError ? `SplitLoadError of a ${error.cause.name}` : error.name;
  }
}

/** Makes all checks. `check` takes what is looked at, what it gives, and what is expected. */
export async function checkInWindow(check) {
  const large = [await bytesOf("large.primary"), await bytesOf("large.0")];
  check("the modules are too large for a window at once", large.map(({ length }) => length > MOST_AT_ONCE), [true, true]);
  await checkLarge(large, check);
  await checkStreamed(check);
  check("fetchNow in a window", await outcome(() => fetchNow("/made/frames.0")), "TypeError");
  await checkRealms(check);
  if (!("Suspending" in WebAssembly)) return void check("suspend: this engine has no promise integration", await outcome(() => suspended()), "Error");
  await checkSuspended(check);
  const names = ["frames", "chain", "started"].flatMap((name) => ["primary", 0, 1, 2].map((part) => `${name}.${part}`)).filter((name) => !/^frames\.[12]/.test(name));
  const made = Object.fromEntries(await Promise.all(names.map(async (name) => [name, await bytesOf(name)])));
  await checkSuspending((name) => made[name], check);
}

// Whether this browser instantiates large modules at once in a window.
const isRefused = navigator.userAgent.includes("Chrome/");

async function checkLarge([primary, secondary], check) {
  const compiled = { primary: await WebAssembly.compile(primary), secondary: await WebAssembly.compile(secondary) };
  check("the constructor", await outcome(() => new SplitInstance(compiled.primary, compiled.secondary, imports).exports.frame(1)), isRefused ? "RangeError" : 2);
  const ways = {
    "responses": [() => fetched("large.primary"), () => fetched("large.0")],
    "responses of another media type": [() => fetched("large.primary?plain"), () => fetched("large.0?plain")],
    bytes: [() => primary, () => secondary],
    modules: [() => compiled.primary, () => compiled.secondary],
  };
  for (const [what, [first, second]] of Object.entries(ways)) {
    const split = await SplitInstance.instantiate(first(), () => second(), imports);
    check(`${what}: the primary`, [split.loaded, split.exports.back(3)], [false, 3]);
    await split.load();
    check(`${what}: the secondary`, [split.loaded, split.exports.frame(4), split.exports.sp.value], [true, 8, 1000]);
    const given = await SplitInstance.instantiate(first(), second(), imports);
    check(`${what}: a call that has to load at once`, await outcome(() => given.exports.frame(1)), isRefused ? "SplitLoadError of a RangeError" : 2);
    await given.load();
    check(`${what}: loaded before`, [given.loaded, given.exports.rare(5)], [true, 10]);
  }
}

async function checkStreamed(check) {
  const log = [];
  const secondaries = Object.fromEntries([0, 1, 2].map((at) => [`placeholder.${at}`, fetched(`started.${at}`)]));
  const split = await SplitInstance.instantiate(fetched("started.primary"), secondaries, { env: { log: (n) => log.push(n) } });
  check("a start function, from responses", [log, split.loaded, split.exports.sp.value], [[3, 1, 2, 2], true, 1000]);
  check("a file that is not there", await outcome(() => SplitInstance.instantiate(fetched("frames.primary"), fetched("nothing"), imports)), "SplitLoadError of a Error");
}

async function checkRealms(check) {
  const frame = document.body.appendChild(document.createElement("iframe"));
  const other = frame.contentWindow.WebAssembly;
  const [primary, secondary] = [await other.compile(await bytesOf("frames.primary")), await other.compile(await bytesOf("frames.0"))];
  const split = await SplitInstance.instantiate(primary, secondary, imports);
  check("modules of another window", [primary instanceof WebAssembly.Module, split.exports.frame(2), split.loaded], [false, 4, true]);
  frame.remove();
}

const suspended = () => SplitInstance.instantiate(fetched("large.primary"), () => fetched("large.0"), imports, { suspend: true });

async function checkSuspended(check) {
  const split = await suspended();
  check("large, suspended: the first call fetches", [split.loaded, await split.exports.frame(6), split.loaded, split.exports.sp.value], [false, 12, true, 1000]);
}
