#!/usr/bin/env node
// Runs the loader with small modules: `node --test loader/test.mjs`.
//
// test_pairs.mjs has pairs by hand and modules of which test_split.mjs makes pairs and several secondaries. The program (crates/binkit/out/binkit, or
// PROGRAM in `node loader/test.mjs PROGRAM`) must give the same bytes; where it is not built, this is skipped. So are the types where there is no `tsc`, and the calls that are suspended where the engine
// has no promise integration (scripts/page_in_browser.mjs makes these in a browser).
import assert from "node:assert/strict";
import { execFileSync, spawnSync } from "node:child_process";
import { existsSync, mkdtempSync, readFileSync, rmSync, writeFileSync } from "node:fs";
import { tmpdir } from "node:os";
import { dirname, join, resolve } from "node:path";
import { test } from "node:test";
import { fileURLToPath } from "node:url";
import vm from "node:vm";
import * as pairs from "./test_pairs.mjs";
import { pairOf, split as splitOf, whole } from "./test_split.mjs";
import { checkSuspending } from "./test_suspend.mjs";
import { SplitInstance, SplitLoadError, exportStart, fetchNow } from "./split_instance.mjs";

const HERE = dirname(fileURLToPath(import.meta.url));
const PROGRAM = resolve(process.argv[2] ?? join(HERE, "../crates/binkit/out/binkit"));
const { ADD, CALLS, CHAIN, CHAIN_STARTED, CHAIN_WIDER, FRAMES, HANDS_OUT, KEPT, KEPT_SECTIONS, LIKE_ADDED, LINKED, NAMES, OTHER_NAMES, START_CALLS, START_MOVED, THROUGH, VALUES, module, pair } = pairs;

const text = (value) => JSON.stringify(value, (key, part) => (typeof part === "bigint" ? `${part}n` : part));
const check = (what, got, expected) => assert.equal(text(got), text(expected), what);
const begins = (what, got, begin) => assert.ok(String(got).startsWith(begin), `${what}: ${got}, expected ${begin}`);
const later = (value) => new Promise((done) => setTimeout(() => done(value), 2));

// What a call comes to: its value, or how it ends.
function outcome(call) {
  try {
    return call();
  } catch (error) {
    return ended(error);
  }
}

async function outcomeOf(call) {
  try {
    return await call();
  } catch (error) {
    return ended(error);
  }
}

const ended = (error) => (error instanceof WebAssembly.RuntimeError ? "traps" : error instanceof SplitLoadError ? error.message.replace(/^.*? could not be loaded: /, "") : error.message);

// The two ways to make an instance.
const WAYS = {
  constructor: async (...given) => new SplitInstance(...given),
  instantiate: (...given) => SplitInstance.instantiate(...given),
};

// A test, with each way.
function bothWays(what, body) {
  for (const [name, make] of Object.entries(WAYS)) test(`${what} (${name})`, () => body(make));
}

// A pair, loaded so that each time the secondary is asked for is counted.
async function load(make, { primary, secondary }, imports, names) {
  const seen = { asked: 0 };
  const give = () => ((seen.asked += 1), secondary);
  return Object.assign(seen, { instance: await make(primary, give, imports, names) });
}

// ---- pairs by hand ----

bothWays("the first call of a moved function loads the secondary", async (make) => {
  const add = await load(make, ADD);
  check("add: exports", Object.keys(add.instance.exports), ["add"]);
  check("add: before", [add.instance.loaded, add.asked], [false, 0]);
  check("add: the first call", [add.instance.exports.add(2, 3), add.instance.loaded], [5, true]);
  check("add: later calls", [add.instance.exports.add(-1, 1), add.instance.exports.add(7, 7), add.asked], [0, 14, 1]);
  const compiled = await make(new WebAssembly.Module(ADD.primary), new WebAssembly.Module(ADD.secondary));
  check("add: compiled modules", [compiled.loaded, compiled.exports.add(4, 4), compiled.loaded], [false, 8, true]);
  check("add: bytes, and a buffer", (await make(new Uint8Array(ADD.primary).buffer, ADD.secondary)).exports.add(1, 2), 3);
  const twice = [await load(make, ADD), await load(make, ADD)];
  check("add: two instances of one pair", [twice[0].instance.exports.add(1, 1), twice[0].asked, twice[1].asked], [2, 1, 0]);
  const through = await load(make, THROUGH);
  check("a call through the slot", [through.instance.exports.f(), through.instance.exports.f(), through.asked], [7, 7, 1]);
});

bothWays("a secondary that no call needs is not asked for", async (make) => {
  const kept = await load(make, KEPT);
  check("nothing moved", [Object.keys(kept.instance.exports), outcome(kept.instance.exports.i) ?? null, kept.instance.loaded, kept.asked], [["i"], null, false, 0]);
  const calls = await load(make, CALLS, { env: { host: (n) => n } });
  check("never called", [calls.instance.exports.table.length, calls.instance.loaded, calls.asked], [2, false, 0]);
});

bothWays("a linked program", async (make) => {
  const log = [];
  const { instance } = await load(make, LINKED, { env: { log: (n) => log.push(n) } });
  check("linked: exports", Object.keys(instance.exports), ["memory", "__wasm_call_ctors", "run"]);
  instance.exports.__wasm_call_ctors();
  check("linked: what stays", [new DataView(instance.exports.memory.buffer).getInt32(1028, true), instance.loaded], [42, false]);
  check("linked: what moved", [instance.exports.run(21), instance.loaded, log], [42, true, [21]]);
});

bothWays("a start function loads", async (make) => {
  for (const [what, both] of [["a start calls", START_CALLS], ["the start moved", START_MOVED]]) {
    const log = [];
    const imports = { env: { log: (n) => log.push(n) } };
    const seen = await load(make, both, imports);
    check(`${what}: order, and state after`, [log, seen.instance.exports.g.value, seen.instance.exports.start(), seen.instance.loaded, seen.asked], [[1, 2, 3], 42, 42, true, 1]);
    check(`${what}: exports`, Object.keys(seen.instance.exports), ["g", "start"]);
    const compiled = await make(new WebAssembly.Module(exportStart(both.primary)), both.secondary, imports);
    check(`${what}: compiled`, [log, Object.keys(compiled.exports), compiled.loaded], [[1, 2, 3, 1, 2, 3], ["g", "start"], true]);
    const started = await outcomeOf(() => make(new WebAssembly.Module(both.primary), both.secondary, imports));
    begins(`${what}: compiled with its start`, started, "a moved function was called before the primary was there");
  }
  check("no start: the same bytes", exportStart(ADD.primary) === ADD.primary, true);
  check("no module: the same bytes", exportStart(HANDS_OUT.subarray(0, 5)).length, 5);
});

bothWays("a secondary is loaded while a call waits", async (make) => {
  let exports = null;
  const seen = await load(make, CALLS, { env: { host: (n) => (n > 0 ? exports.share(n) : -1) } });
  exports = seen.instance.exports;
  check("nested: loaded while a call waits", [exports.outer(4), seen.asked], [35, 1]);
  check("nested: later", [exports.outer(-7), exports.outer(50), seen.asked], [9, 12, 1]);
});

bothWays("a moved function that traps", async (make) => {
  const seen = await load(make, CALLS, { env: { host: (n) => n } });
  check("traps: the first call", [outcome(() => seen.instance.exports.share(0)), seen.instance.loaded], ["traps", true]);
  check("traps: later calls", [seen.instance.exports.share(3), outcome(() => seen.instance.exports.share(0)), seen.asked], [33, "traps", 1]);
});

bothWays("moved functions in a table", async (make) => {
  const { instance } = await load(make, CALLS, { env: { host: (n) => n } });
  const { table, share } = instance.exports;
  const before = table.get(0);
  check("table: taken before, called first", [before(21), instance.loaded], [42, true]);
  check("table: the same after", [table.get(0) === before, table.get(0)(4), table.get(1)], [true, 8, null]);
  table.set(1, share);
  check("table: put there", [table.get(1) === share, table.get(1)(25)], [true, 4]);
});

bothWays("a placeholder that is kept", async (make) => {
  const seen = await load(make, { primary: HANDS_OUT, secondary: THROUGH.secondary });
  const placeholder = seen.instance.exports.taken();
  check("a placeholder: called first", [placeholder(), seen.instance.loaded], [7, true]);
  check("a placeholder: called again", [placeholder(), seen.asked, seen.instance.exports.taken() === placeholder, seen.instance.exports.taken()()], [7, 1, false, 7]);
});

bothWays("values of all types", async (make) => {
  const { wide, swap, nothing } = (await load(make, VALUES)).instance.exports;
  const thing = {};
  for (const time of ["first", "again"]) {
    check(`values: wide, ${time}`, wide(2n ** 63n - 1n), [-(2n ** 63n), -1]);
    const [func, extern] = swap(thing, wide);
    check(`values: references, ${time}`, [func === wide, extern === thing, swap(undefined, null)[0], swap(undefined, null)[1] === undefined], [true, true, null, true]);
    check(`values: nothing, ${time}`, nothing() === undefined, true);
  }
  check("values: a wrong type", outcome(() => wide(1)).includes("BigInt"), true);
});

bothWays("other names, and names like added ones", async (make) => {
  const seen = await load(make, OTHER_NAMES, { env: { host: (n) => n } }, NAMES);
  check("names: given", [Object.keys(seen.instance.exports), seen.instance.exports.outer(1)], [["table", "share", "outer"], 11]);
  const like = (await load(make, LIKE_ADDED)).instance;
  check("names like added ones: before", Object.keys(like.exports), ["f", "%g9"]);
  check("names like added ones: after", [like.exports.f(), Object.keys(like.exports), like.exports["%f7"]()], [5, ["f", "%g9", "%f7"], 8]);
  const [types, funcs, tables, mems, , ...rest] = KEPT_SECTIONS;
  const kept = await load(make, pair([types, funcs, tables, mems, "07 10 02 03 25 66 31 00 00 06 25 73 6C 6F 74 73 01 00", ...rest], []));
  check("names like added ones: nothing moved", Object.keys(kept.instance.exports), ["%f1"]);
  const compiled = (await make(LIKE_ADDED.primary, new WebAssembly.Module(LIKE_ADDED.secondary))).exports;
  check("names like added ones: a compiled secondary", [Object.keys(compiled), compiled["%f7"]()], [["f", "%g9", "%f7"], 8]);
});

bothWays("what is no pair", async (make) => {
  const host = { env: { host: (n) => n } };
  const says = async (what, call, begin) => begins(what, await outcomeOf(call), begin);
  const shared = async (...given) => (await load(make, ...given)).instance.exports.share(1);
  await says("fault: another prefix", () => load(make, CALLS, host, { exportPrefix: "$" }), "primary: the last export is no table $slots");
  await says("fault: no primary", () => load(make, { primary: ADD.secondary }), "primary: the last export is no table %slots");
  await says("fault: a namespace of other imports", () => load(make, CALLS, host, { placeholderNamespace: "env" }), "options.placeholderNamespace: the import env.host is no placeholder");
  await says("fault: another import namespace", () => shared(CALLS, host, { importNamespace: "p" }), "it is not the secondary of this primary: it imports from primary");
  await says("fault: a promise", async () => (await make(ADD.primary, async () => ADD.secondary)).exports.add(1, 2), "the secondary: needed at once");
  await says("fault: another secondary", () => shared({ ...CALLS, secondary: KEPT.secondary }, host), "it is not the secondary of this primary: WebAssembly.Instance(): ");
  const empty = async () => (await load(make, { ...ADD, secondary: module() })).instance.exports.add(1, 2);
  await says("fault: an empty module", empty, "it is not the secondary of this primary: it puts no function into slot 0");
  const constructs = make === WAYS.constructor;
  await says("fault: bytes that are no module", () => load(make, { primary: Buffer.from("no wasm") }), constructs ? "WebAssembly.Module(): " : "WebAssembly.compile(): ");

  const trap = () => new WebAssembly.Instance(new WebAssembly.Module(START_CALLS.primary), { env: { log() {} }, placeholder: { 0: () => { throw new WebAssembly.RuntimeError("of another module"); } } });
  check("fault: what the function ends with is no fault of the secondary", await outcomeOf(async () => (await make(ADD.primary, trap)).exports.add(1, 2)), "of another module");
  const last = (modules) => module("01 05 01 60 00 01 7F", `02 ${modules}`, "04 05 01 70 01 01 01", "07 0A 01 06 25 73 6C 6F 74 73 01 00");
  const twice = last("25 02 0D 70 6C 61 63 65 68 6F 6C 64 65 72 2E 30 01 61 00 00 0D 70 6C 61 63 65 68 6F 6C 64 65 72 2E 30 01 30 00 00");
  await says("fault: another import of a placeholder module", () => make(twice, { "placeholder.0": THROUGH.secondary }), "options.placeholderNamespace: the import placeholder.0.a is no placeholder");

  const answers = [() => { throw new Error("not there"); }, () => ADD.secondary];
  const late = await make(ADD.primary, () => answers.shift()());
  check("fault: then at hand", [outcome(() => late.exports.add(1, 2)), late.loaded, late.exports.add(1, 2), late.loaded], ["not there", false, 3, true]);
  const round = await make(ADD.primary, () => round.exports.add(1, 2));
  await says("fault: the secondary out of a moved function", () => round.exports.add(1, 2), "a moved function was called by the function that gives the secondary");
});

// ---- how modules are given ----

const response = (bytes, type = "application/wasm") => new Response(bytes, { headers: type === null ? {} : { "content-type": type } });
const foreign = (bytes) => vm.runInNewContext("new WebAssembly.Module(bytes)", { bytes });

// A response whose bytes come in pieces.
const inPieces = (bytes, size) => response(new ReadableStream({
  start(controller) {
    for (let at = 0; at < bytes.length; at += size) controller.enqueue(new Uint8Array(bytes.subarray(at, at + size)));
    controller.close();
  },
}));

const GIVEN = {
  "a module": (bytes) => new WebAssembly.Module(bytes),
  "a module of another realm": foreign,
  bytes: (bytes) => bytes,
  "a buffer": (bytes) => new Uint8Array(bytes).buffer,
  "a buffer of another realm": (bytes) => vm.runInNewContext("new Uint8Array(bytes).buffer", { bytes: [...bytes] }),
  "a response": (bytes) => response(bytes),
  "a response of another media type": (bytes) => response(bytes, "application/octet-stream"),
  "a response without a media type": (bytes) => response(bytes, null),
};

test("instantiate takes modules, bytes, responses, and promises of them", async () => {
  for (const [what, given] of Object.entries(GIVEN)) {
    for (const [how, wrapped] of Object.entries({ itself: (code) => code, "a promise": (code) => later(code) })) {
      const split = await SplitInstance.instantiate(wrapped(given(ADD.primary)), wrapped(given(ADD.secondary)));
      check(`${what}, ${how}: at hand for a call`, [split.loaded, split.exports.add(1, 2), split.loaded], [false, 3, true]);
      const lazy = await SplitInstance.instantiate(wrapped(given(ADD.primary)), () => wrapped(given(ADD.secondary)));
      await lazy.load();
      check(`${what}, ${how}: given by a function`, [lazy.loaded, lazy.exports.add(1, 2)], [true, 3]);
    }
  }
});

test("the constructor takes modules and bytes", () => {
  for (const [what, given] of Object.entries(GIVEN).filter(([name]) => !name.includes("response"))) {
    check(what, new SplitInstance(given(ADD.primary), given(ADD.secondary)).exports.add(1, 2), 3);
    check(`${what}, given by a function`, new SplitInstance(given(ADD.primary), () => given(ADD.secondary)).exports.add(1, 2), 3);
  }
});

test("a response is compiled by streaming, and its start function is taken out of the first bytes", async () => {
  const began = [];
  const streamed = await replaced(WebAssembly, "compileStreaming", (old) => (given) => (began.push("streaming"), old.call(WebAssembly, given)), async () => {
    for (const both of [START_CALLS, START_MOVED]) {
      for (const size of [1, 2, 7, 64, 100000]) {
        const log = [];
        const split = await SplitInstance.instantiate(inPieces(both.primary, size), inPieces(both.secondary, size), { env: { log: (n) => log.push(n) } });
        check(`a start, in pieces of ${size} bytes`, [log, Object.keys(split.exports), split.exports.g.value, split.loaded], [[1, 2, 3], ["g", "start"], 42, true]);
      }
    }
    return began.length;
  });
  check("how many were streamed", streamed, 20);
  for (const [name, { primary, secondary }, , , options] of pairs.BY_HAND) {
    const imports = { env: { log() {}, host: (n) => n } };
    const split = await SplitInstance.instantiate(inPieces(primary, 3), inPieces(secondary, 3), imports, options);
    check(`${name}: in pieces`, (await split.load(), split.loaded), true);
  }
  const typed = await SplitInstance.instantiate(response(START_CALLS.primary, "text/plain"), START_CALLS.secondary, { env: { log() {} } });
  check("another media type, with a start", typed.loaded, true);
  begins("a response that is no module", await outcomeOf(() => SplitInstance.instantiate(inPieces(Buffer.from("<!doctype html>"), 4), ADD.secondary)), "WebAssembly.compileStreaming()");
  begins("a response that says no", await outcomeOf(() => SplitInstance.instantiate(new Response("", { status: 404 }), ADD.secondary)), "a response: the server answered with status 404");
});

test("what stands behind the start function is compiled before the response has ended", async () => {
  for (const [what, { primary, secondary }] of Object.entries({ "a start": START_CALLS, "no start": ADD })) {
    let source = null;
    const body = new ReadableStream({ start: (controller) => (source = controller) });
    source.enqueue(new Uint8Array(primary.subarray(0, -1)));
    const reading = () => async ({ body: filtered }) => {
      const reader = filtered.getReader();
      const pieces = [];
      // (the head, and what follows it)
      for (let piece = 0; piece < 2; piece += 1) pieces.push((await Promise.race([reader.read(), later({ value: new Uint8Array() })])).value);
      check(`${what}: all but the last byte`, Buffer.concat(pieces).length, exportStart(primary).length - 1);
      source.enqueue(new Uint8Array(primary.subarray(-1)));
      source.close();
      pieces.push((await reader.read()).value);
      return new WebAssembly.Module(Buffer.concat(pieces));
    };
    await replaced(WebAssembly, "compileStreaming", reading, () => SplitInstance.instantiate(response(body), () => secondary, { env: { log() {} } }));
  }
});

// Runs with a function of an object replaced.
async function replaced(object, name, by, run) {
  const old = Object.getOwnPropertyDescriptor(object, name);
  Object.defineProperty(object, name, { ...old, value: by(old?.value), configurable: true });
  try {
    return await run();
  } finally {
    if (old) Object.defineProperty(object, name, old);
    else delete object[name];
  }
}

test("instantiate and load never block", async () => {
  const refused = () => class { constructor() { throw new Error("blocks"); } };
  const [primary, secondary] = [START_CALLS.primary, START_CALLS.secondary];
  const { primary: addPrimary, secondary: addSecondary } = ADD;
  await replaced(WebAssembly, "Instance", refused, () => replaced(WebAssembly, "Module", (old) => Object.assign(refused(), { imports: old.imports, exports: old.exports }), async () => {
    for (const given of [GIVEN.bytes, GIVEN["a response"]]) {
      const split = await SplitInstance.instantiate(given(addPrimary), () => given(addSecondary));
      await split.load();
      check("add", [split.loaded, split.exports.add(2, 2)], [true, 4]);
    }
    begins("a start that loads in its call has to", await outcomeOf(() => SplitInstance.instantiate(primary, () => secondary, { env: { log() {} } })), "blocks");
  }));
});

// ---- several secondaries ----

// All orders of a list.
const orders = (list) => (list.length < 2 ? [list] : list.flatMap((one, at) => orders(list.filter((_, other) => other !== at)).map((rest) => [one, ...rest])));
// All ways to part a list into so many.
function partings(list, count) {
  if (list.length === 0) return count === 0 ? [[]] : [];
  const [first, ...rest] = list;
  const joining = partings(rest, count).flatMap((parts) => parts.map((_, at) => parts.map((part, other) => (other === at ? [first, ...part] : part))));
  return [...joining, ...partings(rest, count - 1).map((parts) => [[first], ...parts])];
}

// What the calls of an instance of a chain show.
function shown(exports, log, calls) {
  const lines = calls.map((name, at) => [name, exports[name](at), exports.sp.value, exports.table.get(0)(at), ...log.splice(0)]);
  return [...lines, new DataView(exports.memory.buffer).getInt32(0, true)];
}

function wholeShown(input, calls) {
  const log = [];
  const { exports } = new WebAssembly.Instance(new WebAssembly.Module(whole(input)), { env: { log: (n) => log.push(n) } });
  return [...log.splice(0), ...shown(exports, log, calls)];
}

async function partsShown(make, input, groups, calls) {
  const [log, asked] = [[], []];
  const { primary, secondaries } = splitOf(input, groups);
  const map = Object.fromEntries(secondaries.map((bytes, at) => [`placeholder.${at}`, () => (asked.push(at), bytes)]));
  const split = await make(primary, map, { env: { log: (n) => log.push(n) } });
  const got = [...log.splice(0), ...shown(split.exports, log, calls)];
  check("asked for once each", [...new Set(asked)].length, asked.length);
  check("there are those that were asked for", groups.map((_, at) => split.isLoaded(`placeholder.${at}`)), groups.map((_, at) => asked.includes(at)));
  return { got, asked, split };
}

bothWays("two and three secondaries, in every order of first calls", async (make) => {
  const moved = ["one", "two", "three"];
  const seen = new Set();
  for (const groups of [2, 3].flatMap((count) => partings(moved, count)).flatMap(orders)) {
    for (const calls of orders(["one", "two", "three", "both"])) {
      const { got, asked } = await partsShown(make, CHAIN, groups, calls);
      check(`${text(groups)}, ${calls}`, got, wholeShown(CHAIN, calls));
      seen.add(`${groups.length}: ${asked}`);
    }
  }
  check("orders of loads", [2, 3].map((count) => [...seen].filter((one) => one.startsWith(`${count}: `)).length), [2, 6]);
});

bothWays("several secondaries, in a start", async (make) => {
  for (const groups of [2, 3].flatMap((count) => partings(["one", "two", "three"], count)).flatMap(orders)) {
    const { got, split } = await partsShown(make, CHAIN_STARTED, groups, ["two"]);
    check(`${text(groups)}, started`, [got, split.loaded], [wholeShown(CHAIN_STARTED, ["two"]), true]);
  }
  const { got } = await partsShown(make, CHAIN_STARTED, [["first"], ["one", "two"], ["three"]], ["two"]);
  check("the start moved", got, wholeShown(CHAIN_STARTED, ["two"]));
});

bothWays("each secondary at its own first call", async (make) => {
  const { primary, secondaries } = splitOf(CHAIN, [["one"], ["two"], ["three"]]);
  const split = await make(primary, Object.fromEntries(secondaries.map((bytes, at) => [`placeholder.${at}`, bytes])), { env: { log() {} } });
  const there = () => [0, 1, 2].map((at) => split.isLoaded(`placeholder.${at}`));
  check("none", [there(), split.loaded], [[false, false, false], false]);
  split.exports.two(1);
  check("one", [there(), split.loaded], [[false, true, false], false]);
  split.exports.three(0);
  check("another", there(), [false, true, true]);
  split.exports.one(0);
  check("all", [there(), split.loaded], [[true, true, true], true]);
});

bothWays("a map for a pair, and one secondary with a number", async (make) => {
  check("a map for a pair", (await make(ADD.primary, { placeholder: ADD.secondary })).exports.add(1, 2), 3);
  const { primary, secondaries: [only] } = splitOf(CHAIN, [["one", "two"]]);
  const split = await make(primary, only, { env: { log() {} } });
  check("one with a number", [split.isLoaded("placeholder.0"), split.exports.one(1), split.isLoaded("placeholder.0")], [false, 20, true]);
  const named = splitOf(CHAIN, [["one"], ["two"]], NAMES);
  const other = await make(named.primary, { "later.0": named.secondaries[0], "later.1": named.secondaries[1] }, { env: { log() {} } }, NAMES);
  check("other names", [other.exports.one(1), other.loaded, Object.keys(other.exports)], [20, true, ["one", "two", "three", "both", "memory", "sp", "table"]]);
});

bothWays("no secondary at all", async (make) => {
  const { primary } = splitOf(CHAIN, []);
  const split = await make(primary, {}, { env: { log() {} } });
  check("nothing to load", [split.loaded, split.exports.one(1)], [true, 20]);
  await Promise.all([split.load(), split.ready]);
});

// ---- loading beforehand ----

test("load loads one secondary, or all, and calls share a load", async () => {
  const asked = [0, 0, 0];
  const { primary, secondaries } = splitOf(CHAIN, [["one"], ["two"], ["three"]]);
  const map = Object.fromEntries(secondaries.map((bytes, at) => [`placeholder.${at}`, () => ((asked[at] += 1), later(bytes))]));
  const split = await SplitInstance.instantiate(primary, map, { env: { log() {} } });
  let isReady = false;
  split.ready.then(() => (isReady = true));
  check("before", [asked, split.loaded], [[0, 0, 0], false]);
  await Promise.all([split.load("placeholder.1"), split.load("placeholder.1")]);
  check("one", [asked, split.isLoaded("placeholder.1"), split.loaded, isReady], [[0, 1, 0], true, false, false]);
  await Promise.all([split.load(), split.load("placeholder.0"), split.load()]);
  await split.ready;
  check("all", [asked, split.loaded, isReady, split.exports.one(1)], [[1, 1, 1], true, true, 20]);
  await split.load();
  check("again", asked, [1, 1, 1]);
});

test("ready tells that all are there, however they came", async () => {
  const { primary, secondaries } = splitOf(CHAIN, [["one"], ["two"]]);
  const split = new SplitInstance(primary, { "placeholder.0": secondaries[0], "placeholder.1": () => later(secondaries[1]) }, { env: { log() {} } });
  let isReady = false;
  split.ready.then(() => (isReady = true));
  await split.load("placeholder.1");
  await later();
  check("one by load", [split.loaded, isReady], [false, false]);
  check("the other by a call", [split.exports.one(1), split.loaded], [20, true]);
  await split.ready;
});

test("load is safe beside a load by a call", async () => {
  // the call comes at each of the moments of the load
  for (let moment = 0; moment < 12; moment += 1) {
    const seen = await load(WAYS.instantiate, CALLS, { env: { host: (n) => n } });
    const loading = seen.instance.load();
    for (let at = 0; at < moment; at += 1) await null;
    check(`a call after ${moment} moments`, [seen.instance.exports.share(4), seen.instance.loaded], [25, true]);
    await loading;
    check(`after ${moment} moments: the end`, [seen.instance.exports.share(5), seen.instance.exports.outer(1), seen.instance.exports.table.get(0)(3), seen.instance.loaded], [20, 11, 6, true]);
  }
  const answers = [() => later().then(() => { throw new Error("not there"); }), () => ADD.secondary];
  const split = await SplitInstance.instantiate(ADD.primary, () => answers.shift()());
  const loading = split.load();
  check("a call while a load is to fail", split.exports.add(1, 2), 3);
  check("the load is then done", await outcomeOf(async () => (await loading, split.loaded)), true);
});

// ---- what a failed load is ----

test("a failed load outside of a call harms nothing, and may be tried again", async () => {
  const answers = [() => { throw new Error("not there"); }, () => Promise.reject(new Error("gone")), () => response("", "text/html"), () => later(FRAMES_PAIR.secondary)];
  const split = await SplitInstance.instantiate(FRAMES_PAIR.primary, () => answers.shift()(), { env: { log() {}, host: (n) => n } });
  for (const cause of ["not there", "gone", "WebAssembly.compile()"]) {
    const error = await split.load().catch((one) => one);
    check(`${cause}: the error`, [error instanceof SplitLoadError, error.name, error.secondary, error.cause.message.startsWith(cause)], [true, "SplitLoadError", "placeholder", true]);
    begins(`${cause}: its text`, error.message, `the secondary placeholder could not be loaded: ${cause}`);
    check(`${cause}: nothing has changed`, [split.loaded, split.exports.sp.value], [false, 1000]);
  }
  await split.load();
  check("then it comes", [split.exports.frame(2), split.exports.sp.value], [4, 1000]);
});

const FRAMES_PAIR = pairOf(FRAMES, ["rare"]);

// The functions that wait for the call end without putting the stack pointer back: 16 bytes for each of the three.
bothWays("a load that fails within a call is a trap in the middle of it: after three failed loads the stack pointer stands 48 bytes too low", async (make) => {
  const split = await make(FRAMES_PAIR.primary, () => { throw new Error("not there"); }, { env: { log() {}, host: (n) => n } });
  for (let time = 0; time < 3; time += 1) {
    const error = outcome(() => { try { return split.exports.frame(1); } catch (one) { return one; } });
    check(`failed load ${time + 1}`, [error instanceof SplitLoadError, error.secondary, error.cause.message], [true, "placeholder", "not there"]);
  }
  check("the stack pointer", split.exports.sp.value, 1000 - 48);
});

test("a secondary that is waited for and does not come", async () => {
  const { primary, secondaries } = splitOf(CHAIN, [["one"], ["two"]]);
  const error = await SplitInstance.instantiate(primary, { "placeholder.0": secondaries[0], "placeholder.1": Promise.reject(new Error("gone")) }, { env: { log() {} } }).catch((one) => one);
  check("its name", [error instanceof SplitLoadError, error.secondary, error.cause.message], [true, "placeholder.1", "gone"]);
  const late = Promise.reject(new Error("gone"));
  begins("beside a primary that does not come", await outcomeOf(() => SplitInstance.instantiate(Promise.reject(new Error("no primary")), late)), "no primary");
});

// ---- a wrong secondary ----

const CHAIN_PARTS = splitOf(CHAIN, [["one", "two"], ["three"]]);
const STALE = {
  "another number of slots": [splitOf(CHAIN, [["one", "two"]]).secondaries[0], "WebAssembly."],
  "a slot that is not filled": [splitOf(CHAIN, [["one"], ["two", "three"]]).secondaries[0], "it puts no function into slot 1"],
  "another number of parameters": [splitOf(CHAIN_WIDER, [["one", "two"], ["three"]]).secondaries[0], "its function in slot 0 has 2 parameters in place of 1"],
  "slots of others": [splitOf(CHAIN, [["one", "two", "three"], []]).secondaries[0], "it changes slot 2, which is not its own"],
  "a segment past the slots": [module("01 05 01 60 00 01 7F", "03 02 01 00", "04 04 01 70 00 01", "09 07 01 00 41 05 0B 01 00", "0A 06 01 04 00 41 07 0B"), "WebAssembly."],
  "a start function": [module("01 04 01 60 00 00", "03 02 01 00", "08 01 00", "0A 04 01 02 00 0B"), "it has a start function"],
  "an import that the primary lacks": [splitOf({ ...CHAIN, globals: [CHAIN.globals[0], CHAIN.globals[0]], funcs: { ...CHAIN.funcs, one: { type: "i>i", body: [["global.get", 1]] } } }, [["one", "two"], ["three"]]).secondaries[0], "WebAssembly."],
};

bothWays("a wrong secondary is refused, never called, and the right one loads afterwards", async (make) => {
  for (const [what, [wrong, detail]] of Object.entries(STALE)) {
    const log = [];
    const answers = [wrong, wrong, CHAIN_PARTS.secondaries[0]];
    const imports = { env: { log: (n) => log.push(n) } };
    const split = await make(CHAIN_PARTS.primary, { "placeholder.0": () => answers.shift(), "placeholder.1": CHAIN_PARTS.secondaries[1] }, imports);
    const says = (how, error) => {
      check(`${what}, ${how}`, [error instanceof SplitLoadError, error.secondary, split.isLoaded("placeholder.0")], [true, "placeholder.0", false]);
      begins(`${what}, ${how}`, error.message, `the secondary placeholder.0 could not be loaded: it is not the secondary of this primary: ${detail}`);
      check(`${what}, ${how}: not called`, log, []);
    };
    says("by a call", outcome(() => { try { return split.exports.two(1); } catch (error) { return error; } }));
    says("by load", await split.load("placeholder.0").catch((error) => error));
    check(`${what}: another secondary, and then the right one`, [split.exports.three(0) > 0, split.isLoaded("placeholder.0"), split.exports.one(1), split.loaded], [true, false, 20, true]);
  }
});

test("a wrong secondary has no function in the slots at any time", async () => {
  const [wrong] = STALE["slots of others"];
  for (let moment = 0; moment < 12; moment += 1) {
    const log = [];
    const split = await SplitInstance.instantiate(CHAIN_PARTS.primary, { "placeholder.0": () => later(wrong), "placeholder.1": CHAIN_PARTS.secondaries[1] }, { env: { log: (n) => log.push(n) } });
    const refused = split.load("placeholder.0").catch((error) => error);
    await later();
    for (let at = 0; at < moment; at += 1) await null;
    // (a wrong one would have filled its slot by now)
    check(`a call of another after ${moment} moments`, [split.exports.three(0) > 0, split.isLoaded("placeholder.1")], [true, true]);
    check(`refused, after ${moment} moments`, (await refused) instanceof SplitLoadError, true);
  }
});

test("what engines cannot tell: another split with as many slots and parameters", () => {
  const other = pairOf({ ...FRAMES, funcs: { ...FRAMES.funcs, rare: { type: "i>i", body: [["i32.const", 9]] } } }, ["rare"]);
  const split = new SplitInstance(FRAMES_PAIR.primary, other.secondary, { env: { log() {}, host: (n) => n } });
  check("it is taken", split.exports.frame(1), 9);
});

// ---- arguments ----

test("each wrong argument is one TypeError that names it", async () => {
  const wrong = async (what, call, begin) => {
    const error = await Promise.resolve().then(call).then(() => null, (one) => one);
    check(`${what}: a TypeError`, error?.constructor?.name, "TypeError");
    begins(what, error.message, begin);
  };
  const { primary, secondaries: [zero, one] } = splitOf(CHAIN, [["one"], ["two"]]);
  const imports = { env: { log() {} } };
  const map = { "placeholder.0": zero, "placeholder.1": one };
  for (const [way, make] of Object.entries(WAYS)) {
    for (const [what, code] of [["a text", "a.wasm"], ["a number", 5], ["nothing", undefined], ["null", null], ["a URL", new URL("http://h/a.wasm")], ["a function", () => ADD.primary]]) {
      await wrong(`${way}: ${what} as primary`, () => make(code, ADD.secondary), "primary: a WebAssembly.Module");
    }
    for (const [what, code] of [["a text", "a.wasm"], ["nothing", undefined], ["null", null], ["a URL", new URL("http://h/a.wasm")], ["a Map", new Map([["placeholder", zero]])], ["a list", [zero]]]) {
      await wrong(`${way}: ${what} as secondary`, () => make(ADD.primary, code), "secondaries: a WebAssembly.Module");
    }
    await wrong(`${way}: a text in the map`, () => make(primary, { ...map, "placeholder.1": "b.wasm" }, imports), 'secondaries["placeholder.1"]: a WebAssembly.Module');
    await wrong(`${way}: a name that the primary lacks`, () => make(primary, { ...map, "placeholder.2": one }, imports), 'secondaries["placeholder.2"]: the primary has no such placeholder module, but placeholder.0, placeholder.1');
    await wrong(`${way}: a placeholder module without its secondary`, () => make(primary, { "placeholder.0": zero }, imports), "secondaries: the placeholder module placeholder.1 has none");
    await wrong(`${way}: one for two`, () => make(primary, zero, imports), "secondaries: placeholder.0, placeholder.1 need one each");
    await wrong(`${way}: imports`, () => make(primary, map, null), "imports: an object is needed");
    await wrong(`${way}: options`, () => make(primary, map, imports, "p"), "options: an object is needed");
    for (const name of ["importNamespace", "placeholderNamespace", "exportPrefix"]) {
      for (const value of ["", 7, null]) await wrong(`${way}: ${name} ${value}`, () => make(primary, map, imports, { [name]: value }), `options.${name}: a name is needed`);
    }
    await wrong(`${way}: suspend`, () => make(primary, map, imports, { suspend: "yes" }), "options.suspend: true or false");
  }
  const split = new SplitInstance(primary, map, imports);
  await wrong("load of a name that the primary lacks", () => split.load("placeholder.2"), 'module: the primary has no placeholder module "placeholder.2", but placeholder.0, placeholder.1');
  await wrong("load of a number", () => split.load(0), "module: the primary has no placeholder module 0");
  await wrong("isLoaded without a name", () => split.isLoaded(), "module: the primary has no placeholder module undefined");

  const AT_ONCE = "needed at once, and a";
  await wrong("the constructor: a promise as primary", () => new SplitInstance(later(primary), map, imports), `primary: ${AT_ONCE} promise was given: use await SplitInstance.instantiate`);
  await wrong("the constructor: a response as primary", () => new SplitInstance(response(primary), map, imports), `primary: ${AT_ONCE} response`);
  await wrong("the constructor: a promise as secondary", () => new SplitInstance(ADD.primary, later(ADD.secondary)), `secondaries: ${AT_ONCE} promise`);
  await wrong("the constructor: a promise in the map", () => new SplitInstance(primary, { ...map, "placeholder.0": later(zero) }, imports), `secondaries["placeholder.0"]: ${AT_ONCE} promise`);
  await wrong("the constructor: suspend", () => new SplitInstance(primary, map, imports, { suspend: true }), "options.suspend: the constructor cannot wait");
});

test("fetchNow is for workers", async () => {
  const wrong = (what, call, begin) => assert.throws(call, (error) => error instanceof TypeError && error.message.startsWith(begin), what);
  wrong("no XMLHttpRequest", () => fetchNow("a.wasm"), "fetchNow: there is no XMLHttpRequest here to fetch a.wasm");
  wrong("no address", () => fetchNow(7), "address: a text or a URL is needed, not 7");
  const request = (status) => () => class { open(method, address, waits) { check("a request", [method, String(address), waits], ["GET", "http://h/a.wasm", false]); } send() { this.status = status; this.response = new ArrayBuffer(3); } };
  await replaced(globalThis, "XMLHttpRequest", request(200), async () => check("fetched", fetchNow(new URL("http://h/a.wasm")).byteLength, 3));
  await replaced(globalThis, "XMLHttpRequest", request(404), async () => assert.throws(() => fetchNow("http://h/a.wasm"), /the server answered with status 404/));
  await replaced(globalThis, "XMLHttpRequest", request(200), () => replaced(globalThis, "document", () => ({}), async () => wrong("a window", () => fetchNow("a.wasm"), "fetchNow: a window may not wait for a.wasm")));
});

// ---- calls that are suspended ----

const hasSuspending = "Suspending" in WebAssembly;

test("suspend is refused where the engine has no promise integration", { skip: hasSuspending && "this engine has it" }, async () => {
  const error = await SplitInstance.instantiate(ADD.primary, ADD.secondary, {}, { suspend: true }).catch((one) => one);
  check("the error", error.message, "options.suspend: this engine has no promise integration (WebAssembly.Suspending)");
});

test("calls that are suspended", { skip: !hasSuspending && "this engine has no promise integration" }, async () => {
  const made = pairs.suspendModules();
  await checkSuspending((name) => made[name], check);
});

// Stands in for an engine that calls the function of a placeholder before it finds that it cannot suspend the call. (It never suspends any.)
const CALLS_FIRST = {
  Suspending: () => function (func) { return func; },
  promising: () => (func) => async (...args) => func(...args),
  SuspendError: () => class extends Error {},
};

test("a first call that cannot be suspended asks for nothing, and is not made later", () => {
  const inEngine = Object.entries(CALLS_FIRST).reduce((run, [name, by]) => () => replaced(WebAssembly, name, by, run), checkUnsuspended);
  return inEngine();
});

async function checkUnsuspended() {
  const log = [];
  let [asked, host] = [0, null];
  const give = () => ((asked += 1), later(FRAMES_PAIR.secondary));
  const split = await SplitInstance.instantiate(FRAMES_PAIR.primary, give, { env: { log: (n) => log.push(n), host: (n) => host(n) } }, { suspend: true });
  const { back, rare, table } = split.exports;
  const says = "a moved function is called for the first time below a JavaScript frame, or not from an export";
  begins("a function from a table", outcome(() => table.get(0)(7)), says);
  host = rare;
  begins("an import that calls back", await outcomeOf(() => back(1)), says);
  check("nothing is asked for", asked, 0);
  host = table.get(0);
  await back(1);
  await split.ready;
  await later();
  check("a call that has ended meanwhile", [asked, log], [1, []]);
}

// ---- the package ----

test("the package", async () => {
  const { name, type, exports, types, dependencies, files } = JSON.parse(readFileSync(join(HERE, "package.json"), "utf8"));
  check("its kind", [type, dependencies, exports["."].types === types], ["module", undefined, true]);
  for (const file of files) check(`${file} is there`, existsSync(join(HERE, file)), true);
  const imported = files.filter((file) => file.endsWith(".mjs")).flatMap((file) => [...readFileSync(join(HERE, file), "utf8").matchAll(/\bfrom "([^"]*)"/g)].map(([, from]) => from));
  check("its files import none but one another", imported.filter((from) => !files.includes(from.replace("./", ""))), []);
  check("by its name", Object.keys(await import(name)), ["SplitInstance", "SplitLoadError", "exportStart", "fetchNow"]);
});

const tsc = spawnSync("tsc", ["--version"], { encoding: "utf8" });

test("the types, over uses that are right and wrong", { skip: tsc.status !== 0 && "no tsc" }, () => {
  const options = ["--noEmit", "--strict", "--target", "es2022", "--lib", "es2022,dom", "--module", "node16", "--moduleResolution", "node16", "--typeRoots", "."];
  const { status, stdout } = spawnSync("tsc", [...options, "types_test.ts"], { cwd: HERE, encoding: "utf8" });
  assert.equal(`${stdout}${status}`, "0");
});

// ---- pairs that the program makes ----

// The modules that the program writes; null where it does not know the option that they need.
function byProgram(input, words, outputs, files = {}) {
  const work = mkdtempSync(join(tmpdir(), "loader-"));
  try {
    for (const [name, held] of Object.entries({ "i.wasm": whole(input), ...files })) writeFileSync(join(work, name), held);
    const { status, stderr } = spawnSync(PROGRAM, ["split", "i.wasm", ...words], { cwd: work, encoding: "utf8" });
    if (status === 2) return null;
    assert.equal(status, 0, stderr);
    return outputs.map((name) => readFileSync(join(work, name)));
  } finally {
    rmSync(work, { recursive: true });
  }
}

const OPTIONS = { importNamespace: "--import-namespace", placeholderNamespace: "--placeholder-namespace", exportPrefix: "--export-prefix" };
const wordsOf = (options) => Object.entries(OPTIONS).flatMap(([name, word]) => (options[name] ? [`${word}=${options[name]}`] : []));

test("the pairs by hand are those that the rules make", () => {
  for (const [name, { primary, secondary }, input, moved, options] of pairs.BY_HAND) {
    const made = pairOf(input, moved, options);
    check(name, [made.primary.toString("hex"), made.secondary.toString("hex")], [primary.toString("hex"), secondary.toString("hex")]);
  }
  const G = pairs.BY_HAND.find(([name]) => name === "through")[2];
  const { primary, secondaries: [zero, one] } = splitOf(G, [["f"], ["g"]]);
  check("two secondaries", [primary, zero, one].map((bytes) => bytes.toString("hex")), pairs.TWO_BY_HAND.map((bytes) => bytes.toString("hex")));
});

const isBuilt = existsSync(PROGRAM);

test("the program makes the same pairs", { skip: !isBuilt && "the program is not built" }, () => {
  const cases = [...pairs.BY_HAND, ["chain", null, CHAIN, ["one", "three"]], ["chain, started", null, CHAIN_STARTED, ["two", "first"]], ["frames", null, FRAMES, ["rare"]]];
  for (const [name, , input, moved, options = {}] of cases) {
    const made = pairOf(input, moved, options);
    const list = options.asked ?? moved;
    const got = byProgram(input, [`--split-funcs=${list}`, "--primary-output=p", "--secondary-output=q", ...wordsOf(options)], ["p", "q"]);
    check(name, got.map((bytes) => bytes.toString("hex")), [made.primary.toString("hex"), made.secondary.toString("hex")]);
  }
});

const groupsIn = (groups) => JSON.stringify(groups.map((functions, at) => ({ output: `q${at}`, functions })));
const makesSeveral = isBuilt && byProgram(FRAMES, ["--groups=m.json", "--primary-output=p"], ["p", "q0"], { "m.json": groupsIn([["rare"]]) }) !== null;

test("the program makes the same of several secondaries", { skip: isBuilt ? !makesSeveral && "the program has no --groups" : "the program is not built" }, () => {
  for (const groups of [2, 3].flatMap((count) => partings(["one", "two", "three"], count)).flatMap(orders)) {
    const { primary, secondaries } = splitOf(CHAIN, groups);
    const got = byProgram(CHAIN, ["--groups=m.json", "--primary-output=p"], ["p", ...groups.map((_, at) => `q${at}`)], { "m.json": groupsIn(groups) });
    check(text(groups), got.map((bytes) => bytes.toString("hex")), [primary, ...secondaries].map((bytes) => bytes.toString("hex")));
  }
});
