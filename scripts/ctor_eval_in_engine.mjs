#!/usr/bin/env node
// Runs modules before and after `ctor-eval` in this engine.
//
//     scripts/ctor_eval_in_engine.mjs SAMPLES PROGRAM
//
// PROGRAM is called as `ctor-eval FILE --ctors=.. [--kept-exports=..] -o O`. SAMPLES holds modules, in it and in folders, and EXPECT.tsv, which tells
// what `merge` of each alone answers. Constructors are the exported functions that take and give nothing, and, in a copy of each module, some that are
// added here: they call other exports with arguments from a seed, and store to memory. They are listed alone, together, in both orders, and with some
// exports kept.
// The module after the constructors that the lines call evaluated, which are called here, must then show what the output shows without any call: the
// result or the trap of each call of the other exports and of each function in a table, what it calls with which values, and after each call all
// memories, globals and tables. A constructor that is evaluated calls no import and does not trap. One that is stopped by `import` calls one here, one
// that is stopped by `trap` traps and calls none, `unknown` needs a table, memory or global that is imported, and `signature` stops those that take or
// give something and no others; `grow`, `table write`, `steps` and `depth` are only counted. Where nothing is evaluated, the output is that of `merge`.
// A module outside the integer profile must be refused as `merge` refuses it.
import { mkdtempSync, readFileSync, rmSync, writeFileSync } from "node:fs";
import { tmpdir } from "node:os";
import { basename, dirname, join, relative } from "node:path";
import { check, finishCounted, ran, report, written } from "./engine_checks.mjs";
import { canBeListed, read, signed, takesAndGivesNothing, unsigned, withFunctions } from "./module_bytes.mjs";
import { Shown, VALUES, callsOf, instantiated, modulesIn, showsTheSame, surroundings } from "./module_shown.mjs";

const [samples, program] = process.argv.slice(2);
const ROUNDS = 5;
const ADDED = 6; // constructors that are added to a module
const STEPS = 3; // calls and stores in each
// what stops one in a sample; the memory of none is so large that too much of it could be written
const STOPS = ["import", "grow", "table write", "unknown", "trap", "signature", "steps", "depth"];
const seen = { modules: 0, refused: 0, runs: 0, "outputs compared": 0, evaluated: 0, "kept exports": 0, "instantiation stopped": 0 };
STOPS.forEach((text) => (seen[`stopped by ${text}`] = 0));
Object.assign(seen, { calls: 0, traps: 0, "calls through tables": 0 });

// ---- values from a seed ----

// The generator of the C standard's example; each draw is below a number.
function draws(seed) {
  let state = seed;
  return (below) => {
    state = (Math.imul(state, 1103515245) + 12345) & 0x7fffffff;
    return (state >>> 8) % below;
  };
}

// A value of a type: a small number or a place in memory, or, of those that are tried in every module, one.
const small = (draw) => [draw(16), draw(256), 1024 + draw(65536)][draw(3)];
const tried = (type, draw) => VALUES[type][draw(VALUES[type].length)];

function drawn(type, draw) {
  if (draw(4) === 0 || !["i32", "i64"].includes(type)) return tried(type, draw);
  return type === "i32" ? small(draw) : BigInt(small(draw));
}

// ---- constructors that are added ----

const ARGUMENTS = {
  i32: (draw) => [0x41, ...signed(small(draw))],
  i64: (draw) => [0x42, ...signed(small(draw))],
  funcref: () => [0xd0, 0x70],
  externref: () => [0xd0, 0x6f],
};

// A call of a function, whose results are dropped.
function call(index, [params, results], draw) {
  return [...params.flatMap((type) => ARGUMENTS[type](draw)), 0x10, ...unsigned(index), ...results.map(() => 0x1a)];
}

// An i64.store in the first page.
const store = (draw) => [0x41, ...signed(draw(65528)), 0x42, ...signed(1 + draw(1 << 20)), 0x37, 0, 0];

// Exports in `long` take too many steps to be called again and again.
function withConstructors(module, long, draw) {
  const funcs = module.exports.filter(({ kind, name }) => kind === 0 && !long.has(name));
  const hasMemory = module.exports.some(({ kind }) => kind === 2);
  const step = () => {
    if (funcs.length > 0 && draw(4) > 0) {
      const { index } = funcs[draw(funcs.length)];
      return call(index, module.funcs[index], draw);
    }
    return hasMemory ? store(draw) : [];
  };
  const added = Array.from({ length: ADDED }, (_, at) => ({ name: `added ${at}`, body: Buffer.from(Array.from({ length: STEPS }, step).flat()) }));
  return { module: read(withFunctions(module, added)), names: added.map(({ name }) => name) };
}

// ---- what the lines tell ----

// The constructors that were evaluated, and what stopped the next one or the instantiation.
function told(what, list, lines) {
  const evaluated = lines.filter((line) => line.startsWith("evaluated ")).length;
  const [, start, text] = lines[evaluated]?.match(/^(instantiation stopped|stopped at .*): (.*)$/) ?? [];
  const where = evaluated === 0 && start === "instantiation stopped" ? start : `stopped at ${list[evaluated]}`;
  check(`${what}: lines`, lines, [...list.slice(0, evaluated).map((name) => `evaluated ${name}`), ...(evaluated < list.length ? [`${where}: ${text}`] : [])]);
  if (text !== undefined && !STOPS.includes(text)) report(`${what}: ${text} is no stop`);
  return { evaluated: list.slice(0, evaluated), text, inStart: start === "instantiation stopped" };
}

// ---- what is done here ----

// A new instance in which these exports were called: what that came to, and what it called.
function after(module, names) {
  const around = surroundings(module);
  const instance = instantiated(around, (imports) => new WebAssembly.Instance(new WebAssembly.Module(module.bytes), imports));
  const shown = instance && new Shown(around, instance.exports, seen);
  const outcomes = [instance === null ? "traps" : "", ...(instance ? names.map((name) => shown.outcome(() => instance.exports[name]())) : [])];
  return { around, exports: instance?.exports, traps: outcomes.includes("traps"), quiet: around.log.length === 0 };
}

// Whether a stop is one that the module can have, where this was seen when it ran here.
function checkStop(what, module, text, { traps, quiet }) {
  const has = (kinds) => module.imports.some(({ kind }) => kinds.includes(kind));
  const holds = { import: !quiet, trap: traps && quiet, unknown: has([1, 2, 3]) }[text] ?? true;
  if (!holds) report(`${what}: stopped by ${text}, and here it ${traps ? "traps" : "does not trap"} and calls ${quiet ? "nothing" : "an import"}`);
}

const isKind = (wanted) => ({ kind }) => kind === wanted;

// The output beside the module in which the evaluated constructors are called.
function compare(what, place, bytes, evaluated, kept, draw) {
  const { module } = place;
  const before = after(module, evaluated);
  if (!check(`${what}: evaluated here`, [before.traps, before.quiet], [false, true])) return;
  const output = after({ ...module, bytes }, []);
  if (!check(`${what}: instantiated`, [output.traps, output.quiet], [false, true])) return;
  seen["outputs compared"] += 1;
  const tree = read(bytes);
  const stays = ({ name }) => !evaluated.includes(name) || kept.includes(name);
  const nameAndKind = ({ name, kind }) => [name, kind];
  check(`${what}: exports`, tree.exports.map(nameAndKind), module.exports.filter(stays).map(nameAndKind));
  check(`${what}: start`, tree.hasStart, false);
  for (const name of evaluated.filter((one) => kept.includes(one))) {
    seen["kept exports"] += 1;
    // one new function, which does nothing
    check(`${what}: the kept export ${name}`, [output.exports[name].name, String(output.exports[name]())], [String(module.funcs.length), "undefined"]);
  }
  const others = module.exports.filter(({ name }) => !evaluated.includes(name));
  const called = others.filter(({ name }) => !place.long.has(name));
  const shown = ({ around, exports }) => new Shown(around, Object.fromEntries(others.map(({ name }) => [name, exports[name]])), seen);
  const expected = shown(before);
  const calls = callsOf({ ...module, exports: called }, expected, ROUNDS, ([params]) => params.map((type) => drawn(type, draw)));
  showsTheSame(what, calls, shown(output), expected);
}

// ---- the runs ----

const work = mkdtempSync(join(tmpdir(), "evaluated-"));

function tryList(what, place, list, kept, draw) {
  const { module } = place;
  const words = ["ctor-eval", place.file, `--ctors=${list}`, ...(kept.length > 0 ? [`--kept-exports=${kept}`] : [])];
  const which = `${what} ${words.slice(2).join(" ")}`;
  const { lines, bytes } = written(program, place.folder, words);
  seen.runs += 1;
  const { evaluated, text, inStart } = told(which, list, lines);
  seen.evaluated += evaluated.length;
  if (text !== undefined) seen[`stopped by ${text}`] += 1;
  if (text === "steps") place.long.add(list[evaluated.length]);
  if (inStart) {
    seen["instantiation stopped"] += 1;
    checkStop(which, module, text, after(module, []));
  } else if (text !== undefined) {
    const { index } = module.exports.find(({ name }) => name === list[evaluated.length]);
    const fits = takesAndGivesNothing(module.funcs[index]);
    check(`${which}: signature`, text === "signature", !fits);
    // (one that takes too many steps may never end here)
    if (fits && text !== "steps") checkStop(which, module, text, after(module, list.slice(0, evaluated.length + 1)));
  }
  if (evaluated.length > 0) return compare(which, place, bytes, evaluated, kept, draw);
  place.alone ??= written(program, place.folder, ["merge", place.file, "m"]).bytes;
  if (!bytes.equals(place.alone)) report(`${which}: nothing is evaluated, and the output is not that of merge`);
}

const everySecond = (list, rest) => list.filter((_, at) => at % 2 === rest);

// Lists of constructors, each with the exports that are kept. A name that is not exported may stand among these.
function listsOf(names, own, signature) {
  const backwards = [...names].reverse();
  const kept = (list) => [...everySecond(list, 0), "no export"];
  return [
    ...names.map((name) => [[name], []]), [names, []], [names, kept(names)], [names, names], [backwards, []], [backwards, kept(backwards)],
    [everySecond(names, 1), []], [[...own, ...names, ...signature], own],
  ].filter(([list]) => list.length > 0);
}

function tryLists(what, place, names, draw) {
  const { module } = place;
  const listed = module.exports.filter(isKind(0)).filter(({ name }) => canBeListed(name));
  const fits = ({ index }) => takesAndGivesNothing(module.funcs[index]);
  const all = listed.filter(fits).map(({ name }) => name);
  const constructors = names.length > 0 ? names : all;
  const own = all.filter((name) => !constructors.includes(name));
  const signature = listed.filter((one) => !fits(one)).slice(0, 1).map(({ name }) => name);
  for (const [list, kept] of listsOf(constructors, own, signature)) {
    try {
      tryList(what, place, list, kept, draw);
    } catch (error) {
      report(`${what} ${list}: ${error.message}`);
    }
  }
}

const escaped = (text) => text.replaceAll("\n", "\\n");

// What `merge` of a module alone must print as error, by EXPECT.tsv; a text to start with where it does not tell.
function isRefused(file, place, expect) {
  const { status, stderr, lines, bytes } = ran(program, place.folder, ["ctor-eval", place.file, "--ctors=zz"]);
  const row = expect.find(([sample, words]) => sample === file && words.startsWith("merge ") && words.split(" ").length === 5);
  const refused = row ? row[2] === "1" : /: unsupported in /.test(stderr);
  const expected = !refused ? "binkit: no exported function zz\\n" : row ? row[4] : escaped(stderr);
  check(`${file}: a name that is not exported`, [status, escaped(stderr), lines, bytes], [1, expected, [], null]);
  return refused;
}

function trySample(file, expect, seed) {
  const place = { folder: join(samples, dirname(file)), file: basename(file) };
  seen.modules += 1;
  if (isRefused(file, place, expect)) {
    seen.refused += 1;
    return;
  }
  const [draw, long] = [draws(seed), new Set()];
  const module = read(readFileSync(join(samples, file)));
  tryLists(file, { ...place, module, long }, [], draw);
  // (stores between the blocks of an allocator may make it search for ever)
  if (module.exports.some(({ name }) => name === "malloc")) return;
  const more = withConstructors(module, long, draw);
  writeFileSync(join(work, "added.wasm"), more.module.bytes);
  tryLists(`${file} with constructors`, { folder: work, file: "added.wasm", module: more.module, long }, more.names, draw);
}

const expect = readFileSync(join(samples, "EXPECT.tsv"), "utf8").split("\n").map((line) => line.split("\t"));
try {
  modulesIn(samples).forEach((path, at) => trySample(relative(samples, path), expect, at));
} finally {
  rmSync(work, { recursive: true });
}
// No sample calls itself so deep, and none of those that export a table has a constructor that is evaluated: these may be 0.
for (const rare of ["stopped by depth", "calls through tables"]) if (seen[rare] === 0) delete seen[rare];
finishCounted("modules before and after ctor-eval in an engine", seen);
