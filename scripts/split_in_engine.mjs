#!/usr/bin/env node
// Runs split modules in this engine, with the loader of loader/, beside the modules that were split.
//
//     scripts/split_in_engine.mjs SAMPLES PROGRAM
//
// PROGRAM is called as `split FILE --split-funcs=.. --primary-output=P --secondary-output=Q`, and with --keep-funcs in place of --split-funcs. This
// needs a program that has the command; any other that takes these words can stand in.
// SAMPLES holds modules, in it and in folders. Each is split by the names of its functions (all, every second one, the others, some alone, and all
// but the named ones) and, without its name section, by its exports; those without a start function also with one of their own exports as start.
// Each pair is made twice: at once, and the secondary comes when it is needed; and without blocking, and it is loaded before the first call.
// Whatever a module imports is made here, the same for both: functions that log and count, memories, tables, globals. The pair must then show what
// the module shows: its exports, the result or the trap of each call of an export and of each function in a table, what it calls with which values,
// and after each call all memories, globals and tables. A module outside the integer profile must be refused: SAMPLES holds EXPECT.tsv,
// which tells which ones `merge` refuses.
import { execFileSync } from "node:child_process";
import { mkdtempSync, readFileSync, rmSync, writeFileSync } from "node:fs";
import { tmpdir } from "node:os";
import { join, relative, resolve } from "node:path";
import { SplitInstance } from "../loader/split_instance.mjs";
import { check, finishCounted, report } from "./engine_checks.mjs";
import { canBeListed, read, takesAndGivesNothing, withStart, withoutCustom } from "./module_bytes.mjs";
import { Shown, VALUES, callsOf, instantiated, modulesIn, showsTheSame, surroundings } from "./module_shown.mjs";

const [samples, program] = process.argv.slice(2);
const expect = readFileSync(join(samples, "EXPECT.tsv"), "utf8").split("\n").map((line) => line.split("\t"));
const ALONE = 6; // functions of a module that are split off alone
const ROUNDS = 3;
const seen = { modules: 0, refused: 0, pairs: 0, "loaded at a call": 0, "loaded in a start": 0, "never loaded": 0, "loaded before": 0, "not instantiated": 0, calls: 0, traps: 0, "calls through tables": 0 };

// The arguments of a call are of a round.
const argsOf = ([params], round) => params.map((type, at) => VALUES[type][(round * 2 + at) % VALUES[type].length]);

// ---- splitting, and comparing ----

const work = mkdtempSync(join(tmpdir(), "split-"));

// The pair, or null where the module is outside the profile.
function split(bytes, list) {
  const [file, p, q] = ["i.wasm", "p.wasm", "q.wasm"].map((name) => join(work, name));
  writeFileSync(file, bytes);
  try {
    execFileSync(resolve(program), ["split", file, list, `--primary-output=${p}`, `--secondary-output=${q}`], { stdio: ["ignore", "ignore", "pipe"] });
  } catch ({ status, stderr }) {
    if (status === 1 && /: unsupported in /.test(stderr)) return null;
    throw new Error(`the program ends with ${status}: ${stderr}`);
  }
  return { primary: readFileSync(p), secondary: readFileSync(q) };
}

// The two ways to make an instance of a pair.
const WAYS = {
  "at once": (pair, imports) => new SplitInstance(pair.primary, () => pair.secondary, imports),
  before: async (pair, imports) => {
    const parts = await SplitInstance.instantiate(pair.primary, () => pair.secondary, imports);
    await parts.load();
    return parts;
  },
};

// Instantiating may trap.
async function trapped(make) {
  try {
    return await make();
  } catch (error) {
    if (error instanceof WebAssembly.RuntimeError) return null;
    throw error;
  }
}

async function compare(what, module, pair) {
  for (const way of Object.keys(WAYS)) await compareMade(`${what} ${way}`, module, pair, way);
}

async function compareMade(what, module, pair, way) {
  const [alone, around] = [surroundings(module), surroundings(module)];
  const whole = instantiated(alone, (imports) => new WebAssembly.Instance(new WebAssembly.Module(module.bytes), imports));
  const parts = await trapped(() => WAYS[way](pair, around.objects));
  seen.pairs += 1;
  if (!check(`${what}: instantiated`, [parts !== null, ...around.log.splice(0)], [whole !== null, ...alone.log.splice(0)])) return;
  if (whole === null) {
    seen["not instantiated"] += 1;
    return;
  }
  if (!check(`${what}: exports`, Object.keys(parts.exports), Object.keys(whole.exports))) return;
  const inStart = parts.loaded;
  const expected = new Shown(alone, whole.exports, seen);
  if (!showsTheSame(what, callsOf(module, expected, ROUNDS, argsOf), new Shown(around, parts.exports, seen), expected)) return;
  seen[way === "before" ? "loaded before" : inStart ? "loaded in a start" : parts.loaded ? "loaded at a call" : "never loaded"] += 1;
}

// A word for each function that the program takes for it alone: its name, or that of an export where it has none.
function wordsOf({ names, exports, firstDefined }) {
  const borne = names.filter(([index]) => index >= firstDefined);
  const bearers = new Map();
  for (const [, name] of borne) bearers.set(name, (bearers.get(name) ?? 0) + 1);
  const named = borne.filter(([, name]) => canBeListed(name) && bearers.get(name) === 1);
  const has = new Set(borne.map(([index]) => index));
  const exported = exports.filter(({ kind, index, name }) => kind === 0 && index >= firstDefined && !has.has(index) && canBeListed(name) && !bearers.has(name));
  return [...new Map([...exported.map(({ index, name }) => [index, name]), ...named])].sort(([a], [b]) => a - b).map(([, word]) => word);
}

// Lists of functions to split, by their words.
function listsByName(module) {
  const words = wordsOf(module);
  if (words.length === 0) return [];
  const half = (rest) => words.filter((_, at) => at % 2 === rest);
  const step = Math.max(1, Math.floor(words.length / ALONE));
  const lists = [words, half(0), half(1), ...words.filter((_, at) => at % step === 0).map((name) => [name])];
  return [...lists.filter((list) => list.length > 0).map((list) => `--split-funcs=${list}`), `--keep-funcs=${words}`];
}

function listsByExport({ exports, firstDefined }) {
  const words = exports.filter(({ kind, index, name }) => kind === 0 && index >= firstDefined && canBeListed(name)).map(({ name }) => name);
  return words.length === 0 ? [] : [`--split-funcs=${words}`, `--split-funcs=${words.filter((_, at) => at % 2 === 0)}`, `--keep-funcs=${words}`];
}

async function trySplits(what, module, lists, isRefused) {
  for (const list of lists) {
    const which = `${what} ${list.slice(0, 60)}`;
    try {
      const pair = split(module.bytes, list);
      if (check(`${which}: refused`, pair === null, isRefused) && !isRefused) await compare(which, module, pair);
    } catch (error) {
      report(`${which}: ${error.message}`);
    }
  }
}

async function trySample(what, bytes) {
  const module = read(bytes);
  const isRefused = expect.some(([sample, , status]) => sample === what && status === "1");
  seen.modules += 1;
  if (isRefused) seen.refused += 1;
  await trySplits(what, module, listsByName(module), isRefused);
  const nameless = read(withoutCustom(bytes));
  await trySplits(`${what} without names`, nameless, listsByExport(nameless), isRefused);
  const plain = module.exports.find(({ kind, index }) => kind === 0 && index < 128 && takesAndGivesNothing(module.funcs[index]));
  if (module.hasStart || !plain) return;
  const started = read(withStart(bytes, plain.index));
  await trySplits(`${what} started`, started, listsByName(started).slice(0, 3), isRefused);
}

try {
  for (const file of modulesIn(samples)) await trySample(relative(samples, file), readFileSync(file));
} finally {
  rmSync(work, { recursive: true });
}
finishCounted("split in an engine", seen);
