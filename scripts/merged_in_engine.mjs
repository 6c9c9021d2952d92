#!/usr/bin/env node
// Runs merged modules in this engine.
//
//     scripts/merged_in_engine.mjs SAMPLES PROGRAM
//
// SAMPLES has two folders of parts. Those of `m2` import from the ones before them, so that this engine can also link them one after the
// other: the merged module must give what they give, for the same calls. Two of `mstart` import from each other, which no engine links part
// by part: what their starts log, and what their exports then give, is written out here by the rule that all is
// allocated first, then all segments are copied by part, and then all starts run by part.
import { join } from "node:path";
import { check, finish, moduleIn, outcome, report, written } from "./engine_checks.mjs";

const [samples, program] = process.argv.slice(2);

// The merged module of the parts in a folder, each named like its file.
function merged(folder, names) {
  const words = ["merge", ...names.flatMap((name) => [`${name}.wasm`, name])];
  return new WebAssembly.Module(written(program, join(samples, folder), words).bytes);
}

// What the embedder is shown by two parts that are linked one after the other, or by the merged module.
function library(instantiate) {
  const log = [];
  const outside = {
    host: { out: (a, b) => log.push(`out ${a} ${b}`) },
    env: { no_such: (a) => (log.push(`no_such ${a}`), a + 1) },
  };
  const { env, app } = instantiate(outside);
  const bytes = (from, length) => Array.from(new Uint8Array(env.memory.buffer, from, length));
  const calls = [
    ["add", () => app.add(255n)], ["add again", () => app.add(-1n)], ["add a third", () => app.add(4096n)],
    ["fixed", () => app.fixed()], ["sort", () => app.sortnames()], ["probe", () => app.probe(7)], ["probe far", () => app.probe(-1)],
    ["live", () => env.live()], ["test", () => env.test(5)], ["round trip", () => env.roundtrip(123456789n)],
    ["clear", () => app.clear()], ["live after", () => env.live()], ["copy out of bounds", () => env.memcpy(-8, 0, 64)],
  ];
  for (const [name, call] of calls) {
    log.push(`${name}: ${outcome(call)}`);
  }
  log.push(bytes(1048576, 4096).join(" "), env.memory.buffer.byteLength);
  return log;
}

function checkLibrary() {
  const apart = library((outside) => {
    const env = new WebAssembly.Instance(moduleIn(join(samples, "m2"), "env.wasm"), outside).exports;
    const app = new WebAssembly.Instance(moduleIn(join(samples, "m2"), "app.wasm"), { ...outside, env: { ...env, ...outside.env } }).exports;
    return { env, app };
  });
  const together = library((outside) => {
    const all = new WebAssembly.Instance(merged("m2", ["env", "app"]), outside).exports;
    return { env: all, app: all };
  });
  check("m2", together, apart);
  if (apart.length < 15 || apart.filter((line) => String(line).endsWith("traps")).length === 0) {
    report("m2: the calls show too little");
  }
}

function checkStarts() {
  const log = [];
  const all = new WebAssembly.Instance(merged("mstart", ["a", "b", "c"]), { host: { log: (n) => log.push(n) } }).exports;
  // a logs its copy of b's base, b logs 1000 and its copy of c's root, c logs 3
  check("mstart: what the starts log", log, [256, 1007, 3]);
  // a adds 1 and b adds 10
  check("mstart: what the starts leave in memory", all.peek(16), 11);
  // "from", "from", and a's segment at b's base
  check("mstart: segments", [all.peek(32), all.peek(64), all.peek(256) & 0xffff], [0x6d6f7266, 0x6d6f7266, 0x2141]);
  // b's function in slot 1 adds 7, c's in slot 2 multiplies by 11
  check("mstart: the shared table", [all.call(1, 5), all.call(2, 5), outcome(() => all.call(3, 5))], [12, 55, "traps"]);
  check("mstart: globals", [all.base.value, all.base2.value, all.root.value, all.acount.value], [256, 256, 7, 0]);
  check("mstart: references", [all.fref(), all.isn(0), (all.seten(0, {}), all.isn(0))], [0, 1, 0]);
  all.relog(9);
  check("mstart: an import that is exported", log, [256, 1007, 3, 9]);
}

checkLibrary();
checkStarts();
finish("merged in an engine");
