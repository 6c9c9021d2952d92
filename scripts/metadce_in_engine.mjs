#!/usr/bin/env node
// Runs modules before and after `metadce` in this engine.
//
//     scripts/metadce_in_engine.mjs SAMPLES PROGRAM
//
// Each module of SAMPLES that is named here gets a graph as a toolchain writes it: a root node for each export that the page calls, a root node of the
// loader that reaches what the runtime uses, and a node for each import that reaches what the function behind it uses. The page then makes the same
// calls, at least one of each function that is kept, on the module as it was and on what is left of it, over the same host: results, traps, memory,
// globals and tables must be the same after each call. What the lines call unused must be gone and nothing else, and the module must not have grown.
import { createHash } from "node:crypto";
import { mkdtempSync, rmSync, statSync, writeFileSync } from "node:fs";
import { tmpdir } from "node:os";
import { join } from "node:path";
import { check, finish, moduleIn, outcome, report, written } from "./engine_checks.mjs";

const [samples, program] = process.argv.slice(2);

// ---- the cases ----
//
// file     the module
// page     exports that the page calls
// loader   exports that the runtime uses
// behind   what the function behind an import uses, by import
// unused   the nodes that nothing reaches, in byte order
// host     what the page gives for the imports: it may log, and call what is kept
// calls    a function that is kept, and its arguments
const cases = [
  {
    file: "c_tiny.wasm", page: ["gcd"], loader: ["memory"], behind: {}, unused: ["export fib", "export popmix"],
    host: () => ({}),
    calls: [["gcd", 1071, 462], ["gcd", 0, 7], ["gcd", -5, 15]],
  },
  {
    // a module that is used whole
    file: "c_tiny.wasm", page: ["gcd", "fib", "popmix"], loader: ["memory"], behind: {}, unused: [],
    host: () => ({}),
    calls: [["gcd", 48, 36], ["fib", 60], ["popmix", 255, 1n << 40n]],
  },
  {
    file: "c_multival.wasm", page: ["mix", "loop"], loader: ["memory"], behind: {}, unused: ["export divmod", "export mulwide", "export tri"],
    host: () => ({}),
    calls: [["mix", 5n, 9n], ["mix", -1n, 3n], ["loop", 100], ["loop", 0]],
  },
  {
    file: "c_multival.wasm", page: ["divmod", "tri"], loader: ["memory"], behind: {}, unused: ["export loop", "export mix", "export mulwide"],
    host: () => ({}),
    calls: [["divmod", 17, 5], ["divmod", 1, 0], ["tri", 4]],
  },
  {
    // the functions that a segment puts into the table stay: the sorting and comparing functions are called through it
    file: "c_sort.wasm", page: ["sort"], loader: ["memory"], behind: {}, unused: ["export raw", "export rawcmp"],
    host: () => ({}),
    calls: [0, 1, 2].flatMap((how) => [0, 1, 2, 3].map((order) => ["sort", how, order, 300, 7])),
  },
  {
    // virtual calls, and constructors that the loader runs
    file: "cxx.wasm", page: ["speak", "mix64"], loader: ["memory", "__wasm_call_ctors"], behind: {}, unused: ["export grow", "export look", "export mix32"],
    host: () => ({}),
    calls: [["__wasm_call_ctors"], ["speak", 0, 3, 4n], ["speak", 1, 3, 4n], ["speak", 1, -1, -1n], ["mix64", 1n, 2n, 3n]],
  },
  {
    // the log reads the text that it is given in memory
    file: "rs_app.wasm", page: ["words", "shapes"], loader: ["memory"], behind: { "env.log": ["memory"] },
    unused: ["export __data_end", "export __heap_base", "export checked", "export expr", "export reset"],
    host: (log, exports) => ({ env: { log: (from, length) => (log.push(text(exports().memory, from, length)), length) } }),
    calls: [["words", 12], ["shapes", 5], ["words", 0], ["shapes", 40], ["words", 300]],
  },
  {
    file: "rs_app.wasm", page: ["checked"], loader: ["memory", "reset"], behind: { "env.log": ["memory"] },
    unused: ["export __data_end", "export __heap_base", "export expr", "export shapes", "export words", "import env.log"],
    host: (log, exports) => ({ env: { log: (from, length) => (log.push(text(exports().memory, from, length)), length) } }),
    calls: [["checked", 7, 2], ["reset"], ["checked", 7, 0], ["checked", -2147483648, -1]],
  },
  {
    // a passive segment keeps a function that calls the log; the function behind the log peeks
    file: "w_passive.wasm", page: ["tinit", "calli", "init"], loader: ["memory"], behind: { "env.log": ["peek"] },
    unused: ["export copy", "export drop", "export edrop", "export fill", "export tcopy"],
    host: (log, exports) => ({ env: { log: (n) => log.push(`log ${n} ${exports().peek(100)}`) } }),
    calls: [
      ["calli", 0], ["tinit", 2, 0, 3], ["calli", 2], ["calli", 3], ["calli", 4], ["tinit", 7, 0, 2], ["init", 200, 0, 18], ["init", 0, 10, 9], ["peek", 200],
    ],
  },
  {
    file: "w_tables.wasm", page: ["grow", "fill", "apply", "isn", "sel"], loader: ["t1"], behind: {},
    unused: ["export cross", "export g", "export look", "export put", "export setg", "export size", "export via", "import env.get"],
    host: () => ({ env: { get: (x) => x, t0: new WebAssembly.Table({ element: "externref", initial: 2, maximum: 10 }) } }),
    calls: [["apply", 0, 5], ["apply", 1, 5], ["apply", 2, 5], ["grow", 4], ["apply", 4, 6], ["fill", 3, 4], ["apply", 4, 6], ["apply", 9, 1], ["isn"], ["sel", 1], ["sel", 0]],
  },
  {
    // a global that another global's initialiser reads is kept with its import
    file: "w_globals.wasm", page: ["read"], loader: [], behind: {},
    unused: ["export c", "export ctr2", "export m", "export memory", "export step", "import env.ctr", "import env.off", "import env.tick"],
    host: globals,
    calls: [["read"]],
  },
  {
    // what the function behind the import reads is reached through it
    file: "w_globals.wasm", page: ["step", "ctr2", "m"], loader: ["memory"], behind: { "env.tick": ["read"] },
    unused: ["export c", "import env.off"],
    host: globals,
    calls: [["step", 5n], ["step", -7n], ["read"]],
  },
  {
    // the start keeps the log and a global that nothing else names
    file: "w_startlog.wasm", page: [], loader: ["memory"], behind: {}, unused: ["export g", "export g1", "export u"],
    host: (log) => ({ env: { log: (n) => (log.push(`log ${n}`), 2 * n) } }),
    calls: [],
  },
  {
    file: "w_dead.wasm", page: ["b", "d", "u"], loader: [], behind: {}, unused: ["export a", "export c", "export e", "export n"],
    host: () => ({}),
    calls: [["b", 0], ["b", 1], ["d", 5n, 0], ["d", 5n, 1], ["u"]],
  },
  {
    // an application over a library that is a module of its own
    file: "m2/app.wasm", page: ["add"], loader: [], behind: {},
    unused: [
      "export clear", "export fixed", "export probe", "export sortnames", "import env.free", "import env.no_such", "import env.strcmp", "import host.out",
    ],
    host: (log) => {
      const env = new WebAssembly.Instance(moduleIn(join(samples, "m2"), "env.wasm"), {}).exports;
      return { env: { ...env, no_such: (a) => (log.push(`no_such ${a}`), a + 1) }, host: { out: (a, b) => log.push(`out ${a} ${b}`) } };
    },
    calls: [["add", 255n], ["add", -1n], ["add", 4096n]],
  },
  {
    file: "m2/env.wasm", page: ["test", "roundtrip"], loader: ["memory", "malloc", "free"], behind: {},
    unused: ["atoi", "itoa", "live", "memcpy", "memmove", "memset", "strcmp", "strdup", "strlen", "strstr"].map((name) => `export ${name}`),
    host: () => ({}),
    calls: [["malloc", 100], ["test", 5], ["roundtrip", 123456789n], ["roundtrip", -1n], ["malloc", 1 << 30], ["free", 0]],
  },
];

function text(memory, from, length) {
  return Buffer.from(memory.buffer, from, length).toString();
}

function globals(log, exports) {
  return {
    env: {
      base: 1000, off: 3, ctr: new WebAssembly.Global({ value: "i64", mutable: true }, 40n), memory: new WebAssembly.Memory({ initial: 1 }),
      tick: (n) => (log.push(`tick ${n} ${exports().read()}`), n * 3n + 1n),
    },
  };
}

// ---- graphs ----

const importName = ({ module, name }) => `${module}.${name}`;

function graph(input, { page, loader, behind }) {
  const named = (names) => names.map((name) => `export ${name}`);
  const exports = WebAssembly.Module.exports(input).map(({ name }) => ({ name: `export ${name}`, export: name, ...(page.includes(name) && { root: true }) }));
  const imports = WebAssembly.Module.imports(input).map((import_) => ({
    name: `import ${importName(import_)}`, import: [import_.module, import_.name], reaches: named(behind[importName(import_)] ?? []),
  }));
  return [{ name: "loader", root: true, reaches: named(loader) }, ...exports, ...imports];
}

function swept(file, nodes) {
  const work = mkdtempSync(join(tmpdir(), "graph-"));
  try {
    const graphFile = join(work, "graph.json");
    writeFileSync(graphFile, JSON.stringify(nodes));
    return written(program, samples, ["metadce", file, "--graph-file", graphFile]);
  } finally {
    rmSync(work, { recursive: true });
  }
}

// ---- what the page sees ----

function seen(entity) {
  if (entity instanceof WebAssembly.Memory) {
    return `${entity.buffer.byteLength} bytes ${createHash("sha256").update(Buffer.from(entity.buffer)).digest("hex")}`;
  }
  if (entity instanceof WebAssembly.Global) {
    return String(entity.value);
  }
  if (entity instanceof WebAssembly.Table) {
    return Array.from({ length: entity.length }, (_, i) => (entity.get(i) === null ? "-" : "+")).join("");
  }
  return "";
}

// One instance, the calls of the page on it, and after its start and after each call all that it exports under the names that are kept, and what the
// host gave it.
function shown(compiled, names, { host, calls }) {
  const log = [];
  let exports = {};
  const outside = host(log, () => exports);
  const look = () => {
    for (const entity of [...names.map((name) => exports[name]), ...Object.values(outside).flatMap(Object.values)]) {
      log.push(seen(entity));
    }
  };
  exports = new WebAssembly.Instance(compiled, outside).exports;
  look();
  for (const [name, ...words] of calls) {
    log.push(`${name} ${words}: ${outcome(() => reference(exports[name](...words)))}`);
    look();
  }
  return log;
}

// Functions of two instances are never the same: only whether there is one can be compared.
function reference(value) {
  return typeof value === "function" ? "a function" : value;
}

function checkCase(what, one) {
  const input = moduleIn(samples, one.file);
  const { bytes, lines } = swept(one.file, graph(input, one));
  const left = new WebAssembly.Module(bytes);
  check(`${what}: lines`, lines, one.unused.map((name) => `unused: ${name}`));
  const [exports, imports] = [WebAssembly.Module.exports, WebAssembly.Module.imports];
  const stays = (name) => !one.unused.includes(name);
  const names = exports(input).map(({ name }) => name).filter((name) => stays(`export ${name}`));
  check(`${what}: exports`, exports(left).map(({ name }) => name), names);
  check(`${what}: imports`, imports(left).map(importName), imports(input).map(importName).filter((name) => stays(`import ${name}`)));
  const size = statSync(join(samples, one.file)).size;
  if (bytes.length > size) {
    report(`${what}: ${size} bytes became ${bytes.length}`);
  }
  const called = new Set(one.calls.map(([name]) => name));
  const uncalled = exports(left).filter(({ kind, name }) => kind === "function" && !called.has(name));
  check(`${what}: kept functions that no call here names`, uncalled.map(({ name }) => name), []);
  check(what, shown(left, names, one), shown(input, names, one));
}

cases.forEach((one, i) => checkCase(`case ${i}, ${one.file}`, one));
finish(`${cases.length} modules before and after metadce in an engine`);
