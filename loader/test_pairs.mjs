// Pairs for the tests of the loader, written by hand: what `binkit split` is to give for the modules that stand above them in the text format. And larger
// modules, with the lists of their functions that move, of which test_split.mjs makes pairs and several secondaries.

import { pairOf, split } from "./test_split.mjs";

const HEADER = "00 61 73 6D 01 00 00 00";
export const module = (...sections) => Buffer.from([HEADER, ...sections].join("").replace(/\s/g, ""), "hex");
export const pair = (primary, secondary) => ({ primary: module(...primary), secondary: module(...secondary) });

// (func $add (export "add") (param i32 i32) (result i32) (i32.add (local.get 0) (local.get 1)))
export const ADD = pair(
  ["01 07 01 60 02 7F 7F 01 7F", "02 11 01 0B 70 6C 61 63 65 68 6F 6C 64 65 72 01 30 00 00", "03 02 01 00", "04 05 01 70 01 01 01",
    "07 10 02 03 61 64 64 00 01 06 25 73 6C 6F 74 73 01 00", "09 07 01 00 41 00 0B 01 00", "0A 0D 01 0B 00 20 00 20 01 41 00 11 00 00 0B"],
  ["01 07 01 60 02 7F 7F 01 7F", "02 15 01 07 70 72 69 6D 61 72 79 06 25 73 6C 6F 74 73 01 70 01 01 01", "03 02 01 00",
    "09 07 01 00 41 00 0B 01 00", "0A 09 01 07 00 20 00 20 01 6A 0B"],
);

// (memory 1) (data "x") (func $i (export "i") (memory.init 0 (i32.const 0) (i32.const 0) (i32.const 0)))  which stays, for its segment
export const KEPT_SECTIONS = ["01 04 01 60 00 00", "03 02 01 00", "04 05 01 70 01 00 00", "05 03 01 00 01", "07 0E 02 01 69 00 00 06 25 73 6C 6F 74 73 01 00",
  "09 06 01 00 41 00 0B 00", "0C 01 01", "0A 0E 01 0C 00 41 00 41 00 41 00 FC 08 00 00 0B", "0B 04 01 01 01 78"];
export const KEPT = pair(
  KEPT_SECTIONS,
  ["01 04 01 60 00 00", "02 15 01 07 70 72 69 6D 61 72 79 06 25 73 6C 6F 74 73 01 70 01 00 00", "09 06 01 00 41 00 0B 00"],
);

// (func (export "f") (result i32) (call $g)) (func $g (result i32) (i32.const 7))  g moved: called through its slot, without a trampoline
export const THROUGH = pair(
  ["01 05 01 60 00 01 7F", "02 11 01 0B 70 6C 61 63 65 68 6F 6C 64 65 72 01 30 00 00", "03 02 01 00", "04 05 01 70 01 01 01",
    "07 0E 02 01 66 00 01 06 25 73 6C 6F 74 73 01 00", "09 07 01 00 41 00 0B 01 00", "0A 09 01 07 00 41 00 11 00 00 0B"],
  ["01 05 01 60 00 01 7F", "02 15 01 07 70 72 69 6D 61 72 79 06 25 73 6C 6F 74 73 01 70 01 01 01", "03 02 01 00",
    "09 07 01 00 41 00 0B 01 00", "0A 06 01 04 00 41 07 0B"],
);

// A linked program: `run` logs its argument by env.log and calls `twice`, which moved, through slot 1 of its own table.
export const LINKED = pair(
  ["01 0D 03 60 00 00 60 01 7F 01 7F 60 01 7F 00", "02 1B 02 03 65 6E 76 03 6C 6F 67 00 02 0B 70 6C 61 63 65 68 6F 6C 64 65 72 01 30 00 01",
    "03 05 04 00 00 01 01", "04 09 02 70 01 05 05 70 01 01 01", "05 03 01 00 02", "06 08 01 7F 01 41 90 88 04 0B",
    "07 2D 04 06 6D 65 6D 6F 72 79 02 00 11 5F 5F 77 61 73 6D 5F 63 61 6C 6C 5F 63 74 6F 72 73 00 02 03 72 75 6E 00 05 06 25 73 6C 6F 74 73 01 01",
    "09 0F 02 00 41 01 0B 01 04 02 01 41 00 0B 00 01 01",
    "0A 29 04 04 00 10 03 0B 0A 00 41 00 41 2A 36 02 84 08 0B 09 00 20 00 41 00 11 01 01 0B 0D 00 20 00 10 00 20 00 41 01 11 01 00 0B",
    "0B 09 01 00 41 80 08 0B 02 68 69"],
  ["01 0D 03 60 00 00 60 01 7F 01 7F 60 01 7F 00", "02 15 01 07 70 72 69 6D 61 72 79 06 25 73 6C 6F 74 73 01 70 01 01 01", "03 02 01 01",
    "09 07 01 00 41 00 0B 01 00", "0A 09 01 07 00 20 00 41 01 74 0B"],
);

// (import "env" "log" (func $log (param i32)))
// (global $g (export "g") (mut i32) (i32.const 1))
// (func $first (call $log (i32.const 1)) (call $second) (call $log (i32.const 3)))
// (func $second (call $log (i32.const 2)) (global.set $g (i32.const 42)))
// (func (export "start") (result i32) (global.get $g))
// (start $first)
export const START_CALLS = pair( // second moved
  ["01 0c 03 60 01 7f 00 60 00 00 60 00 01 7f", "02 1b 02 03 65 6e 76 03 6c 6f 67 00 00 0b 70 6c 61 63 65 68 6f 6c 64 65 72 01 30 00 01", "03 03 02 01 02",
    "04 05 01 70 01 01 01", "06 06 01 7f 01 41 01 0b", "07 22 05 01 67 03 00 05 73 74 61 72 74 00 03 03 25 66 30 00 00 03 25 67 30 03 00 06 25 73 6c 6f 74 73 01 00",
    "08 01 02", "09 07 01 00 41 00 0b 01 01", "0a 16 02 0f 00 41 01 10 00 41 00 11 01 00 41 03 10 00 0b 04 00 23 00 0b"],
  ["01 0c 03 60 01 7f 00 60 00 00 60 00 01 7f",
    "02 32 03 07 70 72 69 6d 61 72 79 03 25 66 30 00 00 07 70 72 69 6d 61 72 79 06 25 73 6c 6f 74 73 01 70 01 01 01 07 70 72 69 6d 61 72 79 03 25 67 30 03 7f 01",
    "03 02 01 01", "09 07 01 00 41 00 0b 01 01", "0a 0c 01 0a 00 41 02 10 00 41 2a 24 00 0b"],
);
export const START_MOVED = pair( // first moved
  ["01 0c 03 60 01 7f 00 60 00 00 60 00 01 7f", "02 1b 02 03 65 6e 76 03 6c 6f 67 00 00 0b 70 6c 61 63 65 68 6f 6c 64 65 72 01 30 00 01", "03 04 03 01 01 02",
    "04 05 01 70 01 01 01", "06 06 01 7f 01 41 01 0b", "07 22 05 01 67 03 00 05 73 74 61 72 74 00 04 03 25 66 30 00 00 03 25 66 32 00 03 06 25 73 6c 6f 74 73 01 00",
    "08 01 02", "09 07 01 00 41 00 0b 01 01", "0a 19 03 07 00 41 00 11 01 00 0b 0a 00 41 02 10 00 41 2a 24 00 0b 04 00 23 00 0b"],
  ["01 0c 03 60 01 7f 00 60 00 00 60 00 01 7f",
    "02 31 03 07 70 72 69 6d 61 72 79 03 25 66 30 00 00 07 70 72 69 6d 61 72 79 03 25 66 32 00 01 07 70 72 69 6d 61 72 79 06 25 73 6c 6f 74 73 01 70 01 01 01",
    "03 02 01 01", "09 07 01 00 41 00 0b 01 02", "0a 0e 01 0c 00 41 01 10 00 10 01 41 03 10 00 0b"],
);

// (import "env" "host" (func $host (param i32) (result i32)))
// (table (export "table") 2 funcref) (elem (i32.const 0) $double)
// (func $double (param i32) (result i32) (i32.mul (local.get 0) (i32.const 2)))
// (func $share (export "share") (param i32) (result i32) (i32.div_s (i32.const 100) (local.get 0)))
// (func (export "outer") (param i32) (result i32) (i32.add (call $host (local.get 0)) (call $share (i32.const 10))))
export const CALLS = pair( // double and share moved
  ["01 06 01 60 01 7f 01 7f",
    "02 2c 03 03 65 6e 76 04 68 6f 73 74 00 00 0b 70 6c 61 63 65 68 6f 6c 64 65 72 01 30 00 00 0b 70 6c 61 63 65 68 6f 6c 64 65 72 01 31 00 00", "03 04 03 00 00 00",
    "04 08 02 70 00 02 70 01 02 02", "07 22 04 05 74 61 62 6c 65 01 00 05 73 68 61 72 65 00 04 05 6f 75 74 65 72 00 05 06 25 73 6c 6f 74 73 01 01",
    "09 10 02 00 41 00 0b 01 03 02 01 41 00 0b 00 02 01 02", "0a 24 03 09 00 20 00 41 00 11 00 01 0b 09 00 20 00 41 01 11 00 01 0b 0e 00 20 00 10 00 41 0a 41 01 11 00 01 6a 0b"],
  ["01 06 01 60 01 7f 01 7f", "02 15 01 07 70 72 69 6d 61 72 79 06 25 73 6c 6f 74 73 01 70 01 02 02", "03 03 02 00 00", "09 08 01 00 41 00 0b 02 00 01",
    "0a 12 02 07 00 20 00 41 02 6c 0b 08 00 41 e4 00 20 00 6d 0b"],
);
export const OTHER_NAMES = pair( // the same, split with the names of NAMES
  ["01 06 01 60 01 7f 01 7f", "02 20 03 03 65 6e 76 04 68 6f 73 74 00 00 05 6c 61 74 65 72 01 30 00 00 05 6c 61 74 65 72 01 31 00 00", "03 04 03 00 00 00",
    "04 08 02 70 00 02 70 01 02 02", "07 27 04 05 74 61 62 6c 65 01 00 05 73 68 61 72 65 00 04 05 6f 75 74 65 72 00 05 0b 61 64 64 65 64 2e 73 6c 6f 74 73 01 01",
    "09 10 02 00 41 00 0b 01 03 02 01 41 00 0b 00 02 01 02", "0a 24 03 09 00 20 00 41 00 11 00 01 0b 09 00 20 00 41 01 11 00 01 0b 0e 00 20 00 10 00 41 0a 41 01 11 00 01 6a 0b"],
  ["01 06 01 60 01 7f 01 7f", "02 17 01 04 68 65 72 65 0b 61 64 64 65 64 2e 73 6c 6f 74 73 01 70 01 02 02", "03 03 02 00 00", "09 08 01 00 41 00 0b 02 00 01",
    "0a 12 02 07 00 20 00 41 02 6c 0b 08 00 41 e4 00 20 00 6d 0b"],
);
export const NAMES = { importNamespace: "here", placeholderNamespace: "later", exportPrefix: "added." };

// (func $wide (export "wide") (param i64) (result i64 i32) (i64.add (local.get 0) (i64.const 1)) (i32.const -1))
// (func $swap (export "swap") (param externref funcref) (result funcref externref) (local.get 1) (local.get 0))
// (func $nothing (export "nothing"))
export const VALUES = pair( // all moved
  ["01 11 03 60 01 7e 02 7e 7f 60 02 6f 70 02 70 6f 60 00 00",
    "02 31 03 0b 70 6c 61 63 65 68 6f 6c 64 65 72 01 30 00 00 0b 70 6c 61 63 65 68 6f 6c 64 65 72 01 31 00 01 0b 70 6c 61 63 65 68 6f 6c 64 65 72 01 32 00 02",
    "03 04 03 00 01 02", "04 05 01 70 01 03 03", "07 22 04 04 77 69 64 65 00 03 04 73 77 61 70 00 04 07 6e 6f 74 68 69 6e 67 00 05 06 25 73 6c 6f 74 73 01 00",
    "09 09 01 00 41 00 0b 03 00 01 02", "0a 1f 03 09 00 20 00 41 00 11 00 00 0b 0b 00 20 00 20 01 41 01 11 01 00 0b 07 00 41 02 11 02 00 0b"],
  ["01 11 03 60 01 7e 02 7e 7f 60 02 6f 70 02 70 6f 60 00 00", "02 15 01 07 70 72 69 6d 61 72 79 06 25 73 6c 6f 74 73 01 70 01 03 03", "03 04 03 00 01 02",
    "09 09 01 00 41 00 0b 03 00 01 02", "0a 15 03 09 00 20 00 42 01 7c 41 7f 0b 06 00 20 01 20 00 0b 02 00 0b"],
);

// (global $a (mut i32) (i32.const 5)) (global $b i32 (i32.const 6))
// (func $moved (export "f") (result i32) (global.get $a)) (func $stays (result i32) (i32.const 8))
// (export "%g9" (global $b)) (export "%f7" (func $stays))
export const LIKE_ADDED = pair( // `moved` moved, which adds %g0
  ["01 05 01 60 00 01 7f", "02 11 01 0b 70 6c 61 63 65 68 6f 6c 64 65 72 01 30 00 00", "03 03 02 00 00", "04 05 01 70 01 01 01", "06 0b 02 7f 01 41 05 0b 7f 00 41 06 0b",
    "07 20 05 01 66 00 01 03 25 67 39 03 01 03 25 66 37 00 02 03 25 67 30 03 00 06 25 73 6c 6f 74 73 01 00", "09 07 01 00 41 00 0b 01 00",
    "0a 0e 02 07 00 41 00 11 00 00 0b 04 00 41 08 0b"],
  ["01 05 01 60 00 01 7f", "02 24 02 07 70 72 69 6d 61 72 79 06 25 73 6c 6f 74 73 01 70 01 01 01 07 70 72 69 6d 61 72 79 03 25 67 30 03 7f 01", "03 02 01 00",
    "09 07 01 00 41 00 0b 01 00", "0a 06 01 04 00 23 00 0b"],
);

// A primary by hand, which no split gives: `taken` hands out the placeholder that stands in its slot. THROUGH's secondary fits it.
export const HANDS_OUT = module(
  "01 09 02 60 00 01 7f 60 00 01 70", "02 11 01 0b 70 6c 61 63 65 68 6f 6c 64 65 72 01 30 00 00", "03 02 01 01", "04 05 01 70 01 01 01",
  "07 12 02 05 74 61 6b 65 6e 00 01 06 25 73 6c 6f 74 73 01 00", "09 07 01 00 41 00 0b 01 00", "0a 08 01 06 00 41 00 25 00 0b",
);

// ---- the same modules for test_split.mjs ----

const LOCAL = ["local.get", 0];
const log = (number) => [["i32.const", number], ["call", "log"]];
const LOG = { module: "env", name: "log", type: "i>" };
const G = { type: "i", value: 1, mutable: true };
const STARTS = {
  imports: [LOG],
  globals: [G],
  funcs: {
    first: { type: ">", body: [...log(1), ["call", "second"], ...log(3)] },
    second: { type: ">", body: [...log(2), ["i32.const", 42], ["global.set", 0]] },
    start: { type: ">i", body: [["global.get", 0]] },
  },
  exports: [["g", "global", 0], ["start", "func", "start"]],
  start: "first",
};
const CALLED = {
  imports: [{ module: "env", name: "host", type: "i>i" }],
  table: ["double", null],
  funcs: {
    double: { type: "i>i", body: [LOCAL, ["i32.const", 2], ["i32.mul"]] },
    share: { type: "i>i", body: [["i32.const", 100], LOCAL, ["i32.div_s"]] },
    outer: { type: "i>i", body: [LOCAL, ["call", "host"], ["i32.const", 10], ["call", "share"], ["i32.add"]] },
  },
  exports: [["table", "table", 0], ["share", "func", "share"], ["outer", "func", "outer"]],
};

/** Each pair by hand with its name, its module, the functions that moved, and the options of the split. `asked` moves where `moved` does not say it. */
export const BY_HAND = [
  ["add", ADD, { funcs: { add: { type: "ii>i", body: [LOCAL, ["local.get", 1], ["i32.add"]] } }, exports: [["add", "func", "add"]] }, ["add"]],
  ["kept", KEPT, {
    memory: 1, data: [{ bytes: "x" }],
    funcs: { i: { type: ">", body: [["i32.const", 0], ["i32.const", 0], ["i32.const", 0], ["memory.init", 0]] } },
    exports: [["i", "func", "i"]],
  }, [], { asked: ["i"] }],
  ["through", THROUGH, { funcs: { f: { type: ">i", body: [["call", "g"]] }, g: { type: ">i", body: [["i32.const", 7]] } }, exports: [["f", "func", "f"]] }, ["g"]],
  ["linked", LINKED, {
    types: [">", "i>i", "i>"], imports: [LOG], memory: 2, data: [{ at: 1024, bytes: "hi" }], globals: [{ type: "i", value: 66576, mutable: true }],
    table: [null, "twice", null, null, null], tableMost: 5,
    funcs: {
      __wasm_call_ctors: { type: ">", body: [["call", "init"]] },
      init: { type: ">", body: [["i32.const", 0], ["i32.const", 42], ["i32.store", 1028]] },
      twice: { type: "i>i", body: [LOCAL, ["i32.const", 1], ["i32.shl"]] },
      run: { type: "i>i", body: [LOCAL, ["call", "log"], LOCAL, ["i32.const", 1], ["call_indirect", "i>i", 0]] },
    },
    exports: [["memory", "memory", 0], ["__wasm_call_ctors", "func", "__wasm_call_ctors"], ["run", "func", "run"]],
  }, ["twice"]],
  ["a start calls", START_CALLS, STARTS, ["second"]],
  ["the start moved", START_MOVED, STARTS, ["first"]],
  ["calls", CALLS, CALLED, ["double", "share"]],
  ["other names", OTHER_NAMES, CALLED, ["double", "share"], NAMES],
  ["values", VALUES, {
    funcs: {
      wide: { type: "I>Ii", body: [LOCAL, ["i64.const", 1], ["i64.add"], ["i32.const", -1]] },
      swap: { type: "xf>fx", body: [["local.get", 1], LOCAL] },
      nothing: { type: ">", body: [] },
    },
    exports: [["wide", "func", "wide"], ["swap", "func", "swap"], ["nothing", "func", "nothing"]],
  }, ["wide", "swap", "nothing"]],
  ["names like added ones", LIKE_ADDED, {
    globals: [{ type: "i", value: 5, mutable: true }, { type: "i", value: 6, mutable: false }],
    funcs: { moved: { type: ">i", body: [["global.get", 0]] }, stays: { type: ">i", body: [["i32.const", 8]] } },
    exports: [["f", "func", "moved"], ["%g9", "global", 1], ["%f7", "func", "stays"]],
  }, ["moved"]],
];

/** The module of THROUGH, split by hand into two secondaries, for f and g: the primary and both. */
export const TWO_BY_HAND = [
  module("01 05 01 60 00 01 7F",
    "02 25 02 0D 70 6C 61 63 65 68 6F 6C 64 65 72 2E 30 01 30 00 00 0D 70 6C 61 63 65 68 6F 6C 64 65 72 2E 31 01 31 00 00", "03 02 01 00", "04 05 01 70 01 02 02",
    "07 0E 02 01 66 00 02 06 25 73 6C 6F 74 73 01 00", "09 08 01 00 41 00 0B 02 00 01", "0A 09 01 07 00 41 00 11 00 00 0B"),
  module("01 05 01 60 00 01 7F", "02 15 01 07 70 72 69 6D 61 72 79 06 25 73 6C 6F 74 73 01 70 01 02 02", "03 02 01 00", "09 07 01 00 41 00 0B 01 00", "0A 09 01 07 00 41 01 11 00 00 0B"),
  module("01 05 01 60 00 01 7F", "02 15 01 07 70 72 69 6D 61 72 79 06 25 73 6C 6F 74 73 01 70 01 02 02", "03 02 01 00", "09 07 01 00 41 01 0B 01 00", "0A 06 01 04 00 41 07 0B"),
];

// ---- larger modules ----

// A function with a frame of 16 bytes on a stack in memory, as compilers write it: it lowers the stack pointer, which is global 0, and puts it back from
// what it has kept, in its first local behind its parameter.
const framed = (body) => [
  ["global.get", 0], ["i32.const", 16], ["i32.sub"], ["local.set", 1], ["local.get", 1], ["global.set", 0],
  ...body,
  ["local.get", 1], ["i32.const", 16], ["i32.add"], ["global.set", 0],
];
const func = (body) => ({ type: "i>i", locals: 1, body: framed(body) });
const SP = { type: "i", value: 1000, mutable: true };
const funcsExported = (...names) => names.map((name) => [name, "func", name]);

/** Functions that call one another: `one` calls `two`, `three` calls `one` where its argument is not 0. `base` and `both` stay. */
export const CHAIN = {
  imports: [LOG],
  memory: 1,
  globals: [SP],
  table: ["two", null],
  funcs: {
    one: func([...log(1), LOCAL, ["i32.const", 1], ["i32.add"], ["call", "two"], ["i32.const", 10], ["i32.mul"]]),
    base: { type: ">i", body: [["i32.const", 0], ["i32.load", 0]] },
    two: func([...log(2), LOCAL, ["call", "base"], ["i32.add"], ["i32.const", 0], ["i32.const", 7], ["i32.store", 0]]),
    three: func([...log(3), LOCAL, ["i32.eqz"], ["if", "i"], ["global.get", 0], ["else"], LOCAL, ["i32.const", 1], ["i32.sub"], ["call", "one"], ["end"]]),
    both: func([LOCAL, ["call", "three"], LOCAL, ["i32.const", 0], ["call_indirect", "i>i", 0], ["i32.add"]]),
  },
  exports: [...funcsExported("one", "two", "three", "both"), ["memory", "memory", 0], ["sp", "global", 0], ["table", "table", 0]],
};

/** The same with a start function, which calls `three` and `two`. */
export const CHAIN_STARTED = {
  ...CHAIN,
  funcs: { ...CHAIN.funcs, first: { type: ">", body: [["i32.const", 5], ["call", "three"], ["drop"], ["i32.const", 1], ["call", "two"], ["drop"]] } },
  start: "first",
};

/** The same, of which `one` has a parameter more. */
export const CHAIN_WIDER = { ...CHAIN, funcs: { ...CHAIN.funcs, one: { type: "ii>i", locals: 0, body: [LOCAL] }, three: func([LOCAL]) } };

/** `frame` has a frame and calls `rare`, which gives twice its argument; `back` calls the import `host`, `after` does so after `rare`, `behind` before. */
export const FRAMES = {
  imports: [LOG, { module: "env", name: "host", type: "i>i" }],
  globals: [SP],
  table: ["rare"],
  funcs: {
    frame: func([LOCAL, ["call", "rare"]]),
    back: func([LOCAL, ["call", "host"]]),
    after: func([LOCAL, ["call", "rare"], ["call", "host"]]),
    behind: func([LOCAL, ["call", "host"], ["call", "rare"]]),
    rare: func([LOCAL, ["call", "log"], LOCAL, ["i32.const", 2], ["i32.mul"]]),
  },
  exports: [...funcsExported("frame", "back", "after", "behind", "rare"), ["sp", "global", 0], ["table", "table", 0]],
};

// Functions that do nothing for so many bytes each: engines take no function of more than about 7.6 million.
const PIECE = 4_500_000;
const nops = Buffer.alloc(PIECE, 1);
const idle = { type: ">", body: [["bytes", nops]] };

/** FRAMES, with functions that do nothing, so that with RARE moved each of primary and secondary has more than 8 MB. */
export const LARGE = { ...FRAMES, funcs: { ...FRAMES.funcs, idle1: idle, idle2: idle, idle3: idle, idle4: idle } };
export const LARGE_MOVED = ["rare", "idle3", "idle4"];

/** The modules for test_suspend.mjs, by name. */
export function suspendModules() {
  const { primary, secondary } = pairOf(FRAMES, ["rare"]);
  const named = (name, parts) => [[`${name}.primary`, parts.primary], ...parts.secondaries.map((bytes, at) => [`${name}.${at}`, bytes])];
  const groups = [["one"], ["two"], ["three"]];
  return Object.fromEntries([...named("frames", { primary, secondaries: [secondary] }), ...named("chain", split(CHAIN, groups)), ...named("started", split(CHAIN_STARTED, groups))]);
}
