// What an instance of a module shows to the one who instantiates it: what it exports, what its calls come to, what it calls with which values, and
// all memories, globals and tables. So that two instances can be compared, whatever they import is made here, the same for both.
import { readdirSync } from "node:fs";
import { join } from "node:path";
import { check } from "./engine_checks.mjs";

const SLOTS = 16; // slots of a table that are looked at

export const VALUES = { i32: [0, 1, 7, -1, 64], i64: [0n, 1n, 255n, -1n, 4096n], externref: [null, "a text", 12], funcref: [null, "first"] };

// What a module imports, made anew: functions that log and count, memories, tables, globals; and the log.
export function surroundings({ imports, types }) {
  const log = [];
  const objects = {};
  const things = [];
  let count = 0;
  const made = (one) => {
    if (one.kind === 1) return new WebAssembly.Table({ ...one, element: one.element === "funcref" ? "anyfunc" : one.element });
    if (one.kind === 2) return new WebAssembly.Memory(one);
    if (one.kind === 3) return new WebAssembly.Global(one, VALUES[one.value][2]);
    const results = types[one.type][1];
    return (...args) => {
      log.push(`${one.module}.${one.name}(${args.map(String)})`);
      count += 1;
      const given = results.map((type) => VALUES[type][type.startsWith("i") ? count % 3 : 0]);
      return results.length > 1 ? given : given[0];
    };
  };
  for (const one of imports) {
    const thing = made(one);
    things.push([`${one.module}.${one.name}`, thing]);
    (objects[one.module] ??= {})[one.name] = thing;
  }
  return { log, objects, things };
}

// Instantiating may trap.
export function instantiated(around, instantiate) {
  try {
    return instantiate(around.objects);
  } catch (error) {
    if (error instanceof WebAssembly.RuntimeError) return null;
    throw error;
  }
}

// What an instance with these exports shows; its calls and traps are counted in `seen`.
export class Shown {
  constructor({ log, things }, exports, seen) {
    Object.assign(this, { log, exports, seen, things: [...things, ...Object.entries(exports)] });
  }

  // a reference by what it is: every export, and every slot of a table, that has the same function
  named(value) {
    if (typeof value !== "function") return String(value);
    const places = this.things.flatMap(([name, thing]) => {
      if (thing === value) return [name];
      return thing instanceof WebAssembly.Table ? slotsOf(thing).filter((slot) => thing.get(slot) === value).map((slot) => `${name}[${slot}]`) : [];
    });
    return `function ${places.join(" ")}`;
  }

  outcome(call) {
    this.seen.calls += 1;
    try {
      const result = call();
      return (Array.isArray(result) ? result : [result]).map((value) => this.named(value)).join(" ");
    } catch (error) {
      if (error instanceof WebAssembly.RuntimeError) return (this.seen.traps += 1), "traps";
      if (error instanceof RangeError) return "exhausts the stack";
      throw error;
    }
  }

  state() {
    return this.things.map(([name, thing]) => {
      if (thing instanceof WebAssembly.Memory) return `${name}: ${thing.buffer.byteLength}`;
      if (thing instanceof WebAssembly.Global) return `${name}: ${this.named(thing.value)}`;
      if (thing instanceof WebAssembly.Table) return `${name}: ${thing.length} ${slotsOf(thing).map((slot) => this.named(thing.get(slot))).join(", ")}`;
      return name;
    });
  }

  // what can be seen of a call, but for the bytes of memories
  made({ what, callee, args }) {
    const given = args.map((arg) => (arg === "first" ? Object.values(this.exports).find((one) => typeof one === "function") : arg));
    const line = `${what}(${args}): ${this.outcome(() => callee(this)(...given))}`;
    return [line, ...this.log.splice(0), ...this.state()];
  }

  // the memories whose bytes are others than those of the other instance
  memoriesUnlike(other) {
    const bytes = ({ things }, place) => Buffer.from(things[place][1].buffer);
    return this.things.flatMap(([name, thing], place) => (thing instanceof WebAssembly.Memory && !bytes(this, place).equals(bytes(other, place)) ? [name] : []));
  }
}

const slotsOf = (table) => Array.from({ length: Math.min(table.length, SLOTS) }, (_, slot) => slot);

// Rounds of calls of all exports, and between the rounds of all functions that stand in the tables of the instance that makes each call at once.
// `argsOf` gives the arguments for a type, in a round.
export function* callsOf(module, first, rounds, argsOf) {
  for (let round = 0; round < rounds; round += 1) {
    for (const { name, index } of module.exports.filter(({ kind }) => kind === 0)) {
      yield { what: name, callee: ({ exports }) => exports[name], args: argsOf(module.funcs[index], round) };
    }
    for (const [place, [name, table]] of first.things.entries()) {
      if (!(table instanceof WebAssembly.Table)) continue;
      for (const slot of slotsOf(table).filter((one) => typeof table.get(one) === "function")) {
        first.seen["calls through tables"] += 1;
        // a function of an instance is called by its number
        yield { what: `${name}[${slot}]`, callee: ({ things }) => things[place][1].get(slot), args: argsOf(module.funcs[Number(table.get(slot).name)], round) };
      }
    }
  }
}

// Whether an instance shows what is expected of it, which another shows: at first, and after each call.
export function showsTheSame(what, calls, got, expected) {
  const same = (when, one, other) => check(`${what}: ${when}`, one, other) && check(`${what}: memories with other bytes ${when}`, got.memoriesUnlike(expected), []);
  if (!same("at first", got.state(), expected.state())) return false;
  for (const call of calls) {
    const shown = expected.made(call);
    if (!same(`at ${call.what}`, got.made(call), shown)) return false;
  }
  return true;
}

// All modules in a folder and in those inside it.
export function modulesIn(folder) {
  return readdirSync(folder, { withFileTypes: true }).sort((a, b) => (a.name < b.name ? -1 : 1)).flatMap((entry) => {
    const path = join(folder, entry.name);
    return entry.isDirectory() ? modulesIn(path) : path.endsWith(".wasm") ? [path] : [];
  });
}
