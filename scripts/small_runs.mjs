// The small runs of crates/wasm_meaning, and those of split modules of crates/split_proof, made in a real engine.
//
// Reads the theorems of the files named below, builds the modules of each as bytes, makes the embedder's moves, and compares what is seen with the
// events that the theorem states. Of a module under a loader it is the loader, too; split modules are loaded by the loader that users take (loader/).
// A run that can't be shown here is named with its reason: a growth that is denied, a move while a growth waits, a run that doesn't end in its steps or
// waits for a move, imports in a circle, what several parts do at once or in another order, two memories, a memory of the embedder's own that has bytes,
// a call of a function that isn't known here, a move that isn't, a load while the primary starts. A run is shown in part where
// a move isn't taken, which is then left out, or a growth is granted, whose request no engine tells. Ends with 1 where the engine shows something else, or
// nothing of a file.
//
//     node scripts/small_runs.mjs [FILE.antt..]     (a later file uses the names of the ones before it)
import { readFileSync } from "node:fs";
import { dirname, join } from "node:path";
import { fileURLToPath } from "node:url";
import { SplitInstance } from "../loader/split_instance.mjs";

const CRATES = join(dirname(dirname(fileURLToPath(import.meta.url))), "crates");
const FOLDER = join(CRATES, "wasm_meaning/proofs");
const NAMES = ["SmallRuns", "MoreRuns", "EmbedderRuns", "FurtherRuns", "LoaderRuns", "OrderAndIndexRuns", "LinkingAndSegmentRuns"];
const FILES = process.argv.length > 2 ? process.argv.slice(2) : NAMES.map((name) => join(FOLDER, `${name}.antt`));
// The runs of split modules, and the definitions that they use.
const SPLIT = join(CRATES, "split_proof/proofs/SmallRuns.antt");
const SPLIT_WORDS = join(CRATES, "split_spec/specs/Examples.antt");

// ---- reading: terms of names, numbers, lists and their joins, pairs, records and applications ----

const words = (text) => text.match(/[()\[\]{},;]|[^\s()\[\]{},;]+/g) ?? [];

class Reader {
  constructor(text) {
    this.words = words(text);
    this.next = 0;
  }
  sees(word) {
    return this.words[this.next] === word;
  }
  takes(word) {
    if (!this.sees(word)) return false;
    this.next += 1;
    return true;
  }
  needs(word) {
    if (!this.takes(word)) throw new Error(`${word} is missing before ${this.words.slice(this.next, this.next + 5).join(" ")}`);
  }
  // an application, or an item and a list, or two lists
  term() {
    const head = this.application();
    if (this.takes("++")) return { joined: [head, this.term()] };
    return this.takes("∷") ? { cons: [head, this.term()] } : head;
  }
  application() {
    let term = this.item();
    while (this.next < this.words.length && !/^([)\]},;∷=≡]|\+\+)$/.test(this.words[this.next])) term = { call: term, on: this.item() };
    return term;
  }
  item() {
    if (this.takes("(")) return this.inner();
    if (this.takes("[")) {
      this.needs("]");
      return { list: [] };
    }
    if (this.takes("record")) return { base: this.sees("{") ? null : this.item(), fields: this.fields() };
    const word = this.words[this.next++];
    return /^\d+$/.test(word) ? { number: BigInt(word) } : { name: word };
  }
  inner() {
    const first = this.term();
    if (this.takes(",")) {
      const second = this.term();
      this.needs(")");
      return { pair: [first, second] };
    }
    this.needs(")");
    return first;
  }
  fields() {
    const fields = [];
    this.needs("{");
    while (!this.takes("}")) {
      const name = this.words[this.next++].replace(/[«»]/g, "");
      this.needs("=");
      fields.push([name, this.term()]);
      this.takes(";");
    }
    return fields;
  }
}

// ---- what a term is: a constructor is its name with what it is applied to ----

const definitions = new Map();

const made = (tag, ...args) => ({ tag, args });

function value(term, local) {
  if ("number" in term) return term.number;
  if ("list" in term) return [];
  if ("joined" in term) return term.joined.flatMap((part) => value(part, local));
  if ("cons" in term) return [value(term.cons[0], local), ...value(term.cons[1], local)];
  if ("pair" in term) return { pair: term.pair.map((part) => value(part, local)) };
  if ("fields" in term) return { ...(term.base ? value(term.base, local) : {}), ...Object.fromEntries(term.fields.map(([name, part]) => [name, value(part, local)])) };
  if ("call" in term) return applied(value(term.call, local), value(term.on, local));
  if (term.name in local) return local[term.name];
  const known = definitions.get(term.name);
  return known ? closure(known, known.names, {}) : named(term.name);
}

// a definition of the specs, a field of what is defined here, or a constructor
function named(name) {
  if (name === "world.alone" || name === "alone") return alone;
  if (name === "in_place_of") return inPlaceOf;
  const [first, last] = [name.split(".")[0], name.split(".").at(-1)];
  return first !== last && definitions.has(first) ? value({ name: first }, {})[last] : made(last);
}

const alone = (module) => ({ parts: [{ name: made("None"), module }], view: module.exports.map((e) => ({ pair: [e.name, { part: 0n, what: e.desc }] })) });

// the world of a split: what the module exports is seen, under the names and as what the primary exports
const inPlaceOf = (import_namespace) => (input) => (primary) => (secondaries) => {
  const view = input.exports.map(({ name }) => ({ pair: [name, primary.exports.find((e) => text(e.name) === text(name)).desc] }));
  return { primary, secondaries, import_namespace, slot_table: BigInt(input.tables.length), view };
};

const closure = (known, names, local) => (names.length ? (given) => closure(known, names.slice(1), { ...local, [names[0]]: given }) : value(known.term, local));

const applied = (what, given) => (typeof what === "function" ? what(given) : made(what.tag, ...what.args, given));

// the definitions of a file are kept; its theorems come as name and two sides
function read(path) {
  const theorems = [];
  const text = readFileSync(path, "utf8").replace(/^--.*\n/gm, "").replace(/^use .*\n/gm, "");
  for (const block of text.split(/\n\s*\n/)) {
    const lines = block.trim().split("\n");
    if (lines[0].startsWith("abbrev ")) define(lines.slice(1).join("\n"));
    else if (lines[0]) theorems.push(theorem(lines));
  }
  return theorems;
}

// Of a file of split modules: the definitions, and the runs of worlds that are written out.
function readSplit(path) {
  const blocks = readFileSync(path, "utf8").replace(/^--.*\n/gm, "").replace(/^use .*\n/gm, "").split(/\n\s*\n/).map((block) => block.trim().split("\n"));
  for (const lines of blocks) if (lines[0].startsWith("abbrev ")) define(lines.slice(1).join("\n"));
  return blocks.filter((lines) => /^\w+ : events(_loaded)? /.test(lines[0]) && lines[1].startsWith("unfolding ")).map(theorem);
}

function define(text) {
  const reader = new Reader(text);
  const names = [];
  while (!reader.takes("=")) names.push(reader.words[reader.next++]);
  definitions.set(names[0], { names: names.slice(1), term: reader.term() });
}

function theorem(lines) {
  const end = lines.findIndex((line) => line.startsWith("unfolding "));
  const reader = new Reader(lines.slice(0, end).join("\n"));
  const name = reader.words[reader.next++];
  reader.needs(":");
  const run = reader.term();
  reader.needs("≡");
  return { name, run, events: reader.term() };
}

// ---- modules as bytes (WebAssembly Core 2.0, chapter 5) ----

function unsigned(n) {
  const low = Number(BigInt(n) & 127n);
  const rest = BigInt(n) >> 7n;
  return rest === 0n ? [low] : [low | 128, ...unsigned(rest)];
}

function signed(n) {
  const low = Number(n & 127n);
  const rest = n >> 7n;
  return (rest === 0n && low < 64) || (rest === -1n && low >= 64) ? [low] : [low | 128, ...signed(rest)];
}

const integer = (z) => (z.tag === "pos" ? z.args[0] : -z.args[0] - 1n);
const vector = (items) => [...unsigned(items.length), ...items.flat()];
const sized = (bytes) => [...unsigned(bytes.length), ...bytes.map(Number)];
const section = (id, items) => (items.length ? [id, ...sized(vector(items))] : []);
const numbered = (first, names) => Object.fromEntries(names.split(" ").map((name, n) => [name, first + n]));
const inner = (option) => (option.tag === "Some" ? option.args[0] : null);

const OPCODES = {
  ...numbered(0x45, "I32Eqz I32Eq I32Ne I32LtS I32LtU I32GtS I32GtU I32LeS I32LeU I32GeS I32GeU I64Eqz I64Eq I64Ne I64LtS I64LtU I64GtS I64GtU I64LeS I64LeU I64GeS I64GeU"),
  ...numbered(0x67, "I32Clz I32Ctz I32Popcnt I32Add I32Sub I32Mul I32DivS I32DivU I32RemS I32RemU I32And I32Or I32Xor I32Shl I32ShrS I32ShrU I32Rotl I32Rotr"),
  ...numbered(0x79, "I64Clz I64Ctz I64Popcnt I64Add I64Sub I64Mul I64DivS I64DivU I64RemS I64RemU I64And I64Or I64Xor I64Shl I64ShrS I64ShrU I64Rotl I64Rotr"),
  ...numbered(0xa7, "I32WrapI64"),
  ...numbered(0xac, "I64ExtendI32S I64ExtendI32U"),
  ...numbered(0xc0, "I32Extend8S I32Extend16S I64Extend8S I64Extend16S I64Extend32S"),
  ...numbered(0x28, "I32Load I64Load"),
  ...numbered(0x2c, "I32Load8S I32Load8U I32Load16S I32Load16U I64Load8S I64Load8U I64Load16S I64Load16U I64Load32S I64Load32U I32Store I64Store"),
  ...numbered(0x3a, "I32Store8 I32Store16 I64Store8 I64Store16 I64Store32"),
};

// instructions whose operands are indices, in the order of the binary format
const PLAIN = {
  Unreachable: [0x00], Nop: [0x01], Br: [0x0c], BrIf: [0x0d], Return: [0x0f], Call: [0x10], CallIndirect: [0x11], Drop: [0x1a], Select: [0x1b],
  LocalGet: [0x20], LocalSet: [0x21], LocalTee: [0x22], GlobalGet: [0x23], GlobalSet: [0x24], TableGet: [0x25], TableSet: [0x26], MemorySize: [0x3f], MemoryGrow: [0x40],
  RefIsNull: [0xd1], RefFunc: [0xd2], MemoryInit: [0xfc, 8], DataDrop: [0xfc, 9], MemoryCopy: [0xfc, 10], MemoryFill: [0xfc, 11],
  TableInit: [0xfc, 12], ElemDrop: [0xfc, 13], TableCopy: [0xfc, 14], TableGrow: [0xfc, 15], TableSize: [0xfc, 16], TableFill: [0xfc, 17],
};

const reference = (type) => (type.tag === "Func" ? 0x70 : 0x6f);
const valueType = (type) => (type.tag === "I32" ? 0x7f : type.tag === "I64" ? 0x7e : reference(type.args[0]));
const blockType = (type) => (type.tag === "Empty" ? [0x40] : type.tag === "Value" ? [valueType(type.args[0])] : signed(type.args[0]));
const code = (body) => body.flatMap(instruction);
const place = (arg) => [...unsigned(arg.align), ...unsigned(arg.offset)];

function instruction({ tag, args }) {
  switch (tag) {
    case "Block": return [0x02, ...blockType(args[0]), ...code(args[1]), 0x0b];
    case "Loop": return [0x03, ...blockType(args[0]), ...code(args[1]), 0x0b];
    case "If": return [0x04, ...blockType(args[0]), ...code(args[1]), ...(args[2].length ? [0x05, ...code(args[2])] : []), 0x0b];
    case "BrTable": return [0x0e, ...vector(args[0].map(unsigned)), ...unsigned(args[1])];
    case "SelectTyped": return [0x1c, ...vector(args[0].map((type) => [valueType(type)]))];
    case "Load": case "Store": return [OPCODES[args[0].tag], ...place(args[1])];
    case "I32Const": return [0x41, ...signed(integer(args[0]))];
    case "I64Const": return [0x42, ...signed(integer(args[0]))];
    case "Un": case "Bin": return [OPCODES[args[0].tag]];
    case "RefNull": return [0xd0, reference(args[0])];
    default: return [...PLAIN[tag], ...args.flatMap(unsigned)];
  }
}

function constant({ tag, args }) {
  switch (tag) {
    case "I32": return [0x41, ...signed(integer(args[0])), 0x0b];
    case "I64": return [0x42, ...signed(integer(args[0])), 0x0b];
    case "Null": return [0xd0, reference(args[0]), 0x0b];
    case "Func": return [0xd2, ...unsigned(args[0]), 0x0b];
    default: return [0x23, ...unsigned(args[0]), 0x0b];
  }
}

const KINDS = { Func: 0, Table: 1, Memory: 2, Global: 3 };
const funcType = (type) => [0x60, ...vector(type.params.map((t) => [valueType(t)])), ...vector(type.results.map((t) => [valueType(t)]))];
const limits = (l) => (l.max.tag === "None" ? [0, ...unsigned(l.min)] : [1, ...unsigned(l.min), ...unsigned(inner(l.max))]);
const tableType = (type) => [reference(type.ty), ...limits(type.limits)];
const globalType = (type) => [valueType(type.ty), type.mutable.tag === "true" ? 1 : 0];
const DESCRIBED = { Func: unsigned, Table: tableType, Memory: limits, Global: globalType };
const imported = (i) => [...sized(i.module), ...sized(i.field), KINDS[i.desc.tag], ...DESCRIBED[i.desc.tag](i.desc.args[0])];
const exported = (e) => [...sized(e.name), KINDS[e.desc.tag], ...unsigned(e.desc.args[0])];
const entry = (f) => sized([...vector(f.locals.map((g) => [...unsigned(g.count), valueType(g.ty)])), ...code(f.body), 0x0b]);
const items = (e) => [reference(e.ty), ...vector(e.items.map(constant))];

function element(e) {
  if (e.mode.tag === "Active") return [6, ...unsigned(e.mode.args[0]), ...constant(e.mode.args[1]), ...items(e)];
  return [e.mode.tag === "Passive" ? 5 : 7, ...items(e)];
}

function data(d) {
  if (d.mode.tag === "Passive") return [1, ...sized(d.bytes)];
  return [2, ...unsigned(d.mode.args[0]), ...constant(d.mode.args[1]), ...sized(d.bytes)];
}

function moduleBytes(m) {
  return new Uint8Array([
    ...[0, 0x61, 0x73, 0x6d, 1, 0, 0, 0],
    ...section(1, m.types.map(funcType)), ...section(2, m.imports.map(imported)), ...section(3, m.funcs.map((f) => unsigned(f.ty))),
    ...section(4, m.tables.map(tableType)), ...section(5, m.mems.map(limits)), ...section(6, m.globals.map((g) => [...globalType(g.ty), ...constant(g.init)])),
    ...section(7, m.exports.map(exported)), ...(m.start.tag === "Some" ? [8, ...sized(unsigned(inner(m.start)))] : []), ...section(9, m.elems.map(element)),
    ...(m.datas.length ? [12, ...sized(unsigned(m.datas.length))] : []), ...section(10, m.funcs.map(entry)), ...section(11, m.datas.map(data)),
  ]);
}

// ---- the embedder ----

class NotShown extends Error {}
class Refusal extends Error {}

const string = (text) => String.fromCharCode(...text.map(Number));
const typeName = (type) => (type.tag === "I32" ? "i32" : type.tag === "I64" ? "i64" : type.args[0].tag === "Func" ? "anyfunc" : "externref");

const isZero = (bytes) => (Array.isArray(bytes) ? bytes.every((byte) => byte === 0n) : bytes.tag === "copies" && bytes.args[1] === 0n);
const writesSegments = (module) => [...module.elems, ...module.datas].some(({ mode }) => mode.tag === "Active");
const hasStart = (module) => module.start.tag === "Some";
const pairOf = (i) => [string(i.module), string(i.field)];
const memories = (module) => count(module.imports.map((i) => i.desc), "Memory") + module.mems.length;

const extent = (size, limits) => ({ initial: Number(size), ...(inner(limits.max) === null ? {} : { maximum: Number(inner(limits.max)) }) });

// an instance of a module with the one import and the one export that these are
function instanceOf(module, desc, what) {
  const whole = { ...NOTHING, ...module, imports: [{ module: [], field: [], desc }], exports: [{ name: [], desc: made("Func", 0n) }] };
  return new WebAssembly.Instance(new WebAssembly.Module(moduleBytes(whole)), { "": { "": what } }).exports[""];
}

const NOTHING = { types: [], funcs: [], tables: [], mems: [], globals: [], start: made("None"), elems: [], datas: [] };

// a function of ours as the engine shows it where it is a value: through a module that imports and exports it
const asEngineHas = (type, does) => instanceOf({ types: [type] }, made("Func", 0n), does);

// what calls through a slot of a table, as code does
function throughSlot(table, slot, type) {
  const body = [...type.params.map((_, n) => made("LocalGet", n)), made("I32Const", made("pos", BigInt(slot))), made("CallIndirect", 0, 0)];
  return instanceOf({ types: [type], funcs: [{ ty: 0, locals: [], body }] }, made("Table", { ty: made("Func"), limits: { min: 0, max: made("None") } }), table);
}

class Embedder {
  constructor(world, environment, moves, expected) {
    this.expected = expected;
    this.parts = world.parts.map((part) => ({ name: part.name.tag === "Some" ? string(inner(part.name)) : null, module: part.module, instance: null }));
    this.view = new Map(world.view.map(({ pair: [name, entity] }) => [string(name), entity]));
    this.moves = moves;
    this.shown = [];
    this.types = new Map();
    this.externs = new Map();
    this.events = [];
    const key = (offer) => JSON.stringify(offer.pair.pair.map(string));
    this.owned = new Map(environment.map((offer) => [key(offer), { funcs: offer.funcs.map((type) => this.ownFunction(offer.pair, type)) }]));
    for (const offer of environment) Object.assign(this.owned.get(key(offer)), this.offered(offer));
  }

  // the environment's own table, memory and global of a pair
  offered(offer) {
    const [table, memory, global] = [inner(offer.table), inner(offer.memory), inner(offer.global)];
    if (memory && !isZero(memory.bytes)) throw new NotShown("a memory of the environment's own that has bytes");
    return {
      table: table && this.ownTable(table),
      memory: memory && new WebAssembly.Memory(extent(memory.pages, memory.limits)),
      global: global && new WebAssembly.Global({ value: typeName(global.ty.ty), mutable: global.ty.mutable.tag === "true" }, this.received(global.ty.ty, global.value)),
    };
  }

  ownTable({ ty, limits, entries }) {
    const table = new WebAssembly.Table({ element: ty.tag === "Func" ? "anyfunc" : "externref", ...extent(entries.length, limits) }, null);
    for (const [n, entry] of entries.entries()) if (entry.tag !== "Null") table.set(n, this.received(null, entry));
    return table;
  }

  ownFunction(pair, type) {
    return { type, value: made("OwnFunc", pair, type), callee: asEngineHas(type, (...args) => this.asked(pair, type, args)) };
  }

  run() {
    this.events.push(made(this.instantiate()));
    while (this.moves.length) this.does(this.moves.shift());
    return this.events;
  }

  // a move that the theorem says is not taken: it is left out
  isLeftOut() {
    const out = this.expected[this.events.length]?.tag === "BadMove";
    if (out) this.events.push(made("BadMove"));
    return out;
  }

  instantiate() {
    this.refuseWorld();
    try {
      let waiting = [...this.parts.keys()];
      while (waiting.length) {
        const ready = waiting.find((p) => this.isReady(this.parts[p]));
        if (ready === undefined) throw new NotShown("imports in a circle");
        if (ready !== waiting[0] && this.isOrderSeen()) throw new NotShown("parts that an engine takes in another order");
        this.parts[ready].instance = this.instance(this.parts[ready], ready);
        waiting = waiting.filter((p) => p !== ready);
      }
      return "Linked";
    } catch (error) {
      if (error instanceof WebAssembly.LinkError) return "LinkFault";
      if (error instanceof WebAssembly.RuntimeError || error instanceof Refusal) return "InstanceTrapped";
      throw error;
    }
  }

  // Where the engine would show something else: it instantiates one part after the other, and a world does so at once, which is seen of segments where
  // something fails or a start is made.
  refuseWorld() {
    const modules = this.parts.map((part) => part.module);
    if (modules.some((module) => memories(module) > 1)) throw new NotShown("two memories in one module");
    const isSeen = modules.some(hasStart) || count(this.expected, "LinkFault", "InstanceTrapped") > 0;
    if (modules.length > 1 && modules.some(writesSegments) && isSeen) throw new NotShown("segments of several parts at once");
  }

  isOrderSeen() {
    return this.parts.filter(({ module }) => hasStart(module) || writesSegments(module)).length > 1;
  }

  isReady(part) {
    return part.module.imports.every((i) => this.joined(i)?.instance !== null);
  }

  // the part with an export of which an import is joined
  joined(i) {
    const part = this.parts.find((part) => part.name === string(i.module));
    return part?.module.exports.some((e) => text(e.name) === text(i.field)) ? part : undefined;
  }

  instance(part, p) {
    const views = [...this.view].filter(([, entity]) => Number(entity.part) === p);
    const exports = [...part.module.exports, ...views.map(([name, entity]) => ({ name: [...Buffer.from(`view ${name}`)], desc: entity.what }))];
    return new WebAssembly.Instance(new WebAssembly.Module(moduleBytes({ ...part.module, exports })), this.objects(part.module));
  }

  // an engine reads the imports in their order, and those of one pair may be several things
  objects(module) {
    const objects = {};
    for (const i of module.imports) {
      const given = module.imports.filter((other) => text(pairOf(other)) === text(pairOf(i))).map((other) => this.supplied(module, other));
      Object.defineProperty((objects[string(i.module)] ??= {}), string(i.field), { configurable: true, get: () => given.shift() });
    }
    return objects;
  }

  // what an import gets: another part's export, or the environment's own, or nothing
  supplied(module, i) {
    const part = this.joined(i);
    if (part) return part.instance.exports[string(i.field)];
    const own = this.owned.get(JSON.stringify(pairOf(i)));
    if (!own) return undefined;
    if (i.desc.tag === "Table") return own.table;
    if (i.desc.tag === "Memory") return own.memory;
    if (i.desc.tag === "Global") return own.global;
    const type = module.types[Number(i.desc.args[0])];
    return own.funcs.find((one) => text(one.type) === text(type))?.callee;
  }

  // an import was called: moves are made until it is answered or refused
  asked(pair, type, args) {
    this.events.push(made("Asked", pair, type, args.map((arg) => this.show(arg))));
    for (;;) {
      const move = this.moves.shift();
      if (!move) throw new NotShown("a run that waits for a move");
      if (this.isLeftOut()) continue;
      if (move.tag === "Refuse") throw new Refusal();
      if (move.tag !== "Answer") this.does(move);
      else return this.answer(type.results.map((result, n) => this.received(result, move.args[0][n])));
    }
  }

  answer(values) {
    return values.length > 1 ? values : values[0];
  }

  does({ tag, args }) {
    if (this.isLeftOut()) return undefined;
    switch (tag) {
      case "Call": return this.calls(this.viewed(args[0]), this.typeOf(args[0]), args[1]);
      case "Invoke": return this.calls(this.shown[Number(args[0])], this.types.get(this.shown[Number(args[0])]) ?? null, args[1]);
      case "Take": return this.takes(args[0]);
      case "Get": return this.got(this.element(this.placed(args[0]), Number(args[1])));
      case "Size": return this.got(this.size(this.placed(args[0])));
      case "Set": return this.set(this.placed(args[0]), Number(args[1]), args[2]);
      case "Extend": return this.extend(this.placed(args[0]), Number(args[1]));
      default: throw new NotShown(`the move ${tag}`);
    }
  }

  // the type of a function that is got by its name is known from then on
  takes(name) {
    const taken = this.viewed(name);
    this.types.set(taken, this.typeOf(name));
    this.got(taken);
  }

  calls(callee, type, args) {
    if (!callee || (args.length && !type)) throw new NotShown("a call of a function that isn't known here");
    try {
      const result = callee(...args.map((arg, n) => this.received(type.params[n], arg)));
      const results = result === undefined ? [] : Array.isArray(result) ? result : [result];
      this.events.push(made("Returned", results.map((one) => this.show(one))));
    } catch (error) {
      if (!(error instanceof WebAssembly.RuntimeError || error instanceof Refusal)) throw error;
      this.events.push(made("Trapped"));
    }
  }

  viewed(name) {
    const entity = this.view.get(string(name));
    return this.parts[Number(entity.part)].instance.exports[`view ${string(name)}`];
  }

  typeOf(name) {
    const { part, what } = this.view.get(string(name));
    const module = this.parts[Number(part)].module;
    const types = [...module.imports.filter((i) => i.desc.tag === "Func").map((i) => i.desc.args[0]), ...module.funcs.map((f) => f.ty)];
    return module.types[Number(types[Number(what.args[0])])];
  }

  placed({ tag, args }) {
    if (tag === "Named") return this.viewed(args[0]);
    const own = this.owned.get(JSON.stringify(args[0].pair.map(string)));
    return tag === "TableOf" ? own.table : tag === "MemoryOf" ? own.memory : own.global;
  }

  element(thing, index) {
    return thing instanceof WebAssembly.Memory ? new Uint8Array(thing.buffer)[index] : thing instanceof WebAssembly.Table ? thing.get(index) : thing.value;
  }

  size(thing) {
    return thing instanceof WebAssembly.Memory ? thing.buffer.byteLength / 65536 : thing instanceof WebAssembly.Table ? thing.length : 1;
  }

  set(thing, index, given) {
    if (thing instanceof WebAssembly.Memory) new Uint8Array(thing.buffer)[index] = Number(given.args[0]);
    else if (thing instanceof WebAssembly.Global && given.tag === "Number") thing.value = typeof thing.value === "bigint" ? given.args[0] : Number(given.args[0]);
    else if (thing instanceof WebAssembly.Global) thing.value = this.received(null, given);
    else thing.set(index, this.received(null, given));
    this.events.push(made("Done"));
  }

  extend(thing, count) {
    if (thing instanceof WebAssembly.Table) thing.grow(count, null);
    else thing.grow(count);
    this.events.push(made("Done"));
  }

  got(what) {
    this.events.push(made("Got", this.show(what)));
  }

  // a value as the events have it; functions are numbered in the order of first showing
  show(what) {
    if (typeof what === "number") return made("Number", BigInt(what >>> 0));
    if (typeof what === "bigint") return made("Number", BigInt.asUintN(64, what));
    if (what === null) return made("Null");
    if (typeof what !== "function") return made("ExternNumber", what.number);
    const own = this.ownFunctions().find((one) => one.callee === what);
    if (own) return own.value;
    if (!this.shown.includes(what)) this.shown.push(what);
    return made("Function", BigInt(this.shown.indexOf(what)));
  }

  received(type, { tag, args }) {
    if (tag === "Null") return null;
    if (tag === "ExternNumber") return this.extern(args[0]);
    if (tag === "Function") return this.shown[Number(args[0])];
    if (tag === "OwnFunc") return this.ownFunctions().find((one) => text(one.value.args) === text(args)).callee;
    return type.tag === "I64" ? args[0] : Number(args[0]);
  }

  ownFunctions() {
    return [...this.owned.values()].flatMap((own) => own.funcs);
  }

  extern(number) {
    if (!this.externs.has(number)) this.externs.set(number, { number });
    return this.externs.get(number);
  }
}

// ---- the loader ----

const SLOTS = "its slots";

// a primary whose placeholders are functions of the loader: the first call of one instantiates the secondary that has its slot
class Loader extends Embedder {
  constructor({ primary, secondaries, import_namespace, slot_table, view }, environment, moves, expected) {
    const slots = { pair: [[...Buffer.from(SLOTS)], made("Table", slot_table)] };
    const entities = [...view, slots].map(({ pair: [name, what] }) => ({ pair: [name, { part: 0n, what }] }));
    super({ parts: [{ name: made("None"), module: primary }], view: entities }, environment, moves, expected);
    this.secondaries = secondaries.map(({ module }) => ({ module, isLoaded: false }));
    this.namespace = string(import_namespace);
    const slotted = secondaries.flatMap(({ placeholders }, at) => placeholders.map(({ pair: [{ pair }, type] }) => ({ pair, type, secondary: this.secondaries[at] })));
    this.placeholders = slotted.map((one, slot) => ({ ...one, callee: asEngineHas(one.type, (...args) => this.called(slot, args)) }));
  }

  supplied(module, i) {
    const placeholder = this.placeholders.find(({ pair }) => text(pair) === text([i.module, i.field]));
    return placeholder ? placeholder.callee : super.supplied(module, i);
  }

  // a placeholder that is found in the slot is not called again
  called(slot, args) {
    const { instance } = this.parts[0];
    if (!instance) throw new NotShown("a load while the primary starts");
    const { type, secondary } = this.placeholders[slot];
    if (!secondary.isLoaded) this.load(secondary, instance.exports);
    const slots = instance.exports[`view ${SLOTS}`];
    if (this.placeholders.some(({ callee }) => callee === slots.get(slot))) throw new Refusal();
    return throughSlot(slots, slot, type)(...args);
  }

  load(secondary, exports) {
    secondary.isLoaded = true;
    const { start, imports } = secondary.module;
    if (start.tag !== "None" || imports.some((i) => string(i.module) !== this.namespace)) throw new Refusal();
    const objects = { [this.namespace]: exports };
    try {
      new WebAssembly.Instance(new WebAssembly.Module(moduleBytes(secondary.module)), objects);
    } catch (error) {
      throw error instanceof WebAssembly.LinkError ? new Refusal() : error;
    }
  }
}

// ---- the loader of split modules ----

class SplitLoader extends Embedder {
  constructor({ primary, secondaries, view }, environment, moves, expected) {
    const entities = view.map(({ pair: [name, what] }) => ({ pair: [name, { part: 0n, what }] }));
    super({ parts: [{ name: made("None"), module: primary }], view: entities }, environment, moves, expected);
    this.secondaries = secondaries;
  }

  instance({ module }) {
    const placeholders = this.secondaries.flatMap((one) => one.placeholders.map(({ pair: [{ pair }] }) => text(pair)));
    const others = module.imports.filter((i) => !placeholders.includes(text([i.module, i.field])));
    return new SplitInstance(moduleBytes(module), this.given(), this.objects({ ...module, imports: others }));
  }

  // the secondary of a pair, or a map from placeholder modules
  given() {
    const give = ({ module }) => () => moduleBytes(module);
    if (this.secondaries.length === 1) return give(this.secondaries[0]);
    return Object.fromEntries(this.secondaries.map((one) => [string(one.placeholders[0].pair[0].pair[0]), give(one)]));
  }

  isReady() {
    return true;
  }

  viewed(name) {
    return this.parts[0].instance.exports[string(name)];
  }
}

// ---- comparing ----

const text = (what) => JSON.stringify(what, (key, part) => (typeof part === "bigint" ? part.toString() : part));
const count = (list, ...tags) => list.filter(({ tag }) => tags.includes(tag)).length;

// why no engine can show a run, or null
function unseen(events, moves) {
  if (events.some(({ tag }, n) => tag === "GrowAsked" && events[n + 1]?.tag === "BadMove")) return "a move while a growth waits";
  if (count(events, "GrowAsked") && count(moves, "Deny")) return "a growth that is denied";
  if (count(events, "Returned", "Trapped", "BadMove") < count(moves, "Call", "Invoke")) return "a run that doesn't end in its steps";
  return null;
}

// what the engine shows of a theorem, or why it shows nothing
function tried({ run, events }, loader) {
  const { tag, args: [world, environment, moves] } = value(run, {});
  const all = value(events, {});
  const reason = unseen(all, moves);
  if (reason) return { reason };
  const expected = all.filter((event) => event.tag !== "GrowAsked");
  const grants = moves.filter((move) => move.tag === "Grant").slice(0, count(all, "GrowAsked"));
  try {
    const seen = new (tag === "events_loaded" ? loader : Embedder)(world, environment, moves.filter((move) => !grants.includes(move)), expected).run();
    return { seen: text(seen), wanted: text(expected), inPart: count(all, "BadMove", "GrowAsked") > 0 };
  } catch (error) {
    if (error instanceof NotShown) return { reason: error.message };
    return { seen: `an error (${error.message})`, wanted: text(expected) };
  }
}

let wrong = 0;
let empty = 0;

// makes the runs of a file, and says what came of them
function show(path, theorems, loader) {
  const hidden = [];
  let [shown, partly] = [0, 0];
  for (const one of theorems) {
    const { reason, seen, wanted, inPart } = tried(one, loader);
    if (reason) hidden.push(`    ${one.name}: ${reason}`);
    else if (seen === wanted) {
      shown += 1;
      if (inPart) partly += 1;
    } else {
      wrong += 1;
      console.log(`${one.name}: the engine shows ${seen}, the theorem says ${wanted}`);
    }
  }
  console.log(`${path.split("/").slice(-3).join("/")}: ${theorems.length} runs, ${shown} shown by the engine (${partly} of them in part), ${hidden.length} that it cannot show${hidden.length ? ":" : ""}`);
  for (const line of hidden) console.log(line);
  if (!shown) {
    empty += 1;
    console.log("    nothing of it is shown");
  }
}

for (const path of FILES) show(path, read(path), Loader);
if (process.argv.length === 2) {
  definitions.clear();
  define("func_ref = Func");
  readSplit(SPLIT_WORDS);
  show(SPLIT, readSplit(SPLIT), SplitLoader);
}
console.log(wrong ? `${wrong} runs are contradicted` : "no run is contradicted");
process.exit(wrong || empty ? 1 : 0);
