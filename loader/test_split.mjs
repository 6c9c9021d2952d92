// Splits small modules for the tests of the loader, by the rules of docs/commands/split.md: a pair, or several secondaries.
//
// A module is an object:
//
//     imports  functions: { module, name, type }
//     memory   its pages; data: [{ at, bytes }], without `at` a passive segment
//     globals  [{ type, value, mutable }]
//     table    the names of its functions, null for an empty slot; tableMost: the most slots that it may have
//     funcs    { NAME: { type, locals, body } }, in their order; a body is a list of instructions [NAME, ..immediates]
//     exports  [NAME, kind, what]; start: the name of a function; types: all types, where they have an order of their own
//
// A type is two words of letters, PARAMETERS>RESULTS: i is i32, I i64, f funcref, x externref. Functions are named, also imported ones (by the name of
// the import); globals, memories and tables are numbered.
//
// Several secondaries are numbered from 0, and so are the functions that moved, one secondary after the other: these numbers are the slots. The module
// of a placeholder is then the placeholder namespace, a point and the number of its secondary. A call of a function of another secondary goes through
// its slot. A primary exports what at least one secondary imports.
import { moduleOf, named, signed, sized, unsigned } from "../scripts/module_bytes.mjs";

const VALUES = { i: 0x7f, I: 0x7e, f: 0x70, x: 0x6f };
const [TYPE, IMPORT, FUNCTION, TABLE, MEMORY, GLOBAL, EXPORT, START, ELEMENT, CODE, DATA, DATA_COUNT] = [1, 2, 3, 4, 5, 6, 7, 8, 9, 10, 11, 12];
const KINDS = ["func", "table", "memory", "global"];
const bytes = (...numbers) => Buffer.from(numbers);
const joined = (...pieces) => Buffer.concat(pieces);
const vector = (items) => joined(unsigned(items.length), ...items);

// ---- instructions: the byte, and how the immediates are spelled ----

const PLAIN = {
  unreachable: 0x00, nop: 0x01, else: 0x05, end: 0x0b, drop: 0x1a, "i32.eqz": 0x45, "i32.add": 0x6a, "i32.sub": 0x6b, "i32.mul": 0x6c, "i32.div_s": 0x6d, "i32.shl": 0x74, "i64.add": 0x7c,
};
const WITH_NUMBER = { "local.get": 0x20, "local.set": 0x21, "global.get": 0x23, "global.set": 0x24 };
const IN_MEMORY = { "i32.load": 0x28, "i32.store": 0x36 };

function instruction([name, ...given], { func, type, table }) {
  if (name in PLAIN) return bytes(PLAIN[name]);
  if (name in WITH_NUMBER) return joined(bytes(WITH_NUMBER[name]), unsigned(given[0]));
  if (name in IN_MEMORY) return joined(bytes(IN_MEMORY[name], 2), unsigned(given[0]));
  if (name === "i32.const" || name === "i64.const") return joined(bytes(name === "i32.const" ? 0x41 : 0x42), signed(given[0]));
  if (name === "if") return bytes(0x04, given[0] ? VALUES[given[0]] : 0x40);
  if (name === "memory.init") return joined(bytes(0xfc, 8), unsigned(given[0]), bytes(0));
  if (name === "bytes") return given[0];
  if (name === "call") return joined(bytes(0x10), unsigned(func(given[0])));
  if (name === "call_indirect") return joined(bytes(0x11), unsigned(type(given[0])), unsigned(table(given[1])));
  throw new Error(`no instruction ${name}`);
}

function body({ locals = 0, body: code }, spaces) {
  const declared = locals > 0 ? [joined(unsigned(locals), bytes(VALUES.i))] : [];
  return sized(joined(vector(declared), ...code.map((one) => instruction(one, spaces)), bytes(PLAIN.end)));
}

// ---- a module ----

const limits = (from, to) => (to === undefined ? joined(bytes(0), unsigned(from)) : joined(bytes(1), unsigned(from), unsigned(to)));
const globalType = ({ type, mutable }) => bytes(VALUES[type], mutable ? 1 : 0);
const constant = (value) => joined(bytes(0x41), signed(value), bytes(PLAIN.end));

class Input {
  constructor({ types = null, imports = [], memory = null, data = [], globals = [], table = null, tableMost, funcs = {}, exports = [], start = null }) {
    Object.assign(this, { imports, memory, data, globals, table, tableMost, funcs, exports, start });
    this.names = [...imports.map(({ name }) => name), ...Object.keys(funcs)];
    this.typeOf = Object.fromEntries([...imports.map(({ name, type }) => [name, type]), ...Object.entries(funcs).map(([name, { type }]) => [name, type])]);
    this.types = types ?? [...new Set(Object.values(this.typeOf))];
  }

  type = (type) => this.types.indexOf(type);

  typeSection() {
    const values = (letters) => vector([...letters].map((letter) => bytes(VALUES[letter])));
    return this.types.map((type) => joined(bytes(0x60), ...type.split(">").map(values)));
  }

  importSection = (imports) => imports.map(({ module, name, type }) => joined(named(module), named(name), bytes(0), unsigned(this.type(type))));

  // What the module and the primary of a split have in common, with the places of functions, own tables in front.
  sections({ imports, defined, func, slots = null, exports = [], bodies }) {
    const own = this.table === null ? [] : [this.table.length];
    const filled = (this.table ?? []).flatMap((name, slot) => (name === null ? [] : [segment(0, slot, [func(name)])]));
    return {
      [TYPE]: this.typeSection(),
      [IMPORT]: this.importSection(imports),
      [FUNCTION]: defined.map((name) => unsigned(this.type(this.typeOf[name]))),
      [TABLE]: [...own.map((length) => joined(bytes(0x70), limits(length, this.tableMost))), ...(slots === null ? [] : [joined(bytes(0x70), limits(slots.length, slots.length))])],
      [MEMORY]: this.memory === null ? [] : [limits(this.memory)],
      [GLOBAL]: this.globals.map((one) => joined(globalType(one), constant(one.value))),
      [EXPORT]: [...this.exports.map(([name, kind, what]) => exported(name, kind, kind === "func" ? func(what) : what)), ...exports],
      [START]: this.start === null ? null : unsigned(func(this.start)),
      [ELEMENT]: [...filled, ...(slots === null ? [] : [segment(own.length, 0, slots)])],
      [DATA_COUNT]: this.data.some(({ at }) => at === undefined) ? unsigned(this.data.length) : null,
      [CODE]: bodies,
      [DATA]: this.data.map(({ at, bytes: held }) => (at === undefined ? joined(bytes(1), sized(Buffer.from(held))) : joined(bytes(0), constant(at), sized(Buffer.from(held))))),
    };
  }
}

const exported = (name, kind, index) => joined(named(name), bytes(KINDS.indexOf(kind)), unsigned(index));

// An active segment of functions.
function segment(table, offset, funcs) {
  const items = vector(funcs.map(unsigned));
  return table === 0 ? joined(bytes(0), constant(offset), items) : joined(bytes(2), unsigned(table), constant(offset), bytes(0), items);
}

/** The bytes of a module, with the names of its functions. */
export function whole(module) {
  const input = new Input(module);
  const func = (name) => input.names.indexOf(name);
  const spaces = { func, type: input.type, table: (index) => index };
  const names = sized(joined(named("name"), bytes(1), sized(vector(input.names.map((name, index) => joined(unsigned(index), named(name)))))));
  const sections = input.sections({ imports: input.imports, defined: Object.keys(input.funcs), func, bodies: Object.values(input.funcs).map((one) => body(one, spaces)) });
  return joined(moduleOf(sections), bytes(0), names);
}

// ---- a split ----

/**
 * The modules of a split: `primary`, and `secondaries`, one for each list of names of `groups`.
 *
 * @param {string[][]} groups
 * @param {{ isPair?: boolean, importNamespace?: string, placeholderNamespace?: string, exportPrefix?: string }} [options] `isPair`: a list alone makes a pair.
 */
export function split(module, groups, options = {}) {
  const made = new Split(new Input(module), groups, options);
  return { primary: made.primary(), secondaries: groups.map((_, at) => made.secondary(at)) };
}

/** Those of a pair. */
export function pairOf(module, moved, options = {}) {
  const { primary, secondaries: [secondary] } = split(module, [moved], { ...options, isPair: true });
  return { primary, secondary };
}

class Split {
  constructor(input, groups, { isPair = false, importNamespace = "primary", placeholderNamespace = "placeholder", exportPrefix = "%" }) {
    const inOrder = (names) => [...names].sort((a, b) => input.names.indexOf(a) - input.names.indexOf(b));
    Object.assign(this, { input, groups: groups.map(inOrder), isPair, importNamespace, placeholderNamespace, exportPrefix });
    this.moved = this.groups.flat();
    this.slotTable = input.table === null ? 0 : 1;
    this.needed = this.moved.filter((name) => name === input.start || (input.table ?? []).includes(name) || input.exports.some(([, kind, what]) => kind === "func" && what === name));
    this.used = this.groups.map((group) => this.usedBy(group));
  }

  // What the functions of a secondary name of the primary, in ascending order.
  usedBy(group) {
    const code = group.flatMap((name) => this.input.funcs[name].body);
    const all = (names, place) => [...new Set(code.filter(([name]) => names.includes(name)).map((one) => one[place]))];
    const funcs = all(["call"], 1).filter((name) => !this.moved.includes(name)).map((name) => this.input.names.indexOf(name));
    const ascending = (numbers) => numbers.sort((a, b) => a - b);
    return {
      func: ascending(funcs),
      table: ascending(all(["call_indirect"], 2)),
      memory: code.some(([name]) => name in IN_MEMORY) ? [0] : [],
      global: ascending(all(["global.get", "global.set"], 1)),
    };
  }

  // A call of a function in `apart` goes through its slot.
  throughSlots({ locals, body: code }, apart) {
    const replaced = ([name, callee]) => [["i32.const", this.moved.indexOf(callee)], ["call_indirect", this.input.typeOf[callee], "slots"]];
    return { locals, body: code.flatMap((one) => (one[0] === "call" && apart.includes(one[1]) ? replaced(one) : [one])) };
  }

  trampoline(name) {
    const params = this.input.typeOf[name].indexOf(">");
    return { body: [...Array.from({ length: params }, (_, at) => ["local.get", at]), ["i32.const", this.moved.indexOf(name)], ["call_indirect", this.input.typeOf[name], "slots"]] };
  }

  placeholders() {
    const module = (at) => (this.isPair ? this.placeholderNamespace : `${this.placeholderNamespace}.${at}`);
    return this.groups.flatMap((group, at) => group.map((name) => ({ module: module(at), type: this.input.typeOf[name] }))).map((one, slot) => ({ ...one, name: String(slot) }));
  }

  addedName = (kind, index) => `${this.exportPrefix}${kind[0]}${index}`;

  primary() {
    const { input, moved, needed } = this;
    const imports = [...input.imports, ...this.placeholders()];
    const defined = Object.keys(input.funcs).filter((name) => !moved.includes(name) || needed.includes(name));
    const func = (name) => (defined.includes(name) ? imports.length + defined.indexOf(name) : input.names.indexOf(name));
    const spaces = { func, type: input.type, table: (index) => (index === "slots" ? this.slotTable : index) };
    const added = KINDS.flatMap((kind) => [...new Set(this.used.flatMap((used) => used[kind]))].sort((a, b) => a - b)
      .map((index) => exported(this.addedName(kind, index), kind, kind === "func" ? func(input.names[index]) : index)));
    return moduleOf(input.sections({
      imports, defined, func,
      slots: moved.map((_, slot) => input.imports.length + slot),
      exports: [...added, exported(`${this.exportPrefix}slots`, "table", this.slotTable)],
      bodies: defined.map((name) => body(moved.includes(name) ? this.trampoline(name) : this.throughSlots(input.funcs[name], moved), spaces)),
    }));
  }

  secondary(at) {
    const { input, moved } = this;
    const [group, used] = [this.groups[at], this.used[at]];
    const imported = (kind, index, type) => joined(named(this.importNamespace), named(this.addedName(kind, index)), bytes(KINDS.indexOf(kind)), type);
    const slots = joined(named(this.importNamespace), named(`${this.exportPrefix}slots`), bytes(1, 0x70), limits(moved.length, moved.length));
    const funcs = used.func.map((index) => input.names[index]);
    const func = (name) => (group.includes(name) ? funcs.length + group.indexOf(name) : funcs.indexOf(name));
    const table = (index) => (index === "slots" ? used.table.length : used.table.indexOf(index));
    const number = (code) => code.map((one) => (one[0].startsWith("global.") ? [one[0], used.global.indexOf(one[1])] : one));
    const first = this.groups.slice(0, at).flat().length;
    const bodies = group.map((name) => this.throughSlots(input.funcs[name], moved.filter((one) => !group.includes(one))));
    return moduleOf({
      [TYPE]: input.typeSection(),
      [IMPORT]: [
        ...used.func.map((index) => imported("func", index, unsigned(input.type(input.typeOf[input.names[index]])))),
        ...used.table.map((index) => imported("table", index, joined(bytes(0x70), limits(input.table.length, input.tableMost)))),
        slots,
        ...used.memory.map((index) => imported("memory", index, limits(input.memory))),
        ...used.global.map((index) => imported("global", index, globalType(input.globals[index]))),
      ],
      [FUNCTION]: group.map((name) => unsigned(input.type(input.typeOf[name]))),
      [ELEMENT]: [segment(used.table.length, first, group.map(func))],
      [CODE]: bodies.map(({ locals, body: code }) => body({ locals, body: number(code) }, { func, type: input.type, table })),
    });
  }
}
