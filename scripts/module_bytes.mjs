// What the scripts that run modules in this engine read of a module's bytes (Core 2.0, chapter 5), what they change in them, and modules that they make.

export const TYPES = { 0x7f: "i32", 0x7e: "i64", 0x70: "funcref", 0x6f: "externref" };
const [CUSTOM, TYPE, IMPORT, FUNCTION, EXPORT, START, CODE] = [0, 1, 2, 3, 7, 8, 10];
// the sections in the order in which they stand (Core 2.0, 5.5.2)
const ORDER = [1, 2, 3, 4, 5, 6, 7, 8, 9, 12, 10, 11];

// ---- reading ----

class Reader {
  constructor(bytes, at = 0) {
    Object.assign(this, { bytes, at });
  }
  byte() {
    return this.bytes[this.at++];
  }
  number() {
    let value = 0;
    for (let place = 1; ; place *= 0x80) {
      const byte = this.byte();
      value += (byte % 0x80) * place;
      if (byte < 0x80) return value;
    }
  }
  vector(item) {
    return Array.from({ length: this.number() }, () => item());
  }
  text() {
    const length = this.number();
    this.at += length;
    return this.bytes.toString("utf8", this.at - length, this.at);
  }
  limits() {
    const hasMost = this.byte() === 1;
    return { initial: this.number(), ...(hasMost ? { maximum: this.number() } : {}) };
  }
  imported() {
    const [module, name, kind] = [this.text(), this.text(), this.byte()];
    if (kind === 0) return { module, name, kind, type: this.number() };
    if (kind === 1) return { module, name, kind, element: TYPES[this.byte()], ...this.limits() };
    if (kind === 2) return { module, name, kind, ...this.limits() };
    return { module, name, kind, value: TYPES[this.byte()], mutable: this.byte() === 1 };
  }
}

function sections(bytes) {
  const found = [];
  for (let at = 8; at < bytes.length; ) {
    const reader = new Reader(bytes, at + 1);
    const size = reader.number();
    const end = reader.at + size;
    found.push({ id: bytes[at], begin: at, content: bytes.subarray(reader.at, end), end });
    at = end;
  }
  return found;
}

// A module's bytes, what it imports and exports, its types, the types of its functions, and their names.
export function read(bytes) {
  const all = sections(bytes);
  const vector = (id, item) => {
    const section = all.find((one) => one.id === id);
    if (!section) return [];
    const reader = new Reader(section.content);
    return reader.vector(() => item(reader));
  };
  const types = vector(TYPE, (r) => (r.byte(), [r.vector(() => TYPES[r.byte()]), r.vector(() => TYPES[r.byte()])]));
  const imports = vector(IMPORT, (r) => r.imported());
  const importedFuncs = imports.filter(({ kind }) => kind === 0).map(({ type }) => type);
  const funcs = [...importedFuncs, ...vector(FUNCTION, (r) => r.number())].map((type) => types[type]);
  const exports = vector(EXPORT, (r) => ({ name: r.text(), kind: r.byte(), index: r.number() }));
  return { bytes, imports, types, funcs, exports, firstDefined: importedFuncs.length, hasStart: all.some(({ id }) => id === START), names: functionNames(all) };
}

// index and name of each function that the name section names
function functionNames(all) {
  const section = all.find(({ id, content }) => id === CUSTOM && new Reader(content).text() === "name");
  if (!section) return [];
  const reader = new Reader(section.content);
  reader.text();
  while (reader.at < section.content.length) {
    const [id, size] = [reader.byte(), reader.number()];
    if (id === 1) return reader.vector(() => [reader.number(), reader.text()]);
    reader.at += size;
  }
  return [];
}

export const takesAndGivesNothing = (type) => type.every((list) => list.length === 0);

// Can stand in a list of names that is cut at each comma.
export const canBeListed = (name) => name !== "" && !name.includes(",");

// ---- changing ----

export const withoutCustom = (bytes) => Buffer.concat([bytes.subarray(0, 8), ...sections(bytes).filter(({ id }) => id !== CUSTOM).map(({ begin, end }) => bytes.subarray(begin, end))]);

// The module with one of its own functions, below 128, as start.
export function withStart(bytes, func) {
  const behind = sections(bytes).find(({ id }) => id > START && id !== CUSTOM);
  return Buffer.concat([bytes.subarray(0, behind.begin), Buffer.from([START, 1, func]), bytes.subarray(behind.begin)]);
}

export function unsigned(number) {
  const bytes = [];
  for (; number >= 0x80; number = Math.floor(number / 0x80)) bytes.push((number % 0x80) + 0x80);
  return Buffer.from([...bytes, number]);
}

export function signed(number) {
  const bytes = [];
  let left = BigInt(number);
  for (; left < -64n || left >= 64n; left >>= 7n) bytes.push(Number(left & 0x7fn) + 0x80);
  return Buffer.from([...bytes, Number(left & 0x7fn)]);
}

export const sized = (content) => Buffer.concat([unsigned(content.length), content]);

// The content of a section that is a vector, or of none, with items behind its own.
function extended(content, items) {
  const reader = new Reader(content ?? Buffer.from([0]));
  return Buffer.concat([unsigned(reader.number() + items.length), reader.bytes.subarray(reader.at), ...items]);
}

// The module, without custom sections, with functions of type [] to [] behind its own, which are exported under these names, and have these
// instructions as bodies.
export function withFunctions({ bytes, types, funcs }, added) {
  const contents = new Map(sections(bytes).filter(({ id }) => id !== CUSTOM).map(({ id, content }) => [id, content]));
  const extend = (id, items) => contents.set(id, extended(contents.get(id), items));
  const nothing = types.findIndex(takesAndGivesNothing);
  if (nothing < 0) extend(TYPE, [Buffer.from([0x60, 0, 0])]);
  extend(FUNCTION, added.map(() => unsigned(nothing < 0 ? types.length : nothing)));
  extend(EXPORT, added.map(({ name }, at) => Buffer.concat([sized(Buffer.from(name)), Buffer.from([0]), unsigned(funcs.length + at)])));
  extend(CODE, added.map(({ body }) => sized(Buffer.concat([Buffer.from([0]), body, Buffer.from([0x0b])]))));
  const held = ORDER.filter((id) => contents.has(id));
  return Buffer.concat([bytes.subarray(0, 8), ...held.flatMap((id) => [Buffer.from([id]), sized(contents.get(id))])]);
}

// ---- making ----

export const named = (text) => sized(Buffer.from(text));

// A module of its sections, by their numbers: the items of a vector, or the content of what is no vector (the start, the count of data segments).
export function moduleOf(contents) {
  const held = ORDER.filter((id) => contents[id] && contents[id].length > 0);
  const content = (items) => (Array.isArray(items) ? Buffer.concat([unsigned(items.length), ...items]) : items);
  return Buffer.concat([Buffer.from("0061736d01000000", "hex"), ...held.flatMap((id) => [Buffer.from([id]), sized(content(contents[id]))])]);
}
