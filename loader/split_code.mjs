// What the loader reads of its arguments and of a split's modules: how modules are given and compiled, what the split added to the primary, and the start
// function in its bytes.

// ---- arguments ----

export const USE_INSTANTIATE = "use await SplitInstance.instantiate(..)";
const KINDS = { module: "a WebAssembly.Module", bytes: "bytes", response: "a Response", promise: "a promise of one of these", function: "a function that gives one" };

export function checkedOptions(options) {
  if (typeof options !== "object" || options === null) throw new TypeError(`options: an object is needed, not ${said(options)}`);
  const { importNamespace = "primary", placeholderNamespace = "placeholder", exportPrefix = "%", suspend = false } = options;
  for (const [option, name] of Object.entries({ importNamespace, placeholderNamespace, exportPrefix })) {
    if (typeof name !== "string" || name === "") throw new TypeError(`options.${option}: a name is needed, not ${said(name)}`);
  }
  if (typeof suspend !== "boolean") throw new TypeError(`options.suspend: true or false is needed, not ${said(suspend)}`);
  return { importNamespace, placeholderNamespace, exportPrefix, suspend };
}

export function checkImports(imports) {
  if (typeof imports !== "object" || imports === null) throw new TypeError(`imports: an object is needed, not ${said(imports)}`);
}

// The secondaries that are given, each with its placeholder module, which is null for one that is given without a map.
export function codesOf(secondaries, kinds) {
  const isMap = kindOf(secondaries) === null && tagOf(secondaries) === "Object";
  const codes = isMap ? Object.entries(secondaries) : [[null, secondaries]];
  for (const [name, code] of codes) {
    const kind = kindOf(code);
    const what = name === null ? "secondaries" : `secondaries[${said(name)}]`;
    if (kind === null) throw new TypeError(`${what}: ${kinds.map((one) => KINDS[one]).join(", ")} is needed, not ${said(code)}`);
    if (!kinds.includes(kind)) throw new TypeError(`${what}: needed at once, and a ${kind} was given: ${USE_INSTANTIATE}`);
  }
  return codes;
}

// The same, each with its placeholder module.
export function withNames(codes, modules, namespace) {
  if (codes.length === 1 && codes[0][0] === null) {
    if (modules.length > 1) throw new TypeError(`secondaries: ${modules.join(", ")} need one each: give a map from placeholder modules to secondaries`);
    return [[modules[0] ?? namespace, codes[0][1]]];
  }
  const names = codes.map(([name]) => name);
  for (const name of names) if (!modules.includes(name)) throw new TypeError(`secondaries[${said(name)}]: the primary has no such placeholder module, but ${modules.join(", ") || "none"}`);
  for (const module of modules) if (!names.includes(module)) throw new TypeError(`secondaries: the placeholder module ${module} has none`);
  return codes;
}

// ---- how a module is given ----

export const tagOf = (value) => Object.prototype.toString.call(value).slice("[object ".length, -1);

// By their tags, since modules, buffers and responses may come from another realm; null for what is none of these.
export function kindOf(code) {
  const tag = tagOf(code);
  if (tag === "WebAssembly.Module") return "module";
  if (tag === "ArrayBuffer" || ArrayBuffer.isView(code)) return "bytes";
  if (tag === "Response") return "response";
  if (typeof code === "function") return "function";
  return typeof code?.then === "function" ? "promise" : null;
}

// A value in a message.
export function said(value) {
  if (typeof value === "string") return JSON.stringify(value);
  return typeof value === "object" && value !== null ? `a value of type ${tagOf(value)}` : typeof value === "function" ? "a function" : String(value);
}

// Compiles what is at hand. `changed` is done to bytes before.
export function compiledAtOnce(code, what, advice, changed = (bytes) => bytes) {
  const kind = kindOf(code);
  if (kind === "module") return code;
  if (kind === "bytes") return new WebAssembly.Module(changed(code));
  if (kind === "promise") code.then(() => {}, () => {});
  if (kind === "promise" || kind === "response") throw new TypeError(`${what}: needed at once, and a ${kind} was given: ${advice}`);
  throw new TypeError(`${what}: a WebAssembly.Module or bytes are needed, not ${said(code)}`);
}

// Compiles what comes, without blocking. `changed` is done to bytes before, and `streamed` to the first bytes of a response that is compiled by streaming.
export async function compiled(given, what, changed, streamed = changed) {
  const code = await given;
  const kind = kindOf(code);
  if (kind === "module") return code;
  if (kind === "bytes") return WebAssembly.compile(changed(code));
  if (kind === "response") return compiledResponse(code, changed, streamed);
  throw new TypeError(`${what}: a WebAssembly.Module, bytes, a Response or a promise of one of these is needed, not ${said(code)}`);
}

async function compiledResponse(response, changed, streamed) {
  if (!response.ok) throw new Error(`${response.url || "a response"}: the server answered with status ${response.status}`);
  const type = (response.headers.get("content-type") ?? "").trim().toLowerCase();
  if (type !== "application/wasm" || response.body === null || !("compileStreaming" in WebAssembly)) return compiled(response.arrayBuffer(), "the response", changed);
  return WebAssembly.compileStreaming(streamed ? withHeadChanged(response, streamed) : response);
}

function withHeadChanged({ body, headers }, changed) {
  return new Response(body.pipeThrough(new TransformStream(new Head(changed))), { headers: { "content-type": headers.get("content-type") } });
}

// A filter over a module's bytes that come in pieces: holds the sections up to the start section, changes them together, and lets the others pass.
class Head {
  #changed;
  #pieces = [];
  #length = 0;
  // where the next section begins
  #next = HEADER;
  #isPast = false;

  constructor(changed) {
    this.#changed = changed;
  }

  transform(piece, controller) {
    if (this.#isPast) return controller.enqueue(piece);
    this.#pieces.push(piece);
    this.#length += piece.length;
    // (the byte that tells which section it is, and the number of bytes in it)
    if (this.#length < this.#next + 6) return;
    const bytes = joined(this.#pieces);
    this.#pieces = [bytes];
    while (bytes[this.#next] <= START && this.#length >= this.#next + 6) {
      const [size, content] = number(bytes, this.#next + 1);
      this.#next = content + size;
    }
    if (bytes[this.#next] > START) this.#pass(bytes, controller);
  }

  flush(controller) {
    if (!this.#isPast) controller.enqueue(this.#changed(joined(this.#pieces)));
  }

  #pass(bytes, controller) {
    this.#isPast = true;
    this.#pieces = [];
    controller.enqueue(this.#changed(bytes.subarray(0, this.#next)));
    controller.enqueue(bytes.subarray(this.#next));
  }
}

/** A secondary that is not of this primary: it does not link, has a start function, or fills other slots than its own. */
export class WrongSecondary extends Error {}

// The bytes of a secondary, which has no start function. Engines do not tell it of a compiled module, and a response is compiled as it comes, so that
// the engine can keep its code.
export function withoutStart(bytes) {
  if (sectionsOf(asBytes(bytes)).some(({ id }) => id === START)) throw new WrongSecondary("it has a start function");
  return bytes;
}

// ---- what a split adds to the primary ----

const LETTERS = { function: "f", table: "t", memory: "m", global: "g" };
const ORDER = Object.keys(LETTERS);
const NUMBER = /^(0|[1-9][0-9]{0,9})$/;

// The placeholder module of each slot, in order. Placeholders are the last imports, and the name of each is its slot: that of the last one tells how
// many they are. The module is the namespace, or for several secondaries the namespace, a point, and a number. No
// other import is of these modules.
export function placeholdersOf(imports, namespace) {
  const isNumbered = (module) => module.startsWith(`${namespace}.`) && NUMBER.test(module.slice(namespace.length + 1));
  const last = imports.at(-1);
  const isPlaceholder = last?.kind === "function" && (last.module === namespace || isNumbered(last.module)) && NUMBER.test(last.name);
  const first = isPlaceholder ? Math.max(0, imports.length - Number(last.name) - 1) : imports.length;
  const modules = imports.slice(first).map(({ module }) => module);
  const areNumbered = isPlaceholder && last.module !== namespace;
  const taken = new Set(areNumbered ? modules : [namespace]);
  for (const [at, { module, name, kind }] of imports.entries()) {
    const isInPlace = areNumbered ? isNumbered(module) : module === namespace;
    const isRight = at < first ? !taken.has(module) : isInPlace && kind === "function" && name === String(at - first);
    if (!isRight) {
      throw new TypeError(`options.placeholderNamespace: the import ${module}.${name} is no placeholder: the module was not split with the placeholder namespace ${namespace}`);
    }
  }
  return modules;
}

// The exports of a primary: those of the input, those of which only the secondaries tell whether they were added, the slot table, and a start
// function that was exported behind it.
export function layoutOf(exports, prefix) {
  const slots = `${prefix}slots`;
  const at = exports.findIndex(({ name }) => name === slots);
  const behind = exports.slice(at + 1);
  if (at < 0 || exports[at].kind !== "table" || behind.length > 1 || behind.some(({ kind }) => kind !== "function")) {
    throw new TypeError(`primary: the last export is no table ${slots}: this is no primary of a split, or it was split with another export prefix than ${prefix}`);
  }
  const names = exports.map(({ name }) => name);
  const first = firstDoubtful(exports, at, prefix);
  return { shown: names.slice(0, first), doubtful: names.slice(first, at), slots, start: behind[0]?.name ?? null };
}

// Added exports stand last before the slot table: functions, tables, memories and globals, each with their old numbers ascending.
function firstDoubtful(exports, end, prefix) {
  let first = end;
  let [kind, number] = [ORDER.length, 0];
  for (; first > 0; first -= 1) {
    const [newKind, newNumber] = placeOf(exports[first - 1], prefix);
    if (newNumber === null || newKind > kind || (newKind === kind && newNumber >= number)) break;
    [kind, number] = [newKind, newNumber];
  }
  return first;
}

function placeOf({ name, kind }, prefix) {
  const begin = prefix + LETTERS[kind];
  const digits = name.startsWith(begin) ? name.slice(begin.length) : "";
  return [ORDER.indexOf(kind), NUMBER.test(digits) ? Number(digits) : null];
}

// ---- the start function (Core 2.0, 5.5) ----

const HEADER = 8;
const EXPORTS = 7;
const START = 8;

/**
 * A primary whose start function, if it has one, is exported behind all else and not started by the engine.
 *
 * An engine gives an instance's exports only after its start function has ended, and a secondary that is to be loaded meanwhile needs them. So
 * `SplitInstance` calls the start function itself. It does this by itself for bytes and responses: this is for those who compile the primary on their own.
 *
 * @param {BufferSource} bytes The primary's bytes, as `binkit split` has written them.
 * @returns {BufferSource} Bytes to compile: `bytes` themselves where there is no start function.
 */
export function exportStart(bytes) {
  const from = asBytes(bytes);
  const sections = sectionsOf(from);
  const start = sections.find(({ id }) => id === START);
  const exported = sections.find(({ id }) => id === EXPORTS);
  if (!start || !exported) return bytes;
  const content = withExport(from.subarray(exported.content, exported.end), from.subarray(start.content, start.end));
  const pieces = sections.filter((section) => section !== start).map((section) => (section === exported ? sized(EXPORTS, content) : from.subarray(section.begin, section.end)));
  return joined([from.subarray(0, HEADER), ...pieces]);
}

function asBytes(source) {
  return ArrayBuffer.isView(source) ? new Uint8Array(source.buffer, source.byteOffset, source.byteLength) : new Uint8Array(source);
}

// Where each section begins, where its content does, and where it ends. What follows a section that is cut short is left to the engine, which refuses it.
function sectionsOf(bytes) {
  const sections = [];
  for (let begin = HEADER; begin < bytes.length; ) {
    const [size, content] = number(bytes, begin + 1);
    const end = Math.min(content + size, bytes.length);
    sections.push({ id: bytes[begin], begin, content, end });
    begin = end;
  }
  return sections;
}

// An unsigned number, and the place behind it.
function number(bytes, at) {
  let value = 0;
  let place = 1;
  for (; bytes[at] >= 0x80; at += 1, place *= 0x80) value += (bytes[at] - 0x80) * place;
  return [value + (bytes[at] ?? 0) * place, at + 1];
}

function spelled(value) {
  const bytes = [];
  for (; value >= 0x80; value = Math.floor(value / 0x80)) bytes.push((value % 0x80) + 0x80);
  return [...bytes, value];
}

const sized = (id, content) => joined([[id], spelled(content.length), content]);

// The content of an export section with one more function, under a name that no other export has.
function withExport(content, func) {
  const [count, entries] = number(content, 0);
  const names = new Set();
  for (let left = count, at = entries; left > 0 && at < content.length; left -= 1) {
    const [length, begin] = number(content, at);
    names.add(new TextDecoder("utf-8", { ignoreBOM: true }).decode(content.subarray(begin, begin + length)));
    at = number(content, begin + length + 1)[1];
  }
  let name = "start";
  while (names.has(name)) name += "_";
  return joined([spelled(count + 1), content.subarray(entries), spelled(name.length), new TextEncoder().encode(name), [0], func]);
}

function joined(pieces) {
  const bytes = new Uint8Array(pieces.reduce((length, piece) => length + piece.length, 0));
  let at = 0;
  for (const piece of pieces) {
    bytes.set(piece, at);
    at += piece.length;
  }
  return bytes;
}
