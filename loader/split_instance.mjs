// Loads a module that `binkit split` has divided: the primary module first, and each secondary module when a function that moved there is called for
// the first time, or before.
//
// For node, pages and workers. README.md beside it says how it is used. split_code.mjs has what it reads of the modules' bytes.
import { USE_INSTANTIATE, WrongSecondary, checkImports, checkedOptions, codesOf, compiled, compiledAtOnce, exportStart, kindOf, layoutOf, placeholdersOf, said, tagOf, withNames, withoutStart } from "./split_code.mjs";

export { exportStart };

/**
 * A secondary could not be loaded.
 *
 * Thrown within a call it is a trap in the middle of that call: what was written stays, and the instance should be given up. As the rejection of
 * `load`, outside of any call, it harms nothing, and `load` may be called again.
 */
export class SplitLoadError extends Error {
  /**
   * @param {string} secondary The placeholder module of the secondary: `placeholder` of a pair, `placeholder.0`, `placeholder.1` .. of several.
   * @param {string} reason
   * @param {{ cause?: unknown }} [options] The error behind it, if there is one.
   */
  constructor(secondary, reason, options) {
    super(`the secondary ${secondary} could not be loaded: ${reason}`, options);
    this.name = "SplitLoadError";
    this.secondary = secondary;
  }
}

/** An instance of the module that was split: `exports` has what that module exports, and nothing that the split added. */
export class SplitInstance {
  #loader;

  /**
   * Instantiates the primary at once, and runs its start function, if it has one. For node, for workers, and for start functions that load at once;
   * a window may refuse it for large modules.
   *
   * Throws a `TypeError` that names the argument that is wrong, and what the engine throws where it cannot compile, link or start the primary.
   *
   * @param {WebAssembly.Module | BufferSource} primary If it has a start function: its bytes, or what was compiled of `exportStart(bytes)`.
   * @param {Secondary | Record<string, Secondary>} secondaries That of a pair, or a map from each placeholder module to its secondary: a module, bytes,
   *     or a function that gives one. The function is called when the secondary is needed, and again where it could not be loaded. In a call it has
   *     to give the secondary at once; `load` also takes a response, or a promise.
   * @param {WebAssembly.Imports} [imports] What the module that was split imports.
   * @param {SplitOptions} [options] Names other than those of `binkit split` itself. (`suspend` is for `instantiate`.)
   */
  constructor(primary, secondaries, imports = {}, options = {}) {
    this.#loader = primary instanceof Loader ? primary : Loader.atOnce(primary, secondaries, imports, options);
  }

  /**
   * Instantiates the primary without blocking, and runs its start function, if it has one. Modules of any size work in a window.
   *
   * Waits for secondaries that are given as responses or promises, and compiles all but those that functions give; so they are at hand for a call.
   *
   * Rejects with a `TypeError` that names the argument that is wrong, with a `SplitLoadError` where a secondary that is waited for does not come or
   * cannot be compiled, and with what the engine throws where it cannot compile, link or start the primary.
   *
   * @param {Code | Promise<Code>} primary A module, bytes, a response, or a promise of one. If it is a module that has a start function, it has to be
   *     compiled of `exportStart(bytes)`.
   * @param {Secondary | Record<string, Secondary>} secondaries As for the constructor, and also responses and promises.
   * @param {WebAssembly.Imports} [imports] What the module that was split imports.
   * @param {SplitOptions} [options] Names, and `suspend`: calls of exports return promises, and wait while a secondary is loaded.
   * @returns {Promise<SplitInstance>}
   */
  static async instantiate(primary, secondaries, imports = {}, options = {}) {
    return new this(await Loader.later(primary, secondaries, imports, options));
  }

  /**
   * What the module that was split exports.
   *
   * Exports whose names look like added ones (the prefix, `f`, `t`, `m` or `g`, and a number) and stand where added ones stand come only once every
   * secondary is compiled: their imports tell which exports were added.
   */
  get exports() {
    return this.#loader.exports;
  }

  /** Whether all secondaries are there. */
  get loaded() {
    return this.#loader.secondaries.every(({ isLoaded }) => isLoaded);
  }

  /** Fulfilled when all secondaries are there, however they came. Never rejected. */
  get ready() {
    return this.#loader.ready;
  }

  /**
   * Whether a secondary is there. Throws a `TypeError` where the primary has no such placeholder module.
   *
   * @param {string} module Its placeholder module.
   */
  isLoaded(module) {
    return this.#loader.named(module).isLoaded;
  }

  /**
   * Loads one secondary, or all, without blocking. Calls that come meanwhile share the load, and calls of exports may go on.
   *
   * Rejects with a `SplitLoadError` where one does not come, cannot be compiled, or is not the secondary of this primary: the first of them, and the
   * others are still loaded. One that could not be loaded has changed nothing, and `load` may be called again. Rejects with a `TypeError` where the
   * primary has no such placeholder module.
   *
   * @param {string} [module] Its placeholder module; all secondaries where there is none.
   * @returns {Promise<void>}
   */
  async load(module) {
    const wanted = module === undefined ? this.#loader.secondaries : [this.#loader.named(module)];
    await Promise.all(wanted.map((secondary) => this.#loader.load(secondary)));
  }
}

/**
 * The bytes that stand under an address, at once: what a worker gives for a secondary that a call needs.
 *
 * Throws a `TypeError` in a window, which may not wait, and where there is no `XMLHttpRequest`; and an `Error` where the server has no such file.
 *
 * @param {string | URL} address
 * @returns {ArrayBuffer}
 */
export function fetchNow(address) {
  if (typeof address !== "string" && tagOf(address) !== "URL") throw new TypeError(`address: a text or a URL is needed, not ${said(address)}`);
  if ("document" in globalThis) throw new TypeError(`fetchNow: a window may not wait for ${address}: load it before, or give it to a worker`);
  if (!("XMLHttpRequest" in globalThis)) throw new TypeError(`fetchNow: there is no XMLHttpRequest here to fetch ${address}: it is for workers`);
  const request = new XMLHttpRequest();
  request.open("GET", address, false);
  request.responseType = "arraybuffer";
  request.send();
  if (request.status !== 200) throw new Error(`${address}: the server answered with status ${request.status}`);
  return request.response;
}

// ---- the loader behind an instance ----

class Loader {
  exports = Object.create(null);
  secondaries;
  ready;
  #options;
  #module;
  #layout;
  #imports;
  #instance = null;
  #slots = null;
  #calls = null;
  #isReady;

  static atOnce(primary, secondaries, imports, options) {
    const checked = checkedOptions(options);
    if (checked.suspend) throw new TypeError("options.suspend: the constructor cannot wait: use await SplitInstance.instantiate(..)");
    checkImports(imports);
    const codes = codesOf(secondaries, ["module", "bytes", "function"]);
    const loader = new Loader(compiledAtOnce(primary, "primary", USE_INSTANTIATE, exportStart), codes, imports, checked);
    loader.#begin(new WebAssembly.Instance(loader.#module, loader.#imports));
    loader.#start();
    return loader;
  }

  static async later(primary, secondaries, imports, options) {
    const checked = checkedOptions(options);
    if (checked.suspend && !("Suspending" in WebAssembly)) throw new Error("options.suspend: this engine has no promise integration (WebAssembly.Suspending)");
    checkImports(imports);
    const given = codesOf(secondaries, ["module", "bytes", "response", "promise", "function"]);
    const before = given.map(async ([name, code]) => [name, await compiledBefore(name ?? checked.placeholderNamespace, code)]);
    const [module, ...codes] = await Promise.all([compiled(primary, "primary", exportStart), ...before]);
    const loader = new Loader(module, codes, imports, checked);
    loader.#begin(await WebAssembly.instantiate(loader.#module, loader.#imports));
    await loader.#start();
    return loader;
  }

  constructor(module, codes, imports, options) {
    this.#options = options;
    this.#module = module;
    this.#layout = layoutOf(WebAssembly.Module.exports(module), options.exportPrefix);
    const imported = WebAssembly.Module.imports(module);
    const placeholders = placeholdersOf(imported, options.placeholderNamespace);
    this.secondaries = withNames(codes, [...new Set(placeholders)], options.placeholderNamespace).map(([name, code]) => new Secondary(name, code, placeholders));
    this.ready = new Promise((resolve) => (this.#isReady = resolve));
    if (this.secondaries.length === 0) this.#isReady();
    if (options.suspend) this.#calls = new Calls(imported.some(({ module, name }) => isSuspending(imports[module]?.[name])));
    this.#imports = this.#withPlaceholders(imported, placeholders, imports);
  }

  named(module) {
    const found = this.secondaries.find(({ name }) => name === module);
    if (found) return found;
    throw new TypeError(`module: the primary has no placeholder module ${said(module)}, but ${this.secondaries.map(({ name }) => name).join(", ")}`);
  }

  // ---- the primary ----

  #withPlaceholders(imported, placeholders, imports) {
    const objects = Object.create(null);
    const first = imported.length - placeholders.length;
    const owners = new Map(this.secondaries.map((secondary) => [secondary.name, secondary]));
    for (const [at, { module, name }] of imported.entries()) {
      if (at < first) objects[module] ??= imports[module];
      else (objects[module] ??= Object.create(null))[name] = this.#placeholder(owners.get(module), at - first);
    }
    return objects;
  }

  // Calls the function in the slot, which the secondary has put there.
  #placeholder(secondary, slot) {
    const isNeeded = () => this.#isNeeded(secondary);
    const callee = () => this.#slots.get(slot);
    if (this.#calls) return this.#calls.suspending(isNeeded, () => this.load(secondary), callee);
    return (...args) => {
      if (isNeeded()) this.#loadAtOnce(secondary);
      return callee()(...args);
    };
  }

  #isNeeded(secondary) {
    if (this.#instance === null) throw new SplitLoadError(secondary.name, TOO_EARLY);
    return !secondary.isLoaded;
  }

  #begin(instance) {
    this.#instance = instance;
    this.#slots = instance.exports[this.#layout.slots];
    this.#show(this.#layout.shown);
    this.#showDoubtful();
  }

  #start() {
    const { start } = this.#layout;
    return start === null ? undefined : this.#exported(start)();
  }

  #exported(name) {
    const thing = this.#instance.exports[name];
    return this.#calls && typeof thing === "function" ? this.#calls.exported(thing) : thing;
  }

  #show(names) {
    for (const name of names) this.exports[name] = this.#exported(name);
  }

  // The added exports are those that the secondaries import: none where nothing moved.
  #showDoubtful() {
    const { doubtful } = this.#layout;
    const isTold = this.#slots.length === 0 || this.secondaries.every(({ imported }) => imported !== null);
    if (doubtful.length === 0 || !isTold) return;
    const added = new Set(this.secondaries.flatMap(({ imported }) => imported ?? []));
    this.#layout.doubtful = [];
    this.#show(doubtful.filter((name) => !added.has(name)));
  }

  // ---- a secondary ----

  #loadAtOnce(secondary) {
    try {
      const module = secondary.moduleAtOnce();
      const trial = this.#trial();
      new WebAssembly.Instance(module, this.#importsOf(module, trial.table));
      checkFilled(secondary, trial);
      new WebAssembly.Instance(module, this.#importsOf(module, this.#slots));
      this.#isThere(secondary);
    } catch (error) {
      throw secondary.failed(error);
    }
  }

  // Loads a secondary once, for all who ask meanwhile.
  load(secondary) {
    if (secondary.isLoaded) return Promise.resolve();
    secondary.loading ??= this.#loadLater(secondary).finally(() => (secondary.loading = null));
    return secondary.loading;
  }

  // A call may load it meanwhile: then it is there, and what is still made here is not needed.
  async #loadLater(secondary) {
    try {
      const module = await secondary.moduleLater();
      if (secondary.isLoaded) return;
      const trial = this.#trial();
      await WebAssembly.instantiate(module, this.#importsOf(module, trial.table));
      if (secondary.isLoaded) return;
      checkFilled(secondary, trial);
      await WebAssembly.instantiate(module, this.#importsOf(module, this.#slots));
      this.#isThere(secondary);
    } catch (error) {
      if (secondary.isLoaded) return;
      throw secondary.failed(error);
    }
  }

  // A table like that of the slots. A secondary fills it first, so that no function of a wrong one is ever in a slot of the program.
  #trial() {
    const { length } = this.#slots;
    const held = Array.from({ length }, (_, slot) => this.#slots.get(slot));
    const table = new WebAssembly.Table({ element: "anyfunc", initial: length, maximum: length });
    for (const [slot, func] of held.entries()) table.set(slot, func);
    return { table, held };
  }

  #importsOf(module, slots) {
    const { importNamespace } = this.#options;
    const entities = Object.create(null);
    for (const { module: space, name } of WebAssembly.Module.imports(module)) {
      if (space !== importNamespace) throw new WrongSecondary(`it imports from ${space}, and options.importNamespace is ${importNamespace}`);
      entities[name] = name === this.#layout.slots ? slots : this.#instance.exports[name];
    }
    return { [importNamespace]: entities };
  }

  #isThere(secondary) {
    secondary.isThere();
    this.#showDoubtful();
    if (this.secondaries.every(({ isLoaded }) => isLoaded)) this.#isReady();
  }
}

// What is known of a secondary, and how its module is had.
class Secondary {
  name;
  // the place of each of its slots
  slots;
  isLoaded = false;
  loading = null;
  // the names that it imports, once it is compiled
  imported = null;
  #code;
  #module = null;
  #isAsked = false;

  constructor(name, code, placeholders) {
    this.name = name;
    this.slots = [...placeholders.keys()].filter((slot) => placeholders[slot] === name);
    this.#code = code;
    if (kindOf(code) === "module") this.#compiledAs(code);
  }

  moduleAtOnce() {
    return this.#module ?? this.#compiledAs(compiledAtOnce(this.#asked(), "the secondary", LOAD_BEFORE, withoutStart));
  }

  async moduleLater() {
    return this.#module ?? this.#compiledAs(await compiledSecondary(this.#asked()));
  }

  // The error of a load. What a function gave, and is of no use, is asked for again.
  failed(error) {
    const isRefused = this.#module !== null && REFUSED.some((kind) => error instanceof kind);
    if (kindOf(this.#code) === "function") {
      this.#module = null;
      this.imported = null;
    }
    return loadError(this.name, error, isRefused);
  }

  isThere() {
    this.isLoaded = true;
    this.#code = null;
    this.#module = null;
  }

  #compiledAs(module) {
    this.imported = WebAssembly.Module.imports(module).map(({ name }) => name);
    if (!this.isLoaded) this.#module = module;
    return module;
  }

  #asked() {
    if (kindOf(this.#code) !== "function") return this.#code;
    if (this.#isAsked) throw new Error("a moved function was called by the function that gives the secondary");
    this.#isAsked = true;
    try {
      return this.#code();
    } finally {
      this.#isAsked = false;
    }
  }
}

// ---- calls that may be suspended ----

// (Not every engine has a tag for it, and with the tag it is also one of another realm.)
const isSuspending = (thing) => thing instanceof WebAssembly.Suspending || tagOf(thing) === "WebAssembly.Suspending";

// Where the engine has promise integration: the calls of exports, of which a load may suspend one.
//
// While one is suspended by a load, and until it has ended, others wait: the program's stack pointer is that of the one. So calls are kept apart, but
// for what an import calls in the middle of one: it runs at once, above the import, and cannot be suspended.
class Calls {
  // the call whose code runs now
  #current = null;
  // how many calls have begun and not ended
  #open = 0;
  // how many calls of exports by imports run now, one above the other
  #nested = 0;
  // calls that a load has suspended, and that have not ended
  #suspended = new Set();
  #waiting = [];
  #made = new Map();
  // whether imports may suspend calls too: then code may run of which it is not known here which call it belongs to
  #suspendsElsewhere;

  constructor(suspendsElsewhere) {
    this.#suspendsElsewhere = suspendsElsewhere;
  }

  // The function of an export, whose calls return promises.
  exported(func) {
    if (!this.#made.has(func)) {
      const promising = WebAssembly.promising(func);
      this.#made.set(func, (...args) => (this.#current === null ? this.#called(promising, args) : this.#calledWithin(func, args)));
    }
    return this.#made.get(func);
  }

  // The function of a placeholder: a call suspends until `load` has ended, and goes on with what `callee` gives.
  suspending(isNeeded, load, callee) {
    return new WebAssembly.Suspending((...args) => {
      if (!isNeeded()) return callee()(...args);
      if (!this.#canSuspend()) throw new WebAssembly.SuspendError(CANNOT_SUSPEND);
      return this.#suspend(this.#current ?? { isOpen: true, isKnown: false, waitsIn: null }, load, (call) => this.#within(call, () => WebAssembly.promising(callee())(...args)));
    });
  }

  #canSuspend() {
    return this.#nested === 0 && (this.#current !== null || (this.#suspendsElsewhere && this.#open > 0));
  }

  #called(promising, args) {
    if (this.#suspended.size === 0) return this.#begun(promising, args);
    return new Promise((resolve) => this.#waiting.push(() => resolve(this.#begun(promising, args))));
  }

  #calledWithin(func, args) {
    this.#nested += 1;
    try {
      return func(...args);
    } finally {
      this.#nested -= 1;
    }
  }

  async #begun(promising, args) {
    const call = { isOpen: true, isKnown: true, waitsIn: null };
    this.#open += 1;
    try {
      return await this.#within(call, () => promising(...args));
    } finally {
      this.#open -= 1;
      this.#ended(call);
    }
  }

  #ended(call) {
    call.isOpen = false;
    this.#suspended.delete(call);
    while (this.#suspended.size === 0 && this.#waiting.length > 0) this.#waiting.shift()();
  }

  #within(call, run) {
    const outer = this.#current;
    this.#current = call;
    try {
      return run();
    } finally {
      this.#current = outer;
    }
  }

  // The promise for which the engine suspends the call. Its first reaction is ours, then the engine goes on with the call, and then ours says that it
  // has: what runs in between is that call. Where the engine finds only now that it cannot suspend it (it throws a SuspendError, as others do before
  // they come here), the moved function is not called.
  #suspend(call, load, goOn) {
    const place = {};
    call.waitsIn = place;
    this.#suspended.add(call);
    const isLeft = () => !call.isOpen || call.waitsIn !== place || this.#open === 0;
    const done = (async () => {
      await load();
      return isLeft() ? undefined : goOn(call);
    })();
    const enter = () => { if (!isLeft()) this.#current = call; };
    const leave = () => {
      this.#current = null;
      if (!call.isKnown) this.#ended(call);
    };
    done.then(enter, enter);
    queueMicrotask(() => done.then(leave, leave));
    return done;
  }
}

// ---- errors ----

const LOAD_BEFORE = "await load() before, or in a worker give it by fetchNow";
const TOO_EARLY = "a moved function was called before the primary was there: if its start function calls it, give the primary's bytes, or what was compiled of exportStart(bytes)";
const CANNOT_SUSPEND = "a moved function is called for the first time below a JavaScript frame, or not from an export: load the secondary before";

async function compiledBefore(name, code) {
  if (kindOf(code) === "function") return code;
  try {
    return await compiledSecondary(code);
  } catch (error) {
    throw loadError(name, error);
  }
}

const compiledSecondary = (code) => compiled(code, "the secondary", withoutStart, null);

// What instantiating a wrong secondary ends with. (A function that gives one may end with the same errors, of other modules.)
const REFUSED = [WebAssembly.LinkError, WebAssembly.RuntimeError];

// Every slot of a secondary holds another function than its placeholder, with as many parameters, and other slots hold what they held.
function checkFilled({ slots }, { table, held }) {
  for (const slot of slots) {
    const func = table.get(slot);
    if (func === null || func === held[slot]) throw new WrongSecondary(`it puts no function into slot ${slot}`);
    if (func.length !== held[slot].length) throw new WrongSecondary(`its function in slot ${slot} has ${func.length} parameters in place of ${held[slot].length}`);
  }
  const own = new Set(slots);
  const other = held.findIndex((func, slot) => !own.has(slot) && table.get(slot) !== func);
  if (other >= 0) throw new WrongSecondary(`it changes slot ${other}, which is not its own`);
}

function loadError(name, error, isRefused = false) {
  if (error instanceof SplitLoadError && error.secondary === name) return error;
  const begin = isRefused || error instanceof WrongSecondary ? "it is not the secondary of this primary: " : "";
  return new SplitLoadError(name, `${begin}${error?.message ?? error}`, { cause: error });
}
