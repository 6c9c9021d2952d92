// The types of split_instance.mjs.

/** A `WebAssembly.Module`. (The type of that name has no members, so a promise or a text would be one too; none of them is one of these.) */
export interface CompiledModule {
  readonly then?: never;
}

/** A module: what `WebAssembly.compile` has made, its bytes, or a response that brings them. */
export type Code = CompiledModule | BufferSource | Response;

/** A module that is at hand. */
export type CodeAtOnce = CompiledModule | BufferSource;

/**
 * Gives a secondary when it is needed, and again where it could not be loaded: at once for a call, a response or a promise for `load` and for calls that
 * are suspended.
 */
export type Giver = () => Code | PromiseLike<Code>;

/** One secondary, or a map from each placeholder module (`placeholder.0`, `placeholder.1` ..) to its secondary. */
export type OneOrMap<Secondary> = Secondary | { readonly [module: string]: Secondary };

/** The names that the module was split with, where they are not those of `binkit split` itself. */
export interface SplitNames {
  /** `--import-namespace`: what a secondary imports from; `primary` */
  readonly importNamespace?: string;
  /** `--placeholder-namespace`: what the primary imports placeholders from; `placeholder` */
  readonly placeholderNamespace?: string;
  /** `--export-prefix`: how the names of added exports begin; `%` */
  readonly exportPrefix?: string;
}

export interface SplitOptions extends SplitNames {
  /** Calls of exports return promises, and a call that needs a secondary is suspended until it is there. Needs an engine with promise integration. */
  readonly suspend?: boolean;
}

/** The exports `E` with `{ suspend: true }`: calls return promises. */
export type Suspending<E> = {
  readonly [Name in keyof E]: E[Name] extends (...args: infer Args) => infer Result ? (...args: Args) => Promise<Awaited<Result>> : E[Name];
};

/**
 * A secondary could not be loaded.
 *
 * Thrown within a call it is a trap in the middle of that call: what was written stays, and the instance should be given up. As the rejection of
 * `load`, outside of any call, it harms nothing, and `load` may be called again.
 */
export class SplitLoadError extends Error {
  constructor(secondary: string, reason: string, options?: { cause?: unknown });
  readonly name: "SplitLoadError";
  /** The placeholder module of the secondary. */
  readonly secondary: string;
  /** The error behind it, if there is one. */
  readonly cause?: unknown;
}

/** An instance of the module that was split. `E` says what that module exports. */
export class SplitInstance<E extends object = WebAssembly.Exports> {
  /** Instantiates the primary at once, and runs its start function, if it has one. */
  constructor(primary: CodeAtOnce, secondaries: OneOrMap<CodeAtOnce | Giver>, imports?: WebAssembly.Imports, options?: SplitNames & { readonly suspend?: false });

  /** Instantiates the primary without blocking, and runs its start function, if it has one. Modules of any size work in a window. */
  static instantiate<E extends object = WebAssembly.Exports>(
    primary: Code | PromiseLike<Code>,
    secondaries: OneOrMap<Code | PromiseLike<Code> | Giver>,
    imports: WebAssembly.Imports | undefined,
    options: SplitNames & { readonly suspend: true },
  ): Promise<SplitInstance<Suspending<E>>>;
  static instantiate<E extends object = WebAssembly.Exports>(
    primary: Code | PromiseLike<Code>,
    secondaries: OneOrMap<Code | PromiseLike<Code> | Giver>,
    imports?: WebAssembly.Imports,
    options?: SplitNames & { readonly suspend?: false },
  ): Promise<SplitInstance<E>>;

  /** What the module that was split exports. */
  get exports(): E;
  /** Whether all secondaries are there. */
  get loaded(): boolean;
  /** Fulfilled when all secondaries are there, however they came. Never rejected. */
  get ready(): Promise<void>;
  /** Whether the secondary of this placeholder module is there. */
  isLoaded(module: string): boolean;
  /** Loads the secondary of this placeholder module, or all, without blocking. Rejects with a `SplitLoadError` where one does not come. */
  load(module?: string): Promise<void>;
}

/** A primary whose start function, if it has one, is exported behind all else and not started by the engine: for those who compile it on their own. */
export function exportStart<Bytes extends BufferSource>(bytes: Bytes): Bytes | Uint8Array;

/** The bytes that stand under an address, at once. For workers. */
export function fetchNow(address: string | URL): ArrayBuffer;
