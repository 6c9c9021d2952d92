// What the scripts that run written modules in this engine share: a run of the program, what a call comes to, and a count of what is wrong.
import { spawnSync } from "node:child_process";
import { existsSync, mkdtempSync, readFileSync, rmSync } from "node:fs";
import { tmpdir } from "node:os";
import { join, resolve } from "node:path";

let wrong = 0;

export function report(line) {
  console.log(line);
  wrong += 1;
}

// Whether what is got is what is expected; it is reported where it is not.
export function check(what, got, expected) {
  const [a, b] = [JSON.stringify(got), JSON.stringify(expected)];
  if (a !== b) {
    report(`${what}: gives ${a}, expected ${b}`);
  }
  return a === b;
}

// Prints how many were wrong, and ends.
export function finish(what) {
  console.log(`${what}: ${wrong} wrong`);
  process.exit(wrong === 0 ? 0 : 1);
}

// Prints what was seen how often, and ends. What was never seen is wrong: the samples show too little.
export function finishCounted(what, seen) {
  for (const [kind] of Object.entries(seen).filter(([, count]) => count === 0)) {
    report(`${what}: the samples show too little: no ${kind}`);
  }
  finish(`${what}: ${Object.entries(seen).map(([kind, count]) => `${count} ${kind}`).join(", ")}`);
}

// What a call comes to: its result, or that it traps.
export function outcome(run) {
  try {
    return String(run());
  } catch (fault) {
    if (fault instanceof WebAssembly.RuntimeError) {
      return "traps";
    }
    throw fault;
  }
}

export function moduleIn(folder, file) {
  return new WebAssembly.Module(readFileSync(join(folder, file)));
}

// The program's run, in a folder, on words to which the output is added: its status, what it prints as errors, the lines that it prints, and the
// bytes that it writes, null where there are none.
export function ran(program, folder, words) {
  const work = mkdtempSync(join(tmpdir(), "written-"));
  try {
    const output = join(work, "o.wasm");
    const { status, stdout, stderr } = spawnSync(resolve(program), [...words, "-o", output], { cwd: folder, encoding: "utf8" });
    return { status, stderr, lines: stdout.split("\n").slice(0, -1), bytes: existsSync(output) ? readFileSync(output) : null };
  } finally {
    rmSync(work, { recursive: true });
  }
}

// The bytes that the program writes in a run that must be done, and the lines that it prints.
export function written(program, folder, words) {
  const done = ran(program, folder, words);
  if (done.status !== 0) {
    throw new Error(`status ${done.status}: ${done.stderr}`);
  }
  return done;
}
