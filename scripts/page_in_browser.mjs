#!/usr/bin/env node
// Opens pages that load split modules in Chromium, without a window, and looks at what they show.
//
//     scripts/page_in_browser.mjs PROGRAM [SCREENSHOT.png]
//
// - The checks of loader/test_window.mjs: modules of more than 8 MB in a window, and calls that are suspended.
// - The page of examples/split. PROGRAM makes its two modules, as examples/split/README.md says, but into a folder of this script's own. It must show, in
//   the window and in the worker, what the module gives in this engine before it is split.
// - The same page, bundled by esbuild: worker and modules stand beside the bundle.
//
// Says `skipped` where there is no Chromium, no PROGRAM or no esbuild. Ends with 1 where a page shows something else.
import { execFileSync, spawn } from "node:child_process";
import { copyFileSync, existsSync, mkdirSync, mkdtempSync, readFileSync, rmSync, statSync } from "node:fs";
import { createServer } from "node:http";
import { tmpdir } from "node:os";
import { dirname, extname, join, normalize, resolve } from "node:path";
import { fileURLToPath } from "node:url";
import { FIRST, LATER, imports } from "../examples/split/calls.mjs";
import { LARGE, LARGE_MOVED, suspendModules } from "../loader/test_pairs.mjs";
import { pairOf } from "../loader/test_split.mjs";
import { check, finish, report } from "./engine_checks.mjs";

const TOP = dirname(dirname(fileURLToPath(import.meta.url)));
const EXAMPLE = join(TOP, "examples/split");
const SAMPLE = join(TOP, "tests/samples/rs_app.wasm");
const KINDS = { ".html": "text/html", ".mjs": "text/javascript", ".wasm": "application/wasm" };
const PATIENCE = 120000; // milliseconds
const [program, screenshot] = process.argv.slice(2);
const work = mkdtempSync(join(tmpdir(), "page-"));

// Whether a tool is there.
function has(name) {
  try {
    execFileSync(name, ["--version"], { stdio: "ignore" });
    return true;
  } catch {
    return false;
  }
}

// ---- what is opened ----

function splitSample() {
  const outputs = ["primary", "secondary"].map((name) => `--${name}-output=${join(work, `${name}.wasm`)}`);
  execFileSync(resolve(program), ["split", SAMPLE, "--keep-funcs=reset,checked,shapes,expr", ...outputs]);
}

function bundle() {
  const folder = join(work, "bundle");
  mkdirSync(folder);
  const parts = ["page.mjs", "worker.mjs"].map((name) => join(EXAMPLE, name));
  execFileSync("esbuild", [...parts, "--bundle", "--format=esm", "--out-extension:.js=.mjs", `--outdir=${folder}`, "--log-level=warning"]);
  copyFileSync(join(EXAMPLE, "index.html"), join(folder, "index.html"));
}

function madeModules() {
  const { primary, secondary } = pairOf(LARGE, LARGE_MOVED);
  return { ...suspendModules(), "large.primary": primary, "large.0": secondary };
}

// A page that opens the others, one after the other, and sends what each shows: the rows of both parts, once there are as many as there are to be, or
// after a while; and the checks that were made.
const around = (pages, rows) => `<!doctype html><script type="module">
  const pause = () => new Promise((done) => setTimeout(done, 50));
  const shown = (frame, part) => [...frame.contentDocument?.querySelectorAll("#" + part + " tr") ?? []].map((row) => [...row.cells].map((cell) => cell.textContent));
  async function opened(path) {
    const frame = document.body.appendChild(document.createElement("iframe"));
    frame.src = path;
    const until = Date.now() + ${PATIENCE / 4};
    for (;;) {
      await pause();
      const { results = null } = frame.contentWindow;
      const parts = { window: shown(frame, "window"), worker: shown(frame, "worker") };
      const isShown = path !== "/checks" && Object.values(parts).every(({ length }) => length >= ${rows});
      if (Date.now() > until || results || isShown) return results ?? parts;
    }
  }
  const all = {};
  for (const path of ${JSON.stringify(pages)}) all[path] = await opened(path);
  fetch("/shown", { method: "POST", body: JSON.stringify(all) });
</script>`;

const CHECKS = `<!doctype html><body><script type="module">
  import { checkInWindow } from "/loader/test_window.mjs";
  const made = [];
  try {
    await checkInWindow((...one) => made.push(JSON.parse(JSON.stringify(one))));
  } catch (error) {
    made.push(["the checks in a window", String(error.stack), "no error"]);
  }
  globalThis.results = made;
</script>`;

// ---- the server ----

// The repository's files, the two modules where the page looks for them, and the bundle.
function fileOf(path) {
  const name = path.split("/").at(-1);
  if (/^\/(bundle|examples\/split)\//.test(path) && extname(path) === ".wasm") return join(work, name);
  if (path.startsWith("/bundle/")) return join(work, "bundle", name || "index.html");
  return join(TOP, path.endsWith("/") ? `${path}index.html` : path);
}

function serve(pages, rows, told) {
  const made = madeModules();
  const texts = { "/around": around(pages, rows), "/checks": CHECKS };
  return async (request, response) => {
    const { pathname, search } = new URL(request.url, "http://localhost");
    const path = normalize(pathname);
    const give = (bytes, kind) => response.writeHead(200, { "content-type": kind, "content-length": bytes.length }).end(bytes);
    if (path === "/shown") {
      told(JSON.parse((await request.toArray()).join("")));
      response.end();
    } else if (path in texts) {
      give(Buffer.from(texts[path]), KINDS[".html"]);
    } else if (path.startsWith("/made/")) {
      const bytes = made[path.slice("/made/".length)];
      if (bytes) give(bytes, search === "?plain" ? "text/plain" : KINDS[".wasm"]);
      else response.writeHead(404).end();
    } else {
      giveFile(fileOf(path), give, response);
    }
  };
}

function giveFile(file, give, response) {
  try {
    give(readFileSync(file), KINDS[extname(file)] ?? "text/plain");
  } catch {
    response.writeHead(404).end();
  }
}

// ---- the browser ----

const FLAGS = ["--headless", "--no-sandbox", "--disable-gpu", `--user-data-dir=${join(work, "profile")}`];

// What the pages show, by their addresses: nothing where the browser tells nothing in time.
async function shownBy(browser, pages, rows) {
  let told = null;
  const shown = new Promise((done) => (told = done));
  const server = createServer(serve(pages, rows, told));
  await new Promise((done) => server.listen(0, "127.0.0.1", done));
  const address = `http://127.0.0.1:${server.address().port}`;
  const child = spawn(browser, [...FLAGS, `${address}/around`], { stdio: "ignore" });
  const ended = new Promise((done) => child.on("close", done));
  const timer = setTimeout(() => told({}), PATIENCE);
  try {
    return await shown;
  } finally {
    clearTimeout(timer);
    child.kill();
    await ended;
    if (screenshot && pages.includes("/examples/split/")) await photograph(browser, `${address}/examples/split/`);
    server.close();
    server.closeAllConnections();
  }
}

function photograph(browser, address) {
  const words = [...FLAGS, `--screenshot=${resolve(screenshot)}`, "--window-size=1000,900", "--timeout=5000", address];
  return new Promise((done) => spawn(browser, words, { stdio: "ignore" }).on("close", done));
}

// ---- what they must show ----

// The calls of the page with what the module gives before it is split, and with what is then there.
function rowsOf(calls, there) {
  const whole = new WebAssembly.Instance(new WebAssembly.Module(readFileSync(SAMPLE)), imports);
  return calls.map(([name, ...args]) => [`${name}(${args.join(", ")})`, `= ${whole.exports[name](...args)}`, `with the ${there}`]);
}

function expected() {
  const moduleRow = (name, note) => [`${name}.wasm`, `${statSync(join(work, `${name}.wasm`)).size.toLocaleString("en")} bytes`, note];
  const [first, later] = [rowsOf(FIRST, "primary"), rowsOf(LATER, "primary and secondary")];
  const primary = moduleRow("primary", "fetched and instantiated");
  return {
    window: [primary, ...first, moduleRow("secondary", "loaded beside, while the page went on"), ...later],
    worker: [primary, ...first, moduleRow("secondary", "fetched in the call that needs it"), ...later],
  };
}

function checkPage(what, shown, wanted) {
  for (const part of ["window", "worker"]) {
    const rows = shown?.[part] ?? [];
    check(`${what}, ${part}`, rows.map((row) => row.slice(0, 3)), wanted[part]);
    check(`${what}, ${part}: times`, rows.filter((row) => !/^[0-9]+\.[0-9] ms$/.test(row[3])), []);
  }
}

async function run(browser) {
  const isBuilt = program !== undefined && existsSync(program);
  const isBundled = isBuilt && has("esbuild");
  if (isBuilt) splitSample();
  else console.log("page in a browser: the page of examples/split: skipped: the program is not built");
  if (isBundled) bundle();
  else console.log(`page in a browser: the bundle: skipped: ${isBuilt ? "no esbuild" : "the program is not built"}`);
  const pages = ["/checks", ...(isBuilt ? ["/examples/split/"] : []), ...(isBundled ? ["/bundle/"] : [])];
  const wanted = isBuilt ? expected() : null;
  const shown = await shownBy(browser, pages, wanted?.window.length ?? 0);
  const made = Array.isArray(shown["/checks"]) ? shown["/checks"] : [];
  if (made.length === 0) report("the checks in a window: none was made");
  for (const one of made) check(...one);
  if (isBuilt) checkPage("the page", shown["/examples/split/"], wanted);
  if (isBundled) checkPage("the bundle", shown["/bundle/"], wanted);
  return made.length;
}

const browser = ["chromium", "chromium-browser", "google-chrome"].find(has);
let made = 0;
try {
  if (browser) made = await run(browser);
  else console.log("page in a browser: skipped: no chromium");
} finally {
  rmSync(work, { recursive: true, force: true, maxRetries: 5 });
}
if (browser) finish(`page in a browser: ${made} checks in a window`);
