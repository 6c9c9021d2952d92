// The window's part of the page: it runs the module here, and has the worker run it.
import { SplitInstance } from "../../loader/split_instance.mjs";
import { FIRST, LATER, imports, makeCalls } from "./calls.mjs";

// (a bundler finds these addresses in this form)
const PRIMARY = new URL("primary.wasm", import.meta.url);
const SECONDARY = new URL("secondary.wasm", import.meta.url);

// A window may not wait in a call. So the instance is made first, the page uses it, and the secondary is loaded meanwhile.
async function runHere(show) {
  const sizes = {};
  const fetched = async (name, address) => {
    const response = await fetch(address);
    sizes[name] = Number(response.headers.get("content-length"));
    return response;
  };
  const began = performance.now();
  const split = await SplitInstance.instantiate(fetched("primary", PRIMARY), () => fetched("secondary", SECONDARY), imports);
  show({ module: "primary", bytes: sizes.primary, note: "fetched and instantiated", ms: performance.now() - began });
  const loadBegan = performance.now();
  const loading = split.load();
  makeCalls(split, FIRST, show);
  await loading;
  show({ module: "secondary", bytes: sizes.secondary, note: "loaded beside, while the page went on", ms: performance.now() - loadBegan });
  makeCalls(split, LATER, show);
}

// ---- what is shown ----

const said = (ms) => `${ms.toFixed(1)} ms`;

function cellsOf({ module, bytes, note, what, gives, there, ms }) {
  return module ? [`${module}.wasm`, `${bytes.toLocaleString("en")} bytes`, note, said(ms)] : [what, `= ${gives}`, `with the ${there}`, said(ms)];
}

// Shows a step in a row of a part of the page, and the size of a module in the bar above.
function showIn(place) {
  const part = document.getElementById(place);
  return (step) => {
    const row = part.querySelector("tbody").insertRow();
    row.className = step.module ?? "call";
    for (const text of cellsOf(step)) row.insertCell().textContent = text;
    if (step.module) part.querySelector(`.bar .${step.module}`).style.flexGrow = step.bytes;
  };
}

const worker = new Worker(new URL("worker.mjs", import.meta.url), { type: "module" });
const showWorker = showIn("worker");
worker.onmessage = ({ data }) => showWorker(data);
await runHere(showIn("window"));
