// The worker's part of the page: a worker may wait for a file, so the secondary is fetched in the call that needs it.
import { SplitInstance, fetchNow } from "../../loader/split_instance.mjs";
import { FIRST, LATER, imports, makeCalls } from "./calls.mjs";

const PRIMARY = new URL("primary.wasm", import.meta.url);
const SECONDARY = new URL("secondary.wasm", import.meta.url);

function secondaryNow() {
  const began = performance.now();
  const bytes = fetchNow(SECONDARY);
  postMessage({ module: "secondary", bytes: bytes.byteLength, note: "fetched in the call that needs it", ms: performance.now() - began });
  return bytes;
}

const began = performance.now();
const primary = await (await fetch(PRIMARY)).arrayBuffer();
const split = new SplitInstance(primary, secondaryNow, imports);
postMessage({ module: "primary", bytes: primary.byteLength, note: "fetched and instantiated", ms: performance.now() - began });
makeCalls(split, FIRST, postMessage);
makeCalls(split, LATER, postMessage);
