#!/usr/bin/env bash
# The small runs of wasm_meaning in a real engine, where there is one.
if ! command -v node >/dev/null 2>&1; then
  echo "small runs: skipped: no node"
  exit 0
fi
exec node "$(dirname "$0")/small_runs.mjs" "$@"
