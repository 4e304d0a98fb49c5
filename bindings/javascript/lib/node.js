// The package in node, Deno and Bun, which read files.
import { readFileSync } from "node:fs";
import { load } from "./memory.js";

load(new WebAssembly.Module(readFileSync(new URL("./cbor_diag.wasm", import.meta.url))));

export * from "./index.js";
