#!/usr/bin/env node
// cborcat, as its manual page describes it.
import { readFileSync } from "node:fs";
import { run } from "../lib/system.js";

// A terminal of Windows shows colours, and says so in no variable.
const ofTerminal = process.platform === "win32" ? { TERM: "xterm" } : {};
const module = new WebAssembly.Module(readFileSync(new URL("../lib/cborcat.wasm", import.meta.url)));
process.exitCode = run(module, { args: process.argv.slice(2), env: { ...ofTerminal, ...process.env } });
