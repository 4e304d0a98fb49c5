// Runs a module of WASI once: node program.mjs MODULE ARGUMENT..
import { readFileSync } from "node:fs";
import { run } from "../lib/system.js";

const module = new WebAssembly.Module(readFileSync(process.argv[2]));
process.exitCode = run(module, { args: process.argv.slice(3), env: process.env });
