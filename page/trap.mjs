// Tests the worker: it answers, says when the library stopped, and answers again with a new instance.
//
//     node trap.mjs MODULE
import assert from "node:assert";
import { readFileSync } from "node:fs";
import { runInThisContext } from "node:vm";
import { gzipSync } from "node:zlib";

const told = [];
globalThis.postMessage = (message) => told.push(message);
globalThis.onmessage = null;
for (const name of ["library.js", "work.js", "worker.js"]) {
    runInThisContext(readFileSync(new URL(name, import.meta.url), "utf8"), { filename: name });
}

const none = new Uint8Array(0);
const input = Buffer.from("820102");
const request = { input, as: "any", type: none, names: none, rules: "core", tab: "dump", notation: true };

async function answer(message) {
    await onmessage({ data: message });
    return told.pop();
}

const text = gzipSync(readFileSync(process.argv[2])).toString("base64");
assert.equal((await answer({ module: text })).ready, true);
const first = await answer({ ...request, number: 1 });
assert.equal(Buffer.from(first.bytes).toString("hex"), "820102");
assert.equal(first.form, "hex");
assert.equal(first.violation, null);

runInThisContext('library = { output() { throw new WebAssembly.RuntimeError("unreachable"); } };');
assert.equal((await answer({ ...request, number: 2 })).stopped, "unreachable");
assert.deepEqual({ ...(await answer({ ...request, number: 3 })), number: 1 }, first);

const failed = await answer({ module: gzipSync(Buffer.from("no module")).toString("base64") });
assert.match(failed.failed, /magic|WebAssembly/);
console.log("worker: ok");
