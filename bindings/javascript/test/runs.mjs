// Makes runs of cborcat.wasm in this process, for check. Reads a run from each line of standard input, as JSON: its
// words and its input in base 64. Writes a line for each: its status, output and messages.
//
//     node runs.mjs PACKAGE FOLDER < RUNS
//
// PACKAGE is the folder of the package, and the runs are made in FOLDER.
import fs from "node:fs";
import os from "node:os";
import path from "node:path";
import { pathToFileURL } from "node:url";

const [home, folder] = process.argv.slice(2).map((word) => path.resolve(word));
const { run } = await import(pathToFileURL(path.join(home, "lib/system.js")));
const module = new WebAssembly.Module(fs.readFileSync(path.join(home, "lib/cborcat.wasm")));
const scratch = fs.mkdtempSync(path.join(os.tmpdir(), "runs-"));
const names = ["input", "output", "messages"].map((name) => path.join(scratch, name));

function made({ words, data }) {
    fs.writeFileSync(names[0], Buffer.from(data, "base64"));
    const stdio = names.map((name, number) => fs.openSync(name, number === 0 ? "r" : "w"));
    const status = run(module, { args: words, env: {}, stdio });
    stdio.forEach((file) => fs.closeSync(file));
    return [status, ...names.slice(1).map((name) => fs.readFileSync(name, "base64"))];
}

const runs = fs.readFileSync(0, "utf8").trimEnd().split("\n").map((line) => JSON.parse(line));
process.chdir(folder);
for (const one of runs) {
    fs.writeSync(1, `${JSON.stringify(made(one))}\n`);
}
fs.rmSync(scratch, { recursive: true });
