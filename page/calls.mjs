// Makes calls of the library in the module, for page/check. Reads a call from each line of standard input, as JSON:
// the name and the values. A value is a number, {"size": number} for a size_t, {"given": hex} for bytes,
// {"room": size} for an output, or {"cell": size} for what a call sets. Writes a line for each call: what it returned,
// and what it wrote in hex; of what is long the SHA-256.
//
//     node calls.mjs MODULE < CALLS
import { createHash } from "node:crypto";
import { readFileSync } from "node:fs";
import { createInterface } from "node:readline";
import { runInThisContext } from "node:vm";

const source = readFileSync(new URL("library.js", import.meta.url), "utf8");
const { Library, Room, Cell } = runInThisContext(`(() => { ${source}; return { Library, Room, Cell }; })()`);
const module = await WebAssembly.compile(readFileSync(process.argv[2]));
const library = new Library(module);

const valueOf = (value) =>
    typeof value === "number" ? value
        : "size" in value ? BigInt(value.size)
        : "given" in value ? new Uint8Array(Buffer.from(value.given, "hex"))
        : "room" in value ? new Room(value.room) : new Cell(value.cell);

function digest(bytes) {
    const whole = Buffer.from(bytes);
    return whole.length <= 64 ? whole.toString("hex") : createHash("sha256").update(whole).digest("hex");
}

const lines = [];
for await (const line of createInterface({ input: process.stdin })) {
    const [name, given] = JSON.parse(line);
    const values = given.map(valueOf);
    const answer = library.call(name, ...values);
    const written = values.filter((value) => value.bytes !== undefined).map(({ bytes }) => digest(bytes));
    lines.push([answer, ...written].join(" "));
}
process.stdout.write(`${lines.join("\n")}\n`);
