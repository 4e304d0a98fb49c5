// Makes calls of the package, for check. Reads a call from each line of standard input, as JSON: the name and the
// values. A value {"bytes": base64} is bytes. Writes a line for each: what it returned, or what it threw, as JSON, with
// bytes in the same form.
//
//     node vectors.mjs < CALLS        in a folder that has the package in node_modules
import { readFileSync, writeFileSync } from "node:fs";
import { createRequire } from "node:module";
import path from "node:path";
import { pathToFileURL } from "node:url";

const home = path.dirname(createRequire(path.resolve("here.js")).resolve("semphluk/package.json"));
const cbor = await import(pathToFileURL(path.join(home, "lib/node.js")));

const given = (value) => value?.bytes === undefined ? value : Buffer.from(value.bytes, "base64");

/** A value as JSON has it. */
function told(value) {
    if (value instanceof Uint8Array) {
        return { bytes: Buffer.from(value).toString("base64") };
    }
    if (typeof value === "bigint") {
        return { integer: String(value) };
    }
    if (Array.isArray(value)) {
        return value.map(told);
    }
    if (typeof value === "number" && !Number.isSafeInteger(value)) {
        return { float: Number.isNaN(value) ? "nan" : Buffer.from(new Float64Array([value]).buffer).toString("hex") };
    }
    if (value !== null && typeof value === "object") {
        return Object.fromEntries(Object.entries(value).map(([name, one]) => [name, told(one)]));
    }
    return value ?? null;
}

function failed(error) {
    const { name, code, message, offset, path: where, end, keys, loss, violation, line, column } = error;
    return { error: told({ name, code, message, offset, path: where, end, keys, loss, violation, line, column }) };
}

/** What a scanner says of the last of pieces of a size. */
function fed(bytes, size) {
    const scanner = new cbor.Scanner();
    let found;
    for (let at = 0; at < Math.max(bytes.length, 1); at += size) {
        found = scanner.feed(bytes.subarray(at, at + size));
    }
    return found;
}

/** The items of pieces of a size, and the error after them. */
async function itemsOf(bytes, size) {
    const count = Math.ceil(bytes.length / size);
    const pieces = Array.from({ length: count }, (_, k) => bytes.subarray(k * size, k * size + size));
    const found = [];
    try {
        for await (const item of cbor.items(pieces)) {
            found.push(told(item));
        }
    } catch (error) {
        found.push(failed(error));
    }
    return found;
}

const calls = {
    ...cbor,
    fed,
    itemsOf,
    check: (text, rule, data) => new cbor.Schema(text, rule).check(data),
};

async function answered([name, ...values]) {
    try {
        return told(await calls[name](...values.map(given)));
    } catch (error) {
        return failed(error);
    }
}

const lines = readFileSync(0, "utf8").split("\n").filter((line) => line !== "");
const answers = [];
for (const line of lines) {
    answers.push(JSON.stringify(await answered(JSON.parse(line))));
}
writeFileSync(1, answers.map((answer) => `${answer}\n`).join(""));
