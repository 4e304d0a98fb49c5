// Runs the examples of README.md, over the package that is installed here, and compares what each gives with the
// comment behind it. Strings are shown as they are, with \n for line feeds, and other values as node shows them. An
// example that throws gives the error.
//
//     node readme.mjs README.md        in a folder that has the package in node_modules
import { readFileSync, writeFileSync } from "node:fs";
import path from "node:path";
import { pathToFileURL } from "node:url";
import { inspect } from "node:util";

const shown = (value) => typeof value === "string" ? value.replaceAll("\n", "\\n") : inspect(value);
const told = [];

/** Takes what an example gave; one in a loop gives several. */
globalThis.tell = (number, does) => {
    try {
        told[number].got.push(shown(does()));
    } catch (error) {
        told[number].got.push(String(error));
    }
};

const text = readFileSync(process.argv[2], "utf8");
const blocks = [...text.matchAll(/^```js\n(.*?)^```$/gms)].map((found) => found[1]);
const code = blocks.join("\n").replace(/^( *)([^\s/].*); \/\/ (.*)$/gm, (line, indent, expression, wanted) => {
    told.push({ expression, wanted: wanted.split(" | "), got: [] });
    return `${indent}tell(${told.length - 1}, () => ${expression});`;
});
const file = path.resolve("readme-examples.mjs");
writeFileSync(file, code);
await import(pathToFileURL(file));
const failed = told.filter(({ wanted, got }) => JSON.stringify(wanted) !== JSON.stringify(got));
for (const { expression, wanted, got } of failed) {
    console.log(`${expression}:\n  the page says ${wanted.join(" | ")}\n  it gives      ${got.join(" | ")}`);
}
console.log(`README.md: ${told.length} examples, ${failed.length} failed`);
process.exitCode = failed.length > 0 || told.length === 0 ? 1 : 0;
