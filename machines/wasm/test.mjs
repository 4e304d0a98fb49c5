// Tests heap.c in the module: blocks do not overlap, keep their bytes, are used again, and end at 1 GB.
//
//     node test.mjs MODULE
import assert from "node:assert";
import { readFileSync } from "node:fs";

const { instance } = await WebAssembly.instantiate(readFileSync(process.argv[2]));
const { memory, page_allocate: allocate, page_free: free } = instance.exports;

/** Numbers that look random, and are the same in each run. */
function* numbers() {
    for (let state = 1; ; ) {
        state = (Math.imul(state, 1103515245) + 12345) >>> 0;
        yield state >>> 8;
    }
}

const random = numbers();
const upTo = (most) => random.next().value % most;

/** Takes and frees blocks, each full of its own byte, which has to be there still when it is freed. */
function blocks(times) {
    const held = [];
    for (let time = 0; time < times; time += 1) {
        if (held.length > 200 || (held.length > 0 && upTo(2) === 0)) {
            const [{ at, size, byte }] = held.splice(upTo(held.length), 1);
            const bytes = new Uint8Array(memory.buffer, at, size);
            assert(bytes.every((one) => one === byte), `a block of ${size} bytes at ${at}`);
            free(BigInt(at));
        } else {
            const size = upTo(8) === 0 ? upTo(100000) : upTo(300);
            const at = Number(allocate(BigInt(size || 1)));
            assert.equal(at % 16, 0);
            const byte = upTo(256);
            new Uint8Array(memory.buffer, at, size).fill(byte);
            held.push({ at, size, byte });
        }
    }
    held.forEach(({ at }) => free(BigInt(at)));
}

blocks(20000);
const grown = memory.buffer.byteLength;
blocks(20000);
assert(memory.buffer.byteLength < 2 * grown, "freed blocks are not used again");

assert.equal(allocate(1n << 31n), 0n);
assert.equal(allocate((1n << 64n) - 1n), 0n);
const large = [];
for (let at = allocate(1n << 26n); at !== 0n; at = allocate(1n << 26n)) {
    large.push(at);
}
assert(large.length >= 14 && large.length <= 16, `${large.length} blocks of 64 MB`);
assert(memory.buffer.byteLength <= 2 ** 30);
large.forEach((at) => free(at));
assert.notEqual(allocate(1n << 26n), 0n);
console.log(`heap: ${memory.buffer.byteLength} bytes of memory, ok`);
