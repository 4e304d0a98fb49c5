// Items that come in pieces.
import { noItem, plain } from "./fault.js";
import { joined, withLibrary } from "./memory.js";
import { CODES } from "./words.js";

// The bytes of struct cbor_diag_scanner; the cell behind it is set by a call.
const SIZE = 2048;
const END = SIZE / 8;
const CUT_SHORT = -CODES.indexOf("CUT_SHORT");

/** A scanner in the library's memory, as bytes here: it holds no pointers. */
function fresh() {
    return withLibrary((library) => {
        library.calls.cbor_diag_scanner_init(library.cell(0));
        return library.bytes(library.cells, SIZE).slice();
    });
}

/** Feeds a scanner, which changes: what the call answers, and how many bytes decided that. */
function fed(state, bytes) {
    return withLibrary((library) => {
        const input = library.put(bytes);
        library.bytes(library.cells, SIZE).set(state);
        const answer = Number(library.calls.cbor_diag_scanner_feed(library.cell(0), ...input, library.cell(END)));
        state.set(library.bytes(library.cells, SIZE));
        return { answer, end: library.place(END) };
    });
}

/** Finds the length of an item that comes in pieces. */
export class Scanner {
    #state = fresh();

    /** Feeds the next bytes. Returns the length of the item at the front of all bytes; undefined if more are needed. */
    feed(data) {
        const { answer, end } = fed(this.#state, data);
        if (answer < 0 && answer !== CUT_SHORT) {
            throw withLibrary((library) => plain(library, answer, { end, offset: end - 1 }));
        }
        return answer === CUT_SHORT ? undefined : answer;
    }
}

/** The chunks of a stream of the web or of node, or of anything else that gives chunks one after the other. */
async function* chunksOf(stream) {
    if (stream?.[Symbol.asyncIterator] || stream?.[Symbol.iterator]) {
        yield* stream;
        return;
    }
    if (typeof stream?.getReader !== "function") {
        throw new TypeError("items reads a stream, or anything else that gives chunks of bytes one after the other");
    }
    // A stream of the web, in a browser that cannot iterate over it.
    const reader = stream.getReader();
    try {
        for (let read = await reader.read(); !read.done; read = await reader.read()) {
            yield read.value;
        }
    } finally {
        reader.releaseLock();
    }
}

function failed(answer, pieces, end, before) {
    return withLibrary((library) => noItem(library, answer, joined(pieces), end, before));
}

/**
 * Feeds a chunk to a scanner, and to a new one after each item that ends in it. Returns how many bytes of the chunk each
 * of these items takes, what the last call answers, and how many bytes decided that. `held` is how many bytes the scanner
 * was fed before. The chunk is copied once.
 */
function scanned(state, chunk, held) {
    return withLibrary((library) => {
        const { cbor_diag_scanner_init: init, cbor_diag_scanner_feed: feed } = library.calls;
        const [start, size] = library.put(chunk);
        const scanner = library.cell(0);
        const lengths = [];
        let [at, before, answer] = [0n, BigInt(held), 0n];
        library.bytes(library.cells, SIZE).set(state);
        while (at < size) {
            answer = feed(scanner, start + at, size - at, library.cell(END));
            if (answer < 0n) {
                break;
            }
            lengths.push(Number(answer - before));
            at += answer - before;
            before = 0n;
            init(scanner);
        }
        state.set(library.bytes(library.cells, SIZE));
        return { lengths, answer: Number(answer), end: library.place(END) };
    });
}

/** The bytes of each item of a stream, as soon as the item is complete. */
export async function* items(stream) {
    const state = fresh();
    let before = 0; // the bytes of the items that are complete
    let pieces = []; // those of the next one
    let held = 0; // and how many they are
    for await (const chunk of chunksOf(stream)) {
        if (!(chunk instanceof Uint8Array)) {
            throw new TypeError("a stream of CBOR gives bytes, each chunk as a Uint8Array");
        }
        const { lengths, answer, end } = scanned(state, chunk, held);
        let at = 0;
        for (const length of lengths) {
            yield joined([...pieces, chunk.subarray(at, at + length)]);
            before += held + length;
            at += length;
            [pieces, held] = [[], 0];
        }
        if (answer < 0 && answer !== CUT_SHORT) {
            throw failed(answer, [...pieces, chunk.subarray(at)], end, before);
        }
        if (at < chunk.length) {
            pieces.push(chunk.slice(at));
            held += chunk.length - at;
        }
    }
    if (held > 0) {
        throw failed(CUT_SHORT, pieces, held, before);
    }
}
