// The instance of the library, and memory for its calls. The header bindings/c/cbor_diag.h says what each call takes
// and gives. No rule of CBOR is here, nor in any other file of this package.
import { CborError } from "./error.js";

// How large a room is at first, and how large one may be that is kept for the next call.
const ROOM = 1 << 16;
const MOST_KEPT = 1 << 20;
// How many bytes the places and structs have that a call sets: at most a scanner and a number.
const CELLS = 4096;

const encoder = new TextEncoder();
const decoder = new TextDecoder("utf-8", { ignoreBOM: true });

/** Memory that is kept between calls, and grows as needed. */
class Room {
    constructor(calls) {
        this.calls = calls;
        this.at = 0;
        this.size = 0;
    }

    reserve(size) {
        if (size <= this.size) {
            return;
        }
        this.free();
        const wanted = Math.max(size, ROOM);
        const at = Number(this.calls.page_allocate(BigInt(wanted)));
        if (at === 0) {
            throw new CborError("MEMORY", "out of memory");
        }
        this.at = at;
        this.size = wanted;
    }

    free() {
        if (this.size > 0) {
            this.calls.page_free(BigInt(this.at));
        }
        this.size = 0;
    }
}

/** A string that is no Unicode has no UTF-8. */
function checkCharacters(text) {
    if (text.isWellFormed?.()) {
        return;
    }
    const offset = text.search(/\p{Surrogate}/u);
    if (offset >= 0) {
        throw new CborError("UTF8", "half of a surrogate pair is no character", { offset });
    }
}

/** The bytes of what a caller gives. */
function bytesOf(data) {
    if (data instanceof Uint8Array) {
        return data;
    }
    if (ArrayBuffer.isView(data)) {
        return new Uint8Array(data.buffer, data.byteOffset, data.byteLength);
    }
    if (data instanceof ArrayBuffer || Object.prototype.toString.call(data) === "[object SharedArrayBuffer]") {
        return new Uint8Array(data);
    }
    throw new TypeError(typeof data === "string"
        ? "a string has no bytes of CBOR: fromHex gives those of hex digits"
        : "the bytes of CBOR are in a Uint8Array, another view, or an ArrayBuffer");
}

/** Pieces of bytes, one after the other. */
export function joined(pieces) {
    const bytes = new Uint8Array(pieces.reduce((sum, piece) => sum + piece.length, 0));
    let at = 0;
    for (const piece of pieces) {
        bytes.set(piece, at);
        at += piece.length;
    }
    return bytes;
}

/** An instance of the module. */
class Instance {
    constructor(module) {
        this.calls = new WebAssembly.Instance(module, {}).exports;
        this.rooms = Array.from({ length: 4 }, () => new Room(this.calls));
        this.output = new Room(this.calls);
        const cells = new Room(this.calls);
        cells.reserve(CELLS);
        this.cells = cells.at;
    }

    bytes(at, size) {
        return new Uint8Array(this.calls.memory.buffer, at, size);
    }

    get view() {
        return new DataView(this.calls.memory.buffer);
    }

    /** Puts bytes into a room; returns the words of a call for them. */
    put(data, room = 0) {
        const bytes = bytesOf(data);
        const to = this.rooms[room];
        to.reserve(bytes.length);
        this.bytes(to.at, bytes.length).set(bytes);
        return [BigInt(to.at), BigInt(bytes.length)];
    }

    /** The same for a string, as UTF-8, and for the UTF-8 of one. */
    putText(text, room = 0) {
        if (typeof text !== "string") {
            return this.put(text, room);
        }
        checkCharacters(text);
        const to = this.rooms[room];
        to.reserve(3 * text.length);
        const { written } = encoder.encodeInto(text, this.bytes(to.at, to.size));
        return [BigInt(to.at), BigInt(written)];
    }

    /** Makes a call whose last words are an output, and again if that was too small. Returns what the call does. */
    write(call, ...words) {
        this.output.reserve(ROOM);
        let length = Number(call(...words, BigInt(this.output.at), BigInt(this.output.size)));
        if (length > this.output.size) {
            this.output.reserve(length);
            length = Number(call(...words, BigInt(this.output.at), BigInt(length)));
        }
        return length;
    }

    /** The output of the last call. */
    written(length) {
        return this.bytes(this.output.at, length).slice();
    }

    writtenText(length) {
        return decoder.decode(this.bytes(this.output.at, length));
    }

    /** The text that a call writes; undefined if it is empty, and if memory ran out. */
    text(call, ...words) {
        const length = this.write(call, ...words);
        return length > 0 ? this.writtenText(length) : undefined;
    }

    /** The address of a cell of 8 bytes. */
    cell(number) {
        return BigInt(this.cells + 8 * number);
    }

    /** The place that a call set; undefined where it says that there is none. */
    place(number) {
        const place = this.view.getBigInt64(this.cells + 8 * number, true);
        return place < 0n ? undefined : Number(place);
    }

    /** Frees rooms that are large. */
    trim() {
        for (const room of [...this.rooms, this.output]) {
            if (room.size > MOST_KEPT) {
                room.free();
            }
        }
    }
}

let module = null;
let instance = null;

/** Takes the compiled module. */
export function load(compiled) {
    module = compiled;
}

/**
 * Does something with an instance. What ends otherwise than by an error of the input may leave the memory half written,
 * so the next call makes a new instance.
 */
export function withLibrary(does) {
    instance ??= new Instance(module);
    try {
        return does(instance);
    } catch (error) {
        if (!(error instanceof CborError || error instanceof TypeError)) {
            instance = null;
        }
        throw error;
    } finally {
        instance?.trim();
    }
}
