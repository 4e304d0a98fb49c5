// The calls of the library for C, in an instance of its WebAssembly module. The header bindings/c/cbor_diag.h says what
// each call takes and gives. No rule of CBOR is here, nor in any other file of the page.
"use strict";

// The numbers of the header that the page uses.
const FORM = { BYTES: 0, HEX: 1, EDN: 4, JSON: 6 };
const INPUTS = ["bytes", "hex", "EDN", "base 64"];
const RULES = ["rfc8949", "valid", "preferred", "core", "length-first", "ctap2", "dcbor"];

/** Room for an output. After a call `bytes` are a copy of what it wrote. */
class Room {
    constructor(size) {
        this.size = size;
        this.bytes = null;
    }
}

/** A value that a call sets: a number, or a struct. After the call `bytes` are a copy of it. */
class Cell {
    constructor(size = 8) {
        this.size = size;
        this.bytes = null;
    }

    /** The place that the call set; null where it says that there is none. */
    get place() {
        const word = new DataView(this.bytes.buffer).getBigInt64(0, true);
        return word < 0n ? null : Number(word);
    }

    /** The number of 32 bits that it set. */
    get number() {
        return new DataView(this.bytes.buffer).getUint32(0, true);
    }
}

/** Bytes that are in the memory already. */
class Held {
    constructor(at, size) {
        Object.assign(this, { at, size });
    }
}

/** An instance of the module. After a trap its memory is half written: throw it away, and make a new one. */
class Library {
    /** How much room an output has at first. A longer one takes a second call. */
    static ROOM = 1 << 16;

    constructor(module) {
        this.exports = new WebAssembly.Instance(module, {}).exports;
    }

    /**
     * Makes a call. A number is passed as it is, and a size as a BigInt; a Uint8Array as the pointer and the length of a
     * copy; a Room as those of free memory; a Cell as a pointer; Held as it is. Returns what the call returns.
     */
    call(name, ...values) {
        const held = [];
        try {
            const words = values.flatMap((value) => this.#passed(value, held));
            const answer = Number(this.exports[name](...words));
            for (const { value, at } of held) {
                this.#take(value, at, answer);
            }
            return answer;
        } finally {
            for (const { at } of held) {
                this.exports.page_free(BigInt(at));
            }
        }
    }

    /** Makes a call whose last values are an output: what it returns, and the output, or null for an error. */
    output(name, ...values) {
        let room = new Room(Library.ROOM);
        let answer = this.call(name, ...values, room);
        if (answer > room.size) {
            room = new Room(answer);
            answer = this.call(name, ...values, room);
        }
        return { answer, bytes: answer >= 0 ? room.bytes : null };
    }

    /** The same for an output that is text. It is empty for an error. */
    text(name, ...values) {
        const { bytes } = this.output(name, ...values);
        return bytes ? new TextDecoder().decode(bytes) : "";
    }

    /** Does something with bytes that are copied once: `does` is given a function that returns those after a place. */
    holding(bytes, does) {
        const held = [];
        this.#passed(bytes, held);
        const [{ at }] = held;
        try {
            return does((place) => new Held(at + place, bytes.length - place));
        } finally {
            this.exports.page_free(BigInt(at));
        }
    }

    /** The words of a call for a value, whose memory is held until the call is over. */
    #passed(value, held) {
        if (typeof value === "number" || typeof value === "bigint") {
            return [value];
        }
        if (value instanceof Held) {
            return [BigInt(value.at), BigInt(value.size)];
        }
        const size = value instanceof Uint8Array ? value.length : value.size;
        const at = Number(this.exports.page_allocate(BigInt(Math.max(size, 1))));
        if (at === 0) {
            throw new RangeError("out of memory");
        }
        held.push({ value, at });
        const memory = new Uint8Array(this.exports.memory.buffer, at, size);
        if (value instanceof Uint8Array) {
            memory.set(value);
        } else if (value instanceof Cell) {
            memory.fill(0);
        }
        return value instanceof Cell ? [BigInt(at)] : [BigInt(at), BigInt(size)];
    }

    /** Copies what a call wrote for a value. */
    #take(value, at, answer) {
        const written = value instanceof Room ? Math.max(0, Math.min(answer, value.size)) : value.size;
        if (value instanceof Room || value instanceof Cell) {
            value.bytes = new Uint8Array(this.exports.memory.buffer, at, written).slice();
        }
    }
}
