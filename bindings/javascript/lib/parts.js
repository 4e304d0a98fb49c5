// Parts of items, names, pages, and the form of an input.
import { failure, plain } from "./fault.js";
import { joined, withLibrary } from "./memory.js";
import { INPUTS } from "./words.js";

const BYTES = 0;
const NO_NOTES = 1;
const EMBEDDED = 2;
// Numbers of enum cbor_diag_kind.
const KIND = { UNSIGNED: 0, NEGATIVE: 1, BYTES: 2, TEXT: 3, SIMPLE: 7, FLOAT: 8, BREAK: 9 };
// The most bytes of a head.
const HEAD = 9;

const decoder = new TextDecoder("utf-8", { ignoreBOM: true });

/** What a call on an item writes, as text. `more` are the words of its other inputs. */
function writtenOf(library, call, input, ...more) {
    const answer = library.write(call, ...input, ...more);
    if (answer < 0) {
        throw failure(library, answer, BYTES, input);
    }
    return library.writtenText(answer);
}

/** The part of an item that a path leads to, with its tags; with a `*` the first of the parts. */
export function part(data, path) {
    return withLibrary((library) => {
        const input = library.put(data);
        const where = [library.cell(0), library.cell(1)];
        const answer = Number(library.calls.cbor_diag_part(...input, ...library.putText(path, 1), ...where));
        if (answer < 0) {
            throw failure(library, answer, BYTES, input);
        }
        const start = library.place(0);
        return library.bytes(Number(input[0]) + start, library.place(1) - start).slice();
    });
}

/** All parts of an item that a path leads to, in order. */
export function parts(data, path) {
    return withLibrary((library) => {
        const input = library.put(data);
        const steps = library.putText(path, 1);
        // The room of an output counts parts here, of three numbers each.
        const call = (...words) => {
            const room = words.pop() / 24n;
            const count = Number(library.calls.cbor_diag_parts(...words, room));
            return count < 0 ? count : 24 * count;
        };
        const answer = library.write(call, ...input, ...steps);
        if (answer < 0) {
            throw failure(library, answer, BYTES, input);
        }
        const numbers = new BigUint64Array(library.written(answer).buffer);
        return Array.from({ length: numbers.length / 3 }, (_, k) => {
            const [start, end] = [Number(numbers[3 * k + 1]), Number(numbers[3 * k + 2])];
            return library.bytes(Number(input[0]) + start, end - start).slice();
        });
    });
}

/** An integer as a number where that is exact, and otherwise as a bigint. */
function integer(number) {
    const most = BigInt(Number.MAX_SAFE_INTEGER);
    return -most <= number && number <= most ? Number(number) : number;
}

/** The content of a string in chunks, whose tags are left out. */
function contentOf(library, string) {
    const chunks = [];
    for (let at = 0; ; ) {
        const head = library.put(string.subarray(at, at + HEAD), 1);
        at += Number(library.calls.cbor_diag_head(...head, library.cell(0)));
        const kind = library.view.getUint8(library.cells);
        const isIndefinite = library.view.getUint8(library.cells + 1) !== 0;
        if (kind === KIND.BREAK) {
            return joined(chunks);
        }
        if ((kind === KIND.BYTES || kind === KIND.TEXT) && !isIndefinite) {
            const length = library.place(1);
            chunks.push(string.subarray(at, at + length));
            at += length;
        }
    }
}

/** The value of a big number. */
function bigNumber(bytes, isNegative) {
    const digits = Array.from(bytes, (byte) => byte.toString(16).padStart(2, "0")).join("");
    const number = BigInt(`0x${digits || "0"}`);
    return integer(isNegative ? -1n - number : number);
}

/** What struct cbor_diag_value says, which is in the cells. */
function told(library) {
    const { view, cells } = library;
    const flags = [view.getUint8(cells), view.getUint8(cells + 1) !== 0, view.getUint8(cells + 2) !== 0];
    const [kind, isIndefinite, isTagged] = flags;
    return {
        kind, isIndefinite, tag: isTagged ? view.getBigUint64(cells + 8, true) : null,
        argument: view.getBigUint64(cells + 16, true), number: view.getFloat64(cells + 24, true),
        start: Number(view.getBigUint64(cells + 32, true)), end: Number(view.getBigUint64(cells + 40, true)),
    };
}

/** The value of a part, whose bytes are these; of a string of definite length they are its content. */
function scalar(library, { kind, isIndefinite, tag, argument, number }, bytes) {
    if (kind === KIND.UNSIGNED || kind === KIND.NEGATIVE) {
        return integer(kind === KIND.NEGATIVE ? -1n - argument : argument);
    }
    if (kind === KIND.FLOAT) {
        return number;
    }
    if (kind === KIND.SIMPLE) {
        const simple = { 20: false, 21: true, 22: null, 23: undefined };
        return Number(argument) in simple ? simple[Number(argument)] : bytes;
    }
    if (kind !== KIND.BYTES && kind !== KIND.TEXT) {
        return bytes;
    }
    const content = isIndefinite ? contentOf(library, bytes) : bytes;
    if (kind === KIND.TEXT) {
        return decoder.decode(content);
    }
    return tag === 2n || tag === 3n ? bigNumber(content, tag === 3n) : content;
}

/** The value of the part of an item that a path leads to, without its tags. */
export function value(data, path = "") {
    return withLibrary((library) => {
        const input = library.put(data);
        const answer = Number(library.calls.cbor_diag_value(...input, ...library.putText(path, 1), library.cell(0)));
        if (answer < 0) {
            throw failure(library, answer, BYTES, input);
        }
        const found = told(library);
        return scalar(library, found, library.bytes(Number(input[0]) + found.start, found.end - found.start).slice());
    });
}

/** The path and the EDN of a line: two blanks that are not in a text are between them. */
function pathAndText(text) {
    let at = 0;
    for (let isQuoted = false; isQuoted || !text.startsWith("  ", at); at += 1) {
        isQuoted = isQuoted !== (text[at] === '"');
    }
    return [text.slice(0, at), text.slice(at + 2)];
}

/** Each item in an item that holds no other: the path that leads to it, and its EDN. */
export function paths(data) {
    const lines = withLibrary((library) => writtenOf(library, library.calls.cbor_diag_paths, library.put(data)));
    return lines.split("\n").slice(0, -1).map(pathAndText);
}

/** The name of the part of an item that a path leads to, or undefined. */
export function nameAt(data, path, { type = "" } = {}) {
    return withLibrary((library) => {
        const input = library.put(data);
        const more = [...library.putText(path, 1), ...library.putText(type, 2)];
        return writtenOf(library, library.calls.cbor_diag_name_at, input, ...more) || undefined;
    });
}

/** An item in EDN as cborcat shows it: with names and notes, as comments. */
export function named(data, { type = "" } = {}) {
    return withLibrary((library) => {
        const input = library.put(data);
        return writtenOf(library, library.calls.cbor_diag_named, input, ...library.putText(type, 1)).slice(0, -1);
    });
}

/** What is wrong with a file of names, or undefined. */
export function namesFault(names) {
    return withLibrary((library) => {
        const answer = library.write(library.calls.cbor_diag_names_fault, ...library.putText(names));
        if (answer < 0) {
            throw plain(library, answer);
        }
        return library.writtenText(answer) || undefined;
    });
}

/** The lines of a page of HTML that shows items, each line beside its own bytes. */
export function page(data, { type = "", names = "", notes = true, embedded = false } = {}) {
    const flags = (notes ? 0 : NO_NOTES) + (embedded ? EMBEDDED : 0);
    return withLibrary((library) => {
        const input = library.put(data);
        const more = [...library.putText(type, 1), ...library.putText(names, 2), flags];
        return writtenOf(library, library.calls.cbor_diag_page, input, ...more);
    });
}

/** The form that an input has, and the bytes that it stands for. */
export function recognize(data) {
    return withLibrary((library) => {
        const answer = library.write(library.calls.cbor_diag_recognize, ...library.putText(data), library.cell(0));
        if (answer < 0) {
            throw plain(library, answer);
        }
        return { form: INPUTS[library.view.getUint32(library.cells, true)], bytes: library.written(answer) };
    });
}
