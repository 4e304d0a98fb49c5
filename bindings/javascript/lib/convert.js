// Conversions of one item, and rules of an encoding.
import { failure, noEncoding, noJson, plain, toldViolation } from "./fault.js";
import { withLibrary } from "./memory.js";
import { CODES, FORMS, RULES, numberOf } from "./words.js";

const BYTES = 0;

/** Converts an item from a form to another. An output in notation, EDN or JSON ends with a line feed. */
export function convert(from, to, data) {
    const source = numberOf(FORMS, from, "form");
    const target = numberOf(FORMS, to, "form");
    return withLibrary((library) => {
        const isText = typeof data === "string" && source !== BYTES;
        const input = isText ? library.putText(data) : library.put(data);
        const answer = library.write(library.calls.cbor_diag_convert, source, target, ...input);
        if (answer >= 0) {
            return target === BYTES ? library.written(answer) : library.writtenText(answer);
        }
        throw ["SAME_KEYS", "NOT_KEPT"].includes(CODES[-answer])
            ? noJson(library, answer, source, target, input)
            : failure(library, answer, source, input, isText);
    });
}

/** An output without the line feed that ends it. */
function line(from, to, data) {
    return convert(from, to, data).slice(0, -1);
}

/** An item in EDN, which is read back as the same bytes; `pretty`: over several lines, with notes as comments. */
export function toEdn(data, { pretty = false } = {}) {
    return line("bytes", pretty ? "edn-pretty" : "edn", data);
}

/** An item in the diagnostic notation of cbor_view; `pretty`: over several lines. */
export function toDiag(data, { pretty = false } = {}) {
    return line("bytes", pretty ? "pretty" : "diag", data);
}

/** The dump of an item: its bytes in hex, a line for each head, with comments. */
export function toHex(data) {
    return convert("bytes", "hex", data);
}

/** An item as JSON on one line; `strict`: what JSON does not keep is an error. */
export function toJson(data, { strict = false } = {}) {
    return line("bytes", strict ? "json-strict" : "json", data);
}

/** The bytes of one item in EDN, or in JSON. */
export function fromEdn(text) {
    return convert("edn", "bytes", text);
}

/** The bytes of one item in the diagnostic notation of cbor_view. */
export function fromDiag(text) {
    return convert("diag", "bytes", text);
}

/** The bytes of one item in hex, with comments or without. */
export function fromHex(text) {
    return convert("hex", "bytes", text);
}

/** The length of the item at the front of the bytes. */
export function extent(data) {
    return withLibrary((library) => {
        const answer = Number(library.calls.cbor_diag_extent(...library.put(data), library.cell(0)));
        if (answer >= 0) {
            return answer;
        }
        const end = library.place(0);
        throw plain(library, answer, { end, offset: CODES[-answer] === "CUT_SHORT" ? end : end - 1 });
    });
}

/** The first violation of the rules in a sequence of items, or undefined. */
export function violation(data, rules) {
    const number = numberOf(RULES, rules, "rules");
    return withLibrary((library) => {
        const input = library.put(data);
        const found = Number(library.calls.cbor_diag_violation(number, ...input, library.cell(0), library.cell(1)));
        if (found < 0) {
            throw plain(library, found);
        }
        return found === 0 ? undefined : toldViolation(library, found, input);
    });
}

/** Re-encodes a sequence of items so that they keep the rules. */
export function reencode(data, rules) {
    const number = numberOf(RULES, rules, "rules");
    return withLibrary((library) => {
        const input = library.put(data);
        const answer = library.write(library.calls.cbor_diag_reencode, number, ...input);
        if (answer < 0) {
            throw noEncoding(library, answer, number, input);
        }
        return library.written(answer);
    });
}

/** The version of the library. */
export function libraryVersion() {
    const number = withLibrary((library) => library.calls.cbor_diag_version());
    return [Math.floor(number / 10000), Math.floor(number / 100) % 100, number % 100].join(".");
}
