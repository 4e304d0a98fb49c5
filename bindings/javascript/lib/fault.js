// The errors of calls: what is wrong, and where.
import { CborError } from "./error.js";
import { CODES, LOSSES, LOSS_TEXTS, VIOLATIONS } from "./words.js";

const BYTES = 0;
// Of a value that a message shows, at most so many bytes and characters.
const MOST_SHOWN = 40;
const EDN = 4;
// Errors that have no place in the input.
const WITHOUT_PLACE = ["MEMORY", "NO_FORM", "NO_RULES", "NO_PART", "NO_TYPE", "WRONG_NAMES", "NOT_RECOGNIZED",
    "WRONG_SCHEMA", "TOO_MUCH_WORK"];

const decoder = new TextDecoder();

/** The text of an error. */
export function errorText(library, number) {
    return library.text(library.calls.cbor_diag_error_text, number);
}

/** An error of which only the number is known. */
export function plain(library, answer, told) {
    return new CborError(CODES[-answer], errorText(library, -answer), told);
}

/** How many units of a string come before a byte of its UTF-8. */
function unitsBefore(library, input, offset) {
    return decoder.decode(library.bytes(Number(input[0]), offset)).length;
}

/** The error of an input that is no item of a form. `isText` says whether it was a string. */
export function failure(library, answer, from, input, isText = false) {
    if (WITHOUT_PLACE.includes(CODES[-answer])) {
        return plain(library, answer);
    }
    const { calls } = library;
    calls.cbor_diag_fault(from, ...input, library.cell(0));
    const place = library.place(0);
    const offset = isText && place !== undefined ? unitsBefore(library, input, place) : place;
    const path = library.text(calls.cbor_diag_fault_path, from, ...input);
    const message = library.text(calls.cbor_diag_fault_message, from, ...input) ?? errorText(library, -answer);
    return new CborError(CODES[-answer], message, { offset, path });
}

/** The error of an item that has no JSON. */
export function noJson(library, answer, from, to, input) {
    const told = Number(library.calls.cbor_diag_output_fault(from, to, ...input, library.cell(0), library.cell(1)));
    if (told !== answer) {
        return plain(library, answer);
    }
    const [place, detail] = [library.place(0), library.place(1)];
    const offset = from === BYTES ? place : undefined;
    const text = errorText(library, -answer);
    if (CODES[-answer] === "SAME_KEYS") {
        const keys = [detail, place];
        return new CborError("SAME_KEYS", `${text}: those at bytes ${detail} and ${place}`, { offset, keys });
    }
    const loss = { kind: LOSSES[detail], place };
    return new CborError("NOT_KEPT", `${text}: ${LOSS_TEXTS[detail]} at byte ${place}`, { offset, loss });
}

/** The item at a place in EDN, if it is short; otherwise an empty text. */
function valueAt(library, [at, size], place) {
    const [start, left] = [at + BigInt(place), size - BigInt(place)];
    const length = library.calls.cbor_diag_extent(start, left, library.cell(2));
    if (length <= 0n || length > MOST_SHOWN) {
        return "";
    }
    const text = library.text(library.calls.cbor_diag_convert, BYTES, EDN, start, length)?.slice(0, -1) ?? "";
    return [...text].length <= MOST_SHOWN ? text : "";
}

function violationWords(library, input, { kind, place, other, code }) {
    const text = code ? errorText(library, CODES.indexOf(code))
        : library.text(library.calls.cbor_diag_violation_text, VIOLATIONS.indexOf(kind));
    const value = kind === "NO_ITEM" ? "" : valueAt(library, input, place);
    const words = value ? `${text}: ${value} at byte ${place}` : `${text} at byte ${place}`;
    if (kind === "KEY_ORDER") {
        return `${words}, after ${valueAt(library, input, other) || "the key"} at byte ${other}`;
    }
    return other === undefined ? words : `${words}, first at byte ${other}`;
}

/** The violation whose place and detail a call set; undefined if it has no place. */
export function toldViolation(library, found, input) {
    const [place, detail] = [library.place(0), library.place(1)];
    if (place === undefined) {
        return undefined;
    }
    const kind = VIOLATIONS[found];
    const told = kind === "NO_ITEM" ? { kind, place, other: undefined, code: CODES[detail] }
        : { kind, place, other: detail, code: undefined };
    return { ...told, message: violationWords(library, input, told) };
}

/** The error of items that no encoding by the rules has. */
export function noEncoding(library, answer, rules, input) {
    if (CODES[-answer] !== "NOT_ENCODABLE") {
        return plain(library, answer);
    }
    const { calls } = library;
    const found = Number(calls.cbor_diag_reencode_fault(rules, ...input, library.cell(0), library.cell(1)));
    if (found <= 0) {
        return plain(library, answer);
    }
    const violation = toldViolation(library, found, input);
    const why = violation?.message ?? library.text(calls.cbor_diag_violation_text, found);
    const text = `${errorText(library, -answer)}: ${why}`;
    return new CborError("NOT_ENCODABLE", text, { offset: violation?.place, violation });
}

/** The error of bytes of a stream that begin no item. `before` bytes come before them, and `end` of them show it. */
export function noItem(library, answer, bytes, end, before) {
    const input = library.put(bytes.subarray(0, end));
    const { message, path } = failure(library, answer, BYTES, input);
    const last = CODES[-answer] === "CUT_SHORT" ? end : end - 1;
    return new CborError(CODES[-answer], message, { end: before + end, offset: before + last, path });
}
