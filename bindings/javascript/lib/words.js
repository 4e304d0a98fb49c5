// The words of this package for the numbers of bindings/c/cbor_diag.h, in the order of the numbers there.

export const FORMS = ["bytes", "hex", "diag", "pretty", "edn", "edn-pretty", "json", "json-strict", "html"];
export const RULES = ["rfc8949", "valid", "preferred", "core", "length-first", "ctap2", "dcbor"];
export const INPUTS = ["bytes", "hex", "edn", "base64"];
// No error, no violation and no loss has the number 0.
export const CODES = [null, "MEMORY", "CUT_SHORT", "HEAD", "UTF8", "TOO_DEEP", "REMAINING", "ODD_HEX", "BAD_HEX",
    "NOTATION", "PAST_WIDTH", "NO_FORM", "NO_RULES", "NOT_ENCODABLE", "SAME_KEYS", "NOT_KEPT", "NO_PART", "NO_TYPE",
    "NOT_RECOGNIZED", "WRONG_NAMES", "WRONG_CDDL", "WRONG_SCHEMA", "TOO_MUCH_WORK"];
export const VIOLATIONS = [null, "NO_ITEM", "LONG_SIMPLE", "LONG_HEAD", "NOT_NFC", "LONG_FLOAT", "INTEGER_FLOAT",
    "OTHER_NAN", "OTHER_SIMPLE", "INDEFINITE", "TAG", "LEADING_ZERO", "SMALL_BIG_NUMBER", "TOO_DEEP", "KEY_ORDER",
    "KEY_TWICE"];
export const LOSSES = [null, "TAG", "NOT_FINITE", "SIMPLE", "BYTES", "KEY"];
export const LOSS_TEXTS = [null, "a tag", "NaN or an infinity", "a simple value", "a byte string",
    "a key that is no text"];

/** The number of a word. Throws a RangeError for a word that is not in the list. */
export function numberOf(words, word, what) {
    const number = words.indexOf(word);
    if (number < 0) {
        throw new RangeError(`no such ${what}: ${JSON.stringify(word)}; there are ${words.join(", ")}`);
    }
    return number;
}
