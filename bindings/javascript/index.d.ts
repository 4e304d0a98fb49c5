/** The form of an input or an output. README.md says what each is. */
export type Form = "bytes" | "hex" | "diag" | "pretty" | "edn" | "edn-pretty" | "json" | "json-strict" | "html";

/** A set of rules for an encoding. Each includes the rules of `rfc8949`. */
export type Rules = "rfc8949" | "valid" | "preferred" | "core" | "length-first" | "ctap2" | "dcbor";

/** The form that `recognize` finds. */
export type Input = "bytes" | "hex" | "edn" | "base64";

/** The bytes of items. */
export type Bytes = ArrayBuffer | SharedArrayBuffer | ArrayBufferView;

/** The text of an item: a string, or its UTF-8. */
export type Text = string | Bytes;

/** What is wrong. */
export type Code =
    | "MEMORY" | "CUT_SHORT" | "HEAD" | "UTF8" | "TOO_DEEP" | "REMAINING" | "ODD_HEX" | "BAD_HEX" | "NOTATION"
    | "PAST_WIDTH" | "NO_FORM" | "NO_RULES" | "NOT_ENCODABLE" | "SAME_KEYS" | "NOT_KEPT" | "NO_PART" | "NO_TYPE"
    | "NOT_RECOGNIZED"
    | "WRONG_NAMES" | "WRONG_CDDL" | "WRONG_SCHEMA" | "TOO_MUCH_WORK";

/** How a head or a key violates a rule. */
export type ViolationKind =
    | "NO_ITEM" | "LONG_SIMPLE" | "LONG_HEAD" | "NOT_NFC" | "LONG_FLOAT" | "INTEGER_FLOAT" | "OTHER_NAN"
    | "OTHER_SIMPLE" | "INDEFINITE" | "TAG" | "LEADING_ZERO" | "SMALL_BIG_NUMBER" | "TOO_DEEP" | "KEY_ORDER"
    | "KEY_TWICE";

/** The first violation of a rule. */
export interface Violation {
    kind: ViolationKind;
    /** How many bytes come before the head or the key that violates the rule. */
    place: number;
    /** The place of the key before, for `KEY_ORDER`, or of the first of the two keys, for `KEY_TWICE`. */
    other: number | undefined;
    /** The error, for `NO_ITEM`. */
    code: Code | undefined;
    /** What is wrong and where, with the value. */
    message: string;
}

/** The first thing in an item that JSON does not keep. */
export interface Loss {
    kind: "TAG" | "NOT_FINITE" | "SIMPLE" | "BYTES" | "KEY";
    /** How many bytes of the item come before it. */
    place: number;
}

/** Why an item does not fit a schema. */
export interface Misfit {
    /** How many bytes of the data come before what does not fit. */
    place: number;
    /** The path to that in its item; empty for the item itself. */
    path: string;
    /** What the schema expects there. */
    expected: string;
    /** What is there. */
    found: string;
    /** The innermost rule or entry that has a name. */
    rule: string | undefined;
    /** The line of that in the CDDL, which counts from 1. */
    line: number | undefined;
    /** How many bytes of the data come before the outermost item. */
    item: number;
    /** All of that in one line. */
    message: string;
}

/** What is wrong with an input. The message says what, and for bytes and hex where in the item. */
export class CborError extends Error {
    readonly code: Code;
    /**
     * How many bytes of the input come before the error, or how many units of a string: `text.slice(offset)` begins
     * there. Undefined if it has no place.
     */
    readonly offset: number | undefined;
    /** The path to the truncated or malformed item in bytes and hex, as `cborcat -p` reads it. */
    readonly path: string | undefined;
    /** The number of first bytes that show the error: of `extent`, `Scanner` and `items`. */
    readonly end?: number;
    /** Where both keys are in the bytes of the item, for `SAME_KEYS`. */
    readonly keys?: [number, number];
    /** What JSON does not keep, for `NOT_KEPT`. */
    readonly loss?: Loss;
    /** What no encoding repairs, for `NOT_ENCODABLE`. Undefined if only the re-encoded items have a violation. */
    readonly violation?: Violation;
    /** Where in the CDDL, from 1 on, for `WRONG_CDDL`. Undefined for an error that has no place. */
    readonly line?: number;
    readonly column?: number;
}

/** Converts an item to bytes. Throws a CborError if the input is no item of its form. */
export function convert(from: Form, to: "bytes", data: Text): Uint8Array;
/** Converts an item to a text. An output in notation, EDN or JSON ends with a line feed. */
export function convert(from: Form, to: Exclude<Form, "bytes">, data: Text): string;
export function convert(from: Form, to: Form, data: Text): Uint8Array | string;

/**
 * An item in EDN on one line, which is read back as the same bytes. `pretty`: over several lines, with notes as
 * comments.
 */
export function toEdn(data: Bytes, options?: { pretty?: boolean }): string;
/** An item in the diagnostic notation of cbor_view. `pretty`: over several lines. */
export function toDiag(data: Bytes, options?: { pretty?: boolean }): string;
/** The dump of an item: its bytes in hex, a line for each head, with comments. */
export function toHex(data: Bytes): string;
/** An item as JSON on one line. `strict`: what JSON does not keep is an error. */
export function toJson(data: Bytes, options?: { strict?: boolean }): string;
/** The bytes of one item in EDN. The text may also be JSON. */
export function fromEdn(text: Text): Uint8Array;
/** The bytes of one item in the diagnostic notation of cbor_view. */
export function fromDiag(text: Text): Uint8Array;
/** The bytes of one item in hex, with comments or without. */
export function fromHex(text: Text): Uint8Array;

/**
 * The length of the item at the front, which is at least 1. More bytes may follow it. Throws a CborError with the code
 * `CUT_SHORT` if the bytes end before the item does.
 */
export function extent(data: Bytes): number;
/** The first violation of the rules; undefined if the bytes are a sequence of items, or none, that keep them. */
export function violation(data: Bytes, rules: Rules): Violation | undefined;
/**
 * Re-encodes a sequence of items so that they keep the rules. Throws a CborError with the code `NOT_ENCODABLE` if they
 * have no such encoding.
 */
export function reencode(data: Bytes, rules: Rules): Uint8Array;

/**
 * The part of an item that a path leads to, with its tags; with a `*` the first of the parts. Throws a CborError with
 * the code `NO_PART` if the path leads nowhere.
 */
export function part(data: Bytes, path: string): Uint8Array;
/** All parts of an item that a path leads to, in order: several with a `*`, and none if it leads nowhere. */
export function parts(data: Bytes, path: string): Uint8Array[];
/** What `value` returns: an integer that a number does not hold exactly is a bigint. */
export type Scalar = number | bigint | string | boolean | null | undefined | Uint8Array;
/**
 * The value of the part of an item that a path leads to, without its tags; of an array, a map and any other simple
 * value the bytes of the part.
 */
export function value(data: Bytes, path?: string): Scalar;
/** Each item in an item that holds no other: the path that leads to it, and its EDN. */
export function paths(data: Bytes): [path: string, edn: string][];
/**
 * The name of the part that a path leads to, in COSE, CWT, EAT, SenML or CTAP2; undefined if it has none. `type` is the
 * type of the item where no tag says it, such as `COSE_Key`.
 */
export function nameAt(data: Bytes, path: string, options?: { type?: string }): string | undefined;
/** An item in EDN over several lines as cborcat shows it: with names and notes, as comments. */
export function named(data: Bytes, options?: { type?: string }): string;
/** What is wrong with a file of names in TOML, with its line; undefined if nothing is. */
export function namesFault(names: string): string | undefined;
/**
 * The lines of a page of HTML that shows items, one after the other, each line beside its own bytes. No tag in them
 * comes from the data. `names` is a file of names, `notes` are names and comments, and with `embedded` byte strings
 * that hold an item are shown as that.
 */
export function page(
    data: Bytes,
    options?: { type?: string; names?: string; notes?: boolean; embedded?: boolean },
): string;
/**
 * The form that an input has, and the bytes that it stands for. No text is taken for bytes. Throws a CborError with the
 * code `NOT_RECOGNIZED` if it has none.
 */
export function recognize(data: Text): { form: Input; bytes: Uint8Array };

/**
 * Rules in CDDL (RFC 8610), to check any number of items. Throws a CborError with the code `WRONG_CDDL`, a line and a
 * column if the text has an error. An item has to fit the rule that is named, or the first one.
 */
export class Schema {
    constructor(text: string, rule?: string);
    /** Why the first of the items that does not fit does not; undefined if all fit. */
    check(data: Bytes): Misfit | undefined;
}

/** Finds the length of an item that comes in pieces. */
export class Scanner {
    /**
     * Feeds the next bytes. Returns the length of the item at the front of all bytes that were fed; undefined if more
     * are needed. Once there is a length or an error, it stays.
     */
    feed(data: Bytes): number | undefined;
}

/** What `items` reads: a stream of the web or of node, or anything else that gives chunks one after the other. */
export type Chunks = ReadableStreamLike | AsyncIterable<Uint8Array> | Iterable<Uint8Array>;

/** A ReadableStream of the web, as far as it is used. */
export interface ReadableStreamLike {
    getReader(): {
        read(): Promise<{ done: boolean; value?: Uint8Array | undefined }>;
        releaseLock(): void;
    };
}

/**
 * The bytes of each item of a stream, as soon as the item is complete. After the last whole item it throws a CborError
 * if the next bytes are no item, or if the stream ends inside of one (`CUT_SHORT`).
 */
export function items(stream: Chunks): AsyncGenerator<Uint8Array, void, undefined>;

/** The version of the library, such as `0.2.0`. */
export function libraryVersion(): string;
