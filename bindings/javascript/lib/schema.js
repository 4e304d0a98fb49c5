// Checks by CDDL.
import { CborError } from "./error.js";
import { noItem, plain } from "./fault.js";
import { withLibrary } from "./memory.js";
import { CODES } from "./words.js";

// The numbers of struct cbor_diag_misfit, in the order there.
const MISFIT = ["place", "item", "line", "expected", "expectedEnd", "rule", "ruleEnd", "found", "foundEnd", "path",
    "pathEnd"];
const NO_ITEM = ["CUT_SHORT", "HEAD", "UTF8", "TOO_DEEP"];

const decoder = new TextDecoder();

/** The error of a text of CDDL. */
function wrongCddl(library, answer, text, rule) {
    if (CODES[-answer] !== "WRONG_CDDL") {
        return plain(library, answer);
    }
    const where = [library.cell(0), library.cell(1)];
    const message = library.text(library.calls.cbor_diag_schema_fault, ...text, ...rule, ...where);
    const [line, column] = [library.place(0) || undefined, library.place(1) || undefined];
    return new CborError("WRONG_CDDL", message, { line, column });
}

/** The error of the first bytes of a sequence that are no item. */
function firstNoItem(library, data) {
    const bytes = data.slice();
    for (let at = 0; ; ) {
        const input = library.put(bytes.subarray(at));
        const answer = Number(library.calls.cbor_diag_extent(...input, library.cell(0)));
        if (answer < 0) {
            return noItem(library, answer, bytes.subarray(at), library.place(0), at);
        }
        at += answer;
    }
}

/** What the library told of a misfit, whose message has the parts. */
function misfitOf(library, message) {
    const numbers = Object.fromEntries(MISFIT.map((name, number) => [name, library.place(number)]));
    const span = (name) => decoder.decode(message.subarray(numbers[name], numbers[`${name}End`]));
    return {
        place: numbers.place, path: span("path"), expected: span("expected"), found: span("found"),
        rule: span("rule") || undefined, line: numbers.line || undefined, item: numbers.item,
        message: decoder.decode(message),
    };
}

/** Rules in CDDL, to check any number of items. */
export class Schema {
    #bytes;

    constructor(text, rule = "") {
        this.#bytes = withLibrary((library) => {
            const words = [library.putText(text), library.putText(rule, 1)];
            const answer = library.write(library.calls.cbor_diag_schema_load, ...words.flat());
            if (answer < 0) {
                throw wrongCddl(library, answer, ...words);
            }
            return library.written(answer);
        });
    }

    /** Why the first of the items that does not fit does not, or undefined. */
    check(data) {
        return withLibrary((library) => {
            const input = library.put(data);
            const words = [...library.put(this.#bytes, 1), ...input, library.cell(0)];
            const answer = library.write(library.calls.cbor_diag_schema_misfit, ...words);
            if (answer >= 0) {
                return answer === 0 ? undefined : misfitOf(library, library.written(answer));
            }
            throw NO_ITEM.includes(CODES[-answer])
                ? firstNoItem(library, library.bytes(Number(input[0]), Number(input[1])))
                : plain(library, answer);
        });
    }
}
