// What the page asks of the library: a request, and its answer. It runs in the worker, and in the tests.
"use strict";

/** The items of a sequence; and the fault of what follows them and is none, or null. */
function itemsOf(library, bytes) {
    const items = [];
    let begin = 0;
    library.holding(bytes, (after) => {
        while (begin < bytes.length) {
            const length = library.call("cbor_diag_extent", after(begin), new Cell());
            if (length < 0) {
                break;
            }
            items.push(bytes.subarray(begin, begin + length));
            begin += length;
        }
    });
    if (begin === bytes.length) {
        return { items, broken: null };
    }
    const { place, message } = faultOf(library, FORM.BYTES, bytes.subarray(begin));
    return { items, broken: { place: begin + place, message } };
}

/** Why an input has not this form: the place in its bytes, and the message of cborcat. */
function faultOf(library, form, input) {
    const place = new Cell();
    library.call("cbor_diag_fault", form, input, place);
    return { place: place.place, message: library.text("cbor_diag_fault_message", form, input) };
}

/** Why a text is neither hex nor EDN, by the one of both readings that comes further. */
function faultOfText(library, input) {
    const edn = faultOf(library, FORM.EDN, input);
    const hex = faultOf(library, FORM.HEX, input);
    return (hex.place ?? -1) > (edn.place ?? -1) ? { ...hex, read: "hex" } : { ...edn, read: "EDN" };
}

/**
 * The bytes that an input stands for, and the form that it has. `as` says what it is read as: "bytes"; "notation";
 * "any" of the forms that cborcat recognizes; or "file", which is any of them or bytes with a fault. Without bytes,
 * `fault` says why.
 */
function bytesOf(library, { input, as }) {
    if (as === "bytes") {
        return { bytes: input, form: "bytes" };
    }
    if (as === "notation") {
        const { bytes } = library.output("cbor_diag_convert", FORM.EDN, FORM.BYTES, input);
        if (bytes) {
            return { bytes, form: "EDN" };
        }
    }
    const form = new Cell();
    const { bytes } = library.output("cbor_diag_recognize", input, form);
    if (bytes && (as !== "notation" || INPUTS[form.number] === "EDN")) {
        return { bytes, form: INPUTS[form.number] };
    }
    if (as === "file") {
        return { bytes: input, form: "bytes" };
    }
    return { bytes: null, fault: as === "notation" ? faultOf(library, FORM.EDN, input) : faultOfText(library, input) };
}

/** What a call says of rules: the place of a violation and its message, or null. */
function violationOf(library, call, rules, bytes) {
    const [place, detail] = [new Cell(), new Cell()];
    const kind = library.call(call, rules, bytes, place, detail);
    return kind === 0 ? null : { place: place.place, message: library.text("cbor_diag_violation_text", kind) };
}

/** An output of each item, one after the other. `fault` says why there is none for the rest. */
function outputs(library, bytes, { items, broken }, form) {
    const texts = [];
    for (const item of items) {
        const { answer, bytes } = library.output("cbor_diag_convert", FORM.BYTES, form, item);
        if (!bytes) {
            const [place, detail] = [new Cell(), new Cell()];
            library.call("cbor_diag_output_fault", FORM.BYTES, form, item, place, detail);
            const at = item.byteOffset - bytes.byteOffset;
            const there = place.place === null ? null : at + place.place;
            return { texts, fault: { place: there, message: errorText(library, answer) } };
        }
        texts.push(bytes);
    }
    return { texts, fault: broken };
}

/**
 * Says of faults in bytes where they are in the text that these were read from: how many of its bytes come before, as
 * `inText`. It is null for bytes of a file, and for a fault without a place.
 */
function placeInText(library, input, form, faults) {
    for (const fault of faults.filter(Boolean)) {
        fault.inText = null;
        if (form !== "bytes" && fault.place !== null) {
            const place = BigInt(fault.place);
            const answer = library.call("cbor_diag_place_in_text", INPUTS.indexOf(form), input, place);
            fault.inText = answer < 0 ? null : answer;
        }
    }
}

function errorText(library, answer) {
    return library.text("cbor_diag_error_text", -answer);
}

/** The bytes of arrays, one after the other. */
function joined(arrays) {
    const whole = new Uint8Array(arrays.reduce((sum, array) => sum + array.length, 0));
    let at = 0;
    for (const array of arrays) {
        whole.set(array, at);
        at += array.length;
    }
    return whole;
}

/** The notation of items that the page lets one edit: EDN over several lines with names. */
function notationOf(library, { items }, type) {
    return joined(items.map((item) => library.output("cbor_diag_named", item, type).bytes ?? new Uint8Array(0)));
}

/**
 * The answer to a request. A request has
 *
 * - input, as: bytes, and what they are read as; see bytesOf;
 * - type, names: the type of the outermost items and tables of names, in UTF-8, or no bytes;
 * - rules: the name of rules that are checked, or ""; encode: whether the items are encoded by these first;
 * - tab: what is shown: "lines", "dump", "json", "edn" or "hex"; notation: whether the notation is asked for.
 *
 * An answer has bytes, and form; count, how many items there are; what is shown in `shown`, as UTF-8; and if there is
 * one, notation; the fault of a text without bytes; broken, the fault of bytes; violation; why there is no encoding;
 * lost, the fault in an output of the tab; and why a view was refused. Faults of bytes have their place in these, and
 * inText, that in the text that was read.
 */
function worked(library, request) {
    const read = bytesOf(library, request);
    if (!read.bytes) {
        return { ...read, bytes: null };
    }
    const rules = RULES.indexOf(request.rules);
    const answer = { ...read };
    if (request.encode) {
        answer.bytes = library.output("cbor_diag_reencode", rules, read.bytes).bytes ?? read.bytes;
        answer.unencodable = violationOf(library, "cbor_diag_reencode_fault", rules, read.bytes);
    }
    const { bytes } = answer;
    const sequence = itemsOf(library, bytes);
    answer.count = sequence.items.length;
    answer.broken = sequence.broken;
    answer.violation = rules < 0 || answer.broken ? null : violationOf(library, "cbor_diag_violation", rules, bytes);
    if (request.notation) {
        answer.notation = notationOf(library, sequence, request.type);
    }
    Object.assign(answer, shownIn(library, request, bytes, sequence));
    if (bytes === read.bytes) {
        const { broken, violation, unencodable, lost } = answer;
        placeInText(library, request.input, read.form, [broken, violation, unencodable, lost]);
    }
    return answer;
}

/** What a tab shows of bytes. */
function shownIn(library, { tab, type, names }, bytes, sequence) {
    if (tab === "lines") {
        const { answer, bytes: shown } = library.output("cbor_diag_page", bytes, type, names, 0);
        if (shown) {
            return { shown };
        }
        return { refused: library.text("cbor_diag_names_fault", names) || errorText(library, answer) };
    }
    if (tab === "hex") {
        return { shown: bytes };
    }
    const form = { dump: FORM.HEX, json: FORM.JSON, edn: FORM.EDN }[tab];
    const { texts, fault } = outputs(library, bytes, sequence, form);
    return { shown: joined(texts), lost: fault };
}
