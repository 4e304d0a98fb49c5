// Tests of the package that no comparison with the native library makes: inputs of JavaScript's kinds, streams, and
// what happens after a call that the engine ended. Expected values are worked out by hand.
//
//     node library.mjs        in a folder that has the package in node_modules
import assert from "node:assert/strict";
import { createRequire } from "node:module";
import path from "node:path";
import { Readable } from "node:stream";
import { pathToFileURL } from "node:url";

const home = path.dirname(createRequire(path.resolve("here.js")).resolve("semphluk/package.json"));
const cbor = await import(pathToFileURL(path.join(home, "lib/node.js")));
const { withLibrary } = await import(pathToFileURL(path.join(home, "lib/memory.js")));

const bytes = (...given) => Uint8Array.from(given);
const tests = {};

/** The error that something throws. */
function thrown(does) {
    try {
        does();
    } catch (error) {
        return error;
    }
    assert.fail("nothing was thrown");
}

tests["bytes of all kinds"] = () => {
    const wanted = "[1, 2]";
    const given = bytes(0, 0x82, 1, 2, 0);
    assert.equal(cbor.toEdn(given.subarray(1, 4)), wanted);
    assert.equal(cbor.toEdn(given.buffer.slice(1, 4)), wanted);
    assert.equal(cbor.toEdn(new DataView(given.buffer, 1, 3)), wanted);
    assert.equal(cbor.toEdn(Buffer.from("820102", "hex")), wanted);
    const shared = new SharedArrayBuffer(3);
    new Uint8Array(shared).set(bytes(0x82, 1, 2));
    assert.equal(cbor.toEdn(shared), wanted);
    assert.equal(cbor.toEdn(new Uint16Array(bytes(0x82, 1, 0x61, 0x62).buffer)), '[1, "b"]');
};

tests["results are bytes of their own"] = () => {
    const first = cbor.fromEdn("[1, 2]");
    const second = cbor.fromEdn("[3, 4]");
    assert.equal(Object.getPrototypeOf(first), Uint8Array.prototype);
    assert.deepEqual([...first, ...second], [0x82, 1, 2, 0x82, 3, 4]);
    assert.equal(first.buffer.byteLength, 3);
};

tests["inputs of other types"] = () => {
    assert.match(thrown(() => cbor.toEdn("820102")).message, /fromHex/);
    for (const wrong of [1, null, undefined, {}, [0x01]]) {
        assert(thrown(() => cbor.toEdn(wrong)) instanceof TypeError);
        assert(thrown(() => cbor.fromEdn(wrong)) instanceof TypeError);
    }
    const form = thrown(() => cbor.convert("cbor", "edn", bytes(1)));
    assert(form instanceof RangeError);
    assert.match(form.message, /no such form: "cbor"; there are bytes, hex/);
    assert(thrown(() => cbor.violation(bytes(1), "canonical")) instanceof RangeError);
    assert.equal(cbor.toEdn(bytes(1)), "1");
};

tests["places in strings"] = () => {
    const text = '["\u{1d11e}\u00fc", ?]';
    const error = thrown(() => cbor.fromEdn(text));
    assert.equal(text.slice(error.offset), "?]");
    assert(error instanceof cbor.CborError && error instanceof Error);
    assert.equal(error.code, "NOTATION");
    const lone = thrown(() => cbor.fromEdn('"a\ud800"'));
    assert.deepEqual([lone.code, lone.offset], ["UTF8", 2]);
    assert.equal(cbor.fromEdn('"\u{1d11e}"').length, 5);
};

tests["integers"] = () => {
    const value = (text) => cbor.value(cbor.fromEdn(text));
    assert.equal(value("9007199254740991"), 9007199254740991);
    assert.equal(value("9007199254740992"), 9007199254740992n);
    assert.equal(value("-9007199254740991"), -9007199254740991);
    assert.equal(value("-9007199254740992"), -9007199254740992n);
    assert.equal(value("18446744073709551615"), 18446744073709551615n);
    assert.equal(value("2(h'010000000000000000')"), 18446744073709551616n);
    assert.equal(value("3(h'00')"), -1);
    assert.equal(value("1.5"), 1.5);
    assert.equal(value("true"), true);
    assert.equal(value("null"), null);
    assert.equal(value("undefined"), undefined);
    assert.deepEqual(value("(_ h'01', h'0203')"), bytes(1, 2, 3));
    assert.equal(value('(_ "a", "b")'), "ab");
    assert.deepEqual(value("[1]"), bytes(0x81, 1));
};

tests["texts are kept"] = () => {
    const text = "\ufeffa\u0000\u{1d11e}";
    const item = cbor.fromEdn(JSON.stringify(text));
    assert.equal(cbor.value(item), text);
    assert.equal(JSON.parse(cbor.toJson(item)), text);
    assert.equal(cbor.toDiag(cbor.fromEdn('"\ufeff"')), '"\ufeff"');
    assert.deepEqual(cbor.paths(cbor.fromEdn('{"a  b": ["c  d"]}')), [['"a  b"/0', '"c  d"']]);
};

async function all(stream) {
    const found = [];
    for await (const item of cbor.items(stream)) {
        found.push(cbor.toEdn(item));
    }
    return found;
}

/** The chunks of a stream of the web, in a browser that cannot iterate over one. */
function older(chunks) {
    const left = [...chunks];
    const state = { isFree: true };
    return {
        state,
        getReader: () => {
            state.isFree = false;
            return {
                read: async () => ({ done: left.length === 0, value: left.shift() }),
                releaseLock: () => {
                    state.isFree = true;
                },
            };
        },
    };
}

tests["streams"] = async () => {
    const chunks = [bytes(1, 0x82), bytes(), bytes(2), bytes(3, 0x61, 0x62)];
    const wanted = ["1", "[2, 3]", '"b"'];
    assert.deepEqual(await all(chunks), wanted);
    assert.deepEqual(await all(Readable.from(chunks.map((chunk) => Buffer.from(chunk)))), wanted);
    assert.deepEqual(await all(new Blob(chunks).stream()), wanted);
    const stream = older(chunks);
    assert.deepEqual(await all(stream), wanted);
    assert(stream.state.isFree);
    assert.deepEqual(await all([]), []);
    await assert.rejects(all(["01"]), TypeError);
    await assert.rejects(all(7), TypeError);
};

tests["many items in one chunk"] = async () => {
    let count = 0;
    for await (const item of cbor.items([new Uint8Array(200001).fill(0x20, 0, 200000).fill(0x81, 200000), bytes(7)])) {
        count += item.length;
    }
    assert.equal(count, 200002);
};

tests["streams that end within an item, or have none"] = async () => {
    await assert.rejects(all([bytes(1, 2, 0x82), bytes(3)]), { code: "CUT_SHORT", offset: 4, end: 4 });
    await assert.rejects(all([bytes(1, 2, 0x82), bytes(3, 0x1c)]), { code: "HEAD", offset: 4, end: 5, path: "1" });
};

tests["scanners do not disturb each other"] = () => {
    const [first, second] = [new cbor.Scanner(), new cbor.Scanner()];
    assert.equal(first.feed(bytes(0x82)), undefined);
    assert.equal(second.feed(bytes(0x19)), undefined);
    assert.equal(first.feed(bytes(1)), undefined);
    assert.equal(second.feed(bytes(1, 2, 3)), 3);
    assert.equal(first.feed(bytes(2, 3)), 3);
    assert.equal(first.feed(bytes(9)), 3);
};

tests["schemas stay"] = () => {
    const schemas = ["a = uint", "a = tstr"].map((text) => new cbor.Schema(text));
    assert.deepEqual(schemas.map((schema) => schema.check(bytes(1))?.found), [undefined, "1"]);
    assert.deepEqual(schemas.map((schema) => schema.check(bytes(0x61, 0x62))?.found), ['"b"', undefined]);
    assert.equal(new cbor.Schema("a = uint\nb = tstr", "b").check(bytes(1)).rule, "b");
};

tests["large inputs and outputs"] = () => {
    const text = "x".repeat(3 << 20);
    const item = cbor.fromEdn(JSON.stringify([text, text]));
    assert.equal(item.length, 1 + 2 * (5 + text.length));
    assert.equal(cbor.toJson(item), `["${text}", "${text}"]`);
    assert.equal(cbor.parts(cbor.fromEdn(`[${"7, ".repeat(9999)}7]`), "*").length, 10000);
};

tests["a call that the engine ended"] = () => {
    const before = cbor.toEdn(bytes(0x82, 1, 2));
    assert.throws(() => withLibrary((library) => {
        library.bytes(0, 1 << 16).fill(255);
        throw new WebAssembly.RuntimeError("unreachable");
    }), WebAssembly.RuntimeError);
    assert.equal(cbor.toEdn(bytes(0x82, 1, 2)), before);
};

tests["no memory"] = () => {
    const error = thrown(() => withLibrary((library) => library.rooms[0].reserve(2 ** 31)));
    assert.deepEqual([error.code, error.message], ["MEMORY", "out of memory"]);
    assert.equal(cbor.toEdn(bytes(1)), "1");
};

let failed = 0;
for (const [name, does] of Object.entries(tests)) {
    try {
        await does();
    } catch (error) {
        failed += 1;
        console.log(`${name}: ${error.stack}`);
    }
}
console.log(`library: ${Object.keys(tests).length} tests, ${failed} failed`);
process.exitCode = failed > 0 ? 1 : 0;
