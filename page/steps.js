// What page/check does in the page, in each browser: a step for each thing that the page promises. A step throws an
// error if something differs. What is expected is from RFC 8949, RFC 8392, the README and by hand.
"use strict";

const element = (id) => document.getElementById(id);
const wait = (milliseconds) => new Promise((done) => setTimeout(done, milliseconds));
const textOf = (selector) => [...element("lines").querySelectorAll(selector)].map((one) => one.textContent).join("\n");
const notation = () => element("lines").querySelector(".t") && textOf(".t");
const digits = () => textOf(".h").replace(/\s+/g, "");

function same(got, wanted) {
    if (JSON.stringify(got) !== JSON.stringify(wanted)) {
        throw new Error(`got ${JSON.stringify(got)}, wanted ${JSON.stringify(wanted)}`);
    }
}

/** Waits until something holds, and returns it. */
async function until(holds, seconds = 30) {
    const end = performance.now() + 1000 * seconds;
    while (performance.now() < end) {
        const found = holds();
        if (found) {
            return found;
        }
        await wait(5);
    }
    throw new Error(`not within ${seconds} s: ${holds}; said: ${element("said").textContent}; view: ${shortened()}`);
}

const shortened = () => (notation() ?? "none").slice(0, 300);

function type(id, text) {
    element(id).value = text;
    element(id).dispatchEvent(new Event("input", { bubbles: true }));
}

function choose(id, value) {
    element(id).value = value;
    element(id).dispatchEvent(new Event("change", { bubbles: true }));
}

/** Opens a file, as the button does. */
function open(name, bytes, id = "open") {
    const files = new DataTransfer();
    files.items.add(new File([bytes], name));
    element(id).files = files.files;
    element(id).dispatchEvent(new Event("change", { bubbles: true }));
}

/** Drops a file on the page. */
function drop(name, bytes) {
    const dataTransfer = new DataTransfer();
    dataTransfer.items.add(new File([bytes], name));
    element("lines").dispatchEvent(new DragEvent("drop", { dataTransfer, bubbles: true, cancelable: true }));
}

const bytesOf = (text) => Uint8Array.from(text.match(/../g) ?? [], (two) => parseInt(two, 16));

/** The longest time in which the page did nothing else, in milliseconds, while something is done. */
async function longestPause(does) {
    const { port1, port2 } = new MessageChannel();
    let [last, longest, isOn] = [performance.now(), 0, true];
    port1.onmessage = () => {
        const now = performance.now();
        longest = Math.max(longest, now - last);
        last = now;
        if (isOn) {
            port2.postMessage(0);
        }
    };
    port2.postMessage(0);
    await does();
    await wait(300);
    isOn = false;
    return longest;
}

/** A sequence of records of so many bytes, or a little less: {"a": 1000, "b": "hello"}. */
function records(size) {
    const record = bytesOf("a261611903e861626568656c6c6f");
    const whole = new Uint8Array(Math.floor(size / record.length) * record.length);
    for (let at = 0; at < whole.length; at += record.length) {
        whole.set(record, at);
    }
    return whole;
}

/** What each step begins with: the first tab, no type, no rules. */
async function begin() {
    element("type").value = "";
    element("rules").value = "";
    element("tab-lines").click();
    await until(() => !element("lines").hidden && notation());
}

const steps = {
    async "begins with an example"() {
        await until(() => notation()?.includes("/COSE_Sign1/ 18(["));
        same(element("start").hidden, true);
        same(digits().slice(0, 8), "d28443a1");
    },

    async "recognizes hex with comments, base 64, notation, JSON and bytes"() {
        const inputs = [
            ["82 01 # one\n02", "read as hex"],
            ["ggEC", "read as base 64"],
            ["[1, /two/ 2]", "read as notation"],
            ["[1,2]", "read as notation"],
        ];
        for (const [text, note] of inputs) {
            type("input", "");
            await until(() => element("lines").textContent === "");
            type("input", text);
            await until(() => digits() === "820102");
            same([element("input-note").textContent, notation().trim()], [note, "[1, 2]"]);
        }
        open("two.cbor", bytesOf("820102"));
        await until(() => element("input-note").textContent === "read as bytes");
        same(element("input").value, "82 01 02");
        drop("three.hex", new TextEncoder().encode("83 010203"));
        await until(() => digits() === "83010203");
        same(element("size").textContent, "three.hex, 4 bytes, 1 item");
    },

    async "shows what is typed at once"() {
        const text = '{"a": [1.5, 1_1]}';
        for (let length = 1; length <= text.length; length += 1) {
            type("input", text.slice(0, length));
        }
        await until(() => digits() === "a1616182f93e00190001");
        same(element("notation").value.trim(), text);
    },

    async "has tabs"() {
        type("input", '{"a": [1.5, h\'00ff\']}');
        for (const [tab, part] of [["dump", /f9 3e00 +# +float/], ["json", /^\{"a": ?\[1\.5, ?"AP8"\]\}\s*$/],
            ["hex", /^0000 {2}a1 61 61 82 f9 3e 00 42 00 ff {20}\.aa\.\.>\.B\.\.\n$/]]) {
            element(`tab-${tab}`).click();
            await until(() => part.test(element("other").textContent));
            same([element("lines").hidden, element("other").hidden], [true, false]);
        }
        element("tab-lines").click();
        await until(() => !element("lines").hidden && notation());
    },

    async "knows the types of --as"() {
        type("input", "{1: 4, -1: h'00'}");
        for (const option of element("types").options) {
            choose("type", option.value);
            await wait(30);
            same(element("said").textContent, "");
        }
        choose("type", "COSE_Key");
        await until(() => notation().includes("/kty/ 1: 4 /Symmetric/"));
        choose("type", "");
        await until(() => !notation().includes("/kty/"));
    },

    async "lets both sides be edited"() {
        type("notation", '{"x": [true, 1(0)]}');
        await until(() => element("input").value === "a1 61 78 82 f5 c1 00");
        same(digits(), "a1617882f5c100");
        type("input", "83 01 02 03");
        await until(() => element("notation").value.trim() === "[1, 2, 3]");
        type("notation", "1\n[2, 3]");
        await until(() => element("input").value === "01 82 02 03");
        same(element("size").textContent, "4 bytes, 2 items");
    },

    async "says what is wrong with a text, and where, and the last good view stays"() {
        type("notation", "[1, 2]");
        await until(() => digits() === "820102");
        type("notation", '[1,\n  "a": 2]');
        const wrong = await until(() => element("notation-wrong").textContent);
        same(/^line 2, column 6: .*go there {2}"a": 2\]\n {5}\^$/.test(wrong.replace(/\n/, "\n")), true);
        same([element("notation").getAttribute("aria-invalid"), digits()], ["true", "820102"]);
        element("notation-wrong").querySelector("button").click();
        same([document.activeElement.id, element("notation").selectionStart], ["notation", 9]);
        type("input", "82 01 0g");
        await until(() => element("input-wrong").textContent.includes("column 8"));
        type("input", "82 01 02");
        await until(() => element("input-wrong").textContent === "");
        same(element("input").hasAttribute("aria-invalid"), false);
    },

    async "shows a fault in bytes, and what is before it"() {
        type("input", "a1 61 6b 82 01 1f");
        const fault = await until(() => element("lines").querySelector(".f"));
        same([fault.dataset.s, fault.dataset.k], ["5", "k/1"]);
        same(/this major type has no indefinite length/.test(fault.textContent), true);
        same(notation().includes('"k": ['), true);
        same(digits(), "a1616b82011f");
        open("cut.cbor", bytesOf("8201"));
        await until(() => element("lines").querySelector(".f")?.textContent.includes("truncated"));
        same(element("size").textContent, "cut.cbor, 2 bytes, 0 items and a fault");
        element("tab-dump").click();
        await until(() => element("other").textContent.includes("truncated"));
        element("tab-lines").click();
        await until(() => !element("lines").hidden);
    },

    async "checks rules, and encodes so"() {
        type("input", "a2 61 62 01 61 61 02");
        choose("rules", "core");
        await until(() => element("said").textContent.startsWith("Not core: byte 4 (0x4): "));
        same(element("lines").querySelector(".violation").dataset.s, "4");
        element("encode").click();
        await until(() => digits() === "a2616102616201");
        await until(() => element("said").textContent === "It keeps the rules of core.");
        choose("rules", "ctap2");
        type("input", "c1 00");
        await until(() => element("said").textContent.startsWith("Not ctap2: byte 0 (0x0): "));
        element("encode").click();
        await until(() => element("said").textContent.startsWith("No encoding keeps these rules: "));
        choose("rules", "");
    },

    async "shows in a text where its items violate rules, and what is lost in JSON"() {
        choose("rules", "core");
        type("input", '{"b": 1,\n "a": 2}');
        const wrong = await until(() => element("input-wrong").textContent);
        same(/^line 2, column 2: not core: .*go there "a": 2\}\n \^$/.test(wrong), true);
        same([element("input-note").textContent, element("input").hasAttribute("aria-invalid")],
            ["read as notation", false]);
        same(element("said").textContent.startsWith("Not core: byte 4 (0x4): "), true);
        element("input-wrong").querySelector("button").click();
        same([document.activeElement.id, element("input").selectionStart], ["input", 10]);
        type("input", "a2 61 62 01 # b\n61 61 02");
        await until(() => element("input-wrong").textContent.startsWith("line 2, column 1: not core: "));
        type("notation", '{"b": 1, "a": 2}');
        await until(() => element("notation-wrong").textContent.startsWith("line 1, column 10: not core: "));
        same(element("input-wrong").textContent, "");
        open("two.cbor", bytesOf("a2616201616102"));
        await until(() => element("input-note").textContent === "read as bytes");
        same([element("input-wrong").textContent, element("notation-wrong").textContent], ["", ""]);
        open("two.json", new TextEncoder().encode('{"b": 1,\r\n "a": 2}'));
        await until(() => element("input-wrong").textContent.startsWith("line 2, column 2: not core: "));
        same(element("input-wrong").querySelector("button").hidden, false);
        choose("rules", "");
        element("tab-json").click();
        type("input", '{1: 2,\n "1": 3}');
        await until(() => element("input-wrong").textContent.startsWith("line 2, column 2: two keys of a map "));
        await until(() => element("other").textContent.includes("byte 3 (0x3)"));
        element("tab-lines").click();
        await until(() => !element("lines").hidden && element("input-wrong").textContent === "");
    },

    async "copies, and saves"() {
        let copied = null;
        const clipboard = { writeText: async (text) => (copied = text) };
        Object.defineProperty(navigator, "clipboard", { value: clipboard, configurable: true });
        type("input", '{"a": 1_1}');
        await until(() => digits() === "a16161190001");
        const wanted = {
            hex: "a16161190001", base64: "oWFhGQAB", edn: '{"a": 1_1}', json: '{"a": 1}',
            c: "static const unsigned char cbor[6] = {\n    0xa1, 0x61, 0x61, 0x19, 0x00, 0x01\n};\n",
        };
        for (const [form, text] of Object.entries(wanted)) {
            copied = null;
            choose("copied", form);
            element("copy").click();
            await until(() => copied !== null);
            same(copied, text);
        }
        let saved = null;
        const make = URL.createObjectURL;
        URL.createObjectURL = (blob) => {
            saved = blob;
            return make.call(URL, blob);
        };
        element("keep").click();
        URL.createObjectURL = make;
        same([...new Uint8Array(await saved.arrayBuffer())], [...bytesOf("a16161190001")]);
    },

    async "puts the bytes into a link"() {
        type("input", '["a", 1]');
        await until(() => digits() === "82616101");
        element("link").click();
        await until(() => location.hash === "#cbor=gmFhAQ");
        location.hash = "#cbor=gwECAw";
        await until(() => digits() === "83010203");
    },

    async "has examples"() {
        const parts = ["/COSE_Sign1/ 18([", '/iss/ 1: "coap://as.example.com"', '"authData"', '"event": "open"',
            "simple(255)"];
        for (const [number, part] of parts.entries()) {
            choose("example", String(number));
            await until(() => notation()?.includes(part));
            same([element("input-wrong").textContent, element("lines").querySelector(".f")], ["", null]);
        }
        same(element("example").options.length, parts.length + 1);
    },

    async "takes names of one's own"() {
        type("input", "1000({1: 2})");
        choose("type", "");
        await until(() => digits() === "d903e8a10102");
        drop("own.toml", new TextEncoder().encode("this is no TOML"));
        await until(() => element("said").textContent.startsWith("No view: "));
        drop("own.toml", new TextEncoder().encode(NAMES));
        await until(() => notation().includes("/Thing/ 1000({/one/ 1: 2})"));
        element("forget").click();
        await until(() => !notation().includes("/one/"));
    },

    async "names each thing that one can use"() {
        for (const one of document.querySelectorAll("button:not([hidden]), input, select, textarea, [role=tabpanel]")) {
            const label = one.getAttribute("aria-label") ?? one.getAttribute("aria-labelledby");
            const name = label ?? one.labels?.[0]?.textContent ?? one.textContent;
            same([one.id, Boolean(name.trim())], [one.id, true]);
        }
    },

    async "lights what is pointed at"() {
        type("input", '{"a": [1, 2]}');
        await until(() => digits() === "a16161820102");
        window.cborPage.show(4);
        await until(() => element("foot").textContent.includes("a/0"));
    },

    async "refuses what is too long"() {
        open("long.cbor", new Uint8Array(1048577));
        const wanted = "long.cbor has 1,048,577 bytes, and the page takes 1,048,576 bytes at most";
        await until(() => element("said").textContent.startsWith(wanted));
        same(digits(), "a16161820102");
    },
};

/** What is measured, in milliseconds. */
const measures = {
    /** From opening to the first view. */
    async first() {
        return performance.getEntriesByName("shown")[0].startTime;
    },

    /** From a key to the view, in a COSE message. */
    async key() {
        choose("example", "0");
        await until(() => notation()?.includes("/COSE_Sign1/"));
        const times = [];
        const text = element("notation").value;
        for (let round = 0; round < 60; round += 1) {
            const changed = new Promise((done) => addEventListener("shown", done, { once: true }));
            const begin = performance.now();
            type("notation", text.replace("'11'", `'${round}'`).replace("h'3131'", `h'${String(1000 + round)}'`));
            await changed;
            times.push(performance.now() - begin);
        }
        times.sort((one, other) => one - other);
        return [times[30], times[57]];
    },

    /** The longest pause while 1 MB is opened and shown, in each tab. */
    async pause() {
        const longest = [];
        for (const tab of ["lines", "dump", "json", "hex"]) {
            longest.push(await longestPause(async () => {
                element(`tab-${tab}`).click();
                open("records.cbor", records(1048576));
                await until(() => element("size").textContent.startsWith("records.cbor"), 240);
                scrollTo(0, document.body.scrollHeight);
                await wait(500);
            }));
            type("input", "1");
            await until(() => element("size").textContent === "1 byte, 1 item");
        }
        element("tab-lines").click();
        return longest;
    },
};
