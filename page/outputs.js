// What leaves the page: copies, files and links. None of it goes to a server.

/** How many characters a link may have; browsers and programs that pass it on take no more. */
const LINK = 30000;

function base64(bytes) {
    let text = "";
    for (let at = 0; at < bytes.length; at += 4096) {
        text += String.fromCharCode(...bytes.subarray(at, at + 4096));
    }
    return btoa(text);
}

/** Base 64 without the characters that mean something in a link. */
function base64url(bytes) {
    return base64(bytes).replaceAll("+", "-").replaceAll("/", "_").replaceAll("=", "");
}

/** The bytes in a link's fragment; null if it has none. */
function bytesOfLink(hash) {
    const found = /^#cbor=([\w-]*)$/.exec(hash);
    if (!found) {
        return null;
    }
    try {
        return Uint8Array.from(atob(found[1].replaceAll("-", "+").replaceAll("_", "/")), (one) => one.charCodeAt(0));
    } catch {
        return null;
    }
}

/** Bytes as an array of C, 12 in a row. */
function arrayOfC(bytes) {
    const rows = [];
    for (let at = 0; at < bytes.length; at += 12) {
        const row = Array.from(bytes.subarray(at, at + 12), (byte) => `0x${byte.toString(16).padStart(2, "0")}`);
        rows.push(`    ${row.join(", ")}`);
    }
    return `static const unsigned char cbor[${bytes.length}] = {\n${rows.join(",\n")}\n};\n`;
}

/** Puts a text into the clipboard. */
async function copy(text) {
    try {
        await navigator.clipboard.writeText(text);
    } catch {
        // A browser that lets no page do so lets it do what a key would.
        const area = document.createElement("textarea");
        area.value = text;
        document.body.append(area);
        area.select();
        document.execCommand("copy");
        area.remove();
    }
}

/** Saves bytes as a file. */
function save(bytes, name) {
    const link = document.createElement("a");
    link.href = URL.createObjectURL(new Blob([bytes], { type: "application/cbor" }));
    link.download = name;
    link.click();
    setTimeout(() => URL.revokeObjectURL(link.href), 1000);
}
