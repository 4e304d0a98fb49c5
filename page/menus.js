// The tabs, the menus, files that are opened and dropped, and what the page begins with.

const examples = JSON.parse(element("examples").textContent);

/** Whether bytes are text: UTF-8 without a zero byte. */
function isText(bytes) {
    try {
        return !new TextDecoder("utf-8", { fatal: true }).decode(bytes).includes("\0");
    } catch {
        return false;
    }
}

/** Takes the bytes of a file. Those of a text are recognized as what is pasted is, and others may be broken. */
function giveFile(bytes, name) {
    give({ input: bytes, as: isText(bytes) ? "any" : "file" }, "", name);
}

async function openFile(file) {
    if (!file) {
        return;
    }
    if (file.name.endsWith(".toml")) {
        openNames(file);
    } else if (file.size > MOST) {
        tooLong(file.name, file.size);
    } else {
        giveFile(new Uint8Array(await file.arrayBuffer()), file.name);
    }
}

async function openNames(file) {
    state.names = new Uint8Array(await file.arrayBuffer());
    element("forget").textContent = `without ${file.name}`;
    element("forget").hidden = false;
    refresh();
}

function showExample(number) {
    const { name, text, bytes } = examples[number];
    giveFile(bytes ? Uint8Array.from(atob(bytes), (one) => one.charCodeAt(0)) : utf8.encode(text), name);
}

function choose(tab) {
    for (const button of document.querySelectorAll("[role=tab]")) {
        const isChosen = button.dataset.tab === tab;
        button.setAttribute("aria-selected", String(isChosen));
        button.tabIndex = isChosen ? 0 : -1;
        if (isChosen) {
            element("other").setAttribute("aria-labelledby", button.id);
        }
    }
    document.body.dataset.tab = tab;
    state.tab = tab;
    refresh();
}

const tabs = [...document.querySelectorAll("[role=tab]")];
for (const [number, tab] of tabs.entries()) {
    tab.addEventListener("click", () => choose(tab.dataset.tab));
    tab.addEventListener("keydown", (event) => {
        const step = { ArrowRight: 1, ArrowLeft: -1 }[event.key];
        if (step) {
            const next = tabs.at((number + step) % tabs.length);
            next.focus();
            choose(next.dataset.tab);
            event.preventDefault();
            event.stopPropagation();
        }
    });
}

const on = (id, event, does) => element(id).addEventListener(event, does);

on("type", "change", () => refresh());
on("rules", "change", () => {
    say("");
    refresh();
});
on("forget", "click", () => {
    state.names = NONE;
    element("forget").hidden = true;
    refresh();
});
for (const id of ["open", "names"]) {
    on(id, "change", ({ target }) => {
        openFile(target.files[0]);
        target.value = "";
    });
}
on("example", "change", ({ target }) => {
    if (target.value) {
        showExample(Number(target.value));
    }
    target.value = "";
});

on("encode", "click", async () => {
    const answer = await ask({ encode: true });
    if (answer.unencodable) {
        say(`No encoding keeps these rules: ${answer.unencodable.message} `, ...goThere(answer.unencodable.place));
        boxOfGiven().wrong.replaceChildren();
        showInText({ violation: answer.unencodable });
    } else if (answer.bytes) {
        give({ input: answer.bytes, as: "bytes" }, "", state.name);
    }
});

/** The text that is copied: digits here, and what is notation from the library. */
async function textToCopy(form) {
    const { bytes } = state;
    const made = {
        hex: () => spaced(bytes).replaceAll(" ", ""),
        base64: () => base64(bytes),
        c: () => arrayOfC(bytes),
    }[form];
    if (made) {
        return made();
    }
    const { shown, lost } = await ask({ input: bytes, as: "bytes", tab: form });
    return lost ? null : new TextDecoder().decode(shown).trimEnd();
}

on("copy", "click", async () => {
    const form = element("copied").value;
    const text = await textToCopy(form);
    if (text === null) {
        say("Nothing was copied: the tab JSON says why.");
    } else {
        await copy(text);
        say(`${count(text.length, "character")} copied.`);
    }
});

on("keep", "click", () => save(state.bytes, `${state.name.replace(/\.\w+$/, "") || "item"}.cbor`));

on("link", "click", async () => {
    const fragment = `#cbor=${base64url(state.bytes)}`;
    if (fragment.length > LINK) {
        say(`No link: ${count(state.bytes.length, "byte")} are too many for one. Save the bytes instead.`);
        return;
    }
    state.link = fragment;
    location.hash = fragment;
    await copy(location.href);
    say("The link is copied. Its part behind # has the bytes, and a browser sends that to no server.");
});

/** Takes what a link holds; returns whether it holds something. */
function giveLink() {
    const bytes = bytesOfLink(location.hash);
    if (bytes) {
        give({ input: bytes, as: "bytes" }, "", "");
    }
    return bytes !== null;
}

// An offset leads to its byte; the link of the page stays.
on("lines", "click", (event) => {
    const offset = event.target.closest("a.o");
    if (offset) {
        event.preventDefault();
        showByte(parseInt(offset.id.slice(1), 16));
    }
});

// A long text does not go through the box: it would be slow.
input.area.addEventListener("paste", (event) => {
    const text = event.clipboardData.getData("text/plain");
    if (text.length > 3 * BOX) {
        event.preventDefault();
        giveFile(utf8.encode(text), "");
    }
});

addEventListener("dragover", (event) => {
    event.preventDefault();
    document.body.dataset.over = "yes";
});
addEventListener("dragleave", () => delete document.body.dataset.over);
addEventListener("drop", (event) => {
    event.preventDefault();
    delete document.body.dataset.over;
    const [file] = event.dataTransfer.files;
    const text = event.dataTransfer.getData("text/plain");
    if (file) {
        openFile(file);
    } else if (text) {
        giveFile(utf8.encode(text), "");
    }
});
addEventListener("hashchange", () => location.hash !== state.link && giveLink());

for (const [number, { name }] of examples.entries()) {
    element("example").append(new Option(name, String(number)));
}
document.body.dataset.tab = "lines";
worker.postMessage({ module: element("module").textContent });
if (!giveLink()) {
    showExample(0);
}
