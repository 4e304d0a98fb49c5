// The page: what is given, what the library answers, and what is shown of it. What the library knows, it is asked for:
// here are only texts, places and elements.

/** The most bytes of input. */
const MOST = 1 << 20;
const NONE = new Uint8Array(0);
const NEEDED = "Chrome 95, Firefox 113 and Safari 16.4 can.";
/** The words for what a file or a text was recognized as. */
const READ = { bytes: "bytes", hex: "hex", EDN: "notation", "base 64": "base 64" };

const element = (id) => document.getElementById(id);
const count = (number, what) => `${number.toLocaleString("en")} ${what}${number === 1 ? "" : "s"}`;
const hexed = (place) => `byte ${place} (0x${place.toString(16)})`;

const state = {
    given: { input: NONE, as: "any" }, // what was typed, pasted or opened
    from: "input", // the box whose text stays as it is: "input", "notation", or "" for a file
    name: "", // of the file
    bytes: NONE, // of the last answer that had some
    lines: NONE, // the view of them, in HTML
    lit: null, // the place of the violation
    names: NONE, // tables of names
    tab: "lines",
    roll: null,
    link: "", // the fragment that the page gave itself
};

// The worker, and the answers that it owes.
const owed = new Map();
const worker = new Worker(
    URL.createObjectURL(new Blob([element("worker").textContent], { type: "text/javascript" })),
);
worker.onmessage = ({ data }) => {
    if (data.ready || data.failed) {
        started(data);
    } else {
        owed.get(data.number)(data);
        owed.delete(data.number);
    }
};
worker.onerror = () => started({ failed: "its worker did not start" });

function started({ failed }) {
    if (failed) {
        element("start").textContent = `This browser cannot run the library: ${failed}. ${NEEDED}`;
    }
    element("start").hidden = !failed;
    document.documentElement.dataset.ready = failed ? "no" : "yes";
}

let asked = 0;

/** Asks the library for what is given, with changes; see work.js. */
function ask(changes) {
    const request = {
        ...state.given,
        type: utf8.encode(element("type").value),
        names: state.names,
        rules: element("rules").value,
        tab: state.tab,
        number: (asked += 1),
        ...changes,
    };
    return new Promise((answered) => {
        owed.set(request.number, answered);
        worker.postMessage(request);
    });
}

let isBusy = false;
let isLate = false;

/** Shows what is given now. Only one request is under way: a faster typist is shown the last text. */
async function refresh(changes = {}) {
    if (isBusy) {
        isLate = true;
        return;
    }
    isBusy = true;
    const isShort = state.given.input.length <= 3 * BOX;
    const answer = await ask({ notation: isShort && state.from !== "notation", ...changes });
    isBusy = false;
    if (!isLate) {
        showAnswer(answer);
    } else {
        isLate = false;
        refresh();
    }
}

const say = (text, ...more) => element("said").replaceChildren(text, ...more);

const input = new Box("input", () => typed("input", "any"));
const notation = new Box("notation", () => typed("notation", "notation"));

/** The box whose text was read last. */
const boxOfGiven = () => (state.from === "notation" ? notation : input);

function typed(from, as) {
    give({ input: utf8.encode((from === "input" ? input : notation).area.value), as }, from, "");
}

function tooLong(name, size) {
    const most = `the page takes ${count(MOST, "byte")} at most`;
    say(`${name || "The input"} has ${count(size, "byte")}, and ${most}. cborcat takes more.`);
}

/** Takes an input, unless it is too long. */
function give(given, from, name) {
    if (given.input.length > MOST) {
        tooLong(name, given.input.length);
        return;
    }
    say("");
    Object.assign(state, { given, from, name });
    refresh();
}

/** Shows an answer. Without bytes the last good view stays. */
function showAnswer(answer) {
    if (answer.stopped) {
        say(`The library stopped: ${answer.stopped}. A new instance of it is ready.`);
    } else if (!answer.bytes) {
        boxOfGiven().refuse(state.given.input, answer.fault);
        element("lines").dataset.stale = "yes";
    } else if (answer.refused) {
        say(`No view: ${answer.refused}.`);
    } else {
        delete element("lines").dataset.stale;
        state.bytes = answer.bytes;
        showBoxes(answer);
        showSize(answer);
        showTab(answer);
        showRules(answer);
        showInText(answer);
        performance.mark("shown");
        dispatchEvent(new Event("shown"));
    }
}

/** Writes the boxes whose text is not the one that was typed. */
function showBoxes({ bytes, form, notation: text }) {
    const long = `${count(bytes.length, "byte")}: too many to edit here.`;
    if (state.from === "notation") {
        input.show(bytes.length <= BOX ? spaced(bytes) : null, long);
    } else {
        notation.show(text && bytes.length <= BOX ? new TextDecoder().decode(text) : null, long);
    }
    if (state.from === "") {
        const isBytes = form === "bytes";
        const fits = bytes.length <= BOX && state.given.input.length <= 3 * BOX;
        input.show(fits ? (isBytes ? spaced(bytes) : textOf(state.given.input)) : null, long);
    }
    const read = state.from === "notation" ? "the bytes of the notation, in hex" : `read as ${READ[form]}`;
    input.clear(state.given.input.length ? read : "");
    notation.clear("");
}

function showSize({ bytes, count: items, broken }) {
    const parts = [state.name, count(bytes.length, "byte"), count(items, "item")].filter(Boolean);
    element("size").textContent = parts.join(", ") + (broken ? " and a fault" : "");
}

/** Shows what the chosen tab shows. */
function showTab({ shown, lost }) {
    const isLines = state.tab === "lines";
    const panel = element(isLines ? "lines" : "other");
    if (isLines) {
        state.lines = shown;
    }
    state.roll?.stop();
    element("lines").hidden = !isLines;
    element("other").hidden = isLines;
    const { scrollTop } = panel;
    state.roll = (isLines ? rollLines : state.tab === "hex" ? rollHex : rollText)(panel, shown);
    panel.scrollTop = state.from === "" ? 0 : scrollTop;
    if (lost) {
        const said = document.createElement("p");
        said.className = "f";
        said.textContent = lost.place === null ? lost.message : `${lost.message}, at ${hexed(lost.place)}`;
        panel.append(said);
    }
}

/** Says what is wrong with the bytes, or whether the chosen rules are kept; lights the first violation. */
function showRules({ violation, broken }) {
    const rules = element("rules").value;
    element("encode").disabled = !rules || broken;
    state.lit = violation?.place ?? null;
    if (broken) {
        say(`${broken.message} `, ...goThere(broken.place));
    }
    if (!rules || broken) {
        return;
    }
    if (!violation) {
        say(`It keeps the rules of ${rules}.`);
        return;
    }
    say(`Not ${rules}: ${hexed(violation.place)}: ${violation.message} `, ...goThere(violation.place));
    light(state.lit);
}

/** Shows in the text that was given where the faults of its bytes are, if it was text. */
function showInText({ violation, broken, lost }) {
    const rules = element("rules").value;
    const said = violation && { ...violation, message: `not ${rules}: ${violation.message}` };
    for (const fault of [lost ?? broken, said]) {
        if (typeof fault?.inText === "number") {
            boxOfGiven().point(state.given.input, fault.inText, fault.message);
        }
    }
}

/** What begins at a byte, in the part of the view that is there. */
const beginningAt = (place) => element("lines").querySelector(`[data-s="${place}"]`);

/** Lights a violation. */
function light(place) {
    beginningAt(place)?.classList.add("violation");
}

/** A button that leads to a byte of the view. */
function goThere(place) {
    if (place === null || state.tab !== "lines") {
        return [];
    }
    const button = document.createElement("button");
    button.textContent = "go there";
    button.addEventListener("click", () => showByte(place));
    return [button];
}

/** Shows a byte. If its line is not there yet, the view begins anew, near it. */
function showByte(place) {
    if (!beginningAt(place) && state.roll.at < state.roll.length) {
        state.roll.stop();
        state.roll = rollLines(element("lines"), state.lines, linePlace(state.lines, place));
    }
    light(state.lit);
    window.cborPage.show(place);
}
