// The two boxes: the input, in any form, and the notation. Either can be edited, and the other follows.

/** How many bytes a box holds. More are shown in the view alone: a text box is slow then. */
const BOX = 1 << 15;

const utf8 = new TextEncoder();

/** The digits of bytes, with a blank between two. */
function spaced(bytes) {
    return Array.from(bytes, (byte) => byte.toString(16).padStart(2, "0")).join(" ");
}

/** The text of UTF-8 as a box has it: each of its lines ends in a line feed. */
function textOf(bytes) {
    return new TextDecoder("utf-8", { ignoreBOM: true }).decode(bytes).replace(/\r\n?/g, "\n");
}

/** A box of text, with what is wrong with it. */
class Box {
    constructor(name, edited) {
        this.area = document.getElementById(name);
        this.note = document.getElementById(`${name}-note`);
        this.wrong = document.getElementById(`${name}-wrong`);
        this.area.addEventListener("input", edited);
    }

    /** Shows a text, unless it is too long for a box. */
    show(text, why) {
        const fits = text !== null && text.length <= 3 * BOX;
        this.area.value = fits ? text : "";
        this.area.placeholder = fits ? "" : why;
        this.area.readOnly = !fits;
    }

    /** Says that the text is right. */
    clear(note) {
        this.note.textContent = note;
        this.wrong.replaceChildren();
        this.area.removeAttribute("aria-invalid");
    }

    /** Says why what was given was not read. */
    refuse(given, { message, place, read }) {
        this.clear("");
        this.point(given, place, `${read ? `no ${read}: ` : ""}${message}`);
        this.area.setAttribute("aria-invalid", "true");
    }

    /** Says something of a place in what was given: its line, with a caret below the place. */
    point(given, place, message) {
        const text = textOf(given);
        const at = place === null ? text.length : textOf(given.subarray(0, place)).length;
        const begin = text.lastIndexOf("\n", at - 1) + 1;
        const line = text.slice(0, at).split("\n").length;
        const from = Math.max(begin, at - 40);
        const shown = document.createElement("pre");
        const [start] = text.slice(from).split("\n", 1);
        shown.textContent = `${start.slice(0, 80)}\n${" ".repeat([...text.slice(from, at)].length)}^`;
        const go = document.createElement("button");
        go.textContent = "go there";
        go.hidden = this.area.value !== text;
        go.addEventListener("click", () => {
            this.area.focus();
            this.area.setSelectionRange(at, at);
        });
        const where = `line ${line}, column ${[...text.slice(begin, at)].length + 1}`;
        this.wrong.append(`${where}: ${message} `, go, shown);
    }
}
