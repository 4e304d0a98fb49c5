// Long content, put into an element piece by piece: a screen at once, and more when one scrolls there.

/** How many bytes of HTML or text are put in at once. */
const PIECE = 1 << 15;

/** Content that is put into an element as far as somebody looks. */
class Roll {
    /**
     * `take` returns the piece that begins at a place, and where the next begins; `put` puts it into the body, which is
     * `this.body`. The first piece begins at `from`.
     */
    constructor(element, { length, from = 0, take, put }) {
        Object.assign(this, { length, at: from, take, put });
        this.body = document.createElement("div");
        this.end = document.createElement("p");
        this.end.className = "more";
        element.replaceChildren(this.body, this.end);
        this.watch = new IntersectionObserver((seen) => seen.some((entry) => entry.isIntersecting) && this.later());
        if (length > from && this.more()) {
            this.watch.observe(this.end);
        }
    }

    /** Puts the next piece in. Returns whether more follow. */
    more() {
        const { piece, next } = this.take(this.at);
        this.at = next;
        this.put(piece, this.body);
        const rest = Math.ceil((100 * (this.length - this.at)) / this.length);
        this.end.textContent = rest ? `${rest} % follow` : "";
        return rest > 0;
    }

    /** Puts pieces in, one in each frame, as long as their end is near. */
    later() {
        this.frame = requestAnimationFrame(() => {
            if (this.more() && this.end.getBoundingClientRect().top < 3 * innerHeight) {
                this.later();
            }
        });
    }

    stop() {
        cancelAnimationFrame(this.frame);
        this.watch.disconnect();
    }
}

/** Where the line of a text ends that has a place: behind its line feed. */
function lineEnd(bytes, place) {
    return bytes.indexOf(10, place) + 1 || bytes.length;
}

/** The same for a line of HTML: behind the tags that close it, and a summary. */
function markupEnd(bytes, place) {
    let end = lineEnd(bytes, place);
    for (const tag of ["</span>", "</summary>"]) {
        if (new TextDecoder().decode(bytes.subarray(end, end + tag.length)) === tag) {
            end += tag.length;
        }
    }
    return end;
}

/** The piece of whole lines that begins at a place, as text. */
function linesFrom(bytes, begin, endOf) {
    const next = endOf(bytes, Math.min(begin + PIECE, bytes.length) - 1);
    return { piece: new TextDecoder().decode(bytes.subarray(begin, next)), next };
}

/** Shows a text of many lines. */
function rollText(element, bytes) {
    return new Roll(element, {
        length: bytes.length,
        take: (at) => linesFrom(bytes, at, lineEnd),
        put: (text, body) => body.append(text),
    });
}

/**
 * Shows the lines of the library, which are HTML, from a place on. A fold may go on in the next piece. In the middle
 * the folds around the place are not made.
 */
function rollLines(element, bytes, from = 0) {
    const open = [];
    let late = null;
    const put = (html, body) => {
        for (const part of html.split(/(<details open>|<\/details>)/)) {
            if (part === "<details open>") {
                const fold = document.createElement("details");
                fold.open = true;
                (open.at(-1) ?? body).append(fold);
                open.push(fold);
            } else if (part === "</details>") {
                open.pop();
            } else {
                (open.at(-1) ?? body).insertAdjacentHTML("beforeend", part);
            }
        }
        clearTimeout(late);
        late = setTimeout(window.cborPage.refresh, 200);
    };
    const take = (at) => linesFrom(bytes, at, markupEnd);
    const roll = new Roll(element, { length: bytes.length, from, take, put });
    clearTimeout(late);
    window.cborPage.refresh();
    return roll;
}

/** Where the lines begin that have a byte: the offsets in them are in order. */
function linePlace(bytes, byte) {
    const offset = /<span class="l"><a class="o" id="x([0-9a-f]+)"/;
    let [low, high] = [0, bytes.length];
    while (high - low > PIECE) {
        const middle = (low + high) >> 1;
        const begin = markupEnd(bytes, middle);
        const first = offset.exec(linesFrom(bytes, begin, markupEnd).piece);
        if (first && parseInt(first[1], 16) <= byte) {
            low = begin;
        } else {
            high = middle;
        }
    }
    return low;
}

/** Shows bytes as digits: the offset, 16 bytes, and their ASCII. */
function rollHex(element, bytes) {
    const rows = Math.ceil(bytes.length / 16);
    const row = (at) => {
        const part = [...bytes.subarray(16 * at, 16 * at + 16)];
        const digits = part.map((byte) => byte.toString(16).padStart(2, "0")).join(" ");
        const text = part.map((byte) => (byte >= 32 && byte < 127 ? String.fromCharCode(byte) : ".")).join("");
        return `${(16 * at).toString(16).padStart(4, "0")}  ${digits.padEnd(48)} ${text}\n`;
    };
    const take = (at) => {
        const next = Math.min(at + 500, rows);
        return { piece: Array.from({ length: next - at }, (_, offset) => row(at + offset)).join(""), next };
    };
    return new Roll(element, { length: rows, take, put: (text, body) => body.append(text) });
}
