"""What a page of `cborcat -t html` does in a browser: point, keys, find, link, fold, copy, save."""

import os
import pathlib
import re
import tempfile
import time

from browser import Browser

UP, DOWN, LEFT, RIGHT = "\ue013", "\ue015", "\ue012", "\ue014"
ENTER, ESCAPE = "\ue007", "\ue00c"
# The least contrast of a text (WCAG 2.2, criterion 1.4.3).
CONTRAST = 4.5

# What is lit in the text and in the bytes, and what the foot says.
LIT = """return [".t .lit", ".h .lit"].map((cells) =>
    [...document.querySelectorAll(cells)].map((node) => node.textContent)).concat(
    document.getElementById("foot").textContent);"""

# The middle of the first element of a selector that has a text.
MIDDLE = """const [selector, text] = arguments;
    const node = [...document.querySelectorAll(selector)].find((node) => node.textContent.startsWith(text));
    node.scrollIntoView({block: "center"});
    const box = node.getClientRects()[0];
    return [box.left + box.width / 2, box.top + box.height / 2, box.left, box.width];"""

# What is copied of a selection between two nodes.
COPY = """const [from, to] = arguments;
    const nodes = [from, to].map((selector) => document.querySelectorAll(selector[0])[selector[1]]);
    const range = document.createRange();
    range.setStart(nodes[0].firstChild, 0);
    range.setEnd(nodes[1].firstChild, nodes[1].firstChild.length);
    getSelection().removeAllRanges();
    getSelection().addRange(range);
    const event = new ClipboardEvent("copy", {clipboardData: new DataTransfer(), bubbles: true, cancelable: true});
    document.dispatchEvent(event);
    return event.clipboardData.getData("text/plain");"""

# The colours of each text that is shown, and what is behind it, without doubles.
COLOURS = """const found = new Set();
    for (const node of document.querySelectorAll("header *, footer *, #lines *")) {
      const texts = [...node.childNodes].filter((child) => child.nodeType === 3 && child.textContent.trim());
      if (!texts.length || !node.offsetParent || node.closest("script, style")) continue;
      let behind = node;
      while (getComputedStyle(behind).backgroundColor === "rgba(0, 0, 0, 0)" && behind.parentElement) {
        behind = behind.parentElement;
      }
      found.add(`${getComputedStyle(node).color} on ${getComputedStyle(behind).backgroundColor}`);
    }
    return [...found];"""


def light_of(colour):
    """The relative luminance of a colour of CSS."""
    parts = [int(part) / 255 for part in re.findall(r"\d+", colour)[:3]]
    red, green, blue = [part / 12.92 if part <= 0.04045 else ((part + 0.055) / 1.055) ** 2.4 for part in parts]
    return 0.2126 * red + 0.7152 * green + 0.0722 * blue


def contrast(pair):
    """The contrast of two colours."""
    dark, light = sorted(light_of(colour) for colour in pair.split(" on "))
    return (light + 0.05) / (dark + 0.05)


def point(browser, selector, text, share=0.5):
    """Moves the mouse to an element, at this share of its width."""
    _, y, left, width = browser.run(MIDDLE, selector, text)
    browser.move(left + width * share, y)


def check_pointing(count, browser):
    same = count.same
    same("the foot", browser.run(LIT)[2], "Point at a byte or a value, or use the arrow keys.")
    point(browser, ".t .n", "1444064944")
    same("a value is pointed at", browser.run(LIT), [
        ["1444064944 /2015-10-05T17:09:04Z/"], ["1a 56 12 ae b0"], "2/@/488 (0x58), 5 bytes"])
    point(browser, ".h b", "1a 56 12 ae b0", 7.5 / 14)
    same("a byte is pointed at", browser.run(LIT), [
        ["1444064944 /2015-10-05T17:09:04Z/"], ["1a 56 12 ae b0"],
        "2/@/4byte 90 (0x5a) of the item at 88 (0x58), 5 bytes"])
    point(browser, ".t .s", '"erikw"')
    same("a text is pointed at", browser.run(LIT)[:2], [['"erikw"'], ["65", "65 72 69 6b 77"]])
    point(browser, ".t .c", "[")
    same("an array is pointed at", browser.run(LIT), [["[", "]"], ["84"], "/1 (0x1), 174 bytes"])
    point(browser, ".t .k", "7")
    same("a key is pointed at", browser.run(LIT)[2], "2/@ (key)105 (0x69), 1 byte")


def check_keys(count, browser):
    same = count.same
    browser.run("cborPage.refresh(); document.getElementById('lines').focus();")
    browser.keys(DOWN)
    same("the first item", browser.run(LIT)[2], "/0 (0x0), 175 bytes")
    browser.keys("j", DOWN, DOWN)
    same("three items on", browser.run(LIT)[2], "0/@3 (0x3), 3 bytes")
    browser.keys(UP, "k")
    same("two items back", browser.run(LIT)[2], "/1 (0x1), 174 bytes")
    browser.keys(LEFT)
    same("folded", browser.run("return document.querySelector('details').open"), False)
    same("folded, in the place of what is in it", browser.run(
        "return getComputedStyle(document.querySelector('summary .t'), '::after').content"), '" \u2026 4 ])"')
    browser.keys(DOWN)
    same("nothing is below what is folded", browser.run(LIT)[2], "/1 (0x1), 174 bytes")
    browser.keys("l")
    same("opened", browser.run("return document.querySelector('details').open"), True)
    browser.keys("l")
    same("into the array", browser.run(LIT)[2], "02 (0x2), 4 bytes")
    browser.keys("h")
    same("out of it", browser.run(LIT)[2], "/1 (0x1), 174 bytes")


def check_finding(count, browser):
    same = count.same
    hits = "return document.getElementById('hits').textContent"
    browser.keys("/")
    same("the slash", browser.run("return document.activeElement.id"), "find")
    browser.keys(*"EXAMPLE")
    same("a text", browser.run(hits), "1/2")
    same("its lines", browser.run("return document.querySelectorAll('.hit').length"), 2)
    same("its value", browser.run(LIT)[0], ['"coap://as.example.com"'])
    browser.keys(ENTER)
    same("the next", (browser.run(hits), browser.run(LIT)[0]), ("2/2", ['"coap://light.example.com"']))
    browser.keys(ESCAPE, "n")
    same("n", browser.run(hits), "1/2")
    browser.keys("N")
    same("N", browser.run(hits), "2/2")
    find = "const f = document.getElementById('find'); f.value = arguments[0]; f.dispatchEvent(new Event('input'));"
    browser.run("for (const fold of document.querySelectorAll('details')) fold.open = false;")
    browser.run(find, "0x5b")
    same("a byte", browser.run(LIT)[2], "2/@/4byte 91 (0x5b) of the item at 88 (0x58), 5 bytes")
    same("what is folded around it opens, and the unprotected header stays shut", browser.run(
        "return [...document.querySelectorAll('details:not([open]) summary .t')].map((cell) => cell.textContent.trim())"),
        ["/unprotected/ {"])
    browser.run(find, "@3")
    same("a byte in decimal", browser.run(LIT)[2], "0/@byte 3 (0x3) of the item at 3 (0x3), 3 bytes")
    browser.run(find, "2/@/2")
    same("a path", browser.run(LIT)[:2], [['"erikw"'], ["65", "65 72 69 6b 77"]])
    for nothing in ("nowhere", "0xfff"):
        browser.run(find, nothing)
        same("nothing is found", browser.run(hits), "none")
    browser.run(find, "")


def check_copying(count, browser, text):
    same = count.same
    lines = text.split("\n")
    same("a line is copied", browser.run(COPY, [".t", 1], [".t", 1]), lines[1][:len(lines[1]) - len(lines[1].lstrip())])
    same("lines are copied", browser.run(COPY, [".t", 6], [".t .s", 2]), "\n".join(lines[6:9])[:-1])
    same("bytes are copied", browser.run(COPY, [".h b", 0], [".h b", 3]), "d2 84 43 a1")


def check_saving(count, browser, folder, data):
    count.same("the bytes of the page", bytes(browser.run("return [...cborPage.bytes()]")), data)
    browser.click("#save")
    saved = pathlib.Path(folder, "cwt-signed.cbor")
    for _ in range(50):
        if saved.exists():
            break
        time.sleep(0.1)
    count.same("the file", saved.read_bytes() if saved.exists() else None, data)


def check_links(count, browser, address):
    browser.open("about:blank")
    browser.open(f"{address}#x5b")
    count.same("a link", browser.run(LIT)[2], "2/@/4byte 91 (0x5b) of the item at 88 (0x58), 5 bytes")
    browser.run("location.hash = '#x3'")
    time.sleep(0.2)
    count.same("another", browser.run(LIT)[2], "0/@byte 3 (0x3) of the item at 3 (0x3), 3 bytes")


def check_buttons(count, browser):
    browser.click("#bytes")
    count.same("no bytes", browser.run("return document.querySelector('.h').offsetParent"), None)
    browser.click("#bytes")
    browser.click("#fold")
    count.same("folded", browser.run("return document.querySelectorAll('details[open]').length"), 0)
    browser.click("#fold")
    count.same("open", browser.run("return document.querySelectorAll('details:not([open])').length"), 0)


def check_looks(count, browser, pictures, name):
    """The contrast of each text, also of what is lit, in light and in dark; and how the page looks."""
    browser.run("getSelection().removeAllRanges()")
    for scheme in ("light", "dark"):
        browser.scheme(scheme)
        for what in ("plain", "lit"):
            if what == "lit":
                browser.run("for (const node of document.querySelectorAll('.h > *, .t [data-s]'))"
                            " node.classList.add('lit')")
            found = {pair: round(contrast(pair), 2) for pair in browser.run(COLOURS)}
            low = {pair: found[pair] for pair in found if found[pair] < CONTRAST}
            count.same(f"contrast in {scheme}, {what}", low, {})
        browser.run("for (const node of document.querySelectorAll('.lit')) node.classList.remove('lit')")
        browser.run("cborPage.refresh(); cborPage.show(88);") if name == "cwt" else None
        for width, height in ((1200, 600), (500, 700)):
            browser.size(width, height)
            count.same(f"{width} pixels in {scheme}: nothing is cut", browser.run(
                "return document.documentElement.scrollWidth <= innerWidth"), True)
            if pictures:
                browser.picture(os.path.join(pictures, f"{name}-{scheme}-{width}.png"))
        browser.size(1200, 800)


def check(count, run, examples, pictures=None):
    """Checks a page of a token, and how a broken one looks. `pictures` is a folder for pictures, if they are wanted."""
    with tempfile.TemporaryDirectory() as folder:
        page = pathlib.Path(folder, "cwt-signed.html")
        page.write_text(run("-t", "html", str(examples / "cwt-signed.hex"))[0])
        broken = pathlib.Path(folder, "broken.html")
        digits = run("-t", "digits", str(examples / "cwt-signed.hex"))[0].strip()
        broken.write_text(run("-t", "html", "--partial", "-f", "hex", "-x", digits[:140] + "1f" + digits[142:])[0])
        item = bytes.fromhex(digits), run(str(examples / "cwt-signed.hex"))[0]
        check_pages(count, Browser(folder), (folder, page, broken), item, pictures)


def check_pages(count, browser, files, item, pictures):
    """The same of files that are there, and of the bytes and the text of the item."""
    folder, page, broken = files
    data, text = item
    try:
        browser.size(1200, 800)
        browser.requests()
        browser.open(page.as_uri())
        check_pointing(count, browser)
        check_keys(count, browser)
        check_finding(count, browser)
        check_copying(count, browser, text)
        check_saving(count, browser, folder, data)
        check_buttons(count, browser)
        check_looks(count, browser, pictures, "cwt")
        check_links(count, browser, page.as_uri())
        browser.open(broken.as_uri())
        check_looks(count, browser, pictures, "broken")
        count.same("messages on the console", browser.errors(), [])
        asked = {address for address in browser.requests() if not address.startswith(("file:", "blob:", "about:"))}
        count.same("requests", asked, set())
    finally:
        browser.close()
