"""The examples of doc comments and of pages, as doc tests of the Rust crate.

An example uses `rt` and `alloc` as a test of Rattle has them, and `?`. Hidden lines make a test of it that has both.
"""
import re

import imports
import layout
import passes
from tokens import DOC, SPACE, Refused, Token, tokens_of

NAME = "semphluk"

BEGIN = [f"# {NAME}::rattle::test::run(|rt| -> Result<(), {NAME}::rattle::test::Fail> {{", "# let alloc = rt.alloc();"]
END = ["# Ok(())", "# });"]


def doc_tests(tokens, where):
    """The tokens of a file with the examples of its doc comments as doc tests."""
    out, at = [], 0
    while at < len(tokens):
        token = tokens[at]
        if token.kind != DOC or token.text[3:].strip() != "```rust":
            out.append(linked(token, where) if token.kind == DOC else token)
            at += 1
            continue
        end = at + 1
        while tokens[end].kind in (DOC, SPACE) and tokens[end].text[3:].strip() != "```":
            end += 1
        code = [it.text[4:] for it in tokens[at + 1:end] if it.kind == DOC]
        break_text = tokens[at + 1].text
        for line in ["```", *BEGIN, *example(code, where, token.line), *END]:
            out += [Token(DOC, f"{token.text[:3]} {line}".rstrip(), token.line), Token(SPACE, break_text, token.line)]
        at = end
    return out


def linked(token, where):
    """A line of a doc comment whose links lead to where the names are."""
    text = re.sub(r"(?<=\]: )crate::|(?<=\]\()crate::|(?<=\[`)crate::", where.own + "::", token.text)
    if where.library == "crate":
        names = "|".join(sorted(where.crates))
        text = re.sub(rf"(?:(?<=\]: )|(?<=\]\()|(?<=\[`))({names})::", r"crate::\1::", text)
    return token._replace(text=text)


def example(lines, where, line):
    """The lines of an example with its paths and imports as in the Rust crate."""
    try:
        tokens = imports.turned(passes.passed(tokens_of("\n".join(lines))), for_users(where))
    except Refused as refused:
        raise Refused(line + refused.line, f"in an example: {refused.text}") from None
    return layout.text_of(tokens).rstrip("\n").split("\n")


def for_users(where):
    """Where names are for an example: it is outside of the crate."""
    return where._replace(own=NAME, library=NAME)


def pages(top, where):
    """An item for each page that has examples, which has them as doc tests."""
    items = []
    for path in sorted(top.glob("docs/*.md")):
        text, name = path.read_text(encoding="utf-8"), path.relative_to(top)
        if "```rust\n" not in text:
            continue
        comment = [f"The examples of {name}."]
        for match in re.finditer(r"^```rust\n(.*?)^```$", text, re.DOTALL | re.MULTILINE):
            line = text.count("\n", 0, match.start()) + 1
            try:
                code = example(match[1].split("\n"), where, line)
            except Refused as refused:
                raise SystemExit(f"extract: {path}:{refused.line}: {refused.text}") from None
            comment += ["", "```", *BEGIN, *code, *END, "```"]
        word = path.stem.capitalize()
        items.append("".join(f"/// {it}".rstrip() + "\n" for it in comment) + f"#[cfg(doctest)]\npub struct {word};\n")
    return "\n".join(items)
