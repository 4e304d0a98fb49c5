"""Passes over the tokens of a source file: each leaves out, or rewrites, one kind of form that Rust has otherwise.

`passed` runs them in order. What they leave out leaves a gap, which `layout` closes.
"""
import re

import known
from tokens import (BLANK, COMMENT, GAP, LIFETIME, MARK, SPACE, STRING, WORD, Refused, Token, after, before, closing,
                    index_of, is_outer_doc, text_at, tokens_of, words_in)

LOOPS = ("for", "loop", "while")


def passed(tokens, macros=frozenset()):
    """The tokens of a file after all passes. It may use these macros of its crate."""
    refuse_different(tokens)
    for one_pass in (attributes, proof_items, bounds, labels, formatters, methods, mains, tests):
        tokens = one_pass(tokens)
    check_macros(tokens, macros)
    return tokens


def gap():
    """The token that stands for what is left out."""
    return Token(GAP, "", 0)


def refuse_different(tokens):
    """Refuses forms that Rust and Rattle both accept, and run differently."""
    solid = [token for token in tokens if token.kind not in BLANK and token.kind != STRING]
    text = " ".join(token.text for token in solid)
    for pattern, what in known.DIFFERENT:
        match = re.search(pattern, text)
        if match:
            raise Refused(solid[text.count(" ", 0, match.start())].line, what)


def attributes(tokens):
    """Without attributes that only proofs read. Others have to be known."""
    out, at = [], 0
    while at < len(tokens):
        if tokens[at].kind != MARK or tokens[at].text != "#":
            out.append(tokens[at])
            at += 1
            continue
        open_at = index_of(tokens, at, "[")
        end = closing(tokens, open_at) + 1
        out += attribute(tokens[at:end], text_at(tokens, after(tokens, open_at)))
        at = end
    return out


def attribute(tokens, name):
    """An attribute as it is kept."""
    if name in known.PROOF_ATTRIBUTES:
        return [gap()]
    if name not in known.RUST_ATTRIBUTES:
        raise Refused(tokens[0].line, f"the attribute {name}")
    if name == "cfg" and words_in(tokens) != {"cfg", "test"}:
        raise Refused(tokens[0].line, "a cfg that is not cfg(test)")
    if name != "derive":
        return tokens
    names = [token.text for token in tokens if token.kind == WORD and token.text not in ("derive", "Drop")]
    unknown = set(names) - known.DERIVES
    if unknown:
        raise Refused(tokens[0].line, f"derive({', '.join(sorted(unknown))})")
    return tokens_of(f"#[derive({', '.join(names)})]") if names else [gap()]


def proof_items(tokens):
    """Without modules of proofs and `impl Model`."""
    out, at = [], 0
    while at < len(tokens):
        end = proof_item_end(tokens, at) if tokens[at].kind == WORD else None
        if end is None:
            out.append(tokens[at])
            at += 1
        else:
            take_back_front(out)
            out.append(gap())
            at = end
    return out


def proof_item_end(tokens, at):
    """The end of an item that only proofs read, if it begins here."""
    name = after(tokens, at)
    if tokens[at].text == "mod" and text_at(tokens, name) in known.PROOF_MODULES:
        return index_of(tokens, name, ";") + 1
    if tokens[at].text == "impl":
        body = index_of(tokens, at, "{", ";")
        head = [token.text for token in tokens[at:body] if token.kind not in BLANK]
        if "for" in head and head[head.index("for") - 1] == "Model":
            return closing(tokens, body) + 1
    return None


def take_back_front(out):
    """Takes back the documentation of an item that is left out, and its `pub`."""
    while out and (out[-1].kind in (SPACE, COMMENT, GAP) or is_outer_doc(out[-1])):
        out.pop()
    if out and out[-1].text == "pub":
        out.pop()
        take_back_front(out)


def bounds(tokens):
    """Without the bound `Drop`: each value of Rust can be dropped. As a bound of a trait it says that there is a size."""
    out, at = [], 0
    while at < len(tokens):
        if (tokens[at].kind, tokens[at].text) != (WORD, "Drop"):
            out.append(tokens[at])
            at += 1
            continue
        last, behind = before(out, len(out)), after(tokens, at)
        if is_supertrait(out):
            out.append(tokens[at]._replace(text="Sized"))
            at += 1
        elif text_at(out, last) in ("+", ":"):
            del out[last:]
            while out[-1].kind == SPACE:
                out.pop()
            at += 1
        elif text_at(tokens, behind) == "+":
            at = after(tokens, behind)
        else:
            raise Refused(tokens[at].line, "the bound Drop in this form")
    return out


def is_supertrait(tokens):
    """Whether tokens end in the head of a trait."""
    at = len(tokens) - 1
    while at >= 0 and tokens[at].text not in ("{", "}", ";", "trait"):
        at -= 1
    return text_at(tokens, at) == "trait"


def labels(tokens):
    """Without labels of loops that no `break` or `continue` names: only proofs do."""
    out, at = [], 0
    while at < len(tokens):
        colon = after(tokens, at)
        loop = after(tokens, colon)
        is_label = tokens[at].kind == LIFETIME and text_at(tokens, colon) == ":" and text_at(tokens, loop) in LOOPS
        if is_label and not is_named(tokens, loop, tokens[at].text):
            at = loop
        else:
            out.append(tokens[at])
            at += 1
    return out


def is_named(tokens, loop, label):
    """Whether the body of a loop names a label."""
    body = loop_body(tokens, loop)
    return any(token.kind == LIFETIME and token.text == label for token in tokens[loop:closing(tokens, body)])


def formatters(tokens):
    """`fn fmt<W: fmt::Write>(.., f: &mut Formatter<W>)` as Rust has it, without what is written to."""
    out, at = [], 0
    while at < len(tokens):
        out.append(tokens[at])
        if tokens[at].kind == WORD and tokens[at].text == "fn":
            generics = after(tokens, after(tokens, at))
            if text_at(tokens, generics) == "<" and formats(tokens, generics):
                out += tokens[at + 1:generics]
                at = index_of(tokens, generics, ">")
        elif tokens[at].text == "Formatter" and text_at(tokens, at + 1) == "<" and text_at(tokens, at + 2) == "W":
            out.append(Token(LIFETIME, "<'_>", tokens[at].line))
            at += 3
        at += 1
    return out


def formats(tokens, generics):
    """Whether a function with these generics takes a `Formatter<W>`. It may have no other generics."""
    open_at = index_of(tokens, generics, "(")
    taken = [it.text for it in tokens[open_at:closing(tokens, open_at)] if it.kind not in BLANK]
    takes = "Formatter < W >" in " ".join(taken)
    if takes and "," in [it.text for it in tokens[generics:index_of(tokens, generics, ">")]]:
        raise Refused(tokens[generics].line, "a Formatter<W> beside other generics")
    return takes


def methods(tokens):
    """Methods that take an allocator in Rattle alone: by the name that the stand-in has for them."""
    out = list(tokens)
    for at, token in enumerate(tokens):
        open_at = after(tokens, at)
        if token.kind != WORD or text_at(tokens, open_at) != "(":
            continue
        if text_at(tokens, before(tokens, at)) not in (".", "::"):
            continue
        first = text_at(tokens, after(tokens, open_at))
        if token.text == "expect" and first in ("rt", "&"):
            out[at] = token._replace(text="expect_with")
        elif token.text == "parse_ascii" or token.text in known.METHODS and takes_allocator(tokens, open_at):
            out[at] = token._replace(text=token.text + "_with")
    return out


def takes_allocator(tokens, open_at):
    """Whether the first argument of a call is an allocator: `alloc`, or a call or a field of that name."""
    end = closing(tokens, open_at)
    depth, words = 0, []
    for token in tokens[open_at + 1:end]:
        depth += {"(": 1, ")": -1}.get(token.text, 0)
        if token.text == "," and depth == 0:
            break
        if token.kind == WORD:
            words.append(token.text)
    return bool(words) and words[-1] == "alloc"


def mains(tokens):
    """`main` makes the runtime that Rattle passes to it."""
    for at, token in enumerate(tokens):
        if (token.kind, token.text) != (WORD, "fn") or text_at(tokens, after(tokens, at)) != "main":
            continue
        open_at = index_of(tokens, at, "(")
        end = closing(tokens, open_at)
        body = index_of(tokens, end, "{") + 1
        made = f"\n    let {text_at(tokens, after(tokens, open_at))} = HostRuntime::new();"
        return tokens[:open_at + 1] + tokens[end:body] + tokens_of(made) + tokens[body:]
    return tokens


def tests(tokens):
    """Tests that take the runtime: functions as they are, and at the end a line that makes tests of them."""
    out, names, at = [], [], 0
    while at < len(tokens):
        open_at = after(tokens, at)
        name = after(tokens, open_at)
        if tokens[at].text != "#" or text_at(tokens, open_at) != "[" or text_at(tokens, name) != "test":
            out.append(tokens[at])
            at += 1
            continue
        at = closing(tokens, open_at) + 1
        names.append(text_at(tokens, after(tokens, index_of(tokens, at, "fn"))))
        out.append(gap())
    if names:
        out += tokens_of("\n\ntests! {\n" + "".join(f"    {name}\n" for name in names) + "}")
    return out


def loop_body(tokens, at):
    """The index of the brace of the body of a loop."""
    body = index_of(tokens, at, "{")
    while text_at(tokens, after(tokens, closing(tokens, body))) == "{":
        body = after(tokens, closing(tokens, body))
    return body


def macro_names(tokens):
    """The macros that a file defines."""
    return {text_at(tokens, after(tokens, at + 1)) for at, it in enumerate(tokens) if it.text == "macro_rules"}


def check_macros(tokens, of_crate):
    """Refuses macros that are not known, but for those that the file imports and those of the crate."""
    own = macro_names(tokens) | of_crate
    imported = set()
    for at, token in enumerate(tokens):
        if (token.kind, token.text) == (WORD, "use"):
            imported |= words_in(tokens[at:index_of(tokens, at, ";")])
    for at, token in enumerate(tokens):
        if token.kind == WORD and text_at(tokens, at + 1) == "!" and text_at(tokens, at + 2) in ("(", "[", "{", " "):
            if token.text not in known.STAND_IN_MACROS | known.RUST_MACROS | own | imported:
                raise Refused(token.line, f"the macro {token.text}!")
