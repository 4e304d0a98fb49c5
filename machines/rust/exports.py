"""The library for C: what it exports becomes plain functions of Rust, and `src/capi.rs` has the same calls for C.

A call of the library for C takes an allocator, slices and references. To C a slice is a pointer and a length, and the
allocator is no argument. The kit's compiler does so by itself; here each call gets a function around it.
"""
import re
from typing import NamedTuple

from tokens import BLANK, MARK, STRING, WORD, Refused, after, closing, index_of, text_at, tokens_of

HEAD = '''\
//! The calls of the library for C, as `cbor_diag.h` declares them. The header says what a caller has to keep to: a
//! pointer leads to as many elements as the length behind it says, and to memory of its own if the call writes to it.
#![allow(clippy::missing_safety_doc)]

use crate::rattle::alloc::Global;

/// What a pointer and a length stand for. There is nothing to read behind a length of 0, and the pointer may be null.
unsafe fn slice<'a, T>(start: *const T, length: usize) -> &'a [T] {
    if length == 0 { &[] } else { unsafe { std::slice::from_raw_parts(start, length) } }
}

/// The same for memory that the call writes to.
unsafe fn room<'a, T>(start: *mut T, length: usize) -> &'a mut [T] {
    if length == 0 { &mut [] } else { unsafe { std::slice::from_raw_parts_mut(start, length) } }
}
'''


class Export(NamedTuple):
    """An exported function: its name, whether it is unsafe, its arguments with their types, and what it returns."""
    name: str
    is_unsafe: bool
    arguments: list
    returns: str


def plain(tokens):
    """Without `extern "C"` and the attribute that exports a function. The modules of a root are public."""
    out, at = [], 0
    while at < len(tokens):
        token = tokens[at]
        if token.kind == WORD and token.text == "extern" and tokens[after(tokens, at)].kind == STRING:
            at = after(tokens, after(tokens, at))
        elif is_export_mark(tokens, at):
            at = closing(tokens, index_of(tokens, at, "[")) + 2
        else:
            if token.text == "mod" and text_at(tokens, after(tokens, after(tokens, at))) == ";":
                out += tokens_of("pub ")
            out.append(token)
            at += 1
    return out


def is_export_mark(tokens, at):
    """Whether `#[unsafe(no_mangle)]` is here."""
    if (tokens[at].kind, tokens[at].text) != (MARK, "#"):
        return False
    end = closing(tokens, index_of(tokens, at, "["))
    return "".join(it.text for it in tokens[at:end + 1] if it.kind not in BLANK) == "#[unsafe(no_mangle)]"


def exports_of(tokens):
    """The functions that a file exports."""
    for at, token in enumerate(tokens):
        if token.kind != WORD or token.text != "extern" or tokens[after(tokens, at)].text != '"C"':
            continue
        name = after(tokens, index_of(tokens, at, "fn"))
        open_at = index_of(tokens, name, "(")
        end = closing(tokens, open_at)
        body = index_of(tokens, end, "{")
        before = [it.text for it in tokens[:at] if it.kind not in BLANK][-1]
        yield Export(tokens[name].text, before == "unsafe", arguments_of(tokens[open_at + 1:end]),
                     solid(tokens[end + 1:body]).removeprefix("->"))


def arguments_of(tokens):
    """The arguments of a function, each as its name and its type."""
    texts = " ".join(it.text for it in tokens if it.kind not in BLANK).split(",")
    return [tuple(re.sub(r"([&*]mut)", r"\1 ", part.replace(" ", "")) for part in text.split(":", 1))
            for text in texts if text.strip()]


def solid(tokens):
    """The text of tokens without what is blank."""
    return "".join(it.text for it in tokens if it.kind not in BLANK)


def for_c(export, module):
    """The function around an exported one, by which C calls it."""
    taken, given = [], []
    for name, kind in export.arguments:
        takes, gives = argument_for_c(name, kind, module)
        taken += takes
        given.append(gives)
    returns = f" -> {export.returns}" if export.returns else ""
    call = f"{module}::{export.name}({', '.join(given)})"
    head = f"pub unsafe extern \"C\" fn {export.name}("
    arguments = "".join(f"\n    {one}," for one in taken) + "\n" if taken else ""
    body = call if call.endswith("()") else f"unsafe {{ {call} }}"
    return f"\n#[unsafe(no_mangle)]\n{head}{arguments}){returns} {{\n    {body}\n}}\n"


def argument_for_c(name, kind, module):
    """What C passes for an argument, and what of it the function takes."""
    if kind == "Global":
        return [], "Global"
    if kind in ("u32", "u64", "usize"):
        return [f"{name}: {kind}"], name
    if kind == "&[u8]":
        return [f"{name}: *const u8", f"{name}_length: usize"], f"slice({name}, {name}_length)"
    if kind.startswith("&mut ["):
        element = in_module(kind[6:-1], module)
        return [f"{name}: *mut {element}", f"{name}_length: usize"], f"room({name}, {name}_length)"
    if kind.startswith("&mut "):
        return [f"{name}: *mut {in_module(kind[5:], module)}"], f"&mut *{name}"
    if kind.startswith("*mut "):
        return [f"{name}: *mut {in_module(kind[5:], module)}"], name
    raise Refused(0, f"an exported function that takes {name}: {kind}")


def in_module(kind, module):
    """The path of a type of a module."""
    return kind if kind.islower() else f"{module}::{kind}"


def c_calls(files):
    """The text of src/capi.rs: all exported functions, by their modules."""
    return HEAD + "".join(for_c(export, module) for module, tokens in files for export in exports_of(tokens))
