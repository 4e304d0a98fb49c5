"""The paths and the imports of a source file: turned to where the names are in the Rust crate, and sorted.

A name of std is Rust's, or the stand-in's; a crate is a module; a crate of the kit is upstream's, or an adapter. An
import that only clauses used is left out.
"""
from typing import NamedTuple

import known
from tokens import BLANK, DOC, GAP, SPACE, WORD, Refused, Token, after, before, closing, index_of, text_at

COLUMNS = 100


class Where(NamedTuple):
    """Where the names of a source file are.

    own is what `crate` is for it, library the path to the library's modules, and crates their names; traits has the
    methods of each trait, and macros the words of each macro, in all of these.
    """
    own: str
    library: str
    crates: frozenset
    traits: dict
    macros: dict


class Import(NamedTuple):
    """One name that is imported: the visibility, the path to it as it is in the Rust crate, and its other name."""
    visibility: str
    path: tuple
    alias: str
    line: int

    @property
    def name(self):
        """The name by which the file knows it."""
        last = self.path[-1]
        return self.alias or (self.path[-2] if last == "self" else last)


def turned(tokens, where):
    """The tokens of a file with its paths and imports turned."""
    modules = {text_at(tokens, after(tokens, at)) for at, it in enumerate(tokens) if it.text == "mod"}
    modules |= {text_at(tokens, after(tokens, at + 1)) for at, it in enumerate(tokens) if it.text == "macro_rules"}
    where = where._replace(crates=where.crates - modules)
    imported, rest = split(tokens, where, modules)
    modules = modules | {it.name for group in imported for it in group if it.path}
    check_members(rest, imported)
    rest = [turned_token(rest, at, where, modules) for at in range(len(rest))]
    used = words_alone(rest)
    used |= set().union(*(words for name, words in where.macros.items() if name in used))
    calls = methods_called(rest)
    kept = [[it for it in group if is_used(it, used, calls, where)] for group in imported]
    return put_back(rest, kept, prelude(rest, where))


# Reading imports

def split(tokens, where, modules):
    """The groups of imports of a file, and its other tokens; a token `use` stands for each group."""
    groups, rest, at, behind_group = [], [], 0, False
    while at < len(tokens):
        start = import_start(tokens, at)
        if start is None:
            is_near = tokens[at].kind == GAP or tokens[at].kind == SPACE and tokens[at].text.count("\n") < 2
            behind_group = behind_group and is_near
            rest.append(tokens[at])
            at += 1
            continue
        end = index_of(tokens, start, ";")
        if not behind_group:
            groups.append([])
            rest.append(Token("group", "", tokens[at].line))
        else:
            while rest[-1].kind in (SPACE, GAP):
                rest.pop()
        visibility = "".join(it.text for it in tokens[at:start] if it.kind not in BLANK)
        for path, alias in leaves([it for it in tokens[start + 1:end] if it.kind not in BLANK], ()):
            groups[-1].append(Import(visibility, target(path, where, modules, tokens[at].line), alias, tokens[at].line))
        at, behind_group = end + 1, True
    return groups, rest


def import_start(tokens, at):
    """The index of the `use` of an import that begins here, with its visibility; None if none does."""
    if tokens[at].kind != WORD or tokens[at].text not in ("use", "pub"):
        return None
    front = text_at(tokens, before(tokens, at))
    if tokens[at].text == "pub":
        at = after(tokens, at)
        if text_at(tokens, at) == "(":
            at = after(tokens, closing(tokens, at))
    if text_at(tokens, at) != "use":
        return None
    if front.endswith("]"):
        raise Refused(tokens[at].line, "an attribute of an import")
    return at


def leaves(tokens, front):
    """The paths of an import tree, each with its other name."""
    path = list(front)
    at = 0
    while at < len(tokens):
        text = tokens[at].text
        if text == "{":
            for part in parts(tokens[at + 1:closing(tokens, at)]):
                yield from leaves(part, tuple(path))
            return
        if text == "as":
            yield tuple(path), tokens[at + 1].text
            return
        if text != "::":
            path.append(text)
        at += 1
    yield tuple(path), ""


def parts(tokens):
    """The parts of a list, without the commas between them."""
    part, depth = [], 0
    for token in tokens:
        depth += {"{": 1, "}": -1}.get(token.text, 0)
        if token.text == "," and depth == 0:
            yield part
            part = []
        else:
            part.append(token)
    if part:
        yield part


# Where names are

def target(path, where, modules, line):
    """The path to a name in the Rust crate; () if only proofs use it."""
    first = path[0]
    if first == "std":
        return target_in_std(path, where, line)
    front = front_of(first, where, modules)
    if front is None:
        if first in ("self", "super") or first in modules or first[0].isupper():
            return path
        raise Refused(line, f"the crate {first}")
    return front + path[1:]


def front_of(first, where, modules):
    """What the first word of a path is in the Rust crate, as a path; None if it is no crate."""
    if first == "crate":
        return tuple(where.own.split("::"))
    if first in modules:
        return None
    if first in where.crates:
        return (where.library, first)
    if first in known.ADAPTERS:
        return (where.library, "adapters", first)
    return (first,) if first in known.UPSTREAM else None


def target_in_std(path, where, line):
    """The path to a name of std."""
    module = path[1] if len(path) > 1 else ""
    name = path[2] if len(path) > 2 else "self"
    if name in known.PROOF.get(module, "").split():
        return ()
    if name in known.STAND_IN.get(module, "").split():
        return (where.library, "rattle") + path[1:]
    if name in known.RUST.get(module, "").split():
        return path
    raise Refused(line, "the name " + "::".join(path) + " of std")


def check_members(tokens, groups):
    """Refuses names of a module of std, as in `fmt::Write`, that are not known."""
    modules = {it.name: it.path[-1] for group in groups for it in group
               if it.path[:1] == ("std",) and len(it.path) == 2 or it.path[1:2] == ("rattle",) and len(it.path) == 3}
    for at, token in enumerate(tokens):
        if token.kind != WORD or token.text not in modules or text_at(tokens, at + 1) != "::":
            continue
        module, name = modules[token.text], text_at(tokens, after(tokens, at + 1))
        names = known.RUST.get(module, "") + " " + known.STAND_IN.get(module, "")
        if text_at(tokens, before(tokens, at)) != "::" and name not in names.split():
            raise Refused(token.line, f"the name {module}::{name} of std")


def turned_token(tokens, at, where, modules):
    """The token at an index; where it begins a path to a crate, with the path to that."""
    token = tokens[at]
    if token.kind != WORD or text_at(tokens, after(tokens, at)) != "::":
        return token
    if text_at(tokens, before(tokens, at)) in ("::", "."):
        return token
    if token.text == "std":
        return turned_std(tokens, at, where)
    front = front_of(token.text, where, modules)
    return token._replace(text="::".join(front)) if front else token


def turned_std(tokens, at, where):
    """The token `std` of a path in code."""
    path = ["std"]
    while text_at(tokens, after(tokens, at)) == "::":
        at = after(tokens, after(tokens, at))
        path.append(tokens[at].text)
    turned_path = target_in_std(tuple(path), where, tokens[at].line)
    return tokens[at]._replace(text="::".join(turned_path[:len(turned_path) - len(path) + 1]))


# Which imports are used

def words_alone(tokens):
    """The names of a file that stand behind no other, as a variant does behind its enum, and define no variant."""
    defined = set(variants(tokens))
    return {token.text for at, token in enumerate(tokens)
            if token.kind == WORD and at not in defined and text_at(tokens, before(tokens, at)) not in ("::", ".")}


def variants(tokens):
    """The indices of the names of variants, where enums are defined."""
    for at, token in enumerate(tokens):
        if token.kind != WORD or token.text != "enum":
            continue
        at = index_of(tokens, at, "{")
        end, at = closing(tokens, at), after(tokens, at)
        while at < end:
            if tokens[at].kind == WORD:
                yield at
            at = after(tokens, closing(tokens, at) if tokens[at].text in ("(", "{", "[") else at)


def methods_called(tokens):
    """The names of the methods that a file calls."""
    return {token.text for at, token in enumerate(tokens)
            if token.kind == WORD and text_at(tokens, before(tokens, at)) in (".", "::")}


def is_used(it, used, calls, where):
    """Whether an import is used: by its name, or by a method of a trait."""
    if not it.path:
        return False
    if it.visibility or it.path[-1] == "*" or it.name in used:
        return True
    if it.name == "Write" and known.WRITTEN_BY_TRAIT & used:
        return True
    methods = known.TRAITS[it.name].split() if it.name in known.TRAITS else where.traits.get(it.name, ())
    return any(method in calls for method in methods)


def prelude(tokens, where):
    """The imports of what Rattle knows without one."""
    words = words_alone(tokens)
    found = [tuple(filter(None, (where.library, "rattle", module, name)))
             for name, module in known.PRELUDE.items() if name in words]
    for at, token in enumerate(tokens):
        if token.kind == WORD and token.text in known.STAND_IN_MACROS and text_at(tokens, at + 1) == "!":
            found.append((where.library, "rattle", token.text))
    calls = methods_called(tokens)
    for method, trait in [*known.METHODS.items(), ("expect", "ExpectWith")]:
        if method + "_with" in calls:
            found.append((where.library, "rattle", trait))
    return [Import("", path, "", 0) for path in sorted(set(found))]


# Writing imports

def put_back(tokens, groups, extra):
    """The tokens with their groups of imports, and the further ones at the top of the file."""
    known_names = {it.name for group in groups for it in group}
    extra = [it for it in extra if it.name not in known_names]
    out, groups, is_first = [], iter(groups), True
    for token in tokens:
        if token.kind != "group":
            out.append(token)
            continue
        indent = " " * indent_before(out)
        group = next(groups)
        if is_first and not indent:
            group, extra = group + extra, []
        is_first = False
        text = ("\n" + indent).join(lines_of(group, COLUMNS - len(indent), indent))
        out.append(Token(WORD, text, token.line) if text else Token(GAP, "", 0))
    return with_first_group(out, extra)


def indent_before(tokens):
    """How many blanks the line has on which the next token is."""
    return len(tokens[-1].text.rpartition("\n")[2]) if tokens and "\n" in tokens[-1].text else 0


def with_first_group(tokens, group):
    """The tokens of a file that has no imports at its top, with these behind its first comment."""
    if not group:
        return tokens
    at = 0
    while at < len(tokens) and (tokens[at].kind in (SPACE, GAP) or tokens[at].text.startswith("//!")):
        at += 1
    text = "\n".join(lines_of(group, COLUMNS, ""))
    front = [Token(SPACE, "\n", 0)] if any(token.kind == DOC for token in tokens[:at]) else []
    return tokens[:at] + front + [Token(WORD, text, 0), Token(SPACE, "\n\n", 0)] + tokens[at:]


def lines_of(group, columns, indent):
    """The imports of a group, a line or more for each module, in the order of rustfmt."""
    modules = {}
    for it in group:
        name = it.path[-1] + (f" as {it.alias}" if it.alias else "")
        modules.setdefault((it.visibility, it.path[:-1]), set()).add(name)
    found = []
    for (visibility, front), names in modules.items():
        names = sorted(names, key=segment_order)
        if names == ["self"]:
            front, names = front[:-1], [front[-1]]
        start = f"{visibility} use ".lstrip() + "".join(part + "::" for part in front)
        found.append((path_order(front, names), statement(start, names, columns, indent)))
    return [text for _, text in sorted(found)]


def statement(start, names, columns, indent):
    """One import of these names, over several lines if it is long."""
    if len(names) == 1:
        return f"{start}{names[0]};"
    line = f"{start}{{{', '.join(names)}}};"
    if len(line) <= columns:
        return line
    lines = [""]
    for name in names:
        if len(lines[-1]) + len(name) + 2 > columns - 4:
            lines.append("")
        lines[-1] += (" " if lines[-1] else "") + name + ","
    return f"{start}{{\n" + "".join(f"{indent}    {it}\n" for it in lines) + f"{indent}}};"


def segment_order(text):
    """The order of a part of a path: `self` and the like come first, and capitals before small letters."""
    return ({"self": 0, "super": 1, "crate": 2}.get(text, 3), text)


def path_order(front, names):
    """The order of an import among others."""
    last = (segment_order(names[0]),) if len(names) == 1 else ((9,),)
    return tuple(segment_order(part) for part in front) + last
