"""Writes the crates of the repository as one Rust crate: `write_crate`.

A library becomes a module of src/lib.rs; a program becomes src/bin/NAME, and tests become tests/NAME. Files of modules
that only proofs read are not written.
"""
import pathlib

import examples
import exports
import imports
import layout
import passes
from tokens import WORD, Refused, after, closing, index_of, text_at, tokens_of, words_in

HERE = pathlib.Path(__file__).resolve().parent
TOP = HERE.parent.parent
NAME = "semphluk"


class Crate:
    """A crate of the repository: its name, what it becomes, and the folders of its sources."""

    def __init__(self, name, what, folders):
        self.name = name
        self.what = what
        self.folders = folders

    @property
    def target(self):
        """The folder of its files in the Rust crate."""
        return {"program": "src/bin/", "tests": "tests/"}.get(self.what, "src/") + self.name

    @property
    def is_module(self):
        """Whether it is a module of the library."""
        return self.what in ("library", "exports")

    @property
    def root(self):
        """The name of the file that its first file becomes."""
        return "mod.rs" if self.is_module else "main.rs"

    def relative(self, path):
        """The path of a source file below its folder, without its ending."""
        return next(path.relative_to(folder) for folder in self.folders if path.is_relative_to(folder)).with_suffix("")

    def sources(self):
        """Its source files. A file of a later folder stands in place of the one of an earlier folder."""
        paths = [path for folder in self.folders for path in sorted(folder.rglob("*")) if path.suffix in (".rt", ".rs")]
        return sorted({self.relative(path): path for path in paths}.values())


def crates_of(top, table):
    """The crates that go into the Rust crate, by crates.txt and the table."""
    listed = {}
    for line in table.read_text(encoding="utf-8").splitlines():
        words = line.partition("#")[0].split()
        if words:
            listed[words[0]] = words[1:]
    below = [line.split(":")[0].split()[0] for line in (top / "crates.txt").read_text(encoding="utf-8").splitlines()
             if ":" in line.partition("#")[0]]
    found = []
    for name in [*below, *(name for name in listed if name not in below)]:
        what, *folders = listed.get(name, ["library"])
        if what != "none":
            found.append(Crate(name, what, [top / folder for folder in folders or [f"crates/{name}/src"]]))
    return found


class Files:
    """The files of one crate: their tokens, and which modules each has."""

    def __init__(self, crate):
        self.crate = crate
        read = {path: refusing(path, tokens_of, path.read_text(encoding="utf-8")) for path in crate.sources()}
        self.exported = {}
        if crate.what == "exports":
            self.exported, read = read, {path: exports.plain(tokens) for path, tokens in read.items()}
        macros = frozenset().union(*map(passes.macro_names, read.values()))
        self.tokens = {path: refusing(path, passes.passed, tokens, macros) for path, tokens in read.items()}

    def module(self, path):
        """The module that a file is, as a path."""
        parts = self.crate.relative(path).parts
        return () if parts in (("lib",), ("main",)) else parts[:-1] if parts[-1] == "mod" else parts

    def reached(self):
        """The files that are modules of the crate, from its root on."""
        by_module = {self.module(path): path for path in self.tokens}
        found, rest = [], [()]
        while rest:
            module = rest.pop()
            if module not in by_module:
                raise SystemExit(f"extract: {self.crate.folders[0]}: no file for the module {'::'.join(module)}")
            found.append(by_module[module])
            rest += [module + (name,) for name in children(self.tokens[by_module[module]])]
        return sorted(found)

    def traits(self):
        """The traits that the crate defines, each with its methods."""
        return {name: methods for path in self.reached() for name, methods in traits_of(self.tokens[path])}

    def macros(self):
        """The macros that the crate defines, each with the words of its text."""
        return {name: words for path in self.reached() for name, words in macros_of(self.tokens[path])}


def children(tokens):
    """The modules that a file says are files of their own."""
    for at, token in enumerate(tokens):
        name = after(tokens, at)
        if token.kind == WORD and token.text == "mod" and text_at(tokens, after(tokens, name)) == ";":
            yield tokens[name].text


def traits_of(tokens):
    """The traits of a file, each with the names of its methods."""
    for at, token in enumerate(tokens):
        if token.kind == WORD and token.text == "trait":
            body = index_of(tokens, at, "{")
            inside = tokens[body:closing(tokens, body)]
            yield tokens[after(tokens, at)].text, {
                text_at(inside, after(inside, index)) for index, it in enumerate(inside) if it.text == "fn"}


def macros_of(tokens):
    """The macros of a file, each with the words of its text."""
    for at, token in enumerate(tokens):
        if token.kind == WORD and token.text == "macro_rules":
            body = index_of(tokens, at, "{")
            yield tokens[after(tokens, at + 1)].text, words_in(tokens[body:closing(tokens, body)])


def refusing(path, work, *arguments):
    """What work gives. A form that it refuses is reported with its file and line, and ends the extraction."""
    try:
        return work(*arguments)
    except Refused as refused:
        raise SystemExit(f"extract: {path}:{refused.line}: {refused.text}") from None


def write_crate(out, top=TOP, table=HERE / "sources.txt"):
    """Writes the Rust crate to a folder, and returns how many files it has."""
    crates = [Files(crate) for crate in crates_of(top, table)]
    traits = {name: methods for files in crates for name, methods in files.traits().items()}
    macros = {name: words for files in crates for name, words in files.macros().items()}
    names = frozenset(files.crate.name for files in crates if files.crate.is_module)
    written = support(top)
    for files in crates:
        is_library = files.crate.is_module
        where = imports.Where(f"crate::{files.crate.name}" if is_library else "crate",
                              "crate" if is_library else NAME, names, traits, macros)
        for path in files.reached():
            turned = refusing(path, imports.turned, files.tokens[path], where)
            turned = refusing(path, examples.doc_tests, turned, where)
            written[target_of(files, path)] = layout.text_of(turned)
    written["src/capi.rs"] = exports.c_calls([
        ("::".join([f"crate::{files.crate.name}", *files.module(path)]), tokens)
        for files in crates for path, tokens in sorted(files.exported.items())])
    written["src/lib.rs"] = root(top, where)
    replace(out, written)
    return len(written)


def target_of(files, path):
    """Where a source file goes in the Rust crate."""
    parts = files.crate.relative(path).parts
    name = files.crate.root if parts in (("lib",), ("main",)) else "/".join(parts) + ".rs"
    return f"{files.crate.target}/{name}"


def support(top):
    """The files that are not extracted: the stand-in of std, the adapters, the calls for Rust, Cargo's files and the
    licence."""
    found = {}
    for folder in (HERE / "support", HERE / "api"):
        for path in sorted(folder.rglob("*.rs")):
            found[f"src/{path.relative_to(folder)}"] = path.read_text(encoding="utf-8")
    version = (top / "VERSION").read_text(encoding="utf-8").strip()
    manifest = (HERE / "Cargo.toml.in").read_text(encoding="utf-8")
    found["Cargo.toml"] = manifest.replace("@VERSION@", version)
    found["LICENSE"] = (top / "LICENSE").read_text(encoding="utf-8")
    return found


def root(top, where):
    """The text of src/lib.rs: the modules, and the pages whose examples are tests."""
    text = (HERE / "lib.rs.in").read_text(encoding="utf-8")
    modules = "".join(f"pub mod {name};\n" for name in sorted(where.crates))
    return text.replace("@MODULES@\n", modules).replace("@PAGES@\n", examples.pages(top, where))


def replace(out, written):
    """Writes the files, and removes other sources that an earlier run left. Files that are the same are not touched."""
    for folder in ("src", "tests"):
        for path in sorted(out.glob(f"{folder}/**/*.rs")):
            if str(path.relative_to(out)) not in written:
                path.unlink()
    for name, text in written.items():
        path = out / name
        path.parent.mkdir(parents=True, exist_ok=True)
        if not path.exists() or path.read_text(encoding="utf-8") != text:
            path.write_text(text, encoding="utf-8")
