"""Makes a crate of the Rust examples of doc comments and pages, a test of each.

    python3 checks/doc_examples.py FOLDER

writes its sources into the folder. An example is a block marked `rust` in a doc comment of a crate, or in a page of
docs/. It is the body of a test, which has `rt` and `alloc`; its `use` lines stand before the test. The tests of a crate
or a page are in a file of its name, each in a module named after what the comment is about.
"""
import pathlib
import re
import sys

from kit import CRATES, TOP, uses

BLOCK = re.compile(r"^```rust\n(.*?)^```$", re.DOTALL | re.MULTILINE)
COMMENT = re.compile(r"\s*(///|//!) ?(.*)")
ITEM = re.compile(r"\s*(?:pub(?:\([^)]*\))? )?(?:const )?(?:fn|struct|enum|trait) (\w+)")
USE = re.compile(r"^use [^;]+;\n", re.MULTILINE)
TEST = """
mod {name} {{
    use std::test::Fail;
{uses}
    #[test]
    fn example(rt: HostRuntime) -> Result<(), Fail> {{
        let alloc = rt.alloc();
{body}
        Ok(())
    }}
}}
"""


def comments(source):
    """The doc comments of a source file, each with the name of what it is about."""
    lines, kind = [], None
    for line in [*source.splitlines(), ""]:
        comment = COMMENT.match(line)
        if comment and comment[1] == kind:
            lines.append(comment[2])
            continue
        if lines:
            item = ITEM.match(line)
            yield "the_root" if kind == "//!" else item[1] if item else "item", "\n".join(lines) + "\n"
        lines, kind = ([comment[2]], comment[1]) if comment else ([], None)


def examples():
    """The examples of each crate and page that has some, each with a name."""
    found = {}
    for crate in uses():
        texts = [file.read_text() for file in sorted(CRATES.joinpath(crate, "src").rglob("*.rt"))]
        said = [about for text in texts for about in comments(text)]
        found[crate] = [(name, block) for name, text in said for block in BLOCK.findall(text)]
    for page in sorted(TOP.glob("docs/*.md")):
        found[page.stem.lower()] = [("example", block) for block in BLOCK.findall(page.read_text())]
    return {name: blocks for name, blocks in found.items() if blocks}


def indented(text, depth):
    return "".join(f"{' ' * depth}{line}\n" if line else "\n" for line in text.splitlines())


def module_name(name, taken):
    """A name of a module, with a number if it is taken."""
    name = "of_" + re.sub(r"(?<!^)(?=[A-Z])", "_", name).lower()
    taken[name] = taken.get(name, 0) + 1
    return name if taken[name] == 1 else f"{name}_{taken[name]}"


def tests_of(blocks):
    """The tests of the examples of a crate or a page."""
    taken = {}
    for name, block in blocks:
        imports, body = "".join(USE.findall(block)), USE.sub("", block)
        yield TEST.format(name=module_name(name, taken), uses=indented(imports, 4), body=indented(body, 8))


def write(folder):
    """Writes the sources of the crate; returns how many examples it has."""
    folder.mkdir(parents=True)
    found = examples()
    for name, blocks in found.items():
        text = f"//! The examples of `{name}`.\n" + "".join(tests_of(blocks))
        folder.joinpath(f"of_{name}.rt").write_text(text)
    modules = "".join(f"\n#[cfg(test)]\nmod of_{name};\n" for name in found)
    folder.joinpath("lib.rt").write_text("//! The examples of doc comments and pages.\n#![tactic(auto)]\n" + modules)
    return sum(map(len, found.values()))


if __name__ == "__main__":
    if len(sys.argv) != 2:
        sys.exit(__doc__)
    print(write(pathlib.Path(sys.argv[1])), "examples")
