"""Calls the kit's compiler on one crate, over the libraries that the gate proved and left: what `rt` does not do."""
import pathlib
import subprocess

TOP = pathlib.Path(__file__).resolve().parent.parent
CRATES, DIST = TOP / "crates", TOP / "dist"
PROGRESS = TOP / "checks" / "progress"
# Says that the libraries in the crates' out/ are those of a gate that passed, and when it began.
PROVED = DIST / "proved"


def kit_folder():
    """Where the kit is."""
    said = subprocess.run(["rt", "doc"], check=True, capture_output=True, text=True).stdout
    return pathlib.Path(said.strip()).parent


def uses():
    """What each crate stands on, by crates.txt."""
    lines = (line.partition("#")[0].partition(":") for line in TOP.joinpath("crates.txt").read_text().splitlines())
    return {name.split()[0]: names.split() for name, colon, names in lines if colon}


def below(crate, used):
    """The crates of this repository that a crate stands on, and those below them."""
    found = {name for name in used[crate] if name in used}
    return found.union(*(below(name, used) for name in found))


def has_stamp(crate):
    """Whether the library in the crate's out/ is one of `rt check`: those of the gate have no stamp."""
    return CRATES.joinpath(crate, "out/rlib/stamp").exists()


def build_words(crate, output, toolchain=None, target=None):
    """The command that proves a program or a static library over the libraries that the gate left, and compiles it: for
    x86-64, or with the toolchain of another target. It is run in the crate's folder."""
    kit, used = kit_folder(), uses()
    is_program = CRATES.joinpath(crate, "src/main.rt").exists()
    words = [kit / "bin/rattle", "build", "--crate-name", crate]
    words += ["src/main.rt"] if is_program else ["src/lib.rt", "--crate-type", "staticlib"]
    for name in ["std", *used[crate]]:
        folder = CRATES / name / "out/rlib" if name in used else kit / "rlibs"
        words += ["--extern", f"{name}={folder / name}.rlib"]
    for folder in [kit / "rlibs", *(CRATES / name / "out/rlib" for name in sorted(below(crate, used)))]:
        words += ["-L", f"dependency={folder}"]
    words += ["--antt-project", kit / "rattle/logic/antt-project.json", "--logic-built", kit / "logic_built"]
    words += ["--links", f"{crate}=", "--toolchain", toolchain or kit / "toolchain", "--backend", "llvm"]
    words += ["--target", target] if target else []
    return [*words, "--jobs", "2", "-o", output]
