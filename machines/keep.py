#!/usr/bin/env python3
"""Keeps the LLVM module of a program or of the library for C, as the kit compiles it for x86-64.

    machines/keep.py FOLDER CRATE..

The kit builds for few machines, and cannot link its C side for others. The module hardly depends on the machine, so
module.py makes one for another machine of it. For each CRATE the kit proves the crate, and a script in place of its
clang keeps the module, as FOLDER/CRATE.bc. What is built of it has to be the file in dist/, byte for byte: so the
module is the one that the gate's program or archive was compiled from.

Needs the kit, the libraries that `make gate` proved, Python 3 and its standard library only.
"""
import filecmp
import hashlib
import pathlib
import shutil
import subprocess
import sys

HERE = pathlib.Path(__file__).resolve().parent
sys.path.insert(0, str(HERE.parent / "checks"))

from kit import CRATES, DIST, PROGRESS, below, build_words, kit_folder, uses

TARGET = "x86_64-unknown-linux-gnu"
# What is called in place of clang. The folder stands in the text, because the kit's compiler passes no environment.
KEEPER = """#!/bin/sh
# Keeps the module, and compiles it.
for word in "$@"; do
    case $word in *.bc) cp "$word" '{kept}' ;; esac
done
exec '{clang}' "$@"
"""


def run(words, folder=HERE):
    """Runs a command, and ends with its status if it fails."""
    status = subprocess.run([str(word) for word in words], cwd=folder).returncode
    if status:
        sys.exit(status)


def check_declarations(kit):
    """Ends if the kit's declarations are not those that the C files here meet."""
    for line in HERE.joinpath("kit.sha256").read_text().splitlines():
        wanted, name = line.split()
        file = kit / "rattle" / name
        if not file.exists() or hashlib.sha256(file.read_bytes()).hexdigest() != wanted:
            sys.exit(f"{file} is not the one that the C files of machines/ were written for. Compare each function "
                     "with its declaration there, and then write the new sum into machines/kit.sha256")


def check_libraries(crates):
    """Ends if a library that the gate leaves is missing."""
    used = uses()
    needed = set().union(*(below(crate, used) for crate in crates))
    lost = sorted(name for name in needed if not CRATES.joinpath(name, f"out/rlib/{name}.rlib").exists())
    if lost:
        sys.exit(f"no proved library of {' '.join(lost)}: run make gate first")


def toolchain_in(folder, kit, kept):
    """Makes a toolchain whose clang keeps its input."""
    shutil.rmtree(folder, ignore_errors=True)
    folder.joinpath("bin").mkdir(parents=True)
    folder.joinpath("lib").symlink_to(kit / "toolchain/lib")
    for tool in sorted(kit.joinpath("toolchain/bin").iterdir()):
        if tool.name != "clang":
            folder.joinpath("bin", tool.name).symlink_to(tool)
    keeper = folder / "bin/clang"
    keeper.write_text(KEEPER.format(kept=kept, clang=kit / "toolchain/bin/clang"))
    keeper.chmod(0o755)
    return folder


def compare(built, gated):
    """Ends if what was built is not what the gate left."""
    if not gated.exists():
        print(f"note: no {gated}: {built.name} was compared with none")
    elif not filecmp.cmp(built, gated, shallow=False):
        sys.exit(f"{built} is not {gated}: one of them is older than the sources")
    else:
        print(f"{built.name}: the same file as {gated}")


def keep(crate, folder, kit):
    """Builds a program or the archive of a library, and keeps its module."""
    is_program = CRATES.joinpath(crate, "src/main.rt").exists()
    module, built = folder / f"{crate}.bc", folder / (f"{crate}.o" if is_program else f"lib{crate}.a")
    toolchain = toolchain_in(folder / f"{crate}.toolchain", kit, module)
    print(f"{crate}: proving it, and keeping its module", flush=True)
    run([PROGRESS, *build_words(crate, built, toolchain)], CRATES / crate)
    if not is_program:
        compare(built, DIST / built.name)
        return
    program = folder / crate
    run([kit / "bin/rattle-link", "--target", TARGET, "--toolchain", kit / "toolchain", "-o", program, built,
         kit / "c/libos_c.a", kit / "c/liblibc_c.a"])
    compare(program, DIST / "bin" / crate)


def main(folder, crates):
    kit = kit_folder()
    check_libraries(crates)
    folder.mkdir(parents=True, exist_ok=True)
    for crate in crates:
        keep(crate, folder, kit)


if __name__ == "__main__":
    if len(sys.argv) < 3:
        sys.exit(__doc__)
    main(pathlib.Path(sys.argv[1]).resolve(), sys.argv[2:])
