#!/usr/bin/env python3
"""Keeps the module of a proved program as the toolchain hands it to LLVM, as text: what is inlined there, and what isn't.

    bench/module.py CRATE_FOLDER OUT.ll
    bench/unproved.py CRATE_FOLDER /tmp/none --check-attributes OUT.ll

The first proves the crate (the libraries below it have to stand, as behind `rt ci`) and compiles it with a copy of the toolchain's folder in
which `clang` is a wrapper that keeps its input. The second says of which functions the hints on inlining differ from those of the sources:
the toolchain drops `inline(always)` from what would grow very large, and says nothing.
"""
import os
import shutil
import subprocess
import sys
import tempfile

sys.path.insert(0, "/opt/rattle/bin")
import rtlib  # noqa: E402

TOOLCHAIN = f"{rtlib.KIT}/toolchain"
WRAPPER = """#!/bin/bash
for file in "$@"; do case "$file" in *.bc) cp "$file" {kept} ;; esac; done
exec {clang} "$@"
"""


def wrapped(folder):
    """A copy of the toolchain's folder whose clang keeps the module that it is given."""
    os.makedirs(f"{folder}/bin")
    os.symlink(f"{TOOLCHAIN}/lib", f"{folder}/lib")
    for name in os.listdir(f"{TOOLCHAIN}/bin"):
        if name != "clang":
            os.symlink(f"{TOOLCHAIN}/bin/{name}", f"{folder}/bin/{name}")
    with open(f"{folder}/bin/clang", "w", encoding="utf-8") as file:
        file.write(WRAPPER.format(kept=f"{folder}/module.bc", clang=f"{TOOLCHAIN}/bin/clang"))
    os.chmod(f"{folder}/bin/clang", 0o755)


def main():
    if len(sys.argv) != 3:
        sys.exit(__doc__)
    folder, out = os.path.abspath(sys.argv[1]), os.path.abspath(sys.argv[2])
    work = tempfile.mkdtemp()
    try:
        wrapped(f"{work}/toolchain")
        crate = rtlib.Crate(folder, rtlib.root_above(folder) or folder, {})
        words = [*crate.words([]), "--toolchain", f"{work}/toolchain", "--backend", "llvm", "-o", f"{work}/program.o"]
        subprocess.run([rtlib.RATTLE, "build", *words], cwd=folder, check=True, stdout=subprocess.DEVNULL)
        flags = ["-x", "ir", f"{work}/toolchain/module.bc", "-S", "-emit-llvm", "-Xclang", "-disable-llvm-passes", "-o", out]
        subprocess.run([f"{TOOLCHAIN}/bin/clang", *flags], check=True)
    finally:
        shutil.rmtree(work)


if __name__ == "__main__":
    main()
