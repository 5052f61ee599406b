#!/usr/bin/env python3
"""Makes a clone in which `rt ci` proves libraries alone, and gives other clones what it proved.

    python3 bench/libraries.py strip DIR
    python3 bench/libraries.py give FROM TO [CRATE..]

strip takes the tests, programs, their words and wrong bodies out of a clone, so that `rt ci` there proves the libraries that all else
stands on first. Commit there before: it isn't to be committed from.

give hands the clone TO the libraries that stand in FROM (hard links, with the stamps by which `rt check` takes them), where their sources
and those of all crates below are the same in both; it may be called again while more come to stand. It says which crates differ.
"""

import functools
import importlib.machinery
import importlib.util
import os
import re
import shutil
import subprocess
import sys

NOT_LIBRARIES = ["rewriter_program", "inspect_program", "examples"]
PROGRAMS = re.compile(r"(_tests|_cli|_rows|_program|^rows)$")


def read(path, mode="r"):
    with open(path, mode) as file:
        return file.read()


def strip(folder):
    def goes(name):
        return name in NOT_LIBRARIES or bool(PROGRAMS.search(name))

    lines = read(f"{folder}/crates.txt").split("\n")
    kept = [it for it in lines if not (":" in it.partition("#")[0] and goes(it.split(":")[0].split()[0]))]
    with open(f"{folder}/crates.txt", "w") as file:
        file.write("\n".join(kept))
    for name in os.listdir(f"{folder}/crates"):
        if goes(name):
            shutil.rmtree(f"{folder}/crates/{name}")
            continue
        for part in ("must-fail", "tests"):
            shutil.rmtree(f"{folder}/crates/{name}/{part}", ignore_errors=True)


def kit():
    """rt's own module, with what it computes of a crate kept."""
    sys.argv = ["rt"]
    loader = importlib.machinery.SourceFileLoader("rtlib", "/opt/rattle/bin/rtlib.py")
    rt = importlib.util.module_from_spec(importlib.util.spec_from_loader("rtlib", loader))
    sys.modules["rtlib"] = rt
    loader.exec_module(rt)
    found = {}

    def below(crate):
        if crate.folder not in found:
            found[crate.folder] = list({it.folder: it for dep in crate.deps for it in [*dep.below(), dep]}.values())
        return found[crate.folder]

    rt.Crate.stamp, rt.Crate.below, rt.listed = functools.cache(rt.Crate.stamp), below, functools.cache(rt.listed)
    return rt


def sources(rt, folder):
    files = {os.path.relpath(it, folder): it for it in rt.files_of(folder)}
    return {it: path for it, path in files.items() if it.split("/")[0] not in ("must-fail", "tests")}


def same(rt, old, new, name):
    here, there = f"{old}/crates/{name}", f"{new}/crates/{name}"
    if not os.path.isdir(here) or rt.listed(old).get(here) != rt.listed(new)[there]:
        return False
    ours, theirs = sources(rt, here), sources(rt, there)
    return ours.keys() == theirs.keys() and all(read(ours[it], "rb") == read(theirs[it], "rb") for it in ours)


def stamped(crate):
    stamp = f"{crate.folder}/out/rlib/stamp"
    return os.path.isdir(f"{crate.folder}/out/rlib/{crate.name}.rlib") and os.path.isfile(stamp) and read(stamp) == crate.stamp()


def hand(crate, rlib):
    out = f"{crate.folder}/out/rlib"
    shutil.rmtree(out, ignore_errors=True)
    os.makedirs(out)
    subprocess.run(["cp", "-al", rlib, out], check=True)
    with open(f"{out}/stamp", "w") as file:
        file.write(crate.stamp())


def give(old, new, names):
    old, new = os.path.realpath(old), os.path.realpath(new)
    if old == new:
        sys.exit("a clone isn't given its own libraries")
    rt = kit()
    os.chdir(new)
    sys.setrecursionlimit(10000)
    known, good, given = {}, {}, 0
    for folder in rt.listed(new):
        if folder not in known:
            known[folder] = rt.Crate(folder, new, known)
        for it in [*known[folder].below(), known[folder]]:
            if it.folder in good:
                continue
            good[it.folder] = all(good[dep.folder] for dep in it.deps) and same(rt, old, new, it.name)
            rlib = f"{old}/crates/{it.name}/out/rlib/{it.name}.rlib"
            if good[it.folder] and it.makes_rlib() and os.path.isdir(rlib) and (not names or it.name in names):
                if not stamped(it):
                    hand(it, rlib)
                given += 1
    print(f"{given} stand; these differ, or stand on what does:", *(os.path.basename(it) for it in good if not good[it]))


def main(verb="", *words):
    if verb == "strip" and len(words) == 1:
        strip(words[0])
    elif verb == "give" and len(words) > 1:
        give(*words[:2], set(words[2:]))
    else:
        sys.exit(__doc__)


if __name__ == "__main__":
    main(*sys.argv[1:])
