#!/usr/bin/env python3
"""Prints what each wrong body of a crate costs to be refused, in seconds of the processor, and what refuses it.

    bench/edits.py [--from FOLDER] CRATE [WORD..]

The edits are those of the crate's must-fail/, or of FOLDER/CRATE, as bench/wrong has those that the gate doesn't try
(bench/wrong/README.md). Only edits whose names hold a WORD are tried, where words are given. The status is 1 where one isn't refused. The
crate has to be proved (`rt check` in its folder): each edit is tried over a copy of what that check kept, so the seconds are those of an
edit behind the first, without the whole proof that `rt ci` makes once. A line without an edit comes first: what a check costs of which
nothing changed.
"""
import argparse
import glob
import importlib.machinery
import importlib.util
import os
import re
import shutil
import subprocess
import sys
import tempfile

ROOT = os.path.dirname(os.path.dirname(os.path.abspath(__file__)))
RT = os.path.realpath(shutil.which("rt"))
sys.path.insert(0, os.path.dirname(RT))
import rtlib  # noqa: E402

loader = importlib.machinery.SourceFileLoader("rt", RT)
rt = importlib.util.module_from_spec(importlib.util.spec_from_loader("rt", loader))
loader.exec_module(rt)


def used():
    times = os.times()
    return times.children_user + times.children_system


def edits_in(folder, crate):
    """The edits of the folder's part for the crate, or of the crate's own must-fail/ where no folder is given."""
    return sorted(glob.glob(f"{folder}/{crate.name}/*.edit")) if folder else rt.edits_of(crate)[0]


def main():
    words = argparse.ArgumentParser(description="Tries the wrong bodies of a crate.")
    words.add_argument("--from", dest="folder", type=os.path.abspath)
    words.add_argument("crate")
    words.add_argument("words", nargs="*", metavar="WORD")
    asked = words.parse_args()
    os.chdir(ROOT)
    crate = next((it for it in rtlib.crates_below(ROOT) if it.name == asked.crate), None)
    if not crate:
        sys.exit(f"there is no crate {asked.crate}")
    edits = [it for it in edits_in(asked.folder, crate) if not asked.words or any(word in os.path.basename(it) for word in asked.words)]
    passed = False
    with tempfile.TemporaryDirectory(prefix="edits-", dir=f"{crate.folder}/out") as kept:
        for edit in [None, *edits]:
            texts, why = rt.read_edit(edit, crate.folder) if edit else ({}, None)
            if why:
                print(f"{os.path.basename(edit)}: {why}")
                passed = True
                continue
            shutil.rmtree(kept)
            subprocess.run(["cp", "-al", f"{crate.folder}/out/incremental", kept], check=True)
            began = used()
            ran = rt.checked(crate, texts, ["--jobs", "1"], kept)
            seconds = used() - began
            lines = [it.strip() for it in ran.stdout.split("\n") if re.search(r"^(note: )?\S+:\d+:\d+:|^fn \S+: (not proved|no proof)", it)]
            passed |= bool(edit) and not ran.returncode
            said = "proved" if not ran.returncode else "; ".join(it[:150] for it in lines[:2])
            print(f"{seconds:7.1f} {os.path.basename(edit) if edit else 'no edit'}: {said}", flush=True)
    sys.exit(passed)


if __name__ == "__main__":
    main()
