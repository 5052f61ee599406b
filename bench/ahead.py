#!/usr/bin/env python3
"""Checks functions of a crate before all libraries below it are built: those that are built as libraries, the others as sources.

    python3 bench/ahead.py crates/CRATE --only FUNCTION [rattle's flags]

What lies below is loaded, not proved, so this is no verdict: `rt check` is, once the libraries stand. A law whose clause leads to a crate
with code that is a source is refused (`contract-cites-code`); its lemmas aren't, so a function with nothing to prove (`ensures { Nothing }`,
`Nothing = Unit {0}`) whose `Answers` names the last lemma has all of them checked.
"""

import os
import shutil
import subprocess
import sys

sys.path.insert(0, os.path.dirname(os.path.realpath(shutil.which("rt"))))
import rtlib  # noqa: E402


def main():
    if len(sys.argv) < 2:
        sys.exit(__doc__)
    folder, flags = os.path.abspath(sys.argv[1]), sys.argv[2:]
    crate = rtlib.Crate(folder, os.path.dirname(os.path.dirname(folder)), {})
    below, built = crate.below(), set()
    for it in below:
        if os.path.exists(it.rlib) and all(dep.name in built for dep in it.deps):
            built.add(it.name)
    sources = [it for it in below if it.name not in built]
    print("as sources:", *[it.name for it in sources], file=sys.stderr)
    words = ["--crate-name", crate.name, "src/lib.rt"]
    for name in sorted({"core", *crate.of_kit, *[name for it in sources for name in it.of_kit]}):
        words += ["--extern", f"{name}={rtlib.KIT}/rlibs/{name}.rlib"]
    words += ["-L", f"dependency={rtlib.KIT}/rlibs"]
    named = {dep.name for it in [crate, *sources] for dep in it.deps}
    for it in below:
        if it.name in built:
            words += ["--extern", f"{it.name}={it.rlib}"] if it.name in named else []
            words += ["-L", f"dependency={os.path.dirname(it.rlib)}"]
    for it in sources:
        uses = dict.fromkeys(["core", *it.of_kit, *[dep.name for dep in it.deps]])
        words += ["--lib", f"{it.name}:{','.join(uses)}={it.folder}/src/lib.rt"]
    words += ["--antt-project", f"{rtlib.KIT}/rattle/logic/antt-project.json", "--logic-built", f"{rtlib.KIT}/logic_built"]
    words += ["--links", f"{crate.name}=", "--jobs", "1"]
    sys.exit(subprocess.run([rtlib.RATTLE, "check", *words, *flags], cwd=folder).returncode)


main()
