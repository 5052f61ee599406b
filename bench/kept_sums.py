#!/usr/bin/env python3
"""Makes a copy of the kit's commands that keeps a crate's sum and what is below it, for work on high crates.

    python3 bench/kept_sums.py DIR        then DIR/bin/rt check, test, plant, must-fail ..

`rt` reads and hashes each library's files once for each path of crates.txt that leads to it (docs/GATE.md, *The toolchain's own time*), so that
a check of a high crate begins after minutes. In the copy a sum is kept for 20 seconds. All else is the kit's own, by links; the gate is `rt ci`.
"""

import os
import shutil
import sys

COPIED = ("rt", "rtlib.py", "rt-plant", "rt-plant-bodies", "rt-seed")
BELOW = """        found = []
        for dep in self.deps:
            found += [it for it in [*dep.below(), dep] if it not in found]
        return found
"""
KEPT_BELOW = """        if "_below" not in self.__dict__:
            found = {}
            for dep in self.deps:
                for it in [*dep.below(), dep]:
                    found.setdefault(id(it), it)
            self.__dict__["_below"] = list(found.values())
        return list(self.__dict__["_below"])
"""
STAMP = '''        """Returns a sum of all that the crate's rlib or program is made from."""
'''
KEPT_STAMP = f"""{STAMP}        import time as _time
        kept = self.__dict__.get("_stamp")
        if kept and _time.time() - kept[0] < 20:
            return kept[1]
        made = self.made_stamp()
        self.__dict__["_stamp"] = (_time.time(), made)
        return made

    def made_stamp(self):
"""


def main():
    if len(sys.argv) != 2:
        sys.exit(__doc__)
    kit, to = os.path.dirname(os.path.dirname(os.path.realpath(shutil.which("rt")))), sys.argv[1]
    os.makedirs(f"{to}/bin")
    for name in os.listdir(kit):
        if name != "bin":
            os.symlink(f"{kit}/{name}", f"{to}/{name}")
    for name in os.listdir(f"{kit}/bin"):
        if name in COPIED:
            shutil.copy(f"{kit}/bin/{name}", f"{to}/bin/{name}")
        else:
            os.symlink(f"{kit}/bin/{name}", f"{to}/bin/{name}")
    with open(f"{to}/bin/rtlib.py") as file:
        text = file.read()
    for old, new in ((BELOW, KEPT_BELOW), (STAMP, KEPT_STAMP)):
        if old not in text:
            sys.exit("this kit's rtlib.py is another: nothing has to be kept there, or by another change")
        text = text.replace(old, new)
    with open(f"{to}/bin/rtlib.py", "w") as file:
        file.write(text)


if __name__ == "__main__":
    main()
