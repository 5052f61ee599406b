#!/usr/bin/env python3
"""again.py PROGRAM FOLDER [--jobs N]: what a built program writes for each file below FOLDER is read again, and written again the same.

Each file is rewritten by four sets of options, and the output once more by the same options: it has to be accepted, and its bytes have to
stay. Says which don't, and ends with status 1 where there are some. Files that are refused at first are counted.
"""

import argparse
import concurrent.futures as futures
import filecmp
import os
import subprocess
import sys
import tempfile

OPTIONS = ["", "--no-names", "--no-producers", "--no-names --no-producers"]


def run(program, options, old, new):
    return subprocess.run([program, *options.split(), old, new], capture_output=True, timeout=120)


def again(program, path, options):
    with tempfile.TemporaryDirectory() as folder:
        once, twice = f"{folder}/once", f"{folder}/twice"
        if run(program, options, path, once).returncode == 1:
            return "refused"
        second = run(program, options, once, twice)
        if second.returncode:
            return f"{path} [{options}]: not read again: {second.stderr.decode(errors='replace').strip()}"
        return "same" if filecmp.cmp(once, twice, shallow=False) else f"{path} [{options}]: other bytes"


def main():
    words = argparse.ArgumentParser(description=__doc__, formatter_class=argparse.RawDescriptionHelpFormatter)
    words.add_argument("program")
    words.add_argument("folder")
    words.add_argument("--jobs", type=int, default=os.cpu_count())
    given = words.parse_args()
    program = os.path.abspath(given.program)
    files = sorted(os.path.join(at, name) for at, _, names in os.walk(given.folder) for name in names)
    with futures.ThreadPoolExecutor(given.jobs) as pool:
        told = list(pool.map(lambda job: again(program, *job), [(path, options) for path in files for options in OPTIONS]))
    other = [it for it in told if it not in ("same", "refused")]
    print(*other, sep="\n", end="\n" if other else "")
    print(f"{told.count('same')} same, {told.count('refused')} refused, {len(other)} differ")
    sys.exit(bool(other))


if __name__ == "__main__":
    main()
