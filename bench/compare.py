#!/usr/bin/env python3
"""Times the program against wasm-opt and wasm-strip on large files made of real ones, and prints a table of times, memory and what is written.

    bench/compare.py [--program PROGRAM] [--rounds N] FILE TIMES [FILE TIMES ..]

Of each FILE two files are made for each of TIMES / 2 and TIMES (`bench/repeated.py`): one with all functions exported, so that all are kept, and one in which what
the first copy doesn't reach is dropped. A time is the least of the rounds, of the processor and, behind a slash, by the clock; memory is the most that was resident; the last column is the
factor by which our time grew as the file doubled. The program is `wasm_rewriter` as `bin/` has it proved, or another build of it. binaryen and wabt are installed where they are missing.
"""
import argparse
import os
import shutil
import subprocess
import sys
import tempfile
import time

ROOT = os.path.dirname(os.path.dirname(os.path.abspath(__file__)))
PROGRAM = f"{ROOT}/out/proved/wasm_rewriter"
PACKAGES = {"wasm-opt": "binaryen", "wasm-strip": "wabt"}


def install():
    missing = [package for tool, package in PACKAGES.items() if not shutil.which(tool)]
    if not missing:
        return
    print(f"installing {' '.join(missing)}", file=sys.stderr)
    # A package list that is old or missing is fetched and the installation tried again.
    for words in (["install"], ["update"], ["install"]):
        asked = [*words, "-y", *(missing if words == ["install"] else [])]
        done = subprocess.run(["apt-get", *asked], stdout=subprocess.DEVNULL, stderr=subprocess.DEVNULL)
        if words == ["install"] and done.returncode == 0:
            return
    sys.exit(f"{' '.join(missing)} could not be installed")


# What bin/run.sh sets: the C library asks for large pages.
LARGE_PAGES = {"GLIBC_TUNABLES": "glibc.malloc.hugetlb=1"}
TOUCH = """
import mmap, sys
size = int(sys.argv[1]) << 20
pages = mmap.mmap(-1, size, flags=mmap.MAP_PRIVATE | mmap.MAP_ANONYMOUS)
pages.madvise(mmap.MADV_HUGEPAGE)
pages[::4096] = bytes(size >> 12)
"""


def back(mebibytes=1536):
    """Touches so much memory and gives it back, so that pages that a program gets next are at hand: some hosts take those that a virtual
    machine hasn't used for two seconds, and to bring one back costs seven times what a new page costs (bench/pages.c). It does so in a
    process of its own, as what this one has resident counts as its children's too."""
    subprocess.run([sys.executable, "-c", TOUCH, str(mebibytes)], check=True)


def measured(words, settings=None):
    """The seconds by the clock and of the processor, and the bytes of memory, that a command takes."""
    began = time.monotonic()
    process = subprocess.Popen(words, stdout=subprocess.DEVNULL, stderr=subprocess.PIPE, env={**os.environ, **(settings or {})})
    said = process.stderr.read()
    _, status, usage = os.wait4(process.pid, 0)
    took = time.monotonic() - began
    if status:
        sys.exit(f"{' '.join(words)} failed: {said.decode(errors='replace')[-400:]}")
    return took, usage.ru_utime + usage.ru_stime, usage.ru_maxrss * 1024


def best(command, rounds):
    runs = []
    for _ in range(rounds):
        words = command()
        back()
        runs.append(measured(words, LARGE_PAGES))
    clocks, processors, memories = zip(*runs)
    return min(clocks), min(processors), max(memories)


def commands(program, source, target):
    def strip():
        # It writes over what it reads.
        shutil.copyfile(source, target)
        return ["wasm-strip", target]

    opt = ["wasm-opt", "--all-features"]
    return {
        "wasm_rewriter": lambda: [program, source, target],
        "with places": lambda: [program, "--places", f"{target}.places", source, target],
        "wasm-opt": lambda: [*opt, source, "-o", target],
        "wasm-opt unused": lambda: [*opt, "--remove-unused-module-elements", source, "-o", target],
        "wasm-strip": strip,
    }


def compare(program, source, rounds, before):
    """Prints a row a tool, and answers our time."""
    target = f"{source}.out"
    size = os.path.getsize(source)
    ours = None
    for tool, command in commands(program, source, target).items():
        clock, processor, memory = best(command, rounds)
        ours = ours or processor
        doubled = f"{processor / before:.2f}" if before and tool == "wasm_rewriter" else ""
        print(
            f"| {os.path.basename(source)} | {size / 1e6:.1f} | {tool} | {processor:.2f} / {clock:.2f} | {processor / ours:.2f} | "
            f"{memory / 2**20:.0f} | {os.path.getsize(target) / 1e6:.1f} | {doubled} |",
            flush=True,
        )
    os.remove(target)
    return ours


def main():
    words = argparse.ArgumentParser(description=__doc__, formatter_class=argparse.RawDescriptionHelpFormatter)
    words.add_argument("--program", default=PROGRAM)
    words.add_argument("--rounds", type=int, default=3)
    words.add_argument("files", nargs="+", metavar="FILE TIMES")
    given = words.parse_args()
    install()
    print("| File | MB | Tool | Seconds | Times ours | MiB | Written, MB | Doubled |\n|---|---|---|---|---|---|---|---|")
    with tempfile.TemporaryDirectory() as folder:
        for file, times in zip(given.files[::2], map(int, given.files[1::2])):
            name = os.path.basename(file).removesuffix(".wasm")
            for flags, what in ((["--export-all"], "kept"), ([], "dropped")):
                before = None
                for count in (times // 2, times):
                    source = f"{folder}/{name}_{what}_{count}"
                    subprocess.run([sys.executable, f"{ROOT}/bench/repeated.py", *flags, file, str(count), source], check=True)
                    before = compare(given.program, source, given.rounds, before)
                    os.remove(source)


if __name__ == "__main__":
    main()
