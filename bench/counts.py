#!/usr/bin/env python3
"""Measures a build of walrus_bench (by unproved.py, or proved) with the body of bench/bodies.py, by operator.

    bench/counts.py BENCH [BENCH2 ..] [--count] [--time] [--rounds N] [--functions] [--shape N]

--count: instructions by callgrind, of a body of 150,000 operators (400 locals): parsed, written, in C.
--time: nanoseconds of 1,000,000 operators, pinned to processor 3 (chrt -r 20), the least of the rounds, the programs in turns.
--functions: the functions that take most instructions of `both` (exclusive), an operator.
Neither given: both. --shape: another shape of bench/bodies.py for the times (0 to 8).
"""
import os
import random
import re
import subprocess
import sys
import tempfile

sys.path.insert(0, os.path.dirname(os.path.abspath(__file__)))
from bodies import RUNNER, SHAPES, body  # noqa: E402

BASE = os.path.dirname(os.path.abspath(__file__))


def counted(folder, *words):
    out = f"{folder}/callgrind"
    ran = subprocess.run(["valgrind", "--tool=callgrind", f"--callgrind-out-file={out}", *words], capture_output=True, text=True, check=True)
    return int(re.search(r"Collected : (\d+)", ran.stderr).group(1))


def functions(folder, seen, *words):
    counted(folder, *words)
    text = subprocess.run(["callgrind_annotate", "--threshold=100", f"{folder}/callgrind"], capture_output=True, text=True, check=True).stdout
    for line in text.split("\n"):
        m = re.match(r"\s*([\d,]+) \(\s*[\d.]+%\)\s+\S*?:(.*?) \[", line)
        if m and int(m.group(1).replace(",", "")) / seen >= 1:
            print(f"    {int(m.group(1).replace(',', '')) / seen:7.1f}  {m.group(2)[:150]}")


def main():
    words = sys.argv[1:]
    value = lambda flag, other: int(words[words.index(flag) + 1]) if flag in words else other
    rounds, shape = value("--rounds", 5), value("--shape", 1)
    for flag in ("--rounds", "--shape"):
        if flag in words:
            k = words.index(flag)
            del words[k : k + 2]
    benches = [os.path.abspath(it) for it in words if not it.startswith("--")]
    both = "--count" not in words and "--time" not in words and "--functions" not in words
    with tempfile.TemporaryDirectory() as folder:
        loop, runner = f"{folder}/operators", f"{folder}/runner"
        subprocess.run(["gcc", "-O2", "-o", loop, f"{BASE}/operators.c"], check=True)
        with open(f"{runner}.c", "w", encoding="utf-8") as it:
            it.write(RUNNER)
        subprocess.run(["gcc", "-O2", "-o", runner, f"{runner}.c"], check=True)

        def given(count, some_locals, depth):
            declared, operators = body(random.Random(1), count, some_locals, depth)
            for name, text in (("body", declared + operators), ("code", operators)):
                with open(f"{folder}/{name}", "wb") as it:
                    it.write(text)
            seen = int(subprocess.run([loop, f"{folder}/code", "read"], capture_output=True, text=True, check=True).stdout.split()[0])
            return seen, len(declared + operators)

        if both or "--count" in words or "--functions" in words:
            seen, size = given(150000, 400, 0)
            c = counted(folder, loop, f"{folder}/code", "read") - counted(folder, loop, "/dev/null", "read")
            for it in benches:
                said = subprocess.run([it, "body", f"{folder}/body", "both"], capture_output=True, text=True, check=True).stdout
                if int(said.split()[2]) != size:
                    sys.exit(f"{it}: of {size} bytes written {said}")
                load, parse, all_of_it = (counted(folder, it, "body", f"{folder}/body", way) for way in ("load", "parse", "both"))
                print(f"{it}: {seen} operators; instructions an operator: parsed {(parse - load) / seen:.1f}, written {(all_of_it - parse) / seen:.1f}, C {c / seen:.1f}", flush=True)
                if "--functions" in words:
                    functions(folder, seen, it, "body", f"{folder}/body", "both")
        if both or "--time" in words:
            _, count, some_locals, depth = SHAPES[shape]
            seen, size = given(count, some_locals, depth)
            took = {}

            def run(key, *cmd):
                ran = subprocess.run(["chrt", "-r", "20", "taskset", "-c", "3", runner, *cmd], capture_output=True, text=True, check=True)
                us = int(ran.stderr.split()[-2])
                took[key] = min(took.get(key, us), us)

            for _ in range(rounds):
                run("c", loop, f"{folder}/code", "read")
                run("c0", loop, "/dev/null", "read")
                for it in benches:
                    for way in ("load", "parse", "both"):
                        run((it, way), it, "body", f"{folder}/body", way)
            c = (took["c"] - took["c0"]) * 1e3 / seen
            for it in benches:
                load, parse, all_of_it = (took[it, way] for way in ("load", "parse", "both"))
                parsed, written = (parse - load) * 1e3 / seen, (all_of_it - parse) * 1e3 / seen
                print(f"{it}: {SHAPES[shape][0]}: ns an operator: parsed {parsed:.1f}, written {written:.1f}, C {c:.1f}; ratio {(parsed + written) / c:.2f}", flush=True)


if __name__ == "__main__":
    main()
