#!/usr/bin/env python3
"""Runs the program as a shell would, with streams that are closed, full or pipes, and says what became of the files.

    bench/files.py

What one process can show of itself is tested in wasm_rewriter_tests; the rest is here.
"""
import os
import subprocess
import sys
import tempfile

ROOT = os.path.dirname(os.path.dirname(os.path.abspath(__file__)))
PROGRAM = f"{ROOT}/out/proved/wasm_rewriter"
HEAD = bytes.fromhex("0061736d01000000" "010401600000" "03020100" "07050101660000")
INPUT = HEAD + bytes.fromhex("0a05010300010b")
OUTPUT = HEAD + bytes.fromhex("0a040102000b")
PROGRAM_WORDS = "exec " + PROGRAM + " --no-names --no-producers "

# What a shell is given, the status, how the text on standard error begins, and the files that differ from before.
ROWS = [
    ("in out", 0, "", {"out": OUTPUT}),
    ("in in", 0, "", {"in": OUTPUT}),
    ("- out < in", 0, "", {"out": OUTPUT}),
    ("in - > out", 0, "", {"out": OUTPUT}),
    ("- - < in > out", 0, "", {"out": OUTPUT}),
    ("--places - in out > places", 0, "", {"out": OUTPUT, "places": b"4 3\n"}),
    ("--places /dev/stdout in out >&-", 3, "error: places can not be written after 0 bytes\n  /dev/stdout: ", {"out": OUTPUT}),
    ("--places - in out >&-", 3, "error: places can not be written after 0 bytes\n  standard output: ", {"out": OUTPUT}),
    ("in - >&-", 3, "error: output can not be written after 0 bytes\n  standard output: ", {}),
    ("in - > /dev/full", 3, "error: output can not be written after 0 bytes\n  standard output: ", {}),
    ("- out <&-", 3, "error: input can not be read\n  standard input: ", {}),
    ("in out <&- >&-", 0, "", {"out": OUTPUT}),
    ("--places none/places in out 2>&-", 3, "", {"out": OUTPUT}),
    ("in out <&- >&- 2>&-", 0, "", {"out": OUTPUT}),
    ("--places - in /dev/stdout > out", 2, "error: OUTPUT and FILE are one file\n", {"out": b""}),
    ("--places in - out < in", 2, "error: INPUT and FILE are one file\n", {}),
    ("$'\\xff' out", 2, "error: ", {}),
]


def files(folder):
    found = {}
    for name in os.listdir(folder):
        with open(f"{folder}/{name}", "rb") as file:
            found[name] = file.read()
    return found


def failures(row):
    words, status, text, changed = row
    with tempfile.TemporaryDirectory() as folder:
        with open(f"{folder}/in", "wb") as file:
            file.write(INPUT)
        done = subprocess.run(["bash", "-c", PROGRAM_WORDS + words], cwd=folder, capture_output=True)
        if done.returncode != status:
            yield f"status {done.returncode}, not {status}"
        said = done.stderr.decode()
        if not said.startswith(text) or bool(said) != bool(text):
            yield f"said {said!r}, not {text!r}"
        wanted = {"in": INPUT} | changed
        if files(folder) != wanted:
            yield f"files {files(folder)}, not {wanted}"


def main():
    subprocess.run([f"{ROOT}/bin/build", "wasm_rewriter"], check=True)
    wrong = [(row[0], what) for row in ROWS for what in failures(row)]
    for words, what in wrong:
        print(f"{words}: {what}")
    print(f"{len(ROWS)} rows, {len(wrong)} wrong")
    return 1 if wrong else 0


if __name__ == "__main__":
    sys.exit(main())
