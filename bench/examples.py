#!/usr/bin/env python3
"""Runs the programs of crates/examples on modules, and says what comes of it.

    bench/examples.py PROGRAM FOLDER [--most N]
    e.g.  python3 bench/unproved.py crates/examples /tmp/examples && bench/examples.py /tmp/examples /tmp/modules

PROGRAM is the built program, FOLDER holds .wasm files, at any depth. Of each that `wasm-validate` or `node` takes, what `strip`, `count_calls`,
`snip` (of no function: what isn't needed goes) and `source_map` write has to be valid too, by the same; `strip` has to leave no custom section
but `producers`, and to give the same bytes when it is done twice; each pair of `source_map` has to have the same mnemonic at both ends, by
`wasm-objdump`, where an `else` that is written for an `if` without one shares its offset with that if's `end`. In `node`, exported functions
without parameters have to give what they gave before, where all imports are functions (each answers 0) and that takes less than ten seconds.
A module that is refused is told where both take it. Files with a section whose numbers nobody rewrites (`linking` of object files,
`metadata.code.*`) are left out. So is what isn't there of `wasm-validate`, `wasm-objdump` and `node`.
"""
import argparse
import os
import re
import shutil
import subprocess
import sys
import tempfile

FEATURES = ["--enable-all"]
HAS_NUMBERS = re.compile(r"linking$|metadata\.code\.")
COMPILES = "try { new WebAssembly.Module(require('fs').readFileSync(process.argv[1])) } catch (e) { process.exit(1) }"

RUNS = """
const module = new WebAssembly.Module(require('fs').readFileSync(process.argv[1])), given = {}, said = [];
for (const it of WebAssembly.Module.imports(module)) {
    if (it.kind !== 'function') process.exit(1);
    (given[it.module] ??= {})[it.name] = () => 0;
}
const text = (it) => (typeof it === 'function' || (typeof it === 'object' && it) ? typeof it : String(it));
const tried = (name, call) => { try { said.push([name, text(call())]) } catch (e) { said.push([name, e.constructor.name]) } };
let there = {};
tried('', () => { there = new WebAssembly.Instance(module, given).exports });
const names = Object.keys(there).filter((name) => typeof there[name] === 'function' && there[name].length === 0);
for (const name of names.sort().slice(0, 20)) tried(name, there[name]);
console.log(JSON.stringify(said));
"""


def run(*words):
    return subprocess.run(words, stdin=subprocess.DEVNULL, stdout=subprocess.PIPE, stderr=subprocess.PIPE)


def succeeds(*words):
    return run(*words).returncode == 0


class Judges:
    """What says of a file whether it is valid."""

    def __init__(self):
        self.validate = shutil.which("wasm-validate")
        self.node = shutil.which("node")
        self.objdump = shutil.which("wasm-objdump")
        self.count = (self.validate is not None) + (self.node is not None)

    def accept(self, path):
        """Which of the judges take the file."""
        found = set()
        if self.validate and succeeds(self.validate, *FEATURES, path):
            found.add("wasm-validate")
        if self.node and succeeds(self.node, "-e", COMPILES, path):
            found.add("node")
        return found

    def runs(self, path):
        """What exported functions give, where that is known."""
        try:
            ran = subprocess.run((self.node, "-e", RUNS, path), capture_output=True, timeout=10) if self.node else None
        except subprocess.TimeoutExpired:
            return None
        return ran.stdout if ran and not ran.returncode else None

    def customs(self, path):
        """The names of a file's custom sections."""
        text = run(self.objdump, "-h", path).stdout.decode(errors="replace")
        return re.findall(r'^\s*Custom start=.*?"(.*)"$', text, re.M)

    def operators(self, path):
        """The mnemonics of a file by their offsets."""
        text = run(self.objdump, "-d", path).stdout.decode(errors="replace")
        found = {}
        for at, word in re.findall(r"^ ([0-9a-f]{6,}): .*?\| *([a-z][a-z0-9_.]*)", text, re.M):
            found[int(at, 16)] = word
        return found


def wrong_pairs(judges, old, new, pairs):
    """How many pairs don't have the same operator at both ends."""
    before, after, wrong = judges.operators(old), judges.operators(new), 0
    for line in pairs.decode().splitlines():
        one, other = map(int, line.split())
        words = before.get(one), after.get(other)
        if None not in words and words[0] != words[1] and words != ("end", "else"):
            wrong += 1
    return wrong


def faults_of(program, judges, path, folder):
    """What is wrong with what is written for a file."""
    out = {name: os.path.join(folder, name + ".wasm") for name in ("strip", "again", "count_calls", "snip", "source_map")}
    accepted, found, pairs = judges.accept(path), [], b""
    for name in ("strip", "count_calls", "snip", "source_map"):
        ran = run(program, name, path, out[name])
        if ran.returncode:
            if len(accepted) < judges.count:
                return set(), []
            found.append(f"{name}: {ran.stderr.decode(errors='replace').strip()}")
            continue
        pairs = ran.stdout if name == "source_map" else pairs
        lacking = accepted - judges.accept(out[name])
        found += [f"{name}: refused by {judge}" for judge in sorted(lacking)]
    if found:
        return accepted, found
    gave = judges.runs(path) if "node" in accepted else None
    for name in ("strip", "count_calls", "snip", "source_map"):
        if gave is not None and judges.runs(out[name]) not in (gave, None):
            found.append(f"{name}: gives something else in node")
    run(program, "strip", out["strip"], out["again"])
    with open(out["strip"], "rb") as one, open(out["again"], "rb") as other:
        if one.read() != other.read():
            found.append("strip: other bytes when it is done twice")
    if judges.objdump:
        left = set(judges.customs(out["strip"])) - {"producers"}
        found += [f"strip: {name} is left" for name in sorted(left)]
        wrong = wrong_pairs(judges, path, out["source_map"], pairs)
        found += [f"source_map: {wrong} pairs"] if wrong else []
    return accepted, found


def main():
    words = argparse.ArgumentParser(description="Runs the examples on modules.")
    words.add_argument("program")
    words.add_argument("folder")
    words.add_argument("--most", type=int, default=0)
    asked = words.parse_args()
    judges = Judges()
    paths = sorted(os.path.join(at, name) for at, _, names in os.walk(asked.folder) for name in names if name.endswith(".wasm"))
    paths = paths[: asked.most] if asked.most else paths
    tried = bad = 0
    with tempfile.TemporaryDirectory() as folder:
        for path in paths:
            if judges.objdump and any(HAS_NUMBERS.match(it) for it in judges.customs(path)):
                continue
            accepted, faults = faults_of(asked.program, judges, path, folder)
            if not accepted:
                continue
            tried += 1
            bad += bool(faults)
            for fault in faults:
                print(f"{path}: {fault}", flush=True)
    print(f"{tried} modules that are valid, {bad} of them with a fault")
    sys.exit(1 if bad else 0)


if __name__ == "__main__":
    main()
