#!/usr/bin/env python3
"""Runs `rt ci` on a clean clone and prints the table of docs/GATE.md: processor seconds by crate and by kind of work.

    bench/gate.py [--clone DIR] [--log FILE] [--into docs/GATE.md]
    bench/gate.py --watch --clone DIR [--log FILE] [--into docs/GATE.md]

DIR is a repository without changes of its own; where there is none, a clone of this one's HEAD is made there. Without
--clone the clone is made in a temporary folder and taken away again. With --watch nothing is started: the `rt ci` that
runs in DIR, or the next one, is watched to its end. What rt says goes to FILE (or is in FILE, with --watch), by default
DIR.log. --into puts what is printed between the two lines of that file that begin with `<!-- gate`.

Nothing that rt starts is changed. Once a second the processes below rt are looked at in /proc, each with the finished
ones below it; what a process used after that comes from rt's own count of its finished processes, which is exact.
"""
import argparse
import collections
import os
import re
import subprocess
import sys
import tempfile
import time

ROOT = os.path.dirname(os.path.dirname(os.path.abspath(__file__)))
TICKS = os.sysconf("SC_CLK_TCK")
KINDS = ("proof", "tests", "wrong bodies", "programs")
LEAST = 5

Process = collections.namedtuple("Process", "pid parent born own finished")


def processes():
    """What each process used, and what its finished processes used, in seconds."""
    found = {}
    for pid in filter(str.isdigit, os.listdir("/proc")):
        try:
            with open(f"/proc/{pid}/stat", errors="replace") as file:
                fields = file.read().rpartition(")")[2].split()
        except OSError:
            continue
        own, finished = (sum(map(int, fields[at : at + 2])) / TICKS for at in (11, 13))
        found[int(pid)] = Process(int(pid), int(fields[1]), int(fields[19]), own, finished)
    return found


def words_of(pid):
    try:
        with open(f"/proc/{pid}/cmdline", "rb") as file:
            return file.read().decode(errors="replace").split("\0")
    except OSError:
        return []


def folder_of(pid):
    try:
        return os.readlink(f"/proc/{pid}/cwd")
    except OSError:
        return ""


def work_of(pid, crates):
    """The crate and the kind of a process that rt started, or None where neither its words nor its folder name a crate."""
    words, folder = words_of(pid), folder_of(pid)
    text = " ".join(words)
    runs = re.search(r"/rt-run-[^/ ]*/bin/(\w+)", text)
    if runs:
        is_test = any(it.endswith("rattle-test") for it in words)
        return (runs[1].removesuffix("_tests"), "tests") if is_test else (runs[1], "programs")
    named = words[words.index("--crate-name") + 1] if "--crate-name" in words[:-1] else None
    # (rt works in a copy of the clone)
    name = named or next(iter(re.findall(r"/crates/(\w+)(?:/|$)", folder)), None)
    if name not in crates:
        return None
    if "/rt-edit-" in folder:
        return name, "wrong bodies"
    if "--test" in words or re.search(rf"\bout/{name}_tests\b", text):
        return name, "tests"
    is_built = "--crate-checked" in words or any(it.endswith("rattle-link") for it in words)
    return name, "programs" if is_built else "proof"


class Sampler:
    """Sums what the processes below one process use, by crate and kind."""

    def __init__(self, root, crates):
        self.root, self.crates = root, crates
        self.born = processes()[root].born
        self.used = collections.Counter()
        # the processes that rt started: what they are for, and what was seen of them
        self.kind, self.seen = {}, {}
        # those that ended, until rt's count has them; and what that count has beyond those that were booked
        self.ended, self.counted, self.unbooked = [], 0.0, 0.0

    def look(self):
        """Looks once, and answers whether rt still runs."""
        found = processes()
        if self.root not in found or found[self.root].born != self.born:
            return False
        below = collections.defaultdict(list)
        for it in found.values():
            below[it.parent].append(it)
        alive = {}
        for top in below[self.root]:
            whole, rest = 0.0, [top]
            while rest:
                it = rest.pop()
                whole += it.own + it.finished
                rest += below[it.pid]
            key = top.pid, top.born
            alive[key] = max(whole, self.seen.get(key, 0.0))
            # a process begins as a copy of rt, and then takes its words
            self.kind[key] = work_of(top.pid, self.crates) or self.kind.get(key)
        self.ended += [it for it in self.seen.items() if it[0] not in alive]
        self.seen = alive
        rt = found[self.root]
        self.unbooked += rt.finished - self.counted
        self.counted = rt.finished
        if self.ended and self.unbooked + 0.05 >= sum(seconds for _, seconds in self.ended):
            self.book()
        self.used[None] = rt.own
        return True

    def book(self):
        """Books the ended processes, with what they used since they were last seen."""
        seen = sum(seconds for _, seconds in self.ended)
        more = max(self.unbooked - seen, 0.0) / len(self.ended)
        for key, seconds in self.ended:
            self.used[self.kind.get(key) or (None, "rt")] += seconds + more
        self.ended, self.unbooked = [], 0.0

    def end(self):
        """What was used by crate and kind, with None for rt itself."""
        self.ended += self.seen.items()
        if self.ended:
            self.book()
        return self.used


def crates_in(clone):
    with open(f"{clone}/crates.txt") as file:
        names = [line.split(":")[0].split()[0] for line in file if line.split("#")[0].strip()]
    return {it: f"{clone}/crates/{it}" for it in names}


def edits_in(folder):
    return sum(it.endswith(".edit") for it in os.listdir(f"{folder}/must-fail")) if os.path.isdir(f"{folder}/must-fail") else 0


def started_in(pid):
    """The folder in which a process was started: rt works in a copy of it."""
    try:
        with open(f"/proc/{pid}/environ", errors="replace") as file:
            return dict(word.partition("=")[::2] for word in file.read().split("\0")).get("PWD")
    except OSError:
        return None


def running(clone):
    """The `rt ci`, of all crates or of some, that was started in a folder, which a Python runs, and not the copies of itself that it is about to start commands in."""
    found = []
    for it in processes().values():
        words = [os.path.basename(word) for word in words_of(it.pid) if word]
        is_rt = words[1:3] == ["rt", "ci"] and "python" in words[0]
        if is_rt and clone in (folder_of(it.pid), started_in(it.pid)):
            found.append((it.born, it.pid))
    return min(found)[1] if found else None


def git(clone, *words):
    return subprocess.run(["git", "-C", clone, *words], check=True, capture_output=True, text=True).stdout.strip()


def made(clone):
    """The clean clone in which rt is to run."""
    if not os.path.isdir(clone):
        print(f"cloning {ROOT} to {clone}", file=sys.stderr)
        subprocess.run(["git", "clone", "-q", ROOT, clone], check=True)
    elif git(clone, "status", "--porcelain"):
        sys.exit(f"{clone} has changes that are not committed")
    return clone


def measured(clone, log, watches):
    """What was used by crate and kind, and the seconds by the clock."""
    crates = crates_in(clone)
    if watches:
        print(f"waiting for rt ci in {clone}", file=sys.stderr)
        while not (root := running(clone)):
            time.sleep(1)
        # (a run that is watched later has its age from its start)
        with open("/proc/uptime") as file:
            age = float(file.read().split()[0]) - processes()[root].born / TICKS
        sampler, began = Sampler(root, crates), time.monotonic() - age
        while sampler.look():
            time.sleep(1)
        return sampler.end(), time.monotonic() - began
    with open(log, "wb") as out:
        began = time.monotonic()
        started = subprocess.Popen(["rt", "ci"], cwd=clone, stdin=subprocess.DEVNULL, stdout=out, stderr=subprocess.STDOUT)
        sampler = Sampler(started.pid, crates)
        while started.poll() is None:
            sampler.look()
            time.sleep(1)
    return sampler.end(), time.monotonic() - began


def last_line(log):
    """How many passed and failed, as rt's last line says it."""
    try:
        with open(log, errors="replace") as file:
            found = re.findall(r"^\d+ passed, \d+ failed$", file.read(), re.M)
    except OSError:
        found = []
    return found[-1] if found else "how many passed isn't known"


def row(*cells):
    return f"| {' | '.join(cells)} |"


def page(clone, used, took, said):
    """What docs/GATE.md holds."""
    itself = used.pop(None, 0.0) + used.pop((None, "rt"), 0.0)
    crates = crates_in(clone)
    total = {it: sum(used[it, kind] for kind in KINDS) for it in crates}
    edits = {it: edits_in(folder) for it, folder in crates.items()}
    sums = {kind: sum(used[it, kind] for it in crates) for kind in KINDS}
    whole = sum(sums.values()) + itself
    cells = lambda seconds: f"{seconds:,.0f}" if seconds >= 0.5 else ""
    split = ", ".join(f"{kind} {sums[kind]:,.0f}" for kind in KINDS)
    lines = [
        f"Commit {git(clone, 'rev-parse', '--short', 'HEAD')}, {len(os.sched_getaffinity(0))} processors: {said}, in "
        f"{took / 60:.0f} minutes. Processor seconds: {whole:,.0f} together ({split}, `rt` itself {itself:,.0f}), "
        f"which is {whole / 120:.0f} minutes on two processors.",
        "",
        row("Crate", "Proof", "Its own tests", "Wrong bodies (how many)", "Built and run", "Together"),
        row(*["---"] * 6),
    ]
    small = [it for it in crates if total[it] < LEAST]
    for it in sorted(crates, key=lambda it: -total[it]):
        if it in small:
            continue
        wrong = f"{cells(used[it, 'wrong bodies']) or '0'} ({edits[it]})" if edits[it] else ""
        lines.append(row(f"`{it}`", cells(used[it, "proof"]), cells(used[it, "tests"]), wrong, cells(used[it, "programs"]), cells(total[it])))
    if small:
        lines.append(row(f"under {LEAST} each: {len(small)}", "", "", "", "", cells(sum(total[it] for it in small))))
    of_all = f"{cells(sums['wrong bodies'])} ({sum(edits.values())})"
    lines.append(row("all", cells(sums["proof"]), cells(sums["tests"]), of_all, cells(sums["programs"]), cells(sum(sums.values()))))
    return "\n".join(lines) + "\n"


def put_into(file, text):
    """Puts the text between the file's two lines that begin with `<!-- gate`."""
    with open(file) as it:
        whole = it.read()
    changed, times = re.subn(r"(?ms)^(<!-- gate[^\n]*\n).*?(?=^<!-- gate)", lambda found: found[1] + "\n" + text + "\n", whole, count=1)
    if not times:
        sys.exit(f"{file} has no two lines that begin with <!-- gate")
    with open(file, "w") as it:
        it.write(changed)


def main():
    words = argparse.ArgumentParser(description="Measures the gate.")
    words.add_argument("--clone", metavar="DIR")
    words.add_argument("--watch", action="store_true")
    words.add_argument("--log", metavar="FILE")
    words.add_argument("--into", metavar="FILE")
    asked = words.parse_args()
    if asked.watch and not asked.clone:
        words.error("--watch wants --clone DIR")
    with tempfile.TemporaryDirectory(prefix="gate-") as room:
        clone = os.path.realpath(asked.clone or f"{room}/clone")
        log = os.path.abspath(asked.log or f"{asked.clone and clone or os.path.abspath('gate')}.log")
        clone = clone if asked.watch else made(clone)
        print(f"what rt says: {log}", file=sys.stderr)
        used, took = measured(clone, log, asked.watch)
        text = page(clone, used, took, last_line(log))
    print(text, end="")
    if asked.into:
        put_into(asked.into, text)


if __name__ == "__main__":
    main()
