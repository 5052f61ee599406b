#!/usr/bin/env python3
"""Joins crates of definitions and laws into one, and rewrites what names them in the whole tree.

    python3 bench/join.py [--head TEXT] OLD[:WORD].. NEW

Files go by `git mv` into the crate NEW, which may be one of OLD. The module `laws` of each old crate, and the functions of its `lib.rt`, become the
module WORD (the last word of its name, where none is given), with the crate's head comment; its other modules keep their names. Where two have
files or modules of one name, WORD stands before each that doesn't begin with it. Paths that lead through an old crate lead to the same thing as
before: within NEW straight to the crate that has it, above by what NEW passes on, which is what crates above name by it. `crates.txt` follows, and
so do the paths of answers. TEXT is the head comment of NEW.

It doesn't join crates with tests or wrong bodies (`must-fail`, `bench/wrong`) or whose types or contracts are named elsewhere (`declared`,
`contracts`), and says so. Left to do are documents, comments that name a crate, the layout (`rt fmt` in NEW and in each crate that it changed), and
imports that nothing uses (`rt check --fix-imports`).
"""

import collections
import os
import re
import shutil
import subprocess
import sys

from passed import leaves
from sources import ROOT, read

PATH = re.compile(r"Rattle(?:\.[A-Za-z_][A-Za-z0-9_]*)+")
ALIAS = re.compile(r"^pub use (Rattle[\w.]+) as (\w+)$")
BARE = re.compile(r"^pub use (Rattle[\w.]+)$")
USE = re.compile(r"(?ms)^(?P<in>[ \t]*)(?P<pub>pub )?use (?P<tree>[\w:]+(?:::\{[^;]*\})?)(?: as (?P<name>\w+))?;\n")
PASSED = "// Passed on to crates above, which then list this one alone.\n"


def camel(word):
    return "".join(part.capitalize() for part in word.split("_"))


def write(path, text):
    with open(os.path.join(ROOT, path), "w", encoding="utf-8") as file:
        file.write(text)


def git_mv(old, new):
    os.makedirs(os.path.dirname(os.path.join(ROOT, new)), exist_ok=True)
    subprocess.run(["git", "-C", ROOT, "mv", old, new], check=True)


def blocks(text):
    """What stands at each path of modules of a lib.rt: (path, the text there without inner modules)."""
    found, at, lines = collections.defaultdict(list), [], text.split("\n")
    for line in lines:
        begins = re.match(r"\s*pub mod (\w+) \{$", line)
        if begins:
            at.append(begins[1])
        elif at and re.match(r"\s*\}$", line) and len(line) - len(line.lstrip()) == 4 * (len(at) - 1):
            at.pop()
        else:
            found[tuple(at)].append(line)
    return {path: "\n".join(part) + "\n" for path, part in found.items()}


class Old:
    """A crate that is joined."""

    def __init__(self, name, word):
        self.name, self.word = name, word
        self.files = {
            kind: sorted(it[:-5] for it in os.listdir(f"{ROOT}/crates/{name}/{kind}") if it.endswith(".antt") and it != "Lib.antt")
            if os.path.isdir(f"{ROOT}/crates/{name}/{kind}")
            else []
            for kind in ("specs", "proofs")
        }
        for part in os.listdir(f"{ROOT}/crates/{name}"):
            if part not in ("src", "specs", "proofs", "out"):
                sys.exit(f"{name} has {part}, which isn't joined")
        if os.path.isdir(f"{ROOT}/bench/wrong/{name}"):
            sys.exit(f"{name} has wrong bodies in bench/wrong")
        text = read(f"crates/{name}/src/lib.rt")
        self.head = [line for line in text.split("\n") if line.startswith("//!")]
        body = [line for line in text.split("\n") if not line.startswith(("//!", "#!["))]
        self.modules = [it for line in body for it in re.findall(r"^(?:pub )?mod (\w+);$", line)]
        self.public = {it for line in body for it in re.findall(r"^pub mod (\w+);$", line)}
        self.exports, root = {}, []
        for path, part in blocks("\n".join(body)).items():
            for use in USE.finditer(part):
                if not use["pub"]:
                    continue
                for leaf in leaves(use["tree"]):
                    target = leaf.split("::")
                    if target[0] not in self.modules:
                        self.exports[path + (use["name"] or target[-1],)] = target
            if not path:
                rest = USE.sub(lambda use: "" if use["pub"] and use["tree"].split("::")[0] not in self.modules else use[0], part)
                rest = re.sub(r"(?m)^(?:pub )?mod \w+;\n", "", rest).replace(PASSED, "")
                root = rest.strip("\n")
        self.root = root
        if self.root and "laws" in self.modules:
            sys.exit(f"{name} has laws and functions beside them")


class Join:
    def __init__(self, olds, new, head):
        self.olds, self.new, self.head = {it.name: it for it in olds}, new, head
        self.aliases, self.kinds = {}, {}
        for name in os.listdir(f"{ROOT}/crates"):
            for kind in ("specs", "proofs"):
                lines = (read(f"crates/{name}/{kind}/Lib.antt") or "").split("\n")
                self.aliases[name, kind] = {m[2]: m[1].split(".")[1:] for m in map(ALIAS.match, lines) if m}
        self.files, self.modules = {}, {}
        for kind in ("specs", "proofs"):
            count = collections.Counter(it for old in olds for it in old.files[kind])
            for old in olds:
                for it in old.files[kind]:
                    own = it.startswith(camel(old.word).removesuffix("s"))
                    self.files[old.name, kind, it] = it if count[it] == 1 or own else camel(old.word) + it
            given = [name for (_, its, _), name in self.files.items() if its == kind]
            if len(set(given)) < len(given):
                sys.exit(f"two files of one name in {kind}")
        names = [old.word for old in olds] + [it for old in olds for it in old.modules if it != "laws"]
        for old in olds:
            for it in old.modules:
                self.modules[old.name, it] = old.word if it == "laws" else it if names.count(it) == 1 else f"{old.word}_{it}"
        if len(set(self.modules.values())) < len(self.modules):
            sys.exit("two modules of one name")
        modules = {it.lower() for it in self.modules.values()} | {old.word.lower() for old in olds}
        for (name, kind, _), it in self.files.items():
            if kind == "proofs" and it.lower() in modules:
                sys.exit(f"{name}: proofs/{it}.antt and a module differ in the case of letters alone: take another WORD")
        self.above, self.passed = {"specs": {}, "proofs": {}}, {}

    # Paths of definitions and lemmas.

    def place(self, path):
        """The steps of a path through crates: for each, the segments before it and the crate and kind there; and what is left."""
        crate, kind, at = path[0], path[1], 2
        steps = [(at, crate, kind)]
        while at < len(path) and path[at] in self.aliases.get((crate, kind), {}):
            inner, left = self.place(self.aliases[crate, kind][path[at]])
            if left:
                break
            at += 1
            crate, kind = inner[-1][1:]
            steps.append((at, crate, kind))
        return steps, path[at:]

    def own(self, crate, kind, rest):
        """Where a module of an old crate stands in the new one."""
        if (crate, kind, rest[0]) in self.files:
            return [self.files[crate, kind, rest[0]], *rest[1:]]
        if kind == "specs" or rest[0] in ("declared", "contracts"):
            sys.exit(f"{crate}.{kind}.{'.'.join(rest)}: not a file")
        if rest[0] in self.olds[crate].modules:
            return [self.modules[crate, rest[0]], *rest[1:]]
        return [self.olds[crate].word, *rest]

    def within(self, path):
        """A path as the new crate itself names it."""
        last = [it for it in self.place(path)[0] if it[1] in self.olds]
        if not last:
            return path
        at, crate, kind = last[-1]
        rest = path[at:]
        if rest and rest[0] in self.aliases[crate, kind]:
            return self.within([*self.aliases[crate, kind][rest[0]], *rest[1:]])
        return [self.new, kind, *(self.own(crate, kind, rest) if rest else [])]

    def beside(self, path):
        """A path as a crate above names it."""
        olds = [it for it in self.place(path)[0] if it[1] in self.olds]
        if not olds:
            return path
        (first, _, _), (at, crate, kind) = olds[0], olds[-1]
        name = self.new if path[first - 1] in self.olds else path[first - 1]
        begin = [self.new, kind] if first == 2 else [*path[: first - 1], name]
        rest = path[at:]
        if not rest:
            return begin
        if rest[0] in self.aliases[crate, kind]:
            target = self.within(self.aliases[crate, kind][rest[0]])
            if self.above[kind].setdefault(rest[0], target) != target:
                sys.exit(f"two meanings of {rest[0]}: {target} {self.above[kind][rest[0]]}")
            return begin + rest
        return begin + self.own(crate, kind, rest)

    def definitions(self, text, crate):
        step = self.within if crate in self.olds else self.beside
        return PATH.sub(lambda m: ".".join(["Rattle", *step(m[0].split(".")[1:])]) if m[0].count(".") > 1 else m[0], text)

    # Paths of code.

    def law(self, path):
        """Where a path of code leads: (whether into the new crate, the path from there, the path by which it was passed on)."""
        name, rest = path[0], path[1:]
        if name not in self.olds:
            return False, path, None
        old = self.olds[name]
        for end in range(len(rest), 0, -1):
            if tuple(rest[:end]) in old.exports:
                target = old.exports[tuple(rest[:end])] + rest[end:]
                inside, found, by = self.law(target)
                return inside, found, by or (None if inside else (rest, target))
        if rest and rest[0] in old.modules:
            return True, [self.modules[name, rest[0]], *rest[1:]], None
        return True, [old.word, *rest], None

    def code_path(self, path, crate):
        inside, found, by = self.law(path)
        if crate in self.olds:
            if not inside and path[0] in self.olds[crate].modules:
                return ["crate", self.modules[crate, path[0]], *path[1:]]
            return ["crate", *found] if inside else found
        if inside:
            return [self.new, *found]
        if by is None:
            return path
        if self.passed.setdefault(tuple(by[0]), by[1]) != by[1]:
            sys.exit(f"two meanings of {by[0]}")
        return [self.new, *by[0]]

    def use(self, match, crate):
        """A use, written anew where it names something that moves."""
        paths = [leaf.split("::") for leaf in leaves(match["tree"])]
        moved = [self.code_path(it, crate) for it in paths]
        if moved == paths:
            return match[0]
        groups = {}
        for it in moved:
            groups.setdefault("::".join(it[:-1]), []).append(it[-1])
        begin = f"{match['in']}{match['pub'] or ''}use "
        if match["name"]:
            path = "::".join(moved[0])
            return f"{begin}{path}" + ("" if moved[0][-1] == match["name"] else f" as {match['name']}") + ";\n"
        return "".join(f"{begin}{path}::" + (names[0] if len(names) == 1 else "{" + ", ".join(sorted(names)) + "}") + ";\n" for path, names in groups.items())

    def code(self, text, crate):
        text = self.definitions(text, crate)
        done = USE.sub(lambda match: self.use(match, crate), text)
        firsts = list(self.olds) + (self.olds[crate].modules if crate in self.olds else [])
        inline = re.compile(r"(?<![\w:.])(" + "|".join(firsts) + r")((?:::\w+)+)(?=[\s(;:]|$)")

        def moved(match):
            return "::".join(self.code_path([match[1], *match[2].split("::")[1:]], crate))

        lines = []
        for line in done.split("\n"):
            plain = line.lstrip().startswith(("use ", "pub use ", "//", "ghost use "))
            lines.append(line if plain else inline.sub(moved, line))
        return "\n".join(lines)

    # The tree.

    def rewrite(self):
        """Rewrites all sources, those of the old crates at their old places."""
        listed = subprocess.run(["git", "-C", ROOT, "ls-files", "crates"], capture_output=True, text=True, check=True).stdout.split()
        for path in listed:
            crate = path.split("/")[1]
            if crate in self.olds and os.path.basename(path) in ("Lib.antt", "lib.rt"):
                continue
            if not path.endswith((".antt", ".rt", ".edit")):
                continue
            text = read(path)
            if path.endswith("/Lib.antt"):
                new = self.lib(text, crate)
            else:
                new = self.definitions(text, crate) if path.endswith(".antt") else self.code(text, crate)
                new = merged(new) if new != text else new
            if new != text:
                write(path, new)

    def lib(self, text, crate):
        """The Lib.antt of a crate above, in which several names become one."""
        lines = []
        for line in text.split("\n"):
            alias = ALIAS.match(line)
            if alias:
                name = self.new if alias[2] in self.olds else alias[2]
                line = f"pub use {self.definitions(alias[1], crate)} as {name}"
                if line in lines:
                    continue
            bare = BARE.match(line)
            if bare:
                path, name = self.definitions(bare[1], crate), bare[1].rsplit(".", 1)[1]
                line = f"pub use {path}" + ("" if path.endswith(f".{name}") else f" as {name}")
            lines.append(line)
        return "\n".join(lines)

    def move(self):
        """The files of the old crates go to their places in the new one, by way of a folder beside."""
        at = f"crates/{self.new}"
        via = f"{at}-joined" if self.new in self.olds else at
        mods, tops = {"specs": [], "proofs": []}, []
        for old in self.olds.values():
            folder = f"crates/{old.name}"
            for module in old.modules:
                name = self.modules[old.name, module]
                git_mv(f"{folder}/src/{module}.rt", f"{via}/src/{name}.rt")
                if module == "laws":
                    text = read(f"{via}/src/{name}.rt")
                    rest = [line for line in text.split("\n") if not line.startswith("//!")]
                    write(f"{via}/src/{name}.rt", "\n".join([*old.head, *rest]))
                tops.append(("pub " if module in old.public else "") + f"mod {name};")
            if old.root:
                write(f"{folder}/src/lib.rt", "\n".join([*old.head, self.code(f"\n{old.root}\n", old.name)]))
                git_mv(f"{folder}/src/lib.rt", f"{via}/src/{old.word}.rt")
                tops.append(f"pub mod {old.word};")
            else:
                subprocess.run(["git", "-C", ROOT, "rm", "-qf", f"{folder}/src/lib.rt"], check=True)
            for kind in ("specs", "proofs"):
                self.move_words(old, kind, via, mods)
        return via, at, mods, sorted(set(tops), key=lambda it: it.split()[-1])

    def move_words(self, old, kind, via, mods):
        folder = f"crates/{old.name}/{kind}"
        if not os.path.isdir(f"{ROOT}/{folder}"):
            return
        for it in sorted(os.listdir(f"{ROOT}/{folder}")):
            if it == "Lib.antt":
                for line in read(f"{folder}/{it}").split("\n"):
                    mod = re.match(r"(pub )?mod (\w+)$", line)
                    if mod:
                        mods[kind].append(f"{mod[1] or ''}mod {self.files[old.name, kind, mod[2]]}")
                subprocess.run(["git", "-C", ROOT, "rm", "-qf", f"{folder}/{it}"], check=True)
            elif it.endswith(".antt"):
                git_mv(f"{folder}/{it}", f"{via}/{kind}/{self.files[old.name, kind, it[:-5]]}.antt")
            elif it in old.modules:
                for law in sorted(os.listdir(f"{ROOT}/{folder}/{it}")):
                    git_mv(f"{folder}/{it}/{law}", f"{via}/{kind}/{self.modules[old.name, it]}/{law}")
            else:
                git_mv(f"{folder}/{it}", f"{via}/{kind}/{old.word}/{it}")

    def finish(self, via, at, mods, tops):
        for old in self.olds:
            shutil.rmtree(f"{ROOT}/crates/{old}", ignore_errors=True)
        if via != at:
            os.rename(f"{ROOT}/{via}", f"{ROOT}/{at}")
        heads = [f"//! {self.head}"] if self.head else [line for old in self.olds.values() for line in old.head]
        lines = [*heads, "#![tactic(auto)]", "", *tops]
        if self.passed:
            lines += ["", PASSED.rstrip("\n"), *passed_on(self.passed)]
        write(f"{at}/src/lib.rt", "\n".join(lines) + "\n")
        for kind, found in mods.items():
            lines = list(dict.fromkeys(found))
            if self.above[kind]:
                lines.append("-- Passed on to crates above, which then list this one alone.")
                lines += [f"pub use {'.'.join(['Rattle', *target])} as {name}" for name, target in sorted(self.above[kind].items())]
            if lines:
                write(f"{at}/{kind}/Lib.antt", "\n".join(lines) + "\n")

    def list(self):
        lines, below, last = [], [], None
        for line in read("crates.txt").split("\n"):
            name, colon, deps = line.partition(":")
            if colon and not line.startswith("#"):
                deps = deps.split()
                if name in self.olds:
                    below += [it for it in deps if it not in self.olds and it not in below]
                    last = len(lines)
                    continue
                named = list(dict.fromkeys(self.new if it in self.olds else it for it in deps))
                if named != deps:
                    line = f"{name}: " + " ".join(named)
            lines.append(line)
        lines.insert(last, f"{self.new}: " + " ".join(below))
        write("crates.txt", "\n".join(lines))


def passed_on(passed):
    """The modules of a lib.rt that pass on these items."""

    def part(prefix, depth):
        lines, inner = [], "    " * depth
        groups = {}
        for path, target in sorted(passed.items()):
            if list(path[:-1]) == prefix:
                groups.setdefault("::".join(target[:-1]), []).append(target[-1] if target[-1] == path[-1] else f"{target[-1]} as {path[-1]}")
        for crate, names in groups.items():
            lines.append(f"{inner}pub use {crate}::" + (names[0] if len(names) == 1 else "{" + ", ".join(sorted(names)) + "}") + ";")
        n = len(prefix)
        for name in sorted({path[n] for path in passed if len(path) > n + 1 and list(path[:n]) == prefix}):
            lines += [f"{inner}pub mod {name} {{", *part([*prefix, name], depth + 1), f"{inner}}}"]
        return lines

    return part([], 0)


def merged(text):
    """Two lines of uses of one module become one."""
    line = re.compile(r"(?P<begin>(?:ghost )?use (?P<path>Rattle[\w.]+)\.)\{(?P<names>[^{}]*)\}(?P<end>;?)$")
    lines, at = [], {}
    for it in text.split("\n"):
        use = line.match(it)
        if use and use["path"] in at:
            first = at[use["path"]]
            names = lines[first][1]
            names += [name for name in split(use["names"]) if name not in names]
            continue
        if use:
            at[use["path"]] = len(lines)
            lines.append((use["begin"], split(use["names"]), use["end"]))
        else:
            lines.append(it)
    return "\n".join(it if isinstance(it, str) else f"{it[0]}{{{', '.join(it[1])}}}{it[2]}" for it in lines)


def split(names):
    return [it.strip() for it in names.split(",") if it.strip()]


def main():
    words = sys.argv[1:]
    head = None
    if words[:1] == ["--head"]:
        head, words = words[1], words[2:]
    if len(words) < 2:
        sys.exit(__doc__)
    pairs = [it.split(":") if ":" in it else [it, it.rsplit("_", 1)[-1]] for it in words[:-1]]
    join = Join([Old(*it) for it in pairs], words[-1], head)
    join.rewrite()
    place = join.move()
    join.finish(*place)
    join.list()
    subprocess.run(["git", "-C", ROOT, "add", "-A", "crates", "crates.txt"], check=True)


if __name__ == "__main__":
    main()
