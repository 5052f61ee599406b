#!/usr/bin/env python3
"""Names libraries through others, so that lines of crates.txt get shorter and the dependency graph has fewer paths (`bench/paths.py`).

    python3 bench/through.py CRATE LIBRARY OTHER [CRATE LIBRARY OTHER ..]
    python3 bench/through.py --offer LEAST CRATE..

In CRATE all names of LIBRARY become names of what OTHER passes on, and LIBRARY leaves CRATE's line; OTHER joins it where it isn't there. What
OTHER passes on already is taken at the path that it has; what it doesn't, it and what is below it come to pass on (words of specs/ and lemmas
of proofs/ whole, of code just the items that are named). A library whose macros or tactics a crate names has to stay listed, as has one that
it takes whole. Afterwards: `rt fmt` and `rt check` in each crate that git shows as changed.

--offer changes nothing: it says of each library that CRATE lists and that another one of its line reaches, by which of them it takes fewest new
lines, how many these are and in which crates, and how many paths would go, if that is LEAST at least. Crates that have to stay as they are can
be named in FROZEN in the environment.
"""

import functools
import os
import re
import sys

sys.path.insert(0, os.path.dirname(os.path.abspath(__file__)))
from passed import HEAD  # noqa: E402

ROOT = os.path.dirname(os.path.dirname(os.path.abspath(__file__)))
SAID = "-- Passed on to crates above, which then list this one alone."
FAR = 1_000_000
FROZEN = set(os.environ.get("FROZEN", "").split())
USE = re.compile(r"(?m)^([ \t]*)(pub(?:\(crate\))? )?use ([^;]*);")


# --- files, each read once; what is computed of them is kept until one is written
class Files:
    found, names, kept = {}, {}, {}


def read(path):
    if path not in Files.found:
        Files.found[path] = open(path).read() if os.path.isfile(path) else ""
    return Files.found[path]


def write(path, text):
    if text == read(path):
        return
    Files.found[path] = text
    Files.kept.clear()
    os.makedirs(os.path.dirname(path), exist_ok=True)
    with open(path, "w") as file:
        file.write(text)


def kept(function):
    @functools.wraps(function)
    def taken(*words):
        key = (function.__name__, *words)
        if key not in Files.kept:
            Files.kept[key] = function(*words)
        return Files.kept[key]

    return taken


def texts(crate):
    if crate not in Files.names:
        parts = (os.walk(f"{ROOT}/crates/{crate}/{part}") for part in ("src", "specs", "proofs"))
        Files.names[crate] = [f"{folder}/{it}" for walk in parts for folder, _, names in walk for it in names if it.endswith((".rt", ".antt"))]
    return {it: read(it) for it in Files.names[crate]}


def code(crate):
    return {file: re.sub(r"//[^\n]*", "", text) for file, text in texts(crate).items() if file.endswith(".rt")}


# --- crates.txt
@kept
def listed():
    rows = (line.partition("#")[0].partition(":") for line in read(f"{ROOT}/crates.txt").split("\n"))
    return {name.split()[0]: below.split() for name, colon, below in rows if colon}


def deps(crate):
    return [it for it in listed()[crate] if it in listed()]


@kept
def reach(crate):
    return frozenset({crate}).union(*map(reach, deps(crate)))


def relist(crate, gone, new):
    made = []
    for line in read(f"{ROOT}/crates.txt").split("\n"):
        name, colon, below = line.partition(":")
        if colon and name.split() and name.split()[0] == crate:
            words = [it for it in below.split() if it != gone]
            line = f"{name}: {' '.join(words + [new] * (new not in words))}"
        made.append(line)
    write(f"{ROOT}/crates.txt", "\n".join(made))


# --- what specs and proofs pass on
@kept
def aliases(crate, part):
    text = read(f"{ROOT}/crates/{crate}/{part}/Lib.antt")
    return re.findall(rf"^pub use Rattle\.\w+\.{part}(?:\.\w+)* as (\w+)$", text, re.M)


@kept
def words_path(crate, library, part):
    """The shortest path by which a crate passes a library's words on, or None."""
    queue, seen = [(crate, f"Rattle.{crate}.{part}")], {crate}
    while queue:
        here, path = queue.pop(0)
        if library in aliases(here, part):
            return f"{path}.{library}"
        for word in aliases(here, part):
            if word in listed() and word not in seen:
                seen.add(word)
                queue.append((word, f"{path}.{word}"))
    return None


@kept
def words_lines(crate, library, part):
    """In which crates lines are missing until it does."""
    if words_path(crate, library, part):
        return ()
    if library in listed()[crate]:
        return (crate,)
    return (crate, *min((words_lines(it, library, part) for it in deps(crate) if library in reach(it)), key=dear))


def pass_words(crate, library, part):
    found = words_path(crate, library, part)
    if found:
        return found
    target = f"Rattle.{library}.{part}"
    if library not in listed()[crate]:
        ways = [it for it in deps(crate) if library in reach(it)]
        target = pass_words(min(ways, key=lambda it: dear(words_lines(it, library, part))), library, part)
    file = f"{ROOT}/crates/{crate}/{part}/Lib.antt"
    text, line = read(file), f"pub use {target} as {library}\n"
    write(file, text.replace(f"{SAID}\n", f"{SAID}\n{line}") if SAID in text else f"{text}{SAID}\n{line}")
    print(f"    {crate} passes {target}")
    return f"Rattle.{crate}.{part}.{library}"


def dear(lines):
    return len(lines) + FAR * len(FROZEN.intersection(lines))


# --- what code passes on
def leaves(tree):
    """Each path that a tree of uses names, with its alias or None."""
    found, depth, part = [], 0, ""
    for char in re.sub(r"\s+", " ", tree.strip()) + ",":
        if char == "," and not depth:
            found += [part.strip()] * bool(part.strip())
            part = ""
        else:
            depth += (char == "{") - (char == "}")
            part += char
    paths = []
    for it in found:
        group, one = re.match(r"([\w:]+)::\{(.*)\}$", it), re.match(r"([\w:]+)(?: as (\w+))?$", it)
        if group:
            paths += [(group[1] if path == "self" else f"{group[1]}::{path}", alias) for path, alias in leaves(group[2])]
        else:
            paths.append((one[1], one[2]))
    return paths


def tree_of(text):
    """The modules and uses of a text: each a dict."""
    tree = {"mods": {}, "uses": {}}
    stack = [tree]
    for found in re.finditer(r"(?:pub )?mod (\w+) \{|pub use ([^;]*);|\}", re.sub(r"//[^\n]*", "", text)):
        if found[1]:
            stack.append(stack[-1]["mods"].setdefault(found[1], {"mods": {}, "uses": {}}))
        elif found[2]:
            stack[-1]["uses"] |= {alias or path.split("::")[-1]: path for path, alias in leaves(found[2])}
        elif len(stack) > 1:
            stack.pop()
    return tree


def flat(tree, front=""):
    found = {f"{front}{word}": path for word, path in tree["uses"].items()}
    for word, below in tree["mods"].items():
        found |= flat(below, f"{front}{word}::")
    return found


@kept
def exports(crate):
    """What its root passes on of other crates: each path there, and the path that it is of."""
    return {at: path for at, path in flat(tree_of(read(f"{ROOT}/crates/{crate}/src/lib.rt"))).items() if path.split("::")[0] in listed()}


@kept
def origin(path):
    """The path of an item in the library that has it."""
    crate, *rest = path.split("::")
    for size in range(len(rest), 0, -1):
        if crate in listed() and "::".join(rest[:size]) in exports(crate):
            return origin("::".join([exports(crate)["::".join(rest[:size])], *rest[size:]]))
    return path


@kept
def item_path(crate, item):
    """The shortest path by which a crate passes an item on, or None."""
    if item.split("::")[0] == crate:
        return item
    ways = [(at, origin(path)) for at, path in exports(crate).items()]
    found = [f"{crate}::{at}{item[len(home) :]}" for at, home in ways if item == home or item.startswith(f"{home}::")]
    return min(found, key=len, default=None)


@kept
def item_lines(crate, item):
    """In which crates lines are missing until it does."""
    if item_path(crate, item):
        return ()
    return (crate, *min((item_lines(it, item) for it in deps(crate) if item.split("::")[0] in reach(it)), key=dear))


def use_lines(uses, indent, lead):
    """Lines that bring these words in, each of its path."""
    groups = {}
    for word, path in uses.items():
        head, _, last = path.rpartition("::")
        groups.setdefault(head, []).append(last if last == word else f"{last} as {word}")
    for head, items in sorted(groups.items()):
        items.sort(key=lambda it: (it[0].isupper(), it))
        yield f"{indent}{lead}use {head}::{items[0] if len(items) == 1 else '{' + ', '.join(items) + '}'};"


def module_lines(tree, indent=""):
    made = list(use_lines(tree["uses"], indent, "pub "))
    for word, below in sorted(tree["mods"].items()):
        made += [""] * bool(made) + [f"{indent}pub mod {word} {{", *module_lines(below, indent + "    "), f"{indent}}}"]
    return made


def pass_item(crate, item):
    found = item_path(crate, item)
    if found:
        return found
    home, *inner = item.split("::")
    target = pass_item(min((it for it in deps(crate) if home in reach(it)), key=lambda it: dear(item_lines(it, item))), item)
    root = f"{ROOT}/crates/{crate}/src/lib.rt"
    front, _, back = read(root).partition(HEAD)
    word = re.sub(r"^(walrus|wasm)_", "", home)
    word = f"the_{word}" if re.search(rf"(?m)^(?:pub )?mod {word}\b", front) else word
    tree = here = tree_of(back)
    for it in (word, *inner[:-1]):
        here = here["mods"].setdefault(it, {"mods": {}, "uses": {}})
    here["uses"][inner[-1]] = target
    write(root, front.rstrip("\n") + "\n\n" + HEAD + "\n".join(module_lines(tree)) + "\n")
    print(f"    {crate} passes {target}")
    return "::".join([crate, word, *inner])


# --- a crate's own names
def must_be_listed(crate, library):
    for text in code(crate).values():
        if re.search(rf"#!?\[tactic\([^\]]*(?<![\w.:]){library}::|(?<![\w.:]){library}::(?:\w+::)*\w+!", text):
            return "macros or tactics"
        if any(path == library for found in USE.finditer(text) for path, _ in leaves(found[3])):
            return "all"
    return None


def items(crate, library):
    found = set()
    for text in code(crate).values():
        found |= {path for use in USE.finditer(text) for path, _ in leaves(use[3]) if path.startswith(f"{library}::")}
        found |= set(re.findall(rf"(?<![\w.:]){library}(?:::\w+)+", USE.sub("", text)))
    return found


def parts(crate, library):
    named = rf"(?<![\w.])Rattle\.{library}\."
    return [it for it in ("specs", "proofs") if any(re.search(rf"{named}{it}\b", text) for text in texts(crate).values())]


def renamed(text, library, other):
    def use(found):
        uses = {alias or path.split("::")[-1]: path for path, alias in leaves(found[3])}
        if not any(it.startswith(f"{library}::") for it in uses.values()):
            return found[0]
        uses = {word: pass_item(other, origin(it)) if it.startswith(f"{library}::") else it for word, it in uses.items()}
        return "\n".join(use_lines(uses, found[1], found[2] or ""))

    return re.sub(rf"(?<![\w.:/]){library}(?:::\w+)+", lambda it: pass_item(other, origin(it[0])), USE.sub(use, text))


def through(crate, library, other):
    why = must_be_listed(crate, library)
    if why:
        sys.exit(f"{crate} names {why} of {library}")
    print(f"{crate}: {library} by {other}")
    paths = {part: pass_words(other, library, part) for part in parts(crate, library)}
    for file in [*texts(crate)]:
        text = renamed(read(file), library, other) if file.endswith(".rt") else read(file)
        for part, path in paths.items():
            text = re.sub(rf"(?<![\w.])Rattle\.{library}\.{part}\b", path, text)
        write(file, text)
    relist(crate, library, other)


def missing(crate, library, other):
    lines = [it for item in items(crate, library) for it in item_lines(other, origin(item))]
    return lines + [it for part in parts(crate, library) for it in words_lines(other, library, part)]


def offer(least, crates):
    @functools.cache
    def below(name):
        return 1 + sum(map(below, deps(name)))

    @functools.cache
    def above(name):
        return 1 + sum(above(it) for it in listed() if name in deps(it))

    for crate in crates:
        for library in sorted(deps(crate), key=below, reverse=True):
            ways = [it for it in deps(crate) if it != library and library in reach(it)]
            worth = above(crate) * below(library)
            if not ways or worth < least:
                continue
            why = must_be_listed(crate, library)
            if why:
                print(f"{worth:8} {crate} {library}: stays, as it names {why}")
                continue
            other = min(ways, key=lambda it: dear(missing(crate, library, it)))
            lines = missing(crate, library, other)
            there = "frozen" if FROZEN.intersection(lines) else f"{len(lines)} lines in {len(set(lines))} crates"
            print(f"{worth:8} {crate} {library} {other}: {there} {' '.join(sorted(set(lines)))}")


def main():
    words = sys.argv[1:]
    if words[:1] == ["--offer"] and len(words) > 2:
        offer(int(words[1]), words[2:])
    elif words and not len(words) % 3:
        for at in range(0, len(words), 3):
            through(*words[at : at + 3])
    else:
        sys.exit(__doc__)


if __name__ == "__main__":
    main()
