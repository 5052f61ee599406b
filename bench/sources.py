"""What the sources of the crates say, for the scripts that make documents of it: crates, their head comments, and their public items.

It leans on the layout that `rt fmt` gives: an item begins at the indentation of the module, `impl` or `trait` in which it stands, and its body's
braces stand there, too.
"""

import os
import re

ROOT = os.path.dirname(os.path.dirname(os.path.abspath(__file__)))
FUNCTION = re.compile(r"(pub )?(?:const )?fn (\w+)")
OWNER = re.compile(r"(?:pub )?(impl|trait)\b(.*)")


def read(path):
    """The text of a file below the top, or None."""
    path = os.path.join(ROOT, path)
    if not os.path.isfile(path):
        return None
    with open(path, encoding="utf-8") as file:
        return file.read()


def listed():
    """The crates of crates.txt, each with those that its line names, in the order of the file."""
    found = {}
    for line in read("crates.txt").split("\n"):
        name, colon, below = line.partition("#")[0].partition(":")
        if colon:
            found[name.split()[0]] = below.split()
    return found


def root_of(crate):
    """The path of a crate's root file, or None."""
    paths = [f"crates/{crate}/src/{name}.rt" for name in ("lib", "main")]
    return next((it for it in paths if os.path.isfile(os.path.join(ROOT, it))), None)


def sentence(lines):
    """The first sentence of a comment."""
    text = " ".join(it.strip() for it in lines).strip()
    return re.split(r"(?<=[.!?])\s+(?=[A-Z`\[])|\s{2,}", text, maxsplit=1)[0]


def head(crate):
    """The first sentence of the comment at the head of a crate's root file."""
    lines = []
    for line in (read(root_of(crate) or "") or "").split("\n"):
        if not line.startswith("//!"):
            break
        lines.append(line[3:])
    return sentence(lines)


class Function:
    """A function with what its head says: its signature without comments, and its contract."""

    def __init__(self, name, doc, lines, owner, public, path):
        self.name, self.doc, self.owner, self.public, self.path = name, doc, owner, public, path
        lines = [re.sub(r"\s+//.*", "", it) for it in lines if not it.lstrip().startswith("//")]
        places = [place for place, it in enumerate(lines) if re.match(r"\s*(requires|ensures)\b", it)]
        first = places[0] if places else len(lines)
        text = re.sub(r"\s+", " ", " ".join(lines[:first])).strip()
        text = re.sub(r"\s*(\{.*|;)$", "", text)
        for spaced, plain in ((r",? \)", ")"), (r"\( ", "("), (r"< ", "<"), (r",? >(?!=)", ">")):
            text = re.sub(spaced, plain, text)
        self.signature = text
        self.clauses = re.sub(r"(\n\s*\{\}?.*|;)\s*\Z", "", "\n".join(lines[first:]))

    @property
    def is_law(self):
        """Whether it is a function with nothing to do, whose contract holds of everything."""
        shape = re.search(r"fn \w+(<.*>)?\(\)$", self.signature)
        return self.public and not self.owner and bool(shape) and "ensures" in self.clauses

    @property
    def is_pinned(self):
        return "ensures" in self.clauses


class Module:
    """A module of a crate: its functions, what it gives again, and the modules in it."""

    def __init__(self, crate):
        self.crate, self.functions, self.uses, self.modules, self.names = crate, [], [], {}, set()

    def tree(self):
        yield self
        for it, _ in self.modules.values():
            yield from it.tree()

    def everything(self):
        for it in self.tree():
            yield from it.functions


def uses_of(tree):
    """The paths that a tree of `use` names, each with the name that it gets."""
    tree = tree.strip()
    found = re.fullmatch(r"(.*?)\{(.*)\}", tree, re.S)
    if found:
        depth, part, parts = 0, "", []
        for char in found[2] + ",":
            depth += (char == "{") - (char == "}")
            if char == "," and not depth:
                parts += [part] * bool(part.strip())
                part = ""
            else:
                part += char
        for part in parts:
            for path, name in uses_of(part):
                yield found[1].strip().rstrip(":").split("::") + path, name
        return
    path, _, alias = tree.partition(" as ")
    steps = [it for it in path.strip().split("::") if it]
    yield (steps[:-1] if steps[-1] == "self" else steps), (alias.strip() or (steps[-2] if steps[-1] == "self" else steps[-1]))


def folder_of(path):
    """Where the modules that a file names stand."""
    head, name = os.path.split(path)
    return head if name in ("lib.rt", "main.rt", "mod.rt") else os.path.join(head, name[:-3])


def fill(module, lines, start, depth, path, owner=None):
    """Reads the items that stand at this indentation from a line on, up to the brace that ends them; answers the line behind it."""
    pad, doc, at = " " * depth, [], start
    while at < len(lines):
        line = lines[at]
        if line.startswith(pad[:-4] + "}") and depth:
            return at + 1
        if not line.startswith(pad) or line[depth : depth + 1] in ("", " ", "}", ")"):
            doc = doc if line.strip() and line.startswith(pad) else []
            at += 1
            continue
        text = line[depth:]
        if text.startswith("///"):
            doc.append(text[3:])
            at += 1
            continue
        if text.startswith("#[") or text.startswith("//"):
            at += 1
            continue
        at = item(module, lines, at, depth, path, owner, text, doc)
        doc = []
    return at


def ends_head(lines, depth):
    """Whether the head of a function, as far as these lines, is at its end: at its body, or at the `;` in place of one."""
    last, text = lines[-1].rstrip(), "\n".join(it for it in lines if not it.lstrip().startswith("//"))
    if re.search(r"(?m)^\s*(requires|ensures)\b", text):
        return last.startswith(" " * depth + "{") or last.endswith(";") and text.count("{") == text.count("}")
    return bool(re.search(r"(\{|;|\})$", last))


def item(module, lines, at, depth, path, owner, text, doc):
    """Reads the item that begins in this line; answers the line behind what was read of it."""
    function, owning = FUNCTION.match(text), OWNER.match(text)
    use = re.match(r"(pub )?use (.*)", text, re.S)
    inner = re.match(r"(pub )?mod (\w+)( \{|;)", text)
    named = re.match(r"pub (?:struct|enum|trait|type|const|union) (\w+)", text)
    if named:
        module.names.add(named[1])
    if use:
        whole = text
        while ";" not in whole:
            at += 1
            whole += " " + lines[at].strip()
        tree = re.match(r"(?:pub )?use (.*?);", whole, re.S)[1]
        module.uses += [(path_, name, bool(use[1])) for path_, name in uses_of(tree)]
        return at + 1
    if inner:
        below = Module(module.crate)
        module.modules[inner[2]] = below, bool(inner[1])
        if inner[3] == ";":
            load(below, [f"{folder_of(path)}/{inner[2]}.rt", f"{folder_of(path)}/{inner[2]}/mod.rt"])
            return at + 1
        if text.rstrip().endswith("}"):
            return at + 1
        return fill(below, lines, at + 1, depth + 4, path)
    if function:
        whole, begun = [], at
        while at < len(lines):
            whole.append(lines[at])
            if ends_head(whole, depth):
                break
            at += 1
        in_trait = bool(owner) and owner.startswith("trait ")
        module.functions.append(Function(function[2], doc, whole, owner, bool(function[1]) or in_trait, f"{path}:{begun + 1}"))
        return at + 1
    if owning and not text.rstrip().endswith("}"):
        whole = text
        while "{" not in lines[at]:
            at += 1
            whole += " " + lines[at].strip()
        name = re.sub(r"\s+", " ", re.match(r"(?:pub )?(.*?)\s*\{", whole + "{", re.S)[1])
        return fill(module, lines, at + 1, depth + 4, path, name)
    return at + 1


def load(module, paths):
    for path in paths:
        text = read(path)
        if text is not None:
            fill(module, text.split("\n"), 0, 0, path)
            return


class Crates:
    """All crates, read once each where they are asked for."""

    def __init__(self):
        self.listed, self.read = listed(), {}

    def module(self, crate):
        """The root of a crate's modules."""
        if crate not in self.read:
            self.read[crate] = Module(crate)
            load(self.read[crate], [root_of(crate)] if root_of(crate) else [])
        return self.read[crate]

    def find(self, root, here, steps, seen=()):
        """What a path names, seen from a module: a module, a list of functions, or None. Names of other items are answered as ()."""
        first, *rest = steps
        if (id(here), first) in seen:
            return None
        seen = (*seen, (id(here), first))
        if first == "crate":
            found = root
        elif first == "self":
            found = here
        elif first in here.modules:
            found = here.modules[first][0]
        else:
            found = [it for it in here.functions if it.name == first and not it.owner] or None
            if not found and first in here.names:
                found = ()
            for path, name, _ in here.uses if not found and found != () else []:
                if name == first:
                    found = self.find(root, here, path, seen)
                    break
            if found is None and first in self.listed:
                return self.below(self.module(first), self.module(first), rest)
        return self.below(root, found, rest)

    def below(self, root, found, rest):
        if not rest:
            return found
        if not isinstance(found, Module):
            return None
        root = self.module(found.crate)
        return self.find(root, found, rest)

    def given(self, crate):
        """The functions that a crate gives from its root on, each with its path there; names of what isn't found."""
        functions, missing, seen = [], [], set()

        def walk(module, path):
            if id(module) in seen:
                return
            seen.add(id(module))
            for it in module.functions:
                if it.public and not it.owner:
                    functions.append((f"{path}::{it.name}", it))
            for name, (it, public) in module.modules.items():
                if public:
                    walk(it, f"{path}::{name}")
            for steps, name, public in module.uses:
                if not public:
                    continue
                found = self.find(self.module(module.crate), module, steps)
                if isinstance(found, Module):
                    walk(found, f"{path}::{name}")
                elif found:
                    functions.extend((f"{path}::{name}", it) for it in found)
                elif found is None and name[:1].islower():
                    missing.append(f"{path}::{name}")

        walk(self.module(crate), crate)
        return functions, missing
