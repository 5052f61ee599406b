#!/usr/bin/env python3
"""Tells how large functions are with all that is inlined into them whatever their size, in lines of a module's text.

    bench/inlined.py MODULE.LL WORD [--tree]
    e.g.  bench/unproved.py crates/walrus_inspect_cli /tmp/inspect --keep
          bench/inlined.py /tmp/inspect.work/module.ll 'body_parser::operators' --tree

For each function whose name has WORD (a regular expression): lines together, lines of its own, whether it has `#[inline(always)]`. With
--tree what it is made of, too, from 60 lines on. The toolchain drops that hint from a function that is too large so (docs/PROVING.md):
`read_known` of walrus_body_parser had it with 6,890 lines of an unproved text.
"""
import collections
import functools
import re
import sys

NAME = r'@("[^"]+"|[^( ]+)\('


def functions(path):
    found, groups, now = {}, {}, None
    with open(path) as file:
        for line in file:
            if m := re.match(r"attributes #(\d+) = \{(.*)\}", line):
                groups[m.group(1)] = m.group(2)
            elif m := re.match(r"define .*?" + NAME, line):
                now = found[m.group(1)] = {"lines": 0, "calls": collections.Counter(), "end": line.rpartition(")")[2]}
            elif line.startswith("}"):
                now = None
            elif now is not None:
                now["lines"] += 1
                now["calls"].update(re.findall("call [^@]*" + NAME, line))
    for it in found.values():
        hints = it["end"] + "".join(groups.get(g, "") for g in re.findall(r"#(\d+)", it["end"]))
        it["always"] = "alwaysinline" in hints
    return found


def main():
    words = [it for it in sys.argv[1:] if it != "--tree"]
    found = functions(words[0])

    @functools.cache
    def size(name):
        return found[name]["lines"] + sum(n * size(it) for it, n in parts(name))

    def parts(name):
        return [(it, n) for it, n in found[name]["calls"].items() if it in found and found[it]["always"]]

    def tree(name, depth):
        for it, n in sorted(parts(name), key=lambda part: -part[1] * size(part[0])):
            if n * size(it) >= 60:
                print(f"{'  ' * depth}{n * size(it):6} {found[it]['lines']:5}  {it}" + (f" ({n} times)" if n > 1 else ""))
                tree(it, depth + 1)

    for name in sorted(filter(re.compile(words[1]).search, found), key=size, reverse=True):
        print(f"{size(name):7} {found[name]['lines']:6}  {'always' if found[name]['always'] else '      '}  {name}")
        if "--tree" in sys.argv:
            tree(name, 4)


main()
