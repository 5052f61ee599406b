#!/usr/bin/env python3
"""Judges the wrong bodies of a list as planted ones, in the folder of the crate that they are about.

    bench/judge.py LIST CRATE [MINUTES]

A list has a crate by its name on a line, and below it a line for each body: the file in src/, the function, and behind ` | ` the body.
"""
import sys, os, types, importlib.machinery, contextlib, io, re, tempfile, subprocess, time
def load(path, name):
    m = types.ModuleType(name); m.__file__ = path
    importlib.machinery.SourceFileLoader(name, path).exec_module(m)
    return m
rp = load('/opt/rattle/bin/rt-plant', 'rtplant')
rt, bodies = rp.rt, rp.bodies
listed, crate_name = sys.argv[1], sys.argv[2]
minutes = int(sys.argv[3]) if len(sys.argv) > 3 else 30
rows, here_now = [], False
for line in open(listed):
    line = line.rstrip('\n')
    if not line: continue
    if '|' not in line:
        here_now = line.strip() == crate_name; continue
    if here_now:
        where, body = line.split(' | ', 1)
        file, path = where.split(' ', 1)
        rows.append((file, path, body))
print('rows', len(rows), file=sys.stderr)
with contextlib.redirect_stdout(io.StringIO()) as said:
    status = rt.main('check')
here = os.getcwd()
crate = rt.Crate(here, rt.root_above(here) or here, {}, name=None)
lines = dict(re.findall(rf"(?m)^fn ({crate.name}::\S+): (.*)", said.getvalue()))
crate.out = io.StringIO()
source = bodies.Source(here)
source.read("src/main.rt" if crate.is_program else "src/lib.rt")
source.read_specs()
for name, rlib in rp.libraries(crate).items():
    if name not in (*rt.SEALED, "libc", "os"):
        source.add_library(name, f"{rlib}/lang")
functions, bare = rp.chosen(crate, source, lines, "src/")
plants = []
for n, (file, path, body) in enumerate(rows):
    parts = path.split('::')
    found = [f for f in functions if f.file == 'src/' + file and f.name == parts[-1]]
    if len(found) > 1 and len(parts) > 2:
        found = [f for f in found if f.owner == parts[-2] or (f.block and parts[-2] in str(f.shown))]
    if len(found) != 1:
        print('NOT FOUND' if not found else 'SEVERAL', file, path, [f.shown for f in found]); continue
    plants.append(rp.Plant(found[0], bodies.Body(body), n))
with tempfile.TemporaryDirectory(prefix="rt-plant-") as folder:
    copy = rp.Copy(crate, source, folder, [], 60 * minutes)
    plain = [p for p in plants if not p.f.in_trait]
    # a body that doesn't compile takes others with it: in turn
    ok = copy.compiled(plain)
    copy.judge(ok)
    copy.judge_in_place([p for p in plants if p.f.in_trait])
import collections
count = collections.Counter(p.kind for p in plants)
for p in plants:
    print(f"{p.kind:<10} {p.f.shown}: {{ {p.body} }}  ({p.why})")
print(dict(count))
