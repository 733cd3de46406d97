#!/usr/bin/env python3
# Where the check of a crate spends its time: seconds by kind of module, by module and by function.
#   tools/slow.py CRATE [ROWS]      (what CRATE stands on must be proved: `rt check` in its folder once before)
# It checks the crate over an empty folder, with one job, and takes the times at which its modules were saved. Nothing else should run meanwhile.
import collections
import os
import re
import subprocess
import sys
import tempfile

sys.dont_write_bytecode = True
import kit

crate, rows = sys.argv[1], int(sys.argv[2]) if len(sys.argv) > 2 else 20
saved = []
with tempfile.TemporaryDirectory() as folder:
    check = subprocess.run(kit.words_of('check', crate, folder, 1), cwd=f'crates/{crate}', stdout=subprocess.PIPE, stderr=subprocess.STDOUT, text=True)
    print(check.stdout.strip().split('\n')[-1])
    for path, _, files in os.walk(folder):
        saved += [(os.stat(os.path.join(path, f)).st_mtime, f[:-6]) for f in files if f.endswith('.oantt')]
saved.sort()
GENERATED = r'\.(Answers|Code|Given|Goals|Invariants|Kinds|Layout|Lts|Met|Proof|Reads|Statement|Symbol|TheLink|Tie)\b.*'
kinds, functions, modules = collections.Counter(), collections.Counter(), collections.Counter()
for (before, _), (after, name) in zip(saved, saved[1:]):
    m = re.search(GENERATED, name)
    kinds[m.group(1) if m else 'laws, definitions and declarations'] += after - before
    functions[re.sub(GENERATED, '', name)] += after - before
    modules[name] += after - before
for title, table in (('kinds of module', kinds), ('modules', modules), ('functions and files', functions)):
    print(f'{title}, of {sum(table.values()):.0f} s:')
    for name, seconds in table.most_common(rows):
        print(f'  {seconds:6.1f}  {name}')
