#!/usr/bin/env python3
# Of the kit before the port (docs/PORT.md), in which a proof was one file Proof.antt; kept as it was. Today `rt check --start F` writes the files
# of a function's proof, Invariants.antt and Answers.antt, and `#[tactic(auto, using(..))]` does what `* = text` did here.
# Writes proof files from the ones that a check offers and a short file of answers.
#   rt dev CRATE > target/dev.out; tools/fill.py target/dev.out ANSWERS
# ANSWERS has a section for each function, begun by a line `== path/of/function` (the folder below proofs/), then
#   a comment line `-- ..` (the file's first lines), `use ..` lines, and answers `need = text`, whose text may go on in indented lines.
#   In a text `c↑5` stands for `c` with five `.before`.
#   A line `* = text` answers every hole that has none; `unfolding a b` before an answer stands under its signature.
# A section whose function is not offered in the output is passed over. The lines that only shorten printed goals are left out.
import os
import re
import sys

offered = {}
path, lines = None, []
for line in open(sys.argv[1]):
    line = line.rstrip('\n')
    m = re.match(r'help: write (\S+)/proofs/(\S+)/Proof.antt with these lines', line)
    if m:
        path, lines = m.group(2), []
        offered[path] = (m.group(1), lines)
    elif path and (line.startswith('    ') or not line.strip()):
        lines.append(line[4:])
    else:
        path = None

sections, section = {}, None
for line in open(sys.argv[2]):
    line = line.rstrip('\n')
    if line.startswith('== '):
        section = sections.setdefault(line[3:].strip(), {'head': [], 'use': [], 'ans': {}, 'unf': {}})
        last, unfolding = None, None
    elif section is None or not line.strip():
        continue
    elif line.startswith('-- '):
        section['head'].append(line)
    elif line.startswith('use '):
        section['use'].append(line)
    elif line.startswith('unfolding '):
        unfolding = line
    elif line.startswith(' '):
        section['ans'][last] += '\n' + line
    else:
        last, text = line.split(' =', 1)
        last = last.split()[0]
        section['ans'][last] = text.strip()
        if unfolding:
            section['unf'][last] = unfolding
        unfolding = None

for name, section in sections.items():
    if name not in offered:
        print('not offered:', name)
        continue
    root, lines = offered[name]
    text = '\n'.join(lines)
    uses = [l for l in lines if l.startswith('use ')]
    body = '\n'.join(l for l in lines if not l.startswith('use ') and not re.match(r'\s*-- src/', l))
    body = re.sub(r'\n{3,}', '\n\n', body).strip()

    def answer(m):
        need, args = m.group(1), m.group(2)
        ans = section['ans'].get(need, section['ans'].get('*', '?'))
        ans = re.sub(r'↑(\d+)', lambda k: ' .before' * int(k.group(1)), ans)
        unf = section['unf'].get(need)
        return (unf + '\n' if unf else '') + need + args + ' =' + ('' if ans.startswith('\n') else ' ') + ans

    body = re.sub(r'(?m)^(\S+)((?: [^=\n]+)?) =\s+\?$', answer, body)
    cited = body + '\n'.join(section['use'])
    keep = [u for u in uses if not re.search(r' as \S+$', u) or re.search(r'\b%s\.' % re.escape(u.split(' as ')[1]), body)]
    if 'search needs' in body and not any('Author.Needs' in u for u in keep):
        keep.insert(0, 'use borrow.Author.Needs.{needs}')
    if 'search needs' not in body:
        keep = [u for u in keep if 'Author.Needs' not in u]
    file = f'{root}/proofs/{name}/Proof.antt'
    os.makedirs(os.path.dirname(file), exist_ok=True)
    with open(file, 'w') as out:
        out.write('\n'.join(section['head'] + ['-- Assumes nothing.'] + section['use'] + keep) + '\n\n' + body + '\n')
    print('wrote', name, '(holes left)' if re.search(r'(?<!\S)\?(?!\S)', body) else '')
