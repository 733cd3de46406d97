#!/usr/bin/env python3
# Tries the edits that the gate does not: tools/edits/CRATE/NAME.edit, in the form of crates/CRATE/must-fail. The prover must refuse each.
#   tools/edits.py [CRATE[/NAME] ...]      with no argument all
# It works in a temporary copy of the tree, where `rt` begins with what checks in other copies on this machine kept. Each edit costs a check of
# its crate; `rt all check` before, so that nothing else is proved there.
# It prints a line an edit: refused or not, and the first error. It fails if one is not refused or does not apply, or if there is none.
import glob
import os
import re
import shutil
import subprocess
import sys
import tempfile

os.chdir(os.path.join(os.path.dirname(os.path.abspath(__file__)), '..'))


def chosen(words):
    # crate -> the paths of its edits
    found = {}
    for word in words or ['*']:
        crate, _, name = word.partition('/')
        paths = sorted(glob.glob(f'tools/edits/{crate}/{name or "*"}.edit'))
        if not paths:
            sys.exit(f'tools/edits has no edit {word}')
        for path in paths:
            found.setdefault(path.split('/')[2], set()).add(path)
    return found


def copy(tree):
    # the tracked files, without the edits of `rt ci`
    tracked = subprocess.run(['git', 'ls-files', '-z'], stdout=subprocess.PIPE, check=True, text=True).stdout
    for path in tracked.split('\0'):
        if os.path.isfile(path) and '/must-fail/' not in path:
            os.makedirs(os.path.dirname(f'{tree}/{path}'), exist_ok=True)
            shutil.copy(path, f'{tree}/{path}')


def all_refused(crate, paths, tree):
    folder = f'{tree}/crates/{crate}/must-fail'
    os.makedirs(folder)
    for path in paths:
        shutil.copy(path, folder)
    run = subprocess.run(['rt', 'must-fail', crate], cwd=tree, stdout=subprocess.PIPE, stderr=subprocess.STDOUT, text=True)
    shutil.rmtree(folder)
    good = run.returncode == 0
    for path in sorted(paths):
        name = os.path.basename(path)
        said = re.search(rf'^rt: must-fail {crate}/{re.escape(name)}: (.*)$', run.stdout, re.MULTILINE)
        verdict = said.group(1) if said else 'NOT TRIED: ' + run.stdout.strip().split('\n')[-1]
        good = good and verdict.startswith('refused')
        print(f'{crate}/{name[:-len(".edit")]}: {verdict}', flush=True)
    return good


edits = chosen(sys.argv[1:])
with tempfile.TemporaryDirectory() as place:
    copy(place)
    results = [all_refused(crate, edits[crate], place) for crate in sorted(edits)]
sys.exit(0 if all(results) else 1)
