#!/usr/bin/env python3
# Two things that the kit makes and `rt` has no command for, or one that would prove again what `rt ci` has just proved.
#   tools/kit.py archive     crates/c_api/out/libc_api.a, as `rt lib` in crates/c_api makes it
#   tools/kit.py mir NAME    prints the code of a library as the prover takes it and the compiler gets it (JSON), of c_api too
# `rt ci` leaves each library in its out/ without the mark by which other commands of `rt` know it, so `rt lib` would prove them all once more.
# Where all libraries below are as `rt ci` left them, and none of their files is newer, this calls the kit's compiler over them itself: then
# only NAME's own proofs are checked. Else it lets `rt lib` prove what has changed. Let no other `rt` work on the tree meanwhile.
import os
import re
import subprocess
import sys

os.chdir(os.path.join(os.path.dirname(os.path.abspath(__file__)), '..'))
HERE = os.getcwd()


def listed():
    # crate -> whether it is a static library, and the repository's crates that it uses
    found = {}
    for line in open('crates.txt', encoding='utf-8'):
        m = re.match(r'(\w+)( staticlib)?:(.*)', line)
        if m:
            found[m.group(1)] = (bool(m.group(2)), m.group(3).split())
    return {name: (static, [dep for dep in deps if dep in found]) for name, (static, deps) in found.items()}


CRATES = listed()


def below(name):
    # each after those that it uses
    found = []
    for dep in CRATES[name][1]:
        found += [it for it in [*below(dep), dep] if it not in found]
    return found


def rlib(name):
    return f'{HERE}/crates/{name}/out/rlib/{name}.rlib'


def sources(name):
    for part in ('src', 'specs', 'proofs'):
        for folder, _, files in os.walk(f'crates/{name}/{part}'):
            yield from (os.path.join(folder, file) for file in files)


def left_by_ci(names):
    # the libraries that `rt ci` made bear no stamp; their files may be older than the tree, which got them from an earlier run, their folder not
    if any(os.path.exists(f'crates/{name}/out/rlib/stamp') or not os.path.isfile(f'{rlib(name)}/format') for name in names):
        return False
    made = min(os.stat(os.path.dirname(rlib(name))).st_mtime for name in names)
    return all(os.stat(path).st_mtime <= made for name in names for path in sources(name))


def run(words, folder):
    done = subprocess.run(words, cwd=folder, stdout=subprocess.PIPE, stderr=subprocess.STDOUT, text=True)
    if done.returncode:
        sys.exit(f'{done.stdout}tools/kit.py: {" ".join(words[:2])} in {folder} failed')
    return done.stdout


def kit():
    return os.path.dirname(run(['rt', 'doc'], '.').strip())


def words_of(verb, name, incremental, jobs):
    # as `rt` calls the kit's compiler, over the libraries that stand in out/
    root = 'src/main.rt' if os.path.isfile(f'crates/{name}/src/main.rt') else 'src/lib.rt'
    words = [f'{kit()}/bin/rattle', verb, '--crate-name', name, root, '--extern', f'std={kit()}/rlibs/std.rlib', '-L', f'dependency={kit()}/rlibs']
    for dep in CRATES[name][1]:
        words += ['--extern', f'{dep}={rlib(dep)}']
    for dep in below(name):
        words += ['-L', f'dependency={os.path.dirname(rlib(dep))}']
    words += ['--antt-project', f'{kit()}/rattle/logic/antt-project.json', '--logic-built', f'{kit()}/logic_built', '--links', f'{name}=']
    return words + ['--jobs', str(jobs), '--incremental', incremental]


def build(name, to, *more):
    os.makedirs(os.path.dirname(f'crates/{name}/{to}'), exist_ok=True)
    said = run([*words_of('build', name, 'out/incremental', min(os.cpu_count() or 1, 4)), *more, '-o', to], f'crates/{name}').strip().split('\n')[-1]
    if not said.startswith('logic=proved '):
        sys.exit(f'tools/kit.py: {name}: {said}')
    return said


def archive():
    if left_by_ci(below('c_api')):
        said = build('c_api', 'out/libc_api.a', '--crate-type', 'staticlib', '--toolchain', f'{kit()}/toolchain', '--backend', 'llvm')
    else:
        said = run(['rt', 'lib'], 'crates/c_api').strip().split('\n')[-1]
    print(f'c_api: {said}')


def mir(name):
    if CRATES[name][0]:
        if not left_by_ci(below(name)):
            # no more than the libraries below, where they have changed
            run(['rt', 'check', '--only', ''], f'crates/{name}')
        build(name, f'out/mir/{name}.rlib')
        made = f'crates/{name}/out/mir/{name}.rlib'
    else:
        if not left_by_ci([*below(name), name]):
            run(['rt', 'lib'], f'crates/{name}')
        made = rlib(name)
    with open(f'{made}/toolchain/mir.json', encoding='utf-8') as it:
        sys.stdout.write(it.read())


if __name__ == '__main__':
    if sys.argv[1:] == ['archive']:
        archive()
    elif len(sys.argv) == 3 and sys.argv[1] == 'mir' and sys.argv[2] in CRATES:
        mir(sys.argv[2])
    else:
        sys.exit('usage: tools/kit.py archive | mir NAME')
