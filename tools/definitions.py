#!/usr/bin/env python3
# Which definitions a reader has to believe: those of crates/*/specs that the contract of a public function or of a public trait reaches, by file, in
# reading order (the libraries of crates.txt, lowest first; in each the order of specs/Lib.antt).
#   tools/definitions.py              a line a file: its lines, how many definitions public contracts reach, and which only private ones do
#   tools/definitions.py bus c_api    only what the public functions of these crates reach
# Last come the values that public types show in contracts, which stand in src/: of a type its `impl Model`, of a trait its ghost members and
# those of its impls.
# It goes by names and `use` lines. It fails where a public function has no `ensures` or has a `requires`.
import os
import re
import sys

os.chdir(os.path.join(os.path.dirname(os.path.abspath(__file__)), '..'))
WORD = re.compile(r"[^\s(){}.,;:λ«»]+")
CLAUSE = re.compile(r'\s*(requires|ensures|ghost)\b[^{}]*$')


def crates():
    names = re.findall(r'(?m)^(\w+)(?: staticlib)?:', open('crates.txt').read())
    return [n for n in names if os.path.exists(f'crates/{n}/src/lib.rt')]


def code(path):
    return [re.sub(r'(--|//).*', '', line) for line in open(path, encoding='utf-8').read().split('\n')]


def imports(lines):
    # name as used in the file -> (specs file, name there)
    found = {}
    for line in lines:
        m = re.match(r'(?:ghost )?use Rattle\.(\w+)\.specs\.(\w+)\.\{(.*)\}', line)
        if not m:
            continue
        for item in m.group(3).split(','):
            parts = item.split(' as ')
            found[parts[-1].strip()] = (f'crates/{m.group(1)}/specs/{m.group(2)}.antt', parts[0].strip())
    return found


def definitions(path):
    # name -> the words of its text
    lines, found, name = code(path), {}, None
    for line in lines:
        m = re.match(r'\s*(?:abbrev |unfoldable )(?:pub )?([^\s:(]+)(?: \{[^}]*\})? :( |$)', line)
        if m:
            name = m.group(1)
            found.setdefault(name, set())
        elif re.match(r'\s*pub (record|data) ', line):
            name = line.split()[2]
            found.setdefault(name, set())
        if name and not line.startswith('use'):
            found[name] |= set(WORD.findall(line))
    return found


def head_of(text):
    # what stands before the body: up to the first brace that no clause opens
    depth, start = 0, 0
    for m in re.finditer(r'[{}\n]', text):
        if m.group() == '\n':
            start = start if depth else m.end()
        elif m.group() == '}':
            depth -= 1
        elif depth or CLAUSE.match(text, start, m.start()):
            depth += 1
        else:
            return text[:m.start()]
    return text


def functions(path):
    # (visibility, name, words of the contract, its text)
    text = '\n'.join(code(path))
    for m in re.finditer(r'(?m)^\s*(pub(?:\(crate\))? )?(?:extern "C" )?fn (\w+)', text):
        head = head_of(text[m.start():])
        yield (m.group(1) or '').strip(), m.group(2), set(WORD.findall(head)), head


def traits(path):
    # the words of a public trait: its ghost members, and the contracts of its methods, are public as it is
    text = '\n'.join(code(path))
    return [set(WORD.findall(m.group())) for m in re.finditer(r'(?ms)^pub trait .*?^}', text)]


def values(path):
    # the public types and traits whose value in contracts stands in this file, and how many lines say it
    text = '\n'.join(code(path))
    for m in re.finditer(r'(?ms)^impl Model for (\w+)(?:<[^>]*>)? \{.*?^}', text):
        if re.search(rf'(?m)^pub struct {m.group(1)}\b', text):
            yield m.group(1), m.group().count('\n') + 1
    for m in re.finditer(r'(?ms)^pub trait (\w+)\b.*?^}', text):
        if re.search(r'(?m)^ +ghost ', m.group()):
            yield m.group(1), m.group().count('\n') + 1
            for n in re.finditer(rf'(?ms)^impl {m.group(1)} for (\w+) .*?^}}', text):
                yield f'{m.group(1)} for {n.group(1)}', n.group().count('\n') + 1


def sources(crate):
    return [os.path.join(d, f) for d, _, fs in os.walk(f'crates/{crate}/src') for f in sorted(fs)]


def main():
    wanted = sys.argv[1:] or crates()
    specs = {}
    for crate in crates():
        lib = f'crates/{crate}/specs/Lib.antt'
        order = re.findall(r'mod (\w+)', open(lib).read()) if os.path.exists(lib) else []
        for name in order:
            path = f'crates/{crate}/specs/{name}.antt'
            specs[path] = (definitions(path), imports(code(path)))
    faults, public, private = [], set(), set()
    for crate in crates():
        for path in sources(crate):
            named = imports(code(path))
            if crate in wanted:
                public.update(named[w] for words in traits(path) for w in words if w in named)
            for visible, name, words, text in functions(path):
                cited = {named[w] for w in words if w in named}
                (public if visible == 'pub' and crate in wanted else private).update(cited)
                if visible == 'pub' and ('ensures' not in text or 'requires' in text):
                    faults.append(f'{path}: {name}')

    def reach(roots):
        seen, todo = set(), list(roots)
        while todo:
            path, name = todo.pop()
            if (path, name) in seen or path not in specs or name not in specs[path][0]:
                continue
            seen.add((path, name))
            own, named = specs[path]
            todo += [(path, w) for w in own[name] if w in own and w != name]
            todo += [named[w] for w in own[name] if w in named]
        return seen

    believed = reach(public)
    if not believed or not set(wanted) <= set(crates()):
        sys.exit('no definition is reached, or no such library: ' + ' '.join(wanted))
    print('lines  reached  file')
    total = 0
    for path, (own, _) in specs.items():
        here = [n for n in own if (path, n) in believed]
        rest = [n for n in own if (path, n) not in believed]
        if here:
            size = len(open(path, encoding='utf-8').read().split('\n')) - 1
            total += size
            note = '' if not rest or sys.argv[1:] else '  not: ' + ', '.join(rest)
            print(f'{size:5}  {len(here):3}/{len(own):<3}  {path}{note}')
    print(f'{total:5}  lines in all')
    for crate in wanted:
        for path in sources(crate):
            for name, size in values(path):
                print(f'{size:5}  {path}: what {name} is in a contract')
    if not sys.argv[1:]:
        print('only private contracts, or laws, cite: ' + ', '.join(p for p, (own, _) in specs.items() if own and not any((p, n) in believed for n in own)))
    for fault in faults:
        print('no complete contract: ' + fault)
    sys.exit(1 if faults else 0)


main()
