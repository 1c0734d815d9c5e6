#!/usr/bin/env python3
"""Lists the places in src/ that docs/DESIGN-PASS.md counts, by point, at a commit or in the working tree.

python3 tools/places.py [COMMIT] [POINT..]

A hit is a place to look at; the page says of each what it became or why it stays. Points:
1  enums, flags, numbers that stand for a kind, arms that only pass a Result or an Option on
2  functions of one shape: the same tokens with other names, numbers and texts
3  loops, but those over a slice, a list or an iterator by its items
4  functions that compare, order, convert or print by hand
5  facts in the contracts of three functions or more, parameters that stand together in three or more
6  arrays and slices with a number beside them that says how much of them is in use
7  matches on a value that says which step to run, function pointers, dyn
"""
import re
import subprocess
import sys
from collections import defaultdict


def git(*args):
    return subprocess.run(['git', *args], capture_output=True, text=True, check=True).stdout


def sources(commit):
    if commit:
        names = git('ls-tree', '-r', '--name-only', commit).split('\n')
    else:
        names = git('ls-files').split('\n')
    for name in sorted(names):
        if re.fullmatch(r'crates/\w+/src/.*\.rt', name):
            yield name, git('show', f'{commit}:{name}') if commit else open(name).read()


class Function:
    """A function: where it stands, its parameters, its clauses and its body."""

    def __init__(self, name, file, line, params, clauses, body):
        self.name, self.file, self.line = name, file, line
        self.params, self.clauses, self.body = params, clauses, body

    def __str__(self):
        return f'{self.file}:{self.line}: fn {self.name}'


def braced(text, at):
    depth = 0
    for i in range(at, len(text)):
        depth += {'{': 1, '}': -1}.get(text[i], 0)
        if depth == 0:
            return i + 1
    return len(text)


def functions(file, text):
    for found in re.finditer(r'\bfn (\w+)', text):
        start = found.end()
        opened = text.index('(', start)
        depth, i = 0, opened
        while i < len(text):
            depth += {'(': 1, ')': -1}.get(text[i], 0)
            i += 1
            if depth == 0:
                break
        params = [p.strip() for p in re.split(r',(?![^<(\[]*[>)\]])', text[opened + 1:i - 1]) if p.strip()]
        clauses, at = [], i
        while at < len(text):
            rest = text[at:]
            clause = re.match(r'[^{;]*?\b(requires|ensures)\*?\s*\w*\s*\{', rest)
            if clause:
                end = braced(text, at + clause.end() - 1)
                clauses.append((clause.group(1), ' '.join(text[at + clause.end():end - 1].split())))
                at = end
                continue
            break
        tail = re.match(r'[^{;]*([{;])', text[at:])
        body = ''
        if tail and tail.group(1) == '{':
            begin = at + tail.end() - 1
            body = text[begin:braced(text, begin)]
        yield Function(found.group(1), file, text.count('\n', 0, found.start()) + 1, params, clauses, body)


def lines_with(files, pattern, without=None):
    hits = []
    for file, text in files:
        for n, line in enumerate(text.split('\n'), 1):
            code = line.split('//')[0]
            if re.search(pattern, code) and not (without and re.search(without, code)):
                hits.append(f'{file}:{n}: {line.strip()}')
    return hits


def shape(body):
    body = re.sub(r'//.*', '', body)
    tokens = re.findall(r'b?"[^"]*"|\'.\'|\w+|[^\w\s]', body)
    kept = {'if', 'else', 'match', 'for', 'while', 'loop', 'return', 'let', 'mut', 'in', 'Ok', 'Err', 'Some', 'None'}
    return ' '.join(t if t in kept or not re.match(r'\w|b?"|\'', t) else 'x' for t in tokens)


def point_1(files):
    yield 'enums', lines_with(files, r'^\s*(pub(\(crate\))? )?enum ')
    yield 'flags', lines_with(files, r'\b\w+: bool\b', r'ensures|requires|fn ')
    yield 'numbers for kinds', lines_with(files, r'\b(number|call|kind|which|op): (u8|u16|u32|usize)', r'ensures|requires')
    yield 'arms that pass on', lines_with(files, r'(Ok|Some)\((\w*)\) => (return )?(Ok|Some)\(|Ok\(_\) => None|(None|Err\(\w+\)) => (return )?(Ok|Err|Some|None|false|0|-)|\{ Ok\(Some\(')


def point_2(files):
    shapes = defaultdict(list)
    for file, text in files:
        for f in functions(file, text):
            # a body of one call and no more is no twin
            if len(shape(f.body).split()) >= 24 and '#[test]' not in text[max(0, text.find(f'fn {f.name}') - 40):text.find(f'fn {f.name}')]:
                shapes[shape(f.body)].append(str(f))
    yield 'functions of one shape', [' | '.join(fs) for fs in shapes.values() if len(fs) > 1]
    layouts = defaultdict(list)
    for file, text in files:
        for s in re.finditer(r'struct (\w+)[^;{]*\{([^}]*)\}', text):
            fields = [p for p in re.findall(r'(?:pub(?:\(crate\))? )?(\w+): ([^,\n]+),', s.group(2)) if not p[0].startswith('ghost')]
            layouts[' '.join(re.sub(r'\d+', 'N', t) if re.search(r'\[', t) else 'end' if n in ('end', 'next') else 'x' for n, t in fields)].append(f'{file}: struct {s.group(1)}')
    yield 'structs of one layout', [' | '.join(ss) for k, ss in layouts.items() if len(ss) > 1]


def point_3(files):
    yield 'loops that count or index', lines_with(files, r"^\s*('\w+: )?(while|loop)\b|^\s*for \w+ in [^{]*\.\.")


def point_4(files):
    yield 'by hand', lines_with(files, r'fn \w*(same|equal|before|earlier|compare|print|convert|refusal|number|position|put_|_is\b|name_of|_of_two|copy|first_\d)\w*[<(]')


def point_5(files):
    facts, groups = defaultdict(set), defaultdict(set)
    for file, text in files:
        crate = file.split('/')[1]
        for f in functions(file, text):
            for kind, clause in f.clauses:
                if kind == 'requires':
                    facts[(crate, clause)].add(str(f))
            names = [p for p in f.params if ':' in p]
            for i, a in enumerate(names):
                for b in names[i + 1:]:
                    groups[(crate, a, b)].add(str(f))
    yield 'facts required by three or more', [f'{c}: {{ {k} }} in {len(fs)}' for (c, k), fs in facts.items() if len(fs) >= 3]
    yield 'parameters together in three or more', [f'{c}: ({a}, {b}) in {len(fs)}' for (c, a, b), fs in groups.items() if len(fs) >= 3]


def point_6(files):
    yield 'array fields', lines_with(files, r'^\s*(pub(\(crate\))? )?\w+: \[.*; \w+\],')
    yield 'a number beside', lines_with(files, r'^\s*(pub(\(crate\))? )?(used|count|len|\w+_count): usize,')


def point_7(files):
    yield 'switches', lines_with(files, r'match (op|reach|call|plan|step|which|word|temporal|kind)\b')
    yield 'pointers and dyn', lines_with(files, r'\bdyn\b|: fn\(')


def main():
    args = sys.argv[1:]
    commit = args.pop(0) if args and not args[0].isdigit() else None
    points = [int(a) for a in args] or range(1, 8)
    files = list(sources(commit))
    for p in points:
        for what, hits in globals()[f'point_{p}'](files):
            print(f'## {p} {what}: {len(hits)}')
            for hit in hits:
                print(f'  {hit}')


main()
