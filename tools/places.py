#!/usr/bin/env python3
"""Places of the older forms in crates/*/src, point by point: docs/DESIGN-PASS.md says what each point is.

    tools/places.py            counts
    tools/places.py POINT      the places of a point
    tools/places.py --at REV   the same of an earlier commit, with or without POINT
"""
import difflib
import itertools
import re
import subprocess
import sys


def files(rev, under, ending):
    """Names and texts of the files crates/*/UNDER/**ENDING."""
    if rev:
        names = subprocess.run(['git', 'ls-tree', '-r', '--name-only', rev, 'crates'], capture_output=True, text=True, check=True).stdout.split('\n')
    else:
        names = subprocess.run(['git', 'ls-files', '-co', '--exclude-standard', 'crates'], capture_output=True, text=True, check=True).stdout.split('\n')
    wanted = sorted(n for n in set(names) if n.endswith(ending) and n.split('/')[2:3] == [under])
    for name in wanted:
        if rev:
            yield name, subprocess.run(['git', 'show', f'{rev}:{name}'], capture_output=True, text=True, check=True).stdout
        else:
            try:
                yield name, open(name).read()
            except FileNotFoundError:
                pass


def lines(sources, pattern):
    return [f'{name}:{n}: {line.strip()}' for name, text in sources for n, line in enumerate(text.split('\n'), 1)
            if re.search(pattern, line) and not line.lstrip().startswith(('//', 'ghost use', 'pub const TABLE'))]


def braced(text, start):
    """The place after the brace that closes the one before start."""
    depth = 1
    while depth:
        depth += {'{': 1, '}': -1}.get(text[start], 0)
        start += 1
    return start


def functions(sources):
    """Name, parameters, clauses and body of each function."""
    for name, text in sources:
        for m in re.finditer(r'^( *)(?:pub(?:\([a-z]+\))? )?(?:extern "C" )?fn (\w+)(?:<[^\n(]*>)?\(', text, re.M):
            rest = text[m.end():]
            depth, end = 1, 0
            while depth:
                depth += {'(': 1, ')': -1}.get(rest[end], 0)
                end += 1
            params, rest = rest[:end - 1], rest[end:]
            body = re.search(r'^' + m.group(1) + r'(?:\{\}|\})$|\{\}$|;$', rest, re.M)
            rest = rest[:body.end()] if body else rest
            clauses, code = [], rest
            while clause := re.search(r'\b(?:requires|ensures)(?: \w+)? \{', code):
                end = braced(code, clause.end())
                clauses.append(' '.join(code[clause.end():end - 1].split()))
                code = code[:clause.start()] + code[end:]
            yield f'{name}: {m.group(2)}', re.findall(r'(\w+): ', params), clauses, code


def twins(sources):
    """Pairs of functions of a crate whose bodies are alike but for a name, a type or a number."""
    def tokens(code):
        return re.findall(r'\w+|[^\s\w]', code)
    found = []
    for a, b in itertools.combinations(functions(sources), 2):
        x, y = tokens(a[3]), tokens(b[3])
        if a[0].split('/')[1] == b[0].split('/')[1] and min(len(x), len(y)) >= 24 and difflib.SequenceMatcher(None, x, y, False).ratio() >= 0.8:
            found.append(f'{a[0]} and {b[0]}')
    return found


def shared(sources):
    """Clauses of three functions or more of a crate, and three parameters or more that as many functions share."""
    by_clause, by_params = {}, {}
    for name, params, clauses, _ in functions(sources):
        crate = name.split('/')[1]
        for clause in set(clauses):
            by_clause.setdefault((crate, clause), []).append(name)
        for group in itertools.combinations(sorted(set(params)), 3):
            by_params.setdefault((crate, group), []).append(name)
    found = [f'{len(names)} functions of {crate}: {clause}' for (crate, clause), names in by_clause.items() if len(names) >= 3]
    groups = {}
    for (crate, group), names in by_params.items():
        if len(names) >= 3:
            groups.setdefault((crate, tuple(names)), set()).update(group)
    return found + [f'{len(names)} functions of {crate} take {", ".join(sorted(group))}' for (crate, names), group in groups.items()]


def answers(proofs):
    return [f'{name}: {goal}' for name, text in proofs if name.endswith('Answers.antt') for goal in re.findall(r'^pub (\S+) : goal', text, re.M)]


def places(rev):
    sources = list(files(rev, 'src', '.rt'))
    proofs = list(files(rev, 'proofs', '.antt'))
    return {
        '1': lines(sources, r'\benum \w|\(bool|bool\)|^\s*(?:pub )?\w+: bool,|-> (?:u8|u32)\b|^type \w+ = \(|return 0;'),
        '2': twins(sources),
        '3': lines(sources, r'\bwhile |\bfor .* in .*\.\.|\+= 1;'),
        '4': lines(sources, r'fn (?:of|number|bytes|to_bytes|from\w*|try_from|eq|cmp|clone|fmt|hex_digit|told|sentence)\b|matches!|derive\((?:Clone, Copy|Drop)\)'),
        '5': shared(sources),
        '6': lines(sources, r'\[\w+; \w+\],$|\bplace: |\bcount: usize|\bindex: usize|\bnode: usize'),
        '7': lines(sources, r'\bfn\(|\bdyn |blank: bool|part: Part'),
        '8': answers(proofs),
    }


def main(words):
    rev = None
    if words[:1] == ['--at']:
        rev, words = words[1], words[2:]
    found = places(rev)
    if words:
        print('\n'.join(found[words[0]]))
    else:
        for point, at in found.items():
            print(f'{point}: {len(at)}')


main(sys.argv[1:])
