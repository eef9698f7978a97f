#!/usr/bin/env python3
"""Counts the places in src/ that docs/DESIGN-PASS.md speaks of, point by point.

    python3 tools/places.py [-v] [POINT ..]

One line for each kind of place with its number; with -v each place too. Reads crates/*/src and, for point 8, crates/*/proofs.
"""
import collections
import glob
import os
import re
import sys

os.chdir(os.path.join(os.path.dirname(os.path.abspath(__file__)), '..'))


def sources():
    for path in sorted(glob.glob('crates/*/src/*.rt')):
        yield path, open(path, encoding='utf-8').read()


def code(text):
    """The text with its comments blanked, line for line."""
    return re.sub(r'//[^\n]*', '', text)


def lines(pattern, where=None):
    out = []
    for path, text in sources():
        if where and not re.search(where, path):
            continue
        for n, line in enumerate(code(text).split('\n'), 1):
            if re.search(pattern, line):
                out.append((f'{path}:{n}', line.strip()))
    return out


def functions():
    """(path, line, name, parameters, clauses) of each function."""
    out = []
    for path, text in sources():
        text = code(text)
        for m in re.finditer(r'\bfn (\w+)\s*(?:<[^>(]*>)?\(([^{]*?)\)([^{]*(?:\{[^{}]*\}[^{}]*?)*?)\n\s*\{', text):
            out.append((path, text.count('\n', 0, m.start()) + 1, m.group(1), m.group(2), m.group(3)))
    return out


def point1():
    yield 'types with a verdict or a number of a refusal beside a value', lines(
        r'^\s+(pub )?(right|fit|whole|line|refusal|answer|engine): (bool|u32|Answer),')
    yield 'enums with a variant for nothing or for a refusal', lines(r'^\s+(End|Refused\(\w+\)),$')
    yield 'refusals made, tested or passed on as numbers', lines(
        r'Answer::(refused|served)\(|\bor_else\(.*[0-9]+\)|(refusal|of_counter|text|tag|line|open) [!=]= 0|return 1[0-9];')
    yield 'functions that answer by a refusal number or a number in the place of none', lines(
        r'fn \w+\(.*\) -> Answer$|^\) -> Answer$|fn (for_\w+|or_else|of_text|of_tag|number_line|first_broken)\(')
    yield 'kinds as numbers', lines(r'\bengine (==|:) ?(u32|[0-9])|cipher [!=]= (64|128)\b')


def point2():
    groups = collections.defaultdict(set)
    for path, text in sources():
        crate = path.split('/')[1]
        for n, line in enumerate(code(text).split('\n'), 1):
            m = re.search(r'\b(?:fn|struct|enum) (\w+)', line)
            if not m:
                continue
            stem = re.sub(r'(4|8|16|32|64|128)(h?)$', '#', m.group(1))
            place = re.sub(r'(4|8|16|32|64|128)(h?)\.rt$', '#.rt', os.path.basename(path))
            if stem != m.group(1) or place != os.path.basename(path):
                if stem == m.group(1):
                    stem = f'{place} {stem}'
                groups[crate, stem].add((f'{path}:{n}', m.group(1)))
    found = []
    for (crate, stem), members in sorted(groups.items()):
        if len(members) > 1:
            found += sorted(members)
    yield 'functions and types that differ from another by a size at the end of their or their file\'s name', found


def point3():
    yield 'for loops over numbers', lines(r'\bfor \w+ in [\w.]+\.\.')
    yield 'while loops', lines(r'\bwhile (?!let\b)')


def point4():
    yield 'equality and order', lines(r'\bfn (same|starts_with|differ|least|shorter|tries_same)\(')
    yield 'conversions', lines(
        r'\bfn (split\d|join\d|load\d+|store\d+|pair|pair_of\w*|put_pair|read_block|number|of|narrowed|state|new|place_in|words_of|length_of|number_of|count_of|'
        r'place_of|direction|basis_in|here_in|write_here|basis_of|words|round_keys|shifted|digit|nibble)\(')
    yield 'operators', lines(r'\bfn (xored|xor64|xor128)\(')
    yield 'printing', lines(r'\bio::(print|write)_\w+\(')


def facts():
    count = collections.defaultdict(list)
    for path, n, name, params, clauses in functions():
        for clause in re.findall(r'requires \w*\s*\{([^{}]*)\}', clauses):
            for fact in clause.split('×'):
                fact = re.sub(r'\s+', ' ', fact).strip()
                fact = re.sub(r'^\((.*)\)$', r'\1', fact)
                count[fact].append((f'{path}:{n}', name))
    return count


def point5():
    found = []
    for fact, where in sorted(facts().items(), key=lambda x: -len(x[1])):
        if len(where) >= 3:
            found += [(w, f'{name}: {fact}') for w, name in where]
    yield 'facts that three functions or more ask for', found
    sets = [('s', 't', 'keys', 'rounds'), ('cipher', 'rounds', 'key'), ('cipher', 'keys', 'rounds'), ('sealing', 'cipher', 'rounds', 'key_len'),
            ('counter', 'offset', 'input', 'out'), ('out', 'at'), ('file', 'place')]
    for names in sets:
        found = []
        for path, n, name, params, clauses in functions():
            have = re.findall(r'(\w+):', params)
            if all(x in have for x in names):
                found.append((f'{path}:{n}', name))
        if len(found) >= 3:
            yield f'functions with the parameters {", ".join(names)}', found


def point6():
    yield 'buffers whose part in use is told by a number', lines(r'let mut \w+ = \[0(u8)?; ?\d+\];')
    yield 'fields numbered by hand', lines(r'^\s+(pub )?(x0|w0|m02|a): (u8|u32|u64),')
    yield 'structs with a length beside', lines(r'^\s+(pub )?(size|count): usize,')


def point7():
    yield 'switches on a direction or a kind', lines(r'\bif (sealing|on|seals|making|c\.engine|engine)\b|\bmatch (self|x|y|b)\b')


def point8():
    proofs = sorted(glob.glob('crates/*/proofs/**/*.antt', recursive=True))
    for name in ('Proof.antt', 'Answers.antt', 'Invariants.antt'):
        yield f'files {name}', [(p, '') for p in proofs if os.path.basename(p) == name]


POINTS = {str(i): globals()[f'point{i}'] for i in range(1, 9)}


def main():
    words = sys.argv[1:]
    verbose = '-v' in words
    for point in [w for w in words if w in POINTS] or POINTS:
        for what, places in POINTS[point]():
            print(f'point {point}: {what}: {len(places)}')
            if verbose:
                for where, text in places:
                    print(f'    {where}: {text}')


main()
