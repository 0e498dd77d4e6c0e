#!/usr/bin/env python3
"""The places of the design pass: python3 tools/places.py [FOLDER [POINT]].

FOLDER holds crates/ (default: the repository). For each point of docs/DESIGN-PASS.md it prints the places that its
patterns find in crates/*/src, and at the end a count for each point. A pattern finds what may be a place; the page says
which of them are, and which stay and why.
"""
import collections
import glob
import os
import re
import sys

ROOT = sys.argv[1] if len(sys.argv) > 1 else os.path.join(os.path.dirname(__file__), '..')
ONLY = sys.argv[2] if len(sys.argv) > 2 else None

SOURCES = {}
for path in sorted(glob.glob(os.path.join(ROOT, 'crates', '*', 'src', '**', '*.rt'), recursive=True)):
    SOURCES[os.path.relpath(path, os.path.join(ROOT, 'crates'))] = open(path, encoding='utf-8').read()

FN = re.compile(r'^( *)(?:pub )?fn (\w+)(?:<[^>]*>)?\((.*?)\)([^\n{]*(?:\n[^{}]*?(?:requires|ensures)[^\n]*)*)(?:\n\1| )\{\n(.*?)\n\1\}', re.S | re.M)
KEYWORDS = set('if else match for in while let mut return true false as self Self Ok Err Some None fn pub usize u8 u16 u32 u64 i64 bool char str'.split())


def functions():
    for path, text in SOURCES.items():
        for m in FN.finditer(text):
            yield path, m.group(2), m.group(3), m.group(4), m.group(5)


def lines(pattern):
    found = []
    for path, text in SOURCES.items():
        for n, line in enumerate(text.split('\n'), 1):
            if re.search(pattern, line):
                found.append(f'{path}:{n}: {line.strip()}')
    return found


def clauses(head):
    return re.findall(r'(requires|ensures)[ \w]*\{ (.*?) \}(?=\n|$)', head)


def skeleton(body):
    names, out = {}, []
    for token in re.findall(r'"[^"]*"|b?\'(?:\\.|[^\'])\'|\w+|[^\w\s]', body):
        if re.fullmatch(r'[0-9]\w*|".*"|b?\'.*\'', token):
            out.append('#')
        elif re.fullmatch(r'\w+', token) and token not in KEYWORDS:
            out.append(names.setdefault(token, f'v{len(names)}'))
        else:
            out.append(token)
    return ' '.join(out)


def point1():
    found = lines(r'^\s+(pub )?(fault: Option<|judged: Result<|short: bool)')
    for path, name, args, head, body in functions():
        if re.search(r'-> bool', head) and name in ('push', 'cut', 'store', 'put'):
            found.append(f'{path}: {name} answers a flag')
        if re.search(r'-> u8', head) and body.strip() == '0':
            found.append(f'{path}: {name} answers a number that says nothing')
        if re.search(r'-> u8', head) and (len(re.findall(r'=> \d+,', body)) > 3 or body.strip() == 'terminal as u8'):
            found.append(f'{path}: {name} numbers kinds')
        if re.search(r'\(u8, (u16|usize)\)', head) or (re.search(r'-> (u8|u64|usize)', head) and '.number()' in body):
            found.append(f'{path}: {name} answers numbers for refusals')
    found += lines(r'^pub enum Ahead|^    Slip\(Slip\),')
    return found


def point2():
    groups = collections.defaultdict(list)
    for path, name, args, head, body in functions():
        shape = skeleton(body)
        if shape.count(' ') >= 12 and '/tests' not in path and '_cases' not in path:
            groups[shape].append(f'{path}: {name}')
    found = [' = '.join(g) for g in groups.values() if len(g) > 1]
    types = collections.defaultdict(list)
    for path, text in SOURCES.items():
        for m in re.finditer(r'^pub (struct|enum) (\w+)(?:<[^>]*>)? \{\n(.*?)\n\}', text, re.S | re.M):
            shape = ' '.join(re.findall(r'^\s*(?:pub )?(\w+)', m.group(3), re.M))
            types[shape].append(f'{path}: {m.group(2)}')
    found += [' = '.join(g) for g in types.values() if len(g) > 1]
    return found


def point3():
    return lines(r'^\s*(for [a-z]\w* in [^{]*\.\.|while [a-z]\w* <)|left -= 1')


BY_HAND = 'is_same is_sooner boolean_byte behind_head type_of mark_of hex_digit hex_letter push_char joined write_head number_at no_piece blank no_conds no_selections no_rules words room told placed'.split()


def point4():
    found = [f'{path}: {name}' for path, name, args, head, body in functions() if name in BY_HAND]
    found += [f'{path}: {name} matches a result only to hand it on' for path, name, args, head, body in functions()
              if re.search(r'Err\((\w+)\) => Err\(\1\)|Ok\((\w+)\) => Ok\(\2\)|None => return None|Ok\(_\) => None', body)]
    return found


def point5():
    facts, together = collections.defaultdict(set), collections.defaultdict(set)
    for path, text in SOURCES.items():
        crate = path.split('/')[0]
        for m in re.finditer(r'fn (\w+)(?:<[^>]*>)?\((.*?)\)(.*?)\n\s*(?:\{|;)', text, re.S):
            name, args, head = m.groups()
            for kind, clause in clauses(head):
                facts[(crate, kind, clause)].add(name)
            params = [a.split(':')[0].strip().replace('mut ', '') for a in args.split(',') if ':' in a]
            for i, a in enumerate(params):
                for b in params[i + 1:]:
                    together[(crate, a, b)].add(name)
    found = [f'{c}: {k} {{ {t} }} in {len(v)}' for (c, k, t), v in sorted(facts.items()) if len(v) >= 3]
    found += [f'{c}: ({a}, {b}) in {len(v)}' for (c, a, b), v in sorted(together.items()) if len(v) >= 4]
    return found


def point6():
    return lines(r'^\s+(pub )?(items|slots|atoms|follow): (\[|&)|^\s+(pub )?(len|places): usize')


def point7():
    return lines(r'fn has\(class|fn past\(class')


def point8():
    found = []
    for path in sorted(glob.glob(os.path.join(ROOT, 'crates', '*', 'proofs', '**', '*.antt'), recursive=True)):
        rel = os.path.relpath(path, os.path.join(ROOT, 'crates'))
        text = open(path, encoding='utf-8').read()
        if rel.endswith('Answers.antt'):
            found += [f'{rel}: {g}' for g in re.findall(r'^pub (\S+) : goal', text, re.M)]
        elif not rel.endswith(('Invariants.antt', 'Lib.antt')):
            found += [f'{rel}: lemma {g}' for g in re.findall(r'^(?:pub )?([^\s:]+) : ', text, re.M)]
    return found


POINTS = dict(zip('12345678', (point1, point2, point3, point4, point5, point6, point7, point8)))
counts = []
for number, point in POINTS.items():
    if ONLY in (None, number):
        found = point()
        counts.append(f'{number}: {len(found)}')
        print(f'## {number}')
        if number != '8' or ONLY:
            print('\n'.join(found))
print('counts: ' + ', '.join(counts))
