#!/usr/bin/env python3
"""Counts the places of the eight points of docs/DESIGN-PASS.md in crates/*/src: design_counts.py [COMMIT] [-v]"""
import collections, re, subprocess, sys

VERBOSE = '-v' in sys.argv
COMMIT = next((a for a in sys.argv[1:] if not a.startswith('-')), 'HEAD')


def git(*args):
    return subprocess.run(['git', *args], check=True, capture_output=True, text=True).stdout


paths = [p for p in git('ls-tree', '-r', '--name-only', COMMIT, 'crates').split('\n') if re.match(r'crates/\w+/src/.*\.rt$', p)]
files = {p: git('show', f'{COMMIT}:{p}') for p in paths}


def functions():
    for path, text in files.items():
        for m in re.finditer(r'^( *)(?:pub )?(?:extern "C" )?fn (\w+)(<.*?>)?\((.*?)\)(.*?)^\1\{\n(.*?)^\1\}$', text, re.S | re.M):
            yield path, m.group(2), m.group(4), m.group(5), m.group(6)
        for m in re.finditer(r'^( *)(?:pub )?fn (\w+)(<.*?>)?\(([^{}]*?)\)([^{}]*?) \{\n(.*?)^\1\}$', text, re.S | re.M):
            yield path, m.group(2), m.group(4), m.group(5), m.group(6)


found = collections.defaultdict(list)
for path, text in files.items():
    for m in re.finditer(r'enum (\w+)[^{]*\{(.*?)^\}', text, re.S | re.M):
        if re.search(r'^\s*(Refused|Absent|Nowhere|Invalid|Truncated|Passed)\b', m.group(2), re.M) and 'Short' not in m.group(2):
            found[1].append((path, 'enum ' + m.group(1)))
    for m in re.finditer(r'struct (\w+) \{(.*?)^\}', text, re.S | re.M):
        if re.search(r'(some|counted): bool|check: (Check|Result)', m.group(2)):
            found[1].append((path, 'flag in ' + m.group(1)))
    for m in re.finditer(r'(refusal|which): &mut u64|\b(what): u64,|\b(kind): u8,', text):
        found[1].append((path, m.group(0)))

normal = collections.defaultdict(list)
for path, name, params, rest, body in functions():
    key = re.sub(r'\b(u8|u16|u32|u64|usize)\b', 'T', params + '|' + body)
    key = re.sub(r'0x[0-9a-fA-F_]+|\d+', 'N', key)
    key = re.sub(r'_(u8|u16|u32|u64|two|four|eight|fourteen)\b', '_T', key)
    key = re.sub(r'\b[A-Z]\w*\b', 'X', key)
    key = re.sub(r'\b(meta|profile|cct|trace|profiles|contexts|lines|metric|scope|summary|title|description)(s|_\w+)?\b', 'W', key)
    key = re.sub(r'\b\w+::\w+', 'P', key)
    normal[re.sub(r'\s+', ' ', key)].append((path, name))
for group in normal.values():
    if len(group) > 1 and 'src/main' not in group[0][0]:
        found[2] += group

for path, name, params, rest, body in functions():
    for m in re.finditer(r'while ([^{]*)\{', body):
        for v in set(re.findall(r'\b[a-z]\w*\b', m.group(1))):
            if re.search(rf'\b{v} (\+|-)= (1|4|16|2);', body):
                found[3].append((path, f'{name}: while {m.group(1).strip()}'))
                break

HAND = r'number|code|bit|digits|hexadecimal|spaced|newline|more|wide|as_u32|room|size|word|end_word'
for path, name, params, rest, body in functions():
    if re.fullmatch(HAND, name):
        found[4].append((path, name))

clauses = collections.defaultdict(list)
for path, name, params, rest, body in functions():
    for m in re.finditer(r'requires (?:\w+ )?\{ (.*?) \}$', rest, re.M):
        clauses[re.sub(r'\.now|\.old', '', m.group(1))].append((path, name))
for clause, users in clauses.items():
    if len(users) >= 3:
        found[5] += [(p, f'{n}: {clause}') for p, n in users]

for path, text in files.items():
    for m in re.finditer(r'&(?:mut )?\w+\[\.\.\w+\]|\bof_\w+: usize|&\[u64; TARGETS\]', text):
        found[6].append((path, m.group(0)))
    for m in re.finditer(r'match (what|kind) \{|if kind == b', text):
        found[7].append((path, m.group(0)))

answers = [p for p in git('ls-tree', '-r', '--name-only', COMMIT, 'crates').split('\n') if p.endswith('/Answers.antt')]
for point in range(1, 8):
    print(f'{point}: {len(found[point])}')
    if VERBOSE:
        for path, what in found[point]:
            print(f'    {path}: {what}')
print(f'8: {len(answers)} files of answers')
