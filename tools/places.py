#!/usr/bin/env python3
"""Counts the places in crates/*/src that an older form of the language shows, by point of docs/DESIGN-PASS.md.

    tools/places.py [-l] [TOP]      a line for each count; with -l the places too
"""
import collections
import glob
import os
import re
import sys

LIST = '-l' in sys.argv
TOP = next((a for a in sys.argv[1:] if a != '-l'), '.')


def files():
    for path in sorted(glob.glob(os.path.join(TOP, 'crates/*/src/*.rt'))):
        with open(path, encoding='utf-8') as f:
            text = f.read()
        yield os.path.relpath(path, os.path.join(TOP, 'crates')), text


def bare(text):
    """the text without comments and clauses, each line kept"""
    text = re.sub(r'//[^\n]*', '', text)
    out, depth, clause = [], 0, False
    for line in text.split('\n'):
        if not clause and re.match(r'\s*(requires|ensures|ghost)\b', line):
            clause, depth = True, 0
        if clause:
            depth += line.count('{') - line.count('}')
            out.append('')
            if depth <= 0:
                clause = False
            continue
        out.append(line)
    return '\n'.join(out)


def tell(what, places):
    print(f'{what}: {len(places)}')
    if LIST:
        for place in places:
            print('   ', place)


def lines_of(pattern):
    found = []
    for path, text in SOURCES:
        for n, line in enumerate(text.split('\n'), 1):
            if re.search(pattern, line):
                found.append(f'{path}:{n}: {line.strip()}')
    return found


def functions():
    """each function: path, line, name, parameters, answer, body"""
    for path, text in SOURCES:
        for m in re.finditer(r'^( *)(?:pub(?:\([a-z]+\))? )?(?:unsafe )?(?:extern "C" )?(?:final )?(?:const )?fn (\w+)(?:<[^{(]*>)?\(', text, re.M):
            at, depth = m.end(), 1
            while depth:
                depth += {'(': 1, ')': -1}.get(text[at], 0)
                at += 1
            params = ' '.join(text[m.end():at - 1].split())
            start = text.index('{', at)
            answer = ' '.join(text[at:start].split())
            end, depth = start + 1, 1
            while depth:
                depth += {'{': 1, '}': -1}.get(text[end], 0)
                end += 1
            yield path, text.count('\n', 0, m.start()) + 1, m.group(2), params, answer, text[start:end]


def structs():
    for path, text in SOURCES:
        for m in re.finditer(r'^(?:pub(?:\([a-z]+\))? )?struct (\w+)(?:<[^{(]*>)? \{(.*?)^\}', text, re.M | re.S):
            yield path, text.count('\n', 0, m.start()) + 1, m.group(1), m.group(2)


SOURCES = [(path, bare(text)) for path, text in files()]
FUNCTIONS = list(functions())
STRUCTS = list(structs())

# point 1
tell('1 own enums', lines_of(r'^(pub(\([a-z]+\))? )?enum '))
FLAGS = r'\b(number|lawful|allowed|sound|refused|outcome): (u64|bool|Outcome)\b'
tell('1 fields that say which answer the others are', [f'{p}:{n}: {name}: {m.group(0)}' for p, n, name, body in STRUCTS for m in re.finditer(FLAGS, body)])
tell('1 functions that answer a number for a refusal', [f'{p}:{n}: {name}' for p, n, name, _, answer, body in FUNCTIONS
                                              if re.match(r'-> (u64|usize)\b', answer) and len(re.findall(r'return \d+;', body)) > 1])

# point 2: bodies that are one when names, types and numbers are taken out
def skeleton(body):
    return re.sub(r'\b\w+\b', lambda m: m.group(0) if m.group(0) in {'if', 'else', 'while', 'for', 'in', 'return', 'let', 'mut', 'match', 'break'} else 'x', ''.join(body.split(' ')).replace('\n', ' '))


groups = collections.defaultdict(list)
for p, n, name, params, answer, body in FUNCTIONS:
    groups[skeleton(' '.join(body.split()))].append(f'{p}:{n}: {name}')
tell('2 functions whose bodies differ in names alone (of 60 signs or more)', sorted(' = '.join(g) for s, g in groups.items() if len(g) > 1 and len(s) >= 60))
groups = collections.defaultdict(list)
for p, n, name, body in STRUCTS:
    groups[re.sub(r'\b\w+\b', 'x', ' '.join(body.split()))].append(f'{p}:{n}: {name}')
    fields = re.findall(r'(\w+): ([^,]+),', body)
    if [f for f, _ in fields] == ['first', 'second']:
        groups['two'].append(f'{p}:{n}: {name}')
tell('2 structs of two answers', groups.pop('two', []))

# point 3
tell('3 while and loop', lines_of(r'^\s*(while|loop)\b'))
tell('3 counters moved by hand', lines_of(r'^\s*\w+ [+-]= 1;'))

# point 4
tell('4 comparisons through .0 on both sides', lines_of(r'\b\w+(\.\w+)*\.0 (<=|>=|<|>|==|!=) \w+(\.\w+)*\.0\b'))
tell('4 fields set from a name that is theirs', lines_of(r'^\s*(\w+): \1,$'))
tell('4 parts taken out into a name that is theirs', lines_of(r'^\s*let (\w+) = \w+\.\1;'))

# point 5
pairs = collections.Counter()
where = collections.defaultdict(list)
for p, n, name, params, _, _ in FUNCTIONS:
    names = [re.sub(r'^mut ', '', x.strip()) for x in re.split(r',(?![^<(\[]*[>)\]])', params) if ':' in x]
    for a in range(len(names)):
        for b in range(a + 1, len(names)):
            pairs[names[a], names[b]] += 1
            where[names[a], names[b]].append(name)
tell('5 pairs of parameters in three functions or more', [f'{a}, {b}: ' + ' '.join(where[a, b]) for (a, b), k in sorted(pairs.items()) if k >= 3])

# point 6
tell('6 structs of arrays with a count beside', [f'{p}:{n}: {name}' for p, n, name, body in STRUCTS if re.search(r'\bcount: ', body) and '; ' in body])
tell('6 structs with arrays side by side', [f'{p}:{n}: {name}' for p, n, name, body in STRUCTS if len(re.findall(r': \[', body)) > 1])

# point 7
tell('7 function pointers, tables of functions', lines_of(r'\bfn\(|: \[fn'))

# point 8
answers = glob.glob(os.path.join(TOP, 'crates/*/proofs/**/Answers.antt'), recursive=True)
proofs = [p for p in glob.glob(os.path.join(TOP, 'crates/*/proofs/**/*.antt'), recursive=True)]
print(f'8 files of answers: {len(answers)}')
print(f'8 lines of answers: {sum(sum(1 for _ in open(p)) for p in answers)}')
print(f'8 lines of proofs: {sum(sum(1 for _ in open(p)) for p in proofs)}')
