#!/usr/bin/env python3
"""Counts the places in crates/*/src that an older form of the language left: `tools/places.py [-v] [CHECKOUT]`.

1 enums of the shape of Option or Result, and numbers for kinds and refusals; 2 twins; 3 loops that count by hand; 4 order, equality, copies,
conversion and printing by hand; 5 facts in the `requires` of three or more functions, and parameters that travel together; 6 parallel arrays, and
buffers with a place beside them; 7 tables of functions and boxed steps; 8 answers in proofs/. With -v it lists them."""
import os
import re
import sys
from collections import defaultdict

verbose = '-v' in sys.argv
names = [a for a in sys.argv[1:] if a != '-v']
root = names[0] if names else os.path.join(os.path.dirname(os.path.abspath(__file__)), '..')
found = defaultdict(list)


def files(kind, ends):
    for crate in sorted(os.listdir(os.path.join(root, 'crates'))):
        top = os.path.join(root, 'crates', crate, kind)
        for folder, _, inside in sorted(os.walk(top)):
            for name in sorted(inside):
                if name.endswith(ends):
                    path = os.path.join(folder, name)
                    yield os.path.relpath(path, os.path.join(root, 'crates')), open(path).read()


def functions(text):
    """(name, line, signature with clauses, body)"""
    for m in re.finditer(r'^( *)(?:pub(?:\(crate\))? )?(?:extern "C" )?fn (\w+)', text, re.M):
        indent = m.group(1)
        end = re.search(r'^' + indent + r'\}', text[m.start():], re.M)
        whole = text[m.start():m.start() + (end.end() if end else 0)]
        cut = re.search(r'\n' + indent + r'\{|\{\n', whole)
        at = cut.start() if cut else len(whole)
        yield m.group(2), text.count('\n', 0, m.start()) + 1, whole[:at], whole[at:]


groups = defaultdict(list)
facts = defaultdict(list)
LENT = {'literal', 'binding_cells', 'binding_text', 'cells', 'text'}
for path, text in files('src', '.rt'):
    code = re.sub(r'//[^\n]*', '', text)
    # 1
    for m in re.finditer(r'enum (\w+)(?:<[^>]*>)? \{(.*?)^\}', code, re.S | re.M):
        variants = [v.strip() for v in re.split(r',\s*\n', m.group(2)) if v.strip()]
        bare = [v for v in variants if '(' not in v]
        if len(variants) == 2 and len(bare) < 2:
            found[1].append(f'{path}: enum {m.group(1)}, {"Option" if bare else "Result"}')
    for m in re.finditer(r'^(?:pub )?const (\w+): u8 = ', code, re.M):
        found[1].append(f'{path}: number {m.group(1)}')
    for m in re.finditer(r'\b(\w+)\(u8, usize\)', code):
        found[1].append(f'{path}: a number and a place in {m.group(1)}')
    # 2
    for name, line, head, body in functions(code):
        words = re.sub(r'\b(u8|u16|u32|u64|usize|i64|bool)\b', 'T', body)
        words = re.sub(r'\b[A-Z]\w*\b', 'C', words)
        words = re.sub(r'\b\d\w*\b', '0', words)
        words = re.sub(r'\b[a-z]\w*\b', lambda w: w.group(0) if w.group(0) in ('if', 'else', 'while', 'for', 'in', 'match', 'return', 'let', 'mut', 'as') else 'x', words)
        words = re.sub(r'\s+', '', words)
        if len(words) > 40:
            groups[words].append(f'{path}:{line} {name}')
    # 3
    for m in re.finditer(r'^\s*(?:\'\w+: )?while ', code, re.M):
        found[3].append(f'{path}:{code.count(chr(10), 0, m.start()) + 2}')
    # 4
    for name, line, head, body in functions(code):
        if re.match(r'(shorter|deeper|lesser|greater|flip|magnitude|size_of|signed|signed_of|word_of|int_of|bits_of|wide|text_order|same_text|sizes|bool_order|of_order|write_\w+|say_number)$', name) and path.split('/')[0] != 'numbers_order' or name in ('flip', 'sizes'):
            found[4].append(f'{path}:{line} {name}')
    # 5
    for name, line, head, body in functions(code):
        signature = head.split(' requires ')[0].split(' ensures ')[0]
        params = set(re.findall(r'(\w+): ', signature))
        if len(params & LENT) >= 3:
            found[5].append(f'{path}:{line} {name}: {len(params & LENT)} slices of the memory')
        if {'space', 'first', 'length'} <= params:
            found[5].append(f'{path}:{line} {name}: a part by three')
        if 'out' in params and 'at' in params:
            found[5].append(f'{path}:{line} {name}: a page by two')
        for clause in re.findall(r'requires (?:\w+ )?\{ (.*?) \}\n', head + '\n', re.S):
            for part in re.split(r' × ', clause):
                part = part.strip().strip('()')
                part = re.sub(r'\b(at|place|first|step|guard|list|init|res|one|two|places\.\w+)\b', 'AT', part)
                facts[part].append(f'{path}:{line} {name}')
    # 6
    for m in re.finditer(r'let mut (\w+) = \[\d*\w*; \w+\];\n\s*let mut (\w+) = \[', code):
        found[6].append(f'{path}: {m.group(1)} beside {m.group(2)}')
    # 7
    for m in re.finditer(r'\b(Box<dyn|\[fn\()', code):
        found[7].append(f'{path}: {m.group(1)}')
for same in groups.values():
    if len(same) > 1:
        found[2].append(', '.join(same))
for fact, where in facts.items():
    if len({w for w in where}) >= 3:
        found[5].append(f'{len(set(where))} functions ask: {fact}')
answers = lemmas = 0
for path, text in files('proofs', '.antt'):
    if path.endswith('Answers.antt'):
        answers += len(re.findall(r'^pub \S+ : goal\.', text, re.M))
for point in range(1, 8):
    print(point, len(found[point]))
    if verbose:
        for place in found[point]:
            print('   ', place)
print(8, answers, 'answers')
