#!/usr/bin/env python3
"""Counts in src/ the forms that docs/DESIGN-PASS.md speaks of: for each point a number and then the places.

    python3 tools/forms.py [FOLDER]      the tree at FOLDER, by default the one above this script

1 enums and structs that may stand for an Option or a Result, and numbers for kinds or refusals
2 functions whose bodies are the same but for names, types and numbers
3 loops that count by hand
4 comparisons, conversions and numbers' texts by hand
5 facts that three or more contracts ask for, and parameters that three or more functions take together
6 buffers with a count beside them
7 branches on which step to run: matches with an arm that takes the cells
8 answers and lines of proof, by crate
"""
import collections
import glob
import os
import re
import sys

KEYWORDS = set('let mut while for in if else return match true false as fn loop continue break'.split())
GROUPS = (
    ('cells', 'held'), ('cells', 'packed', 'words'), ('cells', 'job', 'store'), ('axes', 'cells', 'held', 'store'), ('at', 'buffer'),
    ('axes', 'records', 'store'), ('axes', 'held', 'records', 'store'))
BY_HAND = re.compile(
    r'18446744073709551615 -|4294967295 -|-1 - |[%/] 4294967296|\* 4294967296|\* 65536|\* 256\b|if a < b|if count < |!= levels\['
    r'|% 10\b|if z < 0|if number < 0|1048576 < |-bound <=')


def sources(top):
    for path in sorted(glob.glob(top + '/crates/*/src/**/*.rt', recursive=True)):
        crate = path.split('/crates/')[1].split('/')[0]
        yield crate, os.path.basename(path), re.sub(r'//[^\n]*', '', open(path).read())


def closing(text, start, pair):
    """Where the bracket that opens at start closes."""
    depth = 0
    for at in range(start, len(text)):
        depth += {pair[0]: 1, pair[1]: -1}.get(text[at], 0)
        if depth == 0:
            return at
    return len(text)


def functions(text):
    """Each function: its name, the text before its body (parameters and clauses), and its body."""
    for m in re.finditer(r'\bfn (\w+)', text):
        after = text.find('(', m.end())
        starts = [x for x in (text.find('\n{', after), text.find('{\n', after) - 1, text.find('\n    {\n', after) + 4) if x > after]
        if not starts:
            continue
        start = min(starts) + 1
        yield m.group(1), text[m.start():start], text[start:closing(text, start, '{}') + 1]


def shape(body):
    words = re.findall(r'\w+|[^\w\s]', body)
    return ' '.join(w if w in KEYWORDS or not re.match(r'\w', w) else ('0' if w[0].isdigit() else 'x') for w in words)


def conjuncts(head):
    for clause in re.findall(r'requires[^{\n]*\{(.*)\}\s*$', head, re.M):
        for fact in clause.split(' × '):
            yield re.sub(r'\.(now|old)\b', '', fact.strip().strip('()').strip())


def parameters(head):
    start = head.find('(')
    return re.findall(r'(\w+):', head[start:closing(head, start, '()')])


def show(number, title, places):
    print(f'{number} {title}: {len(places)}')
    for place in places:
        print('    ' + place)


def main():
    top = sys.argv[1] if len(sys.argv) > 1 else os.path.dirname(os.path.dirname(os.path.abspath(__file__)))
    enums, numbers, loops, by_hand, beside, steps = [], [], [], [], [], []
    twins, facts, groups = (collections.defaultdict(list) for _ in range(3))
    for crate, name, text in sources(top):
        for number, line in enumerate(text.split('\n'), 1):
            place = f'{crate}/{name}:{number} {line.strip()}'
            if re.match(r'\s*(pub )?enum \w+', line):
                enums.append(place)
            if re.match(r'\s*(pub )?const \w+: u(32|size)', line) or re.search(r'marks: \[u32; 8\]|\bpacked: bool|number: u32', line):
                numbers.append(place)
            if re.match(r"\s*('\w+: )?(while|loop)\b", line):
                loops.append(place)
            if BY_HAND.search(line):
                by_hand.append(place)
        for function, head, body in functions(text):
            where = f'{crate}::{function}'
            if re.search(r'\) -> u32', head) and ('cause' in function or 'number' in function):
                numbers.append(f'{where} answers a number')
            if len(shape(body).split()) > 12:
                twins[shape(body)].append(where)
            for fact in set(conjuncts(head)):
                facts[fact].append(where)
            names = parameters(head)
            for group in GROUPS:
                if all(n in names for n in group):
                    groups[group].append(where)
            if 'count: usize' in head and re.search(r'&(mut )?\[', head):
                beside.append(where)
            if 'match ' in body and re.search(r'=>[^,]*\w+\((?:[^)]*)cells', body, re.S):
                steps.append(where)
        for struct, fields in re.findall(r'struct (\w+)[^{;]*\{([^}]*)\}', text):
            if re.search(r'\[\w+; \d+\]', fields) and re.search(r': usize', fields):
                beside.append(f'{crate}: struct {struct}')
            if re.search(r'(answer|outcome): ', fields):
                enums.append(f'{crate}: struct {struct}, an answer with a value beside it')
    show(1, 'enums and answers', enums)
    show(1, 'numbers for kinds or refusals', numbers)
    show(2, 'groups of twins', [' '.join(v) for v in twins.values() if len(v) > 1])
    show(3, 'loops that count by hand', loops)
    show(4, 'by hand', by_hand)
    show(5, 'facts in three contracts', [f'{len(v)} {k}' for k, v in sorted(facts.items(), key=lambda x: -len(x[1])) if len(v) > 2])
    show(5, 'parameters together', [f'{len(v)} {", ".join(k)}' for k, v in groups.items() if len(v) > 2])
    show(6, 'a buffer with a count beside it', beside)
    show(7, 'branches on a step', steps)
    rows = []
    for crate in sorted(os.listdir(top + '/crates')):
        files = glob.glob(f'{top}/crates/{crate}/proofs/**/*.antt', recursive=True)
        answers = sum(len(re.findall(r'^pub [^\n]*: goal\.', open(f).read(), re.M)) for f in files if f.endswith('Answers.antt'))
        lines = sum(open(f).read().count('\n') for f in files)
        if lines:
            rows.append(f'{crate}: {answers} answers, {lines} lines')
    show(8, 'crates with proofs', rows)


main()
