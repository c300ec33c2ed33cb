#!/usr/bin/env python3
"""places: where the code in crates/*/src has a form that Rattle has a plainer one for.

  tools/places.py [POINT]     the places of each point, or of one, with how many there are; run at the top of a checkout

The points are those of docs/DESIGN-PASS.md. A line that is printed is a place to look at, not a verdict.
"""
import re
import sys
from collections import defaultdict
from pathlib import Path

FN = re.compile(r'^( *)(?:#\[.*\]\n\1)*(?:pub(?:\(crate\))? )?(?:extern "C" )?fn (\w+)', re.M)
GROUPS = [('table', 'state'), ('flow', 'occupancy'), ('buffer', 'at'), ('out', 'at'), ('n', 'state'), ('n', 'sheet'), ('n', 'demand'),
          ('old', 'state', 'new'), ('chunk', 'from'), ('k', 'scan'), ('state', 'row', 'sheet', 'out')]


def functions():
    """path, line, name, signature, clauses, body of each function"""
    for path in sorted(Path('crates').glob('*/src/*.rt')):
        text = path.read_text()
        for found in FN.finditer(text):
            end = re.compile(r'^' + found.group(1) + r'\}', re.M).search(text, found.end())
            whole = text[found.start():end.end()]
            head, _, body = whole.partition('\n' + found.group(1) + '{\n')
            if not body:
                head, body = whole, ''
            cut = re.search(r'\n\s*(requires|ensures)\b', head)
            signature = head[:cut.start()] if cut else head
            clauses = [' '.join(c.split()) for c in re.split(r'\n\s*(?=requires|ensures)', head[cut.start():])[1:]] if cut else []
            yield path, text.count('\n', 0, found.start()) + 1, found.group(2), signature, clauses, body


def parameters(signature):
    return re.findall(r'(\w+): ', signature[signature.index('('):])


def point1():
    for path in sorted(Path('crates').glob('*/src/*.rt')):
        for found in re.finditer(r'^(?:pub )?enum (\w+) \{\n(.*?)^\}', path.read_text(), re.M | re.S):
            variants = re.findall(r'^    (\w+)(.?)', re.sub(r'^ *//.*\n', '', found.group(2), flags=re.M), re.M)
            plain = all(v[1] == ',' for v in variants)
            if len(variants) <= 3 and not plain:
                yield f'{path}: enum {found.group(1)} of {len(variants)}'
    for path, line, name, signature, clauses, body in functions():
        if re.search(r'-> usize$', signature) and any(re.search(r'least|first_failing|misfit', c) for c in clauses):
            yield f'{path}:{line}: {name}: an index past the last for none'
        for kind in re.findall(r'\b(number: (?:u32|usize)|queues: bool|asked: u32)', signature):
            if re.search(r'if !?(number|queues)\b|number == |!queues', body) or 'one_number' in name:
                yield f'{path}:{line}: {name}: {kind} for a kind'
    for path in sorted(Path('crates').glob('*/src/*.rt')):
        for found in re.finditer(r'pub struct (\w+) \{(.*?)\n\}', path.read_text(), re.S):
            for field in re.findall(r'(?:number|file|at): (?:u32|usize)', found.group(2)):
                if found.group(1) in ('Stop', 'Seen'):
                    yield f'{path}: {found.group(1)}: {field} for a kind or none'
            if re.search(r'at: usize,\n.*capacity', found.group(2), re.S) and found.group(1) != 'Seen':
                yield f'{path}: {found.group(1)}'


def point2():
    shapes = defaultdict(list)
    for path, line, name, signature, clauses, body in functions():
        text = signature[signature.index('('):] + ' '.join(clauses) + body
        shape = re.sub(r'\w+', lambda m: m.group(0) if m.group(0) in ('if', 'match', 'while', 'for', 'return', 'mut', 'u32', 'f64') else '_', text)
        shapes[' '.join(shape.split())].append(f'{path}:{line}: {name}')
    for shape, places in shapes.items():
        if len(places) > 1:
            yield ' ~ '.join(places)


def point3():
    for path in sorted(Path('crates').glob('*/src/*.rt')):
        for number, text in enumerate(path.read_text().split('\n'), 1):
            if re.match(r'\s*(while|loop)\b', text):
                yield f'{path}:{number}: {text.strip()}'


def point4():
    for path, line, name, signature, clauses, body in functions():
        if re.fullmatch(r'\s*\(?\w+ as \w+\)?\s*\}', body):
            yield f'{path}:{line}: {name}: a cast'
        if re.search(r'\[\w+( \+ \w+)?\] = \w+\[\w+\];', body):
            yield f'{path}:{line}: {name}: a copy'
        if re.search(r'refusals::number\(|\.number\(\)', body) and 'print' in body:
            yield f'{path}:{line}: {name}: a refusal printed'
        if re.search(r'=> true,\n.*=> false,', body):
            yield f'{path}:{line}: {name}: a test of a variant'


def point5():
    for group in GROUPS:
        takers = [f'{p}:{l}: {n}' for p, l, n, s, c, b in functions() if set(group) <= set(parameters(s))]
        if len(takers) >= 3:
            yield f'({", ".join(group)}) in {len(takers)}: ' + ', '.join(t.rsplit(' ', 1)[1] for t in takers)
    facts = defaultdict(list)
    for path, line, name, signature, clauses, body in functions():
        for clause in clauses:
            if clause.startswith('requires'):
                facts[str(path).split('/')[1] + ': ' + re.sub(r'^requires( \w+)? ', '', clause)].append(name)
    for fact, names in facts.items():
        if len(names) >= 3:
            yield f'{fact} in {len(names)}: ' + ', '.join(names)


def point6():
    for path, line, name, signature, clauses, body in functions():
        if re.search(r'\b(flow|occupancy): &(mut )?\[f64\].*\n?.*\boccupancy: ', signature):
            yield f'{path}:{line}: {name}: parallel lists'
        for space in re.findall(r'let mut (\w+)(?:: [^=]+)? = (?:\w+_space\(\)|space\(\)|\[0\w*; \w+\]);', body):
            if re.search(r'&(mut )?' + space + r'\[\.\.', body):
                yield f'{path}:{line}: {name}: {space}, used as far as a length beside it'
        if {'buffer', 'at'} <= set(parameters(signature)) or {'out', 'at'} <= set(parameters(signature)):
            yield f'{path}:{line}: {name}: a buffer with a position beside it'


def point7():
    for path, line, name, signature, clauses, body in functions():
        if re.search(r'number: u32', signature) and 'number ==' in body:
            yield f'{path}:{line}: {name}: a step by its number'
        if re.search(r'match change \{', body):
            yield f'{path}:{line}: {name}: a step by the kind of change'


def point8():
    files = [p for p in Path('crates').glob('*/proofs/**/*.antt')]
    lines = sum(len(p.read_text().split('\n')) - 1 for p in files)
    answers = sum(len(re.findall(r'^pub [^:]+ : goal\.', p.read_text(), re.M)) for p in files if p.name == 'Answers.antt')
    raw = sum(len(re.findall(r'\.(true|false)-raw', p.read_text())) for p in files)
    yield f'{len(files)} files, {lines} lines; {answers} answers, {raw} of them by what `-raw` says of a test'


if __name__ == '__main__':
    for number in sys.argv[1:] or '12345678':
        places = list(globals()[f'point{number}']())
        print(f'-- {number}: {len(places)}')
        for place in places:
            print('   ', place)
