#!/usr/bin/env python3
"""Counts the places of src/ that docs/DESIGN-PASS.md speaks of, point by point, and lists them with -l.

    tools/places.py [-l] [POINT ..]        in a checkout's top folder

It goes by text, so it finds candidates: what is kept of them stands in the page, with the reason."""
import collections
import pathlib
import re
import sys

INT = r'(?:u8|u16|u32|u64|usize|i64)'
KIND = re.compile(r'\b(?:number|rule|fault|kind|stage|task|flag|present|exists|linked|what): ' + INT)
FLAG = re.compile(r'\b(?:good|rooted|grafts|fit|twice|failed|ended|faulty|had_focus|dropped|hidden): bool')


def sources():
    for path in sorted(pathlib.Path('crates').glob('*/src/**/*.rt')):
        yield path, path.read_text().split('\n')


def functions(lines):
    """(first line, head, body) of each function."""
    at = 0
    while at < len(lines):
        if not re.match(r'\s*(pub(\(crate\))? )?(const |unsafe |extern "C" )*fn ', lines[at]):
            at += 1
            continue
        indent = ' ' * (len(lines[at]) - len(lines[at].lstrip()))
        opening = at
        while not lines[opening].rstrip().endswith(('{', ';')) and not lines[opening].rstrip().endswith('}') and opening + 1 < len(lines):
            opening += 1
        while re.match(r'\s*(requires|ensures)\b', lines[opening]) and lines[opening].rstrip().endswith('}') and opening + 1 < len(lines):
            opening += 1
        end = opening
        while not lines[end].startswith(indent + '}') and end + 1 < len(lines):
            end += 1
        yield at + 1, lines[at:max(opening, at + 1)], lines[opening + 1:end]
        at = end + 1


def items(lines, word):
    """(line, name, body) of each struct or enum."""
    text = '\n'.join(lines)
    for m in re.finditer(r'(?m)^(?:pub(?:\(crate\))? )?' + word + r' (\w+)[^{;(]*\{([^}]*)\}', text):
        body = [l.strip() for l in m.group(2).split('\n') if l.strip() and not l.strip().startswith(('//', '#'))]
        yield text.count('\n', 0, m.start()) + 1, m.group(1), body


def point_1():
    for path, lines in sources():
        for at, name, body in items(lines, 'enum'):
            bare = [v for v in body if re.match(r'\w+,?$', v)]
            if len(body) == 2 and len(bare) < 2 or 'Nothing,' in body:
                yield path, at, 'enum ' + name
        for at, name, body in items(lines, 'struct'):
            flags = [f for f in body if KIND.search(f) or FLAG.search(f)]
            if flags and len(body) > 1:
                yield path, at, f'struct {name}: ' + ' '.join(flags)
        for at, head, body in functions(lines):
            if re.search(r'-> u8$', head[0]) and re.search(r'number|rule|unknown|is_right|state_number', head[0]):
                yield path, at, head[0].strip()


def point_2():
    seen = collections.defaultdict(list)
    for path, lines in sources():
        for at, head, body in functions(lines):
            if len(body) < 2:
                continue
            name = re.search(r'fn (\w+)', head[0]).group(1)
            text = '\n'.join(l.split('//')[0].rstrip() for l in body)
            text = re.sub(r'\b' + name + r'\b', 'NAME', text)
            text = re.sub(r'\b' + INT + r'\b', 'T', text)
            text = re.sub(r'\d[\d_]*(?:' + INT + r')?', 'N', text)
            text = re.sub(r'\b[A-Z][A-Z_0-9]+\b', 'C', text)
            text = re.sub(r'\b[A-Z][a-z]\w*\b', 'S', text)
            seen[re.sub(r'\s+', ' ', text)].append((path, at, name))
    for group in seen.values():
        if len(group) > 1:
            for path, at, name in group:
                yield path, at, f'{name}: one body with ' + ', '.join(n for _, _, n in group if n != name)


def point_3():
    for path, lines in sources():
        for k, line in enumerate(lines):
            if re.match(r"\s*('\w+: )?(while\b.*|loop) \{$", line):
                yield path, k + 1, line.strip()


def point_4():
    for path, lines in sources():
        for at, head, body in functions(lines):
            name = re.search(r'fn (\w+)', head[0]).group(1)
            equal = sum(len(re.findall(r'\w+\.(\w+(?:\.\w+)*) [=<]= ?\w+\.\1\b', l)) for l in body)
            if equal > 1 or re.match(r'same_(tree|node|id|link|found)$|is_before$', name):
                yield path, at, head[0].strip()


def point_5():
    clauses, groups = collections.defaultdict(list), collections.defaultdict(list)
    for path, lines in sources():
        for at, head, body in functions(lines):
            text = ' '.join(l.strip() for l in head)
            for clause in re.findall(r'requires (?:\w+ )?\{ (.*?) \}(?= requires| ensures|$)', text):
                for fact in re.findall(r'\(([^()]*(?:\([^()]*\)[^()]*)*)\)', clause) if ' × ' in clause else [clause]:
                    clauses[fact].append((path, at))
            names = re.findall(r'(\w+): ', text.split('ensures')[0].split('requires')[0])
            for i in range(len(names) - 2):
                groups[(path.parts[1],) + tuple(names[i:i + 3])].append((path, at))
    for fact, places in clauses.items():
        if len(places) > 2:
            yield places[0][0], places[0][1], f'{len(places)} functions require {fact}'
    for group, places in groups.items():
        if len(places) > 2:
            yield places[0][0], places[0][1], f'{len(places)} functions of {group[0]} take ' + ', '.join(group[1:])


def point_6():
    for path, lines in sources():
        for k, line in enumerate(lines):
            if re.search(r'let mut \w+ = \[', line) or re.search(r'^\s*(pub(\(crate\))? )?\w+: \[u\d+; ', line):
                yield path, k + 1, line.strip()


def point_7():
    for path, lines in sources():
        for at, head, body in functions(lines):
            tested = collections.Counter(re.findall(r'\bif (\w+(?:\.\w+)?) == \d+ \{', '\n'.join(body)))
            arms = sum(1 for l in body if re.match(r'\s*\d+ (\| \d+ )*=> ', l))
            if any(n > 2 for n in tested.values()) or arms > 2:
                yield path, at, head[0].strip()


def point_8():
    for path in sorted(pathlib.Path('crates').glob('*/proofs/**/*.antt')):
        if path.name == 'Proof.antt':
            yield path, 1, 'a walk of the code by hand'
        if path.name == 'Answers.antt':
            for k, line in enumerate(path.read_text().split('\n')):
                if re.match(r'\S+ c = (search rules|omega arith)$', line):
                    yield path, k + 1, line


if __name__ == '__main__':
    args = [a for a in sys.argv[1:] if a != '-l']
    for point in args or list('12345678'):
        found = list(globals()['point_' + point]())
        print(f'point {point}: {len(found)}')
        if '-l' in sys.argv:
            for path, at, what in found:
                print(f'    {path}:{at}: {what}')
