"""Lists the places in crates/*/src where an older form may stand, point by point.

    python3 tools/places.py [POINT..] [-q]       of this checkout; -q prints the counts alone

It goes by text, so what it lists are candidates; docs/DESIGN-PASS.md counts them, and says what became of the places.
The points are those of that page: 1 refusals and flags, 2 twins, 3 loops, 4 comparing, copying, converting and
printing, 5 repeated facts and parameters, 6 buffers, 7 switches, 8 proofs.
"""
import collections
import difflib
import pathlib
import re
import sys

ROOT = pathlib.Path(__file__).resolve().parent.parent
FILES = sorted(ROOT.glob('crates/*/src/**/*.rt'))

# For each point, what a line looks like that has a place of it.
LINES = {
    1: [
        r'Option<(Reason|NodeCause|TrayFault)>',  # a refusal that is not an error
        r'let \(\w+, \w+\) =',  # a flag and a value
        r'\bErr\(_\) =>',  # an error that a match throws away
        r'else \{$',  # Ok or Some unpacked, the rest made into an error by hand
        r'(Err|Ok)\(\w+\) => return Err',
        r'-> u8|: u8,',  # numbers that may be kinds
    ],
    3: [r'^\s*(\'\w+: )?(for|while|loop)\b'],
    4: [
        r'fn (is_later_than|is_late|order|fmt|from|eq|cmp|clone)\b',
        r'fn \w+\(.*\) -> (WriteOrder|Refusal|Held|Entry)\b|fn (refusal|in_hand)\b',
        r'[\w)] as [iu]\d+|as usize',
        r'fn tell_\w+',
    ],
    6: [r'\[[\w<>]+; ?\w+\]', r'^\s*(pub )?used: usize|let used\b'],
    7: [r'\bmatch [\w.]+ \{$|\bmatch &?self\b|\bmatch \(', r'impl Fn|dyn |: fn\('],
}


def lines_of(point):
    for file in FILES:
        for number, line in enumerate(file.read_text().split('\n'), 1):
            if line.strip().startswith('//'):
                continue
            if point == 1 and line.rstrip().endswith('else {') and 'let ' not in line:
                continue
            if any(re.search(rule, line) for rule in LINES[point]):
                yield f'{file.relative_to(ROOT)}:{number}: {line.strip()}'


def functions():
    """Name, place, header and body of every function with a body, tests left out."""
    for file in FILES:
        if '/tests' in str(file):
            continue
        text = file.read_text()
        for start in re.finditer(r'^( *)(?:pub(?:\(crate\))? )?fn (\w+)', text, re.M):
            indent = start.group(1)
            end = text.find(f'\n{indent}}}\n', start.start())
            stop = text.find(';\n', start.start())
            if end < 0:
                end = stop
            whole = text[start.start():end]
            header, _, body = whole.partition(f'\n{indent}{{\n')
            number = text.count('\n', 0, start.start()) + 1
            yield start.group(2), f'{file.relative_to(ROOT)}:{number}', header, body


def shape(body):
    """The words of a body, without comments."""
    return re.findall(r'\w+|[^\s\w]', re.sub(r'//.*', '', body))


def derives():
    """Types of plain data without a derived `==`."""
    for file in FILES:
        text = file.read_text()
        for found in re.finditer(r'((?:^ *#\[.*\]\n)*)^ *(pub(?:\(crate\))? )?(struct|enum) (\w+)', text, re.M):
            if 'PartialEq' not in found.group(1):
                number = text.count('\n', 0, found.end()) + 1
                yield f'{file.relative_to(ROOT)}:{number}: {found.group(3)} {found.group(4)}, no derived =='


def twins():
    """Pairs of functions whose bodies have 25 words or more, of which at least seven tenths agree."""
    all_of = [(n, at, shape(body)) for n, at, _, body in functions()]
    all_of = [one for one in all_of if len(one[2]) >= 25]
    for i, (name, at, words) in enumerate(all_of):
        for other, there, others in all_of[i + 1:]:
            like = difflib.SequenceMatcher(None, words, others, autojunk=False).ratio()
            if like >= 0.7:
                yield f'{at} {name} ~ {there} {other}: {like:.2f}'


def repeated():
    """Clauses that stand in three functions or more, and pairs of parameters that three or more have."""
    clauses, pairs = collections.defaultdict(set), collections.defaultdict(set)
    for name, at, header, _ in functions():
        for clause in re.findall(r'(?:requires|ensures)(?: \w+)? (\{.*\})', header):
            clauses[re.sub(r'\s+', ' ', clause)].add(f'{at} {name}')
        inside = header[header.find('(') + 1:header.find(')')]
        parameters = sorted(set(re.findall(r'(\w+): [^,)]+', inside)) - {'rt'})
        for i, one in enumerate(parameters):
            for other in parameters[i + 1:]:
                pairs[f'{one}, {other}'].add(f'{at} {name}')
    for what, where in (('clause', clauses), ('parameters', pairs)):
        for text, places in sorted(where.items()):
            if len(places) >= 3:
                yield f'{what} {text}: {len(places)} functions'


def proofs():
    for crate in sorted(ROOT.glob('crates/*')):
        files = sorted(crate.glob('proofs/**/*.antt'))
        lines = sum(len(f.read_text().splitlines()) for f in files)
        answers = [f for f in files if f.name == 'Answers.antt']
        if files:
            yield f'{crate.name}: {len(files)} files, {lines} lines, answers to {len(answers)} functions'


def places(point):
    if point == 2:
        return list(twins())
    if point == 5:
        return list(repeated())
    if point == 8:
        return list(proofs())
    return list(lines_of(point)) + (list(derives()) if point == 4 else [])


def main():
    quiet = '-q' in sys.argv
    points = [int(a) for a in sys.argv[1:] if a != '-q'] or list(range(1, 9))
    for point in points:
        found = places(point)
        print(f'point {point}: {len(found)}')
        if not quiet:
            print('\n'.join('  ' + one for one in found))


main()
