#!/usr/bin/env python3
"""Lines of crates/*/src at which each point of docs/DESIGN-PASS.md may have a place.

places.py [POINT ..]

A line here is a candidate: the page says which of them are places. Points 1, 3, 4, 6 and 7 go by patterns of text, point 2 by the
shape of functions and structs (names, numbers and literals blanked), point 5 by facts and parameters that stand in three functions
or more. Point 8 is tools/needless_answers.py.
"""
import collections
import os
import re
import sys

TOP = os.path.dirname(os.path.dirname(os.path.abspath(__file__)))
PATTERNS = {
    1: {
        'own enums': r'^\s*(pub(\(crate\))? )?enum \w',
        'an Option of an error': r'Option<(Refusal|Fault|Stop|Failure|\w*Error)>',
        'flags': r'^\s*(pub )?\w+: bool,',
        'numbers for kinds': r'\bkind: u(8|16)\b|^(pub )?const [A-Z_]+: u(8|16) =',
        'numbers of refusals': r'fn number\(',
    },
    3: {'loops': r'^\s*(for .* in |while |loop \{)', 'counted by enumerate': r'\.enumerate\(\)'},
    4: {
        'conversions and equality': r'fn (same|is_same|equals|number|layer|kind|code_of|octets_of|is_under|present|from|try_from|fmt)\b',
        'printing': r'fn (add|put)_(number|sender|front|payload|payloads|fault|stop|record|column_line)\b',
        'casts to octets': r'\bas u8\b',
        'errors carried over by hand': r'Err\(\w+\) => (Err\(|None)|Err\(_\) =>',
    },
    6: {
        'arrays with a size': r'\[[A-Za-z0-9_<>&]+; *[A-Za-z0-9_]+\]',
        'counts and places beside': r'^\s*(pub )?(len|left|count|mark|at|before|records): (usize|u8|u32),',
        'lengths tested before a cut': r'\.len\(\) <|split_at\(',
    },
    7: {'switches on a step': r'match \w*next\w*\(|enum Step|Step::|\bdyn\b|: fn\('},
}


def sources():
    for path, folders, names in os.walk(os.path.join(TOP, 'crates')):
        folders[:] = sorted(f for f in folders if f not in ('out', 'target'))
        if os.sep + 'src' in path:
            for name in sorted(names):
                if name.endswith('.rt'):
                    file = os.path.join(path, name)
                    yield os.path.relpath(file, TOP), open(file).read()


def show(title, rows):
    print(f'  {title}: {len(rows)}')
    for row in rows:
        print('    ' + row)


def lines_with(pattern):
    rows = []
    for file, text in sources():
        for number, line in enumerate(text.split('\n'), 1):
            if re.search(pattern, line) and not line.lstrip().startswith('//') and 'ghost' not in line:
                rows.append(f'{file}:{number}: {line.strip()[:100]}')
    return rows


def past(text, at, pair):
    """Where the bracket that opens at `at` has closed."""
    depth = 0
    while True:
        depth += {pair[0]: 1, pair[1]: -1}.get(text[at], 0)
        at += 1
        if depth == 0:
            return at


def functions():
    """Each function as (file, name, parameters, contract, body)."""
    for file, text in sources():
        for head in re.finditer(r'\bfn (\w+)', text):
            start = text.index('(', head.end())
            at = past(text, start, '()')
            parameters = text[start + 1:at - 1]
            lines = text[at:].split('\n')
            contract = [l for l in lines[:12] if re.match(r'\s*(requires|ensures)\b', l)]
            opening = re.search(r'^( *)\{$|\{$', text[at:], re.M)
            semicolon = re.search(r';$', text[at:], re.M)
            body = ''
            if opening and not (semicolon and semicolon.start() < opening.start()):
                i = at + opening.end() - 1
                body = text[i:past(text, i, '{}')]
                contract = [l for l in text[at:i].split('\n') if re.match(r'\s*(requires|ensures)\b', l)]
            else:
                contract = [l for l in text[at:at + (semicolon.start() if semicolon else 0)].split('\n') if re.match(r'\s*(requires|ensures)\b', l)]
            yield file, head.group(1), parameters, contract, body


def shape(text):
    text = re.sub(r'//.*', '', text)
    text = re.sub(r'b?"(\\.|[^"\\])*"', 'S', text)
    words = re.findall(r"[A-Za-z_]\w*|\d[\w_]*|[^\s\w]", text)
    keywords = {'if', 'else', 'match', 'for', 'in', 'while', 'loop', 'return', 'let', 'mut', 'Some', 'None', 'Ok', 'Err', 'true', 'false'}
    return ' '.join(w if w in keywords or not w[0].isalnum() and w[0] != '_' else 'x' for w in words)


def twins():
    groups = collections.defaultdict(list)
    for file, name, _, _, body in functions():
        if body:
            groups[shape(body)].append(f'{file} {name}')
    rows = []
    for key, names in sorted(groups.items(), key=lambda g: (-len(g[0].split()), g[1])):
        if len(names) > 1 and len(key.split()) >= 7 and not all('_examples' in n for n in names):
            rows.append(f'{len(key.split())} words: ' + ' | '.join(names))
    show('functions of one shape', rows)
    groups = collections.defaultdict(list)
    for file, text in sources():
        for found in re.finditer(r'^\s*pub (?:enum|struct) (\w+)[^{;]*(\{.*?^\s*\})', text, re.M | re.S):
            fields = re.findall(r'(\w+)(?:: |,|\()', found.group(2))
            groups[' '.join(sorted(fields))].append(f'{file} {found.group(1)}')
    show('types with the same names in them', [' | '.join(n) for k, n in sorted(groups.items()) if len(n) > 1])


def shared():
    facts = collections.defaultdict(list)
    pairs = collections.defaultdict(list)
    for file, name, parameters, contract, _ in functions():
        if '_examples' in file:
            continue
        named = [re.sub(r'^mut ', '', p.strip()) for p in parameters.replace('\n', ' ').split(',') if ':' in p]
        for i, one in enumerate(named):
            for other in named[i + 1:]:
                pairs[tuple(sorted((one, other)))].append(f'{file} {name}')
        for line in contract:
            inner = re.search(r'\{(.*)\}', line)
            for fact in set(re.split(r' × ', inner.group(1) if inner else '')):
                facts[fact.strip(' ()')].append(f'{file} {name}')
    show('facts in the contracts of three functions or more', [f'{len(v)}: {k} -- {", ".join(v)}' for k, v in sorted(facts.items(), key=lambda t: -len(t[1])) if len(v) > 2])
    show('parameters that travel together through three functions or more', [f'{len(v)}: {", ".join(k)} -- {", ".join(v)}' for k, v in sorted(pairs.items(), key=lambda t: -len(t[1])) if len(v) > 2])


wanted = [int(a) for a in sys.argv[1:]] or [1, 2, 3, 4, 5, 6, 7]
for point in wanted:
    print(f'point {point}')
    if point == 2:
        twins()
    elif point == 5:
        shared()
    else:
        for title, pattern in PATTERNS[point].items():
            show(title, lines_with(pattern))
