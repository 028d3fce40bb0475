#!/usr/bin/env python3
"""Counts the places of docs/DESIGN-PASS.md in crates/*/src, point by point: tools/count_forms.py [-l], at the top; -l lists them."""
import collections
import glob
import re
import sys

LIST = '-l' in sys.argv


def code(path):
    """A file without comments and without its ghost lines."""
    text = re.sub(r'//.*', '', open(path).read())
    return re.sub(r'^ *ghost .*', '', text, flags=re.M)


def block(text, at):
    """The text of the braces that open at or after a place, and where they end."""
    start = text.index('{', at)
    depth = 0
    for i in range(start, len(text)):
        depth += {'{': 1, '}': -1}.get(text[i], 0)
        if depth == 0:
            return text[start + 1:i], i + 1
    return text[start + 1:], len(text)


FILES = {p: code(p) for p in sorted(glob.glob('crates/*/src/**/*.rt', recursive=True))}


def places(pattern):
    """Each place where a pattern stands: its file, the file's text and the match."""
    for path, text in FILES.items():
        for m in re.finditer(pattern, text):
            yield path, text, m


def line_of(text, m):
    return text[:m.start()].count('\n') + 1


def functions():
    """Each function: its file, name, parameters, clauses and body."""
    for path, text in FILES.items():
        for m in re.finditer(r'\bfn (\w+)\s*(?:<[^>]*>)?\(', text):
            depth, i = 1, m.end()
            while depth:
                depth += {'(': 1, ')': -1}.get(text[i], 0)
                i += 1
            params, at = text[m.end():i - 1], i
            clauses = []
            while True:
                clause = re.compile(r'\s*(?:->[^{;]*?)?\s*(requires|ensures)\*?\s*(\w*)\s*(?=\{)').match(text, at)
                if not clause:
                    break
                inner, at = block(text, clause.end())
                clauses.append((clause.group(1), ' '.join(inner.split())))
            if ';' in text[at:text.find('{', at)]:
                continue
            body, _ = block(text, at)
            yield path, m.group(1), params, clauses, body


def tell(point, found):
    print(f'{point}: {len(found)}')
    if LIST:
        for place in sorted(found):
            print('    ' + place)


# 1: own enums of the shape of Option or Result
shapes = []
for path, text, m in places(r'\benum (\w+)[^{;]*'):
    inner, _ = block(text, m.start())
    cases = re.findall(r'(?:^|,)\s*(\w+)\s*(\(|\{)?', re.sub(r'[({][^(){}]*[)}]', lambda x: x.group(0)[0], inner))
    full = [c for c, mark in cases if mark]
    if (len(cases) == 2 and full) or 'Refused' in full:
        shapes.append(f'{path} {m.group(1)} {" ".join(c for c, _ in cases)}')
tell('1 own enums of the shape of Option or Result', shapes)

# 1: answers passed on by hand
BY_HAND = (r'\w*::?(?:Refused|Err)\((\w+)\) => (?:return )?[\w:]*(?:Refused|Err)\(\1\)|\bErr\((\w+)\) => (?:return )?Err\(\2\)'
           r'|else \{\s*return (?:None|[A-Z]\w*::(?:Not|Nothing|NoMore|Missing|Stop|Bad|Absent|Fails));?\s*\}')
tell('1 refusals and absences passed on by hand', [f'{path}:{line_of(text, m)}' for path, text, m in places(BY_HAND)])

# 2: functions whose code differs only in names, types and numbers
groups = collections.defaultdict(list)
KEEP = r'\b(?!if\b|else\b|while\b|for\b|in\b|loop\b|match\b|return\b|let\b|mut\b|as\b|break\b|continue\b)[A-Za-z_]\w*|b?\'[^\']*\'|b?"[^"]*"|\d\w*'
for path, name, params, clauses, body in functions():
    if body.count('\n') >= 5:
        seen = {}
        shape = re.sub(KEEP, lambda x: seen.setdefault(x.group(0), f'x{len(seen)}'), ' '.join(body.split()))
        groups[shape].append(f'{path} {name}')
tell('2 functions of one shape with another', [' = '.join(g) for g in groups.values() if len(g) > 1])

# 3: loops that count an index by hand
loops = []
for path, text, m in places(r'\bwhile ([^{]*)\{'):
    inner, _ = block(text, m.start())
    for v in re.findall(r'[a-z]\w*', m.group(1)):
        if re.search(r'(?<![\w.])' + v + r' (\+|-)= 1;|(?<![\w.])' + v + r' = ' + v + r' [+-] 1;', inner):
            loops.append(f'{path}:{line_of(text, m)} while {" ".join(m.group(1).split())}')
            break
tell('3 loops that count an index by hand', loops)

# 4: equality, conversion and printing by hand
hand = []
for path, name, params, clauses, body in functions():
    one = re.match(r'\s*match (\w+) \{(.*)\}\s*$', body, re.S)
    arms = one and [arm.split('=>') for arm in re.split(r',\s*\n', one.group(2)) if arm.strip()]
    if name in ('is_same', 'is_before', 'eq', 'cmp') or arms and all(
            len(arm) == 2 and re.fullmatch(r"[\w:]+(?:\(\w*\))?|b?'.'|b?\"[^\"]*\"", arm[1].strip()) for arm in arms):
        hand.append(f'{path} {name}')
tell('4 equality, order, conversion by hand', hand)

# 5: facts that stand in the contracts of three functions or more, and parameters that travel together
facts = collections.defaultdict(set)
travel = collections.defaultdict(set)
for path, name, params, clauses, body in functions():
    for kind, clause in clauses:
        if kind == 'requires':
            for fact in re.split(r' × ', clause):
                facts[fact.strip(' ()')].add(f'{path} {name}')
    ps = [' '.join(p.split()) for p in re.split(r',(?![^<\[(]*[>\])])', params) if ':' in p]
    for i in range(len(ps) - 2):
        travel[', '.join(ps[i:i + 3])].add(f'{path} {name}')
tell('5 facts required by three functions or more', [f'{len(v):3} {k}' for k, v in facts.items() if len(v) > 2])
tell('5 three parameters together in three functions or more', [f'{len(v):3} {k}' for k, v in travel.items() if len(v) > 2])

# 6: buffers and tables with a length beside them
beside = []
for path, name, params, clauses, body in functions():
    ps = [p.split(':', 1) for p in re.split(r',(?![^<\[(]*[>\])])', params) if ':' in p]
    for (a, ta), (b, tb) in zip(ps, ps[1:]):
        if re.search(r'\[|Buffer', ta) and '&' in ta and tb.strip() == 'usize' and b.strip() in ('used', 'n', 'count', 'size', 'length', 'len', 'at'):
            beside.append(f'{path} {name} {a.strip()} {b.strip()}')
tell('6 buffers with a length beside them', beside)

# 7: switches on which step to run
STEPS = r'\benum (State|Step|Within|Turn|Word|Lead|Filled|Found)\b'
tell('7 switches on which step to run', [f'{path} {m.group(1)}' for path, text, m in places(STEPS)])

# 8: proofs
tell('8 proofs in the older positional form', glob.glob('crates/*/proofs/**/Proof.antt', recursive=True))
lines = sum(open(p).read().count('\n') for p in glob.glob('crates/*/proofs/**/*.antt', recursive=True))
print(f'8 lines below crates/*/proofs: {lines}')
