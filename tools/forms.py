#!/usr/bin/env python3
"""Counts, in the crates' src/, the places that docs/DESIGN-PASS.md speaks of, by point; with -v lists them."""
import re, sys, glob, collections
verbose = '-v' in sys.argv
files = sorted(glob.glob('crates/*/src/**/*.rt', recursive=True))
text = {f: open(f, encoding='utf-8').read() for f in files}
lines = [(f, i + 1, l) for f in files for i, l in enumerate(text[f].split('\n'))]
code = [(f, i, l.split('//')[0]) for f, i, l in lines]
def show(name, found):
    print(f'{name}: {len(found)}')
    if verbose:
        for x in found: print('   ', x)
def grep(pattern, where=code):
    return [f'{f}:{i}: {l.strip()}' for f, i, l in where if re.search(pattern, l)]
# 1
enums = []
for f in files:
    for m in re.finditer(r'enum (\w+)(<[^>]*>)? \{(.*?)\n\}', text[f], re.S):
        if re.search(r'^\s*(Refused|Fault|Wrong|Missing|Nothing|None|Ended)\b', m.group(3), re.M): enums.append(f'{f}: {m.group(1)}')
show('1a own enums with a case for a refusal or for nothing', enums)
show('1b refusals by a bare number', grep(r'\b(Refused|Fault)\(\d+') + grep(r'\bnumber: [1-9]\d*,') + grep(r'\brefus\w*\(\w*, ?\d+'))
show('1c kinds by a bare number', grep(r'\bkind\b[^=!<>]*(==|!=) *\d+') + grep(r'\bconst (SCALAR|TEXT|HIGH_PRECISION|KEY|ARRAY|OBJECT|PACKED|TABLE|LEAF|SCHEMA_RECORD|RECORD|FIXED|FIXED_ARRAY|DIMENSION|EXTENSION): (u32|usize) = \d+;'))
show('1e phrases, faults and cases by a bare number', [x for x in grep(r'^\s*(pub )?const [A-Z_0-9]+: (u32|usize) = \d+;') if re.search(r'crates/(describe|views|slot_views|options|show|wording|inspect|navigate|compare|tiles|rewrites|second)/', x)])
show('1d a number that stands for nothing', [f'{f}:{i}: {l.strip()}' for f, i, l in lines if re.search(r'//.*(; 0 (where|if|for)|0 is none|their number where none|; 16 for any other|0 is none yet)', l)])
# 2
short = collections.Counter()
bodies = collections.defaultdict(list)
for f in files:
    for m in re.finditer(r'\nfn (\w+)|\npub fn (\w+)', text[f]):
        s = m.start(); e = text[f].find('\n}\n', s)
        body = text[f][s:e]
        name = m.group(1) or m.group(2)
        body = body[body.find('{\n'):] if '{\n' in body else body
        norm = re.sub(r'\b[A-Za-z_]\w*\b', 'x', re.sub(r'//[^\n]*', '', body)); norm = re.sub(r"b'.'|\d\w*", '1', re.sub(r'\s+', '', norm))
        if len(norm) > 60: bodies[norm].append(f'{f}: {name}')
twins = [v for v in bodies.values() if len(v) > 1]
show('2 functions whose bodies differ in names and numbers alone, in groups', [' = '.join(v) for v in twins])
print('  functions in them:', sum(len(v) for v in twins))
# 3
show('3 while and loop', grep(r'\b(while\b|loop \{)'))
show('3a of these, a counter stepped by hand', grep(r'^\s*(i|j|k|n|at|left|count|depth|line|r|digit|place|times|number|step|index) (\+|-)= 1;'))
# 4
show('4 equality, copying, filling and conversion by hand', grep(r'\bfn (same|equal|eq|is_same|copy|copied|fill|filled|zero|least|less|sum|most|largest|smaller)\w*\('))
# 5
req = collections.Counter()
for f in files:
    for m in re.finditer(r'requires(?: \w+)? \{(.*?)\}\n', text[f]):
        for part in re.split(r'\s×\s', m.group(1)):
            req[re.sub(r'\s+', ' ', part).strip(' ()')] += 1
show('5a facts that three or more contracts require', [f'{n} {p}' for p, n in req.most_common() if n > 2])
print('  functions:', sum(n for n in req.values() if n > 2))
heads = [m.group(0) for f in files for m in re.finditer(r'\bfn \w+(<[^>]*>)?\([^)]*\)', text[f])]
many = [h for h in heads if len(re.findall(r'\w+: ', h)) > 6]
show('5b functions of more than six parameters', [re.sub(r'\s+', ' ', h) for h in many])
def both(*names): return len([h for h in heads if all(re.search(r'\b%s: ' % n, h) for n in names)])
print('  message, rows, lent, at, row:', both('message', 'rows', 'lent', 'at', 'row'), ' out, at:', len([h for h in heads if re.search(r'out: &mut Block', h) and re.search(r'at: usize', h)]), ' output, at:', both('output', 'at'))
# 6
show('6 arrays of a fixed size', grep(r'\[[^\[\]]*; *[A-Z0-9_a-z]+\]'))
# 7
show('7 matches on which step or test to run', grep(r'match (need|step|call|stage|what|which|mode|option|form)\b'))
ans = 0; al = 0
for f in glob.glob('crates/*/proofs/**/Answers.antt', recursive=True):
    s = open(f, encoding='utf-8').read(); ans += len(re.findall(r'^pub [^\n]* : goal\.', s, re.M)); al += s.count('\n')
print('8 answers:', ans, 'in lines:', al, ' other proof lines:', sum(open(f, encoding='utf-8').read().count('\n') for f in glob.glob('crates/*/proofs/**/*.antt', recursive=True)) - al)
print('lines of src:', sum(t.count('\n') for t in text.values()))
