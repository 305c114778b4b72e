#!/usr/bin/env python3
"""Counts the places in crates/*/src that are written as the older language had them, point by point.

usage: tools/places.py [--list] [FOLDER]

It reads text and knows nothing of types, so each number is an upper bound: what it finds was read by hand."""
import collections, difflib, glob, os, re, sys

show = '--list' in sys.argv
args = [a for a in sys.argv[1:] if not a.startswith('--')]
top = args[0] if args else '.'
files = sorted(glob.glob(f'{top}/crates/*/src/**/*.rt', recursive=True))
text = {f: open(f).read() for f in files}
name = lambda f: os.path.relpath(f, top).replace('crates/', '').replace('src/', '')
found = collections.OrderedDict()


def put(point, what, where, line):
    found.setdefault((point, what), []).append(f'{name(where)}: {line.strip()}')


def lines(point, what, pattern, skip=None):
    for f in files:
        for line in text[f].split('\n'):
            code = line.split('//')[0]
            if re.search(pattern, code) and not (skip and re.search(skip, code)):
                put(point, what, f, line)
    found.setdefault((point, what), [])


def functions():
    for f in files:
        for m in re.finditer(r'^( *)(?:pub(?:\([a-z]+\))? )?(?:extern "C" )?fn (\w+)(.*?)\n\1\{\n(.*?)\n\1\}', text[f], re.S | re.M):
            head = re.split(r'\n\s*(?:requires|ensures)', m.group(3))[0]
            yield f, m.group(2), ' '.join(head.split()), m.group(3), m.group(4)
        for m in re.finditer(r'^( *)(?:pub(?:\([a-z]+\))? )?fn (\w+)([^\n{;]*(?:\n[^\n{};]*)*?) \{\n(.*?)\n\1\}', text[f], re.S | re.M):
            if 'ensures' not in m.group(3) and 'requires' not in m.group(3):
                yield f, m.group(2), ' '.join(m.group(3).split()), m.group(3), m.group(4)


funs = list({(f, n, h): (f, n, h, c, b) for f, n, h, c, b in functions()}.values())

# 1. own enums of the shape of Option or Result, flags with a value beside, numbers for kinds
for f in files:
    for m in re.finditer(r'enum (\w+)[^{]*\{(.*?)\n\}', text[f], re.S):
        body = re.sub(r'//.*', '', m.group(2))
        cases = [c for c in re.findall(r'^    (\w+)(.?)', body, re.M)]
        if len(cases) == 2 and [c[1] for c in cases].count(',') == 1:
            put(1, 'enums of one empty and one full case', f, 'enum ' + m.group(1))
found.setdefault((1, 'enums of one empty and one full case'), [])
lines(1, 'flags in structs and parameters', r'^\s*(pub(\([a-z]+\))? )?(\w+): bool,')
lines(1, 'a flag beside its value, told by hand', r'\bmore: bool|\binside\b.*=|is_some\(\) &&|\.is_none\(\) \|\|')
lines(1, 'cases of Option or Result passed on by hand', r'None => (return )?(None|Err)\b|Err\(_\) => (return )?(None|Err)\b|Err\((\w+)\) => (return )?Err\b|Some\((\w+)\) => (Some|Ok)\(\2?\w*\),$|Ok\((\w+)\) => (Ok|Some)\(\w+\),?$|else \{\s*return None')
lines(1, 'numbers answered for kinds', r'fn (kind|tag|number|code)\(&?self\) -> u\d+')

# 2. twins
consts = collections.defaultdict(list)
for f in files:
    for m in re.finditer(r'const (\w+): ([^=]+) = ([^;]+);', text[f]):
        value = ' '.join(m.group(3).split())
        consts[(m.group(2), value)].append((f, m.group(1)))
for (kind, value), where in consts.items():
    if len(where) > 1 and len(value) > 3:
        for f, n in where[1:]:
            put(2, 'constants of one value', f, f'{n} = {value[:40]}')
found.setdefault((2, 'constants of one value'), [])
plain = lambda b: re.sub(r'\s+', ' ', re.sub(r'//.*', '', b)).strip()
shape = lambda b: re.sub(r'\b[a-z_]\w*\b', 'x', plain(b))
seen = []
for f, n, h, c, b in funs:
    if len(plain(b)) < 40:
        same_name = [g for g in seen if g[1] == n and g[0] != f and len(plain(b)) > 12 and plain(g[4]) == plain(b)]
    else:
        same_name = [g for g in seen if (g[1] == n or os.path.dirname(g[0]) == os.path.dirname(f)) and len(plain(g[4])) >= 40
                     and difflib.SequenceMatcher(None, plain(g[4]), plain(b)).ratio() > 0.86]
    if same_name:
        put(2, 'functions written twice', f, f'{n}, as {name(same_name[0][0])} {same_name[0][1]}')
    seen.append((f, n, h, c, b))
found.setdefault((2, 'functions written twice'), [])

# 3. loops that count by hand
lines(3, 'while', r'^\s*while (?!let)')
lines(3, 'while let with a count', r'^\s*while let .*\bk\b')
lines(3, 'loop', r'^\s*loop \{')
lines(3, 'for over a range', r'^\s*for \w+ in .*\.\.')

# 4. equality, order, copying, conversion, printing by hand
lines(4, 'equality of bytes by a function', r'\bsame\(|fn compare\(', r'fn same\(')
lines(4, 'order by a function', r'-> Ordering\b')
lines(4, 'conversion by a function', r'fn (array|eight|word|word_at|kind_of|two|decimal|digit|hex_digit|value)\(')
lines(4, 'words by a function', r"-> &'static (str|\[u8\])")
lines(4, 'zeros by a function', r'fn (nothing|blank|zero|no_request|none)\(')

# 5. facts in three or more contracts, parameters that travel together
facts = collections.defaultdict(set)
for f, n, h, c, b in funs:
    for clause in re.findall(r'(requires|ensures)(?: \w+)? \{ (.*) \}', c):
        for part in re.split(r' × ', clause[1]):
            part = part.strip('() ')
            if clause[0] == 'requires' or 'drop 4096' in part:
                facts[re.sub(r'\b\w+\.(now|old|new)', r'_.\1', part)].add((f, n))
for fact, where in facts.items():
    if len(where) >= 3:
        for f, n in sorted(where):
            put(5, 'facts in three or more contracts', f, f'{n}: {fact}')
found.setdefault((5, 'facts in three or more contracts'), [])
groups = collections.defaultdict(set)
for f, n, h, c, b in funs:
    ps = tuple(re.findall(r"(?<!&)\b(\w+: [^,()]+)", h.split('->')[0]))
    for i in range(len(ps) - 1):
        groups[ps[i:i + 2]].add((f, n))
for ps, where in groups.items():
    if len(where) >= 6 and not any('heap' in p or p.startswith('rt') for p in ps):
        put(5, 'pairs of parameters in six or more functions', sorted(where)[0][0], f'{", ".join(ps)}: {len(where)}')
found.setdefault((5, 'pairs of parameters in six or more functions'), [])

# 6. buffers with a length beside, parallel arrays, places for values
lines(6, 'arrays in structs', r'^\s*(pub(\([a-z]+\))? )?\w+: \[\w+; (128|256)\],')
lines(6, 'out area with an offset', r'out: &(mut )?\[u8\], at: usize')
lines(6, 'a count with its values', r'count: usize,|^\s*pub w\d:')
lines(6, 'places for values', r'Option<usize>|places: &|\((\w*)usize\),$|words: &Vec<String>, at')

# 7. switches on what to run
lines(7, 'arms that call one method', r'=> \w+(\s*\{[^}]*\})?\.(owns|verdict)\(')
lines(7, 'calls told by an enum', r'enum (Call|Entry|Line|AnyJudge)\b')

# 8. proofs
ants = glob.glob(f'{top}/crates/*/proofs/**/*.antt', recursive=True)
found[(8, 'answer files')] = [a for a in ants if a.endswith('Answers.antt')]
found[(8, 'answers')] = [m for a in ants if a.endswith('Answers.antt') for m in re.findall(r'^pub \S+ : goal\.', open(a).read(), re.M)]
found[(8, 'lemmas of our own')] = [m for a in ants for m in re.findall(r'^(?:pub )?\w[\w-]* : (?!goal\.)', open(a).read(), re.M)]
found[(8, 'facts as functions')] = [f'{name(f)}: {n}' for f, n, h, c, b in funs if b.strip() == '0']

totals = collections.Counter()
for (point, what), where in found.items():
    totals[point] += len(where)
    print(f'{point}. {what}: {len(where)}')
    if show and point != 8 or what == 'facts as functions' and show:
        for w in where:
            print('     ', w)
print('in all:', ', '.join(f'{p}: {n}' for p, n in sorted(totals.items())))
