#!/usr/bin/env python3
"""Counts the places of docs/DESIGN-PASS.md in crates/*/src, point by point. With a number it prints that point's places one a line."""
import collections, glob, re, sys

files = sorted(glob.glob('crates/*/src/*.rt'))
text = {f: open(f, encoding='utf-8').read() for f in files}
crate = lambda f: f.split('/')[1]
found = collections.defaultdict(list)


def grep(point, kind, pattern):
    for f in files:
        for n, line in enumerate(text[f].split('\n'), 1):
            if not line.lstrip().startswith('//') and not line.startswith('ghost use') and re.search(pattern, line):
                found[point, kind].append(f'{crate(f)}:{n}: {line.strip()}')


def functions(f):
    """Name, signature with clauses, and body of each function."""
    for m in re.finditer(r'(?m)^( *)(?:pub )?(?:extern "C" )?fn (\w+)', text[f]):
        end = text[f].index('\n' + m[1] + '}', m.start()) if '\n' + m[1] + '}' in text[f][m.start():] else len(text[f])
        whole = text[f][m.start():end]
        head, brace, body = whole.partition('\n' + m[1] + '{\n')
        yield m[2], head, body


# 1: enums of the shape of Option or Result, flags with a value beside, numbers for kinds and refusals
for f in files:
    for m in re.finditer(r'(?ms)^(?:pub )?enum (\w+) \{\n(.*?)^\}', text[f]):
        bare = [v for v in re.findall(r'^    (\w+),', m[2], re.M)]
        if 'Refused(u8)' in m[2] or (len(bare) == 1 and m[2].count('\n') == 2):
            found[1, 'enums of the shape of Option or Result'].append(f'{crate(f)}: {m[1]}')
grep(1, 'flags beside a value (fields and parameters that are bool)', r'^ +(pub )?\w+: bool,|\(.*\b\w+: bool,')
grep(1, 'numbers for refusals', r'Refused\((n|u8|\d+)\)|\b(no_\w+|none_listed|refusal|too_short)\((n as u32|[1-9]\d*)\)')
for f in files:
    for name, head, body in functions(f):
        if '-> u32' in head and not name.startswith(('rank', 'le32_at')):
            for line in re.findall(r'(?m)^\s+(return \d+;|.* => \d+,|\d+)$', body):
                found[1, 'numbers for refusals'].append(f'{crate(f)}::{name}: {line}')
        if re.search(r'^(run|unusable|slot)_step$', name) and '-> u64' in head:
            found[1, 'numbers for a fault'].append(f'{crate(f)}::{name}')
grep(1, 'numbers for kinds', r'\b(kind|one|other|what|state): (u8|usize)\b|^(pub )?const (IDENTIFIER|MARKER|UNUSED|DIRECTORY|FILE|UNUSABLE|DELETED_\w+): (u8|usize)|fn \w*kind\w*\(.*-> (u8|usize)')

# 2: functions and types that are one but for a type, a size or a constant
norm = collections.defaultdict(list)
for f in files:
    for name, head, body in functions(f):
        if body.count('\n') >= 2 and crate(f) not in ('sfs', 'sfs_c', 'region_table_c', 'demand3'):
            shape = re.sub(r'//.*', '', body)
            shape = re.sub(r'\bu(8|32|64)\b|\busize\b|b\'.\'|\b\d[\d_]*\b|\b[A-Z][A-Z_]+\b', '#', shape)
            locals_ = {}
            shape = re.sub(r'\b[a-z_]\w*\b', lambda m: locals_.setdefault(m[0], f'v{len(locals_)}'), shape)
            norm[re.sub(r'\s+', ' ', shape)].append(f'{crate(f)}::{name}')
    for m in re.finditer(r'(?ms)^(?:pub )?struct (\w+) \{\n(.*?)^\}', text[f]):
        norm[re.sub(r': \w+', ': #', m[2])].append(f'{crate(f)}::{m[1]}')
for shape, names in norm.items():
    if len(names) > 1:
        found[2, 'bodies and structs of one shape'].append(' = '.join(names))

# 3: loops
grep(3, 'while and loop', r'^\s*(while|loop)\b')
grep(3, 'of these over a cursor (a walk)', r'^\s*while 0 < c\.left|^\s*loop \{|^\s*while let Some\(\(?\w+')

# 4: equality, order, copying, conversion by hand
grep(4, 'comparisons of units', r'fn (is_before|is_at_or_before|later)\b')
grep(4, 'conversions', r'fn (at|number|index|wide|from_bits|to_bits|is_named|named)\(')
grep(4, 'minimum, copying and the like', r'fn (least|one_less|copy|copy_into|zero_from|byte_at|floor_div|floor_mod)\b')

# 5: facts in three contracts or more, parameters that travel together
facts = collections.defaultdict(set)
params = collections.defaultdict(set)
for f in files:
    for name, head, body in functions(f):
        at = f'{crate(f)}::{name}'
        for clause in re.findall(r'requires (?:\w+ )?\{ (.*) \}', head):
            for part in re.split(r' × ', clause):
                facts[part.strip('() ')].add(at)
        if crate(f) in ('sfs', 'sfs_c', 'region_table_c', 'demand3', 'undoing', 'two_images'):
            continue
        sig = re.sub(r'\s+', ' ', head.split('->')[0])
        args = re.findall(r'(\w+): ([^,()]+)', sig[sig.index('('):])
        for i in range(len(args)):
            for j in range(i + 2, len(args) + 1):
                params[', '.join(f'{a}: {t.strip()}' for a, t in args[i:j])].add(at)
for fact, at in sorted(facts.items(), key=lambda x: -len(x[1])):
    if len(at) >= 3:
        found[5, 'facts in three contracts or more'].append(f'{len(at)}: {fact}')
best = sorted(((p, at) for p, at in params.items() if len(at) >= 3), key=lambda x: (-len(x[1]), -len(x[0])))
kept = []
for p, at in best:
    if not any(p in q and at == b for q, b in kept):
        kept.append((p, at))
for p, at in kept:
    if not any(p != q and p in q and len(b) >= len(at) for q, b in kept):
        found[5, 'parameters that travel together in three functions or more'].append(f'{len(at)}: {p}')

# 6: slices with a place or a length beside them, arrays of a fixed size
grep(6, 'a lent slice with a place beside it', r'(keys|out|line|buf|img|report|piece): &(mut )?\[\w+\], (\w+: \w+, )?(at|i|n|first|from|m): usize')
grep(6, 'arrays of a fixed size', r'\[0u(8|64); ')

# 7: what a search looks for and the steps of a walk, by value
grep(7, 'constants and enums that choose a step', r'\b(what: Sought|gone: Gone)\b|^const \w+: Sought')

# 8: proofs
for f in sorted(glob.glob('crates/*/proofs/**/Answers.antt', recursive=True)):
    s = open(f, encoding='utf-8').read()
    for m in re.finditer(r'(?m)^(?!pub |use |--|unfolding |module )(\S+)(?: [\w_]+)* = search rules$', s):
        found[8, 'answers that are only `search rules`'].append(f'{f}: {m[1]}')
    found[8, 'files Answers.antt'].append(f)

only = int(sys.argv[1]) if len(sys.argv) > 1 else 0
for (point, kind), places in sorted(found.items(), key=lambda x: x[0][0]):
    if only in (0, point):
        print(f'{point}. {kind}: {len(places)}')
        if only:
            print('\n'.join('    ' + p for p in places))
