#!/usr/bin/env python3
"""Lists the runs of six or more lines that stand twice in crates/*/src, tests aside: blank lines,
comments, imports and lone brackets are passed over. With -s a line counts by its shape: names, numbers
and texts are all the same."""
import glob, re, sys

shape = '-s' in sys.argv[1:]
least = 6

def lines(path):
    for n, line in enumerate(open(path), 1):
        t = line.strip()
        if not t or t.startswith(('//', 'use ', 'ghost use ', '#[')) or re.fullmatch(r'[\[\]{}();,]*', t):
            continue
        yield n, re.sub(r'\w+', 'x', t) if shape else t

files = {p: list(lines(p)) for p in sorted(glob.glob('crates/*/src/*.rt')) if not p.endswith('tests.rt')}
at = {}
for p, ls in files.items():
    for i in range(len(ls) - least + 1):
        at.setdefault(tuple(t for _, t in ls[i:i + least]), []).append((p, i))
seen, pairs = set(), []
for places in at.values():
    if len(places) > 8:
        continue
    for a in range(len(places)):
        for b in range(a + 1, len(places)):
            (p, i), (q, j) = places[a], places[b]
            if (p, i, q, j) in seen or (p == q and abs(i - j) < least):
                continue
            n = 0
            while i + n < len(files[p]) and j + n < len(files[q]) and files[p][i + n][1] == files[q][j + n][1]:
                seen.add((p, i + n, q, j + n))
                n += 1
            pairs.append((n, p, files[p][i][0], q, files[q][j][0]))
for n, p, i, q, j in sorted(pairs, reverse=True):
    print(f'{n} lines: {p}:{i} ~ {q}:{j}')
print(f'{len(pairs)} runs, {sum(n for n, *_ in pairs)} lines')
