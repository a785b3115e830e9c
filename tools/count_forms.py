#!/usr/bin/env python3
"""Counts the places of docs/DESIGN-PASS.md in crates/*/src, by its points. `count_forms.py` prints the counts, `count_forms.py -v` the places too."""
import glob
import os
import re
import sys

os.chdir(os.path.join(os.path.dirname(os.path.abspath(__file__)), '..'))
FILES = sorted(glob.glob('crates/*/src/*.rt'))


def code(path):
    """The lines of a file without comments, by number."""
    out = []
    for n, line in enumerate(open(path, encoding='utf-8'), 1):
        out.append((n, re.sub(r'(^|\s)//.*', '', line.rstrip('\n'))))
    return out


def lines_like(pattern):
    return [(f, n, l.strip()) for f in FILES for n, l in code(f) if re.search(pattern, l)]


def items(head):
    """Each item that starts with the pattern at a line's start, as (file, line, text up to its closing line)."""
    out = []
    for f in FILES:
        ls = code(f)
        for i, (n, l) in enumerate(ls):
            if re.match(head, l):
                text = [l]
                for _, m in ls[i + 1:]:
                    text.append(m)
                    if m.startswith('}') or (m.startswith('{') and 'fn ' in l):
                        break
                out.append((f, n, '\n'.join(text)))
    return out


def shaped_enums():
    """Own enums of two or three variants of which one at least holds a value: the shape of Option or Result."""
    out = []
    for f, n, text in items(r'(pub )?enum '):
        variants = re.findall(r'^    (\w+)(\(|\s*\{|,|$)', text, re.M)
        if len(variants) <= 3 and any(v[1] in '({' and v[1] for v in variants):
            out.append((f, n, text.split('\n')[0].strip()))
    return out


def functions():
    """(file, line, name, parameters, clauses) of each function."""
    out = []
    for f in FILES:
        text = '\n'.join(l for _, l in code(f))
        for m in re.finditer(r'^ *(?:pub )?fn (\w+)(?:<[^>]*>)?\(', text, re.M):
            depth, i = 1, m.end()
            while depth:
                depth += {'(': 1, ')': -1}.get(text[i], 0)
                i += 1
            inside = text[m.end():i - 1]
            parameters = [p for p in re.split(r',(?![^<\[(]*[>\])])', inside) if p.strip()]
            end = text.find('\n{', i)
            end2 = text.find('{\n', i)
            out.append((f, text.count('\n', 0, m.start()) + 1, m.group(1), parameters, text[i:end if end > 0 else end2]))
    return out


def many(limit):
    return [(f, n, '%s: %d parameters' % (name, len(ps))) for f, n, name, ps, _ in functions() if len(ps) >= limit]


def repeated_facts():
    """Words of a fact, as `Good circuit.now`, that stand in the clauses of three functions or more."""
    seen = {}
    for f, n, name, _, clauses in functions():
        for word in set(re.findall(r'(?<![\w.])([A-Z]\w+) (?:\(|[a-z])', clauses)):
            seen.setdefault(word, []).append((f, n, name))
    return [(w, 0, '%d functions' % len(p)) for w, p in sorted(seen.items()) if len(p) >= 3]


POINTS = [
    ('1 own enums of the shape of Option or Result', shaped_enums),
    ('2 bodies alike but for a type, a size or a constant', lambda: lines_like(r'fn (fill_u8|zero_\w+|larger|lesser|word_of|byte_of|settle_with|settle_all|second_of|third_of|more_of|mid_of|none|one|two|three|list_starts|input_starts)\(')),
    ('3 loops by hand (while, loop)', lambda: lines_like(r'^\s*(while|loop)\b')),
    ('3 of those, loops that add to an index', lambda: lines_like(r'^\s*\w+ [+-]= 1;')),
    ('4 conversions, sizes and orders by hand', lambda: lines_like(r'fn (number|number_of|place_of|kind_at|section_at|order_of|form_of|job_of|word_of|byte_of|size_of|lesser|larger|half_at|word_at|nid_at|negated|is_zero|half_of|refusal_of|key_of|inverse|both|either|parity|mark_of|fixed_byte|is_model|is_division|stops)\(')),
    ('4 keys taken apart by hand', lambda: lines_like(r'[/%] 65536')),
    ('5 functions of eight parameters or more', lambda: many(8)),
    ('5 facts in the clauses of three functions or more', repeated_facts),
    ('6 lent arrays with a count beside', lambda: lines_like(r'\[u(8|16|64); \d+\],?$|starts: &\[u16')),
    ('7 function tables and dyn', lambda: lines_like(r'\bdyn\b|: fn\(')),
]


def main():
    for title, places in POINTS:
        found = places()
        print('%-58s %d' % (title, len(found)))
        if '-v' in sys.argv:
            for f, n, text in found:
                print('    %s:%s %s' % (f, n, text))
    answers = [f for f in glob.glob('crates/*/proofs/*/Answers.antt')]
    goals = sum(len(re.findall(r'^pub ', open(f, encoding='utf-8').read(), re.M)) for f in answers)
    lines = sum(len(open(f, encoding='utf-8').read().split('\n')) for f in glob.glob('crates/*/proofs/**/*.antt', recursive=True))
    print('%-58s %d' % ('8 answers written out', goals))
    print('%-58s %d' % ('8 lines of proofs', lines))


if __name__ == '__main__':
    main()
