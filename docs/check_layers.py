#!/usr/bin/env python3
"""crates.txt, docs/ARCHITECTURE.md and the code say the same of the layers. Prints what is wrong, and fails.

- crates.txt is bottom up, with a heading `# ---- GROUP: ..` for each group. A crate whose name begins with a group's stands in that group.
- A crate names each dependency that it lists, in its code, its definitions or its proofs. Where only a type that it never names needs one, the comment above the crate
  says so, as (NAME: why).
- The page has the groups and their crates in the order of crates.txt, and an arrow from each group to those it stands on, but for what these stand on themselves.
- Under 'The way of the data' each function calls those indented below it, in the order of its text.
"""
import glob
import os
import re
import sys

TOP = os.path.dirname(os.path.dirname(os.path.abspath(__file__)))
os.chdir(TOP)
PAGE = 'docs/ARCHITECTURE.md'
wrong = []


def read(path):
    with open(path, encoding='utf-8') as f:
        return f.read()


def listed():
    """crates.txt: the crates of each group, what each crate depends on, and the comment above it."""
    groups, needs, notes = {}, {}, {}
    note = ''
    for line in read('crates.txt').splitlines():
        heading = re.match(r'# ---- (\w+): ', line)
        crate = re.match(r'(\w+):(.*)', line)
        if heading:
            groups[heading.group(1)] = []
        elif crate and not groups:
            wrong.append('crates.txt: %s stands under no heading' % crate.group(1))
        elif crate:
            name = crate.group(1)
            groups[list(groups)[-1]].append(name)
            needs[name], notes[name] = crate.group(2).split(), note
        note = line
    return groups, needs, notes


def check_order(groups, needs):
    seen = set()
    for group, crates in groups.items():
        for name in crates:
            first = name.split('_')[0]
            if first in groups and first != group:
                wrong.append('crates.txt: %s stands under the heading %s' % (name, group))
            wrong.extend('crates.txt: %s stands above %s, which it depends on' % (name, d) for d in needs[name] if d in needs and d not in seen)
            seen.add(name)


def without_comments(path):
    return re.sub(r'(--|//)[^\n]*', '', read(path))


def check_uses(needs, notes):
    for name, depends in needs.items():
        files = [p for part in ('src', 'specs', 'proofs') for p in glob.glob('crates/%s/%s/**/*' % (name, part), recursive=True) if p.endswith(('.rt', '.antt'))]
        text = '\n'.join(without_comments(p) for p in files)
        for d in depends:
            named = re.search(r'(?<![\w:])%s::|Rattle\.%s\.' % (d, d), text)
            told = '(%s: ' % d in notes[name]
            if not named and not told:
                wrong.append('crates.txt: %s lists %s and does not use it' % (name, d))
            if named and told:
                wrong.append('crates.txt: %s names %s, so its comment need not tell why' % (name, d))


def arrows(groups, needs):
    """From each group to those that it stands on, but for what these stand on themselves."""
    home = {name: group for group, crates in groups.items() for name in crates}
    on = {group: {home[d] for name in crates for d in needs[name] if d in home} - {group} for group, crates in groups.items()}
    below = {}
    for group in groups:
        below[group] = on[group].union(*(below.get(g, set()) for g in on[group]))
    return {(a, b) for a in on for b in on[a] if not any(b in below[c] for c in on[a])}


def check_page(page, groups, needs):
    drawn = re.findall(r'(?m)^    (\w+) --> (\w+)$', page)
    due = arrows(groups, needs)
    wrong.extend('%s: no arrow %s --> %s' % (PAGE, *pair) for pair in sorted(due - set(drawn)))
    wrong.extend('%s: an arrow too many, %s --> %s' % (PAGE, *pair) for pair in sorted(set(drawn) - due))
    sections = re.findall(r'(?ms)^### (\w+)\n(.*?)(?=^##|\Z)', page)
    if [group for group, _ in sections] != list(groups):
        wrong.append('%s: the groups are not those of crates.txt, in its order' % PAGE)
    for group, text in sections:
        if re.findall(r'(?m)^- `(\w+)`: ', text) != groups.get(group):
            wrong.append('%s: the crates of %s are not those of crates.txt, in its order' % (PAGE, group))


def body(path):
    """The text of the function or method CRATE::MODULE::NAME, or CRATE::NAME in lib.rt or main.rt; None where there is none."""
    crate, *module, name = path.split('::')
    for stem in module or ['lib', 'main']:
        source = 'crates/%s/src/%s.rt' % (crate, stem)
        found = os.path.exists(source) and re.search(r'(?ms)^(    )?(?:pub )?fn %s\(.*?^(?(1)    )\}' % name, without_comments(source))
        if found:
            return found.group(0)
    return None


def check_calls(page):
    way = page[page.index('\n## The way of the data\n'):]
    for block in re.findall(r'(?ms)^```\n(.*?)^```$', way):
        callers = []  # [depth, function, what is left of its text]
        for line in block.splitlines():
            indent, function = re.match(r'( *)([\w:]+)', line).groups()
            text = body(function)
            if text is None:
                wrong.append('%s: there is no function %s' % (PAGE, function))
            callers = [c for c in callers if c[0] < len(indent)]
            if callers:
                last = callers[-1]
                call = re.search(r'\b%s\(' % function.split('::')[-1], last[2])
                if call:
                    last[2] = last[2][call.end():]
                else:
                    wrong.append('%s: %s does not call %s there' % (PAGE, last[1], function))
            # what follows the name: a function may call itself
            callers.append([len(indent), function, text.split('(', 1)[1] if text else ''])


def main():
    groups, needs, notes = listed()
    page = read(PAGE)
    check_order(groups, needs)
    check_uses(needs, notes)
    check_page(page, groups, needs)
    check_calls(page)
    for line in wrong:
        print(line)
    sys.exit(1 if wrong else 0)


if __name__ == '__main__':
    main()
