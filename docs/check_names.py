#!/usr/bin/env python3
"""Every definition, theorem, function, file and must-fail edit that docs/WHAT-IS-PROVED.md names in backquotes must exist, what it says to be in a file of specs/ or proofs/
must be declared there, and no edit may be missing on the page. Prints what is wrong, and fails."""
import glob
import os
import re
import sys

TOP = os.path.dirname(os.path.dirname(os.path.abspath(__file__)))
os.chdir(TOP)
page = open('docs/WHAT-IS-PROVED.md').read()
sources = '\n'.join(open(p).read() for p in glob.glob('crates/*/specs/*.antt') + glob.glob('crates/*/proofs/*.antt') + glob.glob('crates/*/src/*.rt'))
edits = {'%s/%s' % (p.split('/')[1], os.path.basename(p)[:-len('.edit')]) for p in glob.glob('crates/*/must-fail/*.edit')}


def files(name):
    return [p for p in ['crates/' + name, name] + glob.glob('crates/*/specs/' + name) + glob.glob('crates/*/proofs/' + name) + glob.glob('crates/*/' + name) if os.path.exists(p)]


def exists(name):
    if name in edits:
        return True
    if '/' in name or name.endswith(('.antt', '.md')):
        return bool(files(name))
    last = name.split('::')[-1]
    return os.path.isdir('crates/' + last) or re.search(r'(?<![\w-])' + re.escape(last) + r'(?![\w-])', sources) is not None


def declared(name, path):
    return re.search(r'(?m)^\s*(?:(?:abbrev|unfoldable|pub|record|data|use)\s+)*' + re.escape(name) + r'(?![\w·-])|use [^\n]*[{ ]' + re.escape(name) + '[,}]', open(path).read())


names = set(re.findall(r'`([^`]+)`', page))
wrong = ['names %s, which is not there' % n for n in sorted(names) if not exists(n)]
wrong += ['does not name the edit %s' % n for n in sorted(edits - names)]
# `a`, `b` and `c` in `File.antt`
for those, name in re.findall(r'((?:`[^`]+`(?:, | and ))*`[^`]+`) in `([^`]+\.antt)`', page):
    for n in re.findall(r'`([^`]+)`', those):
        if not any(declared(n, p) for p in files(name)):
            wrong.append('says that %s is in %s, and it is not' % (n, name))
for line in wrong:
    print('docs/WHAT-IS-PROVED.md ' + line)
sys.exit(1 if wrong else 0)
