#!/usr/bin/env python3
"""Which answers of a crate's proofs does the check find alone?

needless_answers.py CRATE

Checks a copy of the repository in which every Answers.antt of the crate is moved aside, with and without --margin, and
prints for each of these files whether it is needed, and for which goals.
"""
import os, re, shutil, subprocess, sys, tempfile

crate = sys.argv[1]
top = os.path.dirname(os.path.dirname(os.path.abspath(__file__)))
needed = {}
with tempfile.TemporaryDirectory() as folder:
    copy = os.path.join(folder, 'copy')
    shutil.copytree(top, copy, ignore=shutil.ignore_patterns('.git'))
    home = os.path.join(copy, 'crates', crate)
    files = []
    for path, _, names in os.walk(os.path.join(home, 'proofs')):
        for name in names:
            if name == 'Answers.antt':
                files.append(os.path.relpath(os.path.join(path, name), home))
                os.remove(os.path.join(path, name))
    for flags in ([], ['--margin']):
        said = subprocess.run(['rt', 'check', *flags], cwd=home, capture_output=True, text=True)
        for line in (said.stdout + said.stderr).splitlines():
            found = re.search(r'expected answers in \./(\S+Answers\.antt); (.*)', line)
            if found:
                goals = re.findall(r'`([^`]+)`', found.group(2).split('; it calls')[0])
                needed.setdefault(found.group(1), set()).update(g for g in goals if g not in ('search', 'grind'))
for name in sorted(files):
    goals = needed.get(name)
    print(f'{name}: ' + ('needed for ' + ', '.join(sorted(goals)) if goals is not None else 'needless'))
for name in sorted(set(needed) - set(files)):
    print(f'{name}: missing')
print(f'{len(files)} files, {sum(f not in needed for f in files)} needless')
