#!/usr/bin/env python3
"""laid_beside.py OLDCOMMIT CRATE..: at the top of the clone, lays specs/*.antt (and with --proofs the lemma files) as they stand beside those
of OLDCOMMIT, word by word: comments, `use` lines, brackets, dots and spaces left out, names turned to snake case on both sides. Prints each place that differs by more than that spelling,
and each old word that stands for two new ones in one file."""
import re, subprocess, sys, glob, os, difflib
proofs = '--proofs' in sys.argv
args = [a for a in sys.argv[1:] if not a.startswith('--')]
old, crates = args[0], args[1:]
def snake(w):
    w = re.sub(r"(?<=[a-z0-9'])([A-Z])([A-Z]*)", lambda m: "_" + (m[1] + m[2]).lower(), w) if re.match(r'[a-z]', w) else w
    return w.replace('-', '_')
def words(t):
    t = re.sub(r"(?m)(?:(?<=\s)|^)--[^\n]*", "", t)
    t = re.sub(r"(?m)^(?:pub )?use [^\n]*", "", t)
    t = re.sub(r"(?m)^\s*where\s*$", " where ", t)
    t = t.replace('_≡_', '◌≡◌').replace('_+_', '◌+◌')
    t = re.sub(r"(?<=\S)?\s*\.(?=[A-Za-z0-9])", " ", t)
    t = re.sub(r"[()\[\]{};,]", " ", t)
    return [snake(w.strip('.')) for w in t.split() if w.strip('.')]
for c in crates:
    for p in sorted(glob.glob(f'crates/{c}/specs/*.antt') + (glob.glob(f'crates/{c}/proofs/*.antt') if proofs else [])):
        try: o = subprocess.run(['git', 'show', f'{old}:{p}'], capture_output=True, check=True).stdout.decode()
        except subprocess.CalledProcessError: print(p, 'is new'); continue
        a, b = words(o), words(open(p).read())
        for tag, i, j, k, l in difflib.SequenceMatcher(None, a, b, autojunk=False).get_opcodes():
            if tag != 'equal': print(f'{p}: {" ".join(a[max(0,i-3):i])} [ {" ".join(a[i:j])} => {" ".join(b[k:l])} ]')
