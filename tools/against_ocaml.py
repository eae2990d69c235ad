#!/usr/bin/env python3
"""Compares `check` with OCaml's own compiler on programs without effects and domains. It isn't part of the gate.

    tools/against_ocaml.py PROGRAM ORACLE PROGRAMS [SEED] [COUNT]

PROGRAM is ./effects or crates/effects_cli/out/effects_cli; it wants `ocamlc` (Debian: ocaml-nox) and says so where it is missing.
ORACLE is the folder of the reference implementation, whose lexer the mutations use; PROGRAMS a folder of programs, a file of
worked rows (rows.json), or several of these with commas.

A program that passes here must be one that OCaml takes. One that is refused for its types and that OCaml takes is counted by why
the rules differ, as far as its text tells: comparisons at other types than five, definitions that are generalised though they
are local or no functions, types of more than 4,096 nodes; the rest is printed.
"""
import os
import random
import re
import shutil
import subprocess
import sys
import tempfile

sys.path.insert(0, os.path.dirname(os.path.abspath(__file__)))
import command_words
from against_scopes import programs
from against_types import TEXTS, mutate

# what OCaml 4.13 lacks, or has under these names with other rules
OURS = re.compile(r'\beffect\b|Effect|Domain|Atomic|Fiberq|\bc_(iter|fold|try)\b|\bperform\b|_with\b|length_from|rev_onto|\bfiber\b|Shallow|Deep')


def answers(program, path):
    """The first word and the kind of the answer of `check`, and whether OCaml takes the file."""
    run = subprocess.run([program, 'check', path], stdout=subprocess.PIPE, stderr=subprocess.PIPE)
    ours = 'ok' if run.returncode == 0 else run.stderr.split()[1].decode()
    theirs = subprocess.run(['ocamlc', '-w', '-a', '-i', path], stdout=subprocess.DEVNULL, stderr=subprocess.PIPE)
    return ours, theirs.returncode == 0, theirs.stderr.decode(errors='replace')


def reason(text):
    """Why OCaml may take a program that is refused here for its types, as far as the text tells."""
    if re.search(r'\bcompare\b|<>|[^:<>|!-]=[^=>]|[^-<]<[^->]|[^-|>]>[^>}]', re.sub(r'\blet\b[^=]*=|\btype\b.*', '', text)):
        return 'a comparison'
    if re.search(r'\blet\b.*\bin\b', text, re.S):
        return 'a local definition'
    return 'a definition that is no function' if re.search(r'\blet\b', text) else ''


def main():
    command_words.begin(__doc__, 'PROGRAM', 'ORACLE', 'PROGRAMS')
    if shutil.which('ocamlc') is None:
        raise SystemExit('ocamlc is missing: nothing was compared')
    program, oracle, where = os.path.abspath(sys.argv[1]), sys.argv[2], sys.argv[3]
    seed = int(sys.argv[4]) if len(sys.argv) > 4 else 1
    count = int(sys.argv[5]) if len(sys.argv) > 5 else 1000
    sys.path.insert(0, oracle)
    import lexer
    texts = [t for t in TEXTS.split('\n') if t]
    for folder in where.split(','):
        texts += [t for t in programs(folder) if t not in texts]
    texts = [t for t in texts if not OURS.search(t)]
    rng = random.Random(seed)
    pool = {'lower': [], 'upper': [], 'tvar': ["'a", "'b"]}
    good = []
    for text in texts:
        try:
            for token in lexer.lex(text.encode()):
                if token.kind in pool:
                    pool[token.kind].append(token.text)
            good.append(text)
        except lexer.Fault:
            pass
    cases = list(texts)
    while len(cases) < len(texts) + count:
        made = mutate(rng, lexer, rng.choice(good), pool)
        if not OURS.search(made):
            cases.append(made)
    counts = {}
    with tempfile.TemporaryDirectory() as folder:
        path = os.path.join(folder, 'a.ml')
        for text in cases:
            with open(path, 'w') as file:
                file.write(text)
            ours, theirs, said = answers(program, path)
            kind = '%s here, %s by OCaml' % (ours, 'ok' if theirs else 'refused')
            if ours == 'ok' and not theirs:
                print('TAKEN HERE ALONE\n%s\n%s' % (text, said))
            elif ours == 'type' and theirs:
                why = reason(text)
                kind += ': ' + (why or 'no reason seen')
                if not why:
                    print('REFUSED HERE ALONE\n%s' % text)
            counts[kind] = counts.get(kind, 0) + 1
    for kind in sorted(counts):
        print('%6d  %s' % (counts[kind], kind))


if __name__ == '__main__':
    main()
