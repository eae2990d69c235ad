#!/usr/bin/env python3
"""Compares the programs of docs/BESIDE_OCAML.md with what the page says of them. It isn't part of the gate.

    tools/beside_ocaml.py [PRODUCT] [--ocaml ROOT]

PRODUCT is the program, or else crates/effects_cli/out/effects_cli. OCaml 5.3 (`ocamlc`) is the one on the PATH, or with --ocaml
that in a root folder of a system, which is entered by chroot. Each program of the page is run by both, as program.ml; what is printed, with the
line on standard error behind it, or that the program is refused, must be what the page says. It ends with status 1 where
something differs.
"""
import os
import re
import shutil
import subprocess
import sys
import tempfile

import command_words

TOP = os.path.join(os.path.dirname(os.path.abspath(__file__)), '..')
PAGE = os.path.join(TOP, 'docs', 'BESIDE_OCAML.md')
BUILT = os.path.join(TOP, 'crates', 'effects_cli', 'out', 'effects_cli')
CASE = re.compile(r'^```ocaml\n((?:.*\n)*?)```\n\n- here: (.*)\n- OCaml 5\.3: (.*)\n', re.MULTILINE)
SECONDS = 60


def run(command, folder=None):
    return subprocess.run(command, cwd=folder, capture_output=True, timeout=SECONDS, stdin=subprocess.DEVNULL)


def told(outcome):
    """What the page says of a run."""
    return '`%s`' % (outcome.stdout + outcome.stderr).decode('latin-1').strip()


def here(product, folder):
    outcome = run([product, 'run', 'program.ml'], folder)
    return 'refused' if outcome.returncode in (65, 66, 67) else told(outcome)


def by_ocaml(enter, inside):
    target = os.path.join(inside, 'program')
    script = 'cd "$0" && exec ocamlc -w -a program.ml -o program'
    if run(enter + ['sh', '-c', script, inside]).returncode != 0:
        return 'refused'
    return told(run(enter + [target]))


def main():
    parser = command_words.Parser(__doc__)
    parser.add_argument('product', nargs='?', default=BUILT)
    parser.add_argument('--ocaml', metavar='ROOT')
    given = parser.parse_args()
    product = os.path.abspath(given.product)
    if not os.path.exists(product):
        sys.exit('beside_ocaml: %s is missing: build it by ./effects, or name the program' % given.product)
    enter = ['chroot', given.ocaml] if given.ocaml else []
    if shutil.which('ocamlc') is None and not enter:
        sys.exit('beside_ocaml: ocamlc 5.3 is missing on the PATH: install it, or name a root folder by --ocaml')
    version = run(enter + ['ocamlc', '-version']).stdout.decode().strip()
    if not version.startswith('5.3'):
        sys.exit('beside_ocaml: OCaml 5.3 is wanted, not %s' % (version or 'none'))
    folder = tempfile.mkdtemp(dir=os.path.join(given.ocaml, 'tmp') if given.ocaml else None)
    inside = folder[len(given.ocaml.rstrip('/')):] if given.ocaml else folder
    cases, wrong = CASE.findall(open(PAGE).read()), 0
    try:
        for text, ours, theirs in cases:
            with open(os.path.join(folder, 'program.ml'), 'w') as file:
                file.write(text)
            for who, wanted, found in ('here', ours, here(product, folder)), ('OCaml 5.3', theirs, by_ocaml(enter, inside)):
                if wanted != found:
                    wrong += 1
                    print('%s\n%s: %s, and the page says %s\n' % (text, who, found, wanted))
    finally:
        shutil.rmtree(folder)
    blocks = open(PAGE).read().count('```ocaml\n')
    print('%d programs, %d differences' % (len(cases), wrong))
    sys.exit(1 if wrong or len(cases) != blocks else 0)


if __name__ == '__main__':
    main()
