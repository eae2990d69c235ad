#!/usr/bin/env python3
"""Writes random programs with references whose types aren't generalised, and with generalised functions over them. It isn't
part of the gate.

    tools/weak_references.py FOLDER [SEED] [COUNT]

A use of such a function, behind an assignment in the same item, must share what the assignment told of the reference's type.
tools/against_types.sh compares inference on a folder of such programs with another implementation.
"""
import os
import random
import sys

import command_words

HEADS = [
    'let r = ref []',
    'let q = ref []',
    'let get () = match !r with y :: _ -> y | [] -> failwith ""',
    'let put x = r := x :: []',
    'let swap () = let a = !r in r := !q; q := a',
    'let id x = x',
    'let both x = put x; q := x :: []',
]

STATEMENTS = [
    'r := [[]]', 'r := [ref []]', 'put []', 'put (ref [])', 'ignore ("a" :: get ())', 'ignore (1 :: get ())', 'r := [[1]]',
    'r := [["a"]]', 'ignore (get ())', 'q := !r', 'q := [[true]]', 'swap ()', 'put (id [])', 'both []', 'both [[]]',
    'ignore (!(get ()))', 'get () := [1]', 'get () := [true]', 'put (id (get ()))',
]

WITH_PARAMETER = [
    'put (c :: [])', 'put c', 'ignore (c :: get ())', 'r := (c :: []) :: []', 'both (id c)', 'ignore (c = 1)', 'q := c :: !q',
]

ARGUMENTS = ['1', 'true', '[1]', '[]', '(ref [])']


def program(rng):
    """The heads, and some items: functions of one parameter, and statements, some of which call these."""
    lines, functions = list(HEADS), 0
    for _ in range(rng.randint(1, 4)):
        if rng.random() < 0.45:
            body = [rng.choice(STATEMENTS + 2 * WITH_PARAMETER) for _ in range(rng.randint(1, 4))]
            lines.append('let h%d c = %s' % (functions, '; '.join(body)))
            functions += 1
        else:
            calls = ['h%d %s' % (f, a) for f in range(functions) for a in ARGUMENTS]
            body = [rng.choice(STATEMENTS + calls) for _ in range(rng.randint(1, 5))]
            lines.append('let () = ' + '; '.join(body))
    return '\n'.join(lines) + '\n'


def main():
    command_words.begin(__doc__, 'FOLDER')
    folder, seed, count = (sys.argv[1:] + ['1', '500'][len(sys.argv) - 2:])[:3]
    rng = random.Random(int(seed))
    os.makedirs(folder, exist_ok=True)
    for n in range(int(count)):
        with open(os.path.join(folder, 'weak%04d.ml' % n), 'w') as file:
            file.write(program(rng))


main()
