#!/usr/bin/env python3
"""Times ml_lexer on long texts of hostile kinds, at 64 KiB and at 1 MiB. It isn't part of the gate.

Each line has the kind, the best time of five at each size in milliseconds, their ratio (16 where time grows
with the length), and tokens a second at 1 MiB.
"""
import subprocess

import command_words
from lexer_program import Program

SIZES = (65536, 1048576)


def filled(piece, size):
    return (piece * (size // len(piece) + 1))[:size]


def nested(size):
    depth = size // 4
    return b'(*' * depth + b'*)' * depth


KINDS = [
    ('one name', lambda n: filled(b'a', n)),
    ('one comment', lambda n: b'(*' + filled(b'a', n - 4) + b'*)'),
    ('brackets', lambda n: filled(b'(', n)),
    ('deep comments', nested),
    ('a string of escapes', lambda n: b'"' + filled(b'\\n', n - 2) + b'"'),
    ('quotation marks', lambda n: filled(b'"', n)),
    ('apostrophes in a comment', lambda n: b'(*' + filled(b"'", n - 4) + b'*)'),
    ('half characters in a comment', lambda n: b'(*' + filled(b"'\\25", n - 4) + b'*)'),
    ('strings in a comment', lambda n: b'(*' + filled(b'"a"', (n - 4) // 3 * 3) + b'*)'),
    ('type variables', lambda n: filled(b"'a ", n // 3 * 3)),
    ('one number', lambda n: b'0' * n),
    ('short names', lambda n: filled(b'x ', n)),
    ('keywords', lambda n: filled(b'with let function ', n // 18 * 18)),
    ('a program', lambda n: filled(b'let rec f x = match x with 0 -> 1 | n -> n * f (n - 1)\n', n // 56 * 56)),
]


def nanoseconds(path, text):
    best = None
    for _ in range(5):
        run = subprocess.run([path, 'time'], input=text, stdout=subprocess.PIPE, check=True)
        time, count = (int(word) for word in run.stdout.split())
        best = min(best or time, time)
    return best, count


def main():
    command_words.begin(__doc__)
    with Program() as program:
        path = program.build()
        for name, made in KINDS:
            (short, _), (long, count) = (nanoseconds(path, made(size)) for size in SIZES)
            rate = '%.1f' % (count * 1000 / long)
            print('%-30s %8.3f ms %9.3f ms  ratio %5.1f  %8d tokens, %s million a second' % (name, short / 1e6, long / 1e6, long / short, count, rate), flush=True)


main()
