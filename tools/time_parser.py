#!/usr/bin/env python3
"""Times ml_parser on programs of several sorts, from 64 KiB to 1 MiB, and measures its memory. It isn't part of the gate.

Each line has the sort, for 64 KiB, 256 KiB and 1 MiB the best time of five of parsing alone in milliseconds, the
ratio of the last two (4 where time grows with the length), bytes a second and nodes a second at 1 MiB, and the peak
memory of the process at 1 MiB, for each byte of the text. The last lines are texts of 200,000 elements.
"""
import subprocess
import sys

import command_words
from parser_program import TIMES, Program

SIZES = (65536, 262144, 1048576)

DEFINITIONS = b"""let rec length_from n = function
  | [] -> n
  | _ :: rest -> length_from (n + 1) rest

type 'a tree = Leaf | Node of 'a tree * 'a * 'a tree

let rec insert compare x tree =
  match tree with
  | Leaf -> Node (Leaf, x, Leaf)
  | Node (left, y, right) when compare x y < 0 -> Node (insert compare x left, y, right)
  | Node (left, y, right) -> Node (left, y, insert compare x right)

let sum xs =
  let total = ref 0 in
  for i = 0 to Array.length xs - 1 do
    total := !total + xs.(i) * 2
  done;
  if !total > 100 then print_string "large\\n" else print_int !total;
  !total

"""


def filled(piece, size):
    return piece * (size // len(piece))


KINDS = [
    ('definitions', lambda n: filled(DEFINITIONS, n)),
    ('short definitions', lambda n: filled(b'let x = 1\n', n)),
    ('a sequence', lambda n: b'let () = ' + filled(b'();', n) + b'()'),
    ('a list', lambda n: b'let x = [' + filled(b'1; ', n) + b'1]'),
    ('a sum above the depth', lambda n: b'let x = ' + filled(b'1 + ', n) + b'1'),
    ('operators of all levels', lambda n: b'let x = [' + filled(b'a || b && c = d ^ e :: f + g * h lsl - i j; ', n) + b'1]'),
    ('brackets above the depth', lambda n: b'let x = ' + b'(' * (n // 2) + b'1' + b')' * (n // 2)),
    ('negations without an end', lambda n: b'let x = ' + filled(b'- ', n)),
    ('open conditions', lambda n: b'let x = ' + filled(b'if a then ', n) + b'b'),
    ('clauses', lambda n: b'let f = function ' + filled(b'| A x -> x ', n)),
    ('patterns', lambda n: b'let f = function ' + filled(b'a, ', n) + b'b -> c'),
    ('a type', lambda n: b'type t = A of ' + filled(b'int * ', n) + b'int'),
]

ELEMENTS = [
    ('sequence', b'let () = ' + b'();' * 200000 + b'()'),
    ('list', b'let x = [' + b'1;' * 200000 + b'1]'),
    ('application', b'let x = f' + b' 1' * 200000),
    ('items', b';;1' * 200000),
]


def measured(path, text):
    """The best time of parsing in nanoseconds, the nodes, and the peak memory of the process in bytes."""
    best = None
    for _ in range(5):
        run = subprocess.Popen([path], stdin=subprocess.PIPE, stdout=subprocess.PIPE)
        out, _ = run.communicate(text)
        words = out.split()
        if run.returncode != 0 or len(words) != 4:
            raise SystemExit('the program ended with status %d and printed %r' % (run.returncode, out))
        lexed, both, _, nodes = (int(word) for word in words)
        best = min(best or both - lexed, both - lexed)
    return best, nodes


def peak(path, text):
    """The peak memory of a process of its own, by a child that has run nothing else."""
    source = 'import resource, subprocess, sys; subprocess.run([sys.argv[1]], stdin=sys.stdin, stdout=subprocess.DEVNULL); print(resource.getrusage(resource.RUSAGE_CHILDREN).ru_maxrss)'
    run = subprocess.run([sys.executable, '-c', source, path], input=text, stdout=subprocess.PIPE, check=True)
    return int(run.stdout) * 1024


def main():
    command_words.begin(__doc__)
    with Program(TIMES) as program:
        path = program.build()
        for name, made in KINDS:
            times = [measured(path, made(size)) for size in SIZES]
            last, nodes = times[-1]
            text = made(SIZES[-1])
            print('%-26s %s ms  ratio %4.1f  %6.1f MB and %5.2f million nodes a second  %5.1f bytes of memory a byte' % (
                name, ' '.join('%8.2f' % (time / 1e6) for time, _ in times), last / times[-2][0], len(text) * 1e3 / last,
                nodes * 1e3 / last, peak(path, text) / len(text)), flush=True)
        for name, text in ELEMENTS:
            time, nodes = measured(path, text)
            print('200,000 elements: %-12s %8.2f ms  %7d nodes  %6.1f MiB' % (name, time / 1e6, nodes, peak(path, text) / 2 ** 20), flush=True)


if __name__ == '__main__':
    main()
