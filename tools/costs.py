#!/usr/bin/env python3
"""Counts instructions and heap words, beside those of the executable design of the compiler. It isn't part of the gate.

    tools/costs.py PRODUCT DESIGN [FILE..] [--jobs N]

PRODUCT is the program, as crates/effects_cli/out/effects_cli, or a command in quotes; DESIGN is the folder of the design, which
tools/design_listing.py gives the constants of this repository's assembler. FILEs are programs, or folders of them. It wants gcc:
both images are run by bench/rvrun.c, an independent machine, from their listings.
Two tables are printed: of each program its instructions, and of single operations what one of them takes, as the difference
between 200 and 400 rounds of a loop, less the empty loop. It ends with status 1 where a count differs.
"""
import os
import re
import subprocess
import sys
import tempfile

import design_listing
import program_cases
from program_cases import Case, options

TOP = os.path.join(os.path.dirname(os.path.abspath(__file__)), '..')
LARGE = {'heap': 16777216, 'stack': 1048576, 'budget': 4294967295, 'domains': 1}
PRODUCT, DRIVER, RUNNER, SECONDS = [], None, '', 60

HEAD = '''open Effect
open Effect.Deep
type _ Effect.t += Step : unit Effect.t | Other : unit Effect.t
exception Stop
let same x = x
let add a b = a + b
let cell = ref 0
let numbers = [|1; 2; 3|]
'''

OPERATIONS = [
    ('empty round', '()'),
    ('constant', '1; ()'),
    ('addition of constants', 'ignore (1 + 2)'),
    ('call of a known function', 'ignore (same 1)'),
    ('call with two arguments', 'ignore (add 1 2)'),
    ('pair', 'ignore (1, 2)'),
    ('closure of one name', 'ignore (fun x -> i)'),
    ('list cell', 'ignore (1 :: [])'),
    ('reference read', 'ignore !cell'),
    ('reference written', 'cell := 1'),
    ('fetch_and_add', 'ignore (Atomic.fetch_and_add shared 1)'),
    ('exchange', 'ignore (Atomic.exchange shared 1)'),
    ('compare_and_set', 'ignore (Atomic.compare_and_set shared 0 0)'),
    ('atomic get', 'ignore (Atomic.get shared)'),
    ('array read', 'ignore numbers.(1)'),
    ('try without an exception', 'try () with Stop -> ()'),
    ('raise and catch', 'try raise Stop with Stop -> ()'),
    ('match on a list cell', 'match [i] with x :: _ -> () | [] -> ()'),
    ('handler, no effect', 'match () with () -> () | effect Step, k -> continue k ()'),
    ('handler, perform and continue', 'match perform Step with () -> () | effect Step, k -> continue k ()'),
    ('handler, two effects', 'match perform Step; perform Step with () -> () | effect Step, k -> continue k ()'),
    ('two performs through a handler', 'match (match perform Step; perform Step with () -> () | exception Stop -> () '
                                       '| effect Other, k -> continue k ()) with () -> () | effect Step, k -> continue k ()'),
    ('perform and discontinue', 'match perform Step with () -> () | exception Stop -> () | effect Step, k -> discontinue k Stop'),
    ('unhandled perform, caught', 'try perform Step with Unhandled _ -> ()'),
    ('c_try', 'ignore (c_try (fun () -> ()))'),
    ('c_iter over three', 'c_iter ignore numbers'),
    ('print_char', "print_char 'a'"),
    ('print_int', 'print_int 7'),
    ('spawn and join', 'Domain.join (Domain.spawn (fun () -> ()))'),
    ('pause and Fiberq push', 'match perform Step with () -> () | effect Step, k -> Fiberq.push k'),
    ('Fiberq take, none there', 'ignore (Fiberq.take_from 0)'),
    ('Fiberq push and take', '(match perform Step with () -> () | effect Step, k -> Fiberq.push k); '
                             'ignore (Fiberq.take_from 0)'),
]


def begin(product, folder, runner, seconds):
    global PRODUCT, DRIVER, RUNNER, SECONDS
    PRODUCT, DRIVER, RUNNER, SECONDS = product, design_listing.load(folder), runner, seconds


def counts_of(listing):
    """The end, the instructions of all harts, and the words of the heap."""
    with tempfile.NamedTemporaryFile(suffix='.lst') as file:
        file.write(listing)
        file.flush()
        run = subprocess.run([RUNNER, file.name], stdout=subprocess.DEVNULL, stderr=subprocess.PIPE, timeout=SECONDS)
    found = re.search(rb'(\w+) (\d+) details .* heap (\d+) retired((?: \d+)+)', run.stderr)
    end = (found.group(1).decode(), int(found.group(2)))
    return end, sum(map(int, found.group(4).split())), int(found.group(3))


def both_counts(case):
    """The counts of the image here and of the design's, or what was said instead of an image."""
    words = options(case.settings)
    status, ours, err = program_cases.answer(PRODUCT, case, 'asm', words, SECONDS)
    theirs = DRIVER.execute(['asm', case.file] + words, {case.file: case.text})
    if status != 0 or theirs[0] != 0:
        return case, (err if status != 0 else theirs[2]).decode('latin-1').strip(), None
    return case, counts_of(ours), counts_of(theirs[1])


def operation_cases():
    found = []
    for name, body in OPERATIONS:
        settings = dict(LARGE, domains=4 if 'Domain' in body else 1)
        for rounds in (200, 400):
            shared = 'let shared = Atomic.make 0\n' if 'Atomic' in body else ''
            text = HEAD + shared + 'let () = for i = 1 to %d do %s done\n' % (rounds, body)
            found.append(Case(name, 'a.ml', text.encode(), settings))
    return found


def program_table(results):
    """Prints the table of programs; gives how many counts differ."""
    different = 0
    print('| program | instructions | of the design | heap words | of the design |\n|---|---|---|---|---|')
    for case, ours, theirs in results:
        name = os.path.basename(case.name)
        if theirs is None:
            different += 1
            print('| %s | %s | | | |' % (name, ours))
            continue
        different += ours != theirs
        end = '' if ours[0] == theirs[0] == ('end', 1) else ', ended by %s and %s' % (ours[0], theirs[0])
        print('| %s%s | %d | %d | %d | %d |' % (name, end, ours[1], theirs[1], ours[2], theirs[2]))
    return different


def per_round(less, more):
    return [(b - a) / 200 for a, b in zip(less[1:], more[1:])]


def operation_table(results):
    """Prints the table of operations; gives how many counts differ."""
    different, empty = 0, None
    print('\n| operation | instructions | of the design | heap words | of the design |\n|---|---|---|---|---|')
    for (case, ours, theirs), (_, more, their_more) in zip(results[::2], results[1::2]):
        if theirs is None or their_more is None:
            different += 1
            print('| %s | %s | | | |' % (case.name, ours))
            continue
        a, b = per_round(ours, more), per_round(theirs, their_more)
        different += a != b
        empty = empty or (a, b)
        if case.name != OPERATIONS[0][0]:
            a, b = [x - y for x, y in zip(a, empty[0])], [x - y for x, y in zip(b, empty[1])]
        print('| %s | %.1f | %.1f | %.1f | %.1f |' % (case.name, a[0], b[0], a[1], b[1]))
    return different


def main():
    given = program_cases.arguments(__doc__, 'PRODUCT', 'DESIGN')
    programs = program_cases.of_files(given.files)
    for case in programs:
        case.settings = dict(LARGE)
    cases = programs + operation_cases()
    with tempfile.TemporaryDirectory() as folder:
        runner = os.path.join(folder, 'rvrun')
        subprocess.check_call(['gcc', '-O2', '-o', runner, os.path.join(TOP, 'bench', 'rvrun.c')])
        settings = (program_cases.command(given.product), given.design, runner, given.seconds)
        results = list(program_cases.in_pool(both_counts, (given.jobs, cases), begin, settings))
    different = program_table(results[:len(programs)]) + operation_table(results[len(programs):])
    print('\n%d programs and %d operations, %d with other counts' % (len(programs), len(OPERATIONS), different))
    sys.exit(1 if different else 0)


if __name__ == '__main__':
    main()
