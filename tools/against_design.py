#!/usr/bin/env python3
"""Compares listings with those of the executable design of the compiler. It isn't part of the gate.

    tools/against_design.py PRODUCT DESIGN [FILE..] [--rows ROWS] [--seed N] [--count N] [--jobs N]

PRODUCT is the program, as crates/effects_cli/out/effects_cli, or a command in quotes; DESIGN is the folder of the design, which
tools/design_listing.py gives the constants of this repository's assembler. It wants gcc, for the design's own simulator.
Compared are `asm FILE` of the files, of the worked rows with their settings, and of random programs (tools/random_programs.py):
the whole listing, or the status and the line on standard error. Passed over are programs of the form `let () = print_int A`, which
have a compiler of their own. It ends with status 1 where something differs, and then prints the first line that differs, with the
label of the design that its address stands behind.
"""
import itertools
import sys

import design_listing
import program_cases

PRODUCT, DRIVER, SECONDS = [], None, 60


def begin(product, folder, seconds):
    global PRODUCT, DRIVER, SECONDS
    PRODUCT, DRIVER, SECONDS = product, design_listing.load(folder), seconds


def place(image, pc):
    """Where an instruction stands, by the design's labels."""
    labels = [(at, name) for name, at in image.places.items() if at <= pc and not name.startswith('.')]
    at, name = max(labels, default=(0, 'the beginning'))
    return 'at %08x, %d instructions behind %s' % (pc, (pc - at) // 4, name)


def place_of_line(image, line):
    """Where a line of the listing stands."""
    fields = line.split()
    if len(fields) < 3 or not fields[0].startswith('0'):
        return 'in the head or the start words'
    return place(image, int(fields[0], 16))


def first_difference(image, ours, theirs):
    lines = itertools.zip_longest(ours.decode().split('\n'), theirs.decode().split('\n'), fillvalue='')
    number, (a, b) = next((n, pair) for n, pair in enumerate(lines, 1) if pair[0] != pair[1])
    return 'line %d, %s:\n    here       %s\n    the design %s' % (number, place_of_line(image, b or a), a, b)


def image_of(case):
    """The design's image, or None where the file is refused, and what differs, or None."""
    options = program_cases.options(case.settings)
    status, out, err = program_cases.answer(PRODUCT, case, 'asm', options, SECONDS)
    wanted, listing, line, image, _ = DRIVER.execute(['asm', case.file] + options, {case.file: case.text})
    if (status, err) != (wanted, line):
        return image, 'status %s and %r, not %s and %r' % (status, err, wanted, line)
    return image, None if out == listing else first_difference(image, out, listing)


def compare(case):
    """What differs, or None."""
    return image_of(case)[1]


def main():
    given = program_cases.arguments(__doc__, 'PRODUCT', 'DESIGN')
    every = program_cases.cases(given)
    cases = [case for case in every if not program_cases.is_of_form(case.text)]
    settings = (program_cases.command(given.product), given.design, given.seconds)
    same = different = 0
    for case, found in zip(cases, program_cases.in_pool(compare, (given.jobs, cases), begin, settings)):
        same += found is None
        different += found is not None
        if found is not None:
            print('%s: %s (kept as %s)' % (case.name, found, program_cases.keep(given.keep, case)), flush=True)
    print('%d the same, %d different; %d have the other compiler' % (same, different, len(every) - len(cases)))
    sys.exit(1 if different else 0)


if __name__ == '__main__':
    main()
