#!/usr/bin/env python3
"""Compares runs with another implementation of the semantics. It isn't part of the gate.

    tools/against_semantics.py PRODUCT ORACLE [FILE..] [--rows ROWS] [--seed N] [--count N] [--jobs N]

PRODUCT is the program, as crates/effects_cli/out/effects_cli, or a command in quotes; ORACLE is the folder of the other
implementation (oracle.py, machine.py), which carries out the steps of the semantics and measures spend, effort and room.
Each program of one domain, by default 300 random ones (tools/random_programs.py), is run

    - with ample settings and with the least that the measures promise to suffice (heap = spend, stack = room + 64,
      budget = effort): output, status and the line on standard error must be those of the semantics;
    - with scarce heap, stack, log or budget, or all of them: the same, or an early end with true numbers, which the measures
      allow, and a front of the output.

What is wrong is printed with the words of the run, and the program is kept. It ends with status 1 where something differs.
Programs that the semantics doesn't finish in 400,000 steps are passed over.
"""
import collections
import random
import sys

import program_cases
from program_cases import NO_END, USUAL, answer, options

RANGES = {'heap': (16384, 16777216), 'stack': (256, 1048576), 'budget': (1, 4294967295)}
MOST_STEPS = 400000
PRODUCT, ORACLE, SECONDS = [], None, 60


class Meaning:
    """What a run of a program prints, how it ends, and its measures."""

    def __init__(self, run, status, line):
        self.printed, self.status = bytes(run.out), status
        self.line = b'' if line is None else line + b'\n'
        self.finished = run.end[0] in ('exited', 'uncaught', 'calls', 'log')
        self.spend, self.effort, self.room = run.spend(), run.effort(), run.greatest_room()

    def answer(self):
        return self.status, self.printed, self.line


def begin(product, folder, seconds):
    global PRODUCT, ORACLE, SECONDS
    sys.dont_write_bytecode = True
    sys.path.insert(0, folder)
    import machine
    import oracle
    import words
    PRODUCT, ORACLE, SECONDS = product, (oracle, machine, words), seconds


def meaning_of(case, out):
    oracle, machine, words = ORACLE
    program = oracle.front(case.text, case.file, False, False)
    run = machine.run(program, 1, 1000, out, None, MOST_STEPS)
    return Meaning(run, *(words.line_of_end(run.end) if run.end[0] != 'steps' else (0, None)))


def clamp(name, value):
    low, high = RANGES[name]
    return max(low, min(high, value))


def numbers(line, head, count):
    """The numbers of an early end's line, or None where it is another line."""
    words = line.decode('latin-1').split()
    if words[:3] != ['error:'] + head.split() or len(words) != 3 + count:
        return None
    return [int(word) for word in words[3:]]


def early(meaning, settings, status, printed, line):
    """The kind of an early end with true numbers, or None."""
    if not meaning.printed.startswith(printed):
        return None
    if status == 71 and (found := numbers(line, 'heap full', 3)):
        used, asked, size = found
        return 'heap' if size == settings['heap'] < used + asked <= meaning.spend else None
    if status == 72 and (found := numbers(line, 'stack full', 2)):
        needed, size = found
        return 'stack' if size == settings['stack'] < needed <= 64 + meaning.room else None
    if status == 73 and (found := numbers(line, 'log full', 3)):
        used, asked, size = found
        return 'log' if size == settings['out'] < used + asked and used == len(printed) else None
    if status == 74 and (found := numbers(line, 'budget spent', 2)):
        hart, count = found
        return 'budget' if hart == 0 and count == settings['budget'] < meaning.effort else None
    return None


def whole_settings(meaning, rng):
    """Ample settings, and the least ones that suffice."""
    ample = dict(USUAL, heap=max(USUAL['heap'], clamp('heap', meaning.spend)), turns=rng.choice([1, 7, 1000]))
    least = dict(USUAL, domains=1, heap=clamp('heap', meaning.spend), stack=clamp('stack', meaning.room + 64),
                 budget=clamp('budget', meaning.effort))
    return [ample, least]


def scarce_settings(meaning, rng):
    """Settings of which some are less than the run may want."""
    least = {'heap': rng.choice([16384, 20000, 33000]), 'stack': rng.choice([256, 257, 300, 1000, 4096]), 'out': 1024,
             'budget': clamp('budget', int(meaning.effort ** rng.random()))}
    found = [dict(USUAL, domains=1, **{name: least[name]}) for name in least]
    found.append(dict(USUAL, domains=1, heap=16384, stack=256, out=1024))
    return found


def compare(case):
    """The kind of the case, the ends that were seen, and what differs."""
    oracle, _, words = ORACLE
    seen, wrong = collections.Counter(), []
    try:
        meaning = program_cases.deep(meaning_of, case, USUAL['out'])
    except Exception as fault:
        if not hasattr(fault, 'kind'):
            raise
        status, line = words.line_of_fault(fault)
        found = answer(PRODUCT, case, 'run', (), SECONDS)
        wanted = (status, b'', line.encode() + b'\n')
        return 'refused', seen, [] if found == wanted else ['%r, not %r' % (found, wanted)]
    if not meaning.finished:
        return 'long', seen, wrong
    rng = random.Random(case.seed)
    scarce = scarce_settings(meaning, rng)
    for settings in whole_settings(meaning, rng) + scarce:
        found = answer(PRODUCT, case, 'run', options(settings), SECONDS)
        kind = early(meaning, settings, *found) if settings in scarce else None
        seen[kind or 'whole'] += 1
        if kind is None and found != meaning.answer() or found[0] == NO_END:
            wrong.append('%s: %r, not %r; spend %d, room %d, effort %d' % (
                ' '.join(options(settings)), found, meaning.answer(), meaning.spend, meaning.room, meaning.effort))
    return 'run', seen, wrong


def main():
    given = program_cases.arguments(__doc__, 'PRODUCT', 'ORACLE')
    if not (given.files or given.rows or given.count):
        given.count = 300
    cases = [case for case in program_cases.cases(given) if b'Domain' not in case.text]
    settings = (program_cases.command(given.product), given.oracle, given.seconds)
    kinds, ends, different = collections.Counter(), collections.Counter(), 0
    for case, found in zip(cases, program_cases.in_pool(compare, (given.jobs, cases), begin, settings)):
        kind, seen, wrong = found
        kinds[kind] += 1
        ends += seen
        if wrong:
            different += 1
            print('%s, kept as %s:\n    %s' % (case.name, program_cases.keep(given.keep, case), '\n    '.join(wrong)), flush=True)
    print('runs: %s; passed over as too long: %d' % (', '.join('%s %d' % end for end in sorted(ends.items())), kinds['long']))
    print('%d programs, %d refused, %d different' % (len(cases), kinds['refused'], different))
    sys.exit(1 if different else 0)


if __name__ == '__main__':
    main()
