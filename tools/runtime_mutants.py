#!/usr/bin/env python3
"""Makes wrong runtimes and tells which checks find them. It isn't part of the gate.

    tools/runtime_mutants.py PRODUCT DESIGN [--runs N] [--count N] [--jobs N]

PRODUCT is the program, as crates/effects_cli/out/effects_cli, or a command in quotes; DESIGN is the folder of the executable
design of the compiler, whose tests have some of the mutants and of the programs. It wants gcc. The listing of each program must
be the design's; so the lines of the runtime that are changed here are those of the product.
Each mutant changes a few lines of the runtime. Its images are run by tools/interleavings.py, N times in each mode, and gone
through by tools/against_interleavings.py. The table has the number of programs in which each check found it; programs are those
of the design's tests, and COUNT of tools/random_domains.py (8). It ends with status 1 where no check finds a mutant, or where one
finds the runtime as it is.
"""
import collections
import sys
import tempfile

import against_design
import against_interleavings
import interleavings
import program_cases
import random_domains
from program_cases import Case

SETTINGS = {'heap': 32768, 'stack': 4096, 'out': 2048, 'budget': 3000000}
MOST_STEPS, MOST_STATES = 4000000, 2000000
ALL = 'all interleavings'
DESIGN_MUTANTS = None
MUTANTS, RACES, SMALL = [], [], []


def delete(lines, at):
    """Takes a line out, with the mark of a shared access before it."""
    del lines[at]
    if lines[at - 1] == ('shared',):
        del lines[at - 1]


def nth(lines, label, operation, number):
    """Where the label's instruction of this operation and number is."""
    at = DESIGN_MUTANTS.find(lines, label)
    for _ in range(number):
        at = DESIGN_MUTANTS.after(lines, at + 1, DESIGN_MUTANTS.is_op(operation))
    return at


def lock_kept(lines):
    """A print doesn't give the lock back."""
    delete(lines, nth(lines, 'print_move', 'sd', 2))


def lock_back_early(lines):
    """A print gives the lock back before it moves the cursor."""
    cursor, lock = nth(lines, 'print_move', 'sd', 1), nth(lines, 'print_move', 'sd', 2)
    lines[cursor:lock + 1] = [('shared',), lines[lock], lines[cursor]]


def end_without_lock(lines):
    """The end is written without the lock."""
    lines[nth(lines, 'stop_lock', 'amoswap.d', 1)] = ('plain', 'addi', 7, 0, 0, 0)


def join_without_wait(lines):
    """A join takes the result that there is."""
    lines[nth(lines, 'join', 'ecall', 1)] = ('plain', 'ld', 10, 10, 0, 0)


def other_pool(lines):
    """A stack that is free goes to the pool of slot 0."""
    import rt_layout
    at = nth(lines, 'free_fiber', 'add', 1)
    lines[at] = lines[at][:4] + (int(rt_layout.FIRST),) + lines[at][5:]


def kept_continuation(lines):
    """A continuation stays full when it is taken."""
    at = nth(lines, 'take_cont', 'amoswap.d', 1)
    lines[at:at + 1] = [('shared',), ('plain', 'ld', 13, 10, 0, 0)]


def slot_kept(lines):
    """A domain that has finished keeps its slot."""
    delete(lines, nth(lines, 'finish', 'amoand.d', 1))


def exception_as_value(lines):
    """An exception that ends a domain becomes its value."""
    at = DESIGN_MUTANTS.find(lines, 'root_exn') + 1
    lines[at] = lines[at][:2] + (1,)


def entry_of_tail(lines):
    """The newest entry of a queue is taken in place of the oldest, which is left out."""
    at = nth(lines, 'take_again', 'andi', 1)
    lines[at:at + 1] = [('plain', 'addi', 7, 6, 0, -1), ('plain', 'andi', 7, 7, 0, 1023)]


OWN = [lock_kept, lock_back_early, end_without_lock, join_without_wait, other_pool, kept_continuation, slot_kept,
       exception_as_value, entry_of_tail]


def begin(product, design, seconds, library, runs, races=(), small=()):
    global DESIGN_MUTANTS, MUTANTS, RACES, SMALL
    random_domains.begin(product, design, seconds, library, runs)
    against_interleavings.begin(product, design, seconds, 0, 0, 0)
    import test_mutants
    DESIGN_MUTANTS = test_mutants
    MUTANTS = [None] + [mutant for mutant in test_mutants.MUTANTS if mutant] + OWN
    RACES, SMALL = races, small


def race_programs(count):
    """Programs whose answer is known, or will be that of the semantics."""
    found = [Case('race ' + name, 'a.ml', text, dict(SETTINGS, domains=domains), answers=(outputs, 0, b''))
             for name, text, domains, outputs in DESIGN_MUTANTS.programs()]
    return found + [random_domains.case_of(seed) for seed in range(count)]


def small_programs(design):
    """Small programs: of two domains, and of three those that may start so many."""
    found = []
    for case in against_interleavings.small_programs(design):
        for domains in [2, 3] if case.text.count(b'Domain.spawn') > 1 else [2]:
            found.append(Case('%s of %d domains' % (case.name, domains), case.file, case.text,
                              dict(against_interleavings.SETTINGS, domains=domains)))
    return found


def prepare(job):
    """The answers of a program, and what differs in its listing, or None."""
    is_small, case = job
    if is_small:
        answers, _ = against_interleavings.of_semantics(case, case.settings['domains'])
    else:
        answers = case.answers or random_domains.answers_of(case)
    return answers, against_design.image_of(case)[1]


def image_of(case, mutant):
    """The image of a program with the runtime of a mutant."""
    import image_build
    original = image_build.runtime_lines

    def lines():
        found = original()
        if mutant:
            mutant(found)
        return found
    image_build.runtime_lines = lines
    try:
        return program_cases.deep(against_design.DRIVER.compile_text, case.text, case.file, case.settings)
    finally:
        image_build.runtime_lines = original


def find(number):
    """In how many programs each check finds a mutant."""
    counts = collections.Counter()
    for case in RACES:
        image, found = image_of(case, MUTANTS[number]), interleavings.Found()
        for mode in interleavings.MODES:
            interleavings.in_mode(image, case.answers, mode, range(interleavings.RUNS), MOST_STEPS, True, found)
        counts.update(found.kinds)
    for case in SMALL:
        ends, wrong, _ = against_interleavings.of_image(image_of(case, MUTANTS[number]), MOST_STATES)
        counts[ALL] += bool(wrong or ends != case.answers)
    return counts


def table(rows):
    """Prints which checks find which mutant; gives how many are found wrongly or not at all."""
    columns = interleavings.KINDS + [ALL]
    print('| mutant | %s |\n|%s' % (' | '.join(columns), '---|' * (len(columns) + 1)))
    wrong = 0
    for mutant, counts in zip(MUTANTS, rows):
        name = mutant.__name__.replace('m_', '', 1).replace('_', ' ') if mutant else 'none'
        is_wrong = bool(mutant) != bool(sum(counts.values()))
        wrong += is_wrong
        print('| %s | %s |%s' % (name, ' | '.join(str(counts[column] or '') for column in columns), ' WRONG' if is_wrong else ''),
              flush=True)
    return wrong


def main():
    numbers = [('--runs', 10, 'runs of a program in each mode')]
    given = program_cases.arguments(__doc__, 'PRODUCT', 'DESIGN', numbers=numbers)
    with tempfile.TemporaryDirectory() as folder:
        settings = (program_cases.command(given.product), given.design, given.seconds,
                    interleavings.built(given.design, folder), given.runs)
        begin(*settings)
        races, small = race_programs(given.count or 8), small_programs(given.design)
        jobs = [(False, case) for case in races] + [(True, case) for case in small]
        different = 0
        for (_, case), (answers, said) in zip(jobs, program_cases.in_pool(prepare, (given.jobs, jobs), begin, settings)):
            case.answers = answers
            different += said is not None
            if said is not None:
                print('%s: %s' % (case.name, said))
        races = [case for case in races if case.answers]
        print('%d programs, of which %d have another listing' % (len(jobs), different), flush=True)
        wrong = table(program_cases.in_pool(find, (given.jobs, range(len(MUTANTS))), begin, settings + (races, small)))
    sys.exit(1 if different or wrong else 0)


if __name__ == '__main__':
    main()
