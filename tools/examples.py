#!/usr/bin/env python3
"""Runs the examples and compares what they print with what their heads say. The gate calls it.

    tools/examples.py PRODUCT

PRODUCT is the program, as crates/effects_cli/out/effects_cli, or a command in quotes. Each example runs with the usual options and
in turns of 1 and of 50 instructions. It ends with status 1 where one prints something else or doesn't end with status 0.
"""
import sys

import command_words
import program_cases

SECONDS, TURNS = 120, (None, 1, 50)


def fault(product, case, turns):
    """What is wrong with a run of an example, or None."""
    words = [] if turns is None else ['--turns', str(turns)]
    status, printed, said = program_cases.answer(product, case, 'run', words, SECONDS)
    if (status, program_cases.printed_lines(printed)) == (0, program_cases.told_by_head(case.text)):
        return None
    return '%s %s: status %s, %r, %r' % (case.name, ' '.join(words), status, printed, said)


def main():
    command_words.begin(__doc__, 'PRODUCT')
    product = program_cases.command(sys.argv[1])
    cases = [case for case in program_cases.of_files([program_cases.EXAMPLES]) if program_cases.told_by_head(case.text)]
    faults = [found for case in cases for turns in TURNS if (found := fault(product, case, turns)) is not None]
    for found in faults:
        print(found)
    print('%d examples, each in %d ways: %d faults' % (len(cases), len(TURNS), len(faults)))
    sys.exit(1 if faults or not cases else 0)


if __name__ == '__main__':
    main()
