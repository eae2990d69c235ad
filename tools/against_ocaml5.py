#!/usr/bin/env python3
"""Compares runs with OCaml 5.3. It isn't part of the gate.

    tools/against_ocaml5.py PRODUCT OCAML5 [FILE..] [--rows ROWS] [--seed N] [--count N] [--jobs N]

PRODUCT is the program, as crates/effects_cli/out/effects_cli, or a command in quotes. OCAML5 is a command too: `OCAML5 run FILE`
compiles a file by OCaml 5.3 and runs it, with status 65 where it doesn't compile, behind definitions of the names that OCaml
lacks (c_iter, c_fold, c_try, Fiberq, integers alone for min and max).
The examples and the files, and random programs (tools/random_programs.py --ocaml), are run by both: what is printed, the status
and the name of the exception that ends a run must be the same. The text of an exception differs by design, as the names of
modules before it. What an example prints is also compared with its head. Told apart are programs that OCaml doesn't compile, by
its message, and those that are refused here. It ends with status 1 where a program prints something else, or where an example
isn't the same.
"""
import collections
import re
import sys

import program_cases

PRODUCT, OCAML, SECONDS = [], [], 60


def begin(product, ocaml, seconds):
    global PRODUCT, OCAML, SECONDS
    PRODUCT, OCAML, SECONDS = product, ocaml, seconds


def exception_name(line):
    """The name of the exception in the line on standard error, without modules and argument."""
    found = re.match(rb'Fatal error: exception ([\w.]+)', line)
    if found is None:
        return b''
    if found.group(1) == b'File':
        return b'Match_failure'
    return found.group(1).split(b'.')[-1]


def message(text):
    """OCaml's message without names and places."""
    text = re.sub(r'\s+', ' ', text.decode('latin-1'))
    text = re.sub(r'"[^"]*"', '"_"', text[max(text.find('Error:'), 0):])        # or a fault of the compiler itself
    return 'ambiguous types' if 'ambiguous' in text else text[:100]


def compare(case):
    """The kind of the case and what is to be told of it."""
    status, out, err = program_cases.answer(PRODUCT, case, 'run', (), SECONDS)
    theirs, printed, said = program_cases.answer(OCAML, case, 'run', (), SECONDS)
    refused = status in (65, 66, 67)
    if theirs == 65 and re.search(rb'Error:|>> Fatal error', said):
        return 'refused by both' if refused else 'refused by OCaml', message(said)
    if refused:
        return 'refused here', err.decode('latin-1').strip()
    if 69 <= status <= 79:
        return 'early end', err.decode('latin-1').strip()
    wanted = program_cases.told_by_head(case.text)
    if wanted and wanted != program_cases.printed_lines(printed):
        return 'different', '%r by OCaml, not as the head says' % printed
    if (status, out, exception_name(err)) == (theirs, printed, exception_name(said)):
        return 'the same', ''
    return 'different', '%r, not %r' % ((status, out, err), (theirs, printed, said))


def main():
    given = program_cases.arguments(__doc__, 'PRODUCT', 'OCAML5')
    examples = program_cases.of_files([program_cases.EXAMPLES])
    cases = examples + program_cases.cases(given, for_ocaml=True)
    settings = (program_cases.command(given.product), program_cases.command(given.ocaml5), given.seconds)
    kinds, messages, wrong = collections.Counter(), collections.Counter(), 0
    for number, (case, (kind, told)) in enumerate(
            zip(cases, program_cases.in_pool(compare, (given.jobs, cases), begin, settings))):
        kinds[kind] += 1
        if kind == 'refused by OCaml':
            messages[told] += 1
        if kind == 'different' or number < len(examples) and kind != 'the same':
            wrong += 1
            print('%s, kept as %s: %s: %s' % (case.name, program_cases.keep(given.keep, case), kind, told), flush=True)
    for told, count in messages.most_common():
        print('%6d  %s' % (count, told))
    compiled = kinds['the same'] + kinds['different'] + kinds['early end'] + kinds['refused here']
    print('%d programs: %d compile in OCaml; %s' % (
        len(cases), compiled, ', '.join('%s %d' % kind for kind in sorted(kinds.items()))))
    sys.exit(1 if wrong else 0)


if __name__ == '__main__':
    main()
