#!/usr/bin/env python3
"""Times `check` on files of several sorts, from 64 KiB to 1 MiB, and measures its memory. It isn't part of the gate.

    tools/time_check.py PROGRAM [OCAML]

PROGRAM is ./effects or crates/effects_cli/out/effects_cli, OCAML a root folder of a system with `ocamlc`, which is entered by chroot;
without it the one on the PATH is taken, if there is one.
Each line has the sort, for 64 KiB, 256 KiB and 1 MiB the best time of five of the whole process in milliseconds, the ratio
of the last two (4 where time grows with the length), the peak memory at 1 MiB in MiB, and the last answer. Where there is an
`ocamlc`, the time of `ocamlc -i` on the file of 1 MiB follows, or that it was refused or took more than a minute. The last lines
are hostile to inference; their sizes are numbers of definitions.
"""
import os
import shutil
import subprocess
import sys
import tempfile
import time

import command_words
from time_parser import DEFINITIONS, SIZES, filled

KINDS = [
    ('definitions', lambda n: filled(DEFINITIONS, n)),
    ('short definitions', lambda n: filled(b'let x = 1\n', n)),
    ('definitions that use the last', lambda n: b'let f x = x\n' + filled(b'let f x = f (x + 1)\n', n)),
    ('a sequence', lambda n: b'let () = ' + filled(b'();', n) + b'()'),
    ('a list', lambda n: b'let x = [' + filled(b'1; ', n) + b'1]'),
    ('clauses', lambda n: b'let f = function ' + filled(b'| 1 -> 2 ', n)),
    ('an application', lambda n: b'let f x = x let x = f' + filled(b' f', n)),
]


def pairs(n):
    """Pairs of pairs: written out, the last type has more than 2^n nodes."""
    return b'let v0 = 1\n' + b''.join(b'let v%d = (v%d, v%d)\n' % (i, i - 1, i - 1) for i in range(1, n))


def group(n):
    """Functions that call each other in a ring."""
    return b'let rec f0 x = f1 x\n' + b''.join(b'and f%d x = f%d x\n' % (i, (i + 1) % n) for i in range(1, n))


def lets(n):
    """A function of nested definitions, whose types grow as those of `pairs`."""
    inner = b''.join(b'let x%d = (x%d, x%d) in\n' % (i, i - 1, i - 1) for i in range(1, n))
    return b'let f x0 =\n' + inner + b'ignore x%d\n' % (n - 1)


def copies(n):
    """Generalised functions, each of which uses the one before it twice."""
    return b'let f0 x = (x, x)\n' + b''.join(b'let f%d x = fst (f%d (f%d x))\n' % (i, i - 1, i - 1) for i in range(1, n))


HOSTILE = [
    ('pairs of pairs', pairs, (2500, 10000)),
    ('functions in a ring', group, (1250, 5000)),
    ('nested definitions', lets, (95, 380)),
    ('copies of functions', copies, (2500, 10000)),
]


def checked(program, path):
    """The time of one check in nanoseconds, and its answer."""
    start = time.perf_counter_ns()
    run = subprocess.run([program, 'check', path], stdout=subprocess.PIPE, stderr=subprocess.STDOUT)
    return time.perf_counter_ns() - start, run.stdout.decode().strip()


def peak(program, path):
    """The peak memory of a check in MiB, by a child that has run nothing else."""
    pid = os.fork()
    if pid == 0:
        null = os.open(os.devnull, os.O_WRONLY)
        os.dup2(null, 1)
        os.dup2(null, 2)
        os.execv(program, [program, 'check', path])
    _, _, usage = os.wait4(pid, 0)
    return usage.ru_maxrss / 1024


def by_ocaml(path, root):
    """The time of `ocamlc -i`, in the system at a root folder or here, where it is there."""
    if not root and shutil.which('ocamlc') is None:
        return ''
    with tempfile.NamedTemporaryFile(suffix='.ml', dir=root and os.path.join(root, 'tmp')) as copy:
        with open(path, 'rb') as file:
            write(copy, file.read())
        enter, inside = (['chroot', root], copy.name[len(root):]) if root else ([], copy.name)
        start = time.perf_counter_ns()
        try:
            run = subprocess.run(enter + ['ocamlc', '-w', '-a', '-i', inside], stdout=subprocess.DEVNULL, stderr=subprocess.DEVNULL, timeout=60)
        except subprocess.TimeoutExpired:
            return 'ocamlc more than a minute'
        return 'ocamlc %8.2f ms%s' % ((time.perf_counter_ns() - start) / 1e6, '' if run.returncode == 0 else ', refused')


def write(file, text):
    file.seek(0)
    file.truncate()
    file.write(text)
    file.flush()


def hostile(program, file, root):
    for name, made, sizes in HOSTILE:
        times = []
        for size in sizes:
            write(file, made(size))
            runs = [checked(program, file.name) for _ in range(5)]
            times.append(min(time for time, _ in runs))
        print('%-30s %s ms  ratio %4.1f  %6.1f MiB  %s  %s' % (
            '%d %s' % (sizes[-1], name), ' '.join('%8.2f' % (time / 1e6) for time in times), times[-1] / times[-2],
            peak(program, file.name), runs[-1][1], by_ocaml(file.name, root)), flush=True)


def main():
    command_words.begin(__doc__, 'PROGRAM')
    program, root = os.path.abspath(sys.argv[1]), sys.argv[2] if len(sys.argv) > 2 else None
    with tempfile.NamedTemporaryFile(suffix='.ml') as file:
        for name, made in KINDS:
            times = []
            for size in SIZES:
                write(file, made(size - 64))
                runs = [checked(program, file.name) for _ in range(5)]
                times.append(min(time for time, _ in runs))
            print('%-30s %s ms  ratio %4.1f  %6.1f MiB  %s  %s' % (
                name, ' '.join('%8.2f' % (time / 1e6) for time in times), times[-1] / times[-2],
                peak(program, file.name), runs[-1][1], by_ocaml(file.name, root)), flush=True)
        hostile(program, file, root)


if __name__ == '__main__':
    main()
