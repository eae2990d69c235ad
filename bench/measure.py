#!/usr/bin/env python3
"""Measures the programs of bench/programs beside OCaml 5.3 and the runner beside two C runners. It isn't part of the gate.

    bench/measure.py PRODUCT RVRUN RVFAST [OCAML]     as bench/run.sh calls it

PRODUCT is crates/effects_cli/out/effects_cli, RVRUN and RVFAST are bench/rvrun.c and bench/rvfast.c, compiled. OCAML is a root folder
of a system with ocamlc and ocamlopt 5.3, which is entered by chroot; without it those on the PATH are taken.
The first table has of each program the instructions of all harts and the heap's words, the least wall time of twelve runs in
milliseconds by `run`, by OCaml's bytecode and by its native code, that of an empty program taken off, and the two ratios. The second
has the processor time of `run`, less that of a run of one instruction, beside the two C runners on the same listing. The last line of each has the
geometric means. bench/ratios.svg, which it writes, shows the ratios to the bytecode. It ends with status 1 where an answer isn't OCaml's.
"""
import math
import os
import re
import resource
import shutil
import subprocess
import sys
import tempfile
import time

HERE = os.path.dirname(os.path.abspath(__file__))
OPTIONS = ['--heap', '16777216', '--stack', '1048576', '--domains', '1']
ALL, ONE = ['--budget', '4294967295'], ['--budget', '1']        # instructions
RUNS = 12
LEAST = 0.01        # milliseconds that count as none


class Ocaml:
    """OCaml's compilers, on the PATH or in a root folder."""

    def __init__(self, root):
        self.root = root or ''
        self.enter = ['chroot', root] if root else []
        self.folder = tempfile.mkdtemp(dir=root and os.path.join(root, 'tmp'))
        self.inside = self.folder[len(self.root):]

    def compiled(self, name, text, compiler):
        """The command that runs the program."""
        with open(os.path.join(self.folder, name + '.ml'), 'w') as file:
            file.write(text)
        target = os.path.join(self.inside, name + '.' + compiler)
        command = [compiler, '-w', '-a', os.path.join(self.inside, name + '.ml'), '-o', target]
        subprocess.run(self.enter + command, check=True, capture_output=True)
        return self.enter + [target]


def wall(command, folder):
    """The least wall time of some runs in milliseconds, and what is printed."""
    best = math.inf
    for _ in range(RUNS):
        begun = time.perf_counter()
        run = subprocess.run(command, cwd=folder, capture_output=True)
        best = min(best, 1000 * (time.perf_counter() - begun))
    return best, run.stdout


def processor(command, folder):
    """The least processor time of some runs in milliseconds."""
    best = math.inf
    for _ in range(RUNS):
        before = resource.getrusage(resource.RUSAGE_CHILDREN)
        subprocess.run(command, cwd=folder, capture_output=True)
        after = resource.getrusage(resource.RUSAGE_CHILDREN)
        best = min(best, 1000 * (after.ru_utime + after.ru_stime - before.ru_utime - before.ru_stime))
    return best


def counts(runner, listing):
    """The instructions of all harts and the words of the heap."""
    run = subprocess.run([runner, listing], stdout=subprocess.DEVNULL, stderr=subprocess.PIPE)
    found = re.search(rb'heap (\d+) retired((?: \d+)+)', run.stderr)
    return sum(map(int, found.group(2).split())), int(found.group(1))


def mean(ratios):
    return math.exp(sum(map(math.log, ratios)) / len(ratios))


class Measured:
    """What is measured of one program."""

    def __init__(self, name, text, product, runners, ocaml, empty):
        self.name = name
        with tempfile.TemporaryDirectory() as folder:
            with open(os.path.join(folder, 'a.ml'), 'w') as file:
                file.write(text)
            command = [product, 'run', 'a.ml'] + OPTIONS
            listing = os.path.join(folder, 'a.lst')
            with open(listing, 'wb') as file:
                subprocess.run([product, 'asm', 'a.ml'] + OPTIONS + ALL, cwd=folder, stdout=file, check=True)
            self.ours, printed = wall(command + ALL, folder)
            codes = [wall(ocaml.compiled(name, text, compiler), folder) for compiler in ('ocamlc', 'ocamlopt')]
            self.same = all(code[1] == printed for code in codes)
            self.instructions, self.words = counts(runners[0], listing)
            self.run = max(processor(command + ALL, folder) - processor(command + ONE, folder), LEAST)
            self.c = [processor([runner, listing], folder) for runner in runners]
        self.bytecode, self.native = codes[0][0], codes[1][0]
        if empty:
            self.ours, self.bytecode, self.native = (
                max(a - b, LEAST) for a, b in zip((self.ours, self.bytecode, self.native), (empty.ours, empty.bytecode, empty.native)))
            self.c = [max(a - b, LEAST) for a, b in zip(self.c, empty.c)]

    def ratios(self):
        return self.ours / self.bytecode, self.ours / self.native, self.run / self.c[0], self.run / self.c[1]


def picture(rows):
    """The ratios to the bytecode as bars, and a line at 1."""
    scale, top = 60, 20
    parts = ['<svg xmlns="http://www.w3.org/2000/svg" width="640" height="%d" font-family="sans-serif" font-size="12">'
             % (top * len(rows) + 50), '<text x="10" y="16">Time of run, that of OCaml 5.3\'s bytecode being 1</text>']
    for number, row in enumerate(rows):
        y, ratio = 30 + top * number, row.ratios()[0]
        parts.append('<text x="10" y="%d">%s</text>' % (y + 11, row.name))
        parts.append('<rect x="100" y="%d" width="%.0f" height="14" fill="#4878a8"/>' % (y, scale * ratio))
        parts.append('<text x="%.0f" y="%d">%.2f</text>' % (104 + scale * ratio, y + 11, ratio))
    parts.append('<path d="M%d 26V%d" stroke="#c04040"/></svg>' % (100 + scale, 30 + top * len(rows)))
    return '\n'.join(parts) + '\n'


def tables(rows):
    print('program     instructions  heap words      run  bytecode   native  run/byte  run/native')
    for row in rows:
        a, b, _, _ = row.ratios()
        print('%-11s %12d %11d %8.1f %9.1f %8.1f %9.2f %11.2f%s' % (
            row.name, row.instructions, row.words, row.ours, row.bytecode, row.native, a, b, '' if row.same else '  ANOTHER ANSWER'))
    means = [mean([row.ratios()[i] for row in rows]) for i in range(4)]
    print('%-62s %9.2f %11.2f' % ('geometric mean', means[0], means[1]))
    print('\nprogram          run    rvrun   rvfast  run/rvrun  run/rvfast')
    for row in rows:
        print('%-11s %8.1f %8.1f %8.1f %10.2f %11.2f' % (row.name, row.run, row.c[0], row.c[1], *row.ratios()[2:]))
    print('%-37s %10.2f %11.2f' % ('geometric mean', means[2], means[3]))


def main():
    if '--help' in sys.argv[1:]:
        print(__doc__.strip())
        return
    if len(sys.argv) < 4:
        sys.exit('measure.py: missing: PRODUCT, RVRUN, RVFAST (bench/run.sh builds and names them; --help says more)')
    product, runners = os.path.abspath(sys.argv[1]), [os.path.abspath(path) for path in sys.argv[2:4]]
    ocaml = Ocaml(sys.argv[4] if len(sys.argv) > 4 else None)
    try:
        empty = Measured('empty', 'let () = ()\n', product, runners, ocaml, None)
        rows = []
        for file in sorted(os.listdir(os.path.join(HERE, 'programs'))):
            with open(os.path.join(HERE, 'programs', file)) as text:
                rows.append(Measured(file[:-len('.ml')], text.read(), product, runners, ocaml, empty))
    finally:
        shutil.rmtree(ocaml.folder)
    tables(rows)
    with open(os.path.join(HERE, 'ratios.svg'), 'w') as file:
        file.write(picture(rows))
    sys.exit(0 if all(row.same for row in rows) else 1)


if __name__ == '__main__':
    main()
