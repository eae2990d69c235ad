#!/usr/bin/env python3
"""Says where the instructions of a run go: the twenty labels whose code costs most. It isn't part of the gate.

    tools/profile.py PRODUCT FILE [--lines LABEL] [--most N] [WORD..]

PRODUCT is the program, as crates/effects_cli/out/effects_cli, or a command in quotes; FILE is a program, and the other words are
options of `asm`. The listing is run by bench/rvrun.c, which counts each instruction that is carried out by its address. Labels of the
runtime have their names of crates/rt_layout/src/labels.rt; where they stand is told by tools/runtime_labels, a program over the
runtime's crates, which is tried (not proved) by the toolchain. The code of a function or a clause is named by its address: that of a
call, or of a code word in the image. With --lines the code behind one label is listed, each instruction with its count. It wants gcc
and the toolchain.
"""
import os
import re
import shutil
import subprocess
import sys
import tempfile

import command_words
import program_cases

TOP = os.path.join(os.path.dirname(os.path.abspath(__file__)), '..')
RUNTIME = ['fx_base', 'rv_model', 'rv_table', 'rv_asm', 'rt_layout', 'exception_frames', 'fiber_stacks', 'continuation_words',
           'handler_chain', 'c_callbacks', 'c_prims', 'out_log', 'domain_runtime', 'fiber_stealing']
LARGE = ['--heap', '16777216', '--stack', '1048576', '--budget', '4294967295', '--domains', '1']


def runtime_labels():
    """The names of the runtime's labels and their addresses, counted from the first routine."""
    with open(os.path.join(TOP, 'crates/rt_layout/src/labels.rt')) as file:
        names = {int(number): name for name, number in re.findall(r'pub const (\w+): u32 = (\d+);', file.read())}
    with tempfile.TemporaryDirectory() as folder:
        for name in RUNTIME:
            shutil.copytree(os.path.join(TOP, 'crates', name), os.path.join(folder, 'crates', name), ignore=shutil.ignore_patterns('out'))
        os.makedirs(os.path.join(folder, 'crates/runtime_labels/src'))
        shutil.copy(os.path.join(TOP, 'tools/runtime_labels/src/main.rt.txt'), os.path.join(folder, 'crates/runtime_labels/src/main.rt'))
        with open(os.path.join(TOP, 'crates.txt')) as file:
            lines = [line for line in file if line.split(':')[0] in RUNTIME]
        with open(os.path.join(folder, 'crates.txt'), 'w') as file:
            file.write(''.join(lines) + 'runtime_labels: anyhow %s\n' % ' '.join(name for name in RUNTIME if name != 'rv_table'))
        subprocess.run(['git', 'init', '-q', folder], check=True)
        run = subprocess.run(['rt', 'try'], cwd=os.path.join(folder, 'crates/runtime_labels'), capture_output=True, text=True)
    places = [line.split() for line in run.stdout.split('\n') if line]
    if not places:
        sys.exit('no labels: ' + run.stderr)
    return [(int(place), names[int(number)]) for number, place in places]


def target(address, words):
    """Where a jump or a branch goes, or None."""
    if words[0] in ('jal', 'beq', 'bne', 'blt', 'bge', 'bltu', 'bgeu'):
        return address + int(words[-1])
    return None


class Listing:
    """The code of an image, how often each instruction was carried out, and the labels by address."""

    def __init__(self, text, counts, runtime):
        found = re.findall(r'^([0-9a-f]{8}) [0-9a-f]{8} (.*)$', text, re.M)
        self.code = [(int(address, 16), line) for address, line in found]
        self.counts = counts
        self.labels = {0: 'start'}
        jump = next(a for a, line in self.code if line.startswith('jal x0,'))
        items = dict((name, place) for place, name in runtime)['ITEMS']
        for place, name in runtime:
            self.labels.setdefault(jump + 4 + place, name)
        behind = jump + 4 + items
        for address, line in self.code:
            words = re.split(r',? ', line)
            if words[0] == 'jal' and words[1] != 'x0' and target(address, words) >= behind:
                self.labels.setdefault(target(address, words), 'function %x' % target(address, words))
        for value in re.findall(r'^word \d+ ([0-9a-f]+)$', text, re.M):
            if behind <= int(value, 16) < 4 * len(self.code) and int(value, 16) % 4 == 0:
                self.labels.setdefault(int(value, 16), 'function %x' % int(value, 16))

    def parts(self):
        """Each label with the instructions that its code has carried out."""
        begins = sorted(self.labels)
        ends = begins[1:] + [4 * len(self.code)]
        return [(sum(self.counts[a // 4:b // 4]), self.labels[a], a, b) for a, b in zip(begins, ends)]


def compiled_counter(folder):
    path = os.path.join(folder, 'rvrun')
    subprocess.run(['gcc', '-O2', '-DCOUNTS', '-o', path, os.path.join(TOP, 'bench/rvrun.c')], check=True)
    return path


def listing_of(product, file, words):
    """The listing of a program and its counts."""
    with tempfile.TemporaryDirectory() as folder:
        text = subprocess.run(product + ['asm', file] + LARGE + words, capture_output=True, check=True).stdout
        path = os.path.join(folder, 'listing')
        with open(path, 'wb') as out:
            out.write(text)
        run = subprocess.run([compiled_counter(folder), path], capture_output=True, check=True)
    return Listing(text.decode(), [int(line) for line in run.stdout.split()], runtime_labels())


def print_parts(listing, most):
    parts, total = listing.parts(), sum(listing.counts)
    print('%d instructions' % total)
    for count, label, begin, end in sorted(parts, reverse=True)[:most]:
        if count:
            print('%5.1f%% %12d  %-20s %x to %x' % (100 * count / total, count, label, begin, end - 4))


def print_lines(listing, label):
    for _, name, begin, end in listing.parts():
        if name == label:
            for (address, line), count in zip(listing.code[begin // 4:end // 4], listing.counts[begin // 4:end // 4]):
                print('%12d  %06x %s' % (count, address, line))


def main():
    words = command_words.Parser(__doc__)
    words.add_argument('product')
    words.add_argument('file')
    words.add_argument('--lines')
    words.add_argument('--most', type=int, default=20)
    said, rest = words.parse_known_args()
    listing = listing_of(program_cases.command(said.product), said.file, rest)
    if said.lines:
        print_lines(listing, said.lines)
    else:
        print_parts(listing, said.most)


if __name__ == '__main__':
    main()
