#!/usr/bin/env python3
"""Runs images in random interleavings of their harts and watches each instruction. It isn't part of the gate.

    tools/interleavings.py PRODUCT DESIGN [FILE..] [--rows ROWS] [--runs N] [--steps N] [--jobs N]

PRODUCT is the program, as crates/effects_cli/out/effects_cli, or a command in quotes; DESIGN is the folder of the executable
design of the compiler, whose simulator and marks of shared accesses are used. It wants gcc. Programs are the examples, the files
and the worked rows, but those of the form `let () = print_int A`, which have a compiler of their own. The image is the design's,
once its listing is found to be that of `PRODUCT asm`.
Each image is run in N interleavings in each of six modes (tools/interleavings.c), of up to a million instructions each, and
everywhere

- no hart is at fault;
- each access that isn't marked as shared comes, by an access of its own hart that is, behind what other harts did to its word:
  a word has one owner at a time;
- each continuation is found full at most once, where `take_cont` returns with it;
- the lock of the log is taken and given back by the same hart, which never waits meanwhile; it alone writes the log, the cursor,
  the end and its details; no byte below the cursor changes; a run ends by the hart that has the lock, or with the lock given
  back;
- where every hart waits, each waits for a domain whose own hart waits for another domain, or has a slot without a domain;
- what is printed, and the end, are as the worked row says, or else as `PRODUCT run` has them; where the instructions run out,
  what is printed is a front of that.

What is wrong is printed with mode and seed, and the program is kept. It ends with status 1 where something is.
"""
import collections
import ctypes
import os
import subprocess
import sys
import tempfile

import against_design
import program_cases

TOOLS = os.path.dirname(os.path.abspath(__file__))
MODES = ['each', 'bursts', 'slow', 'blocks', 'stretches', 'stalls']
DEADLOCK, BREACHED = 2, 5
BREACHES = [None, ('fault', 'is at fault'), ('owner', 'has no order with another hart for word {word}'),
            ('continuation', 'takes once more the continuation in word {word}'), ('lock', 'writes word {word} without the lock'),
            ('lock', 'waits, with the lock, for word {word}'), ('log', 'sets back the cursor'),
            ('log', 'changes a printed byte in word {word}')]
KINDS = ['fault', 'owner', 'continuation', 'lock', 'log', 'wait', 'answer']
SIMULATOR = WATCHER = None
MEMORY = ctypes.CDLL(None)
MEMORY.calloc.restype = ctypes.c_void_p
RUNS = STEPS = 0


class Watch(ctypes.Structure):
    """The struct `watch` of tools/interleavings.c."""
    _fields_ = [(name, ctypes.c_uint64) for name in ('seed', 'mode', 'most', 'taken_at', 'log_end')] + [
        ('taken', ctypes.POINTER(ctypes.c_uint8))] + [
        (name, ctypes.c_uint64) for name in ('steps', 'takes', 'locks', 'holder', 'breach', 'hart', 'pc', 'at')]


def built(design, folder):
    """The path of the library in C, built in the folder."""
    path = os.path.join(folder, 'interleavings.so')
    source = os.path.join(TOOLS, 'interleavings.c')
    subprocess.check_call(['gcc', '-O2', '-shared', '-fPIC', '-I', design, '-o', path, source])
    return path


def begin(product, design, seconds, library, runs=0, steps=0):
    global SIMULATOR, WATCHER, RUNS, STEPS
    RUNS, STEPS = runs, steps
    against_design.begin(product, design, seconds)
    SIMULATOR, WATCHER = against_design.DRIVER.sim, ctypes.CDLL(library)


class Run:
    """One interleaving of an image: its end, what it printed, and what is wrong, if anything, by its kind and in words."""

    def __init__(self, image, seed, mode, most):
        count, harts = len(image.code), image.settings['domains']
        if not hasattr(image, 'instructions'):
            image.instructions = (SIMULATOR.Ins * count)(*[
                SIMULATOR.Ins(SIMULATOR.OPNUM[operation], *fields) for operation, *fields in image.code])
            image.marks = (ctypes.c_uint8 * count)()
            for pc in image.shared:
                image.marks[pc // 4] = 1
        self.image, self.blocks = image, []
        self.mem = self.words(image.size)
        for at, value in image.start:
            self.mem[at] = value
        self.h = (SIMULATOR.Hart * harts)()
        for number, hart in enumerate(self.h):
            hart.x[10] = number
        self.machine = SIMULATOR.Machine(image.instructions, count, self.mem, image.size, self.h, harts, image.settings['budget'])
        self.machine.shared = image.marks
        self.machine.lastw, self.machine.lastr = self.words(image.size), self.words(image.size * harts)
        self.watch = Watch(seed, MODES.index(mode), most, image.places['taken_before'] - 4, image.regions.static // 8)
        self.watch.taken = ctypes.cast(self.words(image.size // 8 + 1), ctypes.POINTER(ctypes.c_uint8))
        reason = WATCHER.run_watched(ctypes.byref(self.machine), ctypes.byref(self.watch))
        self.read(reason)
        for block in self.blocks:
            MEMORY.free(block)

    def words(self, count):
        """Words that are 0, of which those that aren't touched take no memory."""
        self.blocks.append(ctypes.c_void_p(MEMORY.calloc(ctypes.c_size_t(count), ctypes.c_size_t(8))))
        return ctypes.cast(self.blocks[-1], ctypes.POINTER(ctypes.c_uint64))

    def read(self, reason):
        self.wrong = None
        if reason == BREACHED:
            kind, text = BREACHES[self.watch.breach]
            place = against_design.place(self.image, self.watch.pc)
            self.end = kind,
            self.wrong = kind, 'hart %d, %s, %s' % (self.watch.hart, place, text.format(word=self.watch.at))
            return
        self.who = ctypes.c_int(self.watch.hart)
        SIMULATOR.Run.result(self, reason)
        if reason == DEADLOCK:
            needless = self.needless_wait()
            self.wrong = needless and ('wait', 'all harts wait, and ' + needless)

    def needless_wait(self):
        """Which hart waits for what it needn't, where all wait, or None."""
        import rt_layout
        if self.mem[rt_layout.LOCK // 8]:
            return 'the lock of the log is taken'
        homes = [hart.x[rt_layout.DOM] for hart in self.h]
        waits = [hart.x[rt_layout.A0] for hart in self.h]
        idle = [at == home + rt_layout.M_MAILBOX for at, home in zip(waits, homes)]
        blocks = [self.mem[(home + rt_layout.M_BLOCK) // 8] for home in homes]
        for number, at in enumerate(waits):
            if idle[number]:
                if self.mem[rt_layout.MASK // 8] >> number & 1:
                    return 'hart %d has no domain in a slot that is taken' % number
            elif not any(block == at and not idle[other] for other, block in enumerate(blocks)):
                return 'hart %d waits for nothing that another hart could do' % number
        return None


def answers_of(case):
    """The outputs that may be, the status and the line on standard error: of the worked row, or else of the product."""
    if case.answers:
        return case.answers
    status, out, line = program_cases.answer(against_design.PRODUCT, case, 'run', program_cases.options(case.settings),
                                             against_design.SECONDS)
    return [out], status, line


def problem(run, answers, whole):
    """What is wrong with a run, by its kind and in words, or None. Where not each run is whole its instructions may run out."""
    outputs, status, line = answers
    if run.wrong:
        return run.wrong
    if run.end[0] == 'running':
        good = not whole and any(output.startswith(run.printed) for output in outputs)
    else:
        good = (outputs is None or run.printed in outputs) and SIMULATOR.status(run.end) == (status, line)
    if good:
        return None
    return 'answer', 'ended by %r and printed %r, not %r, %r and one of %r' % (run.end, run.printed, status, line, outputs)


class Found:
    """What the runs of a program had, counted; what is wrong, and the kinds of that."""

    def __init__(self):
        self.counts, self.wrong, self.kinds = collections.Counter(), [], set()

    def add(self, run):
        self.counts.update({'runs': 1, 'instructions': run.watch.steps, 'continuations taken': run.watch.takes,
                            'locks taken': run.watch.locks, 'ended by ' + run.end[0]: 1})


def in_mode(image, answers, mode, seeds, most, whole, found):
    """Runs an image with each seed, up to the first problem."""
    for seed in seeds:
        run = Run(image, seed, mode, most)
        found.add(run)
        wrong = problem(run, answers, whole)
        if wrong:
            found.kinds.add(wrong[0])
            found.wrong.append('mode %s, seed %d: %s' % (mode, seed, wrong[1]))
            return


def compare(case):
    found = Found()
    if program_cases.is_of_form(case.text):
        found.counts['compiled apart'] = 1
        return found
    image, different = against_design.image_of(case)
    if image is None:
        found.counts['refused'] = 1
    elif different:
        found.wrong.append(different)
    else:
        answers = answers_of(case)
        for mode in MODES:
            in_mode(image, answers, mode, range(RUNS), STEPS, False, found)
    return found


def report(found, given, cases):
    """Prints what is wrong and the counts; gives how many programs have something wrong."""
    counts, wrong = collections.Counter(), 0
    for case, one in zip(cases, found):
        counts += one.counts
        wrong += bool(one.wrong)
        if one.wrong:
            kept = program_cases.keep(given.keep, case)
            print('%s, kept as %s:\n    %s' % (case.name, kept, '\n    '.join(one.wrong)), flush=True)
    print(', '.join('%s %d' % count for count in sorted(counts.items())))
    print('%d programs, %d with something wrong' % (len(cases), wrong))
    return wrong


def main():
    numbers = [('--runs', 10, 'runs of a program in each mode'), ('--steps', 1000000, 'instructions that a run may have')]
    given = program_cases.arguments(__doc__, 'PRODUCT', 'DESIGN', numbers=numbers)
    cases = program_cases.of_files([program_cases.EXAMPLES]) + program_cases.cases(given)
    with tempfile.TemporaryDirectory() as folder:
        settings = (program_cases.command(given.product), given.design, given.seconds, built(given.design, folder),
                    given.runs, given.steps)
        found = program_cases.in_pool(compare, (given.jobs, cases), begin, settings)
        sys.exit(1 if report(found, given, cases) else 0)


if __name__ == '__main__':
    main()
