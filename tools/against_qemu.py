"""Compares the machine's definitions with a RISC-V that others wrote.

Each case is a word that the definitions give for an instruction, run by qemu on two values; the result is
compared with what the definitions say of the instruction. The words themselves are compared with those of
the GNU assembler.
"""
import os
import random
import subprocess
import sys
import tempfile

import command_words
from definitions import Definitions

SPECS = os.path.join(os.path.dirname(os.path.abspath(__file__)), '..', 'crates', 'rv_model', 'specs')
GREATEST = (1 << 64) - 1
EDGES = [0, 1, 2, 3, 31, 32, 63, 64, 65, (1 << 31) - 1, 1 << 31, (1 << 32) - 1, 1 << 32,
         (1 << 63) - 1, 1 << 63, (1 << 63) + 1, GREATEST - 1, GREATEST]
PAIRS = 200
WORDS = 60


def integer(n):
    return ('pos', n) if n >= 0 else ('negsuc', -n - 1)


def instruction(op, rd=0, rs1=0, rs2=0, imm=0, aq=False, rl=False):
    return {'op': (op,), 'rd': rd, 'rs1': rs1, 'rs2': rs2, 'imm': integer(imm), 'aq': aq, 'rl': rl}


def any_value(source):
    kind = source.randrange(4)
    if kind == 0:
        return source.choice(EDGES)
    if kind == 1:
        return source.getrandbits(64)
    if kind == 2:
        return source.getrandbits(32)
    return (GREATEST << source.randrange(64)) & GREATEST ^ source.getrandbits(3)


def immediates(form, source):
    """Some immediates that fit a format."""
    if form == 'Shift':
        return list(range(64))
    if form == 'Upper':
        return [0, 1, 0x7FFFF, 0x80000, 0xFFFFF] + [source.randrange(1 << 20) for _ in range(35)]
    return [0, 1, -1, 7, 2047, -2048] + [source.randrange(-2048, 2048) for _ in range(34)]


class Case:
    """A piece of code that is called with two values, and what it must give."""

    def __init__(self, op, lines, a, b, wanted):
        self.op, self.lines, self.a, self.b, self.wanted = op, lines, a, b, wanted


def wanted(definitions, op, a, b, imm):
    """What the definitions say: the register's value, or whether the branch is taken."""
    effect = definitions.call('effect', (op,), a, b, 0, definitions.call('word_of', integer(imm)))
    if effect[0] == 'Branches':
        return int(effect[1])
    assert effect[0] in ('Sets', 'AddsPc'), effect
    return effect[1]


def cases_of(definitions, op, form, source):
    def word(**fields):
        return '.word 0x%08x' % definitions.call('bits_of', instruction(op, **fields))

    def pairs(count):
        edges = [(a, b) for a in EDGES for b in EDGES]
        return source.sample(edges, count // 3) + [(any_value(source), any_value(source)) for _ in range(count - count // 3)]

    cases = []
    if form == 'Register':
        for a, b in pairs(PAIRS):
            cases.append(Case(op, [word(rd=10, rs1=10, rs2=11), 'ret'], a, b, wanted(definitions, op, a, b, 0)))
    elif form in ('Immediate', 'Shift'):
        for imm in immediates(form, source):
            for a in [source.choice(EDGES)] + [any_value(source) for _ in range(4)]:
                cases.append(Case(op, [word(rd=10, rs1=10, imm=imm), 'ret'], a, 0, wanted(definitions, op, a, 0, imm)))
    elif form == 'Branch':
        for a, b in pairs(PAIRS) + [(a, a) for a in EDGES]:
            lines = [word(rs1=10, rs2=11, imm=12), 'li a0, 0', 'ret', 'li a0, 1', 'ret']
            cases.append(Case(op, lines, a, b, wanted(definitions, op, a, b, 12)))
    else:
        for imm in immediates(form, source):
            lines = ['1:', word(rd=10, imm=imm)] + (['lla a1, 1b', 'sub a0, a0, a1'] if op == 'Auipc' else []) + ['ret']
            cases.append(Case(op, lines, 0, 0, wanted(definitions, op, 0, 0, imm)))
    return cases


def program(cases):
    """The program that runs the cases and writes their results, eight bytes each."""
    labels, text = {}, []
    for case in cases:
        key = '\n'.join(case.lines)
        if key not in labels:
            labels[key] = 'case_%d' % len(labels)
            text += [labels[key] + ':'] + case.lines
        case.label = labels[key]
    table = ['.dword %s, 0x%x, 0x%x' % (case.label, case.a, case.b) for case in cases]
    return '\n'.join('''
.option norvc
.option norelax
.globl _start
.text
_start:
lla s0, cases
lla s1, cases_end
lla s2, results
more:
ld t0, 0(s0)
ld a0, 8(s0)
ld a1, 16(s0)
jalr ra, t0
sd a0, 0(s2)
addi s0, s0, 24
addi s2, s2, 8
bltu s0, s1, more
lla s1, results
rest:
li a0, 1
mv a1, s1
sub a2, s2, s1
li a7, 64
ecall
blez a0, over
add s1, s1, a0
bltu s1, s2, rest
over:
li a0, 0
li a7, 93
ecall'''.split('\n') + text + ['.data', '.balign 8', 'cases:'] + table + ['cases_end:', '.bss', '.balign 8', 'results:', '.skip %d' % (8 * len(cases))]) + '\n'


def assembled(folder, name, source, link):
    path = os.path.join(folder, name)
    with open(path + '.s', 'w') as file:
        file.write(source)
    how = ['-static'] if link else ['-c']
    subprocess.run(['riscv64-linux-gnu-gcc', '-march=rv64ima', '-mabi=lp64', '-nostdlib', *how, '-o', path, path + '.s'], check=True)
    return path


def compare_results(definitions, ops, folder, source):
    cases = [case for op, form in ops for case in cases_of(definitions, op, form, source)]
    path = assembled(folder, 'results', program(cases), True)
    answers = subprocess.run(['qemu-riscv64', path], check=True, capture_output=True).stdout
    assert len(answers) == 8 * len(cases), (len(answers), len(cases))
    wrong = 0
    for k, case in enumerate(cases):
        found = int.from_bytes(answers[8 * k:8 * k + 8], 'little')
        if found != case.wanted:
            wrong += 1
            print('%s of 0x%x and 0x%x (%s): qemu gives 0x%x, the definitions 0x%x' % (case.op, case.a, case.b, case.lines, found, case.wanted))
    print('results: %d of %d cases of %d operations agree with qemu' % (len(cases) - wrong, len(cases), len(ops)))
    return wrong


def shown(op, form, i, imm):
    """The assembler's text of an instruction."""
    name = op.lower()
    rd, rs1, rs2 = 'x%d' % i['rd'], 'x%d' % i['rs1'], 'x%d' % i['rs2']
    if form == 'Atomic':
        order = ('aq' if i['aq'] else '') + ('rl' if i['rl'] else '')
        return '%s.d%s %s, %s, (%s)' % (name[:-1], '.' + order if order else '', rd, rs2, rs1)
    if op in ('Ld', 'Lbu', 'Jalr'):
        return '%s %s, %d(%s)' % (name, rd, imm, rs1)
    return {
        'Register': '%s %s, %s, %s' % (name, rd, rs1, rs2),
        'Immediate': '%s %s, %s, %d' % (name, rd, rs1, imm),
        'Shift': '%s %s, %s, %d' % (name, rd, rs1, imm),
        'Store': '%s %s, %d(%s)' % (name, rs2, imm, rs1),
        'Branch': '%s %s, %s, . + %d' % (name, rs1, rs2, imm),
        'Upper': '%s %s, %d' % (name, rd, imm),
        'Jump': '%s %s, . + %d' % (name, rd, imm),
        'System': 'ecall',
    }[form]


def any_instruction(op, form, source):
    """An instruction with fields that its format has, and its immediate."""
    has = {'Register': 'd12', 'Immediate': 'd1', 'Shift': 'd1', 'Store': '12', 'Branch': '12', 'Upper': 'd', 'Jump': 'd', 'Atomic': 'd12', 'System': ''}[form]
    low, high, by = {'Immediate': (-2048, 2048, 1), 'Store': (-2048, 2048, 1), 'Shift': (0, 64, 1), 'Upper': (0, 1 << 20, 1),
                     'Branch': (-4096, 4096, 2), 'Jump': (-(1 << 20), 1 << 20, 2)}.get(form, (0, 1, 1))
    imm = source.choice([low, high - by, source.randrange(low, high, by)])
    register = {key: source.randrange(32) if key in has else 0 for key in 'd12'}
    order = [form == 'Atomic' and source.random() < 0.5 for _ in range(2)]
    return instruction(op, register['d'], register['1'], register['2'], imm, *order), imm


def compare_words(definitions, ops, folder, source):
    words, texts = [], []
    for op, form in ops:
        for _ in range(WORDS):
            i, imm = any_instruction(op, form, source)
            words.append(definitions.call('bits_of', i))
            texts.append(shown(op, form, i, imm))
    path = assembled(folder, 'words', '.option norvc\n.option norelax\n' + '\n'.join(texts) + '\n', False)
    subprocess.run(['riscv64-linux-gnu-objcopy', '-O', 'binary', '-j', '.text', path, path + '.bin'], check=True)
    with open(path + '.bin', 'rb') as file:
        bits = file.read()
    wrong = 0
    assert len(bits) == 4 * len(words), (len(bits), len(words))
    for k, (word, text) in enumerate(zip(words, texts)):
        found = int.from_bytes(bits[4 * k:4 * k + 4], 'little')
        if found != word:
            wrong += 1
            print('%s: the assembler gives 0x%08x, the definitions 0x%08x' % (text, found, word))
    print('words: %d of %d words of %d operations agree with the assembler' % (len(words) - wrong, len(words), len(ops)))
    return wrong


def main():
    command_words.begin(__doc__)
    definitions = Definitions([os.path.join(SPECS, name + '.antt') for name in ('Word', 'Format', 'Table')])
    ops = [(patterns[0][1], definitions.value(body, {})[0]) for patterns, body in definitions.named('format')]
    source = random.Random(int(sys.argv[1]) if len(sys.argv) > 1 else 1)
    pure = [(op, form) for op, form in ops
            if form in ('Register', 'Immediate', 'Shift', 'Branch', 'Upper') and op not in ('Ld', 'Lbu', 'Jalr')]
    with tempfile.TemporaryDirectory() as folder:
        wrong = compare_results(definitions, pure, folder, source)
        # the assembler of today's distributions doesn't know AMOCAS.D
        wrong += compare_words(definitions, [(op, form) for op, form in ops if op != 'AmocasD'], folder, source)
    return 1 if wrong else 0


if __name__ == '__main__':
    sys.exit(main())
