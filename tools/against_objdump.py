"""Compares a listing with what GNU objdump prints for its words.

The listing is that of crates/rv_asm/src/samples.rt, which a test of that crate compares with the one that
the assembler's crate writes, or a file that is named. Its words go into a raw file, which objdump reads.
"""
import os
import re
import subprocess
import sys
import tempfile

import command_words

SAMPLES = os.path.join(os.path.dirname(os.path.abspath(__file__)), '..', 'crates', 'rv_asm', 'src', 'samples.rt')
LINE = re.compile(r'^([0-9a-f]{8}) ([0-9a-f]{8}) (.+)$', re.MULTILINE)
PRINTED = re.compile(r'^\s*([0-9a-f]+):\s+([0-9a-f]{8})\s+(\S+)(?:\s+(\S+))?')
BRANCHES = ('beq', 'bne', 'blt', 'bge', 'bltu', 'bgeu', 'jal')


def disassembled(words):
    """For each word what objdump prints: the mnemonic and the operands."""
    with tempfile.TemporaryDirectory() as folder:
        path = os.path.join(folder, 'words.bin')
        with open(path, 'wb') as file:
            for word in words:
                file.write(word.to_bytes(4, 'little'))
        command = ['riscv64-linux-gnu-objdump', '-D', '-b', 'binary', '-m', 'riscv:rv64', '-M', 'no-aliases,numeric', path]
        text = subprocess.run(command, check=True, capture_output=True, text=True).stdout
    printed = {}
    for line in text.splitlines():
        match = PRINTED.match(line)
        if match:
            printed[int(match.group(1), 16)] = (match.group(3), match.group(4) or '')
    return [printed.get(4 * k, ('nothing', '')) for k in range(len(words))]


def as_objdump(pc, text):
    """The mnemonic and the operands of a line's text in objdump's spelling, and what is spelt otherwise."""
    name, _, operands = text.partition(' ')
    parts = operands.split(', ') if operands else []
    other = None
    if name in BRANCHES:
        other = 'a target as an address'
        parts[-1] = '0x%x' % ((pc + int(parts[-1])) % (1 << 64))
    elif name in ('lui', 'auipc', 'slli', 'srli', 'srai'):
        other = 'an immediate in hexadecimal'
        parts[-1] = '0x%x' % int(parts[-1])
    return (name, ','.join(parts)), other


def main():
    command_words.begin(__doc__)
    with open(sys.argv[1] if len(sys.argv) > 1 else SAMPLES, encoding='utf-8') as file:
        lines = [(int(pc, 16), int(word, 16), text) for pc, word, text in LINE.findall(file.read())]
    names, unknown, spelt, wrong = set(), set(), {}, 0
    for (pc, word, text), printed in zip(lines, disassembled([word for _, word, _ in lines])):
        wanted, other = as_objdump(pc, text)
        name = text.split(' ')[0]
        base = re.sub(r'\.(aq|rl|aqrl)$', '', name)
        if printed[0].startswith('.'):
            unknown.add(base)
        elif printed != wanted:
            wrong += 1
            print('%08x: the listing has "%s", objdump "%s %s"' % (word, text, *printed))
        else:
            names.add(base)
            if other:
                spelt.setdefault(other, set()).add(base)
    for other, which in sorted(spelt.items()):
        print('spelling: objdump writes %s (%s)' % (other, ' '.join(sorted(which))))
    if unknown:
        print('unknown to objdump: %s' % ' '.join(sorted(unknown)))
    print('listing: %d lines, %d operations agree with objdump, %d lines differ' % (len(lines), len(names), wrong))
    return 1 if wrong or not lines else 0


if __name__ == '__main__':
    sys.exit(main())
