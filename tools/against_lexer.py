#!/usr/bin/env python3
"""Compares ml_lexer with another lexer of the same tokens. It isn't part of the gate.

    against_lexer.py FOLDER TEXTS.. [--count N] [--seed N]

FOLDER holds lexer.py with `lex(data)`, which gives tokens with `kind`, `text`, `frm`, `to`, `line` and `col`,
or raises `Fault` with `line` and `col`. TEXTS are files whose bytes are mutated; of a .json file the texts
under each key `files` are. The kind, the bytes and the place of each token, or the place of the first fault,
must be equal.
"""
import json
import random
import sys

import command_words
from lexer_program import Program, fixed_kinds

NAMED = {'lower': 'LowerName', 'upper': 'UpperName', 'tvar': 'TypeVariable', 'int': 'Integer', 'char': 'Character', 'string': 'Text'}

PIECES = [b"'", b'"', b'\\', b'(*', b'*)', b'(', b'*', b')', b"'a'", b"'\"'", b"'\\''", b"'\\n'", b"'\\255'", b"'\\256'", b"'\\x4f'",
          b"'and", b"'a", b"'_", b"'__", b'"a"', b'"\\', b'"\\\n  "', b'"\\256"', b'\\255', b'\\x', b'0x', b'0x_1', b'0xF_f', b'0b12', b'0o18',
          b'4611686018427387904', b'4611686018427387905', b'0x4000000000000000', b'0x4000000000000001', b'1_', b'_', b'__', b'let', b'let_',
          b'===', b':::=', b'[||]', b'|]>', b'<->', b'!=', b'&&', b'&', b'#', b'~', b'`', b'?', b'$', b'%', b'@@@', b'+=', b'-->', b'\xc3\xa9',
          b'\x00', b'\x0b', b'\x0c', b'\r\n', b'\n', b'\t', b' ', b'(*)', b'(* " *)', b"(* '\"' *)", b'(* (* *)']


def texts_under(value, found, named=False):
    """The texts under each key `files`."""
    if isinstance(value, dict):
        for key, part in value.items():
            texts_under(part, found, named or key == 'files')
    elif isinstance(value, list):
        for part in value:
            texts_under(part, found, named)
    elif isinstance(value, str) and named:
        found.append(value.encode())


def worked(paths):
    found = []
    for path in paths:
        with open(path, 'rb') as f:
            data = f.read()
        if path.endswith('.json'):
            texts_under(json.loads(data), found)
        else:
            found.append(data)
    return sorted(t for t in set(found) if len(t) <= 20000)


def mutated(texts, source):
    """A front, a middle or the whole of a text, with a few places changed."""
    text = bytearray(source.choice(texts))
    if len(text) > 300 and source.random() < 0.7:
        at = source.randrange(len(text) - 200)
        text = text[at:at + source.randrange(20, 300)]
    for _ in range(source.choice([0, 1, 1, 2, 3, 5])):
        at = source.randrange(len(text) + 1)
        way = source.randrange(6)
        if way == 0:
            text[at:at] = source.choice(PIECES)
        elif way == 1:
            text[at:at + source.randrange(1, 4)] = source.choice(PIECES)
        elif way == 2:
            del text[at:at + source.randrange(1, 6)]
        elif way == 3:
            text[at:at] = bytes([source.randrange(256)])
        elif way == 4:
            other = source.choice(texts)
            start = source.randrange(len(other) + 1)
            text[at:at] = other[start:start + source.randrange(1, 40)]
        else:
            text[at:at] = b''.join(source.choice(PIECES) for _ in range(source.randrange(2, 7)))
    return bytes(text)


def mixed(digest, value):
    return ((digest ^ value) * 1099511628211) & (2 ** 64 - 1)


def reading(lexer, kinds, text):
    """The line that the program should print."""
    try:
        tokens = [t for t in lexer.lex(text) if t.kind != 'eof']
    except lexer.Fault as fault:
        return 'fault %d %d' % (fault.line, fault.col)
    digest = 14695981039346656037
    for t in tokens:
        data = text[t.frm:t.to]
        number = kinds[NAMED[t.kind]] if t.kind in NAMED else kinds[data.decode()]
        for value in (number, t.line, t.col, len(data)):
            digest = mixed(digest, value)
        for byte in data:
            digest = mixed(digest, byte)
    return 'tokens %d %d' % (len(tokens), digest)


def main():
    words = command_words.Parser(__doc__)
    words.add_argument('folder')
    words.add_argument('texts', nargs='+')
    words.add_argument('--count', type=int, default=4000)
    words.add_argument('--seed', type=int, default=1)
    given = words.parse_args()
    sys.dont_write_bytecode = True
    sys.path.insert(0, given.folder)
    import lexer
    source = random.Random(given.seed)
    whole = worked(given.texts)
    texts = whole + [mutated(whole, source) for _ in range(given.count)]
    kinds = fixed_kinds()
    with Program() as program:
        lines = program.lines(texts)
    wanted = [reading(lexer, kinds, text) for text in texts]
    unequal = [i for i in range(len(texts)) if lines[i] != wanted[i]]
    for i in unequal[:20]:
        print('%r\n  program %s\n  other   %s' % (texts[i], lines[i], wanted[i]))
    faults = sum(line.startswith('fault') for line in wanted)
    tokens = sum(int(line.split()[1]) for line in wanted if line.startswith('tokens'))
    print('against_lexer: %d texts (%d with %d tokens, %d with a fault), %d unequal' % (len(texts), len(texts) - faults, tokens, faults, len(unequal)))
    return 1 if unequal else 0


sys.exit(main())
