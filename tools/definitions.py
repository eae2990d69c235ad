"""Reads definitions of specs/*.antt and computes with them.

It knows the part of the language in which tables and arithmetic are written: clauses by cases, numbers,
`if`, records, fields and calls. So a table's lines are used as they stand, and nothing is written twice.
"""
import re

TOKEN = re.compile(r'\s*(?:(0x[0-9A-Fa-f_]+|0b[01_]+|\d+)|([A-Za-z_][\w\']*(?:\.\w+)*)|(==|&&|\|\||[(){}=;+\-*/%^]))')
KEYWORDS = {'if', 'then', 'else', 'record'}
LEVELS = [['||'], ['&&'], ['=='], ['+', '-'], ['*', '/', '%'], ['^']]

OPERATIONS = {
    '+': lambda a, b: a + b,
    '-': lambda a, b: max(0, a - b),
    '*': lambda a, b: a * b,
    '/': lambda a, b: a // b,
    '%': lambda a, b: a % b,
    '^': lambda a, b: a ** b,
    '==': lambda a, b: a == b,
    '&&': lambda a, b: a and b,
    '||': lambda a, b: a or b,
}
BUILT_IN = {
    'nat_lt': (2, lambda a, b: a < b),
    'nat_le': (2, lambda a, b: a <= b),
    'bit_and': (2, lambda a, b: a & b),
    'bit_or': (2, lambda a, b: a | b),
    'bit_xor': (2, lambda a, b: a ^ b),
    'not': (1, lambda a: not a),
    'true': (0, lambda: True),
    'false': (0, lambda: False),
}


def tokens_of(text):
    tokens, at = [], 0
    text = text.rstrip()
    while at < len(text):
        match = TOKEN.match(text, at)
        if match is None:
            raise ValueError('no token at %r' % text[at:at + 20])
        tokens.append(match.group(match.lastindex))
        at = match.end()
    return tokens


class Parser:
    """Reads one term from a list of tokens."""

    def __init__(self, tokens):
        self.tokens, self.at = tokens, 0

    def peek(self):
        return self.tokens[self.at] if self.at < len(self.tokens) else None

    def take(self, wanted=None):
        token = self.peek()
        if token is None or (wanted is not None and token != wanted):
            raise ValueError('%r where %r is wanted' % (token, wanted))
        self.at += 1
        return token

    def term(self):
        if self.peek() == 'if':
            self.take()
            test = self.term()
            self.take('then')
            yes = self.term()
            self.take('else')
            return ('if', test, yes, self.term())
        return self.binary(0)

    def binary(self, level):
        if level == len(LEVELS):
            return self.call()
        left = self.binary(level + 1)
        while self.peek() in LEVELS[level]:
            operation = self.take()
            left = ('operation', operation, left, self.binary(level + 1))
        return left

    def call(self):
        parts = [self.atom()]
        while self.starts_atom():
            parts.append(self.atom())
        return parts[0] if len(parts) == 1 else ('call', parts[0], parts[1:])

    def starts_atom(self):
        token = self.peek()
        return token is not None and (token in ('(', 'record') or (token[0].isalnum() or token[0] == '_') and token not in KEYWORDS)

    def atom(self):
        token = self.take()
        if token == '(':
            inner = self.term()
            self.take(')')
            return inner
        if token == 'record':
            return self.record()
        if token[0].isdigit():
            return ('number', int(token.replace('_', ''), 0))
        return ('name', token)

    def record(self):
        self.take('{')
        fields = []
        while self.peek() != '}':
            name = self.take()
            self.take('=')
            fields.append((name, self.term()))
            if self.peek() == ';':
                self.take()
        self.take('}')
        return ('record', fields)


class Definitions:
    """The clauses of some files, by name; a clause is read when it's first used."""

    def __init__(self, paths):
        self.clauses = {}
        for path in paths:
            self.read(path)

    def read(self, path):
        clause = None
        for line in open(path, encoding='utf-8'):
            line = line.rstrip()
            if not line or line.startswith('--'):
                clause = None
            elif line[0] != ' ':
                name = line.split()[0]
                clause = None if name in ('use', 'pub', 'abbrev', 'unfoldable', 'unfolding') else [line]
                if clause is not None:
                    self.clauses.setdefault(name, []).append(clause)
            elif clause is not None:
                clause.append(line)

    def named(self, name):
        """The clauses of a definition: their patterns and their terms."""
        clauses = self.clauses[name]
        for k, clause in enumerate(clauses):
            if isinstance(clause, list):
                head, body = ' '.join(clause).split(' = ', 1)
                parser = Parser(tokens_of(head)[1:])
                patterns = []
                while parser.peek() is not None:
                    patterns.append(parser.atom())
                clauses[k] = (patterns, Parser(tokens_of(body)).term())
        return clauses

    def call(self, name, *values):
        for patterns, body in self.named(name):
            names = {}
            if all(self.fits(p, v, names) for p, v in zip(patterns, values)):
                return self.value(body, names)
        raise ValueError('no clause of %s fits %r' % (name, values))

    def fits(self, pattern, value, names):
        """Whether a value has the form of a pattern, whose variables are named then."""
        if pattern[0] == 'call':
            constructor, parts = pattern[1][1], pattern[2]
            return value[0] == constructor and all(self.fits(p, v, names) for p, v in zip(parts, value[1:]))
        name = pattern[1]
        if name[0].isupper():
            return value == (name,)
        names[name] = value
        return True

    def value(self, term, names):
        kind = term[0]
        if kind == 'number':
            return term[1]
        if kind == 'if':
            return self.value(term[2] if self.value(term[1], names) else term[3], names)
        if kind == 'operation':
            return OPERATIONS[term[1]](self.value(term[2], names), self.value(term[3], names))
        if kind == 'record':
            return {field: self.value(part, names) for field, part in term[1]}
        if kind == 'name':
            return self.applied(term[1], [], names)
        return self.applied(term[1][1], [self.value(part, names) for part in term[2]], names)

    def applied(self, name, values, names):
        head, *fields = name.split('.')
        if head in names:
            value = names[head]
            for field in fields:
                value = value[field]
            return value
        if head in BUILT_IN:
            return BUILT_IN[head][1](*values)
        if head in self.clauses:
            return self.call(head, *values)
        if head[0].isupper() or head in ('pos', 'negsuc'):
            return (head, *values)
        raise ValueError('no definition of %s' % head)
