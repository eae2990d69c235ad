"""Compares scopes and sugar with a reference implementation: the same answer, the same place of a breach, the same Core.

    against_scopes.py ORACLE WORKSPACE PROGRAMS [SEED] [COUNT]

ORACLE is the folder of the reference implementation (lexer.py, parser.py, scope.py). WORKSPACE is what against_scopes.sh
makes: it has the program that writes the Core of files. PROGRAMS is a folder of programs, or a file of worked rows
(rows.json). COUNT mutations of these, in which names are exchanged, doubled and made unknown, are compared too.

Core is compared as one text, in which names have numbers in the order in which they are bound.
"""
import json
import os
import random
import subprocess
import sys
import threading

import command_words

sys.setrecursionlimit(10 ** 6)
threading.stack_size(512 * 1024 * 1024)

OPERATIONS = {
    '+': 'Add', '-': 'Subtract', '*': 'Multiply', '/': 'Divide', 'mod': 'Modulo', 'land': 'LogicalAnd', 'lor': 'LogicalOr',
    'lxor': 'LogicalXor', 'lsl': 'ShiftLeft', 'lsr': 'ShiftRightLogical', 'asr': 'ShiftRightArithmetic', 'min': 'Minimum',
    'max': 'Maximum', 'neg': 'Negate', 'abs': 'Absolute', 'succ': 'Successor', 'pred': 'Predecessor', 'not': 'Not',
    'fst': 'First', 'snd': 'Second', 'ignore': 'Ignore', '=': 'Equal', '<>': 'Different', '<': 'Below', '>': 'Above',
    '<=': 'AtMost', '>=': 'AtLeast', 'compare': 'Compare', '==': 'Same', '!=': 'Other', 'ref': 'MakeReference',
    '!': 'GetReference', ':=': 'SetReference', 'incr': 'IncrementReference', 'decr': 'DecrementReference', 'raise': 'Raise',
    'failwith': 'FailWith', 'invalid_arg': 'InvalidArgument', 'exit': 'Exit', 'print_int': 'PrintInteger',
    'print_char': 'PrintCharacter', 'print_string': 'PrintString', 'print_endline': 'PrintLine',
    'print_newline': 'PrintNewline', 'string_of_int': 'StringOfInteger', '^': 'Concatenate', 'String.length': 'StringLength',
    'String.get': 'StringGet', 'String.sub': 'StringSub', 'Char.code': 'CharacterCode', 'Char.chr': 'CharacterOfCode',
    'Array.make': 'ArrayMake', 'Array.length': 'ArrayLength', 'Array.get': 'ArrayGet', 'Array.set': 'ArraySet',
    'c_iter': 'CallIterate', 'c_fold': 'CallFold', 'c_try': 'CallTry', 'Effect.perform': 'Perform',
    'Effect.Deep.continue': 'Continue', 'Effect.Deep.discontinue': 'Discontinue', 'Effect.Shallow.fiber': 'Fiber',
    'Domain.spawn': 'Spawn', 'Domain.join': 'Join', 'Domain.cpu_relax': 'Relax', 'Atomic.make': 'AtomicMake',
    'Atomic.get': 'AtomicGet', 'Atomic.set': 'AtomicSet', 'Atomic.exchange': 'AtomicExchange',
    'Atomic.compare_and_set': 'AtomicCompareAndSet', 'Atomic.fetch_and_add': 'AtomicFetchAndAdd',
    'Atomic.incr': 'AtomicIncrement', 'Atomic.decr': 'AtomicDecrement', 'Fiberq.push': 'QueuePush',
    'Fiberq.take_from': 'QueueTake', 'Fiberq.self': 'QueueSelf', 'Fiberq.slots': 'QueueSlots'}
TYPES = ['int', 'bool', 'char', 'string', 'unit', 'exn', 'list', 'option', 'ref', 'array', 'Effect.t',
         'Effect.Deep.continuation', 'Effect.Shallow.continuation', 'Domain.t', 'Atomic.t', '->', '*']
EXCEPTIONS = ['Not_found', 'Failure', 'Invalid_argument', 'Division_by_zero', 'Match_failure', 'Exit', 'Effect.Unhandled',
              'Effect.Continuation_already_resumed', 'Queue.Empty', 'Fiberq.Full']


class Writer:
    """A canonical text, with numbers for names and type variables in the order in which they are met."""

    def __init__(self):
        self.out = []
        self.names = {}
        self.variables = {}
        self.handlers = 0

    def say(self, *words):
        self.out.extend(str(w) for w in words)

    def bind(self, key):
        if key not in self.names:
            self.names[key] = len(self.names)
        return 'x%d' % self.names[key]

    def use(self, key):
        return 'x%d' % self.names[key] if key in self.names else 'unbound'

    def variable(self, key):
        if key not in self.variables:
            self.variables[key] = 't%d' % len(self.variables)
        return self.variables[key]

    def new_item(self):
        self.variables = {}


class Reference(Writer):
    """The text of a program of the reference implementation."""

    def __init__(self, scope, program):
        super().__init__()
        self.scope = scope
        self.types = {}
        self.constructors = {}
        self.fields = {}
        self.row = {}
        for d, n in [(scope.INT, 0), (scope.BOOL, 1), (scope.CHAR, 2), (scope.STRING, 3), (scope.UNIT, 4), (scope.EXN, 5),
                     (scope.LIST, 6), (scope.OPTION, 7), (scope.REF, 8), (scope.ARRAY, 9), (scope.EFFECT, 10),
                     (scope.DEEPK, 11), (scope.SHALLOWK, 12), (scope.DOMAIN, 13), (scope.ATOMIC, 14)]:
            self.types[id(d)] = n
        for c, n in [(scope.NONE, 0), (scope.SOME, 1), (scope.NIL, 2), (scope.CONS, 3)]:
            self.constructors[id(c)] = 'v %d' % n
        for i, n in enumerate(EXCEPTIONS):
            self.constructors[id(scope.EXCEPTIONS[n])] = 'x %d' % i
        self.counts = [17, 4, 0, 10, 0]
        for it in program.items:
            self.declare(it)
        for it in program.items:
            self.new_item()
            self.item(it)

    def next(self, i):
        self.counts[i] += 1
        return self.counts[i] - 1

    def declare(self, it):
        if it.kind == 'type':
            for d in it.defs:
                self.types[id(d)] = self.next(0)
            for d in it.defs:
                for c in d.cons:
                    self.constructors[id(c)] = 'v %d' % self.next(1)
                for f in d.fields:
                    self.fields[id(f)] = self.next(2)
        elif it.kind == 'exception':
            self.constructors[id(it.con)] = 'x %d' % self.next(3)
        elif it.kind == 'effect':
            for c in it.cons:
                self.constructors[id(c)] = 'e %d' % self.next(4)

    def type(self, t, parameters=None):
        k = t[0]
        if k == 'var':
            if parameters is not None:
                self.say('var', parameters.index(t[1]))
            else:
                self.say('var', self.variable(t[1]))
        elif k == 'any':
            self.say('any')
        elif k == 'arrow':
            self.say('(', 15)
            self.type(t[1], parameters)
            self.type(t[2], parameters)
            self.say(')')
        elif k == 'tuple':
            self.say('(', 16)
            for x in t[1]:
                self.type(x, parameters)
            self.say(')')
        elif k == 'con':
            self.say('(', self.types[id(t[1])])
            for x in t[2]:
                self.type(x, parameters)
            self.say(')')
        elif k == 'local':
            self.say('var', self.variables.get(id(t[1]), 'unbound'))
        else:
            self.say('bad')

    def constructor(self, c):
        return self.constructors[id(c)] if c is not None else 'none'

    def constant(self, ctype, value):
        if ctype == 'int':
            return 'int %d' % value
        if ctype == 'bool':
            return 'true' if value else 'false'
        if ctype == 'char':
            return 'char %d' % (value if isinstance(value, int) else value[0])
        if ctype == 'string':
            return 'text ' + bytes(value).hex()
        return 'unit'

    def pattern(self, p):
        k = p.kind
        if k == 'PVar':
            self.say('name', self.bind(id(p.x)))
        elif k == 'PAny':
            self.say('any')
        elif k == 'PConst':
            self.say(self.constant(p.ctype, p.value))
        elif k == 'PTuple':
            self.say('(tuple')
            for q in p.parts:
                self.pattern(q)
            self.say(')')
        elif k == 'PCon':
            self.say('(con', self.constructor(p.con))
            if p.arg is not None:
                self.pattern(p.arg)
            self.say(')')
        elif k == 'PRecord':
            self.say('(record')
            for f, q in p.fields:
                self.say(self.fields[id(f)])
                self.pattern(q)
            self.say(')')
        elif k == 'POr':
            self.say('(or')
            self.pattern(p.a)
            self.pattern(p.b)
            self.say(')')
        elif k == 'PAs':
            self.say('(as')
            self.pattern(p.p)
            self.say(self.bind(id(p.x)), ')')
        else:
            self.say('(annot')
            self.pattern(p.p)
            self.type(p.t)
            self.say(')')

    def clauses(self, cs):
        for c in cs:
            self.say('[')
            self.pattern(c.p)
            if c.guard is not None:
                self.say('when')
                self.term(c.guard)
            self.say('->')
            self.term(c.body)
            self.say(']')

    def functions(self, funs):
        for x, f in funs:
            self.say('fn', self.bind(id(x)))
        for x, f in funs:
            annotation = None
            if f.kind == 'Annot':
                annotation, f = f.t, f.a
            self.say('{', '%d:%d' % f.place, self.bind(id(f.x)))
            self.term(f.body)
            if annotation is not None:
                self.say('annotated')
                self.type(annotation)
            self.say('}')

    def term(self, e):
        while e.kind == 'Let':
            self.say('let', self.bind(id(e.x)))
            self.term(e.a)
            e = e.b
        k = e.kind
        if k == 'Var':
            self.say(self.use(id(e.b)))
        elif k == 'Const':
            self.say(self.constant(e.ctype, e.value))
        elif k == 'Fun':
            self.say('(fun', '%d:%d' % e.place, self.bind(id(e.x)))
            self.term(e.body)
            self.say(')')
        elif k == 'App':
            self.say('(app')
            self.term(e.f)
            self.term(e.a)
            self.say(')')
        elif k == 'LetRec':
            self.say('(letrec')
            self.functions(e.funs)
            self.term(e.b)
            self.say(')')
        elif k == 'Seq':
            for p in e.parts[:-1]:
                self.say('seq')
                self.term(p)
            self.term(e.parts[-1])
        elif k == 'If':
            self.say('(if')
            self.term(e.c)
            self.term(e.a)
            self.term(e.b)
            self.say(')')
        elif k == 'Match':
            self.say('(match', '%d:%d' % e.place)
            self.term(e.a)
            self.clauses(e.clauses)
            self.say(')')
        elif k in ('Tuple', 'Array'):
            self.say('(' + k.lower())
            for p in e.parts:
                self.term(p)
            self.say(')')
        elif k == 'Con':
            tails = 0
            while e.kind == 'Con' and e.arg is not None and e.con is self.scope.CONS and e.arg.kind == 'Tuple' \
                    and len(e.arg.parts) == 2:
                self.say('(con', 'v 3', '(tuple')
                self.term(e.arg.parts[0])
                e = e.arg.parts[1]
                tails += 1
            if e.kind == 'Con':
                self.say('(con', self.constructor(e.con))
                if e.arg is not None:
                    self.term(e.arg)
                self.say(')')
            else:
                self.term(e)
            self.say(*[')', ')'] * tails)
        elif k == 'Record':
            self.say('(record')
            for f, x, place in e.fields:
                self.say(self.fields[id(f)])
                self.term(x)
            self.say(')')
        elif k == 'Field':
            self.say('(field', self.fields[id(e.field)])
            self.term(e.e)
            self.say(')')
        elif k == 'SetField':
            self.say('(set', self.fields[id(e.field)])
            self.term(e.e)
            self.term(e.v)
            self.say(')')
        elif k == 'Prim':
            self.say('(prim', OPERATIONS[e.op])
            for p in e.parts:
                self.term(p)
            self.say(')')
        elif k == 'Catch':
            self.say('(catch', '%d:%d' % e.place)
            self.term(e.body)
            self.clauses(e.values)
            self.say('exceptions')
            self.clauses(e.exceptions)
            self.say(')')
        elif k == 'Handle':
            kind = {'match': 'Deep', 'match_with': 'Deep', 'try_with': 'Deep', 'continue_with': 'ShallowContinue',
                    'discontinue_with': 'ShallowDiscontinue'}[e.op]
            self.say('(handle', kind)
            if e.tkey is not None:
                self.variables[id(e.tkey[1])] = 'h%d' % self.handlers
            self.handlers += 1
            if e.ann is not None:
                self.say('of')
                self.type(e.ann)
            for p in e.parts:
                self.term(p)
            for c in e.clauses:
                q = c.p
                self.say('[', self.constructor(q.con))
                if q.arg is not None:
                    self.pattern(q.arg)
                self.say(self.bind(id(c.k)))
                if c.kann is not None:
                    self.type(c.kann)
                self.say('->')
                self.term(c.body)
                self.say(']')
            self.say(')')
        else:
            assert k == 'Annot'
            self.say('(annot')
            self.term(e.a)
            self.type(e.t)
            self.say(')')

    def item(self, it):
        self.say('\nitem')
        if it.kind == 'type':
            self.say('types %d:%d' % it.place)
            for d in it.defs:
                self.say('|', d.name, len(d.params))
            for d in it.defs:
                for c in d.cons:
                    self.say(c.name)
                    if c.arg is not None:
                        self.type(c.arg, d.params)
                for f in d.fields:
                    self.say(f.name, f.index, 'mutable' if f.mutable else 'fixed')
                    self.type(f.type, d.params)
        elif it.kind == 'exception':
            self.say('exception %d:%d' % it.place, it.con.name)
            if it.con.arg is not None:
                self.type(it.con.arg, [])
        elif it.kind == 'effect':
            self.say('effects %d:%d' % it.place, self.types[id(it.head)])
            for c in it.cons:
                self.say(c.name)
                if c.arg is not None:
                    self.type(c.arg)
                self.say('->')
                self.type(c.full)
        elif it.kind == 'letrec':
            self.say('rec')
            self.functions(it.funs)
        elif it.binds is None:
            self.say('expression %d:%d' % it.place)
            self.term(it.term)
        elif it.binds.kind == 'PVar':
            self.say('define %d:%d' % it.place, self.bind(id(it.binds.x)))
            self.term(it.term)
        else:
            self.say('destructure %d:%d' % it.place)
            self.pattern(it.binds)
            self.term(it.term)


class Words:
    def __init__(self, line):
        self.words = line.split()
        self.at = 0

    def word(self):
        self.at += 1
        return self.words[self.at - 1]

    def number(self):
        return int(self.word())

    def numbers(self):
        return [self.number() for _ in range(self.number())]

    def text(self):
        return bytes(self.numbers())

    def option(self):
        return self.number() if self.word() == 's' else None

    def place(self):
        return '%d:%d' % (self.number(), self.number())

    def signed(self):
        return -self.number() if self.word() == 'n' else self.number()


class Made(Writer):
    """The text of the nodes that the program wrote."""

    def __init__(self, lines):
        super().__init__()
        self.sorts = {k: [] for k in ('L', 'T', 'P', 'E', 'I', 'RT', 'RV', 'RF', 'RX', 'RE')}
        base, self.first, more = lines
        self.count = 0
        for line in base + more:
            w = Words(line)
            w.of_prelude = self.count < len(base)
            self.count += 1
            self.sorts[w.word()].append(w)
        self.of_prelude = True
        self.done = {'v': 4, 'f': 0}
        for w in self.sorts['I']:
            self.of_prelude = w.of_prelude
            self.new_item()
            self.item(w)

    def bind(self, key):
        return super().bind(self.key(key))

    def use(self, key):
        return super().use(self.key(key))

    def key(self, key):
        return ('prelude', key) if self.of_prelude and key >= self.first else key

    def read(self, sort, n):
        w = self.sorts[sort][n]
        w.at = 1
        return w

    def type(self, n, declared=False):
        w = self.read('T', n)
        k = w.word()
        if k == 'var':
            v = w.number()
            self.say('var', v if declared else self.variable(v))
        elif k == 'any':
            self.say('any')
        else:
            self.say('(', w.number())
            for x in w.numbers():
                self.type(x, declared)
            self.say(')')

    def constant(self, w):
        k = w.word()
        if k == 'int':
            return 'int %d' % w.signed()
        if k == 'char':
            return 'char %d' % w.number()
        if k == 'lit':
            return 'text ' + self.read('L', w.number()).text().hex()
        return k

    def constructor(self, w):
        return '%s %s' % (w.word(), w.word())

    def pattern(self, n):
        w = self.read('P', n)
        w.place()
        k = w.word()
        if k == 'name':
            self.say('name', self.bind(w.number()))
        elif k == 'any':
            self.say('any')
        elif k == 'const':
            self.say(self.constant(w))
        elif k == 'tuple':
            self.say('(tuple')
            for x in w.numbers():
                self.pattern(x)
            self.say(')')
        elif k == 'con':
            self.say('(con', self.constructor(w), ')')
        elif k == 'conof':
            self.say('(con', self.constructor(w))
            self.pattern(w.number())
            self.say(')')
        elif k == 'record':
            self.say('(record')
            for _ in range(w.number()):
                self.say(w.number())
                self.pattern(w.number())
            self.say(')')
        elif k == 'or':
            self.say('(or')
            a, b = w.number(), w.number()
            self.pattern(a)
            self.pattern(b)
            self.say(')')
        elif k == 'alias':
            self.say('(as')
            a, x = w.number(), w.number()
            self.pattern(a)
            self.say(self.bind(x), ')')
        else:
            self.say('(annot')
            a, t = w.number(), w.number()
            self.pattern(a)
            self.type(t)
            self.say(')')

    def clauses(self, w):
        for _ in range(w.number()):
            p, g, b = w.number(), w.option(), w.number()
            self.say('[')
            self.pattern(p)
            if g is not None:
                self.say('when')
                self.term(g)
            self.say('->')
            self.term(b)
            self.say(']')

    def functions(self, w):
        fs = []
        for _ in range(w.number()):
            place, f, x = w.place(), w.number(), w.number()
            fs.append((place, f, x, w.option(), w.number()))
        for f in fs:
            self.say('fn', self.bind(f[1]))
        for place, f, x, t, body in fs:
            self.say('{', place, self.bind(x))
            self.term(body)
            if t is not None:
                self.say('annotated')
                self.type(t)
            self.say('}')

    def term(self, n):
        closing = []
        while True:
            w = self.read('E', n)
            place, k = w.place(), w.word()
            if k == 'let':
                x, a, n = w.number(), w.number(), w.number()
                self.say('let', self.bind(x))
                self.term(a)
            elif k == 'seq':
                a, n = w.number(), w.number()
                self.say('seq')
                self.term(a)
            elif k == 'conof' and w.words[w.at:w.at + 2] == ['v', '3']:
                w.at += 2
                t = self.read('E', w.number())
                t.place()
                assert t.word() == 'tuple'
                a, n = t.numbers()
                self.say('(con', 'v 3', '(tuple')
                self.term(a)
                closing += [')', ')']
            else:
                break
        self.other_term(w, place, k)
        self.say(*closing)

    def all(self, ns):
        for x in ns:
            self.term(x)

    def other_term(self, w, place, k):
        if k == 'name':
            self.say(self.use(w.number()))
        elif k == 'const':
            self.say(self.constant(w))
        elif k == 'fun':
            self.say('(fun', place, self.bind(w.number()))
            self.term(w.number())
            self.say(')')
        elif k == 'app':
            self.say('(app')
            self.all([w.number(), w.number()])
            self.say(')')
        elif k == 'letrec':
            self.say('(letrec')
            self.functions(w)
            self.term(w.number())
            self.say(')')
        elif k == 'if':
            self.say('(if')
            self.all([w.number(), w.number(), w.number()])
            self.say(')')
        elif k == 'match':
            self.say('(match', place)
            self.term(w.number())
            self.clauses(w)
            self.say(')')
        elif k in ('tuple', 'array'):
            self.say('(' + k)
            self.all(w.numbers())
            self.say(')')
        elif k == 'con':
            self.say('(con', self.constructor(w), ')')
        elif k == 'conof':
            self.say('(con', self.constructor(w))
            self.term(w.number())
            self.say(')')
        elif k == 'record':
            self.say('(record')
            for _ in range(w.number()):
                self.say(w.number())
                self.term(w.number())
            self.say(')')
        elif k == 'field':
            self.say('(field', w.number())
            self.term(w.number())
            self.say(')')
        elif k == 'setfield':
            self.say('(set', w.number())
            self.all([w.number(), w.number()])
            self.say(')')
        elif k == 'prim':
            self.say('(prim', w.word().removeprefix('Compare(').removesuffix(')'))
            self.all(w.numbers())
            self.say(')')
        elif k == 'catch':
            self.say('(catch', place)
            self.term(w.number())
            self.clauses(w)
            self.say('exceptions')
            self.clauses(w)
            self.say(')')
        elif k == 'handle':
            self.handle(w)
        else:
            assert k == 'annot', k
            self.say('(annot')
            a, t = w.number(), w.number()
            self.term(a)
            self.type(t)
            self.say(')')

    def handle(self, w):
        self.say('(handle', w.word())
        v, t = w.option(), w.option()
        if v is not None:
            self.variables[v] = 'h%d' % self.handlers
        self.handlers += 1
        if t is not None:
            self.say('of')
            self.type(t)
        self.all(w.numbers())
        for _ in range(w.number()):
            c = self.constructor(w)
            p, k, t, b = w.option(), w.number(), w.option(), w.number()
            self.say('[', c)
            if p is not None:
                self.pattern(p)
            self.say(self.bind(k))
            if t is not None:
                self.type(t)
            self.say('->')
            self.term(b)
            self.say(']')
        self.say(')')

    def name_of(self, w):
        return w.text().decode()

    def item(self, w):
        self.say('\nitem')
        place, k = w.place(), w.word()
        if k == 'types':
            self.say('types', place)
            rows = w.numbers()
            for r in rows:
                t = self.read('RT', r)
                self.say('|', self.name_of(t), t.number())
            for r in rows:
                for v in self.sorts['RV']:
                    v.at = 1
                    name, of = self.name_of(v), v.number()
                    if of == r:
                        self.say(name)
                        a = v.option()
                        if a is not None:
                            self.type(a, True)
                for f in self.sorts['RF']:
                    f.at = 1
                    name, of = self.name_of(f), f.number()
                    if of == r:
                        i, m, t = f.number(), f.number(), f.number()
                        self.say(name, i, 'mutable' if m else 'fixed')
                        self.type(t, True)
        elif k == 'exception':
            r = self.read('RX', w.number())
            self.say('exception', place, self.name_of(r))
            a = r.option()
            if a is not None:
                self.type(a, True)
        elif k == 'effects':
            self.say('effects', place, w.number())
            for n in w.numbers():
                r = self.read('RE', n)
                self.say(self.name_of(r))
                a, t = r.option(), r.number()
                if a is not None:
                    self.type(a)
                self.say('->')
                self.type(t)
        elif k == 'definerec':
            self.say('rec')
            self.functions(w)
        elif k == 'evaluate':
            self.say('expression', place)
            self.term(w.number())
        elif k == 'define':
            self.say('define', place, self.bind(w.number()))
            self.term(w.number())
        else:
            self.say('destructure', place)
            self.pattern(w.number())
            self.term(w.number())


def reference(modules, text, name):
    lexer, parser, scope = modules
    try:
        tree = parser.parse(lexer.lex(text))
        if parser.depth(tree) > 400:
            return 'depth', None
    except lexer.Fault as f:
        return 'syntax', None
    try:
        program = scope.core_of(tree, name)
    except lexer.Fault as f:
        return 'name %d %d' % (f.line, f.col), None
    return 'ok', ' '.join(Reference(scope, program).out)


def run_batch(workspace, files):
    listing = os.path.join(workspace, 'list.txt')
    empty = os.path.join(workspace, 'empty.ml')
    open(empty, 'w').close()
    one = os.path.join(workspace, 'one.ml')
    with open(one, 'w') as f:
        f.write('let one = 1\n')
    with open(listing, 'w') as f:
        f.write('\n'.join([empty, one] + files) + '\n')
    run = subprocess.run(['rt', 'try', '--', listing], cwd=os.path.join(workspace, 'crates/core_dump'),
                         stdout=subprocess.PIPE, stderr=subprocess.PIPE)
    answers = []
    for line in run.stdout.decode().split('\n'):
        if line.startswith('== '):
            answers.append((line[3:], []))
        elif answers and line and line[0] in 'LTPEIR' and ' ' in line:
            answers[-1][1].append(line)
    if len(answers) != len(files) + 2:
        return None, run.stderr.decode()[-1500:]
    base = answers[0][1]
    first = int([l for l in answers[1][1] if ' define ' in l][0].split()[4])
    return [(a, (base, first, lines)) for a, lines in answers[2:]], ''


def product(workspace, files):
    answers = []
    at, size = 0, 150
    while at < len(files):
        got, error = run_batch(workspace, files[at:at + size])
        if got is None:
            if size == 1:
                print('no answer', files[at], error)
                answers.append(('none', ([], 0, [])))
                at += 1
                size = 100
                continue
            size = max(1, size // 3)
            continue
        answers += got
        at += size
        size = min(200, size * 2)
        print('..', at, flush=True)
    return answers


def programs(where):
    if where.endswith('.json'):
        cases = json.load(open(where))
        for c in cases:
            for name, text in c.get('files', {}).items():
                if isinstance(text, list):
                    text = ''.join(t * n for t, n in (text if isinstance(text[0], list) else [text]))
                if len(text) < 60000:
                    yield text
    else:
        for name in sorted(os.listdir(where)):
            if name.endswith('.ml'):
                yield open(os.path.join(where, name)).read()


def mutate(rng, lexer, text, pool):
    """Exchanges names of a program: another name of it, of another program, an unknown one, or one removed."""
    tokens = [t for t in lexer.lex(text.encode()) if t.kind in ('lower', 'upper', 'tvar')]
    if not tokens:
        return text
    data = text.encode()
    for t in sorted(rng.sample(tokens, min(len(tokens), rng.choice([1, 1, 1, 2, 3]))), key=lambda t: -t.frm):
        same = [u.text for u in tokens if u.kind == t.kind]
        new = rng.choice([rng.choice(same), rng.choice(same), rng.choice(pool[t.kind]), t.text + '_'])
        data = data[:t.frm] + new.encode() + data[t.to:]
    return data.decode()


def main():
    oracle, workspace, where = sys.argv[1:4]
    seed = int(sys.argv[4]) if len(sys.argv) > 4 else 1
    count = int(sys.argv[5]) if len(sys.argv) > 5 else 1000
    sys.path.insert(0, oracle)
    import lexer
    import parser
    import scope
    texts = []
    for w in where.split(','):
        texts += [t for t in programs(w) if t not in texts]
    rng = random.Random(seed)
    pool = {'lower': [], 'upper': [], 'tvar': ["'a", "'b"]}
    good = []
    for t in texts:
        try:
            for k in lexer.lex(t.encode()):
                if k.kind in pool:
                    pool[k.kind].append(k.text)
            good.append(t)
        except lexer.Fault:
            pass
    cases = list(texts)
    while len(cases) < len(texts) + count:
        cases.append(mutate(rng, lexer, rng.choice(good), pool))
    folder = os.path.join(workspace, 'files')
    os.makedirs(folder, exist_ok=True)
    files = []
    for i, c in enumerate(cases):
        files.append(os.path.join(folder, '%05d.ml' % i))
        with open(files[-1], 'w') as f:
            f.write(c)
    answers = product(workspace, files)
    kinds = {}
    differ = 0
    for name, text, (answer, lines) in zip(files, cases, answers):
        want, tree = reference((lexer, parser, scope), text.encode(), name)
        if answer.startswith('syntax'):
            answer = 'syntax'
        if answer == 'other':
            answer = 'depth'
        kinds[want.split()[0]] = kinds.get(want.split()[0], 0) + 1
        if answer == 'ok' and want == 'ok':
            try:
                made = ' '.join(Made(lines).out)
            except (IndexError, AssertionError, KeyError) as e:
                made = 'no text: %r' % e
            if made == tree:
                continue
            a, b = made.split(' '), tree.split(' ')
            i = next((i for i in range(min(len(a), len(b))) if a[i] != b[i]), min(len(a), len(b)))
            print('CORE', name, '\n  made     ', ' '.join(a[max(0, i - 12):i + 12]),
                  '\n  reference', ' '.join(b[max(0, i - 12):i + 12]))
        elif answer == want:
            continue
        else:
            print('ANSWER', name, answer, 'reference', want)
        differ += 1
    print('%d programs, %d differences, %s' % (len(cases), differ, kinds))


if __name__ == '__main__':
    command_words.begin(__doc__, 'ORACLE', 'WORKSPACE', 'PROGRAMS')
    t = threading.Thread(target=main)
    t.start()
    t.join()
