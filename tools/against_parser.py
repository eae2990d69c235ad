#!/usr/bin/env python3
"""Compares ml_parser with another parser of the same grammar. It isn't part of the gate.

    against_parser.py FOLDER [--count N] [--seed N]

FOLDER holds lexer.py with `lex(data)`, parser.py with `Parser` and `depth(items)`, and rows/rows.json, whose texts
are programs. These, the programs of examples/, the blocks of docs/LANGUAGE.md, corners of the grammar, texts at the
limit of the depth and N mutations of their tokens (dropped, doubled, swapped, replaced) are read by both.

Compared are: whether the text is a program; the place of the first fault; the nodes and items, without their places;
and the depth. Of each program the text that ml_syntax prints must be read as the same program, and printed as the
same text. A block marked `ocaml` must be a program, and one marked `ocaml refused` none.

The other parser is known to differ in two points. They are counted and shown, and so that no other difference hides
behind them, what it answers is put right in these points before it is compared:
- the depth of a handler. It counts the value of `effc` and all its rules as one form; here each form that is written
  counts (`fun`, `match`, `Some (fun ..)` as three). The depth is computed by that rule over its tree.
- an operator behind a form of level 17 that ends with a semicolon of its own, as in `(let x = 1 in a; + b)`. It takes
  the form as a left operand, which the grammar doesn't allow. `Strict` is the same parser with that rule.

The program that runs ml_parser is made by parser_program.py, in a temporary folder, and is built without proof.
The status is 0 where nothing but the two known points differs.
"""
import collections
import glob
import json
import os
import random
import re
import sys
import threading

import command_words
from parser_program import ANSWERS, ROOT, Program

sys.setrecursionlimit(1000000)
threading.stack_size(512 * 1024 * 1024)

SEVENTEEN = ('Let', 'Match', 'Try', 'Fun', 'Function')


def strict_of(parser):
    """The other parser, with the levels of left operands."""
    class Strict(parser.Parser):
        @staticmethod
        def level_of(e):
            if e.kind in SEVENTEEN:
                return 17
            return parser.BINARY[e.op][0] if e.kind == 'Bin' else 4

        def binary(self, loosest):
            place = self.tok.place
            left = self.unary()
            while self.tok.kind in ('sym', 'kw') and self.tok.text in parser.BINARY:
                level, groups_left = parser.BINARY[self.tok.text]
                if level > loosest or self.level_of(left) > (level if groups_left else level - 1):
                    break
                op = self.advance()
                right = self.binary(level - 1 if groups_left else level)
                left = parser.N('Bin', place, op=op.text, a=left, b=right, op_place=op.place)
            return left

        def level13(self):
            place = self.tok.place
            es = [self.binary(12)]
            while self.at(',') and es[-1].kind not in SEVENTEEN:
                self.advance()
                es.append(self.binary(12))
            return es[0] if len(es) == 1 else parser.N('Tuple', place, parts=es)

        def level14(self):
            place = self.tok.place
            left = self.level13()
            if self.at(':=') and left.kind not in SEVENTEEN:
                op = self.advance()
                right = self.level14()
                return parser.N('Bin', place, op=':=', a=left, b=right, op_place=op.place)
            if self.at('<-') and left.kind in ('Field', 'Index'):
                self.advance()
                right = self.level14()
                if left.kind == 'Field':
                    return parser.N('SetField', place, e=left.e, name=left.name, name_place=left.name_place, v=right)
                return parser.N('SetIndex', place, e=left.e, i=left.i, v=right)
            return left

    return Strict


def depth_of(line, depths):
    """The depth of the node of a line, from the depths of its parts, whose numbers stand in the line."""
    kind = line.split(' ', 1)[0]
    if kind in ('Constant', 'PatternConstant'):
        return 1
    parts = [int(n) for n in re.findall(r'\d+', re.sub(r'"[^"]*"', '""', line))]
    deepest = max([depths[n] for n in parts], default=0)
    return deepest + (3 if kind == 'Resumption' else 1)


class Arena:
    """The nodes of the other parser's tree, as lines in the order of this parser's arena."""

    def __init__(self, data, tokens, big):
        self.data = data
        self.at = {}
        for i, t in enumerate(tokens):
            self.at.setdefault((t.line, t.col), i)
        self.tokens = tokens
        self.big = big
        self.lines = []
        self.depths = []

    def push(self, *words):
        line = ' '.join(words)
        self.lines.append(line)
        self.depths.append(depth_of(line, self.depths))
        return str(len(self.lines) - 1)

    def text_at(self, place, offset=0):
        return self.tokens[self.at[place] + offset].text

    @staticmethod
    def quoted(text):
        return '"' + text + '"'

    def long(self, path, name):
        return '.'.join(self.quoted(p) for p in list(path) + [name])

    @staticmethod
    def numbers(ns):
        return '[' + ''.join(n + ' ' for n in ns) + ']'

    def is_open(self, place):
        """Whether the braces that begin at a place end with `; _`, which the other tree doesn't keep."""
        i, braces = self.at[place], 0
        while True:
            braces += {'{': 1, '}': -1}.get(self.tokens[i].text, 0)
            if braces == 0:
                return self.tokens[i - 1].text == '_' and self.tokens[i - 2].text == ';'
            i += 1

    def parts(self, fields):
        return '{' + ''.join(self.quoted(f) + '=' + n + ' ' for f, n in fields) + '}'

    def span(self, n):
        t = self.tokens[self.at[n.place]]
        return slice(t.frm, t.to)

    def spelled(self, place):
        t = self.tokens[self.at[place]]
        return self.data[t.frm:t.to].hex()

    def literal(self, n):
        kind = n.ctype
        if kind == 'bool':
            kind = 'true' if n.value else 'false'
        return kind + ' ' + self.spelled(n.place)

    # types
    def type(self, t):
        k = t.kind
        if k == 'TVar':
            return self.push('TypeVariable', self.quoted(t.name))
        if k == 'TAny':
            return self.push('TypeAny')
        if k == 'TParen':
            return self.push('TypeBracket', self.type(t.t))
        if k == 'TTuple':
            return self.push('TypeTuple', self.numbers([self.type(p) for p in t.parts]))
        if k == 'TArrow':
            a = self.type(t.a)
            return self.push('TypeArrow', a, self.type(t.b))
        name = self.long(t.con.path, t.con.name)
        if not t.args:
            return self.push('TypeName', name)
        return self.push('TypeApply', self.numbers([self.type(a) for a in t.args]), name)

    # patterns
    def pattern(self, p):
        k = p.kind
        if k == 'PVar':
            return self.push('PatternName', self.quoted(p.name))
        if k == 'PAny':
            return self.push('PatternAny')
        if k == 'PUnit':
            return self.push('PatternUnit')
        if k == 'PConst':
            return self.push('PatternConstant', self.literal(p))
        if k == 'PParen':
            return self.push('PatternBracket', self.pattern(p.p))
        if k == 'PTyped':
            a = self.pattern(p.p)
            return self.push('PatternAnnotated', a, self.type(p.t))
        if k == 'PList':
            return self.push('PatternList', self.numbers([self.pattern(q) for q in p.parts]))
        if k == 'PTuple':
            return self.push('PatternTuple', self.numbers([self.pattern(q) for q in p.parts]))
        if k == 'PRecord':
            parts = self.parts([(f[0], self.pattern(f[2])) for f in p.fields])
            return self.push('PatternRecord', parts, 't' if self.is_open(p.place) else 'f')
        if k == 'PCons':
            a = self.pattern(p.a)
            return self.push('PatternCons', a, self.pattern(p.b))
        if k == 'POr':
            a = self.pattern(p.a)
            return self.push('PatternOr', a, self.pattern(p.b))
        if k == 'PAs':
            a = self.pattern(p.p)
            return self.push('PatternAlias', a, self.quoted(p.name))
        name = self.long(p.con.path, p.con.name)
        if p.arg is None:
            return self.push('PatternConstructor', name)
        return self.push('PatternConstruct', name, self.pattern(p.arg))

    # expressions
    def all(self, es):
        return self.numbers([self.expression(e) for e in es])

    def expression(self, e):
        return getattr(self, 'on_' + e.kind)(e)

    def on_Const(self, e):
        if e.ctype == 'int' and e.value == self.big:
            return self.push('LeastInteger', self.quoted(self.data[self.span(e)].decode()))
        return self.push('Constant', self.literal(e))

    def on_Id(self, e):
        return self.push('Variable', self.long(e.path, e.name))

    def on_Con(self, e):
        return self.push('Constructor', self.long(e.path, e.name))

    def on_Unit(self, e):
        return self.push('Unit')

    def on_Paren(self, e):
        inner = self.expression(e.e)
        return self.push('BeginEnd' if self.text_at(e.place) == 'begin' else 'Bracket', inner)

    def on_Typed(self, e):
        a = self.expression(e.e)
        return self.push('Annotated', a, self.type(e.t))

    def on_List(self, e):
        return self.push('List', self.all(e.parts))

    def on_Array(self, e):
        return self.push('Array', self.all(e.parts))

    def on_Tuple(self, e):
        return self.push('Tuple', self.all(e.parts))

    def on_Seq(self, e):
        return self.push('Sequence', self.all(e.parts))

    def on_Record(self, e):
        return self.push('Record', self.parts([(f[0], self.expression(f[2])) for f in e.fields]))

    def on_While(self, e):
        c = self.expression(e.c)
        return self.push('While', c, self.expression(e.body))

    def on_For(self, e):
        a = self.expression(e.a)
        b = self.expression(e.b)
        body = self.expression(e.body)
        return self.push('For', self.quoted(e.name), a, 't' if e.down else 'f', b, body)

    def on_Bang(self, e):
        return self.push('Dereference', self.expression(e.e))

    def on_Neg(self, e):
        return self.push('Negate', self.expression(e.e))

    def on_Field(self, e):
        return self.push('Field', self.expression(e.e), self.quoted(e.name))

    def on_Index(self, e):
        a = self.expression(e.e)
        return self.push('ArrayElement', a, self.expression(e.i))

    def on_SIndex(self, e):
        a = self.expression(e.e)
        return self.push('StringElement', a, self.expression(e.i))

    def on_App(self, e):
        f = self.expression(e.f)
        return self.push('Apply', f, self.all(e.args))

    def on_ConApp(self, e):
        return self.push('Construct', self.long(e.con.path, e.con.name), self.expression(e.arg))

    def on_Bin(self, e):
        a = self.expression(e.a)
        return self.push('Binary', e.op, a, self.expression(e.b))

    def on_SetField(self, e):
        a = self.expression(e.e)
        return self.push('SetField', a, self.quoted(e.name), self.expression(e.v))

    def on_SetIndex(self, e):
        a = self.expression(e.e)
        i = self.expression(e.i)
        return self.push('SetElement', a, i, self.expression(e.v))

    def on_If(self, e):
        c = self.expression(e.c)
        a = self.expression(e.a)
        return self.push('If', c, a, '-' if e.b is None else self.expression(e.b))

    def binding(self, b):
        if b.kind == 'pbind':
            p = self.pattern(b.pat)
            return '(p %s %s)' % (p, self.expression(b.body))
        ps = self.numbers([self.pattern(p) for p in b.params])
        ann = '-' if b.ann is None else self.type(b.ann)
        return '(n %s%s%s %s)' % (self.quoted(b.name), ps, ann, self.expression(b.body))

    def on_Let(self, e):
        bs = ''.join(self.binding(b) for b in e.binds)
        return self.push('Let', 't' if e.rec else 'f', bs, self.expression(e.body))

    def continuation(self, k):
        if k[0] is None:
            return self.push('PatternAny')
        return self.push('PatternName', self.quoted(k[0]))

    def clause(self, c):
        if c.kind == 'eclause':
            q = self.pattern(c.q)
            k = self.continuation(c.k)
            return '(e %s %s %s)' % (q, k, self.expression(c.body))
        p = self.pattern(c.p)
        g = '-' if c.guard is None else self.expression(c.guard)
        return '(%s %s %s %s)' % ('v' if c.kind == 'clause' else 'x', p, g, self.expression(c.body))

    def clauses(self, cs):
        return ''.join(self.clause(c) for c in cs)

    def on_Match(self, e):
        s = self.expression(e.e)
        return self.push('Match', s, self.clauses(e.clauses))

    def on_Try(self, e):
        s = self.expression(e.e)
        return self.push('Try', s, self.clauses(e.clauses))

    def on_Function(self, e):
        return self.push('Function', self.clauses(e.clauses))

    def on_Fun(self, e):
        ps = self.numbers([self.pattern(p) for p in e.params])
        return self.push('Fun', ps, self.expression(e.body))

    def on_HandlerCall(self, e):
        a = self.expression(e.args[0])
        b = self.expression(e.args[1])
        return self.push('Handle', self.long(e.path, e.name), a, b, self.handler(e.lit))

    def handler(self, h):
        fields = [(n, v) for n, v in (('retc', h.retc), ('exnc', h.exnc), ('effc', h.effc)) if v is not None]
        fields.sort(key=lambda f: f[1].place)
        done = [(n, self.effc(v) if n == 'effc' else self.expression(v)) for n, v in fields]
        return self.push('Handler', self.parts(done))

    def effc(self, e):
        i = self.at[e.place]
        subject = None
        if self.tokens[i].text == 'fun':
            i += 1
            if self.tokens[i].text == '(' and self.tokens[i + 1].text == 'type':
                i += 4
            if self.tokens[i].text == '(':
                i += 1
            subject = self.tokens[i].text
            parameter = self.push('PatternName', self.quoted(subject))
            if e.ann is not None:
                parameter = self.push('PatternAnnotated', parameter, self.type(e.ann))
        rules = ''
        for c in e.clauses:
            q = self.pattern(c.q)
            k = self.continuation(c.k)
            if c.kann is not None:
                k = self.push('PatternAnnotated', k, self.type(c.kann))
            body = self.expression(c.body)
            rules += '(%s %s)' % (q, self.push('Resumption', k, body))
        last = self.push('PatternAny')
        cases = self.push('EffectCases', '-' if subject is None else self.quoted(subject), rules, last)
        if subject is None:
            return cases
        name = '-' if e.tname is None else self.quoted(e.tname)
        return self.push('EffectFunction', name, parameter, cases)

    # items
    def item(self, it):
        k = it.kind
        if k == 'expr':
            return 'expression ' + self.expression(it.e)
        if k == 'let':
            return 'let ' + ('t' if it.rec else 'f') + ''.join(self.binding(b) for b in it.binds)
        if k == 'open':
            return 'open ' + self.long(it.path[:-1], it.path[-1])
        if k == 'exception':
            return 'exception ' + self.quoted(it.name) + ('-' if it.arg is None else self.type(it.arg))
        if k == 'effect':
            out = 'effects ' + self.long(it.name.path, it.name.name)
            for d in it.defs:
                arg = '-' if d.arg is None else self.type(d.arg)
                out += '|' + self.quoted(d.name) + arg + ' ' + self.type(d.res)
            return out
        out = 'types'
        for d in it.defs:
            out += '(' + ''.join(self.quoted(p[0]) for p in d.params) + ' ' + self.quoted(d.name)
            if d.kind == 'record':
                for f in d.fields:
                    out += ';' + ('t' if f[2] else 'f') + self.quoted(f[0]) + self.type(f[3])
            else:
                for c in d.cons:
                    out += '|' + self.quoted(c[0]) + ('-' if c[2] is None else self.type(c[2]))
            out += ')'
        return out


Answer = collections.namedtuple('Answer', 'first lines depth own_depth')

# how an answer may differ
KINDS = ('printing', 'block', 'answer', 'place', 'depth', 'arena')


def answer_of(lexer, parser, reader, data):
    """What a parser answers to a text: a refusal, or `ok` with the depth, and the lines of a program."""
    try:
        tokens = lexer.lex(data)
        items = reader(tokens).program()
    except lexer.Fault as f:
        return Answer('syntax %d %d' % (f.line, f.col), [], None, None)
    a = Arena(data, tokens, lexer.BIG)
    lines = [a.item(i) for i in items]
    depth = max(a.depths, default=0)
    first = 'ok %d' % depth if depth <= 400 else 'limit depth %d 400' % depth
    return Answer(first, a.lines + lines, depth, parser.depth(items))


def digest_of(lines):
    digest = 14695981039346656037
    for byte in ''.join(line + '\n' for line in lines).encode('latin-1'):
        digest = ((digest ^ byte) * 1099511628211) & (2 ** 64 - 1)
    return digest


# tokens that a mutation may bring in
MORE = b"""( ) [ ] { } [| |] , ; ;; : :: . -> <- := = <> < + - * / ^ @ @@ |> && || ! | += _ x M 'a 1 "s" 'c'
4611686018427387904 and as begin do done downto effect else end exception for fun function if in let match mutable of
open rec then to try type when while with true mod lsl match_with try_with retc exnc effc None Some"""

# texts for the corners of the grammar
CORNERS = b"""let x = (let x = 1 in a; ; b)
let x = [match x with p -> a; ; b]
let x = if c then let x = 1 in a; else b
let x = a; let y = b
let f x y : int = x + y let rec g = fun x -> x and h y = g y
let x, y = 1, 2 and z :: w = [1; 2; 3] and A b as c = 1 and p | q = 2
let x = a.b.c.(1).[2].d <- !e.f; g.(1) <- 2; M.x.y <- - 4611686018427387904
type 'a t = A of int * int -> int | B and ('a, 'b) u = { mutable x : int; y : ('a, int) t list; } type v = C
type _ Effect.t += A : int t | B : (int -> int) -> unit Effect.t
exception E of int exception F open A.B.C 1 + 2
let x = for i = 1 to 10 do f i; done; while true do () done
let x = match a with exception E -> 1 | effect A x, k -> 2 | B when a; b -> c; d | (C | D) -> e
let x = match a with exception E -> 1
let x = try a with E -> 1 | effect (A x), _ -> b
let x = {a = 1; b = fun x -> x; c = function A -> 1 | B x -> 2; d = e}
let f {a = x; b = (y : int); _} [a; b] () = x, y, z := 1
let x = f (A b) C D (M.E e) M.f [||] [|1; 2|] begin a end !b
let x = - f x - 1 * - 2 lsl 3 lsl 4 :: a ^ b @ c || d && e = f |> g
1; 2
1 let x = 2 ;; let y = 3 in y
let x = 1 let y = 2 in y
let x = A.(0) and y = !A.x and z = !A.(0) and w = f !let x = 1 in x y
let x = if a then if b then c else d else e; if a then b; c
let x = match_with f x { retc = fun x -> x; effc = function A -> Some (fun k -> a; b) | _ -> None; exnc = raise } + 1
let x = match_with f x { retc = a; effc = fun e -> match e with _ -> None; exnc = raise } y
let () = try_with f () { effc = fun (e : 'a t) -> match e with (A x) -> Some (fun _ -> 1) | _ -> None }; 2
let () = continue_with k v { effc = fun (type a) (e : a t) -> match e with | A -> Some (fun (k : (a, b) c) -> 1) | _ -> None; retc = f g; exnc = h }
let x = match_with
let x : int = 1 let x : int -> 'a list = y let (x : int) = 3 let (x, y) = 4
let rec x = 1
let rec (x) = 1
;; ;; let x = 1 ;; ;; 2 ;; type t = A ;;
let x = fun (a, b) _ [] "s" 1 A (B c) -> d
let x = a.match_with
let x = (1 + let y = 2 in y; , b)
let x = (- let y = 2 in y; + b)
let x = (let y = 1 in a; + b)
let x = (let y = 1 in a; := b)
let x = (a :: let y = 1 in a; :: b)
let x = (a, let y = 1 in a; , b)
let x = (a := let y = 1 in a; := b)
let x = (! let y = 1 in a; .f)
let x = (f !let y = 1 in a; b)
let x = (if c then let y = 1 in a; , b)
let x = (if c then let y = 1 in a; ; b)
let x = (a : int) (b; c : int list -> 'a * 'b) begin a; b; end"""



def rows_of(folder):
    """The programs among the texts of the worked rows."""
    with open(os.path.join(folder, 'rows', 'rows.json')) as f:
        todo = [json.load(f)]
    found = set()
    while todo:
        x = todo.pop()
        if isinstance(x, str):
            text = x.encode()
            if 8 < len(text) < 20000 and (b'let' in text or b'match' in text):
                found.add(text)
        else:
            todo.extend(x.values() if isinstance(x, dict) else x if isinstance(x, list) else [])
    return sorted(found)


def blocks_of(refused):
    """The programs of docs/LANGUAGE.md, or the texts there that are none."""
    with open(os.path.join(ROOT, 'docs', 'LANGUAGE.md'), 'rb') as f:
        text = f.read()
    return re.findall(rb'```ocaml' + (rb' refused' if refused else rb'') + rb'\n(.*?)```', text, re.S)


def deep_texts():
    """Brackets and handlers at the limit of the depth, and above it."""
    for n in (397, 398, 399, 400):
        yield b'let () = f ' + b'(' * n + b'1' + b')' * n
        yield b'let f = ' + b'fun x -> ' * n + b'x'
        yield b'type t = A of ' + b'(' * n + b'int' + b')' * n
    for n in (43, 44, 45, 131, 132, 133, 134):
        yield b'let x = ' + b'try_with f () { effc = function A -> Some (fun k -> ' * n + b'1' + b') | _ -> None }' * n


def examples():
    for path in sorted(glob.glob(os.path.join(ROOT, 'examples', '*.ml'))):
        with open(path, 'rb') as f:
            yield f.read()


def words_of(lexer, text):
    """The texts of the tokens of a text, or none where it has no tokens."""
    try:
        tokens = lexer.lex(text)[:-1]
    except lexer.Fault:
        return []
    return [text[t.frm:t.to] for t in tokens]


def mutated(rng, words, pool):
    """One or two mutations."""
    words = list(words)
    for _ in range(rng.choice([1, 1, 1, 2])):
        if not words:
            break
        i = rng.randrange(len(words))
        way = rng.randrange(4)
        if way == 0:
            del words[i]
        elif way == 1:
            words.insert(i, words[i])
        elif way == 2:
            j = min(len(words) - 1, i + rng.choice([1, 1, 2, 3]))
            words[i], words[j] = words[j], words[i]
        else:
            words[i] = rng.choice(pool)
    return b' '.join(words)



def cases_of(folder, lexer, seed, count):
    """Texts with their sorts."""
    sorts = [('row', rows_of(folder)), ('example', list(examples())), ('block', blocks_of(False)),
             ('refused block', blocks_of(True)), ('corner', CORNERS.split(b'\n')), ('deep text', list(deep_texts()))]
    cases = [(sort, text) for sort, texts in sorts for text in texts]
    rng = random.Random(seed)
    bases = [w for w in (words_of(lexer, t) for _, t in cases) if 0 < len(w) < 400]
    more = MORE.split()
    for _ in range(count):
        words = rng.choice(bases)
        cases.append(('mutation', mutated(rng, words, words + more if rng.random() < 0.5 else more)))
    return cases


def difference(sort, ours, theirs):
    """How an answer differs, or nothing."""
    words = ours.split()
    if words[0] == 'ok' and words[2] != 'same':
        return 'printing'
    if sort == 'block' and words[0] != 'ok' or sort == 'refused block' and words[0] != 'syntax':
        return 'block'
    theirs_words = theirs.first.split()
    if words[0] != theirs_words[0]:
        return 'answer'
    if words[0] == 'syntax' and words != theirs_words:
        return 'place'
    if words[0] == 'ok' and words[1] != theirs_words[1] or words[0] == 'limit' and words != theirs_words:
        return 'depth'
    if words[0] == 'ok' and int(words[3]) != digest_of(theirs.lines):
        return 'arena'
    return None


def shown(text):
    text = text.decode('latin-1')
    return text if len(text) <= 300 else text[:300] + ' ..'


def show_differences(program, found):
    """The first texts of each kind that differ, with the lines in which they do."""
    few = [f for kind in KINDS for f in [g for g in found if g[0] == kind][:5]]
    if not few:
        return
    for (kind, text, theirs), ours in zip(few, program.answers([text for _, text, _ in few], ['lines'])):
        pairs = [(a, b) for a, b in zip(ours[1:], theirs.lines) if a != b] if kind == 'arena' else []
        here, there = pairs[0] if pairs else (ours[0], theirs.first)
        print('differs in %s: %s\n  here  %s\n  there %s' % (kind, shown(text), here, there))


def show_known(point, found):
    print('known, %s: %d texts' % (point, len(found)))
    for text, there, here in sorted(found, key=lambda f: len(f[0]))[:3]:
        print('  %s\n    there %s, by the rule here %s' % (shown(text), there, here))


def compare(folder, seed, count):
    sys.dont_write_bytecode = True
    sys.path.insert(0, folder)
    import lexer
    import parser
    cases = cases_of(folder, lexer, seed, count)
    strict = strict_of(parser)
    equal, handlers, operators, found = collections.Counter(), [], [], []
    with Program(ANSWERS) as program:
        for (sort, text), ours in zip(cases, program.answers([text for _, text in cases])):
            theirs = answer_of(lexer, parser, strict, text)
            free = answer_of(lexer, parser, parser.Parser, text)
            if theirs.own_depth not in (None, theirs.depth):
                handlers.append((text, 'depth %d' % theirs.own_depth, 'depth %d' % theirs.depth))
            if (free.first, free.lines) != (theirs.first, theirs.lines):
                operators.append((text, free.first, theirs.first))
            kind = difference(sort, ours[0], theirs)
            if kind is None:
                equal[ours[0].split()[0]] += 1
            else:
                found.append((kind, text, theirs))
        show_differences(program, found)
    show_known('a handler counts otherwise in its depth', handlers)
    show_known('an operator behind a form of level 17 and its own semicolon', operators)
    print('texts: ' + ', '.join('%d of sort %s' % (n, sort) for sort, n in collections.Counter(c[0] for c in cases).items()))
    kinds = collections.Counter(f[0] for f in found)
    print('against_parser: %d texts, %d equal (%s), %d different (%s)' % (
        len(cases), sum(equal.values()), ', '.join('%d %s' % (n, word) for word, n in equal.items()), len(found),
        ', '.join('%d in %s' % (kinds[kind], kind) for kind in KINDS)), flush=True)
    return 1 if found else 0


def main():
    words = command_words.Parser(__doc__)
    words.add_argument('folder')
    words.add_argument('--count', type=int, default=10000)
    words.add_argument('--seed', type=int, default=1)
    given = words.parse_args()
    status = []
    thread = threading.Thread(target=lambda: status.append(compare(given.folder, given.seed, given.count)))
    thread.start()
    thread.join()
    if not status:
        print('against_parser: no comparison was made', file=sys.stderr)
        return 2
    return status[0]


if __name__ == '__main__':
    sys.exit(main())
