#!/usr/bin/env python3
"""Compares the definition of what programs mean in Core (surface_meaning) with a reference implementation of scopes and sugar.

    against_meaning.py ORACLE WORKSPACE PROGRAMS [SEED] [COUNT]

ORACLE is the folder of the reference implementation (lexer.py, parser.py, scope.py). WORKSPACE is a folder with the crates
fx_base, ml_lexer, ml_syntax, effect_meaning and surface_meaning, which gets a further file of lemmas, so it must not be the
repository itself. PROGRAMS are folders of programs, worked rows (rows.json), documents with `ocaml` blocks and sources of tests,
with commas between them. COUNT mutations of these, in which names are exchanged, doubled and made unknown, and COUNT random
patterns are compared too.

Each program becomes a lemma: that `core_of` gives the Core of the reference, with all numbers, rows and places, or the place of
its first breach. The checker computes them. The status is that of the check.
"""
import json
import os
import random
import re
import subprocess
import sys
import threading

import command_words

sys.setrecursionlimit(10 ** 6)
threading.stack_size(256 * 1024 * 1024)
command_words.begin(__doc__, 'ORACLE', 'WORKSPACE', 'PROGRAMS')
ORACLE, WORKSPACE, PROGRAMS = sys.argv[1:4]
SEED = int(sys.argv[4]) if len(sys.argv) > 4 else 1
COUNT = int(sys.argv[5]) if len(sys.argv) > 5 else 200
sys.path.insert(0, ORACLE)
import lexer
import parser
import scope

HEAD = '''-- Made from programs.
use Rattle.std.proofs.Common.{◌≡◌, refl, ℕ, pos, negsuc, true, false, List, [], ◌∷◌, ◌++◌, Option, Some, None, codes}
use Rattle.std.specs.Prelude.{Result, Ok, Err}
use Rattle.fx_base.specs.declared.refusal.Place.{Place}
use Rattle.ml_syntax.specs.declared.node.Name.{Name}
use Rattle.ml_syntax.specs.declared.node.LongName.{LongName}
use Rattle.ml_syntax.specs.declared.node.BinaryOperator.TheVariants as operator
use Rattle.ml_syntax.specs.declared.node.LiteralKind.TheVariants as kinds
use Rattle.ml_syntax.specs.declared.node.Clause.TheVariants as clauses
use Rattle.ml_syntax.specs.declared.node.Binding.TheVariants as bindings
use Rattle.ml_syntax.specs.declared.node.Node.{Node}
use Rattle.ml_syntax.specs.declared.node.Node.TheVariants as node
use Rattle.ml_syntax.specs.declared.prog.TypeBody.TheVariants as body
use Rattle.ml_syntax.specs.declared.prog.Item.TheVariants as item
use Rattle.ml_syntax.specs.declared.prog.Prog.{Prog}
use Rattle.effect_meaning.specs.Terms.{Place as PlaceInCore, Written, Variable, Any, Applied, Writtens, Constant, Integer, Character, Boolean, UnitConst, Literal, Constructor, Variant, Exception, Effect, Pattern, AnyPat, NamePat, ConstPat, TuplePat, ConPat, ConOfPat, RecordPat, OrPat, AliasPat, AnnotPat, Patterns, Order, Equals, Differs, Below, Above, AtMost, AtLeast, Compared, Operation, Add, Sub, Mul, Div, Mod, LAnd, LOr, LXor, Lsl, Lsr, Asr, Min, Max, Negate, Abs, Succ, Pred, Not, Fst, Snd, Ignore, Compare, Same, Other, RefMake, RefGet, RefSet, RefIncr, RefDecr, Raise, Failwith, InvalidArg, Exit, PrintInt, PrintChar, PrintString, PrintEndline, PrintNewline, StringOfInt, Concat, StringLength, StringGet, StringSub, CharCode, CharChr, ArrayMake, ArrayLength, ArrayGet, ArraySet, CIter, CFold, CTry, Perform, Continue, Discontinue, Fiber, Spawn, Join, Relax, AtomicMake, AtomicGet, AtomicSet, AtomicExchange, AtomicCas, AtomicAdd, AtomicIncr, AtomicDecr, QueuePush, QueueTake, QueueSelf, QueueSlots, Kind, Deep, ShallowContinue, ShallowDiscontinue, HandlerTypes, Term, Var, Const, Fun, App, Let, LetRec, Seq, If, Match, Tuple, Con, ConOf, Record, Array, Field, SetField, Prim, Catch, Handle, Annot, Terms, NoFunctions, AndFunction, NoClauses, AndClause, NoGuard, When, NoEffects, AndEffect, Item, Define, Destructure, DefineRec, Evaluate, TypeRow, VariantRow, FieldRow, ExceptionRow, EffectRow, Program}
use Rattle.effect_meaning.specs.Builtins.{builtin_types, builtin_variants, builtin_exceptions}
use Rattle.surface_meaning.specs.Meanings.{writtens_of as ws, patterns_of as qs, terms_of as ts}
use Rattle.surface_meaning.specs.CoreOf.{core_of}

abbrev at : ℕ → ℕ → Place
at l c = record { line = l; column = c }

abbrev here : ℕ → ℕ → PlaceInCore
here l c = record { line = l; column = c }

abbrev nm : ℕ → ℕ → List ℕ → Name
nm l c t = record { place = at l c; text = t }

abbrev lg : ℕ → ℕ → List (List ℕ) → List ℕ → LongName
lg l c path t = record { place = at l c; path = path; last = nm l c t }

'''


def q(s):
    return '(codes "' + s.replace('\\', '\\\\').replace('"', '\\"') + '")'
def raw(b):
    return lst([str(x) for x in b])
def lst(xs):
    return '(' + ''.join(x + ' ∷ ' for x in xs) + '[])'
def place(p):
    return '(at %d %d)' % p
def name(t, p):
    return '(nm %d %d %s)' % (p[0], p[1], q(t))
def long(path, t, p):
    return '(lg %d %d %s %s)' % (p[0], p[1], lst([q(x) for x in path]), q(t))
def nums(ns):
    return lst([str(n) for n in ns])
def opt(x):
    return 'None' if x is None else '(Some %s)' % x

OPS = {'lsl':'ShiftLeft','lsr':'ShiftRightLogical','asr':'ShiftRightArithmetic','*':'Multiply','/':'Divide','mod':'Modulo','land':'LogicalAnd','lor':'LogicalOr','lxor':'LogicalXor','+':'Add','-':'Subtract','::':'Cons','^':'Concatenate','@':'Append','@@':'ApplyTo','=':'Equal','<>':'Different','==':'Same','!=':'NotSame','<':'Below','>':'Above','<=':'AtMost','>=':'AtLeast','|>':'Pipe','&&':'And','||':'Or',':=':'Assign'}

class Arena:
    """the nodes of a program, and where binders and new names belong"""
    def __init__(self, data, tokens, base, literals):
        self.data, self.tokens = data, tokens
        self.at = {}
        for i, t in enumerate(tokens):
            self.at.setdefault((t.line, t.col), i)
        self.base, self.literals = base, literals
        self.nodes = []
        self.bound = {}       # place of a binder's name -> number of the name
        self.owner = {}       # (what, place) -> number of a node
        self.lit = {}         # place -> literal number
        self.tvars = {}
    def n(self):
        return self.base + len(self.nodes)
    def push(self, *words):
        self.nodes.append('(node.' + ' '.join(words) + ')')
        return len(self.nodes) - 1
    def own(self, what, p, local):
        self.owner[(what, p)] = self.base + local
    def spelled(self, p):
        t = self.tokens[self.at[p]]
        return self.data[t.frm:t.to]
    def literal(self, n):
        kind = {'int':'Integer','char':'Character','string':'Text'}.get(n.ctype) or ('True' if n.value else 'False')
        if kind == 'Text':
            self.lit[n.place] = len(self.literals)
            self.literals.append(bytes(n.value))
        return '(record { kind = kinds.%s; text = %s })' % (kind, raw(self.spelled(n.place)))
    # types
    def type(self, t):
        k = t.kind
        if k == 'TVar':
            self.tvars.setdefault(t.name, self.n())
            return self.push('TypeVariable', place(t.place), q(t.name))
        if k == 'TAny': return self.push('TypeAny', place(t.place))
        if k == 'TParen':
            a = self.type(t.t); return self.push('TypeBracket', place(t.place), str(a))
        if k == 'TTuple':
            ps = [self.type(p) for p in t.parts]; return self.push('TypeTuple', place(t.place), nums(ps))
        if k == 'TArrow':
            a = self.type(t.a); b = self.type(t.b)
            return self.push('TypeArrow', place(t.place), str(a), str(b))
        if not t.args: return self.push('TypeName', long(t.con.path, t.con.name, t.con.place))
        ps = [self.type(a) for a in t.args]
        return self.push('TypeApply', nums(ps), long(t.con.path, t.con.name, t.con.place))
    # patterns
    def fields(self, fs):
        return lst(['(record { name = %s; part = %d })' % (name(f, p), i) for f, p, i in fs])
    def pattern(self, p):
        k, pl = p.kind, place(p.place)
        if k == 'PVar':
            i = self.push('PatternName', pl, q(p.name)); self.bound[p.place] = 6*(self.base+i); return i
        if k == 'PAny': return self.push('PatternAny', pl)
        if k == 'PUnit': return self.push('PatternUnit', pl)
        if k == 'PConst': return self.push('PatternConstant', pl, self.literal(p))
        if k == 'PParen':
            a = self.pattern(p.p); return self.push('PatternBracket', pl, str(a))
        if k == 'PTyped':
            a = self.pattern(p.p); t = self.type(p.t); return self.push('PatternAnnotated', pl, str(a), str(t))
        if k == 'PList':
            ps = [self.pattern(x) for x in p.parts]; return self.push('PatternList', pl, nums(ps))
        if k == 'PTuple':
            ps = [self.pattern(x) for x in p.parts]; return self.push('PatternTuple', pl, nums(ps))
        if k == 'PRecord':
            fs = [(f[0], f[1], self.pattern(f[2])) for f in p.fields]
            return self.push('PatternRecord', pl, self.fields(fs), 'false')
        if k == 'PCons':
            a = self.pattern(p.a); b = self.pattern(p.b); return self.push('PatternCons', pl, str(a), str(b))
        if k == 'POr':
            a = self.pattern(p.a); b = self.pattern(p.b); return self.push('PatternOr', pl, str(a), str(b))
        if k == 'PAs':
            a = self.pattern(p.p)
            i = self.push('PatternAlias', pl, str(a), name(p.name, p.name_place)); self.bound[p.name_place] = 6*(self.base+i); return i
        l = long(p.con.path, p.con.name, p.con.place)
        if p.arg is None: return self.push('PatternConstructor', l)
        a = self.pattern(p.arg); return self.push('PatternConstruct', l, str(a))
    # expressions
    def all(self, es):
        return nums([self.e(x) for x in es])
    def e(self, e):
        return getattr(self, 'on_' + e.kind)(e, place(e.place))
    def on_Const(self, e, pl):
        if e.ctype == 'int' and e.value == lexer.BIG:
            return self.push('LeastInteger', pl, raw(self.spelled(e.place)))
        return self.push('Constant', pl, self.literal(e))
    def on_Id(self, e, pl):
        i = self.push('Variable', long(e.path, e.name, e.place)); self.own('a', e.place, i); return i
    def on_Con(self, e, pl): return self.push('Constructor', long(e.path, e.name, e.place))
    def on_Unit(self, e, pl): return self.push('Unit', pl)
    def on_Paren(self, e, pl):
        a = self.e(e.e); return self.push('BeginEnd' if self.tokens[self.at[e.place]].text == 'begin' else 'Bracket', pl, str(a))
    def on_Typed(self, e, pl):
        a = self.e(e.e); t = self.type(e.t); return self.push('Annotated', pl, str(a), str(t))
    def on_List(self, e, pl): ps = self.all(e.parts); return self.push('List', pl, ps)
    def on_Array(self, e, pl): ps = self.all(e.parts); return self.push('Array', pl, ps)
    def on_Tuple(self, e, pl): ps = self.all(e.parts); return self.push('Tuple', pl, ps)
    def on_Seq(self, e, pl): ps = self.all(e.parts); return self.push('Sequence', pl, ps)
    def on_Record(self, e, pl):
        fs = [(f[0], f[1], self.e(f[2])) for f in e.fields]; return self.push('Record', pl, self.fields(fs))
    def on_While(self, e, pl):
        a = self.e(e.c); b = self.e(e.body); i = self.push('While', pl, str(a), str(b)); self.own('while', e.place, i); return i
    def on_For(self, e, pl):
        a = self.e(e.a); b = self.e(e.b); c = self.e(e.body)
        i = self.push('For', pl, name(e.name, e.place), str(a), 'true' if e.down else 'false', str(b), str(c)); self.own('for', e.place, i)
        self.bound[e.place] = 6*(self.base+i)
        return i
    def on_Bang(self, e, pl): a = self.e(e.e); return self.push('Dereference', pl, str(a))
    def on_Neg(self, e, pl): a = self.e(e.e); return self.push('Negate', pl, str(a))
    def on_Field(self, e, pl): a = self.e(e.e); return self.push('Field', str(a), name(e.name, e.name_place))
    def on_Index(self, e, pl): a = self.e(e.e); b = self.e(e.i); return self.push('ArrayElement', pl, str(a), str(b))
    def on_SIndex(self, e, pl): a = self.e(e.e); b = self.e(e.i); return self.push('StringElement', pl, str(a), str(b))
    def on_App(self, e, pl): f = self.e(e.f); ps = self.all(e.args); return self.push('Apply', str(f), ps)
    def on_ConApp(self, e, pl): a = self.e(e.arg); return self.push('Construct', long(e.con.path, e.con.name, e.con.place), str(a))
    def on_Bin(self, e, pl):
        a = self.e(e.a); b = self.e(e.b); return self.push('Binary', place(e.op_place), 'operator.' + OPS[e.op], str(a), str(b))
    def on_SetField(self, e, pl):
        a = self.e(e.e); b = self.e(e.v); return self.push('SetField', pl, str(a), name(e.name, e.name_place), str(b))
    def on_SetIndex(self, e, pl):
        a = self.e(e.e); b = self.e(e.i); c = self.e(e.v); return self.push('SetElement', pl, str(a), str(b), str(c))
    def on_If(self, e, pl):
        c = self.e(e.c); a = self.e(e.a); b = None if e.b is None else self.e(e.b)
        return self.push('If', pl, str(c), str(a), opt(b))
    def parameter(self, p):
        i = self.pattern(p)
        while p.kind == 'PParen': p = p.p
        self.own('p', p.place, i)
        return i
    def binding(self, b):
        if b.kind == 'pbind':
            p = self.pattern(b.pat); a = self.e(b.body)
            return '(bindings.Pattern %d %d)' % (p, a)
        ps = [self.parameter(p) for p in b.params]
        t = None if b.ann is None else self.type(b.ann)
        a = self.e(b.body)
        self.bound[b.place] = 6*(self.base+a) + 1
        return '(bindings.Named %s %s %s %d)' % (name(b.name, b.place), nums(ps), opt(t), a)
    def on_Let(self, e, pl):
        bs = lst([self.binding(b) for b in e.binds]); a = self.e(e.body)
        return self.push('Let', pl, 'true' if e.rec else 'false', bs, str(a))
    def continuation(self, k):
        if k[0] is None:
            i = self.push('PatternAny', place(k[1])); self.bound[k[1]] = 6*(self.base+i) + 2; return i
        i = self.push('PatternName', place(k[1]), q(k[0])); self.bound[k[1]] = 6*(self.base+i); return i
    def clause(self, c):
        if c.kind == 'eclause':
            a = self.pattern(c.q); k = self.continuation(c.k); b = self.e(c.body)
            return '(clauses.Effect %s %d %d %d)' % (place(c.place), a, k, b)
        p = self.pattern(c.p); g = None if c.guard is None else self.e(c.guard); b = self.e(c.body)
        if c.kind == 'clause': return '(clauses.Value %d %s %d)' % (p, opt(g), b)
        return '(clauses.Exception %s %d %s %d)' % (place(c.place), p, opt(g), b)
    def clauses(self, cs): return lst([self.clause(c) for c in cs])
    def on_Match(self, e, pl):
        s = self.e(e.e); cs = self.clauses(e.clauses); i = self.push('Match', pl, str(s), cs); self.own('match', e.place, i); return i
    def on_Try(self, e, pl):
        s = self.e(e.e); cs = self.clauses(e.clauses); i = self.push('Try', pl, str(s), cs); self.own('match', e.place, i); return i
    def on_Function(self, e, pl):
        cs = self.clauses(e.clauses); i = self.push('Function', pl, cs); self.own('function', e.place, i); return i
    def on_Fun(self, e, pl):
        ps = [self.parameter(p) for p in e.params]; a = self.e(e.body); return self.push('Fun', pl, nums(ps), str(a))
    def on_HandlerCall(self, e, pl):
        a = self.e(e.args[0]); b = self.e(e.args[1]); h = self.handler(e.lit, e.place)
        return self.push('Handle', long(e.path, e.name, e.place), str(a), str(b), str(h))
    def handler(self, h, hp):
        fields = [(n, v) for n, v in (('retc', h.retc), ('exnc', h.exnc), ('effc', h.effc)) if v is not None]
        fields.sort(key=lambda f: f[1].place)
        done = [(n, (1, 1), self.effc(v, hp) if n == 'effc' else self.e(v)) for n, v in fields]
        i = self.push('Handler', place(h.place), self.fields(done)); self.own('handler', h.place, i)
        return i
    def effc(self, e, hp):
        i = self.at[e.place]
        subject = None
        if self.tokens[i].text == 'fun':
            i += 1
            if self.tokens[i].text == '(' and self.tokens[i + 1].text == 'type': i += 4
            if self.tokens[i].text == '(': i += 1
            subject = self.tokens[i].text
            parameter = self.push('PatternName', place((1, 1)), q(subject))
            if e.ann is not None:
                t = self.type(e.ann)
                parameter = self.push('PatternAnnotated', place((1, 1)), str(parameter), str(t))
        rules = []
        for c in e.clauses:
            a = self.pattern(c.q)
            k = self.continuation(c.k)
            if c.kann is not None:
                t = self.type(c.kann)
                k = self.push('PatternAnnotated', place((1, 1)), str(k), str(t))
            b = self.e(c.body)
            r = self.push('Resumption', place((1, 1)), str(k), str(b))
            rules.append('(record { pattern = %d; answer = %d })' % (a, r))
        last = self.push('PatternAny', place((1, 1)))
        cases = self.push('EffectCases', place((1, 1)), 'None' if subject is None else '(Some %s)' % name(subject, (1, 1)), lst(rules), str(last))
        if subject is None: return cases
        i = self.push('EffectFunction', place((1, 1)), 'None' if e.tname is None else '(Some %s)' % name(e.tname, (1, 1)), str(parameter), str(cases))
        self.own('effc', hp, i)
        return i
    def item(self, it):
        k, pl = it.kind, place(it.place)
        if k == 'expr':
            a = self.e(it.e); return '(item.Expression %s %d)' % (pl, a)
        if k == 'let':
            bs = lst([self.binding(b) for b in it.binds]); return '(item.Let %s %s %s)' % (pl, 'true' if it.rec else 'false', bs)
        if k == 'open': return '(item.Open %s %s)' % (pl, long(it.path[:-1], it.path[-1], it.path_place))
        def con(nm, p, arg):
            a = None if arg is None else self.type(arg)
            return '(record { name = %s; argument = %s })' % (name(nm, p), opt(a))
        if k == 'exception': return '(item.Exception %s %s)' % (pl, con(it.name, it.name_place, it.arg))
        if k == 'effect':
            ds = []
            for d in it.defs:
                a = None if d.arg is None else self.type(d.arg); r = self.type(d.res)
                ds.append('(record { name = %s; argument = %s; result = %d })' % (name(d.name, d.place), opt(a), r))
            return '(item.Effects %s %s %s)' % (pl, long(it.name.path, it.name.name, it.name.place), lst(ds))
        ds = []
        for d in it.defs:
            if d.kind == 'record':
                fs = []
                for f in d.fields:
                    t = self.type(f[3]); fs.append('(record { is_mutable = %s; name = %s; annotation = %d })' % ('true' if f[2] else 'false', name(f[0], f[1]), t))
                b = '(body.Record %s)' % lst(fs)
            else:
                b = '(body.Variant %s)' % lst([con(c[0], c[1], c[2]) for c in d.cons])
            ds.append('(record { parameters = %s; name = %s; body = %s })' % (lst([name(p[0], p[1]) for p in d.params]), name(d.name, d.place), b))
        return '(item.Types %s %s)' % (pl, lst(ds))

PRIMS = {'+':'Add','-':'Sub','*':'Mul','/':'Div','mod':'Mod','land':'LAnd','lor':'LOr','lxor':'LXor','lsl':'Lsl','lsr':'Lsr','asr':'Asr','min':'Min','max':'Max','neg':'Negate','abs':'Abs','succ':'Succ','pred':'Pred','not':'Not','fst':'Fst','snd':'Snd','ignore':'Ignore','=':'(Compare Equals)','<>':'(Compare Differs)','<':'(Compare Below)','>':'(Compare Above)','<=':'(Compare AtMost)','>=':'(Compare AtLeast)','compare':'(Compare Compared)','==':'Same','!=':'Other','ref':'RefMake','!':'RefGet',':=':'RefSet','incr':'RefIncr','decr':'RefDecr','raise':'Raise','failwith':'Failwith','invalid_arg':'InvalidArg','exit':'Exit','print_int':'PrintInt','print_char':'PrintChar','print_string':'PrintString','print_endline':'PrintEndline','print_newline':'PrintNewline','string_of_int':'StringOfInt','^':'Concat','String.length':'StringLength','String.get':'StringGet','String.sub':'StringSub','Char.code':'CharCode','Char.chr':'CharChr','Array.make':'ArrayMake','Array.length':'ArrayLength','Array.get':'ArrayGet','Array.set':'ArraySet','c_iter':'CIter','c_fold':'CFold','c_try':'CTry','Effect.perform':'Perform','Effect.Deep.continue':'Continue','Effect.Deep.discontinue':'Discontinue','Effect.Shallow.fiber':'Fiber','Domain.spawn':'Spawn','Domain.join':'Join','Domain.cpu_relax':'Relax','Atomic.make':'AtomicMake','Atomic.get':'AtomicGet','Atomic.set':'AtomicSet','Atomic.exchange':'AtomicExchange','Atomic.compare_and_set':'AtomicCas','Atomic.fetch_and_add':'AtomicAdd','Atomic.incr':'AtomicIncr','Atomic.decr':'AtomicDecr','Fiberq.push':'QueuePush','Fiberq.take_from':'QueueTake','Fiberq.self':'QueueSelf','Fiberq.slots':'QueueSlots'}

class Core:
    def __init__(self, program, prelude, prog, npre):
        self.types = {}
        for d, n in zip([scope.INT, scope.BOOL, scope.CHAR, scope.STRING, scope.UNIT, scope.EXN, scope.LIST, scope.OPTION, scope.REF, scope.ARRAY, scope.EFFECT, scope.DEEPK, scope.SHALLOWK, scope.DOMAIN, scope.ATOMIC], range(15)):
            self.types[id(d)] = n
        self.cons, self.fields, self.names = {}, {}, {}
        for c, n in [(scope.NONE, 0), (scope.SOME, 1), (scope.NIL, 2), (scope.CONS, 3)]: self.cons[id(c)] = '(Variant %d)' % n
        for i, n in enumerate(['Not_found','Failure','Invalid_argument','Division_by_zero','Match_failure','Exit','Effect.Unhandled','Effect.Continuation_already_resumed','Queue.Empty','Fiberq.Full']):
            self.cons[id(scope.EXCEPTIONS[n])] = '(Exception %d)' % i
        self.counts = [17, 4, 0, 10, 0]
        self.rows = [[], [], [], [], []]
        self.extended, self.decls, self.items = [], 0, []
        self.keys = {}
        for k, it in enumerate(program.items):
            self.a = prelude if k < npre else prog
            self.item(it)
    def next(self, i):
        self.counts[i] += 1
        return self.counts[i] - 1
    def type(self, t, ps=None):
        k = t[0]
        if k == 'var': return '(Variable %d)' % (ps.index(t[1]) if ps is not None else self.a.tvars[t[1]])
        if k == 'any': return 'Any'
        def app(n, ts): return '(Applied %d (ws %s))' % (n, lst([self.type(x, ps) for x in ts]))
        if k == 'arrow': return app(15, [t[1], t[2]])
        if k == 'tuple': return app(16, t[1])
        if k == 'con': return app(self.types[id(t[1])], t[2])
        if k == 'local': return '(Variable %d)' % self.keys[id(t[1])]
        raise Exception(k)
    def arg(self, t, ps=None): return 'None' if t is None else '(Some %s)' % self.type(t, ps)
    # names
    def bind(self, b, slot=None):
        if id(b) not in self.names:
            n = b.name
            A = self.a
            if slot is not None: v = slot
            elif n.startswith('*'):
                p = b.place
                if n[1] == 'a': v = 6*A.owner[('a', p)] + 2 + int(n[2:])
                elif n == '*w' and ('for', p) in A.owner: v = 6*A.owner[('for', p)] + 4
                elif n == '*w': v = 6*A.owner[('while', p)] + 2
                elif n == '*lo': v = 6*A.owner[('for', p)] + 2
                elif n == '*hi': v = 6*A.owner[('for', p)] + 3
                elif n == '*p' and ('while', p) in A.owner and ('p', p) not in A.owner: v = 6*A.owner[('while', p)] + 3
                elif n == '*p': v = 6*A.owner[('p', p)] + 2
                elif n == '*x': v = 6*A.owner[('function', p)] + 2
                elif n == '*v' and ('handler', p) in A.owner: v = 6*A.owner[('handler', p)] + 2
                elif n == '*v': v = 6*A.owner[('match', p)] + 3
                elif n == '*e': v = 6*A.owner[('handler', p)] + 3
                else: raise Exception(n)
            else: v = A.bound[b.place]
            self.names[id(b)] = v
        return self.names[id(b)]
    def constant(self, ct, v, pl):
        if ct == 'int': return '(Integer (pos %d))' % v if v >= 0 else '(Integer (negsuc %d))' % (-v - 1)
        if ct == 'bool': return '(Boolean %s)' % ('true' if v else 'false')
        if ct == 'char': return '(Character %d)' % (v if isinstance(v, int) else v[0])
        if ct == 'string': return '(Literal %d)' % self.a.lit[pl]
        return 'UnitConst'
    def pattern(self, p):
        k = p.kind
        if k == 'PVar': return '(NamePat %d)' % self.bind(p.x)
        if k == 'PAny': return 'AnyPat'
        if k == 'PConst': return '(ConstPat %s)' % self.constant(p.ctype, p.value, p.place)
        if k == 'PTuple': return '(TuplePat (qs %s))' % lst([self.pattern(x) for x in p.parts])
        if k == 'PCon':
            c = self.cons[id(p.con)]
            return '(ConPat %s)' % c if p.arg is None else '(ConOfPat %s %s)' % (c, self.pattern(p.arg))
        if k == 'PRecord': return '(RecordPat %s (qs %s))' % (nums([self.fields[id(f)] for f, _ in p.fields]), lst([self.pattern(x) for _, x in p.fields]))
        if k == 'POr':
            a = self.pattern(p.a); return '(OrPat %s %s)' % (a, self.pattern(p.b))
        if k == 'PAs':
            a = self.pattern(p.p); return '(AliasPat %s %d)' % (a, self.bind(p.x))
        return '(AnnotPat %s %s)' % (self.pattern(p.p), self.type(p.t))
    def clauses(self, cs, last=None):
        out = 'NoClauses'
        made = []
        for c in cs:
            p = self.pattern(c.p)
            g = 'NoGuard' if c.guard is None else '(When %s)' % self.term(c.guard)
            made.append((p, g, self.term(c.body)))
        for p, g, b in reversed(made): out = '(AndClause %s %s %s %s)' % (p, g, b, out)
        return out
    def functions(self, funs):
        for x, _ in funs: self.bind(x)
        out = 'NoFunctions'
        for x, f in reversed(funs):
            t = 'None'
            if f.kind == 'Annot': t, f = '(Some %s)' % self.type(f.t), f.a
            y = self.bind(f.x)
            out = '(AndFunction %d %s %d %s %s)' % (self.bind(x), t, y, self.term(f.body), out)
        return out
    def terms(self, es): return '(ts %s)' % lst([self.term(x) for x in es])
    def term(self, e):
        k = e.kind
        P = '(here %d %d)' % e.place if e.place else ''
        if k == 'Var': return '(Var %d)' % self.bind(e.b)
        if k == 'Const': return '(Const %s)' % self.constant(e.ctype, e.value, e.place)
        if k == 'Fun':
            x = self.bind(e.x); return '(Fun %d %s)' % (x, self.term(e.body))
        if k == 'App': return '(App %s %s)' % (self.term(e.f), self.term(e.a))
        if k == 'Let':
            x = self.bind(e.x); return '(Let %d %s %s)' % (x, self.term(e.a), self.term(e.b))
        if k == 'LetRec':
            f = self.functions(e.funs); return '(LetRec %s %s)' % (f, self.term(e.b))
        if k == 'Seq':
            ps = [self.term(x) for x in e.parts]; out = ps[-1]
            for x in reversed(ps[:-1]): out = '(Seq %s %s)' % (x, out)
            return out
        if k == 'If': return '(If %s %s %s)' % (self.term(e.c), self.term(e.a), self.term(e.b))
        if k == 'Match': return '(Match %s %s %s)' % (P, self.term(e.a), self.clauses(e.clauses))
        if k in ('Tuple', 'Array'): return '(%s %s)' % (k, self.terms(e.parts))
        if k == 'Con':
            c = self.cons[id(e.con)]
            return '(Con %s)' % c if e.arg is None else '(ConOf %s %s)' % (c, self.term(e.arg))
        if k == 'Record': return '(Record %s %s)' % (nums([self.fields[id(f)] for f, _, _ in e.fields]), self.terms([x for _, x, _ in e.fields]))
        if k == 'Field': return '(Field %d %s)' % (self.fields[id(e.field)], self.term(e.e))
        if k == 'SetField': return '(SetField %d %s %s)' % (self.fields[id(e.field)], self.term(e.e), self.term(e.v))
        if k == 'Prim': return '(Prim %s %s)' % (PRIMS[e.op], self.terms(e.parts))
        if k == 'Catch': return '(Catch %s %s %s %s)' % (P, self.term(e.body), self.clauses(e.values), self.clauses(e.exceptions))
        if k == 'Handle':
            kind = {'match':'Deep','match_with':'Deep','try_with':'Deep','continue_with':'ShallowContinue','discontinue_with':'ShallowDiscontinue'}[e.op]
            var, eff = 'None', 'None'
            if e.op == 'match':
                i = self.a.owner[('match', e.place)]
                for j in range(4):
                    if j != 1: self.bind(e.parts[j].x, 6*i + 2 + {0: 0, 2: 1, 3: 2}[j])
                self.bind(e.parts[3].body.clauses[-1].p.x, 6*i + 5)
            else:
                h = e.tkey
                if ('effc', e.place) in self.a.owner:
                    self.keys[id(h[1])] = self.a.owner[('effc', e.place)]
                if e.has_name: var = '(Some %d)' % self.a.owner[('effc', e.place)]
                if e.ann is not None: eff = '(Some %s)' % self.type(e.ann)
            out = 'NoEffects'
            made = []
            for c in e.clauses:
                qq = c.p
                a = 'None' if qq.arg is None else '(Some %s)' % self.pattern(qq.arg)
                kk = self.bind(c.k)
                made.append('(AndEffect %s %s %d %s %s' % (self.cons[id(qq.con)], a, kk, self.arg(c.kann), self.term(c.body)))
            for m in reversed(made): out = m + ' ' + out + ')'
            return '(Handle %s (record { variable = %s; effect = %s }) %s %s)' % (kind, var, eff, self.terms(e.parts), out)
        assert k == 'Annot', k
        return '(Annot %s %s)' % (self.term(e.a), self.type(e.t))
    def item(self, it):
        if it.kind == 'type':
            self.decls += 1
            for d in it.defs: self.types[id(d)] = self.next(0)
            for d in it.defs:
                fs = []
                for c in d.cons:
                    self.cons[id(c)] = '(Variant %d)' % self.next(1)
                    self.rows[1].append('(record { of_type = %d; argument = %s })' % (self.types[id(d)], self.arg(c.arg, d.params)))
                for f in d.fields:
                    self.fields[id(f)] = self.next(2); fs.append(self.fields[id(f)])
                    self.rows[2].append('(record { of_type = %d; index = %d; is_mutable = %s; type = %s })' % (self.types[id(d)], f.index, 'true' if f.mutable else 'false', self.type(f.type, d.params)))
                self.rows[0].append('(record { parameters = %d; fields = %s })' % (len(d.params), '(Some %s)' % nums(fs) if fs else 'None'))
        elif it.kind == 'exception':
            self.decls += 1
            self.cons[id(it.con)] = '(Exception %d)' % self.next(3)
            self.rows[3].append('(record { name = %s; argument = %s })' % (q(it.con.name), self.arg(it.con.arg, [])))
        elif it.kind == 'effect':
            self.decls += 1
            self.extended.append(self.types[id(it.head)])
            for c in it.cons:
                self.cons[id(c)] = '(Effect %d)' % self.next(4)
                self.rows[4].append('(record { argument = %s; result = %s })' % (self.arg(c.arg), self.type(c.full)))
        elif it.kind == 'letrec': self.items.append('(DefineRec %s)' % self.functions(it.funs))
        elif it.binds is None: self.items.append('(Evaluate %s)' % self.term(it.term))
        elif it.binds.kind == 'PVar': self.items.append('(Define %d %s)' % (self.bind(it.binds.x), self.term(it.term)))
        else: self.items.append('(Destructure (here %d %d) %s %s)' % (it.place + (self.pattern(it.binds), self.term(it.term))))
    def program(self, literals):
        r = self.rows
        return ('(record {\n  file = codes "f.ml";\n  literals = %s;\n  types = builtin_types ++ %s;\n  variants = builtin_variants ++ %s;\n  fields = %s;\n  exceptions = builtin_exceptions ++ %s;\n  effects = %s;\n  extended = %s;\n  declarations = %d;\n  items = %s;\n})'
                % (lst([raw(x) for x in literals]), lst(r[0]), lst(r[1]), lst(r[2]), lst(r[3]), lst(r[4]), nums(self.extended), self.decls, '(' + ''.join('\n    ' + x + ' ∷' for x in self.items) + ' [])'))


def keep_names(self, e, before=scope.Elaborator.e_HandlerCall):
    """Keeps whether a handler has a (type a), which the reference's Core doesn't tell."""
    made = before(self, e)
    made.has_name = e.lit.effc.tname is not None
    return made


scope.Elaborator.e_HandlerCall = keep_names


def arena(data, base, literals):
    tokens = lexer.lex(data)
    items = parser.parse(tokens)
    if parser.depth(items) > 400:
        raise lexer.Fault('syntax', 0, 0)
    a = Arena(data, tokens, base, literals)
    return a, [a.item(i) for i in items], items


def prog_text(a, items):
    lines = ['\n    ' + n + ' ∷' for n in a.nodes], ['\n    ' + i + ' ∷' for i in items]
    return '(record {\n  nodes = (%s []);\n  items = (%s []);\n})' % (''.join(lines[0]), ''.join(lines[1]))


def lemmas(texts):
    """The lemmas of programs, and how many have Core and a breach."""
    prelude, prelude_items, _ = arena(scope.PRELUDE.encode(), 0, [])
    out = [HEAD, 'abbrev pub prelude : Prog\nprelude = ' + prog_text(prelude, prelude_items) + '\n']
    accepted = refused = 0
    for i, text in enumerate(texts):
        literals = []
        try:
            a, made, items = arena(text.encode(), len(prelude.nodes), literals)
        except lexer.Fault:
            continue
        try:
            program = scope.core_of(items, 'f.ml')
            want = 'Ok ' + Core(program, prelude, a, program.prelude_items).program(literals)
            accepted += 1
        except lexer.Fault as f:
            want = 'Err (at %d %d)' % (f.line, f.col)
            refused += 1
        out.append('-- ' + text.replace('\n', '\n-- '))
        out.append('abbrev prog_%d : Prog\nprog_%d = %s\n' % (i, i, prog_text(a, made)))
        out.append('test_%d : core_of prelude prog_%d (codes "f.ml") ≡ %s\ntest_%d = refl\n' % (i, i, want, i))
    return '\n'.join(out), accepted, refused


def programs(where):
    if where.endswith('.json'):
        for case in json.load(open(where)):
            for text in case.get('files', {}).values():
                if isinstance(text, list):
                    text = ''.join(t * n for t, n in (text if isinstance(text[0], list) else [text]))
                if len(text) < 1500:
                    yield text
    elif where.endswith('.md'):
        yield from re.findall(r'```ocaml\n(.*?)```', open(where).read(), re.S)
    elif where.endswith('.rt'):
        for text in re.findall(r'text: "((?:[^"\\]|\\.)*)"', open(where).read()):
            yield text.replace('\\n', '\n').replace('\\"', '"')
    else:
        for name in sorted(os.listdir(where)):
            if name.endswith('.ml'):
                yield open(os.path.join(where, name)).read()


def mutate(rng, text, pool):
    """Exchanges names of a program: another name of it, of another program, or an unknown one."""
    tokens = [t for t in lexer.lex(text.encode()) if t.kind in pool]
    data = text.encode()
    for t in sorted(rng.sample(tokens, min(len(tokens), rng.choice([1, 1, 1, 2, 3]))), key=lambda t: -t.frm):
        same = [u.text for u in tokens if u.kind == t.kind]
        new = rng.choice([rng.choice(same), rng.choice(same), rng.choice(pool[t.kind]), t.text + '_'])
        data = data[:t.frm] + new.encode() + data[t.to:]
    return data.decode()


def mutations(rng, texts, count):
    pool = {'lower': [], 'upper': [], 'tvar': ["'a", "'b"]}
    good = []
    for text in texts:
        try:
            named = [t for t in lexer.lex(text.encode()) if t.kind in pool]
        except lexer.Fault:
            continue
        for t in named:
            pool[t.kind].append(t.text)
        if named:
            good.append(text)
    return [mutate(rng, rng.choice(good), pool) for _ in range(count)]


def pattern(rng, depth):
    k = rng.random()
    if depth == 0 or k < 0.3:
        return rng.choice(['x', 'y', 'z', '_', '1', 'x', 'y'])
    p, q = pattern(rng, depth - 1), pattern(rng, depth - 1)
    if k < 0.5:
        return '(%s, %s)' % (p, q)
    if k < 0.8:
        return '(%s | %s)' % (p, q)
    if k < 0.9:
        return '(%s as %s)' % (p, rng.choice('xyz'))
    return '[%s; %s]' % (p, q) if k < 0.95 else '(%s :: %s)' % (p, q)


def pattern_of(rng, depth, names):
    """A pattern that binds just these names."""
    names = rng.sample(names, len(names))
    if depth == 0 or rng.random() < 0.2:
        return '(' + ', '.join(names + ['_', '1']) + ')'
    if rng.random() < 0.5:
        return '(%s | %s)' % (pattern_of(rng, depth - 1, names), pattern_of(rng, depth - 1, names))
    i = rng.randrange(len(names) + 1)
    return '(%s, %s)' % (pattern_of(rng, depth - 1, names[:i]), pattern_of(rng, depth - 1, names[i:]))


def patterns(rng, count):
    for i in range(count):
        if i % 2:
            yield 'let f = function %s -> 1' % pattern(rng, 4)
        elif i % 4:
            yield 'let f = function %s -> x' % pattern_of(rng, 4, ['x', 'y'])
        else:
            yield 'let %s = 1 and %s = 2 and x y = y' % (pattern(rng, 2), pattern(rng, 2))


def main():
    rng = random.Random(SEED)
    texts = []
    for where in PROGRAMS.split(','):
        texts += [t for t in programs(where) if t not in texts]
    text, accepted, refused = lemmas(texts + mutations(rng, texts, COUNT) + list(patterns(rng, COUNT)))
    proofs = os.path.join(WORKSPACE, 'crates/surface_meaning/proofs')
    with open(os.path.join(proofs, 'Compared.antt'), 'w') as f:
        f.write(text)
    listing = os.path.join(proofs, 'Lib.antt')
    named = open(listing).read()
    if 'mod Compared' not in named:
        with open(listing, 'w') as f:
            f.write(named + 'mod Compared\n')
    print('%d programs with Core, %d with a breach' % (accepted, refused), flush=True)
    global STATUS
    STATUS = subprocess.run(['rt', 'check', '--jobs', '1'], cwd=os.path.dirname(proofs)).returncode


if __name__ == '__main__':
    STATUS = 1
    thread = threading.Thread(target=main)
    thread.start()
    thread.join()
    sys.exit(STATUS)
