"""Compares inference with a reference implementation: the same answer, the same place of a fault, the same types of the
top-level definitions, the same types of the comparisons in the order of the text.

    against_types.py ORACLE WORKSPACE PROGRAMS [SEED] [COUNT]

ORACLE is the folder of the reference implementation (lexer.py, parser.py, scope.py, typing_d4.py). WORKSPACE is what
against_types.sh makes: it has the program that writes the types of files. PROGRAMS is a folder of programs, a file of worked
rows (rows.json), or several of these with commas. COUNT mutations of these and of the texts below are compared too.

The reference's places are those of first tokens. They are moved to the tokens that forms have for themselves: operators,
commas, semicolons.
"""
import os
import random
import subprocess
import sys
import threading

sys.dont_write_bytecode = True
sys.path.insert(0, os.path.dirname(os.path.abspath(__file__)))
import command_words
from against_scopes import programs

sys.setrecursionlimit(10 ** 6)
threading.stack_size(512 * 1024 * 1024)

# the places of these faults stand nowhere in Core
PLACELESS = ('arguments of a type constructor', 'fields of two types', 'the type before +=')

TEXTS = '''
let id x = x let a = id 1 let b = id "s"
let id x = x let r = ref id let () = (!r) 1; ignore ((!r) "s")
let r = ref [] let () = r := [1] let f x = x :: !r
let r = ref [] let f x = r := x :: !r; x let a = f 1 let b = f "s"
let r = ref [] let s = r let f () = !s let () = r := ["a"]
let f x = x x
let rec f x = f
let rec f x = g x and g x = f (x + 1) let a = f
let rec f x = g x and g x = x let a = g 1 let b = g "s"
let rec even n = if n = 0 then true else odd (n - 1) and odd n = if n = 0 then false else even (n - 1)
let eq a b = a = b
let eq (a : int) b = a = b
let eq a b = compare (a : string) b
let c = compare
let () = print_int (compare 1 2)
let a = "a" < "b" && 1 < 2 || true <> (() = ())
let a = (1 = 2) = ('a' < 'b')
let a = [1] = [2]
let a = (1, 2) < (3, 4)
let f x y = x == y let a = f [1] [2] let b = f "a" "b"
let v1 = (1, 1) let v2 = (v1, v1) let v3 = (v2, v2)
let f x = (x, x) let g x = f (f x) let h x = g (g x) let k = h 1
let f x = (x, x) let g x = f (f x) let h x = g (g x) let i x = h (h x)
let f x = (x, x) let g x = f (f x) let h x = g (g x) let i x = h (h (g x)) let a = i 1
type t = A | B of int let f = function A -> 0 | B n -> n let a = f (B 1) let b = f A
type t = A of int let a = A
type t = A let a = A 1
type 'a t = A of 'a | B of 'a list let f = function A x -> [x] | B l -> l let a = f (A 1) let b = f (B ["s"])
type 'a t = A of 'a let A x = A (ref []) let () = x := [1]
type 'a t = A of 'a list let A x = A [] let f y = y :: x let a = f 1
type 'a t = { x : 'a; mutable y : int } let r = { x = 1; y = 2 } let () = r.y <- 3 let s = { x = "s"; y = r.x }
type t = { x : int; mutable y : int } let () = { x = 1; y = 2 }.x <- 3
type t = { x : int; y : int } let r = { x = 1 }
type t = { x : int; y : int } let r = { x = 1; y = 2; x = 3 }
type t = { x : int } type u = { y : int } let r = { x = 1; y = 2 }
type t = { x : int; y : string } let f { x = a; y = b } = print_string b; a let g = function { x = 1 } -> "a" | { y } -> y
type t = { x : int; y : string } let f { x = a; _ } = a + 1 let g r = r.y ^ "s"
type 'a t = { f : 'a -> 'a } let r = { f = fun x -> x } let a = r.f 1 let b = r.f 2
type 'a t = N | C of 'a * 'a t let rec len l = match l with N -> 0 | C (_, r) -> 1 + len r let a = len (C (1, N))
type ('a, 'b) e = L of 'a | R of 'b let f = function L x -> x | R y -> string_of_int y let a = [L 1; R "s"]
type t = U of int list list type s = V of int t
type t = U of int int
type t = U of (int, int) list
type t = U of list
exception E of int let f x = raise (E x) let g x = try f x with E n -> n | Not_found -> 0
exception E of int * string let f x = match x () with v -> v | exception E (n, s) -> print_string s; n
exception E of t
exception E of int list option let a = E (Some [1]) let b = E 1
let f x = try x () with Effect.Unhandled _ -> 0
let f x = try x () with Effect.Unhandled y -> 0
let a = Effect.Unhandled 1
let f x = match x with Some y -> y + 1 | None -> "a"
let f x = match x with Some y when y -> 1 | _ -> 2
let f x = match x with Some y when y + 1 -> 1 | _ -> 2
let f x = match x with 1 | 2 -> 'a' | _ -> 'b'
let f x = match x with (y, 1) | (1, y) -> y | _ -> 0
let f x = match x with (y, 1) | ("a", y) -> y | _ -> 0
let f x = match x with ((a, b) as c) -> (c, a + b)
let f x = match x with (a as b) -> a + (b : int)
let f ((x : 'a), (y : 'a)) = x let a = f (1, 2) let b = f (1, "s")
let f (x : 'a) (y : 'b) = (x, y) let g (x : 'a) : 'a = x + 1
let f (x : _ list) = x let a = f [1] let b = f ["s"]
let f : 'a -> 'a = fun x -> x let a = f 1 let b = f "s"
let f = (fun x -> x : 'a -> 'a) let a = f 1 let b = f "s"
let rec f : int -> int = fun x -> x let a = f 1
let rec f : int -> string = fun x -> x
let rec f (x : int) : string = string_of_int x
let f x = (x : int list list) let g = (f : _ -> _)
let f x = let y = x in (y 1, y "s")
let f x = let g y = y in (g x, g x)
let f x = let g y = y in (g 1, g "s")
let f g = g 1 + g 2 let a = f (fun x -> x) let b = f succ
let a = if true then 1 else "s"
let a = if 1 then 1 else 2
let f () = if true then ()
let f () = if true then 1
let a = while 1 do () done
let f n = for i = 0 to n do print_int i done
let f n = for i = "a" to n do () done
let f n = for i = n downto 0 do print_string i done
let a = [1; 2; "s"]
let a = [| 1; 2 |] let () = a.(0) <- a.(1) + 1
let a = [| 1; "s" |]
let a = [| |] let f x = a.(0) <- x
let a = "abc".[1] let b = "abc".[a]
let a = 1 :: [2] @ [3] let b = "s" :: a
let f x y = x @ y let a = f [1] [2] let b = f ["s"] []
let a = (1, "s", 'c') let (x, y, z) = a let b = x + 1
let (x, y) = (1, 2, 3)
let () = 1
let () = print_int "a"
let () = print_int (String.length "a" + "b")
let a = 1 + (2 * "s")
let f x = x |> print_int let () = 3 |> f let () = f @@ 4 let () = "s" |> f
let a = max 1 2 let b = max let c = b 1 "s"
let a = fst (1, "s") + 1 let b = snd (1, "s") ^ "t" let c = fst (1, 2, 3)
let a = List.map (fun x -> x + 1) [1; 2] let b = List.map string_of_int a let c = List.fold_left (fun a x -> a ^ x) "" b
let q = Queue.create () let () = Queue.push 1 q let f x = Queue.push x q let a = Queue.pop q
let q = Queue.create () let f () = Queue.pop q let g x = Queue.push x q let a = g "s" let b = f () + 1
let f q = Queue.push (Queue.pop q) q; Queue.length q
let f (q : int Queue.t) = Queue.pop q
let a = Atomic.make 0 let () = Atomic.incr a let b = Atomic.compare_and_set a 0 1 let c = Atomic.exchange a "s"
let a = Atomic.make [] let f x = Atomic.set a [x] let g () = Atomic.get a
let d = Domain.spawn (fun () -> 1) let a = Domain.join d + 1 let b = Domain.join 1
let a = Array.make 3 'a' let b = Array.length a let () = Array.set a 0 'b' let c = Array.get a "s"
let f () = c_iter (fun x -> print_int x) [| 1 |]; c_fold (fun a x -> a + x) 0 [| 1; 2 |]
let f g = c_try (fun () -> g 1) let a = match f succ with Some x -> x | None -> 0
let f g = c_fold g let h g = c_iter g
let a = String.sub "abc" 0 1 ^ string_of_int (Char.code 'a') let b = Char.chr "s"
let f x = exit x let g x = failwith x let h x = invalid_arg x + 1
let f x = not x let g x = ignore x; () let h r = incr r; decr r; !r
let a = min_int + max_int let b = - 1 let c = - "s" let d = abs 1
type _ Effect.t += E : int Effect.t let f () = Effect.perform E + 1 let g () = Effect.perform E ^ "s"
type _ Effect.t += E : int -> string Effect.t let f () = Effect.perform (E 1) ^ "s" let g () = Effect.perform E
type _ Effect.t += E : int -> string Effect.t let f g = match g () with v -> v + 1 | effect E n, k -> Effect.Deep.continue k (string_of_int n)
type _ Effect.t += E : int -> string Effect.t let f g = match g () with v -> v + 1 | effect E n, k -> Effect.Deep.continue k n
type _ Effect.t += E : int Effect.t let f g = match g () with v -> v + 1 | effect E, k -> "s"
type _ Effect.t += E : int Effect.t let f g = match g () with v -> [v] | exception Not_found -> [] | effect E, k -> Effect.Deep.discontinue k Not_found
type _ Effect.t += E : int Effect.t let f g = try g () with Not_found -> 0 | effect E, k -> Effect.Deep.continue k 1
type _ Effect.t += E : int Effect.t let f g = try g () with effect E n, k -> Effect.Deep.continue k 1
type _ Effect.t += E : int Effect.t let f g = try g () with effect Not_found, k -> Effect.Deep.continue k 1
type _ Effect.t += E : int Effect.t let f g = try g () with effect Some x, k -> 1
type _ Effect.t += E : int option
type _ list += E : int list
type _ Effect.t += E : int Effect.t | F : string -> unit Effect.t let f g = Effect.Deep.match_with g 1 { retc = (fun x -> [x]); exnc = (fun e -> raise e); effc = fun (type a) (eff : a Effect.t) -> match eff with E -> Some (fun (k : (a, _) Effect.Deep.continuation) -> Effect.Deep.continue k 1) | F s -> Some (fun k -> print_string s; Effect.Deep.continue k ()) | _ -> None }
type _ Effect.t += E : int Effect.t let f g = Effect.Deep.match_with g 1 { retc = (fun x -> [x]); exnc = (fun e -> 1); effc = fun (type a) (eff : a Effect.t) -> match eff with E -> Some (fun (k : (a, int list) Effect.Deep.continuation) -> Effect.Deep.continue k 1) | _ -> None }
type _ Effect.t += E : int Effect.t let f g = Effect.Deep.match_with g 1 { retc = (fun x -> [x]); exnc = (fun e -> []); effc = fun (type a) (eff : a list) -> match eff with E -> Some (fun (k : (a, _) Effect.Deep.continuation) -> []) | _ -> None }
type _ Effect.t += E : int Effect.t let f g = Effect.Deep.try_with g "s" { effc = fun eff -> match eff with E -> Some (fun (k : (string, _) Effect.Deep.continuation) -> Effect.Deep.continue k 1) | _ -> None }
type _ Effect.t += E : int Effect.t let f g = Effect.Deep.try_with g "s" { effc = fun (eff : int Effect.t) -> match eff with _ -> None }
type _ Effect.t += E : int Effect.t let f g = Effect.Deep.try_with g "s" { effc = fun (eff : int) -> match eff with _ -> None }
type _ Effect.t += E : int Effect.t let f k v = Effect.Shallow.continue_with k v { retc = (fun x -> (x, 1)); exnc = (fun e -> raise e); effc = fun (type a) (eff : a Effect.t) -> match eff with E -> Some (fun (k : (a, _) Effect.Shallow.continuation) -> ignore (k : (int, _) Effect.Shallow.continuation); raise Exit) | _ -> None }
type _ Effect.t += E : int Effect.t let rec f k v = Effect.Shallow.continue_with k v { retc = (fun x -> x); exnc = (fun e -> raise e); effc = fun (type a) (eff : a Effect.t) -> match eff with E -> Some (fun (k : (a, _) Effect.Shallow.continuation) -> f k 1) | _ -> None } let a = f (Effect.Shallow.fiber (fun x -> x + 1)) 1
type _ Effect.t += E : int Effect.t let f k = Effect.Shallow.discontinue_with k Not_found { retc = (fun x -> x + 1); exnc = (fun e -> 0); effc = fun eff -> match eff with E -> Some (fun k -> 1) | _ -> None } let g k = Effect.Shallow.discontinue_with k 1 { retc = (fun x -> x); exnc = (fun e -> 0); effc = fun eff -> match eff with _ -> None }
let f k = Fiberq.push k; match Fiberq.take_from 0 with Some k -> Effect.Deep.continue k () | None -> ()
let a = Fiberq.self () + Fiberq.slots () let b = Fiberq.self 1
let rec f x = if x = "a" then g x else h x and g x = x ^ "b" and h x = string_of_int (f2 x) and f2 x = String.length x
let f = fun x -> let rec g y = if y = x then y else g (y + 1) in g 0
let x = let y = ref None in y let () = x := Some 1 let f z = x := z
let f (x, y) z = x + y z let a = f (1, fun x -> x) 2
let f = function x :: y :: z -> x + y | [x] -> x | [] -> 0 let a = f [1; 2] let b = f "s"
let s = "a" let t = s = "b" let u = (s < t)
let f x y z = (x = 1, y = "s", z = 'c', x < 2 = true)
let f x = (fun y -> y = x) 1 let g x y = [x; y] = [] 
let f = let r = ref [] in fun x -> r := x :: !r let a = f 1 let b = f "s"
let f x = x.(0).(1) + 1 let a = f [| [| 1 |] |]
let f g x = g (g x) let a = f (f succ) 1 let b = f f succ "s"
let y f = (fun x -> f (x x)) (fun x -> f (x x))
let a = (print_int, print_string) let (p, q) = a let () = p "s"
let f x = match x with [] -> [] | y :: r -> r @ [y] let g x = f (f x) let a = g ["s"] let b = g [1]
type t = { mutable next : t option; v : int } let rec f r = match r.next with None -> r.v | Some n -> f n let a = { next = None; v = 1 } let () = a.next <- Some a
type 'a tree = Leaf | Node of 'a tree * 'a * 'a tree let rec ins c x t = match t with Leaf -> Node (Leaf, x, Leaf) | Node (l, y, r) -> if c x y < 0 then Node (ins c x l, y, r) else Node (l, y, ins c x r) let a = ins compare 1 Leaf let b = ins (fun x y -> 0) "s" a
'''


class Mover:
    """Moves the places of a tree to the tokens that its forms have for themselves."""

    def __init__(self, parser, tokens):
        self.parser = parser
        self.tokens = tokens
        self.at = {t.place: i for i, t in enumerate(tokens)}

    def before(self, place, count=1):
        return self.tokens[self.at[place] - count].place

    def own(self, n):
        k = n.kind
        if k == 'Bin':
            return n.op_place
        if k in ('Tuple', 'PTuple', 'Seq'):
            return self.before(n.parts[1].place)
        if k in ('Index', 'SIndex'):
            return self.before(n.i.place, 2)
        if k in ('SetField', 'SetIndex'):
            return self.before(n.v.place)
        if k in ('PCons', 'POr'):
            return self.before(n.b.place)
        if k == 'PAs':
            return self.before(n.name_place)
        return None

    def move(self, n):
        """Gives the node's new place, where the places of its parts are first tokens until it is done."""
        stack, order = [n], []
        while stack:
            x = stack.pop()
            if isinstance(x, (list, tuple)):
                stack.extend(x)
            elif isinstance(x, self.parser.N):
                order.append(x)
                stack.extend(v for k, v in x.__dict__.items() if k != 'place')
        own = [(x, self.own(x)) for x in order]
        for x, place in own:
            x.outer = place or x.place
        for x, place in own:
            if place is not None:
                x.place = place
        for x in reversed(order):
            if x.kind == 'App':
                x.place = x.outer = x.f.outer
            elif x.kind == 'Field':
                x.place = x.outer = x.e.outer
            elif x.kind in ('List', 'PList') and x.parts:
                x.place = x.parts[0].outer
            elif x.kind == 'Paren':
                x.place = x.e.place
            elif x.kind == 'PParen':
                x.place = x.p.place
        for x in order:
            if x.kind == 'eclause':
                q = x.q
                while True:
                    q.place = x.place
                    if q.kind != 'PParen':
                        break
                    q = q.p


def with_whole_search(typing):
    """The reference's own unification links type constructors before their arguments, and then overlooks types that are
    parts of themselves through such links."""
    def unify(a, b):
        todo, seen = [(a, b)], set()
        while todo:
            a, b = map(typing.find, todo.pop())
            if a is b or (id(a), id(b)) in seen:
                continue
            if a.con is None or b.con is None:
                v, t = (a, b) if a.con is None else (b, a)
                if typing.occurs(v, t):
                    raise typing.Clash()
                v.link = t
                continue
            if a.con is not b.con or len(a.args) != len(b.args):
                raise typing.Clash()
            seen.add((id(a), id(b)))
            todo.extend(reversed(list(zip(a.args, b.args))))
    typing.unify = unify


def cells_of_lists(scope):
    """The cells of a list stand at its parts, brackets included."""
    C, Elaborator = scope.C, scope.Elaborator

    def e_List(self, e):
        parts = [self.term(x) for x in e.parts]
        out = C('Con', e.place, con=scope.NIL, arg=None)
        for x, p in reversed(list(zip(e.parts, parts))):
            out = C('Con', x.outer, con=scope.CONS, arg=C('Tuple', x.outer, parts=[p, out]))
        return out

    old = Elaborator.pattern

    def pattern(self, p, s):
        if p.kind != 'PList':
            return old(self, p, s)
        parts = [self.pattern(q, s) for q in p.parts]
        out = C('PCon', p.place, con=scope.NIL, arg=None)
        for x, q in reversed(list(zip(p.parts, parts))):
            out = C('PCon', x.outer, con=scope.CONS, arg=C('PTuple', x.outer, parts=[q, out]))
        return out

    Elaborator.e_List = e_List
    Elaborator.pattern = pattern


class Row:
    """The numbers of the types in the tables."""

    def __init__(self, scope, typing, program):
        self.rows = {}
        for i, d in enumerate([scope.INT, scope.BOOL, scope.CHAR, scope.STRING, scope.UNIT, scope.EXN, scope.LIST,
                               scope.OPTION, scope.REF, scope.ARRAY, scope.EFFECT, scope.DEEPK, scope.SHALLOWK,
                               scope.DOMAIN, scope.ATOMIC, typing.ARROW, typing.TUPLE]):
            self.rows[id(d)] = i
        for it in program.items:
            if it.kind == 'type':
                for d in it.defs:
                    self.rows[id(d)] = len(self.rows)

    def words(self, typing, t, names):
        out, todo = [], [t]
        while todo:
            x = typing.find(todo.pop())
            if x.con is None:
                out.append('v%d' % names.setdefault(id(x), len(names)))
            else:
                out.append('%d/%d' % (self.rows[id(x.con)], len(x.args)))
                todo.extend(reversed(x.args))
        return ' '.join(out)


def watched(typing):
    class Watched(typing.Checker):
        """Notes where the comparisons of each item begin."""

        def __init__(self, program):
            super().__init__(program)
            self.firsts = []

        def item(self, it):
            self.firsts.append(len(self.comparisons))
            super().item(it)

        def in_text(self):
            out = []
            for i, first in enumerate(self.firsts):
                last = self.firsts[i + 1] if i + 1 < len(self.firsts) else len(self.comparisons)
                out += sorted(self.comparisons[first:last], key=lambda c: c[1])
            return out
    return Watched


def reference(modules, text, name):
    lexer, parser, scope, typing = modules
    try:
        tokens = lexer.lex(text)
        tree = parser.parse(tokens)
        if parser.depth(tree) > 400:
            return 'other', None
    except lexer.Fault:
        return 'syntax', None
    Mover(parser, tokens).move(tree)
    try:
        program = scope.core_of(tree, name)
    except lexer.Fault:
        return 'name', None
    checker = watched(typing)(program)
    try:
        checker.run()
    except lexer.Fault as f:
        if f.kind == 'limit':
            return 'large', None
        if f.note in PLACELESS:
            return 'type', None
        place = (f.line, f.col)
        if f.note == 'comparison':
            place = [p for t, p in checker.in_text() if typing.find(t).con not in typing.COMPARED][0]
        return 'type %d %d' % place, None
    names = {'int': 'Int', 'bool': 'Bool', 'char': 'Char', 'unit': 'Unit', 'string': 'Str'}
    compared = [names[typing.find(t).con.name] for t, _ in checker.in_text()]
    row, variables = Row(scope, typing, program), {}
    return 'ok', [' '.join(compared)] + [row.words(typing, t, variables) for t in checker.definitions]


def run_batch(workspace, files):
    listing, empty = os.path.join(workspace, 'list.txt'), os.path.join(workspace, 'empty.ml')
    open(empty, 'w').close()
    with open(listing, 'w') as f:
        f.write('\n'.join([empty] + files) + '\n')
    run = subprocess.run(['rt', 'try', '--seconds', '600', '--', listing], cwd=os.path.join(workspace, 'crates/type_dump'),
                         stdout=subprocess.PIPE, stderr=subprocess.PIPE)
    answers = []
    for line in run.stdout.decode().split('\n'):
        if line.startswith('== '):
            answers.append([line[3:].strip()])
        elif answers and line.startswith(' '):
            answers[-1].append(line.strip())
    if len(answers) != len(files) + 1:
        return None, run.stderr.decode()[-1500:]
    base = answers[0]
    return [a[:1] + (base[1:] + a[1:] if a[0].startswith('ok') else a[1:]) for a in answers[1:]], ''


def product(workspace, files):
    answers = []
    at, size = 0, 3000
    while at < len(files):
        got, error = run_batch(workspace, files[at:at + size])
        if got is None:
            if 'error[' in error or 'crates.txt' in error:
                sys.exit(error)
            if size == 1:
                print('no answer', files[at], error)
                answers.append(['none'])
                at += 1
                size = 1000
                continue
            size = max(1, size // 3)
            continue
        answers += got
        at += size
        print('..', at, flush=True)
    return answers


CONSTANTS = ['1', '0', '"s"', "'c'", 'true', 'false', '()', '[]', 'None', '(1, 2)', '[1]', '(ref 1)', '(fun z -> z)']
OPERATORS = ['+', '-', '*', '=', '<', '^', '@', '::', '==', ';', ':=', '|>', '@@', '&&', ',']
ROUND = ['(ref %s)', '!%s', '(%s, %s)', '[%s]', '(fun z -> %s)', '(%s : int)', "(%s : 'a)", '(%s : string)', '(Some %s)',
         '(%s 1)', '(fst %s)', '(%s = %s)', '(let z = %s in z)', '(match %s with z -> z)', '(compare %s %s)', "(%s : 'a -> 'a)"]


def mutate(rng, lexer, text, pool):
    """Changes some tokens of a program: a name by another one, a constant, an operator, something round a name, or none."""
    tokens = [t for t in lexer.lex(text.encode()) if t.kind != 'eof']
    data = text.encode()
    names = [t for t in tokens if t.kind in ('lower', 'upper', 'tvar')]
    others = [t for t in tokens if t.kind in ('int', 'string', 'char') or t.text in ('true', 'false')]
    signs = [t for t in tokens if t.text in OPERATORS]
    chosen = {}
    for _ in range(rng.choice([1, 1, 1, 2, 3])):
        sort = rng.choice(['name', 'name', 'name', 'constant', 'sign', 'round', 'round', 'drop'])
        if sort in ('name', 'round') and names:
            t = rng.choice(names)
            if sort == 'round' and t.kind == 'lower':
                form = rng.choice(ROUND)
                chosen[t.frm] = (t, form.replace('%s', t.text))
            else:
                same = [u.text for u in names if u.kind == t.kind]
                chosen[t.frm] = (t, rng.choice([rng.choice(same), rng.choice(same), rng.choice(pool[t.kind])]))
        elif sort == 'constant' and others:
            t = rng.choice(others)
            chosen[t.frm] = (t, rng.choice(CONSTANTS))
        elif sort == 'sign' and signs:
            t = rng.choice(signs)
            chosen[t.frm] = (t, ' ' + rng.choice(OPERATORS) + ' ')
        elif sort == 'drop' and names + others:
            t = rng.choice(names + others)
            chosen[t.frm] = (t, rng.choice([' ', rng.choice(CONSTANTS)]))
    for frm in sorted(chosen, reverse=True):
        t, new = chosen[frm]
        data = data[:t.frm] + new.encode() + data[t.to:]
    return data.decode()


def main():
    oracle, workspace, where = sys.argv[1:4]
    seed = int(sys.argv[4]) if len(sys.argv) > 4 else 1
    count = int(sys.argv[5]) if len(sys.argv) > 5 else 1000
    sys.path.insert(0, oracle)
    import lexer
    import parser
    import scope
    import typing_d4
    modules = (lexer, parser, scope, typing_d4)
    cells_of_lists(scope)
    with_whole_search(typing_d4)
    old_parse = scope.parse

    def placed(tokens):
        tree = old_parse(tokens)
        Mover(parser, tokens).move(tree)
        return tree

    scope.parse = placed
    texts = [t for t in TEXTS.split('\n') if t]
    small = len(texts)
    for w in where.split(','):
        texts += [t for t in programs(w) if t not in texts]
    rng = random.Random(seed)
    pool = {'lower': [], 'upper': [], 'tvar': ["'a", "'b"]}
    good = []
    for t in texts:
        try:
            for k in lexer.lex(t.encode()):
                if k.kind in pool:
                    pool[k.kind].append(k.text)
            good.append(t)
        except lexer.Fault:
            pass
    cases = list(texts)
    while len(cases) < len(texts) + count:
        made = mutate(rng, lexer, rng.choice(good if rng.random() < 0.5 else good[:small]), pool)
        if reference(modules, made.encode(), 'a.ml')[0] not in ('syntax', 'name', 'other'):
            cases.append(made)
    folder = os.path.join(workspace, 'files')
    os.makedirs(folder, exist_ok=True)
    files = []
    for i, c in enumerate(cases):
        files.append(os.path.join(folder, '%05d.ml' % i))
        with open(files[-1], 'w') as f:
            f.write(c)
    answers = product(workspace, files)
    kinds, differ = {}, 0
    for name, text, answer in zip(files, cases, answers):
        want, types = reference(modules, text.encode(), name)
        got = answer[0].split()[0]
        kind = want.split()[0]
        kinds[kind] = kinds.get(kind, 0) + 1
        if kind == 'ok' and got == 'ok':
            made = [answer[0][2:].strip()] + answer[1:]
            if made == types:
                continue
            i = next((i for i in range(min(len(made), len(types))) if made[i] != types[i]), min(len(made), len(types)))
            print('TYPES', name, i, '\n  made     ', made[i:i + 1], '\n  reference', types[i:i + 1])
        elif answer[0] == want or (want in ('type', 'syntax', 'name') and got == want):
            continue
        else:
            print('ANSWER', name, answer[0], 'reference', want)
        differ += 1
    print('%d programs, %d differences, %s' % (len(cases), differ, kinds))


if __name__ == '__main__':
    command_words.begin(__doc__, 'ORACLE', 'WORKSPACE', 'PROGRAMS')
    t = threading.Thread(target=main)
    t.start()
    t.join()
