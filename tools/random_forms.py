"""The forms that tools/random_programs.py makes programs of: tables of templates.

In a template `{int}` is an expression of that kind, `{int!}` one without parts, `{int x:int y:tree}` one in which the names x and
y may be used, and `$x` is a new name. T is the kind that is wanted, U one that is chosen for the template, R the kind of the
answer to an effect. The words `matching`, `catches`, `exceptions`, `effects`, `rules`, `literal`, `shallow` and `again` in braces
are parts that functions of the generator make; `few`, `many` and `large` are numbers. A kind is a type, but `cell`: a reference
that doesn't escape.
"""

HEAD = '''open Effect
open Effect.Deep
exception A
exception B of int
exception P of (int * string)
type _ Effect.t += Get : int Effect.t | Put : int -> unit Effect.t | Ask : (int * string) -> string Effect.t
type tree = Leaf | Mark | Number of int | Text of string | Fork of tree * tree
type record = { mutable count : int; mutable tree : tree; name : string }
let show n = print_int n; print_string " "
let total = ref 3
let shared = { count = 1; tree = Leaf; name = "c" }
let numbers = [|4; 5; 6|]
let waiting : int Queue.t = Queue.create ()
let tick n = show n; n
let rec sum_of n f = if n <= 0 then 0 else f n + sum_of (n - 1) f
let rec weight tree =
  match tree with
  | Leaf -> 0
  | Mark -> 1
  | Number n -> n
  | Text s -> String.length s
  | Fork (left, right) -> weight left + weight right
'''

KINDS = ['int', 'list', 'tree', 'string', 'pair', 'function', 'option', 'bool', 'array']

LEAVES = {
    'int': [str(n) for n in range(20)],
    'bool': ['true', 'false'],
    'string': ['""', '"a"', '"bc"', '"hello wo"', '"hello worl"'],
    'unit': ['()'],
    'list': ['[]', '[1]', '[2; 3]', '[4; 5; 6]'],
    'tree': ['Leaf', 'Mark', '(Number 2)', '(Text "a")', '(Fork (Leaf, Number 1))',
             '(Fork (Fork (Mark, Text "bc"), Number 3))'],
    'pair': ['(%d, "pq")' % n for n in range(5)],
    'option': ['None', '(Some 7)'],
    'function': ['succ', 'tick', '(fun n -> n + 1)', 'abs', '(max 3)'],
    'exception': ['A', '(B 4)', 'Not_found', '(Failure "f")', '(P (2, "w"))', 'Exit'],
    'array': ['numbers', '[|1; 2|]', '(Array.make 3 8)'],
}

# forms of any kind
SHARED = 2 * ['(let $x = {U} in {T x:U})'] + [
    '(if {bool} then {T} else {T})',
    '({unit}; {T})',
] + 3 * ['{matching}'] + 2 * ['(try {T} with {catches})'] + [
    '(match {int} with $x -> {T x:int}{exceptions})',
] + 3 * ['(match {U} with $x -> {T x:U}{exceptions}{effects})'] + [
    '(match_with (fun () -> {U}) () {literal})',
    '(try_with (fun $x -> {T x:int}) {int} { effc = {rules} })',
    '(try {T} with {catches}{effects})',
    '(Effect.Shallow.continue_with (Effect.Shallow.fiber (fun $x -> {U x:int})) {int} {shallow})',
    '((fun $x -> {T x:int}) {int})',
    '(raise {exception})',
    '(let rec $f $n = if $n <= 0 then {T n:int} else (show $n; $f ($n - 1)) in $f 2)',
    '(match c_try (fun () -> {int}) with Some $x -> {T x:int} | None -> {T})',
    '(let ($x, $y) = ({int}, {tree}) in {T x:int y:tree})',
]

BY_KIND = {
    'int': 3 * ['({int} + {int})', '({int} * {int})', '({int} lxor {int})'] + [
        '({int} - {int})', '({int} land {int})', '({int} / {int})', '({int} mod {int})', '(perform Get)', '(tick {int})',
        '!total', '(List.length {list} + String.length {string})', '({function} {int})', '({function} {int})',
        'numbers.(abs {int} mod 3)',
        '(c_fold (fun $x $y -> {int x:int y:int}) {int} [|{int}; {int}; {int}|])', '(sum_of 3 {function})', '(fst {pair})',
        '(weight {tree} + shared.count)', '(List.fold_left (fun $x $y -> {int x:int y:int}) {int} {list})', '(Queue.pop waiting)',
        '{array}.({int!})', '{array}.(0)', '{array}.(1)', '(Array.length {array})',
        '(let rec $f $n = if $n <= 0 then {int} else 1 + $f ($n - 1) in $f {many!})',
        '(let rec $f $n = if $n <= 0 then {int} else (try 1 + $f ($n - 1) with Exit -> 0) in $f {many!})',
        '(let rec $f $n = if $n <= 0 then {list} else $n :: $f ($n - 1) in List.length ($f {many!}))'],
    'bool': ['({int} < {int})', '({int} = {int})', '({int} >= {int})', '({int} <> {int})', '({string} = {string})',
             '({string} <= {string})', '({bool} && {bool})', '({bool} || {bool})', '(not {bool})', '(Queue.is_empty waiting)'],
    'string': ['({string} ^ {string})', '(string_of_int {int})', '(perform (Ask ({int}, {string})))', '(snd {pair})',
               '(let $x = {string} in String.sub $x 0 (min 2 (String.length $x)))'],
    'unit': ['(show {int})', '(total := {int})', '(perform (Put {int}))', '(print_string {string})', '(Queue.push {int} waiting)',
             '(c_iter (fun $x -> {unit x:int}) [|{int}; {int}|])', '(for $x = 1 to 2 do {unit x:int} done)', '(incr total)',
             '(shared.tree <- {tree})', '(shared.count <- {int})', '(List.iter (fun $x -> {unit x:int}) {list})',
             '({array}.({int!}) <- {int})', '({array}.(1) <- {int})'],
    'list': ['({int} :: {list})', '[{int}; {int}; {int}]', '(List.map {function} {list})', '({list} @ {list})',
             '(List.rev {list})'],
    'tree': ['(Number {int})', '(Text {string})', 'shared.tree', '(Fork ({tree}, {tree}))', '(Fork ({tree}, {tree}))'],
    'pair': ['({int}, {string})'],
    'option': ['(Some {int})', '(c_try (fun () -> {int}))'],
    'function': 2 * ['(fun $x -> {int x:int})'] + ['((fun $y $x -> {int x:int y:int}) {int})'],
    'exception': ['(B {int})', '(P {pair})', '(Failure {string})'],
    'array': ['[|{int}; {int}|]', '(Array.make (abs {int!}) {int})'],
}

# forms that live in registers: loops, references that don't escape, local functions, arithmetic, with few calls
FLAT_KINDS = ['int', 'int', 'list', 'tree', 'string', 'pair', 'bool', 'option']

FLAT_SHARED = 2 * ['(let $x = {U} in {T x:U})', '{matching}'] + [
    '(if {bool} then {T} else {T})',
    '({unit}; {T})',
] + 4 * ['(let $x = ref {int} in {unit x:cell}; {T x:cell})'] + [
    '(let rec $f $i $a = if $i <= 0 then {T i:int a:T} else {again} in $f {few!} {T})',
    '(let $f $x $y = {T x:int y:T} in if {bool} then $f {int} {T} else (let $x = $f {int} {T} in {T x:T}))',
    '(try {T} with {catches})',
    '(let ($x, $y) = ({int}, {tree}) in {T x:int y:tree})',
]

# a function of the form above goes on in one of these ways
AGAIN = ['$f ($i - 1) {T i:int a:T}', '(if {bool i:int a:T} then $f ($i - 1) {T i:int a:T} else {again})',
         '({unit i:int a:T}; $f ($i - 1) {T i:int a:T})',
         '(let $x = {int i:int a:T} in $f ($i - 1) {T i:int a:T x:int})']

FLAT_BY_KIND = {
    'int': 3 * ['!{cell}', '({int} + {int})'] + [
        '({int} - {int})', '({int} * {int})', '({int} lxor {int})', '({int} land {int})', '({int} lor {int})', '({int} / 7)',
        '({int} mod (-3))', '({int} / 2)', '({int} mod {int})', '(abs {int})', '(succ {int})', '(pred {int})', '(- {int})',
        '(max {int} {int})', '(min {int} {int})', '(compare {int} {int})', 'numbers.(2)', 'numbers.(abs {int} mod 3)',
        '(Char.code {string!}.[{int!}])', '(Char.code "text".[abs {int} mod 4])',
        '({int} lsl 3)', '({int} lsr 1)', '({int} asr 62)', '({int} asr 0)', '(compare {string} {string})', '({int} * 31)',
        '({int} * (-5))', '({int} * 1000)', '({int} + 123456789)', '({int} lxor 98765432123456)', '!total', 'shared.count',
        '(fst {pair})', '(raise A)'],
    'unit': 2 * ['({cell} := {int})', '(incr {cell})', '(decr {cell})', '(for $x = 1 to {few!} do {unit x:int} done)'] + [
        '(for $x = {few!} to 3 do {unit x:int} done)', '(for $x = 3 downto {few!} do {unit x:int} done)',
        '(let $x = ref 0 in while !$x < {few!} do incr $x; {unit} done)',
        '(let $x = ref 0 in while !$x < 3 && {bool} do incr $x; {unit} done)',
        '(numbers.(abs {int} mod 4) <- {int})', '(numbers.(1) <- {int})', '(total := {int})', '(shared.count <- {int})',
        '(show {int})', '()'],
    'bool': ['({int} < {int})', '({int} = {int})', '({int} >= {int})', '({int} <> {int})', '({int} > {int})', '({int} <= {int})',
             '({string} < {string})', '({string} <> {string})', '(not {bool})', '({bool} && {bool})', '({bool} || {bool})'],
    'string': ['(snd {pair})', '{string!}'],
    'list': ['({int} :: {list})'],
}

# items that take much heap, stack or log, or many fibers, or that resume twice
LARGE = [
    'let () = show (match perform Get + {int} with v -> v | effect Get, k ->\n'
    '  let v = continue k {int!} in try v + continue k {int!} with Continuation_already_resumed -> v + 1)\n',
    'let rec build n = if n = 0 then [] else {int!} :: build (n - 1)\nlet () = show (List.length (build {large!}))\n',
    'let () = for i = 1 to 250 do print_string {string!}; show i done\n',
    'let rec sink n = if n = 0 then {int} else (try n + sink (n - 1) with A -> 0)\n'
    'let () = show (try sink {large!} with _ -> 1)\n',
    'let rec nest n = if n = 0 then {int} else match nest (n - 1) with v -> v + 1 | effect (Put _), k -> 0\n'
    'let () = show (try nest 200 with _ -> 1)\n',
]

# the pattern of an effect, the kind of its answer, and what its names stand for
EFFECTS = 2 * [('Get', 'int', {})] + [
    ('(Put $n)', 'unit', {'n': 'int'}), ('(Ask (_, $s))', 'string', {'s': 'string'}),
    ('(Ask (1, $s))', 'string', {'s': 'string'}), ('(Ask {pair})', 'string', {}),
]

DEEP_BODIES = 5 * ['continue $k {R}'] + [
    '(let $y = continue $k {R} in ({unit}; $y))', 'discontinue $k {exception}', '{T}',
    '(let $y = continue $k {R} in (try continue $k {R} with Continuation_already_resumed -> $y))',
]

SHALLOW_BODIES = 4 * ['Effect.Shallow.continue_with $k {R} {shallow}'] + [
    'Effect.Shallow.discontinue_with $k {exception} {shallow}', '{T}',
]

CATCHES = ['A -> {T}', 'B $x -> {T x:int}', 'P (2, $s) -> {T s:string}', 'Failure $s -> {T s:string}', 'Unhandled _ -> {T}',
           'Division_by_zero -> {T}', 'Invalid_argument $s -> {T s:string}', '_ -> {T}']

# in a pattern `{int}` is a pattern of that kind, and `$x` a name of an integer that is the same on both sides
PATTERNS = {
    'int': [str(n) for n in range(8)],
    'string': ['"a"', '"bc"', '""', '"pq"', '"hello wo"'],
    'list': ['[]', '[{int}; {int}]', '({int} :: {list})', '({int} :: {list})', '([$x] | _ :: $x :: _)'],
    'tree': ['Leaf', 'Mark', '(Number {int})', '(Text {string})', '(Fork ({tree}, {tree}))', '(Fork ({tree}, {tree}))',
             '(Number $x | Fork (Number $x, _))'],
    'pair': ['({int}, {string})'],
    'option': ['None', '(Some {int})'],
    'record': ['{ count = {int}; tree = {tree}; name = {string} }'],
}

MATCHED = ['int', 'list', 'tree', 'tree', 'pair', 'option', 'record', 'string']
