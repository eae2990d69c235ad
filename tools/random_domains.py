#!/usr/bin/env python3
"""Random programs of three domains whose answer doesn't depend on the interleaving. It isn't part of the gate.

    tools/random_domains.py SEED COUNT FOLDER                                                       writes programs
    tools/random_domains.py PRODUCT DESIGN [FILE..] [--seed N] [--count N] [--runs N] [--jobs N]    compares runs

In the programs domains work on state of their own, by expressions of tools/random_programs.py, and meet in parts of these kinds:
fibers that pause and go on in any domain, taken from queues, some by an exception; several domains that resume one continuation,
of which one does; a fiber of shallow handlers that goes round; exceptions that come through a join; atomic counters, locks and
turns; domains that are started by any domain, as long as there is a slot; the same text printed by all.

PRODUCT is the program, as crates/effects_cli/out/effects_cli, or a command in quotes; DESIGN is the folder of the executable
design of the compiler, which knows where the other implementation of the semantics is. It wants gcc. Each program, by default 60,

- has the same answer by the semantics in turns and in random turns;
- is run by the product in turns of 1, 2, 3, 7, 50 and 1000 instructions: output, status and line must be those;
- has the design's listing, and its image is run in 20 random interleavings, watched by tools/interleavings.py.

Programs that are refused, or that the semantics doesn't finish in 200,000 steps, are passed over. What is wrong is printed, and
the program is kept. It ends with status 1 where something is.
"""
import os
import sys
import tempfile

import against_design
import interleavings
import program_cases
import random_forms as forms
from program_cases import Case, options
from random_programs import Generator, Template

SETTINGS = {'domains': 3, 'heap': 131072, 'stack': 65536, 'out': 8192}
TURNS = [1, 2, 3, 7, 50, 1000]
MOST_STEPS = 200000
MACHINE = None

HEAD = '''type _ Effect.t += Pause : unit Effect.t | Hold : int Effect.t
let sum = Atomic.make 0
let finished = Atomic.make 0
let add n = ignore (Atomic.fetch_and_add sum n)
let quiet n = ()
let pausing left n = if n land 1 = 0 && !left > 0 then begin decr left; perform Pause end
let fiber work number times =
  let left = ref times in
  match work (pausing left) number with
  | n -> add n; Atomic.incr finished
  | effect Pause, k -> Fiberq.push k
let rec serve goal =
  if Atomic.get finished < goal then begin
    (match Fiberq.steal () with Some k -> continue k () | None -> Domain.cpu_relax ());
    serve goal
  end
let three job =
  Atomic.set finished 0;
  let first = Domain.spawn (fun () -> job 1) in
  let second = Domain.spawn (fun () -> job 2) in
  job 3; Domain.join first; Domain.join second
'''

# an expression with state of its own, which is a fiber's or a domain's; what it shows goes into its answer, and may pause it
WORK = '''let $work pause number =
  let total = ref number in
  let shared = { count = number; tree = Leaf; name = "c" } in
  let numbers = [|4; 5; 6|] in
  let waiting = Queue.create () in
  let show n = total := (!total * 3 + n) mod 1000003; pause n in
  let tick n = show n; n in
  let print_string s = show (String.length s) in
  Queue.push number waiting;
  let answer = (try {int number:int} with _ -> 7) in
  (answer lxor !total lxor shared.count lxor weight shared.tree) land 4095
'''

# $n is a small number and $goal three times of it
PARTS = [
    # each domain starts fibers, all go on with them
    '''let $job number =
  for i = 1 to $n do fiber {work} (number * 10 + i) {times} done;
  serve $goal; add ({work} quiet number)
let () = three $job
''',
    # fibers of one domain, which others take, to discontinue some
    '''let $body i = (try perform Pause with Exit -> ()); add ({work} quiet i); Atomic.incr finished
let $park i = match $body i with () -> () | effect Pause, k -> Fiberq.push k
let rec $take i =
  if Atomic.get finished < $n then begin
    (match Fiberq.take_from (i mod Fiberq.slots ()) with
     | Some k -> if Fiberq.self () = 1 then discontinue k Exit else continue k ()
     | None -> Domain.cpu_relax ());
    $take (i + 1)
  end
let $job number = if number = 3 then for i = 1 to $n do $park i done; $take number
let () = three $job
''',
    # stacks that have grown, and exception handlers, go to other domains
    '''let rec $deep n = if n = 0 then begin perform Pause; 1 end else (try 1 + $deep (n - 1) with Exit -> 0)
let $start n = match $deep n with n -> add n; Atomic.incr finished | effect Pause, k -> Fiberq.push k
let $job number = for i = 1 to $n do $start (i * number * {depth}) done; serve $goal
let () = three $job
''',
    # three domains resume one continuation
    '''let $cell = Atomic.make None
let $turn = Atomic.make 0
let $tried = Atomic.make 0
let $late = Atomic.make 0
let $hold i =
  match (let n = (try perform Hold with Exit -> i) in add ({work} quiet (n + i))) with
  | () -> ()
  | effect Hold, k -> Atomic.set $cell (Some k)
let $try number i =
  (match Atomic.get $cell with
   | None -> add 5000
   | Some k ->
     (try if number = 1 then discontinue k Exit else continue k i with Continuation_already_resumed -> Atomic.incr $late));
  Atomic.incr $tried
let rec $wait i = if Atomic.get $turn < i then begin Domain.cpu_relax (); $wait i end
let rec $all i = if Atomic.get $tried < 3 * i then begin Domain.cpu_relax (); $all i end
let $job number =
  for i = 1 to $n do
    if number = 3 then begin $hold i; Atomic.set $turn i end else $wait i;
    $try number i;
    $all i
  done
let () = three $job; show (Atomic.get $late)
''',
    # a fiber of shallow handlers, of which any domain does the next step
    '''let $next = Atomic.make None
let rec $count i n = if i = 0 then n else $count (i - 1) (n + perform Hold)
let $step k =
  Effect.Shallow.continue_with k {few!} { retc = (fun n -> add n; Atomic.incr finished); exnc = raise;
    effc = fun (type a) (eff : a Effect.t) -> match eff with
      | Hold -> Some (fun (k : (a, _) Effect.Shallow.continuation) -> Atomic.set $next (Some k))
      | _ -> None }
let rec $job number =
  if Atomic.get finished < 1 then begin
    (match Atomic.exchange $next None with Some k -> $step k | None -> add ({work} quiet 1 * 0); Domain.cpu_relax ());
    $job number
  end
let () = Atomic.set $next (Some (Effect.Shallow.fiber ($count $goal))); three $job
''',
    # exceptions come through a join
    '''let $answer domain =
  try Domain.join domain with
  | A -> 1 | B n -> n + 2 | P (n, _) -> n + 3 | Failure s -> String.length s | Not_found -> 5 | Exit -> 6
let () =
  let first = Domain.spawn (fun () -> let n = {work} quiet {few!} in if n land 1 = 0 then raise {raised} else n) in
  let second = Domain.spawn (fun () -> let n = $answer first in if n land 3 = 0 then raise {raised} else n + {work} quiet n) in
  add ({work} quiet 3);
  show ($answer second); show ($answer first); show ($answer first)
''',
    # counters, a lock
    '''let $counter = Atomic.make 0
let $lock = Atomic.make false
let $plain = ref 1
let rec $bump n =
  let old = Atomic.get $counter in if not (Atomic.compare_and_set $counter old (old + n)) then $bump n
let rec $locked f =
  if Atomic.exchange $lock true then begin Domain.cpu_relax (); $locked f end else begin f (); Atomic.set $lock false end
let $job number =
  let n = {work} quiet number in
  for i = 1 to $n do $bump (n + i); $locked (fun () -> $plain := !$plain + i * number) done
let () = three $job; show (Atomic.get $counter); show !$plain
''',
    # turns
    '''let $turn = Atomic.make 0
let $value = ref {few!}
let rec $relay own n left =
  if left > 0 then begin
    if Atomic.get $turn = own then begin
      $value := (!$value * 31 + n) mod 1000003;
      Atomic.set $turn ((own + 1) mod 3);
      $relay own n (left - 1)
    end else begin Domain.cpu_relax (); $relay own n left end
  end
let () = three (fun number -> $relay (number mod 3) ({work} quiet number) $n); show !$value
''',
    # domains that any domain starts
    '''let rec $parallel n =
  if n <= 1 then {work} quiet n
  else
    match (try Some (Domain.spawn (fun () -> $parallel (n - 1))) with Failure _ -> None) with
    | Some domain -> let right = $parallel (n - 2) in right + Domain.join domain
    | None -> let right = $parallel (n - 2) in right + $parallel (n - 1)
let () = show ($parallel $n)
''',
    # one text, from all
    '''let () = three (fun number -> for i = 1 to $n do {print} done)
''',
]

PRINTS = ['print_string "abc "', 'print_endline "text"', 'print_int 12345', "print_char 'x'", 'print_newline ()',
          'print_string "more than eight bytes"']


class Domains(Generator):
    """Makes programs of three domains."""

    def make_work(self, template, depth, scope):
        return self.random.choice(self.works)

    def make_times(self, template, depth, scope):
        return str(self.random.randrange(1, 4))

    def make_depth(self, template, depth, scope):
        return str(self.random.choice([1, 5, 20, 60]))

    def make_raised(self, template, depth, scope):
        return self.leaf('exception', [])

    def make_print(self, template, depth, scope):
        return self.random.choice(PRINTS)

    def program(self):
        items, self.works = [forms.HEAD, HEAD], []
        for number in range(self.random.randrange(1, 3)):
            self.form_count = 0
            names = {'work': 'work%d' % number, 'number': 'number'}
            items.append(self.fill(WORK, Template('int', 'int', names=names), self.random.randrange(3, 5), []))
            self.works.append(names['work'])
        for part in self.random.sample(PARTS, 2):
            n = self.random.randrange(2, 5)
            items.append(self.fill(part, Template('int', 'int', names={'n': str(n), 'goal': str(3 * n)}), 0, []))
        items.append('let () = show (Atomic.get sum)\n')
        return ''.join(items)


def program(seed):
    """The program of a seed."""
    return Domains(seed).program()


def case_of(seed):
    """The program of a seed, with its settings."""
    return Case('domains%06d.ml' % seed, 'a.ml', program(seed).encode(), SETTINGS, seed)


def begin(*settings):
    global MACHINE
    interleavings.begin(*settings)
    import machine
    MACHINE = machine


def meaning(case, seed=None):
    """A run by the semantics, or None where it isn't finished."""
    front, _ = against_design.DRIVER.front(case.text, case.file)
    run = MACHINE.run(MACHINE.prepare(front), SETTINGS['domains'], 1000, SETTINGS['out'], seed, MOST_STEPS)
    return None if run.end[0] == 'steps' else run


def in_turns(case, answers, found):
    """The product's runs in turns."""
    outputs, status, line = answers
    for turns in TURNS:
        words = options(dict(case.settings, turns=turns))
        answer = program_cases.answer(against_design.PRODUCT, case, 'run', words, against_design.SECONDS)
        found.counts['runs in turns'] += 1
        if answer != (status, outputs[0], line):
            found.wrong.append('--turns %d: %r, not %r' % (turns, answer, (status, outputs[0], line)))


def answers_of(case):
    """The outputs that may be, the status and the line on standard error, or None where the run isn't finished."""
    run = program_cases.deep(meaning, case)
    if run is None:
        return None
    other = program_cases.deep(meaning, case, case.seed)
    outputs = {bytes(run.out), bytes(other.out)} if other else {bytes(run.out)}
    return (list(outputs),) + against_design.DRIVER.sim.status(run.end)


def compare(case):
    found = interleavings.Found()
    image, different = against_design.image_of(case)
    if different:
        found.wrong.append(different)
    answers = answers_of(case) if image and not different else None
    if answers is None:
        found.counts['passed over'] = 1
        return found
    if len(answers[0]) > 1:
        found.wrong.append('the semantics has the outputs %r' % answers[0])
    found.counts['status %d' % answers[1]] = 1
    in_turns(case, answers, found)
    for number, mode in enumerate(interleavings.MODES):
        seeds = range(case.seed + number, case.seed + interleavings.RUNS, len(interleavings.MODES))
        interleavings.in_mode(image, answers, mode, seeds, interleavings.STEPS, True, found)
    return found


def write(seed, count, folder):
    os.makedirs(folder, exist_ok=True)
    for number in range(seed, seed + count):
        with open(os.path.join(folder, 'domains%06d.ml' % number), 'w') as file:
            file.write(program(number))


def main():
    if len(sys.argv) == 4 and sys.argv[1].isdigit():
        write(int(sys.argv[1]), int(sys.argv[2]), sys.argv[3])
        return
    numbers = [('--runs', 20, 'random interleavings of a program')]
    given = program_cases.arguments(__doc__, 'PRODUCT', 'DESIGN', numbers=numbers)
    cases = program_cases.of_files(given.files)
    for case in cases:
        case.settings = SETTINGS
    count = given.count or (0 if cases else 60)
    cases += [case_of(seed) for seed in range(given.seed, given.seed + count)]
    with tempfile.TemporaryDirectory() as folder:
        settings = (program_cases.command(given.product), given.design, given.seconds,
                    interleavings.built(given.design, folder), given.runs, 30000000)
        found = program_cases.in_pool(compare, (given.jobs, cases), begin, settings)
        sys.exit(1 if interleavings.report(found, given, cases) else 0)


if __name__ == '__main__':
    main()
