#!/usr/bin/env python3
"""Compares all interleavings of small programs with all that the semantics allows. It isn't part of the gate.

    tools/against_interleavings.py PRODUCT DESIGN [FILE..] [--seed N] [--count N] [--domains N] [--fine 1] [--states N] [--jobs N]

PRODUCT is the program, as crates/effects_cli/out/effects_cli, or a command in quotes; DESIGN is the folder of the executable
design of the compiler, whose tests have small programs, the search through all interleavings, and the semantics. It wants gcc.
Programs are those of the design, the files, and random ones, in which domains do a few operations on shared state each.
The listing of each program must be the design's. Then all interleavings of its image are gone through, block by block (an access
to a shared word and what follows of its hart up to the next), or with `--fine 1` with a choice before each access to memory: no
hart is at fault, the log only grows, and the pairs of what is printed and of the end are just those that the semantics has over
all its interleavings. The product's runs in turns of 1, 3 and 10 instructions must be those of the design's simulator. Programs
for which the semantics has too many states are passed over, and told. It ends with status 1 where something differs, or where an
image has more states than N.
"""
import ctypes
import random
import sys

import against_design
import program_cases
from program_cases import Case

SETTINGS = {'heap': 16384, 'stack': 1024, 'out': 1024}
ACCESSES = {'ld', 'sd', 'lbu', 'ecall'}
MOST_ENDS = 256
TURNS = [1, 3, 10]
TOO_MANY = 'the semantics has too many states'
BEHAVES = EXPLORE = None
DOMAINS = STATES = FINE = 0


HEAD = '''open Effect
open Effect.Deep
type _ Effect.t += Wait : unit Effect.t | Ask : int Effect.t
type pair = { mutable left : int; mutable right : int }
let r = ref 0
let a = Atomic.make 0
let pair = { left = 0; right = 0 }
let t = [|0; 0|]
let cell = ref None
let held = Atomic.make None
let park n = (match perform Wait; print_int n with () -> () | effect Wait, k -> Fiberq.push k); 1
let take slot = match Fiberq.take_from slot with None -> 2 | Some k -> continue k (); 3
let hold () = match (try perform Ask with Exit -> 4) with n -> print_int n; n | effect Ask, k -> cell := Some k; 5
let resume n =
  match !cell with
  | None -> 6
  | Some k -> (try (if n = 0 then discontinue k Exit else continue k n) with Continuation_already_resumed -> 7)
let other f = match (try Some (Domain.spawn f) with Failure _ -> None) with Some d -> Domain.join d | None -> 8
'''

# operations of type int on the same state; {op} is another one
THEMES = [
    ['!r', '(r := {op}; 0)', '(r := !r + 1; 0)', '(incr r; !r)', '(decr r; 0)'],
    ['(pair.left <- 1; pair.right)', '(pair.right <- 2; pair.left)', '(pair.left <- {op}; 0)', 'pair.left + 10 * pair.right',
     '(match pair with { left = 0; right = 0 } -> 0 | { left = 1; right = 0 } -> 1 | { left = 0; right = 2 } -> 2 | _ -> 3)'],
    ['(t.(0) <- {op}; t.(1))', '(t.(1) <- 1; t.(0))', '(c_fold (fun x y -> x * 3 + y) 0 t)', '(c_iter print_int t; 0)'],
    ['Atomic.get a', '(Atomic.set a 2; 0)', 'Atomic.exchange a 3', 'Atomic.fetch_and_add a 1', '(Atomic.incr a; 0)',
     '(if Atomic.compare_and_set a 0 {op} then 1 else 0)', '(if Atomic.compare_and_set a 3 1 then 1 else 0)'],
    ['park 0', 'park 1', 'take 0', 'take 1', 'take (Fiberq.self ())', 'take 0'],
    ['hold ()', 'resume 0', 'resume 1', 'resume {op}'],
    ['(Atomic.set held (Some (fun () -> {op})); 0)', '(match Atomic.exchange held None with None -> 1 | Some f -> f ())'],
    ['(print_string "x"; 0)', '(print_string "yz"; 0)', '(print_int {op}; 0)', '(if {op} = 2 then exit 3 else 0)'],
    ['other (fun () -> {op})', '(try other (fun () -> raise Exit) with Exit -> {op})'],
    ['(if {op} = 1 then raise Exit else 0)', '(try {op} with Exit -> 9)',
     '(match c_try (fun () -> {op}) with None -> 8 | Some n -> n)'],
]


def operation(rng, operations, depth):
    """An expression that looks at or changes shared state."""
    found = rng.choice(operations if depth else [one for one in operations if '{op}' not in one] or ['!r'])
    while '{op}' in found:
        found = found.replace('{op}', '(%s)' % operation(rng, operations, depth - 1), 1)
    return found


def sequence(rng, operations):
    """Two or three operations, and all their values."""
    count = rng.choice([2, 2, 3])
    return ''.join('let x%d = %s in ' % (number, operation(rng, operations, 1)) for number in range(count)) + ' + 10 * '.join(
        '(x%d' % number for number in range(count)) + count * ')'


def random_program(seed):
    """A program in which two domains do operations of one or two themes."""
    rng = random.Random(seed)
    operations = [one for theme in rng.sample(THEMES, 2) for one in theme]
    before = rng.choice(['', 'ignore (hold ()); ', 'ignore (park 0); ', 'ignore (hold ()); ignore (park 1); '])
    after = rng.choice(['let z = (try Domain.join d with Exit -> 0) in print_int y; print_int z',
                        'print_int y; print_int (Domain.join d)'])
    form = 'let job () = %s\nlet () =\n  %slet d = Domain.spawn job in\n  let y = %s in\n  %s\n'
    return HEAD + form % (sequence(rng, operations), before, sequence(rng, operations), after)


def begin(product, design, seconds, domains, states, fine):
    global BEHAVES, EXPLORE, DOMAINS, STATES, FINE
    against_design.begin(product, design, seconds)
    DOMAINS, STATES, FINE = domains, states, fine
    import test_behaves
    import test_explore
    BEHAVES, EXPLORE = test_behaves, test_explore


def small_programs(design):
    """The small programs of the design's tests."""
    begin([], design, 0, 0, 0, 0)
    texts = EXPLORE.PROGRAMS + EXPLORE.MORE
    return [Case('small program %d' % number, 'a.ml', text.encode()) for number, text in enumerate(texts)]


def of_semantics(case, domains):
    """All pairs of output and end by the semantics, of texts of exceptions as much as the search keeps; and whether it is all."""
    behaves, _, whole = program_cases.deep(BEHAVES.explore, case.text, domains)
    return {(printed, ('uncaught', end[1][:24]) if end[0] == 'uncaught' else end) for printed, end in behaves}, whole


def of_image(image, states, fine=False):
    """All pairs of output and end of the image, what is wrong, if anything, and how many states there are."""
    if fine:
        image.shared = {4 * number for number, instr in enumerate(image.code)
                        if instr[0] in ACCESSES or instr[0].startswith('amo')}
    run = against_design.DRIVER.sim.Run(image, owners=True)
    found, count = (EXPLORE.Outcome * MOST_ENDS)(), ctypes.c_int(0)
    seen, blocks = ctypes.c_uint64(0), ctypes.c_uint64(0)
    reason = EXPLORE.lib.explore(ctypes.byref(run.m), ctypes.c_uint64(states), found, ctypes.byref(count), MOST_ENDS,
                                 ctypes.byref(seen), ctypes.byref(blocks))
    wrong = [None, 'more than %d states' % states, 'a hart is at fault', 'the log is changed'][reason]
    if count.value == MOST_ENDS:
        wrong = wrong or 'more than %d ends' % MOST_ENDS
    return {EXPLORE.end_of(one) for one in found[:count.value]}, wrong, seen.value


def in_turns(case):
    """What differs in the product's runs in turns, or None."""
    for turns in TURNS:
        words = program_cases.options(dict(case.settings, turns=turns))
        answer = program_cases.answer(against_design.PRODUCT, case, 'run', words, against_design.SECONDS)
        wanted = against_design.DRIVER.execute(['run', case.file] + words, {case.file: case.text})[:3]
        if answer != wanted:
            return '--turns %d: %r, not %r' % (turns, answer, wanted)
    return None


def compare(case):
    """How many states and ends the image has, and what is wrong, or None."""
    image, different = against_design.image_of(case)
    if different:
        return 0, 0, different
    wanted, whole = of_semantics(case, DOMAINS)
    ends, wrong, states = of_image(image, STATES, FINE)
    if whole and ends != wanted:
        wrong = wrong or 'not of the semantics %r; missing %r' % (sorted(ends - wanted), sorted(wanted - ends))
    return states, len(ends), wrong or in_turns(case) or (None if whole else TOO_MANY)


def main():
    numbers = [('--domains', 2, 'how many domains'), ('--states', 20000000, 'states that a program may have'),
               ('--fine', 0, '1: a choice before each access to memory')]
    given = program_cases.arguments(__doc__, 'PRODUCT', 'DESIGN', numbers=numbers)
    cases = small_programs(given.design) + program_cases.of_files(given.files)
    cases += [Case('random small program %d' % seed, 'a.ml', random_program(seed).encode(), seed=seed)
              for seed in range(given.seed, given.seed + given.count)]
    for case in cases:
        case.settings = dict(SETTINGS, domains=given.domains)
    settings = (program_cases.command(given.product), given.design, given.seconds, given.domains, given.states, given.fine)
    total, different, many = 0, 0, 0
    for case, (states, ends, wrong) in zip(cases, program_cases.in_pool(compare, (given.jobs, cases), begin, settings)):
        total += states
        many += wrong == TOO_MANY
        different += wrong not in (None, TOO_MANY)
        print('%s: %d states, %d ends%s' % (case.name, states, ends, '' if wrong is None else ', kept as %s: %s' % (
            program_cases.keep(given.keep, case), wrong)), flush=True)
    print('%d programs, %d states, %d different, %d passed over' % (len(cases), total, different, many))
    sys.exit(1 if different else 0)


if __name__ == '__main__':
    main()
