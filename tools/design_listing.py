#!/usr/bin/env python3
"""The executable design of the compiler, with the constants of this repository's assembler. It isn't part of the gate.

    tools/design_listing.py DESIGN WORDS..

DESIGN is the folder of the design (driver.py, rv_asm.py, image_build.py); WORDS are those of the product: check, run or asm, a
file and options. So that its listings are to be the same, byte by byte, the design is changed here in six ways:

- it makes shorter constants than this assembler (crates/rv_asm/specs/Constant.antt), and takes a label's address by LUI and ADDI;
- its code may end with a label, behind which an instruction stands here;
- what lives on is stored in the order of the numbers of slots, the closure last, where it takes the numbers as texts;
- an item's pattern that is a name alone can't fail, so no failure follows it;
- behind `raise` and its like, where nothing is reached, there is a frame if its parts made one;
- where a group of closures finds no register, the frame comes before the closure is allocated: a stack that grows takes the
  register of new blocks.
"""
import os
import sys

import command_words


class Address(int):
    """The number of a register that gets the address of a label."""


def signed(value, bits):
    value %= 1 << bits
    return value - (1 << bits) if value >> bits - 1 else value


def pair(register, value):
    """The low 32 bits of a number, their sign extended."""
    upper = (value + (1 << 11) >> 12) % (1 << 20)
    return [('lui', register, 0, 0, upper), ('addiw', register, register, 0, signed(value, 12))]


def constant(register, value):
    """One, two or eight instructions that put a number into a register."""
    if signed(value, 64) == signed(value, 12):
        return [('addi', register, 0, 0, signed(value, 12))]
    if signed(value, 64) == signed(value, 32):
        return pair(register, value)
    value %= 1 << 64
    code = pair(register, value >> 32)
    for bits, part in (11, value >> 21), (11, value >> 10), (10, value):
        code += [('slli', register, register, 0, bits), ('addi', register, register, 0, part % (1 << bits))]
    return code


def assembler(assemble):
    """The design's assembler, with ADDIW where the address of a label is taken."""
    def assemble_as_here(lines):
        marked = [('codeof', Address(line[1]), line[2]) if line[0] == 'codeof' else line for line in lines]
        if [line for line in lines if line[0] not in ('note', 'shared')][-1][0] == 'label':
            marked.append(('plain', 'addi', 0, 0, 0, 0))
        code, places = assemble(marked)
        return [('addiw',) + instr[1:] if instr[0] == 'addi' and isinstance(instr[1], Address) else instr
                for instr in code], places
    assemble_as_here.shared, assemble_as_here.steps = assemble.shared, assemble.steps
    return assemble_as_here


def save(places, state, live, form):
    """Stores what lives on and is in a register alone, by the numbers of slots."""
    from rv_places import CLOSURE, State
    import rv_labels
    state = places.frame(state, rv_labels.room(form))
    for slot in sorted(state.dirty & live, key=lambda slot: (slot == CLOSURE, str(slot) if slot == CLOSURE else slot)):
        places.c.sd(state.regs[slot], places.home(slot), rt_register('SP'))
    return State(state.regs, state.dirty - live, True)


def total(test):
    """Whether a test succeeds on every value."""
    import match_lower
    return test[0] == 'bindg' or match_lower.total(test)


def end(select, form, state, live, out):
    """`raise` and its like."""
    from rv_places import POOL, State
    _, operation, depth, parts = form
    values, behind = select.parts(form, depth, parts, state, frozenset(), [rt_register('A0')])
    select.end_lines(operation, values[0], behind)
    framed = state.framed or behind.framed
    return (out if out in POOL else rt_register('A0')), State(state.regs, state.dirty, framed)


def rt_register(name):
    import rt_layout
    return getattr(rt_layout, name)


def group(select, form, state, live, out):
    """Closures that know each other: a frame that one needs comes before it is allocated."""
    from rv_places import POOL
    from low_facts import uses
    import rv_labels
    _, depth, functions, body = form
    here = live | uses(body) | uses(form) | frozenset(range(depth, depth + len(functions)))
    new = rt_register('NEW')
    for number, (function, captures) in enumerate(functions):
        if len(state.used(here)) + 1 < len(POOL):
            select.new_closure(new, function, len(captures))
            register = select.pick(state, here)
            select.c.mv(register, new)
            state = state.plus(depth + number, register)
        else:
            state = select.frame(state, rv_labels.room(form))
            select.new_closure(new, function, len(captures))
            select.c.sd(new, select.home(depth + number), rt_register('SP'))
            state = state.minus(depth + number)
    for number, (function, captures) in enumerate(functions):
        if captures:
            select.captures(captures, select.operand(('slot', depth + number), state, new), state)
    return select.value(body, state, live, out)


def load(folder):
    """The design's driver."""
    sys.dont_write_bytecode = True
    sys.path.insert(0, os.path.abspath(folder))
    import driver
    import image_build
    import rv_asm
    import rv_places
    import rv_select
    rv_asm.const = constant
    image_build.assemble = assembler(rv_asm.assemble)
    rv_places.Places.save = save
    rv_select.Select.v_letrec = group
    rv_select.Select.v_end = end
    rv_select.total = total
    return driver


def main():
    command_words.begin(__doc__, 'DESIGN', 'WORDS')
    status, out, err, _, _ = load(sys.argv[1]).execute(sys.argv[2:])
    sys.stdout.buffer.write(out)
    sys.stderr.buffer.write(err)
    sys.stdout.flush()
    sys.stderr.flush()
    os._exit(status)


if __name__ == '__main__':
    main()
