#!/usr/bin/env python3
"""Writes random programs that have types and come to an end. It isn't part of the gate.

    tools/random_programs.py SEED COUNT FOLDER [--ocaml]

The program of a seed is always the same. Those of even seeds are of effects, exceptions, handlers of all kinds, calls back from
C, patterns, closures and stacks that grow; those of odd seeds live in registers: loops, references that don't escape, local
functions and arithmetic, with few calls. The forms are in tools/random_forms.py. With --ocaml each continuation has the
annotation that OCaml wants, and no pair of two expressions stands between `match` and `with`: OCaml evaluates its parts in
another order.
"""
import os
import random
import re
import sys

import command_words
import random_forms as forms

HOLE = re.compile(r'\{(\w+)(!?)((?: \w+:\w+)*)\}|\$(\w+)')
MOST_FORMS = 500        # then only leaves are made
NUMBERS = {'few': [0, 1, 2, 3], 'many': [1, 20, 60, 150, 400], 'large': [700, 2500, 6000]}
SHOWN = 3 * ['show (try %s with Exit -> 1 | _ -> 0)'] + ['show (try %s with Exit -> 1)', 'show %s']


class Template:
    """The names and kinds of one use of a template."""

    def __init__(self, wanted, chosen, answer=None, names=None):
        self.kinds = {'T': wanted, 'U': chosen, 'R': answer}
        self.names = {} if names is None else names

    def kind(self, word):
        return self.kinds.get(word) or word


class Generator:
    def __init__(self, seed, for_ocaml=False):
        self.random = random.Random(seed)
        self.for_ocaml = for_ocaml
        self.flat = seed % 2 == 1
        self.calls = self.random.choice([0, 0, 0.05, 0.2])
        self.name_count = self.form_count = 0

    def fresh(self):
        self.name_count += 1
        return 'x%d' % self.name_count

    def chance(self, share):
        return self.random.random() < share

    def name(self, template, word):
        if word not in template.names:
            template.names[word] = self.fresh()
        return template.names[word]

    # Expressions

    def leaf(self, kind, scope):
        if kind in NUMBERS:
            return str(self.random.choice(NUMBERS[kind]))
        names = [name for name, of in scope if of == kind]
        if names and (kind == 'cell' or self.chance(0.75)):
            return self.random.choice(names)
        return self.random.choice(forms.LEAVES[kind])

    def form(self, kind, scope):
        """A template for an expression of this kind."""
        flat = self.flat and not self.chance(self.calls)
        if self.chance(0.45):
            table = forms.FLAT_SHARED if flat else forms.SHARED
        else:
            table = (forms.FLAT_BY_KIND if flat else forms.BY_KIND).get(kind, forms.BY_KIND[kind])
        if not any(of == 'cell' for _, of in scope):
            table = [form for form in table if '{cell}' not in form]
        return self.random.choice(table)

    def expression(self, kind, depth, scope):
        self.form_count += 1
        if depth <= 0 or kind == 'cell' or self.form_count > MOST_FORMS:
            return self.leaf(kind, scope)
        template = Template(kind, self.random.choice(forms.FLAT_KINDS if self.flat else forms.KINDS))
        return self.fill(self.form(kind, scope), template, depth - 1, scope)

    def fill(self, text, template, depth, scope):
        """The text with its holes filled."""
        def part(hole):
            word, leaf, names, name = hole.groups()
            if name:
                return self.name(template, name)
            pairs = [pair.split(':') for pair in names.split()]
            inner = scope + [(self.name(template, name), template.kind(kind)) for name, kind in pairs]
            special = getattr(self, 'make_' + word, None)
            if special:
                return special(template, depth, inner)
            return self.expression(template.kind(word), 0 if leaf else depth, inner)
        return HOLE.sub(part, text)

    def make_again(self, template, depth, scope):
        """The next round of a function: its own names stay, others are new."""
        own = {word: template.names[word] for word in ('f', 'i', 'a')}
        ways = forms.AGAIN if depth > 0 else forms.AGAIN[:1]
        kind = template.kinds['T']
        return self.fill(self.random.choice(ways), Template(kind, kind, names=own), depth - 1, scope)

    # Patterns

    def pattern(self, kind, depth, bound):
        """A pattern, whose names go to the list; none are bound where there is no list."""
        choice = self.random.random()
        if choice < 0.2 and bound is not None:
            bound.append((self.fresh(), kind))
            return bound[-1][0]
        if choice < 0.35 or depth <= 0:
            return '_'
        if choice < 0.45 and bound is not None:
            name = self.fresh()
            inner = self.pattern(kind, depth - 1, bound)
            bound.append((name, kind))
            return '(%s as %s)' % (inner, name)
        if choice < 0.6:
            return '(%s | %s)' % (self.pattern(kind, depth - 1, None), self.pattern(kind, depth - 1, None))
        table = forms.PATTERNS[kind]
        if bound is None:
            table = [text for text in table if '$' not in text]
        return self.fill_pattern(self.random.choice(table), depth, bound)

    def fill_pattern(self, text, depth, bound):
        if '$x' in text:
            bound.append((self.fresh(), 'int'))
            text = text.replace('$x', bound[-1][0])
        return re.sub(r'\{(\w+)\}', lambda hole: self.pattern(hole.group(1), depth - 1, bound), text)

    def make_matching(self, template, depth, scope):
        kind = self.random.choice(forms.MATCHED)
        value = 'shared' if kind == 'record' else self.expression(kind, depth, scope)
        wanted = template.kinds['T']
        clauses = [self.clause(kind, wanted, depth, scope) for _ in range(self.random.randrange(1, 4))]
        if self.chance(0.8):
            clauses.append('_ -> ' + self.expression(wanted, depth, scope))
        if self.for_ocaml and kind == 'pair':
            name = self.fresh()
            return '(let %s = %s in match %s with %s)' % (name, value, name, ' | '.join(clauses))
        return '(match %s with %s)' % (value, ' | '.join(clauses))

    def clause(self, kind, wanted, depth, scope):
        bound = []
        text = self.pattern(kind, 4, bound)
        inner = scope + [pair for pair in bound if pair[1] != 'record']
        if self.chance(0.25):
            text += ' when ' + self.expression('bool', depth - 1, inner)
        return '%s -> %s' % (text, self.expression(wanted, depth, inner))

    # Exceptions and effects

    def make_catches(self, template, depth, scope):
        kind = template.kinds['T']
        clauses = self.random.choices(forms.CATCHES, k=self.random.randrange(1, 3))
        return ' | '.join(self.fill(text, Template(kind, kind), depth, scope) for text in clauses)

    def make_exceptions(self, template, depth, scope):
        """Nothing, or clauses for exceptions behind others."""
        if self.chance(0.6):
            return ''
        kind = template.kinds['T']
        return ' | exception ' + self.fill(self.random.choice(forms.CATCHES), Template(kind, kind), depth, scope)

    def effect(self):
        """The pattern of an effect, the kind of its answer, and its names."""
        text, answer, kinds = self.random.choice(forms.EFFECTS)
        bound = []
        for word, kind in kinds.items():
            bound.append((self.fresh(), kind))
            text = text.replace('$' + word, bound[-1][0])
        return self.fill_pattern(text, 3, bound), answer, bound

    def body(self, table, template, answer, names, depth, scope):
        inner = Template(template.kinds['T'], template.kinds['U'], answer, names)
        return self.fill(self.random.choice(table), inner, depth, scope)

    def make_effects(self, template, depth, scope):
        """Clauses for effects."""
        found = []
        for _ in range(self.random.randrange(1, 4)):
            text, answer, bound = self.effect()
            k = self.fresh()
            body = self.body(forms.DEEP_BODIES, template, answer, {'k': k}, depth, scope + bound)
            told = 'let %s : (%s, _) continuation = %s in ' % (k, answer, k) if self.for_ocaml else ''
            found.append(' | effect %s, %s -> %s%s' % (text, k, told, body))
        return ''.join(found)

    def rules(self, bodies, module, template, depth, scope):
        """The function of a handler literal that answers effects."""
        found = []
        for _ in range(self.random.randrange(1, 3)):
            text, answer, bound = self.effect()
            k = self.fresh()
            body = self.body(bodies, template, answer, {'k': k}, depth, scope + bound)
            found.append('| %s -> Some (fun (%s : (a, _) %scontinuation) -> %s)' % (text, k, module, body))
        return 'fun (type a) (eff : a Effect.t) -> match eff with %s | _ -> None' % ' '.join(found)

    def make_rules(self, template, depth, scope):
        return self.rules(forms.DEEP_BODIES, '', template, depth, scope)

    def handler(self, rules, template, depth, scope):
        raised = self.random.choice(['raise', '(fun e -> raise e)', '(function {catches} | e -> raise e)'])
        text = '{ retc = (fun $r -> {T r:U}); exnc = %s; effc = ' % raised
        inner = Template(template.kinds['T'], template.kinds['U'])
        return self.fill(text, inner, depth, scope) + rules + ' }'

    def make_literal(self, template, depth, scope):
        return self.handler(self.make_rules(template, depth, scope), template, depth, scope)

    def make_shallow(self, template, depth, scope):
        """A handler of one step; it answers no effects where there is no depth left."""
        bodies = forms.SHALLOW_BODIES if depth > 0 and self.form_count < MOST_FORMS else ['{T}']
        rules = self.rules(bodies, 'Effect.Shallow.', template, depth - 1, scope)
        return self.handler(rules, template, depth, scope)

    # Programs

    def program(self):
        items, scope = [forms.HEAD], []
        for _ in range(self.random.randrange(1, 4)):
            name, kind = self.fresh(), self.random.choice(['int', 'function', 'tree', 'list', 'string'])
            value = self.expression(kind, self.random.randrange(2, 5), scope)
            items.append('let %s = try %s with _ -> %s\n' % (name, value, self.leaf(kind, scope)))
            scope.append((name, kind))
        if self.chance(0.4):
            items.append(self.fill(self.random.choice(forms.LARGE), Template('int', 'int'), 2, scope))
        for _ in range(3):
            self.form_count = 0
            shown = self.random.choice(SHOWN)
            items.append('let () = %s\n' % (shown % self.expression('int', self.random.randrange(3, 7), scope)))
        last = self.random.choice(['try %s with _ -> print_string "!"', '%s'])
        effect = self.expression('unit', self.random.randrange(3, 6), scope)
        items.append('let () = %s\n' % (last % effect))
        items.append('let () = show (weight shared.tree + shared.count + !total)\n')
        return ''.join(items)


def program(seed, for_ocaml=False):
    """The program of a seed."""
    return Generator(seed, for_ocaml).program()


def main():
    command_words.begin(__doc__, 'SEED', 'COUNT', 'FOLDER')
    seed, count, folder = [word for word in sys.argv[1:] if word != '--ocaml'][:3]
    seed, count = int(seed), int(count)
    os.makedirs(folder, exist_ok=True)
    for number in range(seed, seed + count):
        with open(os.path.join(folder, 'random%06d.ml' % number), 'w') as file:
            file.write(program(number, '--ocaml' in sys.argv))


if __name__ == '__main__':
    main()
