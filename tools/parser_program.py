"""Builds a small program over ml_parser in a temporary folder, and runs it.

The program that answers reads the texts on standard input, each behind its length in four bytes, and prints an answer to
each, which ends with a line of a dot. `syntax`, a line and a column, `limit depth`, what was found and the
bound, and `memory` are refusals. A program is `ok`, its depth, `same` where the text that ml_syntax prints of
it is read as the same program again and printed as the same text (else `other`), and a digest of its lines:
one for each node of the arena and one for each item. With the word `lines` it prints the lines too.

The program that measures reads standard input as one text, and prints the nanoseconds of lexing, those of lexing
and parsing, and the counts of tokens and nodes.
"""
import os
import shutil
import struct
import subprocess
import tempfile

ROOT = os.path.dirname(os.path.dirname(os.path.abspath(__file__)))

# each with what it stands on, lowest first
CRATES = [
    ('fx_base', 'thiserror'),
    ('ml_lexer', 'fx_base'),
    ('ml_syntax', 'fx_base ml_lexer'),
    ('ml_builder', 'fx_base ml_lexer ml_syntax'),
    ('ml_moves', 'ml_syntax ml_builder'),
    ('ml_parser', 'fx_base ml_lexer ml_syntax ml_builder ml_moves'),
]

MAIN = r'''//! Parses standard input.
#![tactic(auto)]

mod arena;

use fx_base::{LimitKind, Refusal};
use ml_lexer::lex;
use ml_parser::parse;
use ml_syntax::{Prog, depth, print};
use std::alloc::Global;
use std::env;
use std::io::{self, Read};

const LIMIT: usize = 16_777_216;

fn prog_of(alloc: Global, text: &[u8]) -> Result<Prog, Refusal> {
    if text.len() > LIMIT {
        return Err(Refusal::Usage);
    }
    let tokens = lex(alloc, text)?;
    parse(alloc, &tokens)
}

// Whether what is printed of a program is read as the same program, and printed as the same text.
fn is_kept(alloc: Global, prog: &Prog, lines: &[u8]) -> Result<bool, Refusal> {
    let text = print(alloc, prog)?;
    let again = prog_of(alloc, text.as_slice())?;
    let printed = print(alloc, &again)?;
    let mut others = Vec::new(alloc);
    if arena::describe(&mut others, &again).is_err() {
        return Err(Refusal::Memory);
    }
    Ok(printed.as_slice() == text.as_slice() && others.as_slice() == lines)
}

fn digest_of(lines: &[u8]) -> u64 {
    let mut digest: u64 = 14_695_981_039_346_656_037;
    for byte in lines {
        digest = (digest ^ u64::from(*byte)).wrapping_mul(1_099_511_628_211);
    }
    digest
}

fn print_prog(rt: &HostRuntime, prog: &Prog, with_lines: bool) -> io::Result<()> {
    let mut lines = Vec::new(rt.alloc());
    arena::describe(&mut lines, prog)?;
    let word = match is_kept(rt.alloc(), prog, lines.as_slice()) {
        Ok(true) => "same",
        _ => "other",
    };
    println!(rt; "ok {} {} {}", depth(prog), word, digest_of(lines.as_slice()))?;
    if with_lines {
        print!(rt; "{}", str::from_utf8(lines.as_slice()).unwrap_or("no text\n"))?;
    }
    Ok(())
}

fn print_answer(rt: &HostRuntime, text: &[u8], with_lines: bool) -> io::Result<()> {
    match prog_of(rt.alloc(), text) {
        Ok(prog) => print_prog(rt, &prog, with_lines)?,
        Err(Refusal::Syntax(place)) => println!(rt; "syntax {} {}", place.line, place.column)?,
        Err(Refusal::Limit {
            kind: LimitKind::Depth,
            found,
            bound,
        }) => println!(rt; "limit depth {} {}", found, bound)?,
        Err(Refusal::Memory) => println!(rt; "memory")?,
        Err(_) => println!(rt; "another refusal")?,
    }
    println!(rt; ".")
}

fn print_each(rt: &HostRuntime, input: &[u8], with_lines: bool) -> io::Result<()> {
    let mut rest = input;
    for _ in 0..input.len() {
        let [a, b, c, d, tail @ ..] = rest else {
            break;
        };
        let length = u32::from_le_bytes([*a, *b, *c, *d]) as usize;
        if length > tail.len() {
            return rt.println("short");
        }
        print_answer(rt, &tail[..length], with_lines)?;
        rest = &tail[length..];
    }
    Ok(())
}

fn main(rt: HostRuntime) -> io::Result<()> {
    let mut input = Vec::new(rt.alloc());
    rt.reader().read_to_end(&mut input)?;
    let word = env::args(&rt)?.nth(1);
    print_each(&rt, &input, word.is_some())
}
'''

ARENA = r'''//! The nodes and items of a program, a line each.

use ml_syntax::{
    BinaryOperator, Binding, Clause, ConstructorDefinition, EffectRule, Item, Literal, LiteralKind,
    LongName, Name, NamedPart, Node, Prog, TypeBody, TypeDefinition,
};
use std::io::{self, Write};

type Out = Vec<u8>;

fn quoted(out: &mut Out, text: &[u8]) -> io::Result<()> {
    out.push(b'"')?;
    out.extend_from_slice(text)?;
    out.push(b'"')?;
    Ok(())
}

fn name(out: &mut Out, name: &Name) -> io::Result<()> {
    quoted(out, name.text.as_slice())
}

fn long(out: &mut Out, long: &LongName) -> io::Result<()> {
    for part in long.path.as_slice() {
        quoted(out, part.as_slice())?;
        out.push(b'.')?;
    }
    name(out, &long.last)
}

fn numbers(out: &mut Out, parts: &[u32]) -> io::Result<()> {
    out.push(b'[')?;
    for part in parts {
        write!(out, "{part} ")?;
    }
    out.push(b']')?;
    Ok(())
}

fn maybe(out: &mut Out, part: Option<u32>) -> io::Result<()> {
    match part {
        Some(part) => write!(out, "{part}"),
        None => write!(out, "-"),
    }
}

fn flag(out: &mut Out, is_set: bool) -> io::Result<()> {
    out.push(if is_set { b't' } else { b'f' })?;
    Ok(())
}

fn fields(out: &mut Out, fields: &[NamedPart]) -> io::Result<()> {
    out.push(b'{')?;
    for field in fields {
        name(out, &field.name)?;
        write!(out, "={} ", field.part)?;
    }
    out.push(b'}')?;
    Ok(())
}

fn literal(out: &mut Out, literal: &Literal) -> io::Result<()> {
    let kind = match literal.kind {
        LiteralKind::Integer => "int ",
        LiteralKind::Character => "char ",
        LiteralKind::Text => "string ",
        LiteralKind::True => "true ",
        LiteralKind::False => "false ",
    };
    write!(out, "{kind}")?;
    for byte in literal.text.as_slice() {
        write!(out, "{:02x}", *byte)?;
    }
    Ok(())
}

fn operator(operator: BinaryOperator) -> &'static str {
    match operator {
        BinaryOperator::ShiftLeft => "lsl",
        BinaryOperator::ShiftRightLogical => "lsr",
        BinaryOperator::ShiftRightArithmetic => "asr",
        BinaryOperator::Multiply => "*",
        BinaryOperator::Divide => "/",
        BinaryOperator::Modulo => "mod",
        BinaryOperator::LogicalAnd => "land",
        BinaryOperator::LogicalOr => "lor",
        BinaryOperator::LogicalXor => "lxor",
        BinaryOperator::Add => "+",
        BinaryOperator::Subtract => "-",
        BinaryOperator::Cons => "::",
        BinaryOperator::Concatenate => "^",
        BinaryOperator::Append => "@",
        BinaryOperator::ApplyTo => "@@",
        BinaryOperator::Equal => "=",
        BinaryOperator::Different => "<>",
        BinaryOperator::Same => "==",
        BinaryOperator::NotSame => "!=",
        BinaryOperator::Below => "<",
        BinaryOperator::Above => ">",
        BinaryOperator::AtMost => "<=",
        BinaryOperator::AtLeast => ">=",
        BinaryOperator::Pipe => "|>",
        BinaryOperator::And => "&&",
        BinaryOperator::Or => "||",
        BinaryOperator::Assign => ":=",
    }
}

fn guarded(out: &mut Out, pattern: u32, guard: Option<u32>, body: u32) -> io::Result<()> {
    write!(out, " {pattern} ")?;
    maybe(out, guard)?;
    write!(out, " {body})")
}

fn clauses(out: &mut Out, clauses: &[Clause]) -> io::Result<()> {
    for clause in clauses {
        match clause {
            Clause::Value { pattern, guard, body } => {
                write!(out, "(v")?;
                guarded(out, *pattern, *guard, *body)?;
            }
            Clause::Exception { pattern, guard, body, .. } => {
                write!(out, "(x")?;
                guarded(out, *pattern, *guard, *body)?;
            }
            Clause::Effect { pattern, continuation, body, .. } => {
                write!(out, "(e {pattern} {continuation} {body})")?;
            }
        }
    }
    Ok(())
}

fn bindings(out: &mut Out, bindings: &[Binding]) -> io::Result<()> {
    for binding in bindings {
        match binding {
            Binding::Pattern { pattern, body } => write!(out, "(p {pattern} {body})")?,
            Binding::Named { name: bound, parameters, annotation, body } => {
                write!(out, "(n ")?;
                name(out, bound)?;
                numbers(out, parameters.as_slice())?;
                maybe(out, *annotation)?;
                write!(out, " {body})")?;
            }
        }
    }
    Ok(())
}

fn rules(out: &mut Out, rules: &[EffectRule]) -> io::Result<()> {
    for rule in rules {
        write!(out, "({} {})", rule.pattern, rule.answer)?;
    }
    Ok(())
}

fn name_or_none(out: &mut Out, found: Option<&Name>) -> io::Result<()> {
    match found {
        Some(found) => name(out, found),
        None => write!(out, "-"),
    }
}

fn applied(out: &mut Out, word: &str, constructor: &LongName, argument: u32) -> io::Result<()> {
    write!(out, "{word} ")?;
    long(out, constructor)?;
    write!(out, " {argument}")
}

fn worded(out: &mut Out, word: &str, found: &[u8]) -> io::Result<()> {
    write!(out, "{word} ")?;
    quoted(out, found)
}

fn named(out: &mut Out, word: &str, found: &LongName) -> io::Result<()> {
    write!(out, "{word} ")?;
    long(out, found)
}

fn listed(out: &mut Out, word: &str, parts: &[u32]) -> io::Result<()> {
    write!(out, "{word} ")?;
    numbers(out, parts)
}

fn constant(out: &mut Out, word: &str, found: &Literal) -> io::Result<()> {
    write!(out, "{word} ")?;
    literal(out, found)
}

fn described(out: &mut Out, node: &Node) -> io::Result<()> {
    match node {
        Node::TypeVariable { name, .. } => worded(out, "TypeVariable", name.as_slice()),
        Node::TypeAny { .. } => write!(out, "TypeAny"),
        Node::TypeName { name } => named(out, "TypeName", name),
        Node::TypeApply { arguments, constructor } => {
            listed(out, "TypeApply", arguments.as_slice())?;
            write!(out, " ")?;
            long(out, constructor)
        }
        Node::TypeBracket { inner, .. } => write!(out, "TypeBracket {inner}"),
        Node::TypeTuple { parts, .. } => listed(out, "TypeTuple", parts.as_slice()),
        Node::TypeArrow { argument, result, .. } => write!(out, "TypeArrow {argument} {result}"),
        Node::PatternAny { .. } => write!(out, "PatternAny"),
        Node::PatternName { name, .. } => worded(out, "PatternName", name.as_slice()),
        Node::PatternConstant { literal, .. } => constant(out, "PatternConstant", literal),
        Node::PatternUnit { .. } => write!(out, "PatternUnit"),
        Node::PatternBracket { inner, .. } => write!(out, "PatternBracket {inner}"),
        Node::PatternAnnotated { inner, annotation, .. } => write!(out, "PatternAnnotated {inner} {annotation}"),
        Node::PatternList { parts, .. } => listed(out, "PatternList", parts.as_slice()),
        Node::PatternRecord { fields: parts, is_open, .. } => {
            write!(out, "PatternRecord ")?;
            fields(out, parts.as_slice())?;
            write!(out, " ")?;
            flag(out, *is_open)
        }
        Node::PatternConstructor { name } => named(out, "PatternConstructor", name),
        Node::PatternConstruct { constructor, argument } => applied(out, "PatternConstruct", constructor, *argument),
        Node::PatternCons { head, tail, .. } => write!(out, "PatternCons {head} {tail}"),
        Node::PatternTuple { parts, .. } => listed(out, "PatternTuple", parts.as_slice()),
        Node::PatternOr { left, right, .. } => write!(out, "PatternOr {left} {right}"),
        Node::PatternAlias { pattern, name: alias, .. } => {
            write!(out, "PatternAlias {pattern} ")?;
            name(out, alias)
        }
        Node::Variable { name } => named(out, "Variable", name),
        Node::Constructor { name } => named(out, "Constructor", name),
        Node::Constant { literal, .. } => constant(out, "Constant", literal),
        Node::LeastInteger { text, .. } => worded(out, "LeastInteger", text.as_slice()),
        Node::Unit { .. } => write!(out, "Unit"),
        Node::Bracket { inner, .. } => write!(out, "Bracket {inner}"),
        Node::BeginEnd { inner, .. } => write!(out, "BeginEnd {inner}"),
        Node::Annotated { inner, annotation, .. } => write!(out, "Annotated {inner} {annotation}"),
        Node::List { parts, .. } => listed(out, "List", parts.as_slice()),
        Node::Array { parts, .. } => listed(out, "Array", parts.as_slice()),
        Node::Record { fields: parts, .. } => {
            write!(out, "Record ")?;
            fields(out, parts.as_slice())
        }
        Node::While { condition, body, .. } => write!(out, "While {condition} {body}"),
        Node::For { name: counter, first, is_downward, last, body, .. } => {
            write!(out, "For ")?;
            name(out, counter)?;
            write!(out, " {first} ")?;
            flag(out, *is_downward)?;
            write!(out, " {last} {body}")
        }
        Node::Dereference { operand, .. } => write!(out, "Dereference {operand}"),
        Node::Field { record, field } => {
            write!(out, "Field {record} ")?;
            name(out, field)
        }
        Node::ArrayElement { array, index, .. } => write!(out, "ArrayElement {array} {index}"),
        Node::StringElement { string, index, .. } => write!(out, "StringElement {string} {index}"),
        Node::Apply { function, arguments } => {
            write!(out, "Apply {function} ")?;
            numbers(out, arguments.as_slice())
        }
        Node::Construct { constructor, argument } => applied(out, "Construct", constructor, *argument),
        Node::Handle { function, first, second, handler } => {
            named(out, "Handle", function)?;
            write!(out, " {first} {second} {handler}")
        }
        Node::Handler { fields: parts, .. } => {
            write!(out, "Handler ")?;
            fields(out, parts.as_slice())
        }
        Node::EffectFunction { type_name, parameter, cases, .. } => {
            write!(out, "EffectFunction ")?;
            name_or_none(out, type_name.as_ref())?;
            write!(out, " {parameter} {cases}")
        }
        Node::EffectCases { subject, rules: cases, otherwise, .. } => {
            write!(out, "EffectCases ")?;
            name_or_none(out, subject.as_ref())?;
            write!(out, " ")?;
            rules(out, cases.as_slice())?;
            write!(out, " {otherwise}")
        }
        Node::Resumption { parameter, body, .. } => write!(out, "Resumption {parameter} {body}"),
        Node::Negate { operand, .. } => write!(out, "Negate {operand}"),
        Node::Binary { operator: sign, left, right, .. } => write!(out, "Binary {} {left} {right}", operator(*sign)),
        Node::Tuple { parts, .. } => listed(out, "Tuple", parts.as_slice()),
        Node::SetField { record, field, value, .. } => {
            write!(out, "SetField {record} ")?;
            name(out, field)?;
            write!(out, " {value}")
        }
        Node::SetElement { array, index, value, .. } => write!(out, "SetElement {array} {index} {value}"),
        Node::Sequence { parts, .. } => listed(out, "Sequence", parts.as_slice()),
        Node::If { condition, consequence, alternative, .. } => {
            write!(out, "If {condition} {consequence} ")?;
            maybe(out, *alternative)
        }
        Node::Let { is_recursive, bindings: bound, body, .. } => {
            write!(out, "Let ")?;
            flag(out, *is_recursive)?;
            write!(out, " ")?;
            bindings(out, bound.as_slice())?;
            write!(out, " {body}")
        }
        Node::Match { subject, clauses: cases, .. } => {
            write!(out, "Match {subject} ")?;
            clauses(out, cases.as_slice())
        }
        Node::Try { body, clauses: cases, .. } => {
            write!(out, "Try {body} ")?;
            clauses(out, cases.as_slice())
        }
        Node::Fun { parameters, body, .. } => {
            listed(out, "Fun", parameters.as_slice())?;
            write!(out, " {body}")
        }
        Node::Function { clauses: cases, .. } => {
            write!(out, "Function ")?;
            clauses(out, cases.as_slice())
        }
    }
}

fn constructor(out: &mut Out, definition: &ConstructorDefinition) -> io::Result<()> {
    name(out, &definition.name)?;
    maybe(out, definition.argument)
}

fn type_definition(out: &mut Out, definition: &TypeDefinition) -> io::Result<()> {
    write!(out, "(")?;
    for parameter in definition.parameters.as_slice() {
        name(out, parameter)?;
    }
    write!(out, " ")?;
    name(out, &definition.name)?;
    match &definition.body {
        TypeBody::Variant(constructors) => {
            for each in constructors.as_slice() {
                write!(out, "|")?;
                constructor(out, each)?;
            }
        }
        TypeBody::Record(fields) => {
            for field in fields.as_slice() {
                write!(out, ";")?;
                flag(out, field.is_mutable)?;
                name(out, &field.name)?;
                write!(out, "{}", field.annotation)?;
            }
        }
    }
    write!(out, ")")
}

fn item(out: &mut Out, item: &Item) -> io::Result<()> {
    match item {
        Item::Expression { expression, .. } => write!(out, "expression {expression}"),
        Item::Let { is_recursive, bindings: bound, .. } => {
            write!(out, "let ")?;
            flag(out, *is_recursive)?;
            bindings(out, bound.as_slice())
        }
        Item::Types { definitions, .. } => {
            write!(out, "types")?;
            for definition in definitions.as_slice() {
                type_definition(out, definition)?;
            }
            Ok(())
        }
        Item::Effects { extended, definitions, .. } => {
            named(out, "effects", extended)?;
            for definition in definitions.as_slice() {
                write!(out, "|")?;
                name(out, &definition.name)?;
                maybe(out, definition.argument)?;
                write!(out, " {}", definition.result)?;
            }
            Ok(())
        }
        Item::Exception { definition, .. } => {
            write!(out, "exception ")?;
            constructor(out, definition)
        }
        Item::Open { path, .. } => named(out, "open", path),
    }
}

/// A line for each node, and one for each item.
pub fn describe(out: &mut Out, prog: &Prog) -> io::Result<()> {
    for node in prog.nodes.as_slice() {
        described(out, node)?;
        out.push(b'\n')?;
    }
    for each in prog.items.as_slice() {
        item(out, each)?;
        out.push(b'\n')?;
    }
    Ok(())
}
'''


MEASURING = r'''//! Times the parsing of standard input.
#![tactic(auto)]

use ml_lexer::lex;
use ml_parser::parse;
use std::io::{self, Read};
use std::time::Instant;

const LIMIT: usize = 16_777_216;

fn print_time(rt: &HostRuntime, text: &[u8]) -> io::Result<()> {
    if text.len() > LIMIT {
        return rt.println("long");
    }
    let start = Instant::now(rt)?;
    let Ok(tokens) = lex(rt.alloc(), text) else {
        return rt.println("no tokens");
    };
    let lexed = start.elapsed(rt)?;
    let answer = parse(rt.alloc(), &tokens);
    let both = start.elapsed(rt)?;
    match answer {
        Ok(prog) => println!(rt; "{} {} {} {}", lexed.as_nanos(), both.as_nanos(), tokens.len(), prog.nodes.len()),
        Err(_) => println!(rt; "{} {} {} 0", lexed.as_nanos(), both.as_nanos(), tokens.len()),
    }
}

fn main(rt: HostRuntime) -> io::Result<()> {
    let mut input = Vec::new(rt.alloc());
    rt.reader().read_to_end(&mut input)?;
    print_time(&rt, &input)
}
'''

# the sources of the two programs
ANSWERS = {'main.rt': MAIN, 'arena.rt': ARENA}
TIMES = {'main.rt': MEASURING}


class Program:
    """A temporary workspace with one of the programs; leave it by `with`."""

    def __init__(self, sources):
        self.sources = sources

    def __enter__(self):
        self.folder = tempfile.mkdtemp(prefix='parser_program_')
        lines = []
        for crate, below in CRATES:
            shutil.copytree(os.path.join(ROOT, 'crates', crate), os.path.join(self.folder, 'crates', crate), ignore=shutil.ignore_patterns('out'))
            lines.append('%s: %s\n' % (crate, below))
        self.crate = os.path.join(self.folder, 'crates', 'parse_texts')
        os.makedirs(os.path.join(self.crate, 'src'))
        for name, source in self.sources.items():
            with open(os.path.join(self.crate, 'src', name), 'w') as f:
                f.write(source)
        with open(os.path.join(self.folder, 'crates.txt'), 'w') as f:
            f.write(''.join(lines) + 'parse_texts: %s\n' % ' '.join(crate for crate, _ in CRATES))
        with open(os.path.join(self.folder, 'HANDLES'), 'w') as f:
            f.write('Handles allowed: none.\n')
        return self

    def __exit__(self, *error):
        shutil.rmtree(self.folder)

    def answers(self, texts, words=()):
        """The lines that answer each text, from the program built with checks and without proof."""
        given = b''.join(struct.pack('<I', len(t)) + t for t in texts)
        run = subprocess.run(['rt', 'try', '--seconds', '900', '--', *words], cwd=self.crate, input=given, stdout=subprocess.PIPE, stderr=subprocess.PIPE)
        answers = run.stdout.decode('latin-1').split('\n.\n')[:-1]
        if len(answers) != len(texts):
            raise SystemExit('the program gave %d answers to %d texts:\n%s' % (len(answers), len(texts), run.stderr.decode()[-2000:]))
        return [answer.split('\n') for answer in answers]

    def build(self):
        """Proves and builds the program, and answers the path of the binary."""
        run = subprocess.run(['rt', 'run'], cwd=self.crate, input=b'', stdout=subprocess.PIPE, stderr=subprocess.PIPE)
        path = os.path.join(self.crate, 'out', 'parse_texts')
        if run.returncode != 0 or not os.path.exists(path):
            raise SystemExit('the program is not proved or built:\n%s' % run.stderr.decode()[-2000:])
        return path
