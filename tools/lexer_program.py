"""Builds a small program over ml_lexer in a temporary folder, and runs it.

The program lexes the texts on standard input, each behind its length in four bytes, and prints a line for
each: `tokens`, their count and a digest; or `fault`, its line and its column. With the word `time` it lexes
standard input as one text, and prints nanoseconds and the count of tokens.
"""
import os
import re
import shutil
import struct
import subprocess
import tempfile

ROOT = os.path.dirname(os.path.dirname(os.path.abspath(__file__)))

MAIN = r'''//! Lexes standard input.
#![tactic(auto)]

use fx_base::Refusal;
use ml_lexer::{Tokens, lex, token_text};
use std::alloc::Global;
use std::env;
use std::io::{self, Read};
use std::time::Instant;

const LIMIT: usize = 16_777_216;

fn mixed(digest: u64, value: u64) -> u64 {
    (digest ^ value).wrapping_mul(1_099_511_628_211)
}

// The kinds, places and bytes of the tokens, as one number.
fn digest_of(tokens: &Tokens) -> u64 {
    let mut digest = 14_695_981_039_346_656_037;
    for i in 0..tokens.len() {
        let view = tokens.view(i);
        digest = mixed(digest, view.kind as u64);
        digest = mixed(digest, u64::from(view.place.line));
        digest = mixed(digest, u64::from(view.place.column));
        digest = mixed(digest, token_text(tokens, i).len() as u64);
        for byte in token_text(tokens, i) {
            digest = mixed(digest, u64::from(*byte));
        }
    }
    digest
}

fn print_reading(rt: &impl Print, alloc: Global, text: &[u8]) -> io::Result<()> {
    if text.len() > LIMIT {
        return rt.println("long");
    }
    match lex(alloc, text) {
        Ok(tokens) => println!(rt; "tokens {} {}", tokens.len(), digest_of(&tokens)),
        Err(Refusal::Syntax(place)) => println!(rt; "fault {} {}", place.line, place.column),
        Err(_) => rt.println("memory"),
    }
}

fn print_each(rt: &impl Print, alloc: Global, input: &[u8]) -> io::Result<()> {
    let mut rest = input;
    for _ in 0..input.len() {
        let [a, b, c, d, tail @ ..] = rest else {
            break;
        };
        let length = u32::from_le_bytes([*a, *b, *c, *d]) as usize;
        if length > tail.len() {
            return rt.println("short");
        }
        print_reading(rt, alloc, &tail[..length])?;
        rest = &tail[length..];
    }
    Ok(())
}

fn main(rt: HostRuntime) -> io::Result<()> {
    let mut input = Vec::new(rt.alloc());
    rt.reader().read_to_end(&mut input)?;
    let Some(_) = env::args(&rt)?.nth(1) else {
        return print_each(&rt, rt.alloc(), &input);
    };
    if input.len() > LIMIT {
        return rt.println("long");
    }
    let start = Instant::now(&rt)?;
    let count = match lex(rt.alloc(), &input) {
        Ok(tokens) => tokens.len(),
        Err(_) => 0,
    };
    let time = start.elapsed(&rt)?;
    println!(&rt; "{} {}", time.as_nanos(), count)
}
'''


class Program:
    """A temporary workspace with the program; leave it by `with`."""

    def __enter__(self):
        self.folder = tempfile.mkdtemp(prefix='lexer_program_')
        for crate in ('fx_base', 'ml_lexer'):
            shutil.copytree(os.path.join(ROOT, 'crates', crate), os.path.join(self.folder, 'crates', crate))
        self.crate = os.path.join(self.folder, 'crates', 'lex_lines')
        os.makedirs(os.path.join(self.crate, 'src'))
        with open(os.path.join(self.crate, 'src', 'main.rt'), 'w') as f:
            f.write(MAIN)
        with open(os.path.join(self.folder, 'crates.txt'), 'w') as f:
            f.write('fx_base: thiserror\nml_lexer: fx_base\nlex_lines: fx_base ml_lexer\n')
        with open(os.path.join(self.folder, 'HANDLES'), 'w') as f:
            f.write('Handles allowed: none.\n')
        return self

    def __exit__(self, *error):
        shutil.rmtree(self.folder)

    def lines(self, texts):
        """A line for each text, from the program built with checks and without proof."""
        given = b''.join(struct.pack('<I', len(t)) + t for t in texts)
        run = subprocess.run(['rt', 'try', '--seconds', '900'], cwd=self.crate, input=given, stdout=subprocess.PIPE, stderr=subprocess.PIPE)
        lines = run.stdout.decode().splitlines()
        if len(lines) != len(texts):
            raise SystemExit('the program gave %d lines for %d texts:\n%s' % (len(lines), len(texts), run.stderr.decode()[-2000:]))
        return lines

    def build(self):
        """Proves and builds the program, and answers the path of the binary."""
        run = subprocess.run(['rt', 'run', '--', 'time'], cwd=self.crate, input=b'', stdout=subprocess.PIPE, stderr=subprocess.PIPE)
        path = os.path.join(self.crate, 'out', 'lex_lines')
        if run.returncode != 0 or not os.path.exists(path):
            raise SystemExit('the program is not proved or built:\n%s' % run.stderr.decode()[-2000:])
        return path


def fixed_kinds():
    """The number of each kind's variant: of the named ones by name, of symbols and keywords by their text."""
    with open(os.path.join(ROOT, 'crates', 'ml_lexer', 'src', 'token.rt')) as f:
        source = f.read()
    body = source[source.index('pub enum TokenKind {'):source.index('/// A token: its kind')]
    variants = re.findall(r'((?:    ///[^\n]*\n)+)    (\w+),\n', body)
    numbers = {}
    for number, (docs, name) in enumerate(variants):
        fixed = re.fullmatch(r'    /// `(\S+)`\n', docs)
        numbers[fixed.group(1) if fixed else name] = number
    return numbers
