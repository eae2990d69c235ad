"""Programs for the tools that compare, and runs of the program that is compared."""
import json
import multiprocessing
import os
import re
import shlex
import subprocess
import sys
import tempfile
import threading

import command_words
import random_programs

USUAL = {'heap': 1048576, 'stack': 131072, 'out': 1048576, 'budget': 1073741824, 'domains': 4}
NO_END = 'no end in time'
OF_FORM = re.compile(rb'\s*let\s*\(\s*\)\s*=\s*print_int\b(\s|[()+*-]|\d\w*)*')
EXAMPLES = os.path.join(os.path.dirname(os.path.abspath(__file__)), '..', 'examples')


class Case:
    """A program: the file that it stands in, its text, the settings that aren't the usual ones, and, where they are known, the
    outputs of which its run has one, its status and the line on standard error."""

    def __init__(self, name, file, text, settings=None, seed=0, answers=None):
        self.name, self.file, self.text, self.settings, self.seed = name, file, text, settings or {}, seed
        self.answers = answers


def options(settings):
    return [word for name in sorted(settings) for word in ('--' + name, str(settings[name]))]


def of_files(paths):
    """A case for each file, and for each file of a folder."""
    found = []
    for path in paths:
        if os.path.isdir(path):
            found += of_files(sorted(os.path.join(path, name) for name in os.listdir(path) if name.endswith('.ml')))
        else:
            with open(path, 'rb') as file:
                found.append(Case(path, os.path.basename(path), file.read()))
    return found


def told_by_head(text):
    """The lines that the head of an example says are printed, or None where it has no head."""
    found = re.search(r'Prints: (.*?)\*\)', text.decode('latin-1'), re.S)
    return found and [line.strip() for line in found.group(1).strip().split('\n')]


def printed_lines(printed):
    return [line.strip() for line in printed.decode('latin-1').rstrip('\n').split('\n')]


def is_of_form(text):
    """Whether a program is of the form `let () = print_int A`, which has a compiler of its own."""
    return OF_FORM.fullmatch(re.sub(rb'\(\*.*?\*\)', b' ', text, flags=re.S)) is not None


def of_seeds(seed, count, for_ocaml=False):
    return [Case('random%06d.ml' % number, 'a.ml', random_programs.program(number, for_ocaml).encode(), seed=number)
            for number in range(seed, seed + count)]


def row_text(text):
    """The text of a worked row: a text, or parts with how often each is repeated."""
    if isinstance(text, list):
        text = ''.join(part * times for part, times in text)
    return text.encode('latin-1')


def row_answers(row):
    """What a worked row says of its run, if it still does: the outputs that may be, the status, the line on standard error."""
    outputs = row.get('stdout_any', [row.get('stdout')])
    if row['words'][0] != 'run' or row['until'] is not None or outputs == [None] or row.get('stderr') is None:
        return None
    line = row_text(row['stderr'])
    return [row_text(output) for output in outputs], row['status'], line + b'\n' if line else b''


def of_rows(path):
    """A case for each worked row that compiles, checks or runs a file that it gives."""
    found = []
    with open(path) as file:
        rows = json.load(file)
    for row in rows:
        words = row.get('words') or ['']
        if words[0] not in ('run', 'asm', 'check') or row.get('api'):
            continue
        settings, names = {}, []
        rest = ' '.join(words[1:]).replace('=', ' ').split(' ')
        while rest:
            word = rest.pop(0)
            if word.startswith('--') and rest and rest[0].isdigit():
                settings[word[2:]] = int(rest.pop(0))
            elif not word.startswith('-'):
                names.append(word)
        settings.pop('turns', None)
        if len(names) == 1 and names[0] in row['files'] and set(settings) <= set(USUAL):
            text = row_text(row['files'][names[0]])
            found.append(Case('row ' + row['name'], names[0], text, settings, answers=row_answers(row)))
    return found


def command(words):
    """A command as a list of words; files are found from another folder too."""
    return [os.path.abspath(word) if os.path.exists(word) else word for word in shlex.split(words)]


def answer(product, case, word, further=(), seconds=60):
    """The status, output and error line of `PRODUCT WORD FILE` in a folder where only that file is."""
    with tempfile.TemporaryDirectory() as folder:
        with open(os.path.join(folder, case.file), 'wb') as file:
            file.write(case.text)
        try:
            run = subprocess.run(product + [word, case.file] + list(further), cwd=folder, stdin=subprocess.DEVNULL,
                                 stdout=subprocess.PIPE, stderr=subprocess.PIPE, timeout=seconds)
        except subprocess.TimeoutExpired:
            return NO_END, b'', b''
    return run.returncode, run.stdout, run.stderr


def keep(folder, case):
    """Writes a program that made a difference, and gives its path."""
    os.makedirs(folder, exist_ok=True)
    path = os.path.join(folder, case.name.replace('/', '_').replace(' ', '_'))
    with open(path if path.endswith('.ml') else path + '.ml', 'wb') as file:
        file.write(case.text)
    return file.name


def deep(work, *arguments):
    """Does work that is deeply recursive, on a thread with a large stack."""
    found = []

    def go():
        try:
            found.append((True, work(*arguments)))
        except BaseException as fault:
            found.append((False, fault))
    sys.setrecursionlimit(10 ** 7)
    threading.stack_size(512 * 1024 * 1024)
    thread = threading.Thread(target=go)
    thread.start()
    thread.join()
    good, value = found[0]
    if not good:
        raise value
    return value


def arguments(text, *names, numbers=()):
    """The words of a tool: its own ones, then files, rows and random programs; numbers are further options, each with its usual
    number and what it is."""
    parser = command_words.Parser(text)
    for name in names:
        parser.add_argument(name.lower(), metavar=name)
    parser.add_argument('files', nargs='*', default=[], metavar='FILE', help='programs, or folders of them')
    parser.add_argument('--rows', help='a file of worked rows (rows.json)')
    parser.add_argument('--seed', type=int, default=0, help='the first seed of the random programs (0)')
    parser.add_argument('--count', type=int, default=0, help='how many random programs (0)')
    parser.add_argument('--jobs', type=int, default=3, help='how many run at once (3)')
    parser.add_argument('--seconds', type=int, default=60, help='how long one run may take (60)')
    for name, number, meaning in numbers:
        parser.add_argument(name, type=int, default=number, help='%s (%d)' % (meaning, number))
    parser.add_argument('--keep', default='differences', help='where programs that differ are kept (differences)')
    return parser.parse_args()


def cases(given, for_ocaml=False):
    return (of_files(given.files) + (of_rows(given.rows) if given.rows else [])
            + of_seeds(given.seed, given.count, for_ocaml))


def in_pool(work, jobs, begin=None, begin_with=()):
    """Does the work for each of the jobs in a pool of processes, and gives what it found, in order."""
    count, jobs = jobs
    with multiprocessing.Pool(count, begin, begin_with) as pool:
        yield from pool.imap(work, jobs)
