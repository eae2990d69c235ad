"""The words of the tools: `--help` prints what a tool does, and a word that is missing is told in one line."""
import argparse
import os
import sys


def begin(text, *names):
    """Ends where help is asked for, or where fewer words are given than there are names."""
    if '--help' in sys.argv[1:] or '-h' in sys.argv[1:]:
        print(text.strip())
        sys.exit(0)
    missing = names[len([word for word in sys.argv[1:] if not word.startswith('--')]):]
    if missing:
        sys.exit('%s: missing: %s (--help says what they are)' % (os.path.basename(sys.argv[0]), ', '.join(missing)))


class Parser(argparse.ArgumentParser):
    """Takes words and options, and tells a wrong word in one line."""

    def __init__(self, text):
        super().__init__(description=text, formatter_class=argparse.RawDescriptionHelpFormatter)

    def error(self, message):
        self.exit(2, '%s: %s (--help says more)\n' % (self.prog, message))
