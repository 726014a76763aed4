"""A program that is tried, and how scripts that try one are called."""
import argparse
import os
import pathlib
import pty
import subprocess
import sys

# The status of bin/onefile if there is no build that may run.
NOT_RUN = 127

# What ends the input at a terminal.
CONTROL_D = b"\x04"


class Program:
    """A program by its path. It must be proved, unless the environment has ONEFILE_PROVED=0."""

    def __init__(self, path):
        os.environ.setdefault("ONEFILE_PROVED", "1")
        self.path = str(pathlib.Path(path).resolve())

    def run(self, words, data):
        """A run on these bytes. A build without proofs takes 42 processor seconds for the longest
        case. If bin/onefile has nothing to run, this script ends."""
        done = subprocess.run([self.path, *words], input=data, capture_output=True, timeout=600)
        if done.returncode == NOT_RUN:
            sys.exit(done.stderr.decode())
        return done

    def at_terminal(self, words, data):
        """A run whose standard input is a terminal, at which these bytes are typed."""
        keyboard, terminal = pty.openpty()
        try:
            os.write(keyboard, data + CONTROL_D)
            command = [self.path, *words]
            return subprocess.run(command, stdin=terminal, capture_output=True, timeout=60)
        finally:
            os.close(terminal)
            os.close(keyboard)

    def answer(self, word, text):
        """The status of a command, and what it prints."""
        done = self.run([word], text.encode())
        return done.returncode, done.stdout.decode()


def count(word):
    if not word.isdigit() or int(word) == 0:
        raise argparse.ArgumentTypeError("a number from 1 on is needed")
    return int(word)


def parser(doc, **numbers):
    """What reads the words of a script: a program, and these numbers, which may be left out."""
    raw = argparse.RawDescriptionHelpFormatter
    found = argparse.ArgumentParser(description=doc, formatter_class=raw)
    found.add_argument("program", type=Program)
    for name, usual in numbers.items():
        found.add_argument(name, nargs="?", type=count, default=usual)
    return found
