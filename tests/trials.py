"""What the scripts that try a program share: the words that they are called with, and the count of the cases that they
tried."""
import os
import shutil
import subprocess
import sys
import tempfile
import time

from sample_decks import built_commands, left_out, write_files


def arguments(doc, least, most=None):
    """The words after the script's name; where they are too few or too many, or options, it says how it is called and
    ends."""
    words = sys.argv[1:]
    if not least <= len(words) <= (most or least) or any(word.startswith("-") for word in words):
        print(doc, file=sys.stderr)
        sys.exit(2)
    return words


def command(text):
    """The words of a command, whose files are found from every folder: cases are run in folders of their own."""
    words = text.split()
    if not words or not shutil.which(words[0]):
        sys.exit(f"{os.path.basename(sys.argv[0])}: {text or 'nothing'} is no program")
    return [os.path.abspath(word) if os.path.exists(word) else word for word in words]


class Trials:
    """The cases of one program, and how many of them were not as wanted. Those are printed."""

    def __init__(self, program):
        self.program = os.path.abspath(program)
        self.commands = built_commands(self.program)
        self.cases = self.wrong = 0

    def answer(self, words, folder, **how):
        """Status, standard output and standard error of the program with these words."""
        done = subprocess.run([self.program, *words], cwd=folder, capture_output=True, check=False, **how)
        return done.returncode, done.stdout, done.stderr

    def answer_with(self, words, files, **how):
        """The same in a folder that has these files."""
        with tempfile.TemporaryDirectory() as folder:
            write_files(folder, files)
            return self.answer(words, folder, **how)

    def fail(self, what):
        self.wrong += 1
        print(what, flush=True)

    def check(self, title, found, wanted):
        """Counts a case, which is well where what was found is among what is wanted."""
        self.cases += 1
        if found not in wanted:
            self.fail(f"{title}: {str(found)[:600]} is not {' or '.join(map(str, wanted))[:600]}")

    def run(self, parts):
        """Runs the parts, each a name and a call, and says how many cases each had. Returns the script's status."""
        for name, call in parts:
            before, start = self.cases, time.monotonic()
            call()
            print(f"{name}: {self.cases - before} cases, {time.monotonic() - start:.0f} seconds", flush=True)
        print(f"{self.cases} cases, {self.wrong} not as wanted{left_out(self.commands)}")
        return int(self.wrong > 0)
