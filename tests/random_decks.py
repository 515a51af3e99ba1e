"""Random decks of a generator, for the scripts that compare runs of them.

A generator is a command that is given the words `write SEED FOLDER`, and writes a deck's files into the folder, and
into words.txt there lines of words for the program, parted by the byte 31.
"""
import os
import subprocess
import tempfile

from trials import arguments

SECONDS = 60


def commands(generator, seed, folder):
    """Writes the deck of a seed, and returns the lines of words to run on it."""
    subprocess.run([*generator, "write", str(seed), folder], check=True, stdout=subprocess.DEVNULL)
    with open(os.path.join(folder, "words.txt"), encoding="utf-8") as file:
        return [line.split("\x1f") for line in file.read().split("\n") if line]


def without(words, names):
    """The words without options of these names."""
    kept, skip = [], False
    for word in words:
        if skip:
            skip = False
        elif word in names:
            skip = True
        elif not word.startswith(tuple(f"{name}=" for name in names)):
            kept.append(word)
    return kept


def option(words, name):
    """The option of this name and its value, or nothing."""
    apart = [part for word in words for part in (word.split("=", 1) if word.startswith(f"{name}=") else [word])]
    return next((apart[at:at + 2] for at, word in enumerate(apart) if word == name), [])


def runs(generator, seed, folder):
    """Writes the deck of a seed, and returns the words of its runs, without numbers of workers, rounds and views."""
    found = commands(generator, seed, folder)
    return [without(words, ("--watch", "--workers", "--rounds")) for words in found if words[:1] == ["run"]]


def answer(command, words, folder):
    """Status, output and standard error of a command with these words, or None where it does not end in time."""
    try:
        done = subprocess.run([*command, *words], cwd=folder, capture_output=True, timeout=SECONDS, check=False)
    except subprocess.TimeoutExpired:
        return None
    return done.returncode, done.stdout, done.stderr


class Compared:
    """The runs of one program on random decks, by what became of them. The last kind is that of what must not be."""
    KINDS = ()

    def __init__(self, program):
        self.command = [os.path.abspath(program)]
        self.counts = dict.fromkeys(self.KINDS, 0)

    def count(self, what, number=1):
        self.counts[what] += number

    def fails(self, seed, words, what):
        self.count(self.KINDS[-1])
        print(f"seed {seed}: {' '.join(words)}: {what}", flush=True)


def compare_decks(doc, kind, most=4):
    """Compares the runs of each deck that the words ask for. Returns what was found, and the script's status."""
    program, first, count, generator, *more = arguments(doc, 4, most)
    compared = kind(program, *map(int, more))
    for seed in range(int(first), int(first) + int(count)):
        with tempfile.TemporaryDirectory() as folder:
            for words in runs(generator.split(), seed, folder):
                compared.compare(seed, words, folder)
    print(", ".join(f"{number} {what}" for what, number in compared.counts.items()))
    return compared, int(compared.counts[compared.KINDS[-1]] > 0)
