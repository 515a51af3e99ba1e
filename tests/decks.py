"""The lines that make the files of a folder, as the stored runs and the programs of tests have them.

`@deck -` begins a folder without files. `@file NAME` begins a file, whose lines follow it, and replaces an earlier one
of that name; `@repeat N LINE` is N such lines. Any other line that begins with `@` ends the file.
"""


class Deck:
    def __init__(self):
        self.files, self.name = {}, ""

    def end_file(self):
        self.name = ""

    def take(self, line):
        """Takes a line that is one of the folder's files, and says whether it is."""
        word, _, rest = line.partition(" ")
        if word == "@deck":
            self.files, self.name = {}, ""
        elif word == "@file":
            self.name, self.files[rest] = rest, b""
        elif word == "@repeat":
            count, _, text = rest.partition(" ")
            self.files[self.name] += int(count) * (text.encode() + b"\n")
        elif line.startswith("@"):
            self.end_file()
            return False
        elif self.name:
            self.files[self.name] += line.encode() + b"\n"
        return True
