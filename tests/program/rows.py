"""The worked rows of crates/test_script. crates/test_table and crates/test_script say what the lines of a row mean."""
import os
import re

from process import TOP

TABLE = os.path.join(TOP, "crates/test_script/stdin")


def text_of(word):
    """A text of a row, in which `\\r` at the end is a carriage return."""
    return (word[:-2] + "\r" if word.endswith("\\r") else word).encode()


def bytes_of(digits):
    """The bytes of words of hexadecimal digits, in which DIGITS*N stands for its bytes N times."""
    words = (word.partition("*")[::2] for word in digits.split())
    return b"".join(bytes.fromhex(digits) * int(count or 1) for digits, count in words)


def script_lines(kind, text):
    """What a line of a row adds to the script."""
    if kind == "*":
        count, _, texts = text.partition(" ")
        return b"".join(text_of(line) + b"\n" for line in texts.split(" ; ")) * int(count)
    if kind == "^":
        first, count, last = (b"" if word == "-" else text_of(word) for word in text.split(" "))
        return first + b"x" * int(count) + last + b"\n"
    return text_of(text) + (b"" if kind == "<" else b"\n")


def answer_lines(line):
    """What a line of a row adds to the answers."""
    if line.startswith("= "):
        count, _, texts = line[2:].partition(" ")
        return "".join(text + "\n" for text in texts.split(" ; ")).encode() * int(count)
    return line.encode() + b"\n"


class Row:
    """A row of the table: its title, options, files and script, the answers to it, and its calls with theirs."""

    def __init__(self, text):
        self.title, *lines = text.rstrip("\n").split("\n")
        self.options, self.files, self.script, self.answers, self.calls = {}, {}, b"", b"", []
        for line in lines:
            kind, _, rest = line.partition(" ")
            if kind == "$":
                name, number = rest.split(" ")
                self.options[name] = int(number)
            elif kind == "@":
                name, _, digits = rest.partition(" ")
                self.files[name] = bytes_of(digits)
            elif kind in (">", "<", "*", "^"):
                self.script += script_lines(kind, rest)
            elif kind == "?":
                self.calls.append((*rest.partition(" ")[::2], []))
            elif kind != "#" and line and self.calls:
                self.calls[-1][2].append(line)
            elif kind != "#" and line:
                self.answers += answer_lines(line)

    def has_failures(self):
        """Whether a stream or the shelf fails in the row's run. The program has no way to make them fail."""
        return bool(self.options.keys() & {"reader", "shelf"})

    def words(self):
        """The options of the program for the row's run."""
        return [f"--{name}={self.options[name]}" for name in ("limit", "depth") if name in self.options]

    def has(self, answers):
        """Whether these are the row's answers, or for a row that has only the last of them, their number and those."""
        count = self.options.get("last")
        if count is None:
            return answers == self.answers
        lines = answers.splitlines(True)
        return b"%d\n" % len(lines) + b"".join(lines[-count:]) == self.answers


def rows():
    """The rows of the table."""
    with open(TABLE, encoding="utf-8") as it:
        return [Row(part) for part in re.split(r"^## ", it.read(), flags=re.M)[1:]]
