"""Turns identifiers that other programs print into tokens; not proved

Usage: s2calc cells [OPTIONS] [FILE]

Arguments:
  [FILE]  The text, in place of standard input, which is '-'

Options:
      --add <r>  Prints the commands that add the cells to a register
      --decimal  Reads all digits without a sign as a decimal number, however few
  -h, --help     Print help

A cell is a decimal number with a sign or of more than 16 digits, signed or not; a token (64c); or a debug text (3/021).
Up to 16 digits without a sign are a token. Identifiers of a database can have as few digits: --decimal reads them as
numbers. A text with digits of both kinds is an error without it.

Blanks, commas, semicolons, bars, quotes and brackets of all kinds may stand around cells, and the last line of 'show',
which is 'end', after them. The tokens are in the order of the cells, in lines that a script takes. The first word that
isn't a cell is named by its line, and the status is 1.

Example:
  $ sqlite3 world.db 'SELECT cell FROM towns' | s2calc cells --decimal --add a | s2calc run
"""
import os
import re
import signal
import sys

WORD = re.compile(r"[^\s,;|\"'`()\[\]{}<>]+", re.A)
DECIMAL = re.compile(r"[+-][0-9]{1,20}|[0-9]{17,20}")  # in any text
MANY = 16  # digits, of which a token has no more
FEW = 8  # digits: more of them, and no letter anywhere, are hardly those of tokens
LONGEST = 4000  # bytes of a line, where a script takes 4,096
HELD = 1 << 20  # lines that are printed at once, so that a text with a fault has no answer unless it is large


class Fault(Exception):
    """What is wrong, usage, input or output, and how."""


def identifier(word, is_decimal):
    """The number that a word names, whatever it is, or None."""
    if re.fullmatch(r"[0-5]/[0-3]{0,30}", word):
        path = word[2:]
        width = 1 << 60 - 2 * len(path)
        return (int(word[0]) << 61) + int(path or "0", 4) * 2 * width + width
    if DECIMAL.fullmatch(word) or is_decimal and re.fullmatch(r"[0-9]{1,20}", word):
        number = int(word)
        return number % (1 << 64) if -(1 << 63) <= number < 1 << 64 else None
    return int(word.ljust(16, "0"), 16) if re.fullmatch(r"[0-9A-Fa-f]{1,16}", word) else None


def token(word, is_decimal=False):
    """The token of the cell that a word names, or None."""
    number = identifier(word, is_decimal)
    is_cell = number and number >> 61 < 6 and ((number & -number).bit_length() - 1) % 2 == 0
    return f"{number:016x}".rstrip("0") if is_cell else None


class Text:
    """The lines of a text of cells; and of what is read so far, the first word of up to 16 digits alone, the first of
    more, whether all words are digits, and the most digits of one."""

    def __init__(self, lines, is_decimal):
        self.lines, self.is_decimal = lines, is_decimal
        self.few = self.many = None
        self.is_of_digits, self.most = True, 0

    def tokens(self):
        for number, line in enumerate(self.lines, 1):
            words = WORD.findall(line)
            for place, word in enumerate(words if words != ["end"] else [], 1):
                found = token(word, self.is_decimal)
                if not found:
                    raise ValueError(f"line {number}, word {place}: {word!a} is not a cell")
                self.note(word, f"line {number}, word {place}: {word}")
                yield found

    def note(self, word, where):
        """Notes a word. It may be taken for a token alone where no other word is surely a number."""
        digits = word.lstrip("+-")
        if self.is_decimal or not digits.isdigit():
            self.is_of_digits = False
            return
        self.most = max(self.most, len(digits))
        if len(digits) > MANY:
            self.many = self.many or where
        elif digits == word:
            self.few = self.few or where
        if self.few and self.many:
            raise ValueError(f"{self.few}: is it a token or a number? Other cells here are numbers of more than {MANY}"
                             " digits. --decimal reads all as numbers")

    def hint(self):
        """What standard error should say of the whole text, or nothing."""
        if self.few and self.is_of_digits and self.most > FEW:
            return f"{self.few}: was read as a token, as all words are; --decimal reads them as numbers"
        return ""


def filled(words, head):
    """Lines that begin with the head, with as many of the words as fit."""
    line = head
    for word in words:
        if len(line) + len(word) >= LONGEST:
            yield line.strip() + "\n"
            line = head
        line += " " + word
    if line != head:
        yield line.strip() + "\n"


def options(words):
    """The file, the head of each line, and whether all digits are decimal."""
    file, head, is_decimal, words = None, "", False, list(words)
    while words:
        word = words.pop(0)
        name, equals, value = word.partition("=")
        if word == "--decimal":
            is_decimal = True
        elif name == "--add":
            value = value if equals else "".join(words[:1])
            del words[: not equals]
            if not re.fullmatch("[a-z]", value):
                raise Fault("usage", f"invalid value '{value}' for '--add <r>': a register is a letter from a to z")
            head = f"add {value}"
        elif file is not None or word.startswith("-") and word != "-":
            raise Fault("usage", f"unexpected argument '{word}' found")
        else:
            file = word
    return file, head, is_decimal


def lines_of(file):
    """The lines of a text, without a byte order mark at its beginning."""
    try:
        with open(0 if file in (None, "-") else file, encoding="latin-1") as text:
            yield next(text, "").removeprefix("\xef\xbb\xbf")
            yield from text
    except OSError as error:
        if isinstance(error, FileNotFoundError) and token(file, True):
            raise Fault("input", f"there is no file '{file}'; for a cell: echo {file} | s2calc cells") from error
        raise Fault("input", f"{'standard input' if file in (None, '-') else file}: {error.strerror}") from error


def print_all(lines):
    held = []
    try:
        for line in lines:
            held.append(line)
            if len(held) * LONGEST > HELD:
                sys.stdout.writelines(held)
                held.clear()
        sys.stdout.writelines(held)
        sys.stdout.flush()
    except OSError as error:
        os.dup2(os.open(os.devnull, os.O_WRONLY), 1)  # what waits is lost
        if isinstance(error, BrokenPipeError):
            sys.exit(128 + signal.SIGPIPE)  # without a word: the reader has seen enough
        raise Fault("output", error.strerror) from error


def main(words):
    try:
        file, head, is_decimal = options(words)
        text = Text(lines_of(file), is_decimal)
        print_all(filled(text.tokens(), head))
        if text.hint():
            print(f"s2calc: {text.hint()}", file=sys.stderr)
    except Fault as fault:
        what, how = fault.args
        more = "\n\nFor more information, try '--help'." if what == "usage" else ""
        print(f"s2calc: {what}\nerror: {how}{more}", file=sys.stderr)
        return 2
    except ValueError as error:
        print(f"s2calc: {error}", file=sys.stderr)
        return 1
    return 0
