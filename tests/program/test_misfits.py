"""Lines that the grammar refuses: the name of the refusal, the word that does not fit, and what is wanted there."""
import re
import tempfile
import unittest

from model.calculator import COMMANDS, LONGEST_LINE, REGISTERS, edited, question
from process import ran

NAME = (b"a file name (1 to 64 letters, digits, '.', '_' or '-'; it must not begin with '.' or '-'; "
        b"--dir names the folder)")
LONG = b"line: the line has more than %d bytes: write several shorter lines" % LONGEST_LINE
MARK = b"is not a command; it begins with a byte order mark: save the script without that"

# Refused lines, and what is said about them.
REFUSED = [
    (b"ad a 1", b"syntax: 'ad' is not a command; did you mean 'add', 'at'?"),
    (b" # x", b"syntax: '#' is not a command"),
    (b"Add a 1", b"syntax: 'Add' is not a command; did you mean 'add'?"),
    (b"ADD a 1", b"syntax: 'ADD' is not a command"),
    # The commands that a word begins, or that begin a word; or from which one edit leads to it.
    (b"c", b"syntax: 'c' is not a command; did you mean 'copy', 'clear', 'count', 'covers', 'cell'?"),
    (b"un a b", b"syntax: 'un' is not a command; did you mean 'union', 'undo'?"),
    (b"outerofs a b 3", b"syntax: 'outerofs' is not a command; did you mean 'outer', 'outerof'?"),
    (b"shows\xff a", rb"syntax: 'shows\xff' is not a command; did you mean 'show'?"),
    (b"cuont a", b"syntax: 'cuont' is not a command; did you mean 'count'?"),
    (b"ocunt a", b"syntax: 'ocunt' is not a command; did you mean 'count'?"),
    (b"cuotn a", b"syntax: 'cuotn' is not a command"),
    (b"subtrat a b", b"syntax: 'subtrat' is not a command; did you mean 'subtract'?"),
    (b"substract a b", b"syntax: 'substract' is not a command; did you mean 'subtract'?"),
    (b"resrore f", b"syntax: 'resrore' is not a command; did you mean 'restore'?"),
    (b"ta 0 0 0", b"syntax: 'ta' is not a command; did you mean 'at'?"),
    (b"saev a f", b"syntax: 'saev' is not a command; did you mean 'save'?"),
    (b"list a", b"syntax: 'list' is not a command"),
    # A byte order mark, before a command, before a comment, and alone; and bytes that are not one.
    (b"\xef\xbb\xbfadd a 1", rb"syntax: '\xef\xbb\xbfadd' " + MARK),
    (b"\xef\xbb\xbf# a comment", rb"syntax: '\xef\xbb\xbf#' " + MARK),
    (b"\xef\xbb\xbf", rb"syntax: '\xef\xbb\xbf' " + MARK),
    (b"\xef\xbb\xbeadd a 1", rb"syntax: '\xef\xbb\xbeadd' is not a command"),
    (b"\xef\xbb", rb"syntax: '\xef\xbb' is not a command"),
    # A word is missing at the end of the line, whatever is wanted there.
    (b"add", b"syntax: a register (a to z) is missing"),
    (b"add a", b"syntax: a cell (a token or a debug text) is missing"),
    (b"range a 1", b"syntax: a cell (a token or a debug text) is missing"),
    (b"denorm a 0", b"syntax: a modulus (1 to 3) is missing"),
    (b"outer a 3 0 7 9 2", b"syntax: a coordinate (2 to 1073741823) is missing"),
    (b"innerof a b 3 0", b"syntax: a coordinate (0 to 1073741823) is missing"),
    (b"load a", b"syntax: " + NAME + b" is missing"),
    (b"at", b"syntax: a face (0 to 5) is missing"),
    (b"outerof a b", b"syntax: a level (0 to 30) is missing"),
    # A word too many, after words that all fit.
    (b"show a b", b"syntax: 'b' is a word too many"),
    (b"undo 1 x", b"syntax: '1' is a word too many"),
    (b"cell 1 zz", b"syntax: 'zz' is a word too many"),
    (b"innerof a b 3 0 0 1 0 1 0", b"syntax: '0' is a word too many"),
    (b"add aa 1", b"register: 'aa' is not a register (a to z)"),
    (b"copy a B c", b"register: 'B' is not a register (a to z)"),
    # The first of several words that do not fit.
    (b"add a 1 zz 3 yy", b"cell: 'zz' is not a cell (a token or a debug text)"),
    (b"has a 6/0 x", b"cell: '6/0' is not a cell (a token or a debug text)"),
    (b"range a 1 2", b"cell: '2' is not a cell (a token or a debug text)"),
    (b"cell 1\xc3\xa9'\r.", rb"cell: '1\xc3\xa9\'\r.' is not a cell (a token or a debug text)"),
    (b"outer a 31 6 0 1 0 1", b"level: '31' is not a level (0 to 30)"),
    (b"denorm a -1 4", b"level: '-1' is not a level (0 to 30)"),
    (b"denorm a 30 4", b"level: '4' is not a modulus (1 to 3)"),
    (b"denorm a 30 0", b"level: '0' is not a modulus (1 to 3)"),
    (b"at 6 x 0", b"face: '6' is not a face (0 to 5)"),
    (b"innerof a b 3 z", b"face: 'z' is not a face (0 to 5)"),
    (b"at 0 0 1073741824", b"rectangle: '1073741824' is not a coordinate (0 to 1073741823)"),
    (b"outer a 3 0 5 4 0 1", b"rectangle: '4' is not a coordinate (5 to 1073741823)"),
    (b"inner a 3 0 5 6 9 8", b"rectangle: '8' is not a coordinate (9 to 1073741823)"),
    (b"range a 3 1", b"order: the second cell '1' ends before the first begins"),
    (b"range a 1/3 1/0 x", b"order: the second cell '1/0' ends before the first begins"),
    # Of a cell's identifier in decimal, signed or not, the note names the cell. A word of at most 16 bytes may be meant
    # as a token.
    *((b"cell " + word, b"cell: '" + word + b"' is not a cell (a token or a debug text)"
       + (more and b"; in decimal it is the identifier of the cell " + more)) for word, more in (
        (b"864691128455135232", b"0c"), (b"000864691128455135232", b""), (b"00864691128455135232", b"0c"),
        (b"12970366926827028480", b"b4"), (b"-5476377146882523136", b"b4"), (b"-05476377146882523136", b""),
        (b"864691128455135233", b"0c00000000000001"), (b"864691128455135234", b""), (b"-864691128455135232", b""),
        (b"13835058055282163712", b""), (b"-9223372036854775807", b"8000000000000001"),
        (b"-9223372036854775809", b""), (b"-9999999999999999999", b""), (b"18446744073709551617", b""),
        (b"99999999999999999999", b""), (b"00000000000000001", b"0000000000000001"), (b"0000000000000012", b""),
        (b"+864691128455135232", b""), (b"-", b""), (b"--864691128455135232", b""), (b"8646911284551352_2", b""),
    )),
    (b"dump .a", b"name: '.a' is not " + NAME + b": byte 1 is '.'"),
    (b"save a b/c", b"name: 'b/c' is not " + NAME + b": byte 2 is '/'"),
    (b"load a C\xc3\xb4te_d'Ivoire", rb"name: 'C\xc3\xb4te_d\'Ivoire' is not " + NAME + rb": byte 2 is '\xc3'"),
    (b"load a it's", rb"name: 'it\'s' is not " + NAME + rb": byte 3 is '\''"),
    (b"load a a-.-/", b"name: 'a-.-/' is not " + NAME + b": byte 5 is '/'"),
    (b"load a " + b"b" * 65, b"name: '" + b"b" * 65 + b"' is not " + NAME + b": byte 65 is 'b'"),
    # A long line, whatever it begins with.
    (b"#" * (LONGEST_LINE + 1), LONG),
    (b" " * (LONGEST_LINE + 1), LONG),
    (b"x" * (LONGEST_LINE + 1), LONG),
    (b"x" * LONGEST_LINE, b"syntax: '" + b"x" * LONGEST_LINE + b"' is not a command"),
]

# Lines that are not refused, and their answers.
TAKEN = [
    (b"", b""),
    (b" \t ", b""),
    (b"#zz", b""),
    (b"#" * LONGEST_LINE, b""),
    (b" " * LONGEST_LINE, b""),
    (b"add a 1 0/1 64c", b"ok 0 2\n"),
    (b"undo", b"ok 2 0\n"),
    (b"show a", b"end\n"),
    (b"range a 3 3/0", b"ok 0 3\n"),
    (b"outer a 1 0 5 5 0 1073741823", b"ok 3 2\n"),
    (b"outer a 30 0 5 5 0 0", b"ok 2 1\n"),
    (b"outerof a b 3", b"ok 1 0\n"),
    (b"dump a.b", b"ok\n"),
    (b"cell 1\r", b"cell 1 0/ level 0 face 0 leaves 0 1152921504606846975\n"),
]


class Misfits(unittest.TestCase):
    """Lines that the grammar refuses: the name of the refusal, the word that does not fit, and what is wanted there."""

    def test_the_first_word_that_does_not_fit_is_told(self):
        script = b"".join(line + b"\n" for line, _ in REFUSED)
        answers = [b"error " + said.split(b":")[0] for _, said in REFUSED]
        notes = [b"line %d: error %b" % (number, said) for number, (_, said) in enumerate(REFUSED, 1)]
        status, out, error = ran("run", "--explain", script=script)
        self.assertEqual((status, out.splitlines(), error.split(b"\n")), (1, answers, notes + [b""]))

    def test_every_command_is_asked_for(self):
        """Each name that the help has, with one edit of each kind, as the plain model says it."""
        names = re.findall(r"^  ([a-z]+)(?= )", ran("run", "--help")[1].decode().split("debug\ntext", 1)[1], re.M)
        self.assertEqual(names, COMMANDS)
        words = [word for name in names for word in sorted(edited(name)) if re.fullmatch("[a-z~]+", word)]
        words = [word for word in words if word not in names]
        said = ran("run", "--explain", script="".join(word + "\n" for word in words).encode())[2].splitlines()
        for number, (word, note) in enumerate(zip(words, said, strict=True), 1):
            self.assertTrue(any(f"'{name}'" in note.decode() for name in names), word)
            self.assertEqual(note.decode().split(" is not ")[1], "a command" + question(word), (number, word))

    def test_of_a_line_that_is_not_refused_nothing_is_told(self):
        script = b"".join(line + b"\n" for line, _ in TAKEN)
        answers = b"".join(answer for _, answer in TAKEN)
        with tempfile.TemporaryDirectory() as folder:
            self.assertEqual(ran("run", "--explain", "--dir", folder, script=script), (0, answers, b""))

    def test_the_letters_from_a_to_z_name_the_registers(self):
        words = [bytes([byte]) for byte in range(256) if bytes([byte]) not in b" \t\r\n"]
        letters = REGISTERS.encode()
        answers = [b"cells 0 leaves 0" if word in letters else b"error register" for word in words]
        out = ran("run", script=b"".join(b"count " + word + b"\n" for word in words))[1]
        self.assertEqual(out.splitlines(), answers)
