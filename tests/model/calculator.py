"""A plain model of the calculator: sets of leaves as runs of numbers, whole earlier tables, no speed.

It is written only from docs/SCRIPT.md, docs/FORMATS.md and the statement that tools/statement makes, and shares no
other ideas with the proved code: a set is a list of runs [first, end) of leaf numbers, ascending and apart; a normal
form is computed from the set each time it is needed; the history keeps whole tables.
"""
import codecs
import functools
import re
import string
from pathlib import Path

LEAVES = 6 * 4**30
SIZES = [4 ** (30 - level) for level in range(31)]
SIDE = 2**30
QUADRANT = ((0, 1, 3, 2), (0, 2, 3, 1), (3, 2, 0, 1), (3, 1, 0, 2))
TURN = (1, 0, 0, 3)
REGISTERS = string.ascii_lowercase
LONGEST_LINE = 4096
MOST_IN_A_FILE = 1_000_000
MOST_CHANGES = 10_000
MOST_LISTED = 1_000_000
TOP = Path(__file__).resolve().parents[2]
# The errors of each command, in the order of the tables of docs/SCRIPT.md.
ERRORS = {name: re.findall(r"`([a-z-]+)`", errors) for name, errors in re.findall(
    r"^\| `([a-z]+)[^`]*` \| .* \| ([^|]*?) ?\| `[^`]*` \|$", (TOP / "docs/SCRIPT.md").read_text("utf-8"), re.M)}
COMMANDS = list(ERRORS)


def texts_of(module, function):
    """The texts that a function of the definitions has for its arguments."""
    text = (TOP / f"crates/s2calc/specs/{module}.antt").read_text("utf-8")
    return dict(re.findall(rf'^{function} (?:line )?(\w+) =\s+codes "(.*)"$', text, re.M))


# Why a line is refused, by the name of its error.
REASONS = {name: texts_of("Notes", "reason_of")[error] for error, name in texts_of("Refusals", "name_of").items()}
assert REASONS["memory"] == "out of memory"  # to which no script comes


class Refused(Exception):
    """A line is refused, by this name and for this reason."""

    def __init__(self, name, reason=None):
        super().__init__(name)
        self.reason = REASONS[name] if reason is None else reason


# ---- cells: pairs of a level and a place


def size(cell):
    return SIZES[cell[0]]


def run_of(cell):
    """The cell's leaves."""
    first = cell[1] * size(cell)
    return (first, first + size(cell))


def identifier(cell):
    return (2 * cell[1] + 1) * size(cell)


def cell_of(number):
    """The cell with this identifier, or None."""
    for level, step in enumerate(SIZES):
        if number % step == 0 and number // step % 2 == 1 and number // step // 2 < 6 * 4**level:
            return (level, number // step // 2)
    return None


def token(cell):
    return f"{identifier(cell):016x}".rstrip("0")


def debug(cell):
    level, place = cell
    digits = [str(place // 4**k % 4) for k in reversed(range(level))]
    return f"{place // 4**level}/" + "".join(digits)


def square(cell):
    """The face, the least coordinates and the side of the cell's square."""
    level, place = cell
    face = place // 4**level
    orientation, i, j = face % 2, 0, 0
    for k in reversed(range(level)):
        digit = place // 4**k % 4
        quadrant = QUADRANT[orientation][digit]
        i, j = 2 * i + quadrant // 2, 2 * j + quadrant % 2
        orientation ^= TURN[digit]
    side = 2 ** (30 - level)
    return face, i * side, j * side, side


def leaf_at(face, i, j):
    orientation, place = face % 2, face
    for k in reversed(range(30)):
        quadrant = 2 * (i >> k & 1) + (j >> k & 1)
        digit = QUADRANT[orientation].index(quadrant)
        place = 4 * place + digit
        orientation ^= TURN[digit]
    return (30, place)


# ---- sets: runs of leaves, ascending and apart


def joined(runs):
    """The set of all leaves of the runs."""
    made = []
    for first, end in sorted(run for run in runs if run[0] < run[1]):
        if made and first <= made[-1][1]:
            made[-1] = (made[-1][0], max(end, made[-1][1]))
        else:
            made.append((first, end))
    return made


def difference(runs, others):
    made = []
    for first, end in runs:
        for other_first, other_end in others:
            if other_end <= first or end <= other_first:
                continue
            if first < other_first:
                made.append((first, other_first))
            first = other_end
            if first >= end:
                break
        if first < end:
            made.append((first, end))
    return made


def intersection(runs, others):
    return difference(runs, difference(runs, others))


def normal_form(runs):
    """The greatest cells inside the set, ascending."""
    cells = []
    for first, end in runs:
        while first < end:
            level = 0
            while first % SIZES[level] or first + SIZES[level] > end:
                level += 1
            cells.append((level, first // SIZES[level]))
            first += SIZES[level]
    return cells


def denormalised_levels(cells, least, modulus):
    for cell in cells:
        level = max(cell[0], least)
        while level < 30 and (level - least) % modulus:
            level += 1
        yield cell, level


# ---- coverings


def part(cell, runs, rectangle):
    """Whether the cell is outside ('out'), inside ('in') or across what the runs and the rectangle share."""
    inside = True
    if rectangle is not None:
        face, i0, i1, j0, j1 = rectangle
        cell_face, i, j, side = square(cell)
        if cell_face != face or i > i1 or i + side <= i0 or j > j1 or j + side <= j0:
            return "out"
        inside = i0 <= i and i + side - 1 <= i1 and j0 <= j and j + side - 1 <= j1
    if runs is not None:
        met = intersection([run_of(cell)], runs)
        if not met:
            return "out"
        inside = inside and met == [run_of(cell)]
    return "in" if inside else "across"


def children(cell):
    return [(cell[0] + 1, 4 * cell[1] + p) for p in range(4)]


def touches_region(cell, runs, rectangle):
    found = part(cell, runs, rectangle)
    return found == "in" or found == "across" and any(touches_region(c, runs, rectangle) for c in children(cell))


def covering(kind, level, runs, rectangle):
    """The leaves of all cells of the level that share a leaf with the region, or lie inside it."""
    made = []
    waiting = [(0, face) for face in range(6)]
    while waiting:
        cell = waiting.pop()
        found = part(cell, runs, rectangle)
        if found == "in" and cell[0] <= level:
            made.append(run_of(cell))
        elif found != "out" and cell[0] < level:
            waiting += children(cell)
        elif found == "across" and kind == "outer" and touches_region(cell, runs, rectangle):
            made.append(run_of(cell))
    return joined(made)


# ---- files


def file_text(runs):
    cells = normal_form(runs)
    return b"\x01" + len(cells).to_bytes(8, "little") + b"".join(identifier(c).to_bytes(8, "little") for c in cells)


def read_file(text):
    """The leaves that a file stands for, or None."""
    if len(text) < 9 or text[0] != 1:
        return None
    count = int.from_bytes(text[1:9], "little")
    if count > MOST_IN_A_FILE or len(text) != 9 + 8 * count:
        return None
    cells = [cell_of(int.from_bytes(text[k : k + 8], "little")) for k in range(9, len(text), 8)]
    return None if None in cells else joined(run_of(cell) for cell in cells)


# ---- session files


def number_text(number):
    return number.to_bytes(8, "little")


def list_text(cells):
    return number_text(len(cells)) + b"".join(number_text(identifier(cell)) for cell in cells)


def change_text(old, new):
    """The one register in which two tables differ, the cells taken out of its list, and those put in."""
    (register,) = [r for r in REGISTERS if old[r] != new[r]]
    before, after = normal_form(old[register]), normal_form(new[register])
    out = [cell for cell in before if cell not in set(after)]
    put = [cell for cell in after if cell not in set(before)]
    return bytes([REGISTERS.index(register)]) + list_text(out) + list_text(put)


def session_text(past, table, future):
    """The file of a state; the past has the oldest table first, the future has the nearest first."""
    earlier, later = past + [table], [table] + future
    text = b"\x73\x01" + b"".join(list_text(normal_form(table[r])) for r in REGISTERS)
    text += number_text(len(past)) + b"".join(change_text(*pair) for pair in zip(earlier, earlier[1:]))
    return text + number_text(len(future)) + b"".join(change_text(*pair) for pair in zip(later, later[1:]))


class NoSession(Exception):
    """Raised if the bytes stand for no state."""


class Bytes:
    """The bytes of a session file, read from the front."""

    def __init__(self, text):
        self.text = text

    def take(self, count):
        if len(self.text) < count:
            raise NoSession
        taken, self.text = self.text[:count], self.text[count:]
        return taken

    def number(self):
        return int.from_bytes(self.take(8), "little")

    def cells(self):
        count = self.number()
        if count > MOST_IN_A_FILE:
            raise NoSession
        numbers = [self.number() for _ in range(count)]
        cells = [cell_of(number) for number in numbers]
        if None in cells or any(a >= b for a, b in zip(numbers, numbers[1:])):
            raise NoSession
        return cells

    def change(self):
        register = self.take(1)[0]
        if register >= len(REGISTERS):
            raise NoSession
        out, put = self.cells(), self.cells()
        if set(out) & set(put) or not out + put:
            raise NoSession
        return REGISTERS[register], out, put

    def changes(self):
        count = self.number()
        if count > MOST_CHANGES:
            raise NoSession
        return [self.change() for _ in range(count)]


def changed(table, register, out, put):
    """The table with the change made in the register's list, which must become a different normal form."""
    cells = normal_form(table[register])
    if not set(out) <= set(cells) or set(put) & set(cells):
        raise NoSession
    made = sorted(set(cells) - set(out) | set(put), key=identifier)
    runs = joined(run_of(cell) for cell in made)
    if normal_form(runs) != made or len(made) > MOST_IN_A_FILE:
        raise NoSession
    return {**table, register: runs}


def read_session(text):
    """Past, table and future of the state that a file stands for, or None."""
    if text[:1] == b"\x01":
        runs = read_file(text)
        return None if runs is None else ([], {**{r: [] for r in REGISTERS}, "a": runs}, [])
    try:
        left = Bytes(text)
        if left.take(2) != b"\x73\x01":
            return None
        table = {}
        for register in REGISTERS:
            cells = left.cells()
            table[register] = joined(run_of(cell) for cell in cells)
            if normal_form(table[register]) != cells:
                return None
        past_changes, future_changes = left.changes(), left.changes()
        if left.text or len(past_changes) + len(future_changes) > MOST_CHANGES:
            return None
        past, future = [table], [table]
        for register, out, put in reversed(past_changes):
            past.insert(0, changed(past[0], register, put, out))
        for register, out, put in future_changes:
            future.append(changed(future[-1], register, out, put))
        return past[:-1], table, future[1:]
    except NoSession:
        return None


# ---- words


def shown(word):
    """The word between quotes; a byte that doesn't print, a quote or a backslash is escaped."""
    escapes = {9: r"\t", 10: r"\n", 13: r"\r", 34: r"\"", 39: r"\'", 92: r"\\"}
    return "'" + "".join(escapes.get(b) or (chr(b) if 32 <= b < 127 else rf"\x{b:02x}") for b in word) + "'"


def identified(word):
    """Of which cell a word is the identifier in decimal, unsigned or signed; a shorter word may be meant as a token."""
    if len(word) <= 16 or not re.fullmatch(rb"[0-9]{1,20}|-[0-9]{1,19}", word) or int(word) < -2**63:
        return ""
    cell = cell_of(int(word) + (2**64 if word.startswith(b"-") else 0))
    return "" if cell is None else f"; in decimal it is the identifier of the cell {token(cell)}"


def number_in(word, most, least=0):
    """The number that a word stands for; None if it stands for none in range."""
    if re.fullmatch(rb"[0-9]{1,10}", word) and least <= int(word) <= most:
        return int(word)
    return None


def cell_in(word):
    """The cell that a word names; None if it names none."""
    if b"/" in word:
        if re.fullmatch(rb"[0-5]/[0-3]{0,30}", word):
            level = len(word) - 2
            return (level, int(word[:1]) * 4**level + int(word[2:] or b"0", 4))
    elif re.fullmatch(rb"[0-9a-fA-F]{1,16}", word):
        return cell_of(int(word.ljust(16, b"0"), 16))
    return None


def register_in(word):
    """The register that a word names; None if it names none."""
    letter = word.decode("latin-1")
    return letter if len(letter) == 1 and letter in REGISTERS else None


def name_in(word):
    """The file name that a word is; None if it is none."""
    return word.decode() if re.fullmatch(rb"[A-Za-z0-9_][A-Za-z0-9._-]{0,63}", word) else None


def unfit_byte(word):
    """What is said about the first byte that keeps a word from being a file name."""
    index = re.match(rb"(?:[A-Za-z0-9_][A-Za-z0-9._-]{0,63})?", word).end()
    return f": byte {index + 1} is {shown(word[index:index + 1])}"


class Words:
    """The words of a line after its first, read from left to right."""

    def __init__(self, words):
        self.words = list(words)

    def next(self, meaning, refusal, wanted, more=lambda word: ""):
        """What the next word means; it is wanted to be something, and refused if it isn't, where `more` may be said."""
        if not self.words:
            raise Refused("syntax", f"{wanted} is missing")
        word = self.words.pop(0)
        value = meaning(word)
        if value is None:
            raise Refused(refusal, f"{shown(word)} is not {wanted}{more(word)}")
        return value

    def register(self):
        return self.next(register_in, "register", "a register (a to z)")

    def cell(self):
        return self.next(cell_in, "cell", "a cell (a token or a debug text)", identified)

    def cells(self):
        found = [self.cell()]
        while self.words:
            found.append(self.cell())
        return found

    def span(self):
        """Two cells; the second must not end before the first begins."""
        first, word = self.cell(), self.words[:1]
        last = self.cell()
        if run_of(first)[0] > run_of(last)[1] - 1:
            raise Refused("order", f"the second cell {shown(word[0])} ends before the first begins")
        return first, last

    def number(self, refusal, what, most, least=0):
        return self.next(lambda word: number_in(word, most, least), refusal, f"a {what} ({least} to {most})")

    def level(self):
        return self.number("level", "level", 30)

    def modulus(self):
        return self.number("level", "modulus", 3, 1)

    def face(self):
        return self.number("face", "face", 5)

    def coordinate(self, least=0):
        return self.number("rectangle", "coordinate", SIDE - 1, least)

    def rectangle(self):
        face = self.face()
        i0 = self.coordinate()
        i1 = self.coordinate(i0)
        j0 = self.coordinate()
        return face, i0, i1, j0, self.coordinate(j0)

    def name(self):
        form = "1 to 64 letters, digits, '.', '_' or '-'; it must not begin with '.' or '-'; --dir names the folder"
        return self.next(name_in, "name", f"a file name ({form})", unfit_byte)

    def end(self):
        if self.words:
            raise Refused("syntax", f"{shown(self.words[0])} is a word too many")


# ---- the calculator


def cell_line(cell):
    first, end = run_of(cell)
    return f"cell {token(cell)} {debug(cell)} level {cell[0]} face {cell[1] // 4**cell[0]} leaves {first} {end - 1}"


# The commands with two registers: what the first then holds, and what is answered about both.
EDITS_BY_REGISTER = {
    "copy": lambda a, b: b,
    "union": lambda a, b: joined(a + b),
    "intersect": intersection,
    "subtract": difference,
}
COMPARISONS = {"covers": lambda a, b: not difference(b, a), "meets": intersection}


@functools.cache
def edited(word):
    """What one edit makes of a word of letters: each letter left out, exchanged with the next, or replaced by a byte;
    and a byte put in at each place."""
    halves = [(word[:at], word[at:]) for at in range(len(word) + 1)]
    less = {left + right[1:] for left, right in halves if right}
    exchanged = {left + right[1] + right[0] + right[2:] for left, right in halves if len(right) > 1}
    more = {left + chr(byte) + rest for left, right in halves for rest in (right, right[1:]) for byte in range(256)}
    return less | exchanged | more


def question(word):
    """The question whether another command is meant: one that begins with the word or with which the word begins, or
    one edit away."""
    near = [n for n in COMMANDS if n.startswith(word) or word.startswith(n) or word in edited(n)]
    return "; did you mean " + ", ".join(f"'{name}'" for name in near) + "?" if near else ""


class Calculator:
    """Registers, their history, and files by name; None in place of the bytes stands for a folder."""

    def __init__(self, limit, depth, files):
        self.limit, self.depth, self.files = limit, depth, files
        self.past, self.table, self.future = [], {r: [] for r in REGISTERS}, []
        self.notes = b""

    def run(self, script, stops=False):
        """The bytes that are written, and whether a line was refused, after which nothing is done if the run stops
        there; `notes` says why."""
        lines = script.split(b"\n")
        if lines[-1] == b"":
            lines.pop()
        written, notes = [], []
        for number, line in enumerate(lines, 1):
            try:
                written += [answer + "\n" for answer in self.answer(line)]
            except Refused as refusal:
                written.append(f"error {refusal}\n")
                notes.append(f"line {number}: error {refusal}: {refusal.reason}\n")
                if stops:
                    break
        self.notes = "".join(notes).encode()
        return "".join(written).encode(), bool(notes)

    def answer(self, line):
        if len(line) > LONGEST_LINE:
            raise Refused("line", f"the line has more than {LONGEST_LINE} bytes: write several shorter lines")
        line = line[:-1] if line.endswith(b"\r") else line
        words = re.findall(rb"[^ \t]+", line)
        if line.startswith(b"#") or not words:
            return []
        command = words[0].decode("latin-1")
        if command in EDITS_BY_REGISTER:
            return self.edit_by_register(Words(words[1:]), EDITS_BY_REGISTER[command])
        if command in COMPARISONS:
            return self.compare(Words(words[1:]), COMPARISONS[command])
        method = getattr(self, "do_" + command, None) if re.fullmatch("[a-z]+", command) else None
        if method is None:
            mark = "; it begins with a byte order mark: save the script without that"
            more = mark if words[0].startswith(codecs.BOM_UTF8) else question(command)
            raise Refused("syntax", f"{shown(words[0])} is not a command{more}")
        return method(Words(words[1:]))

    # Moves of the history.

    def numbers(self, old, new):
        out = put = 0
        for register in old:
            before, after = set(normal_form(old[register])), set(normal_form(new[register]))
            out, put = out + len(before - after), put + len(after - before)
        return [f"ok {out} {put}"]

    def assign(self, register, runs):
        if len(normal_form(runs)) > self.limit:
            raise Refused("too-many")
        if self.table[register] == runs:
            return ["ok 0 0"]
        old, new = self.table, {**self.table, register: runs}
        self.past, self.table, self.future = (self.past + [old])[-self.depth :], new, []
        return self.numbers(old, new)

    def do_undo(self, words):
        words.end()
        if not self.past:
            raise Refused("nothing")
        old, new = self.table, self.past[-1]
        self.past, self.table, self.future = self.past[:-1], new, [old] + self.future
        return self.numbers(old, new)

    def do_redo(self, words):
        words.end()
        if not self.future:
            raise Refused("nothing")
        old, new = self.table, self.future[0]
        self.past, self.table, self.future = self.past + [old], new, self.future[1:]
        return self.numbers(old, new)

    def do_history(self, words):
        words.end()
        return [f"undo {len(self.past)} redo {len(self.future)}"]

    # Edits.

    def edit_by_cells(self, words, operation):
        register, cells = words.register(), words.cells()
        return self.assign(register, operation(self.table[register], joined(run_of(cell) for cell in cells)))

    def do_add(self, words):
        return self.edit_by_cells(words, lambda a, b: joined(a + b))

    def do_remove(self, words):
        return self.edit_by_cells(words, difference)

    def do_keep(self, words):
        return self.edit_by_cells(words, intersection)

    def do_clear(self, words):
        register = words.register()
        words.end()
        return self.assign(register, [])

    def edit_by_register(self, words, operation):
        register, other = words.register(), words.register()
        words.end()
        return self.assign(register, operation(self.table[register], self.table[other]))

    def do_range(self, words):
        register, (first, last) = words.register(), words.span()
        words.end()
        return self.assign(register, [(run_of(first)[0], run_of(last)[1])])

    def cover_rectangle(self, words, kind):
        register, level, rectangle = words.register(), words.level(), words.rectangle()
        words.end()
        return self.assign(register, covering(kind, level, None, rectangle))

    def do_outer(self, words):
        return self.cover_rectangle(words, "outer")

    def do_inner(self, words):
        return self.cover_rectangle(words, "inner")

    def cover_register(self, words, kind):
        register, other, level = words.register(), words.register(), words.level()
        rectangle = words.rectangle() if words.words else None
        words.end()
        return self.assign(register, covering(kind, level, self.table[other], rectangle))

    def do_outerof(self, words):
        return self.cover_register(words, "outer")

    def do_innerof(self, words):
        return self.cover_register(words, "inner")

    # Files.

    def do_load(self, words):
        register, name = words.register(), words.name()
        words.end()
        if name not in self.files:
            raise Refused("missing")
        if self.files[name] is None:
            raise Refused("file")
        runs = read_file(self.files[name])
        if runs is None:
            raise Refused("format")
        return self.assign(register, runs)

    def do_save(self, words):
        register, name = words.register(), words.name()
        words.end()
        if name in self.files and self.files[name] is None:
            raise Refused("file")
        self.files[name] = file_text(self.table[register])
        return ["ok"]

    def do_dump(self, words):
        name = words.name()
        words.end()
        if name in self.files and self.files[name] is None:
            raise Refused("file")
        self.files[name] = session_text(self.past, self.table, self.future)
        return ["ok"]

    def do_restore(self, words):
        name = words.name()
        words.end()
        if name not in self.files:
            raise Refused("missing")
        if self.files[name] is None:
            raise Refused("file")
        state = read_session(self.files[name])
        if state is None:
            raise Refused("session")
        past, table, future = state
        if len(past) + len(future) > self.depth:
            raise Refused("too-deep")
        if any(len(normal_form(runs)) > self.limit for t in past + [table] + future for runs in t.values()):
            raise Refused("too-many")
        self.past, self.table, self.future = past, table, future
        return ["ok"]

    # Questions.

    def do_show(self, words):
        register = words.register()
        words.end()
        return [token(cell) for cell in normal_form(self.table[register])] + ["end"]

    def do_count(self, words):
        register = words.register()
        words.end()
        runs = self.table[register]
        return [f"cells {len(normal_form(runs))} leaves {sum(end - first for first, end in runs)}"]

    def tell(self, holds):
        return ["yes" if holds else "no"]

    def do_has(self, words):
        register, cell = words.register(), words.cell()
        words.end()
        return self.tell(not difference([run_of(cell)], self.table[register]))

    def do_touches(self, words):
        register, cell = words.register(), words.cell()
        words.end()
        return self.tell(intersection([run_of(cell)], self.table[register]))

    def compare(self, words, comparison):
        register, other = words.register(), words.register()
        words.end()
        return self.tell(comparison(self.table[register], self.table[other]))

    def do_denorm(self, words):
        register, least, modulus = words.register(), words.level(), words.modulus()
        words.end()
        cut = list(denormalised_levels(normal_form(self.table[register]), least, modulus))
        if sum(4 ** (level - cell[0]) for cell, level in cut) > MOST_LISTED:
            raise Refused("too-many")
        tokens = []
        for (own, place), level in cut:
            count = 4 ** (level - own)
            tokens += [token((level, place * count + k)) for k in range(count)]
        return tokens + ["end"]

    def do_cell(self, words):
        cell = words.cell()
        words.end()
        return [cell_line(cell)]

    def do_at(self, words):
        face, i, j = words.face(), words.coordinate(), words.coordinate()
        words.end()
        return [cell_line(leaf_at(face, i, j))]

    def do_square(self, words):
        cell = words.cell()
        words.end()
        face, i, j, side = square(cell)
        return [f"face {face} i {i} j {j} size {side}"]
