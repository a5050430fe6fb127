"""The worked rows of crates/test_script, over the program: their scripts, the files before and after them, and the
other commands. crates/test_table and crates/test_script say what the lines of a row mean."""
import pytest

from process import answered, first_line, ran
from rows import TABLE, bytes_of, rows


def words_in(folder, words):
    """The words of a command line, for the files of this folder if the command has files."""
    command, *rest = words.split()
    return [command, *(["--dir", folder] if command in ("run", "check") else []), *rest]


def told(status, out, error):
    """What the program did, as the lines that `? program` answers."""
    lines = [*out.decode().splitlines(), *("!" + line for line in error.decode().splitlines())]
    return [*lines, f"status {status}"]


@pytest.mark.parametrize("row", [pytest.param(row, id=row.title) for row in rows() if not row.has_failures()])
def test_each_has_its_answers(row, tmp_path):
    for name, content in row.files.items():
        (tmp_path / name).write_bytes(content)
    status, answers, error = ran("run", "--dir", tmp_path, *row.words(), script=row.script)
    assert row.has(answers)
    assert (status, error) == (int(b"error " in answers), b"")
    for name, words, wanted in row.calls:
        if name == "program":
            assert told(*ran(*words_in(tmp_path, words), script=row.script)) == wanted
        else:
            call(name, words, wanted, status, tmp_path)


def call(name, words, wanted, status, folder):
    """Makes a call of a row, if the program has it."""
    if name == "status":
        assert [str(status)] == wanted
    elif name == "file":
        name, _, digits = words.partition(" ")
        assert ((folder / name).read_bytes(), ["same"]) == (bytes_of(digits), wanted)
    elif name in ("cell", "check"):
        options = [] if name == "cell" else ["--dir", folder]
        assert answered(name, *options, words) == ({"true": 0, "false": 1}[wanted[1]], wanted[0].encode() + b"\n")
    elif name == "job" and " " in wanted[0] and wanted[0].split()[0] in ("help", "usage"):
        status, _, error = ran(*words.split())
        reason, number = wanted[0].split()
        assert (status, first_line(error)) == (int(number), b"s2calc: usage" if reason == "usage" else b"")


def test_rows_are_those_that_the_table_is_said_to_have():
    with open(TABLE, encoding="utf-8") as it:
        assert f"\n$ rows {len(rows())}\n" in it.read()
    assert len({row.title for row in rows()}) == len(rows())
