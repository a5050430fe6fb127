"""The contracts of the library's calls, from crates/s2union_c/src/*.rt. A line that this doesn't know, in the head of a
call, is an error with the file and the line."""
import re
from typing import NamedTuple

from antt_terms import Bad, term

CALL = re.compile(r'pub extern "C" fn (\w+)\((.*)$')
ENDS = re.compile(r"\) -> (\w+)$")
CLAUSE = re.compile(r"(ensures|requires)(?: (\w+))? \{ (.*) \}")
STRUCTURE = re.compile(r"^#\[repr\(C\)\]\n(?:#\[.*\]\n)*pub struct (\w+) \{\n(.*?)^\}", re.S | re.M)
FIELD = re.compile(r"^    pub (\w+): (\w+),$", re.M)
IMPLEMENTED = re.compile(r"^impl(?:<[^>]*>)? (\w+) for (\w+)(?:<[^>]*>)? \{\n(.*?)^\}", re.S | re.M)
GHOST = re.compile(r"^    ghost (\w+) = \{ (.*) \};$", re.M)


class Clause(NamedTuple):
    """A clause: its name, or nothing, its term, and the line where it stands."""

    name: str
    term: tuple
    line: int


class Contract(NamedTuple):
    """A call: its arguments, each with its type, the type of its answer, and what it ensures."""

    path: str
    arguments: list
    result: str
    ensures: list


def contracts(path):
    """The contracts of a file's calls, by their names."""
    with open(path, encoding="utf-8") as it:
        lines = it.read().split("\n")
    return {found[1]: contract(path, lines, at) for at, line in enumerate(lines) if (found := CALL.match(line))}


def contract(path, lines, at):
    """The contract of the call whose head begins at a line."""
    head = CALL.match(lines[at])[2]
    while not ENDS.search(head):
        at += 1
        if at == len(lines) or lines[at] == "{":
            raise Bad(f"{path}:{at + 1}: no type of an answer")
        head += " " + lines[at].strip()
    arguments = [tuple(map(str.strip, each.split(":"))) for each in ENDS.sub("", head).split(",") if each.strip()]
    ensures = []
    for line, text in clause_texts(lines, at + 1):
        found = CLAUSE.fullmatch(text)
        if not found or found[1] != "ensures":
            raise Bad(f"{path}:{line}: not known: {text}")
        try:
            ensures.append(Clause(found[2] or "", term(found[3]), line))
        except Bad as error:
            raise Bad(f"{path}:{line}: {error}") from error
    return Contract(path, arguments, ENDS.search(head)[1], ensures)


def clause_texts(lines, at):
    """The clauses that stand before the body, each on one line, and the number of its first line."""
    found = []
    while not lines[at].startswith("{"):
        if re.match(r"    \w", lines[at]):
            found.append((at + 1, lines[at].strip()))
        else:
            found[-1] = (found[-1][0], f"{found[-1][1]} {lines[at].strip()}")
        at += 1
    return found


def structures(path):
    """The fields of each structure that a file shares with C, with their types."""
    with open(path, encoding="utf-8") as it:
        return {name: FIELD.findall(body) for name, body in STRUCTURE.findall(it.read())}


def ghosts(path, trait, name):
    """What a trait's words mean for a type that a file implements it for."""
    with open(path, encoding="utf-8") as it:
        found = [body for *of, body in IMPLEMENTED.findall(it.read()) if of == [trait, name]]
    if len(found) != 1:
        raise Bad(f"{path}: {trait} for {name} stands there {len(found)} times")
    return {word: term(text) for word, text in GHOST.findall(found[0])}
