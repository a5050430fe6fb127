"""The declarations in crates/*/specs and crates/*/proofs: read(path) gives a list of them. A word unknown to it is an
error with the file and the line.

A declaration is a dict with its `kind`, the `line` where it begins, and
  use        the `module`, the `names` that are taken from it, and the name `as` which it is known
  record     its `name`, `params`, and `fields`, each with its type
  data       its `name`, `params`, `index`, and the constructors `cons`, each with its type
  def        its `name`, `type`, and `clauses`, each as (patterns, body, declarations of its `where`)
  module     `params` and `decls`
  mutual     `decls`
  infix, mod, ruleset    the `text`
with `marks` such as pub. Terms are those of antt_terms.py.
"""
import re

from antt_terms import Bad, Parser, term  # noqa: F401

MARKS = ("pub", "abbrev", "unfoldable", "pattern", "axiom")
MARKED = re.compile(rf"^(?:(?:{'|'.join(MARKS)})\s+)+")
USE = re.compile(r"(?:pub\s+)?use\s+([^{]*?)(?:\.\{(.*)\})?(?:\s+as\s+(\S+))?")
HEAD = re.compile(r"(?:(?:pub|abbrev)\s+)*(?:record|data)\s+(\S+)(?:\s*\{[^}:]*\})?\s*(.*)$")
SIGNATURE = re.compile(r"(\S+)(?:\s*\{[^}:=]*\})?\s*:\s")


def read(path):
    """The declarations of a file."""
    with open(path, encoding="utf-8") as it:
        return read_text(it.read(), path)


def read_text(text, path="a text", line=1):
    """The declarations of a text whose first line has this number."""
    declarations = []
    for at, chunk in chunks(text):
        try:
            read_chunk(chunk, declarations, path, line + at)
        except Bad as error:
            raise error if str(error).startswith(f"{path}:") else Bad(f"{path}:{line + at}: {error}") from error
    return declarations


def chunks(text):
    """The texts of the declarations, each a line at column 0 with what is indented below it, and the lines' numbers."""
    found = []
    for at, line in enumerate(text.split("\n")):
        if not line.strip() or line.lstrip().startswith("--"):
            if found:
                found[-1][1].append("")
        elif line[0].isspace() or line[0] in ")}]":
            if not found:
                raise Bad("an indented line stands first")
            found[-1][1].append(line)
        else:
            found.append((at, [line]))
    return [(at, "\n".join(lines).rstrip()) for at, lines in found]


def dedented(text):
    """A text without what all its lines have in front."""
    lines = text.split("\n")
    count = min((len(line) - len(line.lstrip()) for line in lines if line.strip()), default=0)
    return "\n".join(line[count:] for line in lines)


def read_chunk(chunk, declarations, path, line):
    """Adds a declaration to those that stand before it, or a clause to the last of them."""
    words = chunk.split("\n")[0].split()
    marks = []
    while words and words[0] in MARKS:
        marks.append(words.pop(0))
    if not words:
        raise Bad("a line with nothing to declare")
    if words[0] in READERS:
        found = READERS[words[0]](chunk, path, line)
    elif words[0] == "unfolding":
        return last_definition(declarations).update(unfolding=chunk.split()[1:])
    elif words[0] == "open":
        raise Bad("open")
    else:
        body = MARKED.sub("", chunk)
        found = read_signature(body)
        if not found:
            definition = last_definition(declarations)
            return definition["clauses"].append(read_clause(body, definition["name"], path, line))
    declarations.append({**found, "marks": marks, "line": line})
    return None


def last_definition(declarations):
    if not declarations or declarations[-1]["kind"] != "def":
        raise Bad("a clause stands after no type")
    return declarations[-1]


def whole(parser, what):
    if parser.peek() is not None:
        raise Bad(f"after {what}: {parser.peek()!r}")


def read_use(chunk, _, __):
    found = USE.fullmatch(" ".join(chunk.split()))
    if not found:
        raise Bad("a use")
    names = [name.strip() for name in (found[2] or "").split(",") if name.strip()]
    return {"kind": "use", "module": found[1], "names": names, "as": found[3]}


def read_line(kind):
    return lambda chunk, _, __: {"kind": kind, "text": chunk}


def read_mutual(chunk, path, line):
    inner = dedented(chunk.split("\n", 1)[1])
    return {"kind": "mutual", "decls": read_text(inner, path, line + 1)}


def read_module(chunk, path, line):
    head, lines = head_of(chunk)
    parser = Parser(head)
    parser.next()
    if parser.next() != "_":
        raise Bad("a module with a name")
    groups = parameters_of(parser)
    whole(parser, "the head of a module")
    begin = line + chunk.count("\n") + 1 - len(lines)
    return {"kind": "module", "params": groups, "decls": read_text(dedented("\n".join(lines)), path, begin)}


def head_of(chunk):
    """What stands before `where`, and the lines after it."""
    lines = chunk.split("\n")
    head = lines.pop(0)
    while not re.search(r"\bwhere\s*$", head):
        if not lines:
            raise Bad("no where")
        head += " " + lines.pop(0).strip()
    return re.sub(r"\bwhere\s*$", "", head), lines


def parameters_of(parser):
    groups = []
    while parser.is_("(", "{"):
        groups.append(parser.group())
    return groups


def head_and_types(chunk):
    """The name, the parameters and the type after them of a record or data, and the names below with their types."""
    head, lines = head_of(chunk)
    found = HEAD.match(head)
    if not found:
        raise Bad("a head")
    parser = Parser(found[2])
    groups = parameters_of(parser)
    parser.want(":")
    index = parser.term()
    whole(parser, "the head")
    return found[1], groups, index, [typed(part) for _, part in chunks(dedented("\n".join(lines)))]


def typed(text):
    """A name and its type."""
    found = SIGNATURE.match(re.sub(r"^pub\s+", "", text))
    if not found:
        raise Bad(f"no type: {text!r}")
    return found[1], term(re.sub(r"^pub\s+", "", text)[found.end():])


def read_record(chunk, _, __):
    name, groups, _, fields = head_and_types(chunk)
    return {"kind": "record", "name": name, "params": groups, "fields": fields}


def read_data(chunk, _, __):
    name, groups, index, constructors = head_and_types(chunk)
    return {"kind": "data", "name": name, "params": groups, "index": index, "cons": constructors}


READERS = {"use": read_use, "infix": read_line("infix"), "infixl": read_line("infix"), "infixr": read_line("infix"),
           "mod": read_line("mod"), "ruleset": read_line("ruleset"), "mutual": read_mutual, "module": read_module,
           "record": read_record, "data": read_data}


def read_signature(text):
    """A definition without its clauses, if the text is a name with a type."""
    found = SIGNATURE.match(text)
    return found and {"kind": "def", "name": found[1], "type": term(text[found.end():]), "clauses": []}


def read_clause(text, name, path, line):
    found = re.search(r"\n(\s+)where\n", text)
    text, where = (text[:found.start()], text[found.end():]) if found else (text, None)
    parser = Parser(text)
    patterns = operator_patterns(parser, name) if name.startswith("◌") and parser.peek() != name else \
        named_patterns(parser, name)
    parser.want("=")
    body = parser.term()
    whole(parser, f"a clause of {name}")
    inner = read_text(dedented(where), path, line + text.count("\n") + 2) if where else []
    return patterns, body, inner


def operator_patterns(parser, name):
    """The patterns to the left and the right of an operator."""
    operator = name.strip("◌")
    left = patterns_until(parser, operator)
    parser.want(operator)
    return [left, patterns_until(parser, "=")]


def patterns_until(parser, word):
    first, rest = parser.pattern_atom(False), []
    while not parser.is_(word):
        rest.append(parser.pattern_atom(False))
    return ("con", first[1], rest) if rest else first


def named_patterns(parser, name):
    if parser.next() != name:
        raise Bad(f"a clause of another name after {name!r}")
    patterns = []
    while not parser.is_("="):
        pattern = parser.pattern_atom(False)
        patterns += pattern[1] if pattern[0] == "many" else [pattern]
    return patterns
