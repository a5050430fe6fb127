"""Names in the SQL of the extensions for PostgreSQL that are looked up where others may create: in the path of whoever
runs a script or calls a function.

A script that runs something says `SET LOCAL search_path = pg_catalog, pg_temp` before it, and a function whose body is
a text has `SET search_path = pg_catalog, pg_temp`, also one that is made by a text. Everywhere else a function, an
operator, a type and a table has its schema before it. Exceptions:

- what a script creates, and the types of what it creates: PostgreSQL looks for these in the extension's schema
- names of the extensions and of PostGIS in a body that is no text, which is read while the script runs: owners.sql, at
  the end of each script, asks whose they are"""
import re
from pathlib import Path

from checks import tracked

ROOT = Path(__file__).resolve().parents[2]
TOKEN = re.compile(r"--[^\n]*|\\echo [^\n]*|\$(\w*)\$.*?\$\1\$|E?'(?:[^']|'')*'|\"[^\"]*\"|[A-Za-z_]\w*|[\d.]+\b|::|:=|"
                   r"[-+*/<>=~!@#%^&|?]+|\S", re.S)
PATH = "search_path = pg_catalog , pg_temp"
CREATED = {"function", "type", "operator", "aggregate", "cast"}
# Words with a parenthesis after them that are no calls.
NO_CALLS = set("""all and any as array atomic bigint by case coalesce else exists filter from greatest if in integer
    into join least loop not nullif on operator or over perform return row select then using values when where
    with""".split())
OURS = re.compile(r"s2|st_|geometry$", re.I)
OUR_OPERATORS = {"&", "|", "#", "&&", "@>", "<@"}
REPLACED = {"s2_join_table"}  # as 1.4 had it: s2union_geo--1.4--1.4.1.sql has it anew


def tokens_of(sql):
    return [match[0] for match in TOKEN.finditer(sql) if not match[0].startswith(("--", "\\echo"))]


def statements(tokens):
    """The statements of a script, each a list of tokens."""
    depth, said = 0, []
    for k, token in enumerate(tokens):
        word = token.lower()
        depth += word == "case" or word == "begin" and tokens[k + 1].lower() == "atomic"
        depth -= word == "end"
        if token == ";" and depth <= 0:
            yield said
            depth, said = 0, []
        else:
            said.append(token)
    if said:
        yield said


def is_text(token):
    return re.match(r"E?'|\$\w*\$", token) is not None


def inside(text):
    """What a literal says."""
    if text.startswith("$"):
        return text[text.index("$", 1) + 1:text.rindex("$", 0, -1)]
    return text[text.index("'") + 1:-1].replace("''", "'")


def texts_in(tokens):
    """What the literals of a statement say; those that follow each other are one."""
    said = []
    for before, token in zip(["", *tokens], tokens):
        if is_text(token) and is_text(before):
            said[-1] += inside(token)
        elif is_text(token):
            said.append(inside(token))
    return said


def is_operator(token):
    return re.fullmatch(r"[-+*/<>=~!@#%^&|?]+", token) is not None


def open_names(tokens, ours=False):
    """The names without a schema in a statement; those of the extensions and of PostGIS aren't, if these are `ours`."""
    for before, token, after in zip(["", *tokens], tokens, [*tokens[1:], ""]):
        word, last = token.lower(), before.lower()
        if re.match(r"[a-z_]", word):
            called = after == "(" and word not in NO_CALLS and last not in ("as", ".")
            table = last in ("from", "join") and after not in (".", "(") and word not in NO_CALLS
            kind = before == "::" and after != "."
            if (called or table or kind) and not (ours and OURS.match(word)):
                yield token
        elif is_operator(token) and before != "." and token != "*" and not (ours and token in OUR_OPERATORS):
            yield token
        elif is_text(token) and token.startswith("$"):
            yield from open_names(tokens_of(inside(token)))


def in_texts(body):
    """What is wrong with the texts of a body with a fixed path: those that make a function, or set a path."""
    for text in texts_in(tokens_of(body)):
        said = " ".join(tokens_of(text))
        if re.search(r"\blanguage (?:plpgsql|sql)\b", said, re.I) and "begin atomic" not in said.lower():
            yield from [] if f"SET {PATH}" in said else ["no path: " + said[:60]]
        if "search_path" in said.replace(PATH, ""):
            yield "another path: " + said[:60]


def of_function(tokens):
    """What is wrong with a statement that creates what has a body, or none."""
    said, words = " ".join(tokens), [token.lower() for token in tokens]
    text = next((token for before, token in zip(words, tokens[1:]) if before == "as" and is_text(token)), None)
    if re.search(r"\blanguage (?:plpgsql|sql)\b", said, re.I) and text:
        name = tokens[words.index("function") + 1]
        yield from [] if f"SET {PATH}" in said or name in REPLACED else [f"no path: {name}"]
        yield from in_texts(inside(text))
    elif begin := {"return", "atomic"}.intersection(words):
        yield from open_names(tokens[words.index(begin.pop()) + 1:], ours=True)


def of_statement(tokens, fixed):
    """What is wrong with a statement of a script, whose path is `fixed` there or not."""
    words = [token.lower() for token in tokens[:4]]
    if words[0] in ("comment", "drop"):
        return []
    if words[0] == "create" and CREATED.intersection(words):
        return of_function(tokens)
    return (it for text in texts_in(tokens) for it in in_texts(text)) if fixed else open_names(tokens)


def without_schema():
    """The number of statements in the scripts of the extensions, and the names without a schema, as 'file: name'."""
    count, found = 0, []
    for name in tracked(ROOT, "bindings/postgres/*.sql"):
        if name.count("/") > 2:
            continue
        fixed = False
        for tokens in statements(tokens_of(Path(ROOT, name).read_text(encoding="utf-8"))):
            count += 1
            if tokens[0] == "SET":
                fixed = " ".join(tokens) == f"SET LOCAL {PATH}"
            else:
                found += [f"{name}: {it}" for it in of_statement(tokens, fixed)]
    return count, found
