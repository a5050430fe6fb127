"""What the texts of the exports of each language lack, for tools/calls.

s2union.h has the facts of a call once, in the comment before it: its sentence, its arguments with their ranges, what it
refuses, and since when it is there. Each language says them in the form of its own tools, and `lacking` answers, for
each export, what its comment lacks: a sentence, an argument, a result, an error that a call of its body answers, by the
name that the language has for it, a version, or an example.
"""
import ast
import re

# What a status is called by those who catch it. Of the room for a result, and of what is checked before, nobody learns.
PYTHON = {"NO_CELL": "NotACellError", "ARGUMENT": "OutOfRangeError", "MANY": "TooManyCellsError",
          "MEMORY": "OutOfMemoryError", "FILE_SHORT": "UnionFileError", "FILE_VERSION": "UnionFileError",
          "FILE_TRAILING": "UnionFileError", "FILE_CELL": "UnionFileError", "CORNER": "CornerError",
          "RING": "RingError", "SHAPE": "ShapeError"}
KINDS = {name: name for name in PYTHON if name != "MEMORY"}
RUST = {"NO_CELL": "NoCell", "ARGUMENT": "Argument", "MANY": "Many", "MEMORY": "Memory", "FILE_SHORT": "FileShort",
        "FILE_VERSION": "FileVersion", "FILE_TRAILING": "FileTrailing", "FILE_CELL": "FileCell", "CORNER": "Corner",
        "RING": "Ring", "SHAPE": "NoShape"}
# The calls of the members of s2union.d.ts that have another name than a call.
CALLED = {
    "fromFaceIJ": "from_face_ij", "square": "square_of", "CellUnion.constructor": "normalise",
    "CellUnion.decode": "decode", "CellUnion.fromTokens": "from_tokens", "CellUnion.has": "contains_cell",
    "CellUnion.hasEach": "contains_cells", "CellUnion.intersectsCell": "intersects_cell",
    "CellUnion.intersectsEach": "intersects_cells", "CellUnion.cellsAt": "cells_at", "CellUnion.outer": "outer_of",
    "CellUnion.inner": "inner_of", "CellUnion.denormalized": "denormalised",
    "CellUnion.denormalizedSize": "denormalised_len", "UnionFile.constructor": "file_check",
    "UnionFile.check": "file_check", "UnionFile.at": "file_cell", "UnionFile.hasEach": "file_contains_cells",
}
JAVA = re.compile(r"(?:^  /\*\*((?:(?!\*/)[\s\S])*?)\*/\n)?(?:  @Override\n)?^  public (?:static )?(?:([\w\[\].<>]+) )?"
                  r"(\w+)\(([^)]*)\) \{\n([\s\S]*?)^  \}$", re.M)
TYPES = re.compile(r"(?:^ *(/\*\*(?:(?!\*/)[\s\S])*?)\*/\n)?^(?:export function |  (?:static |readonly )*)"
                   r"(constructor|\[Symbol\.iterator\]|\w+)(\(.*\))?(?:: (.*))?;$", re.M)
RUSTS = re.compile(r"((?:^ *///.*\n)*)(?:^ *#\[.*\n)*^ *pub (?:const )?fn (\w+)(?:<.*?>)?\((.*?)\)(?: -> (.*?))?"
                   r"(?: |\n *where\n(?:.*,\n)+ *)\{\n([\s\S]*?)^(?:    )?\}$", re.M)
GOES = re.compile(r"((?:^//.*\n)*)^func (?:\((\w+) \*?(\w+)\) )?([A-Z]\w*)(?:\[.*?\])?\(.*\{(?:.*\}|[\s\S]*?^\})$",
                  re.M)
CPP = re.compile(r"((?:^  ///.*\n)*)(?:^  template <.*>\n)?^  (?!static_assert|template|///?|\})(?:\S.*? )?[*&]*"
                 r"(operator\S+?|\w+)\(", re.M)
CPP_OWN = re.compile(r"^namespace internal \{[\s\S]*?^\}  // namespace internal$|^ private:[\s\S]*?^\};|"
                     r"^/// @cond[\s\S]*?^/// @endcond$", re.M)
SINCE = r"Since(?: |\n *//+ )\d"
# What can't come: a text of 2^64 bytes, and what is wrong in a list that the language itself has made.
NEVER = {("Python: tokens", "MANY"), ("Python: CellUnion.of", "ARGUMENT"), ("Python: CellUnion.tokens", "MANY"),
         ("Python: CellUnion.tokens", "NO_CELL"), ("Java: CellUnion.unionOf", "ARGUMENT"),
         ("Java: CellUnion.unionOf", "NO_CELL"), ("Java: CellUnion.toString", "MANY"),
         ("Java: CellUnion.toString", "NO_CELL"), ("Rust: union_of", "ARGUMENT"), ("Rust: union_of", "NO_CELL"),
         ("Rust: tokens", "MANY"), ("Rust: tokens", "NO_CELL"), ("Rust: from_range", "NO_CELL"),
         ("TypeScript: tokens", "MANY")}


def facts(header):
    """By the name of each call, its comment in the header, its arguments, and the statuses that it may answer."""
    form = re.compile(r"(?:/\*\*((?:(?!\*/)[\s\S])*?)\*/\n)?^(?:u?int\d+_t) s2u_(\w+)\(([^()]*)\);", re.M)
    found = {}
    for comment, name, arguments in form.findall(header):
        names = [word.split()[-1].lstrip("*") for word in arguments.split(",") if word.strip() != "void"]
        found[name] = comment, names, re.findall(r"@retval S2U_(\w+)", comment)
    return found


def of_header(found, statuses):
    for name, (comment, names, refused) in found.items():
        said = {word for words in re.findall(r"@param (\S+) \S", comment) for word in words.split(",")}
        yield f"s2union.h: s2u_{name}", [
            *([] if re.match(r"\s*(?:\[pure\] )?[A-Zs]", comment) else ["a sentence"]),
            *(f"the argument {word}" for word in names if word not in said),
            *(f"the argument {word}, which it has not" for word in said if word not in names),
            *(f"the status {word}, which isn't one" for word in refused if word not in statuses),
            *(tag for tag in ("@return", "@since", f"@snippet examples.c s2u_{name}\n") if tag not in comment)]


def of_cpp(text, examples):
    for comment, member in CPP.findall(CPP_OWN.sub("", text)):
        example = re.search(r"@snippet examples\.cc (.*)\n", comment)
        is_run = example and examples.count(f"// [{example[1]}]\n") == 2
        yield f"C++: {member}", [
            *([] if re.match(r"  /// [A-Z]", comment) else ["a sentence"]),
            *([] if "@since" in comment else ["@since"]),
            *([] if is_run else ["an example of examples.cc"])]


def errors(found, calls, names, comment, export, is_checked=False):
    """The errors that these calls answer and a comment doesn't name; of bytes that are checked, not what is checked."""
    wanted = {names[status] for call in calls if call in found for status in found[call][2] if status in names
              and (export, status) not in NEVER and not (is_checked and status.startswith("FILE_"))}
    return [f"the error {name}" for name in sorted(wanted) if not re.search(rf"\b{name}\b", comment)]


def of_python(found, text):
    tree, lines = ast.parse(text), text.splitlines()
    public = next(node for node in tree.body if isinstance(node, ast.Assign) and node.targets[0].id == "__all__")
    names = set(ast.literal_eval(public.value))
    for node in tree.body:
        members = [(f"{node.name}.", it) for it in node.body] if isinstance(node, ast.ClassDef) else [("", node)]
        for owner, it in members:
            is_public = isinstance(it, ast.FunctionDef) and (
                not it.name.startswith("_") if owner else it.name in names) or getattr(it, "name", "") == "__contains__"
            if not is_public or any(getattr(word, "id", "") == "overload" for word in it.decorator_list):
                continue
            said = ast.get_docstring(it) or ""
            body = "\n".join(lines[it.lineno - 1:it.end_lineno]).rpartition('"""')[2]
            given = [word.arg for word in it.args.args + ([it.args.vararg] if it.args.vararg else [])]
            calls = [name.rstrip("_") for name in re.findall(r"_library\.(\w+)", body)]
            export = f"Python: {owner}{it.name}"
            yield export, [
                *([] if said and said[0].isupper() else ["a sentence"]),
                *(f"the argument {word}" for word in given
                  if word not in ("self", "cls") and not re.search(rf"^\*?{word} : ", said, re.M)),
                *(part for part in ("Returns", ".. versionadded:: ", ">>> ") if part not in said),
                *errors(found, calls, PYTHON, said.partition("Raises\n")[2], export)]


def of_java(found, name, text):
    for comment, result, member, arguments, body in JAVA.findall(text):
        given = [word.split()[-1] for word in arguments.split(", ") if word]
        calls = [word.lower() for word in re.findall(r"\bCalls\.([A-Z_]+)\b", body)]
        calls = ["from_token"] if "named(" in body else calls  # of one token, or of one debug text
        export, is_checked = f"Java: {name}.{member}", name == "UnionFile" and member not in ("UnionFile", "check")
        yield f"{export}({arguments})", [
            *([] if re.match(r"[\s*]+[A-Z]", comment) else ["a sentence"]),
            *(f"@param {word}" for word in given if not re.search(rf"@param {word}\s+\S", comment)),
            *(tag for tag in ["@since", "<pre>{@code"] + ["@return"] * bool(result) if tag not in comment),
            *errors(found, calls, KINDS, comment, export, is_checked)]


def snake(name):
    return re.sub(r"(?<=[a-z])(?=[A-Z])", "_", name).lower()


def of_types(found, text, called):
    owners = [(it.start(), it[1]) for it in re.finditer(r"^export class (\w+)", text, re.M)]
    for it in TYPES.finditer(text):
        comment, member, arguments, result = it.groups()
        owner = next((name for at, name in reversed(owners) if at < it.start()), "")
        place = f"{owner}.{member}" if it[0].splitlines()[-1].startswith("  ") else member
        if owner == "Refusal" and place != member:
            continue
        given = re.findall(r"(?:^\(|, )(\w+)\??:", arguments or "")
        calls = [called.get(place, snake(member) if place == member else "")]
        comment = comment or ""
        is_answer = arguments is not None and member != "constructor"
        yield f"TypeScript: {place}", [
            *([] if re.match(r"/\*\*[\s*]+[A-Z]", comment) else ["a sentence"]),
            *(f"@param {word}" for word in given if not re.search(rf"@param {word} - \S", comment)),
            *(tag for tag in ["@since", "@example"] + ["@returns"] * is_answer if tag not in comment),
            *errors(found, calls, KINDS, comment, f"TypeScript: {place}",
                    place in ("UnionFile.at", "UnionFile.hasEach"))]


def of_rust(found, name, text):
    for comment, member, _, result, body in RUSTS.findall(text):
        calls = re.findall(r"\b(?:calls|lists)::(\w+)", body)
        is_refused = "Result<" in result
        section = comment.partition("# Errors")[2].partition("# Examples")[0]
        yield f"Rust: {name}: {member}", [
            *([] if re.match(r" */// \S", comment) else ["a sentence"]),
            *(["# Errors"] if is_refused and "# Errors" not in comment else []),
            *([] if re.search(SINCE, comment) else ["Since"]),
            *([] if re.search(r"/// # Examples\n *///\n */// ```\n", comment) else ["# Examples, with one that runs"]),
            *(errors(found, calls, RUST, section, f"Rust: {member}", name == "file" and member != "new") if is_refused
              else [])]


def of_go(name, text, examples):
    shown = set(re.findall(r"^func Example(\w+)\(\)", examples, re.M))
    for comment, _, kind, member in GOES.findall(text):
        is_shown = f"{kind}{'_' * bool(kind)}{member}" in shown
        yield f"Go: {name}: {kind}{'.' * bool(kind)}{member}", [
            *([] if is_shown or "Error" in kind else ["an Example function"]),
            *([] if re.match(rf"// {member} \S", comment) else ["a sentence that begins with its name"]),
            *([] if re.search(SINCE, comment) else ["Since"])]


def lacking(header, statuses, sources, called):
    """Each export, with what its text lacks. `sources` answers the files of a language, each with its name and text;
    `called` has the calls of more functions of s2union.d.ts by their names."""
    found = facts(header)
    yield from of_header(found, statuses)
    examples = "\n".join(text for _, text in sources("cpp examples"))
    for _, text in sources("cpp"):
        yield from of_cpp(text, examples)
    for _, text in sources("python"):
        yield from of_python(found, text)
    for name, text in sources("java"):
        yield from of_java(found, name, text)
    for _, text in sources("js"):
        yield from of_types(found, text, CALLED | called)
    for name, text in sources("rust"):
        yield from of_rust(found, name, text)
    examples = "\n".join(text for _, text in sources("go examples"))
    for name, text in sources("go"):
        yield from of_go(name, text, examples)
