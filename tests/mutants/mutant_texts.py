"""The one form of mutants, and what makes one: mutant_texts.py FILE prints the names of those in a file, and
mutant_texts.py FILE NAME FOLDER makes one in a copy of the sources.

The mutants of a crate, a binding or a database are in its file mutants.txt, and those that only a test can refuse in
tests/faults/mutants.txt. One begins with a line '## NAME'. Below it are lines 'file: PATH', and after each such line
pairs of one or more lines 'old: TEXT' and one or more lines 'new: TEXT'. The old text stands in that file once; the
path begins at the folder of mutants.txt, and in tests/faults at the top of the repository. It may also have:

    function: PATH    the function that the prover has to refuse, if it isn't the one in which the old text stands
    gate: always      `.ci/run` tries it
    test: NAME        the test that has to refuse it, since no contract can
    crate: NAME       the test is a row of this crate's table

Any other line is for readers, and doesn't begin with a word and a colon.
"""
import re
import sys
from pathlib import Path

sys.path.append(str(Path(__file__).resolve().parents[2] / "tools"))
import methods  # noqa: E402

BEGIN = re.compile(r"^## (.*)\n", re.M)
WORD = re.compile(r"^(\w+):", re.M)
WORDS = {"file", "old", "new", "function", "gate", "test", "crate"}
LINE = re.compile(r"^(file|old|new): ?(.*)$", re.M)
FUNCTION = re.compile(r"^function: (\S+)$", re.M)
ALWAYS = re.compile(r"^gate: always$", re.M)
TEST = re.compile(r"^test: (.+)$", re.M)
WATCHED = "watched"  # a part of tests/run, as a mutant's test
CRATE = re.compile(r"^crate: (\S+)$", re.M)
OPERATION = re.compile(r"^    let n = put_(\w+)\((.*), &mut out\[\.\.room\]\);$", re.M)
FN = re.compile(r'^ *(?:pub(?:\([a-z]+\))? )?(?:const )?(?:extern "C" )?fn (\w+)')
TYPE = re.compile(r"^(?:pub(?:\([a-z]+\))? )?(?:struct|enum) (\w+)", re.M)
TRAIT = ("trait ", "pub trait ")
BLOCK = re.compile(r"^(?:pub )?(?:impl(?:<(.*?)>)? (?:(\w+)(?:<(.*?)>)? for )?|trait )(?:&(?:mut )?)?(\w+)")


def files_of_mutants(top):
    """The files of mutants in a repository."""
    return sorted(Path(top).glob("*/*/mutants.txt"))


def mutants_of(file):
    """The mutants in a file, each name with the lines below it, and those of the operations on unions beside it."""
    _, *parts = BEGIN.split(Path(file).read_text(encoding="utf-8"))
    written = [(name, lines.strip("\n")) for name, lines in zip(parts[::2], parts[1::2])]
    return written + list(of_operations(Path(file).parent / "src" / "sets.rt"))


def of_operations(source):
    """A mutant of each operation on unions, which answers another one: that of both, or of a list with itself."""
    text = source.read_text(encoding="utf-8") if source.exists() else ""
    for name, lists in OPERATION.findall(text):
        given = lists if lists.count("&IdList") == 2 else f"{lists}, {lists}"
        other = "symmetric_difference" if name == "union" else "union"
        ends = "(", ", &mut out[..room]);"
        yield f"{name}_answered_by_another", "\n".join([
            f"function: sets::s2u_{name}", "file: src/sets.rt", f"old: put_{name}{lists.join(ends)}",
            f"new: put_{other}{given.join(ends)}"])


def mutant_of(file, name):
    """The lines of the mutant with this name in a file."""
    for it, mutant in mutants_of(file):
        if it == name:
            return mutant
    raise ValueError(f"no mutant has the name {name}")


def home(file):
    """The folder at which the paths begin that the mutants of a file have."""
    return Path(file).parents[2 if Path(file).parent.name == "faults" else 0]


def changes(mutant):
    """The changes of a mutant, as (file, lines of the old text, lines of the new)."""
    file, olds, news = None, [], []
    for word, text in LINE.findall(mutant):
        if word != "new" and news:
            yield file, olds, news
            olds, news = [], []
        if word == "file":
            file = text.strip()
        else:
            (olds if word == "old" else news).append(text)
    yield file, olds, news


def changed_texts(mutant, folder):
    """The new texts of the files of a folder that a mutant changes, by their paths; a ValueError says why it can't be
    made."""
    texts = {}
    for file, olds, news in changes(mutant):
        path = Path(folder) / (file or "")
        text = path.read_text() if path.is_file() else methods.whole(path)
        if text is None or not olds or not news:
            raise ValueError("it changes no file or no text")
        text = texts.get(path, text)
        old = "\n".join(olds)
        if text.count(old) != 1:
            raise ValueError(f"a text is in {file} {text.count(old)} times")
        texts[path] = text.replace(old, "\n".join(news))
    return texts


def functions_of(mutant, folder):
    """The functions that a mutant of a crate changes, by the ends of their names: the one that it names, or else those
    in which its old texts stand. None if one of them stands in no function."""
    named = FUNCTION.search(mutant)
    return [named[1]] if named else functions_at(mutant, folder)


def functions_at(mutant, folder):
    """Those in which the old texts of a mutant of a crate stand. None if one of them stands in no function."""
    places = [(Path(folder) / file, olds) for file, olds, _ in changes(mutant) if not olds[0].startswith("use ")]
    texts = [(path, text_before(path, olds)) for path, olds in places]
    found = {function_at(path, before) for path, before in texts if before is not None}
    return None if None in found or not found else sorted(found)


def text_before(path, olds):
    """The text of a file up to the first line of an old text that isn't blank, or None if another change of the same
    mutant makes the old text."""
    text, old = path.read_text(), "\n".join(olds)
    if old not in text:
        return None
    blank = len(old) - len(old.lstrip("\n"))
    end = text.find("\n", text.index(old) + blank)
    return text[:end]


def function_at(path, before):
    """The function of a source that the last line of this beginning of it is in, as the end of the name that a check
    prints, or None."""
    if path.suffix != ".rt":
        return None
    *_, place = places_of_lines(before)
    return name_at(path, *place)


def name_at(path, block, name):
    """The end of the name of the function at such a place of a source, or None."""
    if name is None:
        return None
    if block:
        return f"{owner(block)}::{name}"
    return f"{path.stem}::{name}" if path.stem not in ("lib", "main") else name


def owner(block):
    """What a check prints of an impl or a trait, in one word: the type, then the trait of an impl, and then what the
    trait is given, unless that is a parameter of the impl; for a type that is one it prints 'Any'."""
    parameters, trait, argument, kind = block.groups()
    of_impl = re.findall(r"\w+", parameters or "")
    given = re.match(r"\w*", argument or "")[0]
    return ("Any" if kind in of_impl else kind) + (trait or "") + ("" if given in of_impl else given)


def places_of_lines(text):
    """For each line of a source the match of the impl or trait that it is in, or None, and the function, or None."""
    name = block = None
    lines = text.split("\n")
    for line, earlier in zip(lines, [""] + lines):
        if earlier == "}":
            name = block = None
        fn, outer = FN.match(line), BLOCK.match(line)
        if outer:
            block, name = outer, None
        elif fn:
            name = fn[1]
        yield block, name


def all_functions(folder):
    """The functions of a crate's sources, each as the words of the name that a check prints after the crate's; but
    not those of traits with arguments, which may stand in these names too. A method is in the module of its type."""
    root = Path(folder, "src")
    texts = {modules_of(path.relative_to(root)): path.read_text() for path in sorted(root.rglob("*.rt"))}
    homes = {kind: modules for modules, text in texts.items() for kind in TYPE.findall(text)}
    places = {(modules, *place) for modules, text in texts.items() for place in places_of_lines(text) if place[1]}
    free = {(*modules, name) for modules, block, name in places if not block}
    blocks = {(block, name) for _, block, name in places if block and not block[0].startswith(TRAIT)}
    return free | {(*homes[block[4]], owner(block), name)
                   for block, name in blocks if block[4] in homes and not block[3]}


def functions_in_cycles(folder):
    """The free functions of a crate's sources that call each other in a cycle, which an attribute above them names; in
    the form of `all_functions`. Without the body of one the others are in no cycle, and their attribute is refused."""
    root, found = Path(folder, "src"), set()
    for path in sorted(root.rglob("*.rt")):
        above = []
        for line, (block, name) in zip(path.read_text().split("\n"), places_of_lines(path.read_text())):
            if FN.match(line) and not block and any(it.startswith("#[cycle(") for it in above):
                found.add((*modules_of(path.relative_to(root)), name))
            above = [*above, line] if line.startswith("#[") else []
    return found


def drop_bodies(folder, functions):
    """Drops the bodies of these functions in a copy of the sources, except those that constants call, and answers the
    texts that it has replaced, by their paths. A function is given as `all_functions` has it."""
    root, originals = Path(folder, "src"), {}
    texts = {path: path.read_text() for path in sorted(root.rglob("*.rt"))}
    homes = {kind: modules_of(path.relative_to(root)) for path, text in texts.items() for kind in TYPE.findall(text)}
    for path, text in texts.items():
        modules, lines = modules_of(path.relative_to(root)), text.split("\n")
        for at, (block, name) in reversed(list(enumerate(places_of_lines(text)))):
            home = (*homes.get(block[4], ()), owner(block)) if block else modules
            is_one = FN.match(lines[at]) and "const fn" not in lines[at] and (*home, name) in functions
            if is_one and (body := body_at(lines, at)):
                lines[body] = ["unreachable!()"]
        if "\n".join(lines) != text:
            originals[path] = text
            path.write_text("\n".join(lines))
    return originals


def body_at(lines, at):
    """Where in the lines of a source, laid out by `rt fmt`, the body of the function stands that begins at a line, or
    None if it has none."""
    indent = re.match(" *", lines[at])[0]
    for begin in range(at, len(lines)):
        line = lines[begin]
        if line == indent + "{" or line.endswith(" {") and (begin == at or line.startswith(indent + ")")):
            return slice(begin + 1, lines.index(indent + "}", begin))
        if line.endswith(("{}", ";")) and line.startswith((lines[at], indent + "{}", indent + ")")):
            return None
    return None


def misfit(mutant, folder):
    """Why a mutant of the folder can't be tried, or None: a line has no meaning, it can't be made, or names a function
    or a test that isn't there."""
    unknown = set(WORD.findall(mutant)) - WORDS
    if unknown:
        return f"a line begins with {unknown.pop()}:"
    try:
        texts = changed_texts(mutant, folder)
    except ValueError as why:
        return str(why)
    test, named = TEST.search(mutant), FUNCTION.search(mutant)
    if test and not has_test(Path(folder), CRATE.search(mutant), test[1]):
        return f"no test has the name {test[1]}"
    if not named:
        return None
    texts = {**{path: path.read_text() for path in Path(folder, "src").rglob("*.rt")}, **texts}
    ends = {name_at(path, *place) for path, text in texts.items() for place in places_of_lines(text)} - {None}
    is_there = any(f"::{end}".endswith(f"::{named[1]}") or named[1].endswith(f"::{end}") for end in ends)
    return None if is_there else f"no function has the name {named[1]}"


def has_test(folder, crate, name):
    """Whether a test of the program or WATCHED has this name, or if there is a crate, a row of its table."""
    if name == WATCHED:
        return True
    files = [folder / "crates" / crate[1] / "stdin"] if crate else folder.glob("tests/program/*.py")
    form = rf"^## {re.escape(name)}$" if crate else rf"^(?:    )?def {re.escape(name)}\("
    return any(re.search(form, file.read_text(encoding="utf-8"), re.M) for file in files)


def modules_of(path):
    """The words of a source's module, by its path below src/."""
    return tuple(word for word in path.with_suffix("").parts if word not in ("lib", "main", "mod"))


def make(mutant, folder):
    """Makes a mutant in a copy of the sources, and answers the texts that it has replaced, by their paths."""
    texts = changed_texts(mutant, folder)
    originals = {path: path.read_text() for path in texts}
    for path, text in texts.items():
        path.write_text(text)
    return originals


def main(file, name=None, folder=None):
    if name:
        make(mutant_of(file, name), folder)
    else:
        print("\n".join(name for name, _ in mutants_of(file)))


if __name__ == "__main__":
    main(*sys.argv[1:])
