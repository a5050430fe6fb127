"""What rots unseen: lemmas and definitions that nobody cites, names imported for nothing, lemmas that are stated
twice, word for word, functions with many arms, lines of more than 120 characters, hosts of package registries,
habits of tests/docs/prose.py, and the names in SQL of tests/docs/schemas.py. tests/docs/pages.py looks for paths.

UNCITED and DOUBLES are the most that may stand, and MANY_ARMS what may: what stood there when this check came, and
less from time to time. The last line is 'N passed, M failed', where N counts the declarations, the files and the
pages. A check that has nothing to look at fails.
"""
import collections
import re
import sys
from pathlib import Path

ROOT = Path(__file__).resolve().parents[2]
sys.path.append(str(ROOT / "tests"))
import prose  # noqa: E402
import schemas  # noqa: E402
from checks import has_wrong, tracked  # noqa: E402

MOST = 120
BETWEEN = ("use ", "pub use ", "--", "pub mod ", "mod ", "module ", "infix", "#")
KEYWORDS = {"abbrev", "unfoldable", "pub", "record", "data", "opaque", "ruleset"}
SIGNATURE = re.compile(rf"(?:(?:{'|'.join(KEYWORDS)}) |[^\s]+ :(?: |$))")
TOKEN = re.compile(r"[^\s(){}\[\],.;:`]+")
QUALIFIED = re.compile(rf"{TOKEN.pattern}\.{TOKEN.pattern}")
USE = re.compile(r"^\s*(?:ghost |pub )*use (Rattle\.[^\s;{]+?)(?:\.\{(.*)\})?(?: as ([^\s;]+))?;?\s*$", re.M)
IMPORT = re.compile(r"^ *(?:ghost )?use Rattle\.[^\s;{]+\.\{(.*)\};?$", re.M)
PATH = re.compile(r"\b(\w+)::((?:specs|proofs)(?:::[\w-]+)+)")
BOUND = re.compile(r"\blet ([^\s(){}:=]+)|λ ([^.]*)\.|[({]([^\s(){}:]+(?: [^\s(){}:]+)*) : ")
HOSTS = re.compile(r"\b(?:(?:static\.)?crates[.]io|pypi[.]org|pythonhosted[.]org|npmjs[.](?:com|org)|"
                   r"proxy[.]golang[.]org|rubygems[.]org|docker[.]io|repo1?[.]maven)\b")
UNCITED = 0
DOUBLES = 22
ARMS = 7
# The functions that have more arms. Split a function in place of adding it here.
MANY_ARMS = {"s2calc/src/command_line.rt: arg_of", "s2calc/src/edits.rt: edit_register", "s2calc/src/execute.rt: act",
             "s2calc/src/notes.rt: put_reason", "s2calc/src/questions.rt: answer_to", "s2calc/src/refusal.rt: name",
             "s2script/src/misfit.rt: refusal", "s2script/src/misfit_text.rt: put_wanted",
             "s2script/src/refusal.rt: name"}
# Files whose lines may be long: pages and tables of rows, which are not wrapped, texts of others, and what pins a line.
UNWRAPPED = re.compile(r"\.(?:md|svg|png|outer|cells|sums)$|^(?:LICENSE|crates\.txt)$|/(?:stdin|stdout|mutants\.txt)$")


def text_of(name):
    return (ROOT / name).read_text(encoding="utf-8", errors="replace")


def flat(text):
    """The lines of a module of proofs, with what is inside a `module _ .. where` moved to the left."""
    depth, is_head = 0, False
    for line in text.splitlines():
        if line and not is_head:
            depth = min(depth, len(line) - len(line.lstrip()))
        line = line[depth:]
        is_head = is_head or line.startswith("module ")
        yield line
        if is_head and line.endswith("where"):
            depth, is_head = depth + 2, False


def blocks(lines_of_module):
    """The declarations at the left of a module of proofs: each name with its lines, signature and equations."""
    name, lines = None, []
    for line in [*lines_of_module, "--"]:
        if line.startswith(BETWEEN):
            if name:
                yield name, lines
            name, lines = None, []
        elif SIGNATURE.match(line):
            if name:
                yield name, lines
            name, lines = next(word for word in line.split() if word not in KEYWORDS), []
        if name:
            lines.append(line)


def statement(lines):
    """The type of a declaration, in one line, or None if it has none: all between the colon and the first equation."""
    text = " ".join(line.strip() for line in lines if not line.startswith("unfolding "))
    name = next(word for word in lines[0].split() if word not in KEYWORDS)
    found = re.match(rf"(?:pub )?{re.escape(name)} : (.*?) {re.escape(name)}\b.* = ", text)
    return re.sub(r"\s+", " ", found[1]) if found else None


def without_imports(text):
    """The words of a module or a source, without its lines of imports and its comments, and those that a dot joins."""
    kept = [line for line in text.splitlines() if not re.match(r"\s*(?:ghost |pub )*use |\s*(?:--|//)", line)]
    return [*TOKEN.findall("\n".join(kept)), *QUALIFIED.findall("\n".join(kept))]


def modules():
    """The modules of specs/, and those of proofs/ but for the files of single functions: what others may import."""
    named = [name for name in tracked(ROOT) if re.match(r"crates/[^/]+/(?:specs/.*|proofs/[^/]+)\.antt$", name)]
    return [name for name in named if not name.endswith("/Lib.antt")]


def path_of(file):
    """The path by which the modules of all crates import a module."""
    _, crate, module = file.removesuffix(".antt").split("/", 2)
    return f"Rattle.{crate}.{module.replace('/', '.')}"


def declared():
    """What each module declares, by the module's path: each name with its lines."""
    found = {}
    for file in modules():
        names = found.setdefault(path_of(file), {})
        for name, lines in blocks(flat(text_of(file))):
            names.setdefault(name, []).extend(lines)
    return found


def bound(name, lines):
    """The words that a declaration binds itself, so that they cite nothing."""
    equations = re.findall(rf"^{re.escape(name)}((?: [^=\n]*)?) =", "\n".join(lines), re.M)
    return set(TOKEN.findall(" ".join(equations + [" ".join(it) for it in BOUND.findall("\n".join(lines))]))) - {name}


def names_in(file, declarations):
    """What the words of a file may cite: its own declarations, those that it imports, and after a dot those of modules
    that it imports whole."""
    own = path_of(file)
    names = {name: (own, name) for name in declarations.get(own, ())}
    for module, some, alias in USE.findall(text_of(file)):
        pairs = [part.strip().split(" as ") for part in some.split(",")]
        names.update({pair[-1]: (module, pair[0]) for pair in pairs if some})
        names.update({f"{alias or module.split('.')[-1]}.{name}": (module, name)
                      for name in declarations.get(module, ()) if not some})
    return names


def cited_by(file, declarations):
    """What a source or a function's answers cite, or a module outside of its declarations."""
    words = collections.Counter(without_imports("\n".join(flat(text_of(file)))))
    for lines in declarations.get(path_of(file), {}).values():
        words -= collections.Counter(without_imports("\n".join(lines)))
    names = names_in(file, declarations)
    yield from (names[word] for word in words if word in names)
    for crate, path in PATH.findall(text_of(file)):
        crate = file.split("/")[1] if crate == "crate" else crate
        *module, name = f"Rattle.{crate}.{path.replace('::', '.')}".split(".")
        yield ".".join(module), name


def uncited():
    """The number of declarations that may be cited, and those to which no source and no function's answers lead, from
    one to the next, as 'file: name'. A name leads to the module that its file imports it from."""
    declarations, cites = declared(), {}
    for file in modules():
        own, names = path_of(file), names_in(file, declarations)
        for name, lines in declarations[own].items():
            words = set(without_imports("\n".join(lines))) - bound(name, lines)
            cites[own, name] = {names[word] for word in words if word in names}
    readers = [name for name in tracked(ROOT) if re.match(r"crates/.*\.(?:antt|rt)$", name)]
    waiting, live = [it for file in readers for it in cited_by(file, declarations)], set()
    while waiting:
        one = waiting.pop()
        if one not in live:
            live.add(one)
            waiting += cites.get(one, ())
    files = {path_of(file): file for file in modules()}
    return len(cites), [f"{files[module]}: {name}" for module, name in cites
                        if (module, name) not in live and "◌" not in name]


def is_used(name, text):
    """Whether a text has a name, or each part of an operator."""
    if "◌" in name:
        return all(part in text for part in name.split("◌"))
    return re.search(rf"(?<![\w-]){re.escape(name)}(?![\w-])", text) is not None


def unused():
    """The number of sources and modules of proofs, and what one imports for nothing, as 'file: name'."""
    files = [name for name in tracked(ROOT) if re.match(r"crates/.*\.(?:antt|rt)$", name)]
    found = []
    for file in files:
        text = text_of(file)
        rest = IMPORT.sub("", text)
        names = [name.split(" as ")[-1].strip() for some in IMPORT.findall(text) for name in some.split(",")]
        found += [f"{file}: {name}" for name in names if not is_used(name, rest)]
    return len(files), found


def doubles():
    """The number of lemmas with a statement, and those that are stated before, as 'file: name, as file: name'."""
    first, found, count = {}, [], 0
    for file in [name for name in modules() if "/proofs/" in name]:
        for name, lines in blocks(text_of(file).splitlines()):
            said = statement(lines)
            if said is None:
                continue
            count += 1
            if said in first:
                found.append(f"{file}: {name}, as {first[said]}")
            else:
                first[said] = f"{file}: {name}"
    return count, found


def many_arms():
    """The number of matches in the crates' sources, and those with more than ARMS arms, if MANY_ARMS lacks their
    function, as 'file: function has arms'; and those of MANY_ARMS that have no such match."""
    count, found, large = 0, [], set()
    for name in [name for name in tracked(ROOT) if re.match(r"crates/[^/]+/src/.*\.rt$", name)]:
        text = text_of(name)
        for match in re.finditer(r"^( *).*\bmatch .*\{\n", text, re.M):
            count += 1
            body = text[match.end():].partition(f"\n{match[1]}}}")[0]
            arms = len(re.findall(rf"^{match[1]}    (?! ).*=>", body, re.M))
            if arms > ARMS:
                function = re.findall(r"\bfn (\w+)", text[:match.start()])[-1]
                place = f"{name.removeprefix('crates/')}: {function}"
                large.add(place)
                found += [] if place in MANY_ARMS else [f"{place} has {arms}"]
    return count, found + [f"{place} has not, as MANY_ARMS says" for place in sorted(MANY_ARMS - large)]


def long_lines():
    """The number of files whose lines are wrapped, and their lines that are too long, as 'file:line'."""
    files = [name for name in tracked(ROOT) if not UNWRAPPED.search(name)]
    return len(files), [f"{name}:{number}" for name in files
                        for number, line in enumerate(text_of(name).splitlines(), 1) if len(line) > MOST]


def hosts():
    """The number of files, and those that name the host of a package registry."""
    return len(tracked(ROOT)), [name for name in tracked(ROOT) if HOSTS.search(text_of(name))]


def main():
    counts, double = doubles()
    double = double if len(double) > DOUBLES else []
    declared, dead = uncited()
    dead = dead if len(dead) > UNCITED else []
    return has_wrong({
        "nobody cites it": (declared, dead), "imported for nothing": unused(), "stated before": (counts, double),
        "more arms than seven: split it": many_arms(), "too long": long_lines(),
        "names the host of a registry": hosts(), "hard to read": prose.habits(),
        "looked up where others may create": schemas.without_schema(),
    })


if __name__ == "__main__":
    sys.exit(main())
