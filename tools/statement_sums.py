"""The text of docs/statement.sums, and what has changed since it was written.

For each crate a line has the number of its public contracts, of the definitions that public contracts need, and a
checksum of all these with the sentences above them. Then each contract has a line with the checksum of its head and of
each clause, and each definition one with its own. A definition is one of specs/, a type, a trait or a constant, or what
a type is as one of a trait, with the clauses of its methods. tools/statement writes the file, and compares it.
"""
import hashlib
import re

from compiled_contracts import name_of
from definitions import CLAUSE, closing, comment_above, source_module, without_parameters

HEAD = """\
# Made by tools/statement: of each crate the public contracts, each with the checksums of its head and of its clauses,
# and the definitions that public contracts need. A change of these that isn't here too is refused by `tests/run docs`.
"""


def short(text):
    return hashlib.sha256(text.encode()).hexdigest()[:8]


class Sums:
    """What each crate promises: {crate: {label: {part: text}}}, and the sentences of each crate."""

    def __init__(self, contracts, given):
        self.contracts, self.compiled, self.house = contracts, contracts.compiled, contracts.house
        self.promises = {crate: {} for crate in sorted(self.compiled.crates)}
        self.sentences = {crate: [] for crate in self.promises}
        for call in contracts.calls:
            self.add_contract(call)
        of_module = {item.key: item for item in self.compiled.items}
        impls = {key: impl for key, *impl in self.impls()}
        for key in {**self.house.closure(self.house.public_roots()), **dict.fromkeys(given), **impls}:
            self.add_definition(self.house.items[key], key in of_module, self.of_methods(*impls.get(key, ())))

    def impls(self):
        """What exported types are as those of a trait, of the kit or of a crate that hands it out: the key of each
        impl, and where it stands."""
        for crate in self.promises:
            for source in self.house.sources[crate]:
                for piece in source.pieces:
                    named = re.search(r"(\w+)(?:<[^{]*>)? for (\w+)", without_parameters(piece.head))
                    if piece.kind == "impl" and named and named[1] != "Model" and self.house.shows(source, piece):
                        yield (crate, "impl", f"{named[1]} for {named[2]}"), source, piece

    @staticmethod
    def of_methods(source=None, impl=None):
        """The clauses of the methods of an impl, by the method and their name."""
        for method in [inner for inner in impl.inner if inner.kind == "fn"] if impl else []:
            for clause in CLAUSE.finditer(source.blank, method.start, method.body):
                text = source.text[clause.start():closing(source.blank, clause.end() - 1)]
                uses = sorted(map(str, source.uses(text)))
                yield f"{method.name} {name_of(clause)}", "\n".join([text, *uses])

    def put(self, crate, label, parts, sentence):
        if crate in self.promises:
            own = self.promises[crate].setdefault(label, {})
            for name, text in parts:
                own[name] = own.get(name, "") + text
            self.sentences[crate] += sentence

    def add_contract(self, call):
        parts = [(name, "\n".join([text, *self.contracts.rust_uses(call.source, [text])]))
                 for name, text in self.contracts.parts(call)[0]]
        label = f"{source_module(call.source.file)} {call.name}"
        self.put(call.source.crate, label, parts, comment_above(call.source.text, call.piece.start))

    def add_definition(self, item, is_of_module, clauses):
        """Adds what isn't a function: that has its contract. An impl may have clauses."""
        crate, kind, name = item.key if len(item.key) == 3 else (item.key[0].split(".")[1], "", item.key[1])
        if kind == "fn":
            return
        if is_of_module:
            inside = self.compiled.renamed(item.inside, item)
            label, text = f"{item.key[0].partition('.specs.')[2]} {name}", f"{inside}\n{self.compiled.text_of(item)}"
        else:
            uses = sorted(map(str, item.uses))
            text = "\n".join([self.house.value_of(item.key) or re.sub(r" *//[^\n]*", "", item.text), *uses])
            label = f"{source_module(item.file) if kind else item.key[0].partition('.specs.')[2]} {name}"
        self.put(crate, label, [("", text), *clauses], item.sentence)

    def text(self):
        """The text of docs/statement.sums."""
        lines = [HEAD.rstrip("\n")]
        for crate, promises in self.promises.items():
            if not promises:
                continue
            of_contracts = sum("head" in parts for parts in promises.values())
            whole = [f"{label} {name}\n{text}\n" for label, parts in sorted(promises.items())
                     for name, text in parts.items()]
            checksum = hashlib.sha256("".join([*whole, *sorted(self.sentences[crate])]).encode()).hexdigest()[:16]
            lines.append(f"{crate}: {of_contracts} contracts, {len(promises) - of_contracts} definitions, {checksum}")
            for label, parts in sorted(promises.items()):
                lines.append(f"{label}: " + ", ".join(f"{name} {short(text)}".strip() for name, text in parts.items()))
        return "\n".join(lines) + "\n"


def promises_of(text):
    """What a text of sums says: {crate: (its line, {label: {part: checksum}})}."""
    found, crate = {}, ""
    for line in text.splitlines():
        label, _, rest = line.rpartition(": ")
        if line.startswith("#") or not label:
            continue
        if " " not in label:
            found[crate := label] = (rest, {})
        elif crate:
            parts = [part.rpartition(" ")[::2] for part in rest.split(", ")]
            found[crate][1][label] = dict(parts)
    return found


def named(label, part):
    return label + ("" if not part else ", its head" if part == "head" else f", clause {part}")


def changes(old, new):
    """What is gone, new or another in a text of sums, each in a line that names it."""
    before, after = promises_of(old), promises_of(new)
    for crate in sorted({*before, *after}):
        (line, own), (its_line, its_own) = before.get(crate, ("", {})), after.get(crate, ("", {}))
        found = list(changes_of(own, its_own))
        yield from (f"{crate}, {change}" for change in found)
        if not found and line != its_line:
            yield f"{crate}: the sentences above its contracts or definitions are others"
    if old != new and before == after:
        yield "lines that are no sums"


def changes_of(before, after):
    """The changes of a crate."""
    for label in sorted({*before, *after}):
        if label not in after:
            yield f"{label}: gone"
        elif label not in before:
            yield f"{label}: new"
        else:
            own, its = before[label], after[label]
            for part in [*own, *(it for it in its if it not in own)]:
                if own.get(part) != its.get(part):
                    what = "gone" if part not in its else "new" if part not in own else "another"
                    yield f"{named(label, part)}: {what}"

