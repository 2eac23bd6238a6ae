"""The functions of a crate's code: what the check calls each, which changes touch it, and whether the check refuses it for its own sake.

A function is proved over the contracts of those that it calls, not over their bodies. So changes in the bodies of several functions can be tried by one check, whoever
calls whom: a goal of a function that is not met, in its own folder of proofs/ or by the search where it has no answer there, is the fault of its own body. That one which it calls is
not proved, or that its own proof names what is gone, settles nothing.
"""
import collections
import os
import re

import block_names
import drawn_changes

Part = collections.namedtuple("Part", "name text")
NAME = re.compile(r"\bfn\s+(\w+)")
TYPE = re.compile(r"^(?:pub(?:\(\w+\))? )?(?:struct|enum) (\w+)", re.M)
CONSTANT = re.compile(r"^[^/\n]*\bconst (\w+): [^=\n]*=([^;]*(?:;[^;\n]+)*);$", re.M)
CONTRACT = "the contract of "
# what a proof says that names something which is gone, or that rests on what is refused
FOLLOWS = re.compile(r"was not admitted|has no field|is not in scope|has no `")


def module_of(crate, file):
    """The path under which the check names what a file of src/ declares."""
    parts = file.removeprefix("src/").removesuffix(".rt").split("/")
    return "::".join([crate, *(p for p in parts if p not in ("lib", "main", "mod"))])


def words_of(text):
    return set(re.findall(r"\w+", text))


class Functions:
    def __init__(self, folder, crate):
        self.folder, self.crate = folder, crate
        code = self.texts("src", "*.rt")
        self.homes = {name: file for file, text in code.items() for name in TYPE.findall(text)}
        self.parts = {file: self.parts_in(file, text) for file, text in code.items()}
        self.of_traits = {name for file, text in code.items() for *_, block, name in self.functions(file, text) if block and block.of_trait}
        self.laws = {**self.texts("specs", "*.antt"), **self.texts("proofs", "*.antt")}
        self.names = {part.name.removeprefix(CONTRACT) for part in self.all_parts() if part.name and part.name.startswith(CONTRACT)}

    def texts(self, part, pattern):
        return {str(p.relative_to(self.folder)): p.read_text(encoding="utf-8") for p in sorted((self.folder / part).rglob(pattern))}

    def functions(self, file, text):
        """Where each function's head begins, where its body begins and ends, its block, and what the check calls it: in an `impl` of no trait after the file that declares the type."""
        inside = list(block_names.blocks(text))
        for head, start, end in drawn_changes.functions(text):
            block = next((block for block in inside if block.start < head < block.end), None)
            home = file if not block or block.of_trait else self.homes.get(block.owner.split("+")[0], file)
            yield head, start, end, block, "::".join([module_of(self.crate, home), *([block.owner] if block else []), NAME.search(text, head)[1]])

    def parts_in(self, file, text):
        """A file in parts: the contracts and the bodies of its functions, the values of its constants, and what stands between, which has no name."""
        regions = []
        for head, start, end, _, name in self.functions(file, text):
            regions += [(head, start, CONTRACT + name), (start, end, name)]
        regions += [(*found.span(2), found[1]) for found in CONSTANT.finditer(text) if not any(start < found.start() < end for start, end, _ in regions)]
        parts, at = [], 0
        for start, end, name in sorted(regions):
            parts += [Part(None, text[at:start]), Part(name, text[start:end])]
            at = end
        return [*parts, Part(None, text[at:])]

    def all_parts(self):
        return [part for parts in self.parts.values() for part in parts]

    # ---- what a change touches

    def touched(self, files):
        """The functions and constants that a change touches, those among them that it newly mentions; None where it touches anything else, or what others read."""
        changed, mentioned = set(), set()
        for file, text in files.items():
            try:
                old, new = self.parts.get(file, []), self.parts_in(file, text)
            except (IndexError, ValueError):
                # a bracket that is drawn can leave another one open, and then the file has no parts
                return None
            if [part.name for part in old] != [part.name for part in new]:
                return None
            for part, other in zip(old, new):
                if part != other:
                    changed.add(part.name)
                    mentioned |= words_of(other.text) - words_of(part.text)
        touched = self.joined(changed)
        return touched and touched | changed | {part.name for part in self.all_parts() if part.name and part.name.split("::")[-1] in mentioned}

    def joined(self, names):
        found = [self.touched_by(name) for name in names]
        return None if None in found else frozenset().union(*found)

    def touched_by(self, name):
        """The functions that a change of one part touches: of a body its own, of a constant those that mention it, of a contract that nobody reads its own; None where others may read it."""
        if name in self.names:
            return None if self.is_opened(name) else {name}
        if name is None:
            return None
        if name.startswith(CONTRACT):
            return None if self.is_read(name.removeprefix(CONTRACT)) else {name.removeprefix(CONTRACT)}
        word = re.compile(rf"(?<!const )\b{name}\b")
        if any(word.search(text) for text in self.laws.values()):
            return None
        mentioning = {part.name for part in self.all_parts() if word.search(re.sub(r"//.*|^(?:pub )?use .*", "", part.text, flags=re.M))}
        # a constant of a trait that has this name is read by whoever reads the trait
        return None if name in mentioning else self.joined(mentioning) or None

    def is_read(self, function):
        """Whether a contract is read: by a function that calls this one (one of a trait is called by other words too, as `into` and `?`), or by a file of proofs/ that is not its own."""
        own, word = self.proof_of(function), function.split("::")[-1]
        return function in self.of_traits or any(part.name in self.names and re.search(rf"\b{word}\s*\(", part.text) for part in self.all_parts()) or any(
            re.search(rf"\b{word}\b", text) for file, text in self.laws.items() if not file.startswith(own)
        )

    def is_opened(self, function):
        """Whether a file of proofs/ that is not the function's own names what the check makes of its body."""
        path = r"\.".join(map(re.escape, function.split("::")[1:]))
        return any(re.search(rf"\.{path}\.(?:Code|Lts|Tie|Goals)\b", text.replace("«", "").replace("»", "")) for file, text in self.laws.items() if not file.startswith(self.proof_of(function)))

    @staticmethod
    def proof_of(function):
        """How the names of a function's own files of proofs/ begin."""
        return "/".join(["proofs", *function.split("::")[1:], ""])

    # ---- changes tried together

    def can_tell(self, touched):
        """Whether the check of this can refuse a change."""
        return True

    def fits(self, touched, others):
        """Whether a change can be tried with others."""
        return all(touched.isdisjoint(other) for other in others)

    def merged(self, changes):
        """The files with all of these changes, which touch different functions."""
        files = {}
        for file in {file for change in changes for file in change}:
            versions = [self.parts_in(file, change[file]) for change in changes if file in change]
            files[file] = "".join(next((part.text for part in here if part != old), old.text) for old, *here in zip(self.parts[file], *versions))
        return files

    def refused(self, touched, files, said):
        """Where the check refuses each change for its own sake; None for one of which it does not say so, and for all where it refuses a function that none of them touches."""
        own = {name: name for name in re.findall(r"^fn (\S+): .*`search` did not prove", said.text, re.M)}
        folders = {self.proof_of(name): name for name in self.names}
        for error in said.errors():
            folder = f"{os.path.dirname(error.file)}/"
            if folder in folders and not FOLLOWS.search(error.words):
                own.setdefault(folders[folder], error.place)
        if not own.keys() <= frozenset().union(*touched):
            return [None] * len(touched)
        return [next((own[name] for name in sorted(names) if name in own), None) for names in touched]

    def faulty(self, touched, files, said):
        """Which changes have an error in a body that they touch, as where something does not compile."""
        wrong = {self.at(error.file, files[error.file], error.line) for error in said.errors() if error.file in files}
        return [not names.isdisjoint(wrong) for names in touched]

    def at(self, file, text, line):
        """The part with a name in which a line of a file stands."""
        last = 1
        for part in self.parts_in(file, text):
            first, last = last, last + part.text.count("\n")
            if part.name and first <= line <= last:
                return part.name
        return None
