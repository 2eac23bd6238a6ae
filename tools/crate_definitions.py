"""The definitions and laws of a crate without functions: the pieces of its files in specs/ and proofs/, and which others each one reaches by the names that it mentions.

What the check says of a piece depends on its own text and on the pieces that it reaches, and on nothing else: the language finds nothing by itself, as an instance or a
coercion. So changes of several definitions can be tried by one check: an error in a piece that reaches only one of them is the fault of that one. Names are compared as
words. So a piece may seem to reach too much, which leaves a change open, but not too little.
"""
import collections
import functools
import pathlib
import re

Piece = collections.namedtuple("Piece", "line text names")
MARKS = r"(?:(?:unfoldable|abbrev|pub) )*"
NAME = r"[^\s(){}.;,@\"«»]+"
WORD = re.compile(NAME)
DECLARED = re.compile(rf"^{MARKS}(?:record |data |module |ruleset )?({NAME})", re.M)
INNER = re.compile(rf"^ +{MARKS}({NAME}(?: {NAME})*?)(?: \{{[^}}]*\}})? :\s", re.M)
NAMELESS = {"use", "mod", "infix", "infixl", "infixr", "unfolding", "--"}
USE = re.compile(r"^use ([^\s{]+?)(?:\.\{(.*)\}| as \S+)?$", re.M)
# of the laws that reach a change, it keeps one in so many for itself, where it is tried with others
ONE_IN = 4


def keys(name):
    """The words by which a name can be mentioned: an operator has one for each of its parts."""
    return {part for part in name.split("◌") if part}


def words_of(text):
    found = set(WORD.findall(re.sub(r"^ *--.*", "", text, flags=re.M)))
    if "do" in found:
        found.update((">>=", ">>"))
    return {key for word in found for key in keys(word)}


def names_of(text):
    """What a piece declares: of a type its constructors, too, and what stands in a section. (Not fields: whoever uses one reaches the record by its type.)"""
    found = set(DECLARED.findall(text)) - NAMELESS
    if re.search(rf"^{MARKS}(?:data|module) ", text, re.M):
        found.update(name for line in INNER.findall(text) for name in line.split())
    return found


def pieces_of(text):
    """The pieces of a file: each begins at a line that is not indented, below a blank line or a comment."""
    lines = text.split("\n")
    starts = [i for i, line in enumerate(lines) if re.match(r"(?!--)\S", line) and (i == 0 or re.match(r"$|--", lines[i - 1]))]
    found = []
    for start, end in zip([0, *starts[1:]], [*starts[1:], len(lines)]):
        piece = "\n".join(lines[start:end])
        found.append(Piece(start + 1, piece, names_of(piece)))
    return found


def laws_then_examples(folder, crate):
    """The crate without its worked examples, and the whole crate."""
    texts = {str(p.relative_to(folder)): p.read_text(encoding="utf-8") for part in ("specs", "proofs") for p in sorted((folder / part).rglob("*.antt"))}
    whole = Definitions(crate, texts)
    examples = whole.examples()
    return [whole.without(examples), whole] if examples else [whole]


class Definitions:
    def __init__(self, crate, texts, left_out=()):
        self.crate, self.texts, self.left_out = crate, texts, left_out
        self.pieces = {file: pieces_of(text) for file, text in texts.items()}
        self.laws = [(file, i) for file, pieces in self.pieces.items() if file.startswith("proofs/") for i in range(len(pieces))]
        kept = (self.scope, self.mentioned, self.reached, self.laws_of, self.is_read_whole)
        self.scope, self.mentioned, self.reached, self.laws_of, self.is_read_whole = map(functools.cache, kept)

    def examples(self):
        """The files of laws that are not named after a file of definitions, and that none of the others uses."""
        kept, waiting = set(), [file for file in self.texts if file.replace("proofs/", "specs/") in self.texts]
        while waiting:
            file = waiting.pop()
            kept.add(file)
            waiting += {other for module, _ in USE.findall(self.texts[file]) for other, _ in self.all_of(module)} - kept
        return self.texts.keys() - kept

    def without(self, left_out):
        texts = {file: text for file, text in self.texts.items() if file not in left_out}
        modules = "|".join(pathlib.Path(file).stem for file in left_out)
        texts["proofs/Lib.antt"] = re.sub(rf"^pub mod (?:{modules})\n", "", texts["proofs/Lib.antt"], flags=re.M)
        return Definitions(self.crate, texts, left_out)

    # ---- what reaches what

    def is_read_whole(self):
        """Whether every `use` line has the form that is read here."""
        return all(len(USE.findall(text)) == len(re.findall(r"^(?:pub )?use\s", text, re.M)) for text in self.texts.values())

    def all_of(self, module):
        """The pieces of a module of this crate, as pairs of a file and a number; none for a module of another."""
        first, crate, *path = [*module.split("."), ""][:2] + module.split(".")[2:]
        file = "/".join(path) + ".antt"
        known = (first, crate) == ("Rattle", self.crate) and file in self.pieces
        return {(file, i) for i in range(len(self.pieces[file]))} if known else set()

    def scope(self, file):
        """The pieces that each word of a file can mean."""
        found = collections.defaultdict(set)
        for i, piece in enumerate(self.pieces[file]):
            for key in (key for name in piece.names for key in keys(name)):
                found[key].add((file, i))
        for module, listed in USE.findall(self.texts[file]):
            there = self.all_of(module)
            for entry in listed.split(", ") if listed else sorted({name for other, i in there for name in self.pieces[other][i].names}):
                name, _, called = entry.partition(" as ")
                meant = {(other, i) for other, i in there if name.strip("«»") in self.pieces[other][i].names} or there
                for key in keys((called or name).strip("«»")):
                    found[key] |= meant
        return found

    def mentioned(self, place):
        """The pieces that a piece mentions, and those of its file that declare nothing, as the `use` lines; all, where it mentions something by its whole path."""
        file, i = place
        if not self.pieces[file][i].names:
            return set()
        words, scope = words_of(self.pieces[file][i].text), self.scope(file)
        if "Rattle" in words:
            return {(other, j) for other, pieces in self.pieces.items() for j in range(len(pieces))}
        return {(file, j) for j, piece in enumerate(self.pieces[file]) if not piece.names}.union(*(scope[word] for word in words if word in scope))

    def reached(self, place):
        """The pieces that a piece reaches, itself among them."""
        found, waiting = {place}, [place]
        while waiting:
            new = self.mentioned(waiting.pop()) - found
            found |= new
            waiting += new
        return found

    # ---- changes

    def edited(self, files):
        return Definitions(self.crate, {**self.texts, **{file: text for file, text in files.items() if text is not None}})

    def touched(self, files):
        """The pieces that a change touches; None where it makes others of them, or touches what is neither a definition nor a `use` line."""
        found = set()
        for file, text in files.items():
            old, new = self.pieces.get(file, []), pieces_of(text)
            if not file.startswith("specs/") or [piece.line for piece in old] != [piece.line for piece in new]:
                return None
            found |= {(file, i) for i, (piece, other) in enumerate(zip(old, new)) if piece != other}
        plain = all(self.pieces[file][i].names or re.fullmatch(r"(?:(?:use|--) .*\n?|\n)*", self.pieces[file][i].text) for file, i in found)
        return frozenset(found) if plain and self.is_read_whole() else None

    def laws_of(self, touched):
        return {law for law in self.laws if not self.reached(law).isdisjoint(touched)}

    def can_tell(self, touched):
        """Whether the check of these laws can refuse a change."""
        return bool(self.laws_of(touched))

    def fits(self, touched, others):
        """Whether a change can be tried with others: each has to keep a good part of the laws that reach it to itself."""
        if not all(touched.isdisjoint(other) for other in others):
            return False
        laws = [self.laws_of(one) for one in (*others, touched)]
        counts = collections.Counter(law for some in laws for law in some)
        return all(sum(counts[law] == 1 for law in some) * ONE_IN >= len(some) > 0 for some in laws)

    def merged(self, changes):
        """The files with all of these changes, which touch different pieces; None for one that is left out."""
        files = dict.fromkeys(self.left_out)
        if self.left_out:
            files["proofs/Lib.antt"] = self.texts["proofs/Lib.antt"]
        for file in {file for change in changes for file in change}:
            versions = [pieces_of(change[file]) for change in changes if file in change]
            files[file] = "\n".join(next((piece.text for piece in here if piece != old), old.text) for old, *here in zip(self.pieces[file], *versions))
        return files

    def refused(self, touched, files, said):
        """Where the check refuses each change for its own sake; None for one of which it does not say so, and for all where it refuses a definition, a `use` line, or a law that
        reaches none of them."""
        edited = self.edited(files)
        found = [None] * len(touched)
        for error in said.errors():
            place = edited.at(error.file, error.line)
            hit = [i for i, places in enumerate(touched) if place and not places.isdisjoint(edited.reached(place))]
            if error.file.startswith("specs/") or not hit:
                return [None] * len(touched)
            if len(hit) == 1:
                found[hit[0]] = found[hit[0]] or error.place
        return found

    def faulty(self, touched, files, said):
        """Which changes have an error in a piece that they touch: what is refused there is no definition."""
        edited = self.edited(files)
        wrong = {edited.at(error.file, error.line) for error in said.errors()}
        return [not places.isdisjoint(wrong) for places in touched]

    def at(self, file, line):
        """The piece that a line of a file stands in; None where it declares nothing."""
        before = [i for i, piece in enumerate(self.pieces.get(file, [])) if piece.line <= line]
        return (file, before[-1]) if before and self.pieces[file][before[-1]].names else None
