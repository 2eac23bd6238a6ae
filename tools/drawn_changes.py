"""The small changes that tools/wrong-programs draws from: every place of the crates' code and definitions where one of these slips can be made.

In code (the bodies of functions, and constants): a comparison turned; a number, or a letter of a byte string, one more or one less; an operator exchanged;
two fields, two arguments or two values of a record exchanged; the two arms of a branch, or two neighbours of a match, exchanged; a condition negated; a statement
left out; an early return always taken, or never.
In definitions (specs/): a number, or a letter of a text, one more or one less; a comparison turned; an operator exchanged; two fields, two values of a record or two list elements exchanged; two
neighbouring cases, or the two arms of a `pick`, exchanged. A name that a definition's file does not import comes from where the one that it replaces does.
Contracts in the code are left alone: they are what the changes are tried against.
"""
import collections
import random
import re


class Change(collections.namedtuple("Change", "crate file text start end new sort")):
    """The text from `start` to `end` of a file becomes `new`."""

    def changed(self):
        """The whole file with the change."""
        old, text = self.text[self.start : self.end], self.text[: self.start] + self.new + self.text[self.end :]
        return imported_beside(text, old, self.new)

    def texts(self):
        """The whole lines that the change touches, before and after, each joined to one."""
        first = self.text.rfind("\n", 0, self.start) + 1
        last = self.text.find("\n", self.end)
        last = len(self.text) if last < 0 else last
        before, after = self.text[first : self.start], self.text[self.end : last]
        return joined(self.text[first:last]), joined(before + self.new + after)

    def __str__(self):
        old, new = self.texts()
        return f"{self.crate}, {self.sort}\n    file: {self.file}\n    old: {old}\n    new: {new}"


def imported_beside(text, old, new):
    """Definitions that import a new name with the old one."""
    old, new = (name if re.fullmatch(r"\w+", name) else f"◌{name}◌" for name in (old, new))

    def more(line):
        names = line[2].split(", ")
        return f"{line[1]}{', '.join([*names, new])}}}" if old in names and new not in names else line[0]

    return re.sub(r"^(use \S+\.\{)(.*)\}$", more, text, flags=re.M)


def joined(text):
    """A text without its line breaks and indentation."""
    return " ".join(text.split())


class Token(collections.namedtuple("Token", "text start end")):
    pass


OPENING, CLOSING = "([{", ")]}"


def tokens_of(pattern, text, start, end):
    found = (Token(m.group(), m.start(), m.end()) for m in pattern.finditer(text, start, end))
    return [t for t in found if not t.text.isspace() and not t.text.startswith(("//", "--"))]


def partners(tokens):
    """For each bracket's index the index of its partner."""
    open_ones, found = [], {}
    for i, t in enumerate(tokens):
        if t.text in OPENING:
            open_ones.append(i)
        elif t.text in CLOSING and open_ones:
            j = open_ones.pop()
            found[i], found[j] = j, i
    return found


def split(tokens, partner, first, past, separator):
    """The runs of tokens between `first` and `past` that stand between separators outside inner brackets, as pairs of indices."""
    runs, at, begin = [], first, first
    while at < past:
        if tokens[at].text == separator:
            runs.append((begin, at))
            begin = at + 1
        elif tokens[at].text in OPENING and at in partner:
            at = partner[at]
        at += 1
    if begin < past:
        runs.append((begin, past))
    return runs


def span(tokens, run):
    return tokens[run[0]].start, tokens[run[1] - 1].end


def exchanged(text, a, b):
    """Two spans of a text, a before b, exchanged: where, and the new text."""
    return a[0], b[1], text[b[0] : b[1]] + text[a[1] : b[0]] + text[a[0] : a[1]]


def neighbours(text, tokens, runs, sort):
    for left, right in zip(runs, runs[1:]):
        if left[0] < left[1] and right[0] < right[1]:
            a, b = span(tokens, left), span(tokens, right)
            if text[a[0] : a[1]] != text[b[0] : b[1]]:
                yield (*exchanged(text, a, b), sort)


def nearby(number):
    """A number as it is written, one more and one less."""
    plain = number.replace("_", "")
    value = int(plain, 0)
    for near in (value + 1, value - 1):
        if near >= 0:
            yield f"0x{near:0{len(plain) - 2}X}" if plain.startswith("0x") else str(near)


def letters(text, start, end):
    for at in range(start, end):
        if text[at].isalnum():
            yield at, at + 1, chr(ord(text[at]) + 1), "a letter changed by one"


# ---- code

CODE = re.compile(r"//[^\n]*|b\"(?:[^\"\\]|\\.)*\"|b'(?:[^'\\]|\\.)'|'[a-z]\w*|0x[0-9A-Fa-f_]+|\d[\d_]*|\w+|::|->|=>|<=|>=|==|!=|&&|\|\||\+=|-=|\*=|/=|\.\.=|\.\.|<<|>>|\s+|.", re.S)
CLAUSE = re.compile(r"\s*(?:requires|ensures|ghost)\b\*?\s*(?:\w+\s*)?\{")
TURNED = {"<": ["<=", ">"], "<=": ["<", ">="], ">": [">=", "<"], ">=": [">", "<="], "==": ["!="], "!=": ["=="]}
OPERATORS = {"+": ["-"], "-": ["+"], "*": ["+"], "/": ["%"], "%": ["/"], "&&": ["||"], "||": ["&&"], "&": ["|"], "|": ["&"], "+=": ["-="], "-=": ["+="], "<<": [">>"], ">>": ["<<"]}


def closing(text, at):
    """The index past the brace that closes the one at `at`."""
    depth = 0
    while True:
        depth += {"{": 1, "}": -1}.get(text[at], 0)
        at += 1
        if depth == 0:
            return at


def functions(text):
    """Where the head of each function begins, and its body begins and ends; a method of a trait that ends in `;` has none."""
    for head in re.finditer(r"^[^/\n]*\bfn\s+\w+", text, re.M):
        at = re.compile(r"\b(?:requires|ensures)\b|\{|;\n").search(text, head.end()).start()
        while clause := CLAUSE.match(text, at):
            at = closing(text, clause.end() - 1)
        body = re.compile(r"[{;]").search(text, at).start()
        if text[body] == "{":
            yield head.start(), body, closing(text, body)


def function_bodies(text):
    """Where the body of each function begins and ends."""
    for _, start, end in functions(text):
        yield start, end


def code_regions(text):
    """Where the bodies of functions, and the values of constants, begin and end."""
    yield from function_bodies(text)
    for head in re.finditer(r"^[^/\n]*\bconst\s+\w+\s*:[^=;]*=", text, re.M):
        yield head.end(), text.index(";\n", head.end())


def same_type_fields(pattern, declarations):
    """For each field name its neighbours among the fields of a record that have its type."""
    others = collections.defaultdict(set)
    for body in declarations:
        by_type = collections.defaultdict(list)
        for name, type_ in re.findall(pattern, body, re.M):
            by_type[type_.strip()].append(name)
        for names in by_type.values():
            for left, right in zip(names, names[1:]):
                others[left].add(right)
                others[right].add(left)
    return others


def in_code(text, fields):
    for start, end in code_regions(text):
        tokens = tokens_of(CODE, text, start, end)
        partner = partners(tokens)
        for i, token in enumerate(tokens):
            yield from at_token(text, tokens, partner, i, fields)
        yield from in_statements(text, tokens, partner)


def at_token(text, tokens, partner, i, fields):
    token, before = tokens[i], tokens[i - 1].text if i else ""
    after = tokens[i + 1].text if i + 1 < len(tokens) else ""
    if token.text in TURNED:
        for new in TURNED[token.text]:
            yield token.start, token.end, new, "a comparison turned"
    elif token.text in OPERATORS and re.fullmatch(r"\w+|[)\]]", before) and before not in ("return", "else", "match", "if") and after != "mut":
        for new in OPERATORS[token.text]:
            yield token.start, token.end, new, "an operator exchanged"
    elif re.fullmatch(r"0x[\dA-Fa-f_]+|\d[\d_]*", token.text):
        for new in nearby(token.text):
            yield token.start, token.end, new, "a number changed by one"
    elif token.text.startswith('b"'):
        yield from letters(text, token.start + 2, token.end - 1)
    elif before == "." and after not in ("(", "{") and token.text in fields:
        for new in sorted(fields[token.text]):
            yield token.start, token.end, new, "two fields exchanged"
    elif token.text == "(" and re.fullmatch(r"\w+", before) and before not in ("if", "while", "match", "return", "fn", "in"):
        yield from neighbours(text, tokens, split(tokens, partner, i + 1, partner[i], ","), "two arguments exchanged")
    elif token.text == "{" and after != "}" and tokens[i + 2].text in (":", ","):
        values = [(b + 2 if p - b > 2 and tokens[b + 1].text == ":" else b, p) for b, p in split(tokens, partner, i + 1, partner[i], ",")]
        if all(tokens[b - 1].text == ":" for b, _ in values):
            yield from neighbours(text, tokens, values, "two values of a record exchanged")
    elif token.text == "match":
        body = next(j for j in range(i, len(tokens)) if tokens[j].text == "{")
        yield from neighbours(text, tokens, list(arms(tokens, partner, body)), "two neighbours of a match exchanged")
    elif token.text in ("if", "while") and after != "let":
        yield from at_condition(text, tokens, partner, i)


def arms(tokens, partner, body):
    """What stands on the right of each arm of a match."""
    at = body + 1
    while at < partner[body]:
        if tokens[at].text in OPENING:
            at = partner[at]
        elif tokens[at].text == "=>":
            if tokens[at + 1].text == "{":
                yield at + 1, partner[at + 1] + 1
                at = partner[at + 1]
            else:
                past = at + 1
                while past < partner[body] and tokens[past].text != ",":
                    past = partner[past] + 1 if tokens[past].text in OPENING else past + 1
                yield at + 1, past
                at = past
        at += 1


def at_condition(text, tokens, partner, i):
    block = i + 1
    while tokens[block].text != "{":
        block = partner[block] + 1 if tokens[block].text in OPENING else block + 1
    condition = (tokens[i + 1].start, tokens[block - 1].end)
    yield *condition, f"!({text[condition[0] : condition[1]]})", "a condition negated"
    past = partner[block] + 1
    if past + 1 < len(tokens) and tokens[past].text == "else" and tokens[past + 1].text == "{":
        other = past + 1
        yield *exchanged(text, span(tokens, (block, past)), span(tokens, (other, partner[other] + 1))), "the two arms of a branch exchanged"
    elif tokens[i].text == "if" and tokens[block + 1].text == "return":
        yield *condition, "true", "an early return always taken"
        yield *condition, "false", "an early return never taken"


def in_statements(text, tokens, partner):
    """A statement that stands alone, left out: a store or a call."""
    for i, token in enumerate(tokens):
        if token.text == "{" and i in partner:
            for begin, past in split(tokens, partner, i + 1, partner[i], ";"):
                # a block before the statement ends where its own brace does
                while (inner := next((j for j in range(begin, past) if tokens[j].text == "{"), None)) is not None and partner[inner] + 1 < past:
                    begin = partner[inner] + 1
                if past < partner[i] and begin < past and inner is None and tokens[begin].text not in ("let", "return", "break", "continue", "else"):
                    yield tokens[begin].start, tokens[past].end, "", "a statement left out"


# ---- definitions

# what follows a value and its dot, a field, is a token of its own
DEFINITION = re.compile(r"--[^\n]*|\"(?:[^\"\\]|\\.)*\"|«[^»]*»|[(){}\[\],;]|\.[\w'-]+|(?:(?!\.\w)[^\s(){}\[\],;«»])+|\s+")
COMPARISONS = {"≤": ["<"], "<": ["≤"], "leb": ["ltb"], "ltb": ["leb"]}
SPEC_OPERATORS = {"+": ["*", "-"], "*": ["+"], "-": ["+"], "/": ["%"], "%": ["/"], "both": ["either"], "either": ["both"], "take": ["drop"], "drop": ["take"]}


def definition_regions(text):
    """Where each line of a definition begins and ends, without what only names or imports: cases, fields and constructors."""
    for line in re.finditer(r"^(?!--|use |pub mod |mod |infix)[^\n]+", text, re.M):
        yield line.start(), line.end()


def in_definitions(text, fields):
    for start, end in definition_regions(text):
        tokens = tokens_of(DEFINITION, text, start, end)
        partner = partners(tokens)
        for i, token in enumerate(tokens):
            yield from at_spec_token(text, tokens, partner, i, fields)
        yield from in_lists(text, tokens, partner)
    cases = [(m.group(1), m.start(2), m.end(2)) for m in re.finditer(r"^(\S+)[^\n=]* = (\S[^\n]*)$", text, re.M)]
    for (name, *left), (following, *right) in zip(cases, cases[1:]):
        if name == following and text[left[1] : right[0]].count("\n") == 1 and text[slice(*left)] != text[slice(*right)]:
            yield *exchanged(text, left, right), "two neighbouring cases exchanged"


def at_spec_token(text, tokens, partner, i, fields):
    token, before = tokens[i], tokens[i - 1].text if i else ""
    if re.fullmatch(r"0x[\dA-Fa-f]+|\d+", token.text) and before not in ("Type", "infixl", "infixr", "infix") and not (before == "{" and tokens[i + 1].text == "}"):
        for new in nearby(token.text):
            yield token.start, token.end, new, "a number changed by one"
    if token.text.startswith('"'):
        yield from letters(text, token.start + 1, token.end - 1)
    for table, sort in ((COMPARISONS, "a comparison turned"), (SPEC_OPERATORS, "an operator exchanged")):
        for new in table.get(token.text, []):
            yield token.start, token.end, new, sort
    if token.text.startswith(".") and token.text[1:] in fields:
        for new in sorted(fields[token.text[1:]]):
            yield token.start, token.end, f".{new}", "two fields exchanged"
    if token.text in (".0", ".1"):
        yield token.start, token.end, ".1" if token.text == ".0" else ".0", "two fields exchanged"
    if token.text in ("leb", "ltb", "pick"):
        arguments = atoms(tokens, partner, i + 1)
        if token.text == "pick" and len(arguments) >= 3:
            yield from neighbours(text, tokens, arguments[1:3], "the two arms of a pick exchanged")
        elif token.text != "pick" and len(arguments) >= 2:
            yield from neighbours(text, tokens, arguments[:2], "a comparison turned")
    if token.text == "{" and before == "record":
        values = []
        for begin, past in split(tokens, partner, i + 1, partner.get(i, i), ";"):
            if past - begin > 2 and tokens[begin + 1].text == "=":
                values.append((begin + 2, past))
        yield from neighbours(text, tokens, values, "two values of a record exchanged")


def atoms(tokens, partner, at):
    """The arguments that follow: names, numbers and bracketed terms."""
    found = []
    while at < len(tokens) and tokens[at].text not in CLOSING and tokens[at].text not in ("=", "∷", ",", ";"):
        past = partner.get(at, at) + 1
        while past < len(tokens) and tokens[past].text.startswith(".") and tokens[past].start == tokens[past - 1].end:
            past += 1
        found.append((at, past))
        at = past
    return found


def in_lists(text, tokens, partner):
    """Two neighbours of a list that is written out."""
    for i, token in enumerate(tokens):
        if token.text == "=" or token.text == "(" and i in partner:
            past = partner[i] if token.text == "(" else len(tokens)
            elements = split(tokens, partner, i + 1, past, "∷")
            yield from neighbours(text, tokens, elements[:-1], "two list elements exchanged")


# ---- all of them


def all_changes(repo, crates):
    """Each change of the crates' files, once, in a fixed order."""
    sources = sorted(repo.glob("crates/*/src/**/*.rt"))
    specs = sorted(repo.glob("crates/*/specs/*.antt"))
    structs = (m.group(1) for p in sources for m in re.finditer(r"\bstruct \w+[^;{]*\{(.*?)\n\}", p.read_text(encoding="utf-8"), re.S))
    records = (m.group(1) for p in specs for m in re.finditer(r"\brecord [^\n]* where\n((?:  [^\n]*\n)+)", p.read_text(encoding="utf-8")))
    code_fields = same_type_fields(r"^\s*(?:pub )?(\w+): ([^,\n]+),$", structs)
    spec_fields = same_type_fields(r"^\s*(?:pub )?(\S+) : (.+)$", records)
    for name, others in code_fields.items():
        spec_fields[name] |= others
    found = []
    for path, changes, fields in [(p, in_code, code_fields) for p in sources] + [(p, in_definitions, spec_fields) for p in specs]:
        crate, file = path.relative_to(repo / "crates").parts[0], str(path.relative_to(repo / "crates" / path.relative_to(repo / "crates").parts[0]))
        if crate in crates:
            text = path.read_text(encoding="utf-8")
            found += sorted({Change(crate, file, text, start, end, new, sort) for start, end, new, sort in changes(text, fields) if text[start:end] != new})
    return found


def drawn(repo, crates, seed):
    """The changes in an order that the seed decides; each sort of change takes its turn, so that the rare ones are tried as often as the common ones."""
    chance = random.Random(seed)
    by_sort = collections.defaultdict(list)
    for change in all_changes(repo, crates):
        by_sort[change.sort].append(change)
    for changes in by_sort.values():
        chance.shuffle(changes)
    while by_sort:
        for sort in chance.sample(sorted(by_sort), len(by_sort)):
            yield by_sort[sort].pop()
            if not by_sort[sort]:
                del by_sort[sort]
