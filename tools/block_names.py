"""What the prover calls what stands in a block: the folder of proofs that the functions of an `impl`, or of a trait, have."""
import collections
import re

Block = collections.namedtuple("Block", "start opening end owner trait of_trait")
BLOCK = re.compile(r"^(?:impl|(?P<trait>(?:pub(?:\(\w+\))? )?trait))\b(?P<generic><[^>]*>)? (?P<head>[^{]+?)(?:\s+where [^{]*)? \{", re.M)


def balanced(text, at, opening, closing):
    """The index just past the bracket that closes the one at `at`."""
    depth = 0
    while at < len(text):
        if text[at] == opening:
            depth += 1
        elif text[at] == closing:
            depth -= 1
            if depth == 0:
                return at + 1
        at += 1
    return at


def parts(text):
    """What commas part, outside brackets."""
    found, depth = [""], 0
    for letter in text:
        depth += (letter in "(<[") - (letter in ")>]")
        if letter == "," and not depth:
            found.append("")
        else:
            found[-1] += letter
    return [part for part in map(str.strip, found) if part and not part.startswith("'")]


def camel(name):
    """A type as it stands in the name that the prover gives an `impl`: `u8` is `U8`, `&[u8]` is `RefSliceU8`, `(Place, usize)` is `Tuple2PlaceUsize`, a path is its last part."""
    name = re.sub(r"'\w+ ?", "", name).strip()
    if name.startswith("&"):
        return "Ref" + camel(name[1:])
    if name.startswith("("):
        inside = parts(name[1:-1])
        return f"Tuple{len(inside)}" + "".join(map(camel, inside)) if inside else "Unit"
    if name.startswith("["):
        item, _, length = name[1:-1].partition("; ")
        return ("Array" if length else "Slice") + camel(item) + length
    path, _, arguments = name.partition("<")
    last = path.split("::")[-1]
    return last[:1].upper() + last[1:] + "".join(map(camel, parts(arguments[:-1])))


def owner_of(head, generic):
    """The folder of proofs that a block's functions have, after its head: `Mask`, `Mask+Status`, `FileOperationModeTryFromU8`."""
    trait, _, of = head.rpartition(" for ")
    if trait:
        return camel(of) + camel(trait)
    name, _, arguments = head.partition("<")
    name = re.match(r"\w+", name)[0]
    own = "" if generic else "".join(map(camel, parts(arguments[:-1])))
    return f"{name}+{own}" if own else name


def blocks(text):
    """Each `impl` and each trait: where it begins, where its opening bracket stands, where it ends, its owner, the words by which it is a trait, and whether it is one or an `impl` of one."""
    for block in BLOCK.finditer(text):
        head, trait, opening = block["head"], block["trait"], block.end() - 1
        owner = owner_of(head.split(":")[0] if trait else head, block["generic"])
        yield Block(block.start(), opening, balanced(text, opening, "{", "}"), owner, trait, bool(trait) or " for " in head)
