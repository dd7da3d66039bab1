"""What a Rust item of the crates says to a prover: the clauses of a trait, the fields of a type, how it is seen."""
import re
from typing import NamedTuple

from definitions import add_imports
from sources import CRATES, end_of_braces

COMMENT = re.compile(r"//[^\n]*")
NAME = re.compile(r"\b[A-Z]\w*\b")
USE = re.compile(r"^\s*(?:pub )?use ([\w:]+)(?:::\{([^}]*)\})?;", re.M)


class Item(NamedTuple):
    kind: str  # trait, struct, enum or impl
    text: str  # without comments
    imports: dict  # what its file's `ghost use` lines name
    source: str
    crate: str


def text_from(source, start):
    """An item's text: up to the brace that closes it, or to its semicolon."""
    brace, end = source.find("{", start), source.find(";", start)
    if brace < 0 or 0 <= end < brace:
        return source[start:end + 1]
    return source[start:end_of_braces(source, brace + 1)]


def item_at(crate, kind, source, start):
    imports = {}
    for line in source.split("\n"):
        add_imports(line, imports)
    return Item(kind, COMMENT.sub("", text_from(source, start)), imports, source, crate)


def sources_of(crate):
    for path in sorted((CRATES / crate / "src").rglob("*.rt")):
        yield path.read_text()


def item_of(crate, name):
    """The trait or type of a crate with this name, or None."""
    for source in sources_of(crate):
        found = re.search(rf"^\s*(?:pub(?:\([\w ]+\))? )?(?:unsafe )?(trait|struct|enum) {name}\b", source, re.M)
        if found:
            return item_at(crate, found[1], source, found.start())
    return None


def impl_of(crate, trait, name):
    """How a type of a crate is an instance of a trait, or None."""
    for source in sources_of(crate):
        found = re.search(rf"^impl\b[^{{;]*\b{trait}\b[^{{;]* for {name}\b", source, re.M)
        if found:
            return item_at(crate, "impl", source, found.start())
    return None


def ghosts_in(text):
    """The words of an impl that the prover goes by: its ghost members, without its functions."""
    return "\n".join(re.findall(r"^\s*ghost (?!use)[^;]*;", text, re.M | re.S))


def laws_in(text):
    """The ghost members of a trait that are laws, by name: what stands after the last arrow of their type is a fact, of
    other members or of numbers. What an impl gives for one is a proof, which nobody has to believe."""
    types = {name: kind.split("→")[-1].strip() for name, kind in
             re.findall(r"^\s*ghost (\w+): \{(.*?)\};", text, re.M | re.S)}
    facts = {name for name, last in types.items() if last == "Type 0"}
    return {name for name, last in types.items() if last.split()[0] in facts or re.search(r" [≡≤<] ", last)}


def without(text, names):
    """The words of an impl without these ghost members."""
    return re.sub(rf"^\s*ghost (?:{'|'.join(sorted(names)) or '(?!)'}) = [^;]*;", "", text, flags=re.M | re.S)


def clauses_in(text):
    """The words of a trait that the prover goes by: its ghost members and the clauses of its functions."""
    places = re.finditer(r"^\s*(?:ensures|requires)\*?\s*\w*\s*\{", text, re.M)
    return "\n".join([ghosts_in(text), *(text[place.end():end_of_braces(text, place.end()) - 1] for place in places)])


def home_of(item, name):
    """The crate in which a name of an item's file is at home: its own, or the one that its `use` line names."""
    for path, listed in USE.findall(item.source):
        names = [part.strip().split(" as ")[0] for part in listed.split(",")] if listed else [path.rpartition("::")[2]]
        if name in names:
            first = path.split("::")[0]
            return item.crate if first in ("crate", "self", "super") else first
    return item.crate


def named_in(item, text):
    """The items of the repository that a text of an item's file names, as pairs of crate and name."""
    for name in sorted(set(NAME.findall(text))):
        crate = home_of(item, name)
        if (CRATES / crate / "src").is_dir():
            yield crate, name
