"""Where functions and their clauses stand in the crates."""
import re
import sys
from pathlib import Path
from typing import NamedTuple

sys.dont_write_bytecode = True
TOP = Path(__file__).resolve().parent.parent
CRATES = TOP / "crates"
CLAUSE = re.compile(r"\s*(?://[^\n]*\n\s*)*(ensures|requires|ghost)(\*?)\s*(\w*):?\s*\{")


class Function(NamedTuple):
    path: Path
    source: str  # the whole file
    place: int  # where the function begins in it

    def line(self):
        return line_at(self.source, self.place)

    def clauses(self):
        """Each clause by its name, `-` for one without a name: its text, the line at which it stands, and its kind."""
        clauses = {}
        place = re.compile(r"\n\s*(?:ensures|requires|ghost|//|\{)").search(self.source, self.place).start()
        while clause := CLAUSE.match(self.source, place):
            end = end_of_braces(self.source, clause.end())
            name = clause[3] or "-"
            while name in clauses:
                name += "-"
            clauses[name] = (self.source[clause.end():end - 1], line_at(self.source, clause.start(1)), clause[1])
            place = end
        return clauses


def line_at(source, place):
    return source.count("\n", 0, place) + 1


def end_of_braces(source, place):
    """Behind the brace that closes the one before this place."""
    depth = 1
    while depth:
        depth += {"{": 1, "}": -1}.get(source[place], 0)
        place += 1
    return place


def function_of(crate, name):
    """The function of a crate with this name, `name` or `Type::name`, or None."""
    kind, _, name = name.rpartition("::")
    for path in sorted((CRATES / crate / "src").rglob("*.rt")):
        source = path.read_text()
        begin = re.search(rf"^impl\b[^{{]*\b{kind}\b[^{{]*\{{", source, re.M) if kind else re.search("", source)
        at = begin and re.compile(rf"\bfn {name}\b").search(source, begin.end())
        if at:
            return Function(path, source, at.start())
    return None
