"""The definitions of specs/, and what the words of a text name."""
import re
from collections import deque
from pathlib import Path
from typing import NamedTuple

from sources import CRATES

WORD = re.compile(r"◌[^\s,}◌]+◌|[^\W\d][\w'\-]*(?:\.[^\W\d][\w'\-]*|\.\d+)*")
TOKEN = re.compile(r"[^\s(){}\[\],;]+")
IMPORT = re.compile(r"^\s*(?:(?:ghost|unfoldable|pub) )*use ([\w.]+)\.\{(.*)\}")
PASSED_ON = re.compile(r"pub use ([\w.]+)")
MODULE_IMPORT = re.compile(r"^\s*(?:(?:ghost|unfoldable|pub) )*use ([\w.]+) as ([\w']+)")
HEAD = re.compile(r"(?:unfoldable )?(?:abbrev )?(?:pub )?(?:(record|data) )?(?:pub )?([^\s:({]+)(?=[\s:({])")
SIGNED = re.compile(r"\s*(?:(?:unfoldable|abbrev|pub) )*[^\s:({]+ :")
VARIANT = re.compile(r"^ +(?:pub )?([^\s:({]+) :")


class Definition(NamedTuple):
    path: Path
    first: int
    code: list  # its lines, without comments and empty ones
    text: list  # with the comment above it
    around: str = ""  # the headers of modules with parameters in its file, which may be its own


def is_comment(line):
    return line.strip().startswith("--")


def is_written_around(name, text):
    """Whether an operator, as `◌+◌` or `if◌then◌`, stands in a text without its places."""
    return "◌" in name and all(part in text for part in name.split("◌"))


def add_imports(line, imports):
    """Adds what a `use` line names, under the names that it gives. Returns whether it is one."""
    named = IMPORT.match(line)
    if named:
        for item in filter(None, map(str.strip, named[2].split(","))):
            name, _, other = item.partition(" as ")
            imports[other or name] = (named[1], name)
        return True
    module = MODULE_IMPORT.match(line)
    if module:
        imports["@" + module[2]] = module[1]
        return True
    if re.match(r"\s*(?:(?:ghost|unfoldable|pub) )*use [A-Z]", line) and "::" not in line:
        imports["!"] = ("", line.strip())
        return True
    return bool(re.match(r"\s*(?:pub )?(?:use|mod) ", line))


def head_of(line, inside):
    """The kind and the name of the definition that begins in a line, if one does.

    `inside` a module it is indented by two."""
    if is_comment(line) or line.startswith("}") or not line.strip():
        return None
    if line.startswith(" ") and not (inside and re.match(r"  \S", line)):
        return None
    head = HEAD.match(line.strip())
    if head and (head[1] or SIGNED.match(line)):
        return head[1], head[2]
    return None


class Specs:
    """The definitions of all crates, by module and name."""

    def __init__(self, folders=("specs",)):
        self.definitions, self.imports, self.variants, self.passed_on = {}, {}, {}, {}
        for folder in folders:
            for path in sorted(CRATES.glob(f"*/{folder}/**/*.antt")):
                crate, _, *rest = path.relative_to(CRATES).with_suffix("").parts
                self.read(".".join(["Rattle", crate, folder, *rest]), path)

    def read(self, module, path):
        lines = path.read_text().split("\n")
        imports = self.imports[module] = {}
        heads, inside = [], False
        for number, line in enumerate(lines):
            passed = PASSED_ON.fullmatch(line) if path.stem == "Lib" else None
            if passed:
                self.passed_on[f"{module.rpartition('.')[0]}.{passed[1].rpartition('.')[2]}"] = passed[1]
            elif add_imports(line, imports):
                continue
            elif re.match(r"module\b", line):
                inside = True
                heads.append((number, None))
            elif head := head_of(line, inside):
                inside = inside and line.startswith(" ")
                heads.append((number, head))
        around = "\n".join(re.findall(r"^\s*module\b.*?\bwhere\b", "\n".join(lines), re.M | re.S))
        for (number, head), (end, _) in zip(heads, heads[1:] + [(len(lines), None)]):
            if head and (module, head[1]) not in self.definitions:
                self.add(module, path, lines, number, end, head, around)

    def add(self, module, path, lines, first, end, head, around):
        kind, name = head
        while not lines[end - 1].strip() or is_comment(lines[end - 1]):
            end -= 1
        note = first
        while note and is_comment(lines[note - 1]):
            note -= 1
        code = [line for line in lines[first:end] if line.strip() and not is_comment(line)]
        self.definitions[module, name] = Definition(path, first + 1, code, lines[note:end], around)
        if kind == "data":
            for variant in filter(None, map(VARIANT.match, code[1:])):
                self.variants[module, variant[1]] = (module, name)

    def meant(self, module, imports, word):
        """What a word names, where it stands after these imports."""
        first, _, rest = word.partition(".")
        here = (module, first)
        if here not in self.definitions and here not in self.variants:
            if first in imports:
                here = imports[first]
            elif rest and "@" + first in imports:
                here = (imports["@" + first], rest.split(".")[0])
            else:
                return None
        seen = set()
        while here not in self.definitions and here not in seen:
            seen.add(here)
            if here[0] in self.passed_on:
                here = (self.passed_on[here[0]], here[1])
            elif here[1] in self.imports.get(here[0], {}):
                here = self.imports[here[0]][here[1]]
        return self.variants.get(here, here)

    def meanings(self, module, imports, text):
        """What the words of a text name. A word that is written between marks, as in `a≤b`, counts too."""
        if "!" in imports:
            raise SystemExit(f"docs/definitions.py: {module or 'a file'} has a line that can't be followed: {imports['!'][1]}")
        tokens = {token.strip(".") for token in TOKEN.findall(text)} | set(WORD.findall(text))
        found = list(filter(None, (self.meant(module, imports, word) for word in sorted(tokens))))
        found += filter(None, (self.whole_name(word) for word in sorted(tokens) if word.startswith("Rattle.")))
        own = (name for of, name in self.definitions if of == module)
        around = (self.meant(module, imports, name) for name in [*imports, *own] if is_written_around(name, text))
        return found + [word for word in around if word in self.definitions]

    def whole_name(self, word):
        """A definition that is named with its module."""
        parts = word.split(".")
        for end in range(len(parts) - 1, 2, -1):
            here = (".".join(parts[:end]), parts[end])
            if here in self.definitions or here in self.variants:
                return self.variants.get(here, here)
        return None

    def code_of(self, word):
        """The text whose words a definition reaches."""
        definition = self.definitions[word]
        return "\n".join([definition.around, *definition.code])

    def reached(self, starts):
        """Each word that these reach, with its distance from them."""
        distance = dict.fromkeys(starts, 0)
        queue = deque(distance)
        while queue:
            word = queue.popleft()
            if word not in self.definitions:
                continue
            for other in self.meanings(word[0], self.imports[word[0]], self.code_of(word)):
                if other not in distance:
                    distance[other] = distance[word] + 1
                    queue.append(other)
        return distance


def place_of(definition):
    return f"{definition.path.relative_to(CRATES)}:{definition.first}"
