"""Lines of sources and specifications, broken where they are longer than 120 columns."""
import re

WIDTH = 120
OPENS, CLOSES = "([{", ")]}"
COMMENT = re.compile(r"^(\s*)(--|//[/!]?)(?!-)(.*)$")
USE = re.compile(r"^(\s*(?:(?:pub|ghost) )*use [^{]*\{)(.*)(\};?)$")
NAMED = re.compile(r"^(\s*(?:abbrev |pub )*[^=\s][^=]*? =) (.*)$")
NO_TERM = ("pub record", "pub data", "ensures", "requires", "use", "ghost")
# Where a term is broken, the loosest first: before these.
BREAKS = [
    (" → ",), (" ⊎ ",), (" × ",), (" else ",), (" then ",), (" ∧ ",), (" ≡ ", " ≤ ", " < "), (", ", "; "), (" (", " {"),
    (" ",),
]


def indent_of(line):
    return len(line) - len(line.lstrip())


def depths(line, depth=0):
    """How deep in brackets each character stands."""
    for letter in line:
        depth += (letter in OPENS) - (letter in CLOSES)
        yield depth


def is_at(line, place, mark):
    """Whether a line may be broken at a blank, for a mark: before it, but after a comma or semicolon."""
    if mark in (", ", "; "):
        return line[place - 1] == mark[0]
    return line.startswith(mark, place)


def places_to_break(line, first, depth):
    """The last place within the width for each depth and kind of break."""
    found = {}
    for place, at in enumerate(depths(line, depth)):
        if first < place <= WIDTH and line[place] == " ":
            for kind, marks in enumerate(BREAKS):
                if any(is_at(line, place, mark) for mark in marks):
                    found[at, kind] = place
    return found


def break_at(line, depth):
    """Where a line is best broken, and how deep in brackets: at the least depth, and there at the loosest kind."""
    start = indent_of(line)
    found = places_to_break(line, start + 1, depth)
    fitting = [key for key in sorted(found) if found[key] > start + 20 or key[1] == 0]
    return (found[fitting[0]], max(fitting[0][0], 0)) if fitting else None


def wrapped_term(line):
    """A clause or a line of a specification. Each further line stands four deeper, and four more within brackets."""
    text = line.lstrip()
    indent = indent_of(line) + (0 if text.startswith(("→", "⊎", "×", "else", "then")) else 4)
    named = None if text.startswith(NO_TERM) else NAMED.match(line)
    if named and list(depths(named[1]))[-1] == 0 and indent + len(named[2]) <= WIDTH:
        return [named[1], " " * indent + named[2]]
    lines, depth = [], 0
    while len(line) > WIDTH:
        best = break_at(line, depth)
        if not best or re.search(r"λ[^.]*$", line[: best[0]]):
            return None
        depth = best[1]
        lines.append(line[: best[0]].rstrip())
        line = " " * (indent + 4 * depth) + line[best[0] + 1 :]
    return [*lines, line]


def wrapped_use(line):
    """A list of names: as many lines, each complete."""
    found = USE.match(line)
    if not found:
        return None
    head, names, tail = found.groups()
    lines, taken = [], []
    for name in names.split(", "):
        if taken and len(head + ", ".join([*taken, name]) + tail) > WIDTH:
            lines.append(head + ", ".join(taken) + tail)
            taken = []
        taken.append(name)
    return [*lines, head + ", ".join(taken) + tail]


def paragraph(lines, at):
    """The lines of a comment from here on that read on, without its mark."""
    indent, mark, text = COMMENT.match(lines[at]).groups()
    texts = [text.strip()]
    for line in lines[at + 1 :]:
        found = COMMENT.match(line)
        if not found or found.groups()[:2] != (indent, mark) or re.match(r"\s*([-*#|]|\d+\.|```|$)|    ", found[3]):
            break
        texts.append(found[3].strip())
    return indent + mark, texts


def wrapped_comment(lines, at):
    """The paragraph of a comment that begins here, and how many lines it had."""
    head, texts = paragraph(lines, at)
    hang = " " * len((re.match(r"[-*] |\d+\. ", texts[0]) or [""])[0])
    out, line = [], ""
    for word in " ".join(texts).split():
        longer = f"{line} {word}" if line else word
        if line and len(f"{head} {longer}") > WIDTH:
            out.append(f"{head} {line}")
            longer = hang + word
        line = longer
    return [*out, f"{head} {line}"], len(texts)


def wrapped(text):
    """A file, and the numbers of its lines that stay too long."""
    lines, long, at = text.split("\n"), [], 0
    while at < len(lines):
        if len(lines[at]) > WIDTH:
            new, count = wrapped_line(lines, at)
            if not new or any(len(line) > WIDTH for line in new):
                long.append(at + 1)
            lines[at : at + count] = new = new or lines[at : at + count]
            at += len(new) - 1
        at += 1
    return "\n".join(lines), long


def wrapped_line(lines, at):
    words = lines[at].strip()
    if COMMENT.match(lines[at]):
        return wrapped_comment(lines, at)
    if re.match(r"((pub|ghost) )*use ", words):
        return wrapped_use(lines[at]), 1
    return (None if words.startswith('"') else wrapped_term(lines[at])), 1
