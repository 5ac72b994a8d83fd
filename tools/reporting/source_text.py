"""What stands in the source at a place: its line, and the condition of a contract that begins there."""
import functools
import re

CONTRACT = re.compile(r"(?:\w+\s*\.\s*)*(Assert|Assume|Requires|Ensures)\s*(?:<[^>()]*>)?\s*\(")
# Texts, characters and comments, each whole, and else one character at a time.
PIECE = re.compile(
    r'@"(?:[^"]|"")*"|\$?"(?:\\.|[^"\\])*"|\'(?:\\.|[^\'\\])+\'|//[^\n]*|/\*.*?\*/|.', re.DOTALL
)
OPENING, CLOSING = "([{", ")]}"
CLAUSE = re.compile(r"(requires|ensures) (\d+)(?: of (\S+))?$")


@functools.lru_cache(maxsize=64)
def lines_in(file):
    """The lines of a file of source, or none where it cannot be read."""
    try:
        with open(file, encoding="utf-8-sig", errors="replace") as source:
            return tuple(source.read().split("\n"))
    except (OSError, UnicodeEncodeError):
        return ()


def line_at(place):
    """The line of source without the blanks around it, or nothing."""
    lines = lines_in(place.file)
    return lines[place.line - 1].strip() if place.line <= len(lines) else ""


def first_argument(text):
    """The text up to the comma or the parenthesis that ends an argument, with one blank in place of several."""
    depth, taken = 0, []
    for piece in PIECE.finditer(text):
        part = piece.group()
        if depth == 0 and part in (",", ")"):
            return " ".join("".join(taken).split())
        depth += (part in OPENING) - (part in CLOSING)
        taken.append("" if part.startswith(("//", "/*")) else part)
    return ""


@functools.lru_cache(maxsize=4096)
def contract_at(place):
    """The name of the contract that is called at a place, and its condition; or None."""
    lines = lines_in(place.file)[place.line - 1:]
    if not lines:
        return None
    text = "\n".join((lines[0][max(place.column - 1, 0):], *lines[1:40]))
    found = CONTRACT.match(text.lstrip())
    return (found.group(1), first_argument(text.lstrip()[found.end():])) if found else None


@functools.lru_cache(maxsize=4096)
def clauses_of(lines, token, name):
    """The conditions of a method's Requires or Ensures and their places, in order."""
    places = dict.fromkeys(lines.of_method(token))
    found = ((contract_at(place), place) for place in places)
    return [(contract[1], place) for contract, place in found if contract and contract[0] == name]


def condition_of(report, method, obligation):
    """The condition that an obligation asks for, and the place of its contract; or None, as for an index.

    That of an inferred Ensures stands in the report, and its place is that of the return.
    """
    if obligation.condition:
        return obligation.condition, report.lines.at(method.token, obligation.offset)
    clause = CLAUSE.match(obligation.text)
    if clause:
        kind, number, callee = clause.groups()
        methods = report.named.get(callee, []) if callee else [method]
        clauses = clauses_of(report.lines, methods[0].token, kind.capitalize()) if len(methods) == 1 else []
        return clauses[int(number) - 1] if int(number) <= len(clauses) else None
    place = report.lines.at(method.token, obligation.offset)
    contract = contract_at(place) if place and obligation.text == "assert" else None
    return (contract[1], place) if contract and contract[0] == "Assert" else None
