"""Proof files taken apart, and entries with a line changed, for checks/verify and checks/fuzz."""
import re

HEAD = "cccheck proof 1"
NUMBER = r"-?\d+"
EXPRESSION = rf"(?:s\d+(?: [+-] \d+)?|{NUMBER})"
FULL = (-(2**31), 2**31 - 1)


def entries_of(text):
    """The entries of a proof file: the name of the unit and all lines, the first and the last too."""
    lines = text.split("\n")
    if lines.pop() or lines.pop(0) != HEAD:
        raise ValueError("the first or the last line")
    entries = []
    while lines:
        end = lines.index("end") + 1
        unit = bytes.fromhex(lines[0].removeprefix("unit "))
        entries.append((unit[6 : 6 + int.from_bytes(unit[4:6], "little")].decode(), lines[:end]))
        lines = lines[end:]
    return entries


def text_of(entries):
    """The text of a proof file, of the lines of its entries."""
    return "".join(f"{line}\n" for line in [HEAD, *[line for lines in entries for line in lines]])


def range_of(chance, lo, hi):
    """Other ranges than this one, most of which say more."""
    middle = (lo + hi) // 2
    return chance.choice([(lo, lo), (hi, hi), (lo, middle), (middle, hi), (0, 0), (0, 9), (1, hi), (lo, -1), FULL])


def other_range(chance, match):
    lo, hi = range_of(chance, int(match[1]), int(match[2]))
    return f"{lo}..{hi}" if lo <= hi else match[0]


def other_number(chance, text, values):
    """Another expression in place of one: a value of the block, or a number near it."""
    shifted = re.sub(r"\d+$", lambda it: str(int(it[0]) + chance.choice([1, 2, 100])), text)
    return chance.choice([shifted, *values, "0", "1"])


def other_reference(chance, line):
    """Another state of a reference: what is known of null, of its length or of an item."""
    length = re.search(rf"length ({EXPRESSION})", line)[1]
    if chance.random() < 0.3:
        return re.sub("may be null|is null", "not null", line)
    if chance.random() < 0.4:
        new = chance.choice(["0", "1", "100"])
        head, _, last = line.rpartition("{")
        return head.replace(f"length {length}", f"length {new}") + "{" + last.replace(length, new)
    ranges = list(re.finditer(rf"({NUMBER})\.\.({NUMBER})(?: not {NUMBER})?", line))
    if ranges and chance.random() < 0.7:
        chosen = chance.choice(ranges)
        return line[: chosen.start()] + other_range(chance, chosen) + line[chosen.end() :]
    return line.replace(" ?", "", 1)


def other_bound(chance, line, symbols):
    """Another bound: one that says more, or of other symbols, or none."""
    left, right = re.fullmatch(rf"    ({EXPRESSION}) <= (s\d+)", line).groups()
    symbol = left.split(" ")[0]
    more = chance.choice([1, 2, 100, 2**31])
    return chance.choice([[f"    {symbol} + {more} <= {right}"], [f"    {right} <= {symbol}"],
                          [f"    {symbol} <= {chance.choice(symbols)}"], []])


def changed_line(chance, line, block):
    """The lines in place of one line of a block."""
    values = [it for it in re.findall(rf"(?m)^    (?:in|arg|local|stack) \d+ = ({EXPRESSION})$", "\n".join(block))]
    symbols = re.findall(r"(?m)^    (s\d+) in", "\n".join(block))
    variable = re.fullmatch(r"(    (?:in|arg|local|stack) \d+ = )(.*)", line)
    if variable and re.fullmatch(EXPRESSION, variable[2]):
        return [variable[1] + other_number(chance, variable[2], values)]
    if variable:
        return [variable[1] + chance.choice(["null", *re.findall(r"(?m)^    (r\d+) ", "\n".join(block))])]
    if re.match(r"    s\d+ in ", line):
        return [re.sub(rf"({NUMBER})\.\.({NUMBER})(?: not {NUMBER})?$", lambda it: other_range(chance, it), line)]
    if re.match(r"    r\d+ (?:int32|bool)\[\] ", line):
        return [other_reference(chance, line)]
    if " <= " in line:
        return other_bound(chance, line, symbols)
    if " apart " in line:
        return []
    if re.match(r"    s\d+ = ", line):
        swapped = re.sub(r"(?<= = )(.*) (==|<|<u|-) (.*)", r"\3 \2 \1", line)
        return chance.choice([[], [swapped], [line.replace("==", "<")], [line.replace("is not null", "is null")]])
    return [line]


def block_at(lines, at):
    """Where the block of a line begins and ends, of the lines of an entry."""
    starts = [i for i, it in enumerate(lines) if it.startswith("  block ")] + [len(lines) - 1]
    return next((a, b) for a, b in zip(starts, starts[1:]) if a <= at < b)


def changed(chance, lines, at):
    """The lines of an entry with one changed, which is none of the unit or of the end."""
    start, end = block_at(lines, at)
    if at == start and lines[at].endswith(" unreachable"):
        like = next((it for it in range(1, len(lines)) if re.fullmatch(r"  block IL_\w+", lines[it])), None)
        if like is None:
            return lines
        other = block_at(lines, like)
        return [*lines[:at], lines[at].removesuffix(" unreachable"), *lines[other[0] + 1 : other[1]], *lines[end:]]
    if at == start:
        return [*lines[:at], lines[at] + " unreachable", *lines[end:]]
    return [*lines[:at], *changed_line(chance, lines[at], lines[start:end]), *lines[at + 1 :]]
