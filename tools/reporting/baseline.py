"""The ratchet: a baseline of what was proved, and what is worse or better since. docs/CI.md defines both.

A baseline knows names and counts alone, so that other code may change. It does not tell with which words the reports
were made. Where the number of obligations of one text changed, it is not known which are the old ones: their number
counts. A judged method that is gone is worse, or a new name would be a way out; methods that are not analysed stand in
it so that an overload is not taken for a new one.
"""
import collections
import dataclasses
import os
import re
import tempfile

from reporting.reports import VERDICTS

FIRST_LINE = "# cccheck baseline 1, written by tools/report --write-baseline (docs/CI.md)"
METHOD_LINE = re.compile(r"(\S+) (\S+?)(?: #(\d+))?: (proved|unproved|not analysed)$")
OBLIGATION_LINE = re.compile(r"(\S+) (\S+?)(?: #(\d+))?: unproved (.+) (\d+) of (\d+)$")
CONTRACTS_LINE = re.compile(r"(\S+): contracts$")
# The kinds of contracts of the code. An Ensures that was inferred is none.
CONTRACT_KINDS = ("requires", "ensures", "assert")
# Printed names have these bytes alone, and so has the name of a file here.
NOT_PRINTED = re.compile(rb"[^\x21-\x7e]")
RANKS = {verdict: rank for rank, verdict in enumerate(reversed(VERDICTS))}


@dataclasses.dataclass(frozen=True, order=True)
class Key:
    """A method: its assembly's file name, its printed name, and which of those of this name, counted from 1."""
    assembly: str
    name: str
    number: int

    @property
    def name_alone(self):
        """Without the types of its parameters."""
        return self.assembly, self.name.partition("(")[0]

    def __str__(self):
        return f"{self.assembly} {self.name}" + (f" #{self.number}" if self.number > 1 else "")


@dataclasses.dataclass
class Unproved:
    """Of the obligations of one text in a method: how many there are, and which are unproved, counted from 1."""
    total: int
    numbers: set

    def __str__(self):
        return f"{len(self.numbers)} of {self.total}"


@dataclasses.dataclass
class Entry:
    """A verdict, and by their texts the obligations of which one is unproved."""
    verdict: str
    unproved: dict = dataclasses.field(default_factory=dict)
    reason: str = ""


@dataclasses.dataclass
class Baseline:
    """What is kept of each method, and the assemblies that have a report, those with contracts among them."""
    entries: dict = dataclasses.field(default_factory=dict)
    assemblies: set = dataclasses.field(default_factory=set)
    with_contracts: set = dataclasses.field(default_factory=set)


@dataclasses.dataclass
class Comparison:
    worse: list = dataclasses.field(default_factory=list)
    better: list = dataclasses.field(default_factory=list)


def words_of(verdict):
    return verdict.replace("-", " ")


def assembly_name(path):
    return NOT_PRINTED.sub(lambda it: b"\\%02x" % it[0][0], os.fsencode(os.path.basename(path))).decode("ascii")


# ---- of reports

def entry_of(method):
    totals, unproved = collections.Counter(), collections.defaultdict(set)
    for it in method.obligations:
        totals[it.text] += 1
        if not it.proved:
            unproved[it.text].add(totals[it.text])
    return Entry(method.verdict, {text: Unproved(totals[text], unproved[text]) for text in unproved}, method.reason)


def report_entries(report):
    counts, entries = collections.Counter(), {}
    for method in report.methods:
        counts[method.name] += 1
        entries[Key(assembly_name(report.path), method.name, counts[method.name])] = entry_of(method)
    return entries


def baseline_of(reports):
    """What the reports say. A file without a report is left out; two of one name must have the same entries."""
    found, by_name = Baseline(), {}
    for report in reports:
        if report.error:
            continue
        name, entries = assembly_name(report.path), report_entries(report)
        if by_name.setdefault(name, entries) != entries:
            raise ValueError(f"two files named {name} have different reports, and a baseline knows the name alone")
        found.assemblies.add(name)
        found.entries |= entries
        if any(it.kind in CONTRACT_KINDS for method in report.methods for it in method.obligations):
            found.with_contracts.add(name)
    return found


# ---- of files

def lines_of(baseline):
    for name in baseline.with_contracts:
        yield f"{name}: contracts"
    for key, entry in baseline.entries.items():
        yield f"{key}: {words_of(entry.verdict)}"
        for text, unproved in entry.unproved.items():
            for number in unproved.numbers:
                yield f"{key}: unproved {text} {number} of {unproved.total}"


def write_baseline(path, baseline):
    """The old file stands until the new one is whole."""
    text = "\n".join([FIRST_LINE, *sorted(lines_of(baseline))]) + "\n"
    with tempfile.NamedTemporaryFile("w", encoding="ascii", dir=os.path.dirname(path) or ".", delete=False) as file:
        file.write(text)
    os.chmod(file.name, 0o644)
    os.replace(file.name, path)


def add_line(baseline, line):
    """Whether it is a line of a baseline, and agrees with those before it."""
    contracts, method, obligation = CONTRACTS_LINE.match(line), METHOD_LINE.match(line), OBLIGATION_LINE.match(line)
    if contracts:
        baseline.with_contracts.add(contracts.group(1))
        return True
    if not method and not obligation:
        return False
    assembly, name, number, *rest = (method or obligation).groups()
    entry = baseline.entries.setdefault(Key(assembly, name, int(number or 1)), Entry(""))
    baseline.assemblies.add(assembly)
    if method:
        verdict = rest[0].replace(" ", "-")
        agrees = entry.verdict in ("", verdict)
        entry.verdict = verdict
        return agrees
    text, number, total = rest[0], int(rest[1]), int(rest[2])
    unproved = entry.unproved.setdefault(text, Unproved(total, set()))
    unproved.numbers.add(number)
    return unproved.total == total and 1 <= number <= total


def read_baseline(path):
    """Raises ValueError for a line that is none, as that of a conflict, and for lines that contradict each other."""
    try:
        with open(path, encoding="ascii", errors="backslashreplace") as file:
            lines = file.read().splitlines()
    except FileNotFoundError:
        raise ValueError(f"there is no baseline {path}: --write-baseline writes it") from None
    if not lines or lines[0] != FIRST_LINE:
        raise ValueError(f"{path} is no baseline of this form: --write-baseline writes it anew")
    baseline = Baseline()
    for number, line in enumerate(lines[1:], 2):
        if not add_line(baseline, line):
            raise ValueError(f"{path}:{number}: a line that does not fit: {line}")
    for key, entry in baseline.entries.items():
        if (entry.verdict == "unproved") != bool(entry.unproved):
            raise ValueError(f"{path}: the verdict of {key} does not fit its obligations")
    return baseline


# ---- compared

def successors(before, now):
    """For each method that is gone the new one of its name, with other parameters, that stands for it.

    Where there are several, the most proved stands for the most proved.
    """
    new = collections.defaultdict(list)
    for key in sorted(now.entries.keys() - before.entries.keys(), key=lambda it: (RANKS[now.entries[it].verdict], it)):
        new[key.name_alone].append(key)
    gone = sorted(before.entries.keys() - now.entries.keys(), key=lambda it: (-RANKS[before.entries[it].verdict], it))
    return {key: new[key.name_alone].pop() for key in gone if new[key.name_alone]}


def verdict_text(entry):
    return words_of(entry.verdict) + (f" ({entry.reason})" if entry.reason else "")


def compare_obligations(found, key, old, new):
    """Of each text: which are unproved now alone or were so before alone, or how many where their total has changed."""
    none = Unproved(0, set())
    for text in old.unproved.keys() | new.unproved.keys():
        before, now = old.unproved.get(text, none), new.unproved.get(text, none)
        if before.numbers and now.numbers and before.total != now.total:
            changed = len(now.numbers) - len(before.numbers)
            lines = [f"{key}: unproved {text}: {now}, {before} before"]
            worse, better = lines if changed > 0 else [], lines if changed < 0 else []
        else:
            worse = [f"{key}: new and unproved: {text} {it} of {now.total}" for it in now.numbers - before.numbers]
            better = [f"{key}: no more unproved: {text} {it} of {before.total}" for it in before.numbers - now.numbers]
        found.worse += worse
        # Of a method that is proved now the verdict says it; of one that is not analysed nothing is better.
        found.better += better if new.verdict == "unproved" else []


def compare_method(found, key, new, old_key, old):
    """What a method lost and gained against the entry that it is compared with."""
    if new.verdict != old.verdict:
        changed = found.better if RANKS[new.verdict] > RANKS[old.verdict] else found.worse
        name = "" if old_key.name == key.name else f" as {old_key.name}"
        changed.append(f"{key}: {words_of(old.verdict)} before{name}, now {verdict_text(new)}")
    compare_obligations(found, key, old, new)


def lost_methods(before, now, stood_for):
    """The judged methods that are gone from assemblies that have a report, and for which no other one stands."""
    for key in before.entries.keys() - now.entries.keys() - stood_for:
        verdict = before.entries[key].verdict
        if key.assembly in now.assemblies and RANKS[verdict] > RANKS["not-analysed"]:
            yield f"{key}: {verdict} before, and gone"


def compared(before, now):
    found = Comparison()
    lost = before.assemblies - now.assemblies
    for name in lost:
        count = sum(key.assembly == name for key in before.entries)
        found.worse.append(f"{name}: no report, so that {count} methods are lost")
    for name in before.with_contracts & now.assemblies - now.with_contracts:
        found.worse.append(f"{name}: no contract is left: compile with the define CONTRACTS_FULL")
    new_of = successors(before, now)
    found.worse += lost_methods(before, now, new_of.keys())
    old_of = {new: old for old, new in new_of.items()}
    for key, entry in now.entries.items():
        old_key = old_of.get(key, key)
        if old_key in before.entries:
            compare_method(found, key, entry, old_key, before.entries[old_key])
        else:
            compare_obligations(found, key, Entry("not-analysed"), entry)
    return Comparison(sorted(found.worse), sorted(found.better))


def print_comparison(path, comparison, file):
    for title, lines in (("worse", comparison.worse), ("better", comparison.better)):
        if lines:
            print(f"\n{title} than {path}:", file=file)
            for line in lines:
                print(f"  {line}", file=file)
    if comparison.better and not comparison.worse:
        print("  --write-baseline keeps it.", file=file)
    if not comparison.worse and not comparison.better:
        print(f"\nas {path} has it", file=file)
