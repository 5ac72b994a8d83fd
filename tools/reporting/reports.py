"""The reports that `cccheck check` prints, read."""
import dataclasses
import functools
import re

from reporting.forms import Form
from reporting.refutations import Refutation
from reporting.source_lines import SourceLines

VERDICTS = ("proved", "unproved", "not-analysed")

METHOD = re.compile(r"method ([0-9a-f]{8}) (\S+): (proved|unproved|not analysed: (.+))$")
UNIT = re.compile(r"unit (\S+): (proved|unproved)$")
OBLIGATION = re.compile(r"  IL_([0-9a-f]{4,}) (.+): (proved|unproved)$")
KIND = re.compile(r"(requires|ensures) \d+(?: of \S+)?$")
# An Ensures that was inferred, and is none of the code: its line, the words of its obligations, and their kind.
INFERRED = re.compile(r"  inferred ensures (\d+): (result .+)$")
INFERRED_CLAUSE = re.compile(r"ensures (\d+) \(inferred\)$")
INFERRED_KIND = "inferred ensures"
SUMMARY = re.compile(r"summary: (\d+) methods, (\d+) proved, (\d+) unproved, (\d+) not analysed, (\d+) obligations, "
                     r"(\d+) proved$")
# What stderr says of a file that has no report, of a report that is cut short, beside a report, and before one.
REFUSED = re.compile(r"cccheck: (?:missing file|cannot read|refused) (\S+?)(?:: .+)?$")
CUT_SHORT = re.compile(r"cccheck: (?:no memory|cannot write)$")
NOTE = re.compile(r"cccheck: (?:.+ names nothing of |A compiler leaves contracts out |<DefineConstants>)")
NO_NOTE = re.compile(r"cccheck: --try: ")
REASON = re.compile(r"(N9 opcode) ([0-9a-f]+) at IL_([0-9a-f]{4,})$|(.*?)(?: at IL_([0-9a-f]{4,}))?$")


@dataclasses.dataclass
class Obligation:
    offset: int
    text: str
    proved: bool
    # What an inferred Ensures says, where the report has it.
    condition: str = ""
    # A run that faults here: the name of the method that was run, and how it ended.
    witness: tuple[str, Refutation] | None = None

    @property
    def kind(self):
        """The words of KINDS, without the number of a clause."""
        if INFERRED_CLAUSE.match(self.text):
            return INFERRED_KIND
        clause = KIND.match(self.text)
        return clause.group(1) if clause else self.text


@dataclasses.dataclass
class Method:
    token: str
    name: str
    verdict: str
    reason: str = ""
    opcode: str = ""
    offset: int | None = None
    obligations: list = dataclasses.field(default_factory=list)
    # What the inferred Ensures say, by their numbers.
    inferred: dict = dataclasses.field(default_factory=dict)
    refutation: Refutation | None = None
    # Of a method that is not analysed: the instruction that is to blame, where it was looked up, and what was written.
    instruction: str = ""
    form: Form | None = None


@dataclasses.dataclass
class Report:
    """What is reported of one file. Without methods it may have an error, which says why there is no report."""
    path: str
    methods: list
    error: str = ""
    is_refused: bool = False
    notes: list = dataclasses.field(default_factory=list)
    lines: SourceLines = dataclasses.field(default_factory=SourceLines)

    @functools.cached_property
    def named(self):
        """The methods of each printed name, which several may share. It is asked when the report is whole."""
        named = {}
        for method in self.methods:
            named.setdefault(method.name, []).append(method)
        return named

    def count(self, verdict):
        """How many methods have a verdict, or are `wrong`: on some arguments they were met to fault."""
        if verdict == "wrong":
            return sum(bool(method.refutation and method.refutation.fault) for method in self.methods)
        return sum(method.verdict == verdict for method in self.methods)


def method_of(line):
    found = METHOD.match(line)
    if not found:
        unit = UNIT.match(line)
        return Method("", unit.group(1), unit.group(2)) if unit else None
    token, name, verdict, reason = found.groups()
    if reason is None:
        return Method(token, name, verdict)
    of_opcode, opcode, opcode_offset, words, offset = REASON.match(reason).groups()
    offset = opcode_offset or offset
    return Method(token, name, "not-analysed", of_opcode or words, opcode or "", int(offset, 16) if offset else None)


class Reader:
    """Reads the lines of reports, and those that cccheck writes to stderr, where they were put together."""

    def __init__(self, path):
        self.path = path
        self.reports = []
        # The last report has no summary yet.
        self.is_open = False

    def begin(self, path, error=""):
        self.end()
        self.reports.append(Report(self.path or path, [], error))
        self.is_open = not error

    def end(self, error="it is cut short: its lines are not those that its summary counts"):
        """Of a report without its summary nothing is kept, since any method may be missing."""
        if self.is_open:
            self.reports[-1].methods, self.reports[-1].error = [], error
        self.is_open = False

    def summary(self, counts):
        # That of a generated assembly stands without a report.
        if self.is_open:
            self.is_open = counts != counts_of(self.reports[-1])
            self.end()

    def said(self, line):
        """A line that begins with `cccheck: `: an error, of a file or of all, or a note on the report before it."""
        refused = REFUSED.match(line)
        if refused:
            self.begin(refused.group(1), line.removeprefix("cccheck: "))
        elif CUT_SHORT.match(line) and self.is_open:
            self.end(line.removeprefix("cccheck: "))
        elif NOTE.match(line) and self.reports:
            self.reports[-1].notes = [" ".join([*self.reports[-1].notes, line.removeprefix("cccheck: ")])]
        elif not NO_NOTE.match(line):
            raise ValueError(line)

    def add_to_method(self, line):
        """A line that belongs to the method before it."""
        inferred, obligation = INFERRED.match(line), OBLIGATION.match(line)
        if not self.is_open or not self.reports[-1].methods or not (inferred or obligation):
            raise ValueError(f"no line of a report: {line}")
        method = self.reports[-1].methods[-1]
        if inferred:
            method.inferred[int(inferred.group(1))] = inferred.group(2)
        else:
            offset, words, verdict = obligation.groups()
            number = INFERRED_CLAUSE.match(words)
            condition = method.inferred.get(int(number.group(1)), "") if number else ""
            method.obligations.append(Obligation(int(offset, 16), words, verdict == "proved", condition))

    def line(self, line):
        method, summary = method_of(line), SUMMARY.match(line)
        if line.startswith("cccheck: "):
            self.said(line)
        elif summary:
            self.summary(tuple(map(int, summary.groups())))
        elif line.startswith("assembly "):
            self.begin(line[len("assembly "):])
        elif method:
            if not method.token:
                self.begin(method.name)
            if not self.is_open:
                raise ValueError(f"no line `assembly FILE` before: {line}")
            self.reports[-1].methods.append(method)
        else:
            self.add_to_method(line)


def counts_of(report):
    """The numbers of its summary: methods, of each verdict, obligations, proved ones."""
    obligations = [it for method in report.methods for it in method.obligations]
    verdicts = [report.count(verdict) for verdict in VERDICTS]
    return (len(report.methods), *verdicts, len(obligations), sum(it.proved for it in obligations))


def reports_of(text, path=None):
    """The reports in a text, of which each begins with `assembly FILE`; that of a unit begins with its line."""
    reader = Reader(path)
    for line in text.splitlines():
        reader.line(line)
    reader.end()
    return reader.reports
