"""The text that is printed of reports: methods, sums and explanations."""
import collections
import os
import sys

from reporting.explanations import KINDS, OTHER, REASONS
from reporting.numbers import kind_number, reason_number
from reporting.refutations import call_text, outcome_text
from reporting.reports import VERDICTS
from reporting.source_text import condition_of, line_at

COLOURS = {"proved": "32", "unproved": "31", "not-analysed": "33"}
OTHER_KIND = ("this obligation holds", "")


class Printer:
    """Prints lines, with colours on a terminal alone."""

    def __init__(self, has_context):
        self.has_colours = sys.stdout.isatty() and "NO_COLOR" not in os.environ
        self.has_context = has_context

    def coloured(self, verdict):
        words = verdict.replace("-", " ")
        return f"\033[{COLOURS[verdict]}m{words}\033[0m" if self.has_colours else words

    def method(self, report, method):
        print(f"  {self.coloured(method.verdict)} {shown_name(report, method)}{reason_text(method)}")
        place = report.lines.at(method.token, method.offset) if method.reason else None
        if place:
            print(f"{place}: info {reason_number(method.reason)}: {method.name} is not analysed{reason_text(method)}")
        for it in method.obligations:
            if not it.proved:
                self.obligation(report, method, it)
        if method.refutation and not any(it.witness and it.witness[0] == method.name for it in method.obligations):
            print(f"    {search_text(report, method)}")

    def obligation(self, report, method, it):
        """In the form that MSBuild and editors read, where the line is known."""
        place = report.lines.at(method.token, it.offset)
        label = f"IL_{it.offset:04x}"
        # No source says what an inferred Ensures asks.
        found = outcome_text(method, it) if it.witness else it.condition
        if not place:
            print(f"    {label} {it.text}{found and ': ' + found}")
            return
        asks = f"not proved that {KINDS.get(it.kind, OTHER_KIND)[0]}"
        said = f"{asks}: {it.condition}" if it.condition else found or asks
        print(f"{place}: warning {kind_number(it.kind)}: {said} ({it.text} at {label})")
        if self.has_context:
            self.context(report, method, it, place)

    def context(self, report, method, it, place):
        if line := line_at(place):
            print(f"        {line}")
        condition, contract = condition_of(report, method, it) or ("", None)
        if condition:
            print(f"        condition: {condition}" + ("" if contract == place else f"  [{contract}]"))


def search_text(report, method):
    """How the search for arguments ended, where it met no obligation of the method itself."""
    found = method.refutation
    if not found.fault:
        return str(found)
    others = report.named.get(found.fault.method, [])
    place = report.lines.at(others[0].token, found.fault.offset) if len(others) == 1 else None
    return f"wrong: {call_text(method.name, found.arguments)} faults{f' at {place}' if place else ''}: {found.fault}"


def shown_name(report, method):
    """The printed name, with the token where another method of the assembly has the same one."""
    return method.name if len(report.named[method.name]) == 1 else f"{method.name} [{method.token}]"


def reason_text(method):
    if method.verdict != "not-analysed":
        return ""
    opcode = f" {method.opcode}" if method.opcode else ""
    offset = "" if method.offset is None else f" at IL_{method.offset:04x}"
    form = f", {method.form.words}" if method.form and method.form.words else ""
    return f": {method.reason}{opcode}{offset}{form}"


def sums_text(reports):
    counts = [sum(report.count(verdict) for report in reports) for verdict in VERDICTS]
    obligations = [it for report in reports for method in report.methods for it in method.obligations]
    return (f"{sum(counts)} methods: {counts[0]} proved, {counts[1]} unproved, {counts[2]} not analysed; "
            f"{len(obligations)} obligations, {sum(it.proved for it in obligations)} proved")


def print_kinds(methods):
    counted = collections.Counter(it.kind for method in methods for it in method.obligations if not it.proved)
    if counted:
        print("\nWhat is not proved, which may hold all the same: what is known of the values does not show it.")
    for kind, count in counted.most_common():
        asks, advice = KINDS.get(kind, OTHER)
        print(f"{count:7} {kind}: {asks}.")
        if advice:
            print(f"        {advice}")


def print_reasons(methods):
    """Each reason, and below it what was written and what to write instead."""
    forms = collections.defaultdict(collections.Counter)
    for method in methods:
        if method.reason:
            forms[method.reason][method.form] += 1
    if forms:
        print("\nWhy methods are not analysed:")
    for reason, counted in sorted(forms.items(), key=lambda it: -it[1].total()):
        print(f"{counted.total():7} {reason}: {REASONS.get(reason, OTHER)[0]}.")
        for form, count in counted.most_common():
            if form.words:
                print(f"        {count} {form.words}:")
            if form.advice:
                print(f"        {'    ' if form.words else ''}{form.advice}")


def print_refuted(reports):
    """How many of the methods that were tried are wrong."""
    tried = [method.refutation for report in reports for method in report.methods if method.refutation]
    if tried:
        wrong = sum(it.fault is not None for it in tried)
        failed = sum(bool(it.error) for it in tried)
        print(f"\nOf {len(tried)} unproved methods {wrong} are wrong, {len(tried) - wrong - failed} not shown to be"
              f"{f', {failed} not tried' if failed else ''}.")


def print_text(reports, only, has_context=False):
    printer = Printer(has_context)
    for report in reports:
        shown = [method for method in report.methods if method.verdict in (only or ("unproved",))]
        if shown or report.error or not only:
            print(report.path)
        if report.error:
            print(f"  no report: {report.error}")
        for method in shown:
            printer.method(report, method)
        if not only and not report.error:
            print(f"  {sums_text([report])}")
            for note in report.notes:
                print(f"  note: {note}")
    if only:
        return
    if len(reports) > 1:
        print(f"\n{len(reports)} files, {sums_text(reports)}")
    methods = [method for report in reports for method in report.methods]
    print_kinds(methods)
    print_reasons(methods)
    print_refuted(reports)
