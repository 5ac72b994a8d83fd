"""The log of SARIF 2.1.0, with what GitHub's code scanning needs of one."""
import collections
import dataclasses
import hashlib
import json
import os
import re
import sys
import urllib.parse

from reporting import VERSION
from reporting.explanations import KINDS, REASONS
from reporting.numbers import kind_number, reason_number
from reporting.refutations import outcome_text
from reporting.reports import Method, Obligation, VERDICTS
from reporting.source_text import condition_of
from reporting.text import reason_text

# This repository has no public address yet; this page says what the contracts are.
INFORMATION = "https://learn.microsoft.com/dotnet/framework/debug-trace-profile/code-contracts"
FINGERPRINT = "methodKindCount/v1"
# The one that GitHub's code scanning compares.
GITHUB_FINGERPRINT = "primaryLocationLineHash"
DRIVE = re.compile(r"[A-Za-z]:[/\\]")


def rule(number, group, words, text, advice, level):
    name = "".join(word.capitalize() for word in f"{group} {words}".split())
    return {
        "id": number,
        "name": name,
        "shortDescription": {"text": text},
        "fullDescription": {"text": text},
        "help": {"text": advice or text},
        "defaultConfiguration": {"level": level},
    }


def rules():
    for kind, (asks, advice) in KINDS.items():
        yield rule(kind_number(kind), "unproved", kind, f"It is not proved that {asks}.", advice, "warning")
    for reason, (meaning, advice) in REASONS.items():
        text = f"The method is not analysed: {meaning}."
        yield rule(reason_number(reason), "not analysed", reason, text, advice, "note")


def uri_of(path):
    """A path of this machine, or one of Windows that symbols have, as a URI."""
    is_windows = DRIVE.match(path)
    quoted = urllib.parse.quote(path.replace("\\", "/") if is_windows or os.sep == "\\" else path, safe="/:")
    if is_windows:
        return f"file:///{quoted}"
    return f"file://{quoted}" if os.path.isabs(path) else quoted.replace(":", "%3A")


def region_of(place):
    """The lines and columns that the symbols have. SARIF counts them likewise, from 1, the last column excluded."""
    region = {"startLine": place.line, "endLine": max(place.line, place.last_line)}
    columns = {"startColumn": place.column, "endColumn": place.last_column if place.last_line else 0}
    return region | {member: column for member, column in columns.items() if place.column and column}


def fingerprints(path, finding):
    """What stays where other lines and methods change, and where another obligation is proved."""
    made_of = "\n".join(counted_as(path, finding.method, finding.kind))
    value = f"{hashlib.sha256(made_of.encode()).hexdigest()[:16]}:{finding.count}"
    return {FINGERPRINT: value, GITHUB_FINGERPRINT: value}


def refutation_properties(method, it):
    """On which arguments an obligation was met to fail, or how many were tried."""
    if it.witness:
        name, refutation = it.witness
        return {"refuted": True, "method": name, "arguments": list(refutation.arguments)}
    found = method.refutation
    if found.error:
        return {"refuted": False, "error": found.error}
    if found.fault:
        return {"refuted": False, "method": method.name, "arguments": list(found.arguments), "fault": str(found.fault)}
    return {"refuted": False, "tried": found.tried, "started": found.started}


@dataclasses.dataclass
class Finding:
    """What becomes a result. The count is that of its kind before it in its method."""
    method: Method
    number: str
    kind: str
    text: str
    offset: int | None
    level: str
    count: int
    obligation: Obligation | None = None

    def properties(self):
        it = self.obligation
        return {"refutation": refutation_properties(self.method, it)} if it and self.method.refutation else None


def reason_finding(method, count):
    text = f"{method.name} is not analysed{reason_text(method)}. {method.form.advice}".rstrip()
    return Finding(method, reason_number(method.reason), method.reason, text, method.offset, "note", count)


def obligation_finding(report, method, it, count):
    condition, _ = condition_of(report, method, it) or ("", None)
    text = f"{method.name}: {it.text} at IL_{it.offset:04x} is not proved{condition and ': ' + condition}."
    outcome = outcome_text(method, it) if method.refutation else ""
    text += f" {outcome[0].upper()}{outcome[1:]}." if outcome else ""
    return Finding(method, kind_number(it.kind), it.kind, text, it.offset, "warning", count, it)


def counted_as(path, method, kind):
    """What is counted as one: assemblies of one file name, as in two folders, and methods that print alike."""
    return os.path.basename(path), method.name, kind


def findings(report, only, before):
    """The findings of a report, after so many of each kind. What is proved is counted too."""
    for method in report.methods:
        is_asked = method.verdict in (only or VERDICTS)
        if method.reason:
            counted = counted_as(report.path, method, method.reason)
            if is_asked:
                yield reason_finding(method, before[counted])
            before[counted] += 1
        for it in method.obligations:
            counted = counted_as(report.path, method, it.kind)
            if is_asked and not it.proved:
                yield obligation_finding(report, method, it, before[counted])
            before[counted] += 1


class Log:
    """A SARIF log that grows by one result after the other."""

    def __init__(self):
        self.rules = list(rules())
        self.index_of = {rule["id"]: index for index, rule in enumerate(self.rules)}
        self.artifacts, self.logical, self.results, self.notes = {}, {}, [], []
        # How many findings of each kind came before.
        self.before = collections.Counter()

    def artifact(self, path):
        uri = uri_of(path)
        return {"uri": uri, "index": self.artifacts.setdefault(uri, len(self.artifacts))}

    def add_logical(self, name, kind, parent=None):
        """The location of this name within its parent. Its full name stands once in the log."""
        full = f"{parent['fullyQualifiedName']}/{name}" if parent else name
        within = {"parentIndex": parent["index"]} if parent else {}
        made = {"name": name, "fullyQualifiedName": full, "kind": kind, **within}
        index = self.logical.setdefault(full, (len(self.logical), made))[0]
        return {"fullyQualifiedName": full, "index": index}

    def location(self, report, finding):
        method, it = finding.method, finding.obligation
        module = self.add_logical(report.path, "module")
        logical = self.add_logical(f"{method.token} {method.name}", "function", module)
        if it:
            logical = self.add_logical(f"IL_{it.offset:04x} {it.text}", "instruction", logical)
        place = report.lines.at(method.token, finding.offset)
        physical = {"artifactLocation": self.artifact(place.file if place else report.path)}
        region = {"region": region_of(place)} if place else {}
        return {"physicalLocation": {**physical, **region}, "logicalLocations": [logical]}

    def add_finding(self, report, finding):
        number, properties = finding.number, finding.properties()
        # A reason or a kind that is newer than the tables has no rule.
        known = {"ruleIndex": self.index_of[number]} if number in self.index_of else {}
        self.results.append({
            "ruleId": number,
            **known,
            "level": finding.level,
            "message": {"text": finding.text},
            "locations": [self.location(report, finding)],
            "partialFingerprints": fingerprints(report.path, finding),
            **({"properties": properties} if properties else {}),
        })

    def add_report(self, report, only):
        errors = [("error", report.error)] if report.error else []
        for level, text in errors + [("warning", note) for note in report.notes]:
            self.notes.append({
                "level": level,
                "message": {"text": text},
                "locations": [{"physicalLocation": {"artifactLocation": self.artifact(report.path)}}],
            })
        for finding in findings(report, only, self.before):
            self.add_finding(report, finding)

    def json(self, succeeded):
        driver = {
            "name": "cccheck",
            "version": VERSION,
            "semanticVersion": VERSION,
            "informationUri": INFORMATION,
            "rules": self.rules,
        }
        return {
            "$schema": "https://json.schemastore.org/sarif-2.1.0.json",
            "version": "2.1.0",
            "runs": [{
                "tool": {"driver": driver},
                "columnKind": "utf16CodeUnits",
                "invocations": [{"executionSuccessful": succeeded, "toolExecutionNotifications": self.notes}],
                "artifacts": [{"location": {"uri": uri, "index": index}} for uri, index in self.artifacts.items()],
                "logicalLocations": [location for _, location in self.logical.values()],
                "results": self.results,
            }],
        }


def write_sarif(reports, only, target):
    log = Log()
    for report in reports:
        log.add_report(report, only)
    text = json.dumps(log.json(not any(report.error for report in reports)), indent=2) + "\n"
    if target == "-":
        sys.stdout.write(text)
        return
    with open(target, "w", encoding="utf-8") as file:
        file.write(text)
