"""Arguments on which an unproved method goes wrong, found by `cccheck refute`."""
import concurrent.futures
import dataclasses
import re
import subprocess
import sys

REFUTED = re.compile(r"refuted:((?: \S+)*)\nfault (.+) at IL_([0-9a-f]{4,}) in (\S+)\n$")
NOT_REFUTED = re.compile(r"not refuted: (\d+) tried, (\d+) started\n$")
# A printed name without the types of its parameters.
SHORT = re.compile(r"(.*?::[^(]+)\(")


@dataclasses.dataclass(frozen=True)
class Fault:
    kind: str
    offset: int
    method: str

    def __str__(self):
        return f"{self.kind} at IL_{self.offset:04x} in {self.method}"


@dataclasses.dataclass(frozen=True)
class Refutation:
    """How the search ended: with a fault, or after so many argument lists; or the error says why there was none."""
    arguments: tuple = ()
    fault: Fault | None = None
    tried: int = 0
    started: int = 0
    error: str = ""

    def __str__(self):
        if self.error:
            return f"not tried: {self.error}"
        if self.fault:
            return "not shown: the search ended at another fault"
        return f"not shown: {self.tried} argument lists tried, {self.started} started"


def refutation_of(status, printed, said):
    """What `cccheck refute` answered."""
    refuted, not_refuted = REFUTED.match(printed), NOT_REFUTED.match(printed)
    if status == 8 and refuted:
        arguments, kind, offset, method = refuted.groups()
        return Refutation(tuple(arguments.split()), Fault(kind, int(offset, 16), method))
    if status == 0 and not_refuted:
        return Refutation(tried=int(not_refuted.group(1)), started=int(not_refuted.group(2)))
    if status == 2:
        return Refutation(error="this cccheck has no command refute")
    lines = [line.removeprefix("cccheck: ") for line in said.splitlines() if not line.startswith("cccheck: --try: ")]
    return Refutation(error=" ".join(lines) or f"status {status}")


def asked(words, path, name):
    ran = subprocess.run([*words, "refute", path, name], capture_output=True, check=False, stdin=subprocess.DEVNULL)
    return refutation_of(ran.returncode, ran.stdout.decode("ascii", "replace"), ran.stderr.decode("utf-8", "replace"))


def call_text(name, arguments):
    """The call as it would be written: Demo.Calc::Div(-2147483648, -1)."""
    short = SHORT.match(name)
    return f"{short.group(1) if short else name}({', '.join(arguments)})"


def outcome_text(method, it):
    """Whether an obligation of a method was met to fail."""
    if it.witness:
        name, refutation = it.witness
        return f"wrong: {call_text(name, refutation.arguments)} faults here"
    return str(method.refutation)


def mark_witnesses(report):
    """Each fault is kept beside the obligation that it breaks, in the method itself or in one that it calls."""
    broken = {(method.name, it.offset, it.text): (method, it)
              for method, *others in report.named.values() if not others
              for it in method.obligations if not it.proved}
    for method in report.methods:
        fault = method.refutation and method.refutation.fault
        owner, it = broken.get((fault.method, fault.offset, fault.kind), (None, None)) if fault else (None, None)
        # The run of the method itself is the one to show.
        if it and (it.witness is None or owner is method):
            it.witness = (method.name, method.refutation)


def show_progress(done, count):
    if sys.stderr.isatty():
        end = "\n" if done == count else ""
        print(f"\rrefute: {done} of {count} methods", end=end, file=sys.stderr, flush=True)


def refute_all(reports, words, jobs):
    """Asks for each unproved method, several at a time."""
    tasks = [(report, method) for report in reports for method in report.methods if method.verdict == "unproved"]
    with concurrent.futures.ThreadPoolExecutor(jobs) as pool:
        answers = {pool.submit(asked, words, report.path, method.name): method for report, method in tasks}
        for done, answer in enumerate(concurrent.futures.as_completed(answers), 1):
            answers[answer].refutation = answer.result()
            show_progress(done, len(tasks))
    for report in reports:
        mark_witnesses(report)
