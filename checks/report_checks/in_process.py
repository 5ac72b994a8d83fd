"""tools/report called within a check, many times, and copies of it with planted bugs."""
import contextlib
import dataclasses
import io
import os
import runpy
import shutil
import sys

from report_checks.common import TOP


class Differs(Exception):
    """A row is not as it must be."""


def want(holds, message):
    if not holds:
        raise Differs(message)


@dataclasses.dataclass
class Done:
    """How a call ended."""
    status: int
    stdout: str
    stderr: str


class Report:
    """The main function of tools/report in a folder."""

    def __init__(self, tools):
        for name in [name for name in sys.modules if name.partition(".")[0] == "reporting"]:
            del sys.modules[name]
        sys.path.insert(0, tools)
        self.names = runpy.run_path(os.path.join(tools, "report"))
        sys.path.remove(tools)

    def __call__(self, *words, given=""):
        out, err = (io.TextIOWrapper(io.BytesIO(), encoding="utf-8", write_through=True) for _ in range(2))
        argv, stdin = sys.argv, sys.stdin
        sys.argv, sys.stdin, status = ["tools/report", *words], io.StringIO(given), 0
        try:
            with contextlib.redirect_stdout(out), contextlib.redirect_stderr(err):
                self.names["main"]()
        except SystemExit as ended:
            status = ended.code or 0
        finally:
            sys.argv, sys.stdin = argv, stdin
        return Done(status, out.buffer.getvalue().decode("utf-8"), err.buffer.getvalue().decode("utf-8"))


def is_caught(folder, bug, look_at_all):
    """Whether a row differs where the tools have this planted bug: a file, what stands there, and what instead."""
    module, old, new = bug
    tools = os.path.join(folder, "tools")
    shutil.rmtree(tools, ignore_errors=True)
    shutil.copytree(os.path.join(TOP, "tools"), tools, ignore=shutil.ignore_patterns("__pycache__"))
    path = os.path.join(tools, "reporting", module)
    with open(path, encoding="utf-8") as file:
        text = file.read()
    if text.count(old) != 1:
        sys.exit(f"{module} has {text.count(old)} times: {old}")
    with open(path, "w", encoding="utf-8") as file:
        file.write(text.replace(old, new))
    try:
        look_at_all(Report(tools), folder)
    except Differs:
        return True
    return False


def planted_missed(bugs, folder, look_at_all):
    """The planted bugs that no row catches."""
    return [f"in {bug[0]}: {bug[2]}" for bug in bugs if not is_caught(folder, bug, look_at_all)]
