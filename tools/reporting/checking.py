"""Runs `cccheck check` on files, several at a time."""
import concurrent.futures
import os
import subprocess
import sys

from reporting.forms import add_forms, look_up_calls
from reporting.paths import LAUNCHER
from reporting.reports import Report, reports_of
from reporting.source_lines import NoLines, lines_of

ENDINGS = (".dll", ".exe")
# The launcher's status where it has no program, or cannot run it.
NO_PROGRAM = 70


def said_by(ran):
    """What a call of the launcher printed on stderr, as one line, without what --try says of itself."""
    lines = [line.removeprefix("cccheck: ") for line in ran.stderr.decode("utf-8", "replace").splitlines()]
    if ran.returncode == NO_PROGRAM:
        return "; ".join(lines)
    return " ".join(line for line in lines if not line.startswith("--try: "))


def checked(words, options, path):
    """The report of a file by the launcher."""
    if not os.path.lexists(path):
        return Report(path, [], f"missing file {path}")
    infer = ["--infer"] if options.infer else []
    ran = subprocess.run([*words, "check", path, *infer], capture_output=True, check=False, stdin=subprocess.DEVNULL)
    said = said_by(ran)
    if ran.returncode in (0, 1):
        report = reports_of(ran.stdout.decode("ascii", "replace"), path)[0]
        report.notes = [said] if said else []
        return report
    if ran.returncode == NO_PROGRAM:
        raise ValueError(said or "cccheck does not run")
    return Report(path, [], said or f"status {ran.returncode}", ran.returncode == 5)


def files_in(paths):
    """The files that are named and those below the folders that are, each once, in order; and the set of the former."""
    files, named = [], set()
    for path in paths:
        if os.path.isdir(path):
            for folder, folders, names in os.walk(path):
                folders.sort()
                files += [os.path.join(folder, name) for name in sorted(names) if name.lower().endswith(ENDINGS)]
        else:
            files.append(path)
            named.add(path)
    return list(dict.fromkeys(files)), named


def launcher_words(options):
    """The words that a command of the program is added to."""
    return [LAUNCHER, "--try"] if options.without_proofs else [LAUNCHER]


def need_program(options):
    """The program's file, where it is to be run. Raises ValueError, with what the launcher says, where there is none.

    It starts no build.
    """
    if options.without_proofs:
        return ""
    asked = subprocess.run([LAUNCHER, "--program"], capture_output=True, check=False, stdin=subprocess.DEVNULL)
    if asked.returncode == NO_PROGRAM:
        raise ValueError(said_by(asked))
    return os.fsdecode(asked.stdout).removesuffix("\n")


def checked_files(options):
    files, named = files_in(options.paths)
    missing = [path for path in files if not os.path.lexists(path)]
    program = need_program(options) if len(missing) < len(files) else ""
    words = launcher_words(options)
    with concurrent.futures.ThreadPoolExecutor(options.jobs) as pool:
        reports = list(pool.map(lambda path: checked(words, options, path), files))
    if program:
        look_up_calls(reports, program, options.jobs)
    return [report for report in reports if report.path in named or not report.is_refused]


def add_lines(report):
    try:
        report.lines = lines_of(report.path)
    except NoLines as why:
        report.notes.append(str(why))


def read_together(paths):
    """The reports of several calls, of which the same one counts once, as where two machines checked one file."""
    reports = {}
    for path in paths:
        text = sys.stdin.read() if path == "-" else open(path, encoding="utf-8").read()
        for report in reports_of(text):
            same = reports.setdefault(report.path, [])
            if (report.methods, report.error) not in [(it.methods, it.error) for it in same]:
                same.append(report)
    return [report for same in reports.values() for report in same]


def read_all(options):
    """The reports of all words, in order, with lines of source. A file of a folder that is no assembly is left out."""
    if options.read:
        reports = read_together(options.paths)
    else:
        reports = checked_files(options)
    with concurrent.futures.ThreadPoolExecutor(options.jobs) as pool:
        list(pool.map(add_lines, reports))
    for report in reports:
        add_forms(report)
    return reports
