"""What the parts of checks/report share: calls of tools/report, compilers, and a stand-in for the program."""
import os
import pty
import re
import shutil
import subprocess
import sys

TOP = os.path.dirname(os.path.dirname(os.path.dirname(os.path.realpath(__file__))))
REPORT = os.path.join(TOP, "tools/report")
CHECKS = os.path.join(TOP, "checks")


def fail(message):
    sys.exit(f"checks/report: {message}")


def want(holds, message):
    if not holds:
        fail(message)


def ran(*words, status=0, given=None, folder=TOP, tool=REPORT, path=None):
    """A call of tools/report, which must end with this status. The path is where it finds other programs."""
    environment = os.environ if path is None else {**os.environ, "PATH": path}
    it = subprocess.run([sys.executable, tool, *words], input=given, capture_output=True, text=True, cwd=folder,
                        check=False, env=environment)
    want(it.returncode == status, f"status {it.returncode}, not {status}, of {words}: {it.stdout}{it.stderr}")
    return it


def report(*words, **how):
    """What tools/report prints for these words."""
    return ran(*words, **how).stdout


def on_terminal(*words, stream="stdout", folder=TOP, tool=REPORT):
    """What tools/report prints on one of its streams where that is a terminal."""
    printed = []
    leader, follower = pty.openpty()
    streams = {"stdout": subprocess.DEVNULL, "stderr": subprocess.DEVNULL, stream: follower}
    it = subprocess.Popen([sys.executable, tool, *words], stdin=subprocess.DEVNULL, cwd=folder, **streams)
    os.close(follower)
    while True:
        try:
            part = os.read(leader, 4096)
        except OSError:
            part = b""
        if not part:
            break
        printed.append(part)
    os.close(leader)
    want(it.wait() == 0, f"status {it.returncode} on a terminal")
    return b"".join(printed)


def compile_source(source, target, *words):
    subprocess.run(["mcs", "-target:library", "-optimize", *words, f"-out:{target}", source], check=True)


def whole(text):
    """The reports of a text, each with the summary that counts its lines."""
    reports = re.split(r"^(?=assembly )", text, flags=re.MULTILINE)
    return reports[0] + "".join(it + summary_of(it) for it in reports[1:])


def summary_of(text):
    methods = re.findall(r"^method .*: (proved|unproved|not analysed)(?:: .*)?$", text, re.MULTILINE)
    obligations = re.findall(r"^  IL_.*: (proved|unproved)$", text, re.MULTILINE)
    counts = [methods.count(verdict) for verdict in ("proved", "unproved", "not analysed")]
    return (f"summary: {len(methods)} methods, {counts[0]} proved, {counts[1]} unproved, {counts[2]} not analysed, "
            f"{len(obligations)} obligations, {obligations.count('proved')} proved\n")


def stand_in(folder, script):
    """A copy of tools/report beside a launcher that is this script of bash."""
    tools = os.path.join(folder, "tools")
    shutil.copytree(os.path.join(TOP, "tools"), tools, ignore=shutil.ignore_patterns("__pycache__"))
    launcher = os.path.join(folder, "cccheck")
    with open(launcher, "w", encoding="ascii") as file:
        file.write(f"#!/bin/bash\n{script}")
    os.chmod(launcher, 0o755)
    return os.path.join(tools, "report")
