"""tools/report where there is no program, or nothing to check: it says so at once, and starts no build."""
import os

from report_checks.common import ran, stand_in, want, whole

# It has no program, or one that does not run here.
SCRIPT = """\
echo "$*" >>"$(dirname "$0")/called"
if [[ $1 != --program || %s ]]; then
    echo 'cccheck: the release is of other sources' >&2
    echo 'cccheck: ./cccheck --build builds it anew' >&2
    exit 70
fi
"""
SAID = "tools/report: the release is of other sources; ./cccheck --build builds it anew\n"


def called(folder):
    path = os.path.join(folder, "called")
    return open(path, encoding="ascii").read().splitlines() if os.path.exists(path) else []


def look_at_missing_program(folder):
    here = os.path.join(folder, "without")
    os.mkdir(here)
    how = {"folder": here, "tool": stand_in(here, SCRIPT % "1")}
    open(os.path.join(here, "a.dll"), "wb").close()
    for words in (["nope.dll"], ["--try", "nope.dll"], ["--refute", "nope.dll"]):
        it = ran(*words, status=3, **how)
        want("  no report: missing file nope.dll\n" in it.stdout and not it.stderr, f"{words}: {it.stdout}{it.stderr}")
    # Reports that are there need no program.
    ran("--read", "-", given=whole("assembly a\nmethod 06000001 T::f(): proved\n"), **how)
    want(not called(here), f"the launcher was called: {called(here)}")
    for words in (["a.dll"], ["a.dll", "nope.dll"], ["--refute", "a.dll"], ["--sarif", "-", "."]):
        it = ran(*words, status=3, **how)
        want(it.stderr == SAID and not it.stdout, f"{words}: {it.stdout}{it.stderr}")
    given = whole("assembly a\nmethod 06000001 T::f(): unproved\n")
    want(ran("--refute", "--read", "-", given=given, status=3, **how).stderr == SAID, "--refute without a program")
    want(set(called(here)) == {"--program"}, f"the launcher was called: {called(here)}")


def look_at_program_that_does_not_run(folder):
    """What the launcher says is said once."""
    here = os.path.join(folder, "stale")
    os.mkdir(here)
    how = {"folder": here, "tool": stand_in(here, SCRIPT % "0 == 1")}
    for name in ("a.dll", "b.dll"):
        open(os.path.join(here, name), "wb").close()
    it = ran("a.dll", "b.dll", status=3, **how)
    want(it.stderr == SAID and not it.stdout, f"of a program that does not run: {it.stdout}{it.stderr}")


def look_at_programs(folder):
    look_at_missing_program(folder)
    look_at_program_that_does_not_run(folder)
