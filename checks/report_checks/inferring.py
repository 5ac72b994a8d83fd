"""tools/report --infer, by a stand-in for the launcher that notes its words, and the report of a unit."""
import os

from report_checks.common import report, stand_in, want, whole

SCRIPT = """\
folder=$(dirname "$0")
[[ $1 != --program ]] || exit 0
echo "$*" >>"$folder/called"
cat "$folder/report"
"""
REPORT = """\
assembly a.dll
method 06000001 T::f(): proved
  inferred ensures 1: result >= 7
  IL_0001 ensures 1 (inferred): proved
"""
CALLS = {
    ("a.dll",): "check a.dll",
    ("--infer", "a.dll"): "check a.dll --infer",
    ("--try", "--infer", "a.dll"): "--try check a.dll --infer",
}
# Of a unit no line says what was added.
UNIT = """\
unit T::f(): unproved
  IL_0001 ensures 1 (inferred): unproved
summary: 1 methods, 0 proved, 1 unproved, 0 not analysed, 1 obligations, 0 proved
"""


def look_at_inferring(folder):
    folder = os.path.join(folder, "inferring")
    os.mkdir(folder)
    how = {"folder": folder, "tool": stand_in(folder, SCRIPT)}
    with open(os.path.join(folder, "report"), "w", encoding="ascii") as file:
        file.write(whole(REPORT))
    open(os.path.join(folder, "a.dll"), "wb").close()
    for words, call in CALLS.items():
        text = report(*words, **how)
        want("1 methods: 1 proved, 0 unproved, 0 not analysed; 1 obligations, 1 proved" in text, f"{words}: {text}")
        with open(os.path.join(folder, "called"), encoding="ascii") as file:
            called = file.read().splitlines()
        want(called[-1] == call, f"{words} call {called[-1]}, not {call}")
    for words in (["--read", "-", "--infer"], ["--infer", "--read", "report"]):
        report(*words, given=whole(REPORT), status=2, **how)
    text = report("--read", "-", "--only", "unproved", given=UNIT, **how)
    want(text == "T::f()\n  unproved T::f()\n    IL_0001 ensures 1 (inferred)\n", f"of a unit:\n{text}")
