"""tools/report --refute, by a stand-in for the program that answers as cccheck does."""
import json
import os
import re
import shutil

from report_checks.common import on_terminal, ran, report, stand_in, want, whole
from report_checks.lines import compile_lines
from report_checks.sarif_rules import look_at_log

# What is faulted: an obligation of the method itself, one of a called method, one that the called method's own run
# faults too, and one of no method here; and each way in which none is met. The two Twice print alike.
REPORT = """\
assembly Lines.dll
method 06000001 Lines::Sum(int32,int32): unproved
  IL_000f assert: proved
  IL_0036 assert: unproved
  IL_003d overflow: unproved
method 06000002 Lines::Part(int32[],int32): unproved
  IL_0033 upper bound: unproved
  IL_0034 ensures 1: unproved
method 06000003 Lines::First(int32[]): unproved
  IL_000a null: unproved
method 06000004 Lines::Safe(): unproved
  IL_0000 overflow: unproved
method 06000005 Lines::Proved(int32): proved
method 06000006 Lines::Twice(int32): unproved
  IL_0000 overflow: unproved
method 06000007 Lines::Twice(int32): not analysed: N2 generic
method 06000008 Lines::Calls(bool): unproved
  IL_0005 overflow: unproved
method 06000009 Lines::Later(bool[]): unproved
  IL_0005 overflow: unproved
"""
ANSWERS = {
    "Lines::Sum(int32,int32)": (8, "refuted: 255 2147483647", "fault overflow at IL_003d in Lines::Sum(int32,int32)"),
    "Lines::Part(int32[],int32)": (0, "not refuted: 45 tried, 7 started"),
    "Lines::First(int32[])": (8, "refuted: [1,2]", "fault ensures 1 at IL_0034 in Lines::Part(int32[],int32)"),
    "Lines::Safe()": (0, "not refuted: 1 tried, 1 started"),
    "Lines::Twice(int32)": (11, "cccheck: does not fit: several methods"),
    "Lines::Calls(bool)": (8, "refuted: true", "fault null at IL_0009 in Other::Called(int32[])"),
    "Lines::Later(bool[])": (8, "refuted: null", "fault overflow at IL_003d in Lines::Sum(int32,int32)"),
}
TEXT = """\
Lines.dll
  unproved Lines::Sum(int32,int32)
Lines.cs(10,9): warning CC0003: not proved that the condition of an Assert holds (assert at IL_0036)
Lines.cs(15,9): warning CC0009: wrong: Lines::Sum(255, 2147483647) faults here (overflow at IL_003d)
  unproved Lines::Part(int32[],int32)
Lines.cs(22,9): warning CC0006: not proved that the index is below the array's length (upper bound at IL_0033)
Lines.cs(22,9): warning CC0002: wrong: Lines::First([1,2]) faults here (ensures 1 at IL_0034)
    not shown: 45 argument lists tried, 7 started
  unproved Lines::First(int32[])
Lines.cs(29,13): warning CC0004: not proved that the array is not null (null at IL_000a)
    wrong: Lines::First([1,2]) faults at Lines.cs(22,9): ensures 1 at IL_0034 in Lines::Part(int32[],int32)
  unproved Lines::Safe()
    IL_0000 overflow
    not shown: 1 argument lists tried, 1 started
  unproved Lines::Twice(int32) [06000006]
    IL_0000 overflow
    not tried: does not fit: several methods
  unproved Lines::Calls(bool)
    IL_0005 overflow
    wrong: Lines::Calls(true) faults: null at IL_0009 in Other::Called(int32[])
  unproved Lines::Later(bool[])
    IL_0005 overflow
    wrong: Lines::Later(null) faults at Lines.cs(15,9): overflow at IL_003d in Lines::Sum(int32,int32)
"""
SUMS = "Of 7 unproved methods 4 are wrong, 2 not shown to be, 1 not tried."
REFUTATIONS = [
    {"refuted": False, "method": "Lines::Sum(int32,int32)", "arguments": ["255", "2147483647"],
     "fault": "overflow at IL_003d in Lines::Sum(int32,int32)"},
    {"refuted": True, "method": "Lines::Sum(int32,int32)", "arguments": ["255", "2147483647"]},
    {"refuted": False, "tried": 45, "started": 7},
    {"refuted": True, "method": "Lines::First(int32[])", "arguments": ["[1,2]"]},
    {"refuted": False, "method": "Lines::First(int32[])", "arguments": ["[1,2]"],
     "fault": "ensures 1 at IL_0034 in Lines::Part(int32[],int32)"},
    {"refuted": False, "tried": 1, "started": 1},
    {"refuted": False, "error": "does not fit: several methods"},
    None,
    {"refuted": False, "method": "Lines::Calls(bool)", "arguments": ["true"],
     "fault": "null at IL_0009 in Other::Called(int32[])"},
    {"refuted": False, "method": "Lines::Later(bool[])", "arguments": ["null"],
     "fault": "overflow at IL_003d in Lines::Sum(int32,int32)"},
]


def script_of(answers):
    """A launcher that prints the report, and a program that answers `refute`, and waits until two ask at a time."""
    cases = "".join(
        f"'{name}')\n    printf '%s\\n' {' '.join(repr(line) for line in lines)} >&{2 if status == 11 else 1}\n"
        f"    exit {status}\n    ;;\n"
        for name, (status, *lines) in answers.items())
    return f"""\
folder=$(dirname "$0")
if [[ $1 == check ]]; then
    cat "$folder/report"
    exit 1
fi
if [[ $1 == --program ]]; then
    echo "$folder/program"
    exit 0
fi
[[ $0 == */program && $1 == refute && $2 == Lines.dll && $# == 3 ]] || exit 2
echo "$3" >>"$folder/asked"
for ((k = 0; k < 100; k++)); do
    [[ $(wc -l <"$folder/asked") -lt 2 ]] || break
    sleep 0.05
done
[[ $k -lt 100 ]] || echo alone >>"$folder/asked"
case $3 in
{cases}esac
"""


def look_at_refuting(folder):
    os.mkdir(os.path.join(folder, "refuting"))
    folder = os.path.join(folder, "refuting")
    tool = stand_in(folder, script_of(ANSWERS))
    shutil.copy(os.path.join(folder, "cccheck"), os.path.join(folder, "program"))
    with open(os.path.join(folder, "report"), "w", encoding="ascii") as file:
        file.write(whole(REPORT))
    compile_lines(folder)
    how = {"folder": folder, "tool": tool}
    it = ran("--refute", "--jobs", "2", "Lines.dll", **how)
    text = it.stdout
    want(not it.stderr, f"--refute writes to stderr, which is no terminal: {it.stderr}")
    want(text.startswith(TEXT) and text.endswith(f"\n{SUMS}\n"), f"--refute prints\n{text}")
    with open(os.path.join(folder, "asked"), encoding="ascii") as file:
        asked = file.read().splitlines()
    want(sorted(asked) == sorted(ANSWERS), f"asked of {asked}")
    want(report("--only", "unproved", "--refute", "Lines.dll", **how) == TEXT, "--refute with --only")
    want(report("--only", "unproved", "--refute", "--read", "report", **how) == TEXT, "--refute with --read")
    look_at_log_of(how)
    look_at_progress(folder, tool)
    look_at_failing(folder, tool)


def look_at_log_of(how):
    log = json.loads(report("--refute", "--sarif", "-", "Lines.dll", **how))
    run = look_at_log(log)
    found = [it.get("properties", {}).get("refutation") for it in run["results"]]
    want(found == REFUTATIONS, f"refutations {found}")
    messages = [it["message"]["text"] for it in run["results"]]
    for message in (
        "Lines::Sum(int32,int32): overflow at IL_003d is not proved. "
        "Wrong: Lines::Sum(255, 2147483647) faults here.",
        "Lines::Part(int32[],int32): upper bound at IL_0033 is not proved. "
        "Not shown: 45 argument lists tried, 7 started.",
    ):
        want(message in messages, f"no {message!r} in {messages}")
    plain = look_at_log(json.loads(report("--sarif", "-", "Lines.dll", **how)))
    kept = [[it["partialFingerprints"] for it in it["results"]] for it in (plain, run)]
    want(kept[0] == kept[1], "fingerprints change with --refute")


def look_at_progress(folder, tool):
    """On stderr, and where that is a terminal alone."""
    words = ["--refute", "Lines.dll"]
    printed = {it: on_terminal(*words, stream=it, folder=folder, tool=tool) for it in ("stdout", "stderr")}
    want(b"refute:" not in printed["stdout"], "progress on the output")
    counts = re.findall(rb"\rrefute: (\d) of 7 methods", printed["stderr"])
    want(b"".join(counts) == b"1234567", f"progress {counts}")


def look_at_failing(folder, tool):
    """--fail-on wrong, and a program that has no such command."""
    how = {"folder": folder, "tool": tool}
    report("--refute", "--fail-on", "wrong", "Lines.dll", status=1, **how)
    report("--fail-on", "wrong", "Lines.dll", status=2, **how)
    at = [REPORT.index(f"method 0600000{number}") for number in (1, 4, 6)]
    given = REPORT[:at[0]] + REPORT[at[1]:at[2]]
    report("--refute", "--fail-on", "wrong", "--read", "-", given=whole(given), **how)
    given = "assembly Other.dll\nmethod 06000001 A::b(): unproved\n  IL_0000 null: unproved\n"
    text = report("--refute", "--read", "-", given=whole(given), **how)
    want("    not tried: this cccheck has no command refute\n" in text, f"without the command:\n{text}")
