"""Lines of source: from each form of symbols, at each sequence point and beside it, and none where there is none."""
import glob
import json
import os
import re
import shutil
import subprocess
import sys

from report_checks.common import CHECKS, TOP, compile_source, report, want, whole
from report_checks.sarif_rules import look_at_log
from report_checks.windows_symbols import make_windows_symbols

# An offset of each method, and what the source has at the place of its sequence point, in that line the first such.
# `monodis` shows the offsets: a statement begins after the one before it, and a loop's steps follow its body.
PLACES = {
    "06000001": [
        (0x0, "int low = a"), (0x7, "int low = a"), (0x8, "Contract.Assert(low"), (0x9, "Contract.Assert(low"),
        (0x13, "Contract.Assert(low"), (0x14, "Contract.Assert(\n"), (0x15, "Contract.Assert(\n"),
        (0x3a, "Contract.Assert(\n"), (0x3b, "return checked"), (0x3e, "return checked"),
    ],
    "06000003": [
        (0x6, "int i = 0"), (0x7, "numbers[i] = 1"), (0xa, "numbers[i] = 1"), (0xb, "i++"), (0xe, "i++"),
        (0xf, "i < 1"), (0x15, "i < 1"), (0x16, "return Part"), (0x1d, "return Part"),
    ],
}
NAMES = {"06000001": "Lines::Sum(int32,int32)", "06000003": "Lines::First(int32[])"}
# Obligations with a condition, the place that the warning names, and what --context prints under it.
CONTRACTS = """\
assembly Lines.dll
method 06000001 Lines::Sum(int32,int32): unproved
  IL_000f assert: unproved
  IL_0036 assert: unproved
  IL_003d overflow: unproved
method 06000002 Lines::Part(int32[],int32): unproved
  inferred ensures 2: result <= 100
  inferred ensures 3: result < length of arg 0
  IL_0034 ensures 1: unproved
  IL_0034 ensures 2 (inferred): proved
  IL_0034 ensures 3 (inferred): unproved
method 06000003 Lines::First(int32[]): unproved
  IL_0018 requires 1 of Lines::Part(int32[],int32): unproved
  IL_0018 requires 2 of Lines::Part(int32[],int32): unproved
"""
CONTEXT = """\
Lines.dll
  unproved Lines::Sum(int32,int32)
Lines.cs(9,9): warning CC0003: not proved that the condition of an Assert holds (assert at IL_000f)
        Contract.Assert(low >= 0);
        condition: low >= 0
Lines.cs(10,9): warning CC0003: not proved that the condition of an Assert holds (assert at IL_0036)
        Contract.Assert(
        condition: b >= 0 && (low < 256 || a == ')')
Lines.cs(15,9): warning CC0009: not proved that the checked sum, difference or product is an int (overflow at IL_003d)
        return checked(low + b);
  unproved Lines::Part(int32[],int32)
Lines.cs(22,9): warning CC0002: not proved that the method's own Ensures holds at its return (ensures 1 at IL_0034)
        return numbers[at];
        condition: Contract.Result<int>() >= 0  [Lines.cs(21,9)]
Lines.cs(22,9): warning CC0012: not proved that an Ensures that was inferred of the method holds at its return: \
result < length of arg 0 (ensures 3 (inferred) at IL_0034)
        return numbers[at];
        condition: result < length of arg 0
  unproved Lines::First(int32[])
Lines.cs(31,9): warning CC0001: not proved that a Requires of the called method holds \
(requires 1 of Lines::Part(int32[],int32) at IL_0018)
        return Part(numbers, 0);
        condition: numbers != null  [Lines.cs(20,9)]
Lines.cs(31,9): warning CC0001: not proved that a Requires of the called method holds \
(requires 2 of Lines::Part(int32[],int32) at IL_0018)
        return Part(numbers, 0);
        condition: 0 <= at && at < numbers.Length  [Lines.cs(20,45)]
"""
WITHOUT = """\
Lines.dll
  unproved Lines::Sum(int32,int32)
    IL_000f assert
    IL_0036 assert
    IL_003d overflow
  unproved Lines::Part(int32[],int32)
    IL_0034 ensures 1
    IL_0034 ensures 3 (inferred): result < length of arg 0
  unproved Lines::First(int32[])
    IL_0018 requires 1 of Lines::Part(int32[],int32)
    IL_0018 requires 2 of Lines::Part(int32[],int32)
"""


def compile_lines(folder):
    """The assembly with symbols of the form .mdb, and its source."""
    shutil.copy(os.path.join(CHECKS, "report_lines.cs"), os.path.join(folder, "Lines.cs"))
    compile_source(os.path.join(folder, "Lines.cs"), os.path.join(folder, "Lines.dll"), "-debug", "-d:CONTRACTS_FULL")


def place_of(source, text):
    """The line and the column of a text, each counted from 1."""
    before = source[:source.index(text)]
    return before.count("\n") + 1, len(before) - (before.rfind("\n") + 1) + 1


def report_of_places():
    lines = ["assembly Lines.dll"]
    for token, rows in PLACES.items():
        lines.append(f"method {token} {NAMES[token]}: unproved")
        lines += [f"  IL_{offset:04x} null: unproved" for offset, _ in rows]
    return "\n".join(lines) + "\n"


def wanted_places(folder):
    with open(os.path.join(folder, "Lines.cs"), encoding="utf-8") as file:
        source = file.read()
    return [("Lines.cs", *place_of(source, text)) for rows in PLACES.values() for _, text in rows]


def look_at_places(folder, form):
    """The line is that of the greatest offset not above, in the text and in the log."""
    words = ["--read", "-"]
    text = report("--only", "unproved", *words, given=whole(report_of_places()), folder=folder)
    found = re.findall(r"^(\S+?)\((\d+),(\d+)\): warning CC0004: ", text, re.MULTILINE)
    wanted = wanted_places(folder)
    want([(file, int(line), int(column)) for file, line, column in found] == wanted, f"{form}: places {found}")
    run = look_at_log(json.loads(report("--sarif", "-", *words, given=whole(report_of_places()), folder=folder)))
    places = [it["locations"][0]["physicalLocation"] for it in run["results"]]
    found = [(it["artifactLocation"]["uri"], it["region"]["startLine"], it["region"]["startColumn"]) for it in places]
    want(found == wanted, f"{form}: regions {found}")
    return [it["region"] for it in places]


def points_of_mdb(folder):
    """What the reader of symbols prints of Lines.dll, as rows of fields."""
    ask = "from reporting.source_lines import compiled_reader; print(compiled_reader(), end='')"
    reader = subprocess.run([sys.executable, "-B", "-c", ask], capture_output=True, text=True, check=True,
                            cwd=os.path.join(TOP, "tools")).stdout
    printed = subprocess.run(["mono", reader, os.path.join(folder, "Lines.dll")], capture_output=True, text=True,
                             check=True).stdout
    return [line.split("\t") for line in printed.splitlines()]


def make_portable(folder, target, rows, *words):
    """The assembly with portable symbols that have these points."""
    cecil = max(glob.glob("/usr/lib/mono/gac/Mono.Cecil/0.11.*/Mono.Cecil.dll"))
    program, points = os.path.join(folder, "portable_symbols.exe"), os.path.join(folder, "points")
    if not os.path.exists(program):
        source = os.path.join(CHECKS, "portable_symbols.cs")
        subprocess.run(["mcs", f"-r:{cecil}", f"-out:{program}", source], check=True)
    with open(points, "w", encoding="utf-8") as file:
        file.writelines("\t".join(row) + "\n" for row in rows)
    os.makedirs(target)
    shutil.copy(os.path.join(folder, "Lines.cs"), target)
    assembly = os.path.join(folder, "Lines.dll")
    subprocess.run(["mono", program, assembly, os.path.join(target, "Lines.dll"), points, *words], check=True)


def look_at_portable(folder):
    """Portable symbols beside the assembly and within it, with last lines and columns, and with a hidden point."""
    rows = [[*row[:4], str(int(row[2]) + 1), "5", "Lines.cs"] for row in points_of_mdb(folder)]
    hidden = [["06000001", offset, "16707566", "0", "16707566", "0", "Lines.cs"] for offset in ("0009", "003d")]
    for name, words in (("beside", []), ("within", ["inside"])):
        target = os.path.join(folder, name)
        make_portable(folder, target, sorted(rows + hidden), *words)
        want(os.path.exists(os.path.join(target, "Lines.pdb")) == (name == "beside"), f"symbols are not {name}")
        for region in look_at_places(target, f"portable symbols {name}"):
            want((region["endLine"], region["endColumn"]) == (region["startLine"] + 1, 5), f"{name}: {region}")
    look_at_other_names(folder, rows)
    look_at_windows(os.path.join(folder, "beside"), rows)


def look_at_other_names(folder, rows):
    """A source that lies elsewhere, under a name of Windows with a blank and a letter outside ASCII."""
    target = os.path.join(folder, "elsewhere")
    make_portable(folder, target, [[*row[:6], "C:\\my src\\L\u00efnes.cs"] for row in rows])
    words, how = ["--only", "unproved", "--read", "-"], {"given": whole(CONTRACTS), "folder": target}
    want("\nC:\\my src\\L\u00efnes.cs(9,9): warning CC0003: " in report(*words, **how), "a name of Windows")
    run = look_at_log(json.loads(report("--sarif", "-", *words, **how)))
    found = {it["locations"][0]["physicalLocation"]["artifactLocation"]["uri"] for it in run["results"]}
    want(found == {"file:///C:/my%20src/L%C3%AFnes.cs"}, f"the address of a name of Windows: {found}")


def look_at_windows(folder, rows):
    """Symbols of Windows in place of the portable ones, where the machine has what makes and reads them."""
    symbols = os.path.join(folder, "Lines.pdb")
    os.remove(symbols)
    if not all(shutil.which(it) for it in ("llvm-pdbutil", "pdb2mdb")):
        print("checks/report: symbols of Windows are left out: they need llvm-pdbutil and pdb2mdb", file=sys.stderr)
        return
    with open(os.path.join(folder, "Lines.dll"), "rb") as file:
        data = file.read()
    at = data.index(b"RSDS") + 4
    make_windows_symbols(symbols, data[at:at + 16], rows)
    look_at_places(folder, "symbols of Windows")
    make_windows_symbols(symbols, bytes(range(16)), rows)
    mono = os.path.join(folder, "mono")
    os.mkdir(mono)
    for name in ("mono", "mcs"):
        os.symlink(shutil.which(name), os.path.join(mono, name))
    for path, said in ((None, "is of another compilation"), (mono, "has the form of Windows: that needs ")):
        text = report("--read", "-", given=whole(CONTRACTS), folder=folder, path=path)
        want(WITHOUT in text and f"\n  note: no lines of source: Lines.pdb {said}" in text, f"of Windows:\n{text}")


def look_at_context(folder):
    words = ["--only", "unproved", "--read", "-"]
    text = report("--context", *words, given=whole(CONTRACTS), folder=folder)
    want(text == CONTEXT, f"--context prints\n{text}")
    whole_text = report(*words[2:], given=whole(CONTRACTS), folder=folder)
    want("\n      1 inferred ensures: an Ensures that was inferred of the method holds at its return.\n        Check "
         in whole_text, f"no sum of inferred Ensures in\n{whole_text}")
    warnings = "".join(line for line in CONTEXT.splitlines(True) if not line.startswith("    "))
    want(report(*words, given=whole(CONTRACTS), folder=folder) == warnings, "lines without --context")
    run = look_at_log(json.loads(report("--sarif", "-", *words, given=whole(CONTRACTS), folder=folder)))
    messages = [it["message"]["text"] for it in run["results"]]
    for message in ("Lines::Sum(int32,int32): assert at IL_000f is not proved: low >= 0.",
                    "Lines::Part(int32[],int32): ensures 3 (inferred) at IL_0034 is not proved: "
                    "result < length of arg 0."):
        want(message in messages, f"no {message!r} in {messages}")
    os.rename(os.path.join(folder, "Lines.cs"), os.path.join(folder, "moved.cs"))
    text = report("--context", *words, given=whole(CONTRACTS), folder=folder)
    # What was inferred stands in the report.
    found = re.findall(r"^ *condition: (.*)$", text, re.MULTILINE)
    want("Lines.cs(9,9): warning CC0003: " in text and found == ["result < length of arg 0"],
         f"without the source:\n{text}")
    os.rename(os.path.join(folder, "moved.cs"), os.path.join(folder, "Lines.cs"))


def look_at_not_analysed(folder):
    """At the offset of the reason, or at the method's first line."""
    given = ("assembly Lines.dll\nmethod 06000001 Lines::Sum(int32,int32): not analysed: N8 too large\n"
             "method 06000003 Lines::First(int32[]): not analysed: N9 opcode 7e at IL_000b\n")
    lines = report("--only", "not-analysed", "--read", "-", given=whole(given), folder=folder).splitlines()
    for line in ("Lines.cs(8,9): info CC0108: Lines::Sum(int32,int32) is not analysed: N8 too large",
                 "Lines.cs(27,32): info CC0111: Lines::First(int32[]) is not analysed: N9 opcode 7e at IL_000b, "
                 "a static field, also behind a property"):
        want(line in lines, f"no {line!r} in {lines}")


def look_at_none(folder):
    """No symbols, symbols of another compilation or of another form, and a machine without Mono."""
    words = ["--read", "-"]
    symbols = os.path.join(folder, "Lines.dll.mdb")
    text = report(*words, given=whole(CONTRACTS), folder=folder, path="")
    want(WITHOUT in text and "\n  note: no lines of source: " in text, f"without Mono:\n{text}")
    want("mono-mcs" in text, f"without Mono:\n{text}")
    os.rename(symbols, symbols + ".kept")
    for path in (None, ""):
        text = report(*words, given=whole(CONTRACTS), folder=folder, path=path)
        want(text.startswith(WITHOUT) and "note" not in text, f"without symbols:\n{text}")
    os.rename(symbols + ".kept", symbols)
    compile_source(os.path.join(folder, "Lines.cs"), os.path.join(folder, "Lines.dll"), "-d:CONTRACTS_FULL")
    text = report(*words, given=whole(CONTRACTS), folder=folder)
    want(WITHOUT in text and "\n  note: no lines of source: Lines.dll.mdb: " in text, f"with other symbols:\n{text}")


def look_at_numbers():
    """The numbers that docs/REPORTS.md lists are those that are printed."""
    with open(os.path.join(TOP, "docs/REPORTS.md"), encoding="utf-8") as file:
        rows = re.findall(r"^ {4}(CC\d{4}) (.+?) {2,}\S", file.read(), re.MULTILINE)
    texts = [re.sub(r" of NAME$| HH$", "", words).replace(" K", " 1") for _, words in rows]
    given = "assembly a.dll\n" + "".join(
        f"method 06000001 A::b(): not analysed: {words}\n" if words[0] == "N" else
        f"method 06000001 A::b(): unproved\n  IL_0000 {words}: unproved\n" for words in texts)
    run = json.loads(report("--sarif", "-", "--read", "-", given=whole(given)))["runs"][0]
    numbers = [number for number, _ in rows]
    want([it["ruleId"] for it in run["results"]] == numbers, "docs/REPORTS.md lists other numbers")
    want({rule["id"] for rule in run["tool"]["driver"]["rules"]} == set(numbers), "docs/REPORTS.md lacks numbers")


def look_at_lines(folder):
    compile_lines(folder)
    look_at_numbers()
    want(not any("endColumn" in it for it in look_at_places(folder, ".mdb")), "a .mdb has no last columns")
    look_at_portable(folder)
    look_at_context(folder)
    look_at_not_analysed(folder)
    look_at_none(folder)
