"""The log of SARIF: its rules and results, its names, and the fingerprints by which results are known again."""
import json
import os
import tempfile

from report_checks.common import report, want, whole
from report_checks.lines import CONTRACTS, compile_lines
from report_checks.sarif_rules import look_at_log, look_at_rules

OTHER = "assembly Other.dll\nmethod 06000001 A::b(): unproved\n  IL_0000 null: unproved\n"
# Methods that print alike, obligations of one instruction, one method in two files, and a report that comes twice.
ALIKE = """\
assembly a/Alike.dll
method 06000001 A::b(object): not analysed: N4 signature type
method 06000002 A::b(object): not analysed: N4 signature type
method 06000003 A::c(int32): unproved
  IL_0002 divide by zero: unproved
  IL_0002 divide overflow: unproved
  IL_0009 requires 1 of A::d(int32): unproved
  IL_0009 requires 2 of A::d(int32): unproved
assembly b/Alike.dll
method 06000003 A::c(int32): unproved
  IL_0002 divide by zero: unproved
"""
# The same method before and after lines, methods and clauses came before it, and an obligation of it was proved.
BEFORE = """\
assembly old/Shop.dll
method 06000002 Shop::Sum(int32,int32): unproved
  IL_0004 assert: unproved
  IL_0009 overflow: unproved
  IL_000b requires 1 of Shop::Half(int32): unproved
  IL_0010 assert: unproved
method 06000003 Shop::Wide(int64): not analysed: N4 signature type
"""
AFTER = """\
assembly new/Shop.dll
method 06000002 Shop::Added(int32): unproved
  IL_0004 assert: unproved
method 06000003 Shop::Wide(int64): not analysed: N4 signature type
method 06000004 Shop::Sum(int32,int32): unproved
  IL_0014 assert: proved
  IL_0019 overflow: unproved
  IL_001b requires 2 of Shop::Half(int32): unproved
  IL_0027 assert: unproved
"""
# Each result of AFTER, and that of BEFORE which it is; the first is new.
SAME = [None, 4, 1, 2, 3]


def log_of(given, *words, folder=None):
    how = {"folder": folder} if folder else {}
    return json.loads(report("--sarif", "-", *words, "--read", "-", given=given, **how))


def found(run):
    """The rule, the level and the logical location of each result, without its file."""
    return [(it["ruleId"], it["level"],
             it["locations"][0]["logicalLocations"][0]["fullyQualifiedName"].partition(".dll/")[2])
            for it in run["results"]]


def look_at_results(shop):
    """The log of a report that cccheck printed, on the output and in a file."""
    with open(shop, encoding="ascii") as file:
        printed = file.read()
    run = look_at_log(log_of(printed))
    want(len(run["tool"]["driver"]["rules"]) == 36, f"{len(run['tool']['driver']['rules'])} rules")
    results = found(run)
    for wanted in [
        ("CC0003", "warning", "06000004 Shop::Sum(int32,int32)/IL_001b assert"),
        ("CC0008", "warning", "06000003 Shop::Ratio(int32,int32)/IL_0002 divide overflow"),
        ("CC0111", "note", "0600000c Shop::Sold()"),
        ("CC0101", "note", "06000007 Shop::Take(int32)"),
    ]:
        want(wanted in results, f"no {wanted} in {results}")
    want(len(results) == 4 + 8, f"{len(results)} results")
    only = found(look_at_log(log_of(printed, "--only", "unproved")))
    want(only == [it for it in results if it[1] == "warning"], "--only with --sarif")
    with tempfile.TemporaryDirectory() as folder:
        path = os.path.join(folder, "log.sarif")
        report("--sarif", path, "--read", shop)
        with open(path, encoding="utf-8") as file:
            want(look_at_log(json.load(file)) == run, "SARIF in a file")


def look_at_names():
    run = look_at_log(log_of(whole(ALIKE)))
    want(len(run["logicalLocations"]) == 2 + 4 + 5 and len(run["results"]) == 7, f"of methods that print alike: {run}")
    names = found(run)
    want(len({name for _, _, name in names[:6]}) == 6, f"results that are named alike: {names}")
    # A report that comes twice repeats its results, whose locations stand in the log once.
    listed = log_of(whole(ALIKE + ALIKE))["runs"][0]["logicalLocations"]
    want(listed == run["logicalLocations"], f"of a report that comes twice: {listed}")


def look_at_fingerprints():
    before, after = ([it["partialFingerprints"] for it in look_at_log(log_of(whole(given)))["results"]]
                     for given in (BEFORE, AFTER))
    want([before.index(it) if it in before else None for it in after] == SAME, f"fingerprints {before} and {after}")


def look_at_sarif(folder, shop):
    compile_lines(folder)
    look_at_rules(log_of(whole(OTHER + CONTRACTS), folder=folder))
    look_at_results(shop)
    look_at_names()
    look_at_fingerprints()
