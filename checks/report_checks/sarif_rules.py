"""The rules of SARIF 2.1.0 and of GitHub's code scanning that a log is held to.

Each rule is a function that yields what is wrong with a log. It stands beside a change of a good log that it must
refuse, so that none can be one that takes everything.
"""
import collections
import copy
import re
import urllib.parse

from report_checks.common import fail, want

# The objects that are written: the members that SARIF or GitHub require, and others that may stand.
OBJECTS = {
    "log": ("version runs $schema", ""),
    "run": ("tool invocations artifacts logicalLocations results columnKind", ""),
    "tool": ("driver", ""),
    "driver": ("name version semanticVersion informationUri rules", ""),
    "rule": ("id name shortDescription fullDescription help defaultConfiguration", ""),
    "configuration": ("level", ""),
    "text": ("text", ""),
    "invocation": ("executionSuccessful toolExecutionNotifications", ""),
    "notification": ("message level locations", ""),
    "artifact": ("location", ""),
    "artifactLocation": ("uri index", ""),
    "logicalLocation": ("fullyQualifiedName", "name kind parentIndex index"),
    "result": ("message ruleId ruleIndex level locations partialFingerprints", "properties"),
    "location": ("physicalLocation", "logicalLocations"),
    "physicalLocation": ("artifactLocation", "region"),
    "region": ("startLine endLine", "startColumn endColumn"),
}
# What stands in each member that is an object, or a list of objects.
INSIDE = {
    "runs": "run", "tool": "tool", "driver": "driver", "rules": "rule", "shortDescription": "text",
    "fullDescription": "text", "help": "text", "defaultConfiguration": "configuration", "invocations": "invocation",
    "toolExecutionNotifications": "notification", "message": "text", "locations": "location",
    "physicalLocation": "physicalLocation", "artifactLocation": "artifactLocation",
    "logicalLocations": "logicalLocation", "artifacts": "artifact", "location": "artifactLocation",
    "results": "result", "region": "region",
}
LISTS = {
    "runs", "rules", "invocations", "toolExecutionNotifications", "locations", "logicalLocations", "artifacts",
    "results",
}
LEVELS = ("none", "note", "warning", "error")


def objects(name, it, at="log"):
    """Each object of a log with the name of its kind, and where it stands."""
    yield name, it, at
    for member, value in it.items() if isinstance(it, dict) else ():
        if member in INSIDE:
            for number, inner in enumerate(value if isinstance(value, list) else [value]):
                yield from objects(INSIDE[member], inner, f"{at}.{member}[{number}]")


def named(log, name):
    return [(it, at) for kind, it, at in objects("log", log) if kind == name]


def members(log):
    for name, it, at in objects("log", log):
        needed, allowed = (set(words.split()) for words in OBJECTS[name])
        if not isinstance(it, dict):
            yield f"{at} is no object"
        elif needed - set(it) or set(it) - needed - allowed:
            yield f"{at} lacks {needed - set(it)}, and has {set(it) - needed - allowed}"


def lists(log):
    for _, it, at in objects("log", log):
        for member, value in it.items():
            if (member in LISTS) != isinstance(value, list) and member in INSIDE:
                yield f"{at}.{member} is a list, or should be one"


def version(log):
    if log.get("version") != "2.1.0" or not log.get("$schema", "").endswith("sarif-2.1.0.json"):
        yield "the version or the schema is another"


def driver(log):
    for it, at in named(log, "driver"):
        number = re.fullmatch(r"\d+\.\d+\.\d+", it.get("semanticVersion", ""))
        if not (it.get("name") and it.get("version") and number):
            yield f"{at} lacks a name or a version"
        parts = urllib.parse.urlsplit(it.get("informationUri", ""))
        if not (parts.scheme and parts.netloc):
            yield f"{at}.informationUri is no whole address"


def rules(log):
    for it, at in named(log, "driver"):
        ids = [rule["id"] for rule in it["rules"]]
        if len(set(ids)) < len(ids):
            yield f"{at} has two rules of one id"
        for rule in it["rules"]:
            if not re.fullmatch(r"CC\d{4}", rule["id"]) or not re.fullmatch(r"[A-Z][A-Za-z0-9]+", rule["name"]):
                yield f"{at}: rule {rule['id']} {rule['name']}"


def texts(log):
    for it, at in named(log, "text"):
        if not isinstance(it.get("text"), str) or not 0 < len(it["text"]) <= 1024:
            yield f"{at} has no text, or one of more than 1024 characters"


def levels(log):
    for name in ("result", "configuration", "notification"):
        for it, at in named(log, name):
            if it.get("level") not in LEVELS:
                yield f"{at}.level is {it.get('level')}"


def rule_indexes(log):
    listed = log["runs"][0]["tool"]["driver"]["rules"]
    for it, at in named(log, "result"):
        if it["ruleIndex"] not in range(len(listed)) or listed[it["ruleIndex"]]["id"] != it["ruleId"]:
            yield f"{at}.ruleIndex is that of another rule"


def addresses(log):
    for it, at in named(log, "artifactLocation"):
        if re.search(r"[\\\s]", it["uri"]) or not (it["uri"].startswith("file:///") or "//" not in it["uri"]):
            yield f"{at}.uri is {it['uri']}"


def artifacts(log):
    listed = log["runs"][0]["artifacts"]
    for it, at in named(log, "artifactLocation"):
        if it["index"] not in range(len(listed)) or listed[it["index"]]["location"] != it:
            yield f"{at} names another file"


def locations(log):
    for it, at in named(log, "result"):
        if len(it["locations"]) != 1 or len(it["locations"][0].get("logicalLocations", ())) != 1:
            yield f"{at} has no location, or several"


def regions(log):
    for it, at in named(log, "region"):
        first, last = (it["startLine"], it.get("startColumn", 1)), (it["endLine"], it.get("endColumn", 1 << 30))
        if not all(isinstance(number, int) and number >= 1 for number in it.values()) or last < first:
            yield f"{at} is {it}"


def lines_of_source(log):
    """Where a result stands in a file of source, its line is known; an assembly has none."""
    for it, at in named(log, "physicalLocation"):
        if it["artifactLocation"]["uri"].endswith(".cs") != ("region" in it):
            yield f"{at} lacks a region, or has one in an assembly"


def logical_locations(log):
    listed = log["runs"][0]["logicalLocations"]
    count = collections.Counter(it["fullyQualifiedName"] for it in listed)
    for index, it in enumerate(listed):
        if count[it["fullyQualifiedName"]] > 1:
            yield f"two logical locations are {it['fullyQualifiedName']}"
        if it.get("parentIndex", index - 1) not in range(-1, index):
            yield f"logical location {index} stands within itself or a later one"


def logical_indexes(log):
    listed = log["runs"][0]["logicalLocations"]
    for result, at in named(log, "result"):
        for it in result["locations"][0]["logicalLocations"]:
            if listed[it["index"]]["fullyQualifiedName"] != it["fullyQualifiedName"]:
                yield f"{at} names another logical location"


def fingerprints(log):
    """GitHub tells alerts apart by one of them, so no two results of a rule have the same."""
    met = collections.Counter()
    for it, at in named(log, "result"):
        value = it["partialFingerprints"].get("primaryLocationLineHash")
        met[it["ruleId"], value] += 1
        if not value or met[it["ruleId"], value] > 1:
            yield f"{at} lacks a fingerprint, or has that of another result"


def success(log):
    """Where a notification is an error, the run was none that succeeded."""
    for it, at in named(log, "invocation"):
        errors = [note for note in it["toolExecutionNotifications"] if note.get("level") == "error"]
        if it["executionSuccessful"] is not (not errors):
            yield f"{at}.executionSuccessful is {it['executionSuccessful']} with {len(errors)} errors"


# ---- changes that the rules must refuse

def run_of(log):
    return log["runs"][0]


def driver_of(log):
    return run_of(log)["tool"]["driver"]


def region_of(log):
    return named(log, "region")[0][0]


def first_result(log):
    return run_of(log)["results"][0]


def repeat_logical(log):
    listed = run_of(log)["logicalLocations"]
    listed.append(dict(listed[-1]))


def repeat_fingerprint(log):
    first, second = named(log, "result")[0][0], named(log, "result")[1][0]
    second.update(ruleId=first["ruleId"], partialFingerprints=first["partialFingerprints"])


RULES = [
    (members, lambda log: driver_of(log).pop("version")),
    (members, lambda log: driver_of(log).pop("informationUri")),
    (members, lambda log: driver_of(log)["rules"][3].pop("help")),
    (members, lambda log: first_result(log).pop("partialFingerprints")),
    (members, lambda log: region_of(log).pop("startLine")),
    (members, lambda log: region_of(log).update(line=1)),
    (lists, lambda log: run_of(log).update(invocations=run_of(log)["invocations"][0])),
    (version, lambda log: log.update(version="2.0.0")),
    (version, lambda log: log.pop("$schema")),
    (driver, lambda log: driver_of(log).update(semanticVersion="first")),
    (driver, lambda log: driver_of(log).update(version="")),
    (driver, lambda log: driver_of(log).update(informationUri="README.md")),
    (rules, lambda log: driver_of(log)["rules"].append(driver_of(log)["rules"][0])),
    (rules, lambda log: driver_of(log)["rules"][0].update(name="not an identifier")),
    (texts, lambda log: driver_of(log)["rules"][0]["help"].update(text="")),
    (levels, lambda log: first_result(log).update(level="info")),
    (rule_indexes, lambda log: first_result(log).update(ruleIndex=first_result(log)["ruleIndex"] + 1)),
    (rule_indexes, lambda log: first_result(log).update(ruleIndex=1000)),
    (addresses, lambda log: run_of(log)["artifacts"][0]["location"].update(uri="C:\\src\\Shop.cs")),
    (artifacts, lambda log: run_of(log)["artifacts"].reverse()),
    (locations, lambda log: first_result(log).update(locations=[])),
    (regions, lambda log: region_of(log).update(startLine=0)),
    (regions, lambda log: region_of(log).update(startColumn=0)),
    (regions, lambda log: region_of(log).update(endLine=region_of(log)["startLine"] - 1)),
    (lines_of_source, lambda log: named(log, "physicalLocation")[-1][0].pop("region")),
    (logical_locations, repeat_logical),
    (logical_locations, lambda log: run_of(log)["logicalLocations"][1].update(parentIndex=1)),
    (logical_indexes, lambda log: run_of(log)["logicalLocations"].reverse()),
    (fingerprints, repeat_fingerprint),
    (fingerprints, lambda log: first_result(log).update(partialFingerprints={"other": "1"})),
    (success, lambda log: run_of(log)["invocations"][0].update(executionSuccessful=False)),
]


def look_at_log(log):
    """The run of a log that no rule refuses."""
    for rule in dict.fromkeys(rule for rule, _ in RULES):
        wrong = next(rule(log), None)
        want(wrong is None, f"SARIF, {rule.__name__}: {wrong}")
    return run_of(log)


def look_at_rules(log):
    """Each rule refuses the good log where it was changed."""
    look_at_log(log)
    for number, (rule, change) in enumerate(RULES):
        changed = copy.deepcopy(log)
        change(changed)
        if next(rule(changed), None) is None:
            fail(f"SARIF: the rule {rule.__name__} takes the log of change {number}")
