"""What `check --infer` reports of methods, read, and beside what their runs return."""
import collections
import re

NAME = re.compile(r"method [0-9a-f]{8} (\S+): (proved|unproved|not analysed: .*)$")
SAID = re.compile(r"  inferred ensures (\d+): (result .+)$")
JUDGED = re.compile(r"  IL_([0-9a-f]{4,}) ensures (\d+)( \(inferred\))?: (?:un)?proved$")
CONDITION = re.compile(r"result (>=|<=|<) (?:(-?\d+)|(length of )?arg (\d+))$")
# A line that a report has with --infer alone.
ADDED = re.compile(r"^  inferred ensures .*\n|^  IL_\S+ ensures \d+ \(inferred\): .*\n", re.M)
MOST_CLAUSES = 16

Method = collections.namedtuple("Method", "name verdict conditions inferred written")


def without_added(report):
    return ADDED.sub("", report)


def methods_in(report):
    """The methods of a report, with conditions and the offsets of obligations by the numbers of clauses."""
    found = []
    for line in report.splitlines():
        name, said, judged = NAME.match(line), SAID.match(line), JUDGED.match(line)
        if name:
            found.append(Method(*name.groups(), {}, {}, {}))
        elif said:
            found[-1].conditions[int(said[1])] = said[2]
        elif judged:
            (found[-1].inferred if judged[3] else found[-1].written).setdefault(int(judged[2]), []).append(judged[1])
    return found


def is_numbered(method):
    """Whether conditions go on from the Ensures that are written, and are judged at the returns where these are."""
    first = len(method.written) + 1
    numbers = list(range(first, first + len(method.conditions)))
    places = [*method.inferred.values(), *method.written.values()]
    return (list(method.conditions) == numbers == list(method.inferred) and first + len(numbers) - 1 <= MOST_CLAUSES
            and all(it == places[0] for it in places))


def form_of(condition):
    """The condition without its number."""
    return re.sub(r"-?\d+", "N", condition)


def value_of(text):
    """What a word stands for, or what a run returned: a number, the items of an array, or none for null."""
    if text[:1] == "[":
        return [value_of(it) for it in text[1:-1].split(",") if it]
    return {"true": 1, "false": 0, "null": None}[text] if text[0] in "tfn" else int(text)


def values_of(words):
    """The values of a run's arguments, where `@k` is the argument of that list index."""
    found = []
    for it in words:
        found.append(found[int(it[1:])] if it[0] == "@" else value_of(it))
    return found


def holds(condition, result, arguments):
    """Whether a condition is true of a result and of the arguments as they were passed."""
    if condition == "result not null":
        return result is not None
    operator, number, is_length, argument = CONDITION.match(condition).groups()
    other = arguments[int(argument)] if argument else int(number)
    if is_length:
        if other is None:
            return False
        other = len(other)
    return result >= other if operator == ">=" else result <= other if operator == "<=" else result < other


def broken(method, printed, words):
    """The conditions of a method that are false of what a run printed, which returned for these arguments."""
    returned = re.fullmatch(r"returned (\S+)\n", printed)
    if not returned:
        return []
    result, arguments = value_of(returned[1]), values_of(words)
    return [it for it in method.conditions.values() if not holds(it, result, arguments)]
