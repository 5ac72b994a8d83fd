"""Methods of random statements in C#, compiled, and random arguments for them. `random.seed` tells which come."""
import random
import re
import subprocess

METHODS = 250
COMPILE = ["mcs", "-target:library", "-optimize", "-d:CONTRACTS_FULL", "-nowarn:162,168,219,665,1691,1717,1718"]
NUMBERS = [0, 1, -1, 2, 3, -2, 7, 8, 31, 32, 100, 255, 256, 2147483647, -2147483648, 2147483646, -2147483647]
VARIABLES = ["p", "q", "x", "y", "z"]
ARRAYS = ["a", "b", "c"]
REQUIRES = ["a != null", "b != null", "p >= 0", "q > p", "p < a.Length", "q < 1000", "p + 1 <= q"]


def number(depth=0):
    """The text of a number."""
    chance = random.random()
    if depth > 2 or chance < 0.35:
        return random.choice(VARIABLES)
    if chance < 0.5:
        return str(random.choice([0, 1, 2, 3, -1, 5, 10, 100, 31, 2147483647]))
    if chance < 0.58:
        return random.choice(ARRAYS) + ".Length"
    if chance < 0.62:
        return f"{random.choice(ARRAYS)}[{number(depth + 1)}]"
    operator = random.choice(["+", "-", "+", "-", "*", "/", "%", "&", "|", ">>", "<<", "^"])
    first, second = number(depth + 1), number(depth + 1)
    if operator in "/%" and random.random() < 0.7:
        second = str(random.choice([1, 2, 3, 7, 10]))
    if operator in ("<<", ">>") and random.random() < 0.8:
        second = str(random.choice([1, 2, 5, 31]))
    text = f"({first} {operator} {second})"
    return "checked" + text if operator in "+-*" and random.random() < 0.1 else text


def condition(depth=0):
    if depth < 1 and random.random() < 0.2:
        return f"({condition(1)} {random.choice(['&&', '||'])} {condition(1)})"
    if random.random() < 0.15:
        return f"{random.choice(ARRAYS)} {random.choice(['==', '!='])} null"
    return f"{number(1)} {random.choice(['<', '<=', '>', '>=', '==', '!='])} {number(1)}"


def loop(depth):
    i, array = random.choice(["x", "y", "z"]), random.choice(ARRAYS)
    if random.random() < 0.5:
        return f"if ({array} != null) for ({i} = 0; {i} < {array}.Length; {i}++) {{ {block(depth)} p = {array}[{i}]; }}"
    return f"{i} = q; while ({i} > 0) {{ {block(depth)} {i} = {i} {random.choice(['- 1', '/ 2', '>> 1'])}; }}"


def statement(depth):
    chance = random.random()
    if chance < 0.4:
        return f"{random.choice(VARIABLES)} = {number()};"
    if chance < 0.5 and depth < 2:
        return f"if ({condition()}) {{ {block(depth + 1)} }} else {{ {block(depth + 1)} }}"
    if chance < 0.58:
        i, array = random.choice(["x", "y", "z"]), random.choice(ARRAYS)
        return f"if ({array} != null && {i} >= 0 && {i} < a.Length) {{ z = a[{i}]; a[{i}] = {number(1)}; }}"
    if chance < 0.68 and depth < 2:
        return loop(depth + 1)
    if chance < 0.73:
        return f"c = new int[{random.choice([number(1), '5'])}];"
    if chance < 0.78:
        return f"{random.choice(ARRAYS)} = {random.choice(ARRAYS)};"
    if chance < 0.88:
        return f"Contract.{random.choice(['Assert', 'Assert', 'Assume'])}({condition()});"
    if chance < 0.94:
        return f"if ({condition()}) return {number()};"
    return f"{random.choice(VARIABLES)} = {random.choice(VARIABLES)} {random.choice(['+', '-'])} 1;"


def block(depth):
    return " ".join(statement(depth) for _ in range(random.choice([1, 1, 2, 2, 3])))


def method(k):
    required = [random.choice([*REQUIRES, condition()]) for _ in range(random.choice([0, 1, 2, 3]))]
    return (
        f"public static int M{k}(int p, int q, int[] a, int[] b) {{ "
        + "".join(f"Contract.Requires({it}); " for it in required)
        + f"int x = {random.choice(['0', 'p', '1'])}; int y = {random.choice(['0', 'q', '7'])}; int z = 3; "
        + f"int[] c = {random.choice(['null', 'a', 'new int[4]'])}; "
        + " ".join(statement(0) for _ in range(random.choice([1, 2, 2, 3, 4])))
        + " return x + y + z; }"
    )


def argument(kind, earlier):
    """A value of this type; an array may be an earlier one."""
    if kind == "int32":
        return str(random.choice(NUMBERS) if random.random() < 0.7 else random.randint(-(2**31), 2**31 - 1))
    same = [i for i, it in enumerate(earlier) if it == kind]
    if same and random.random() < 0.3:
        return f"@{random.choice(same)}"
    if random.random() < 0.15:
        return "null"
    return "[" + ",".join(argument("int32", []) for _ in range(random.choice([0, 1, 2, 3, 5, 8]))) + "]"


def compiled(folder):
    """Compiles random methods, without those that the compiler refuses."""
    lines = ["using System.Diagnostics.Contracts;", "public static class F {", *map(method, range(METHODS)), "}"]
    while True:
        with open(f"{folder}/f.cs", "w", encoding="ascii") as it:
            it.write("\n".join(lines))
        done = subprocess.run([*COMPILE, "-out:f.dll", "f.cs"], cwd=folder, capture_output=True, text=True)
        refused = {int(it) for it in re.findall(r"f\.cs\((\d+),\d+\): error", done.stdout + done.stderr)}
        if not refused:
            return done.returncode == 0
        for it in refused:
            lines[it - 1] = ""
