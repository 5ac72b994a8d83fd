"""What the reader wrote where a method is not analysed, and what to write instead.

It is told by the reason, the opcode, the method's name and those of the methods that the compiler makes, and for a
call by the instruction that `cccheck il` prints.
"""
import collections
import concurrent.futures
import dataclasses
import os
import re
import subprocess

from reporting.explanations import OPCODES, OTHER, OTHER_OPCODE, REASONS
from reporting.source_text import line_at

# The methods that a compiler makes: of lambdas <M>b__0_0 (csc), <M>m__0 (mcs) in <>c, <>c__DisplayClass0_0 (csc) and
# <M>c__AnonStorey0 (mcs), of local functions <M>g__F|0_0, of yield and await in <M>d__0 (csc), <M>c__Iterator0 (mcs).
LAMBDA_METHOD = re.compile(r"<([^<>]*)>[bm]__")
LAMBDA_TYPE = re.compile(r"(?:^|\.)<([^<>]*)>c(?:$|__AnonStorey|__DisplayClass)")
LOCAL_FUNCTION = re.compile(r"<[^<>]*>g__")
STATES_TYPE = re.compile(r"(?:^|\.)<[^<>]*>(?:d__|c__Iterator|c__async)")
LAMBDA_OPCODES = ("7e", "73", "fe06", "fe07")
DELEGATE_METHODS = {"BeginInvoke", "EndInvoke"}
CALL = re.compile(r"call ([0-9a-f]{2})")
# Tables of ECMA-335 II.22 whose rows a call names.
OWN_METHOD, OTHER_METHOD, GENERIC_METHOD = "06", "0a", "2b"


@dataclasses.dataclass(frozen=True)
class Form:
    """What was written, without a full stop, and as a sentence what to write instead."""
    words: str
    advice: str


LOOP = "Write a loop; test or assume an item where it is read, as by `Contract.Assume(item > 0)`."
LAMBDA = Form("a lambda, as in Contract.ForAll", LOOP)
MADE_OF_LAMBDA = Form("what the compiler makes of a lambda", "See the method that has the lambda.")
MADE_OF_YIELD = Form("what the compiler makes of yield or await", "Move the calculation into a static method.")
CONSTRUCTOR = Form(
    "a constructor", "Move what it computes into a static method; one that the compiler adds computes nothing."
)
STATIC_CONSTRUCTOR = Form(
    "a static constructor, or the first values of static fields", "Move what it computes into a static method."
)
DESTRUCTOR = Form("a destructor", "Nothing is to be done: it computes no result.")
PROPERTY = Form("a property or an indexer", "Let it call a static method that takes the fields as arguments.")
EVENT = Form("an event", "Nothing is to be done: the compiler writes it.")
INVARIANT = Form(
    "an invariant of objects", "State it as Requires and Ensures of static methods that take the fields as arguments."
)
DELEGATE = Form("a delegate type", "Nothing is to be done: it has no code.")
METHOD = Form("a method of an object or an interface", REASONS["N1 instance"][1])
OPERATOR = Form("an operator of a type", "Let it call a static method on int, bool and their arrays.")
LOCAL = Form("a local function", "Write it as a static method, and pass what it uses as arguments.")
MAIN = Form("Main with its words", "Let it call a static method that takes numbers.")
PARAMETER = Form(
    "a parameter or result such as string, long, an object or `ref int`",
    "Pass what is needed of it, as `text.Length` in place of `text`, or its characters in an int[]; return a result.",
)
LOCAL_VARIABLE = Form(
    "a local variable such as string, long or an object",
    "Use int, bool and their arrays; a foreach over a list, a lock and a switch on a text make such variables too.",
)
THROW = Form("`if (..) throw`", "Write `Contract.Requires(..)` with the condition that must hold.")
REQUIRES_OF_EXCEPTION = Form(
    "`Contract.Requires<E>`, or another generic method", "Write `Contract.Requires(..)` without the exception's type."
)
CALL_IN_CONTRACT = Form(
    "a method called in a contract, or between two",
    "Write the condition out, of arguments, constants, operators, lengths and items.",
)
STATEMENT = Form("a statement before or between contracts", "Let contracts stand first.")
OTHER_CALL = Form(
    "a method of another assembly, as Math.Max", "Write it in this assembly, on int, bool and their arrays."
)
OWN_CALL = Form(
    "a method of this assembly that is not static, or takes other types",
    "Write it as a static method on int, bool and their arrays.",
)
ARRAY = Form("an array of other items", "Use int[] or bool[].")
# What a line of source has, where symbols tell which one it is.
LINE_FORMS = [
    (re.compile(r"\bthrow\b"), THROW),
    (re.compile(r"\bContract\.Requires<"), REQUIRES_OF_EXCEPTION),
    (re.compile(r"=>"), LAMBDA),
]
# The reasons that are of an instruction, so that its line is that of what was written.
LINE_REASONS = ("N9 opcode", "N10 not pure", "N11 token")

OPCODE_FORMS = {opcode: Form(words, advice) for opcodes, words, advice in OPCODES for opcode in opcodes.split()}


def split_name(name):
    """The printed name's type and the method's name without its parameters."""
    of_type, _, method = name.partition("::")
    return of_type, method.rpartition("(")[0] or method


class Names:
    """What the names of an assembly's methods tell: which methods have a lambda, and which types are delegates."""

    def __init__(self, methods):
        names = [split_name(method.name) for method in methods]
        found = [LAMBDA_METHOD.match(name) for _, name in names] + [LAMBDA_TYPE.search(of_type) for of_type, _ in names]
        self.with_lambda = {it.group(1) for it in found if it} - {""}
        methods_of = collections.defaultdict(set)
        for of_type, name in names:
            methods_of[of_type].add(name)
        self.delegates = {of_type for of_type, names in methods_of.items() if DELEGATE_METHODS <= names}


# ---- by the reason

def form_by_name(of_type, name, names):
    """What the compiler makes of a form, whatever the reason."""
    if LAMBDA_METHOD.match(name) or LAMBDA_TYPE.search(of_type):
        return MADE_OF_LAMBDA
    if STATES_TYPE.search(of_type):
        return MADE_OF_YIELD
    if LOCAL_FUNCTION.match(name):
        return LOCAL
    return DELEGATE if of_type in names.delegates else None


def accessor_form(name):
    """Of an accessor, whose name may have that of an interface before it."""
    last = name.rpartition(".")[2]
    if last.startswith(("get_", "set_")):
        return PROPERTY
    return EVENT if last.startswith(("add_", "remove_")) else None


def instance_form(method, name):
    if name == ".ctor":
        return CONSTRUCTOR
    if name == "Finalize":
        return DESTRUCTOR
    if "Invariant" in name and method.name.endswith("()"):
        return INVARIANT
    return accessor_form(name) or METHOD


def signature_form(name):
    if name.startswith("op_"):
        return OPERATOR
    if name == "Main":
        return MAIN
    return accessor_form(name) or PARAMETER


def opcode_form(method, name, names):
    if name == ".cctor":
        return STATIC_CONSTRUCTOR
    if name in names.with_lambda and method.opcode in LAMBDA_OPCODES:
        return LAMBDA
    return OPCODE_FORMS.get(method.opcode, Form(*OTHER_OPCODE))


def called_form(instruction, is_contract):
    """Of the instruction that the contract block or the profile does not take."""
    call = CALL.match(instruction)
    if not call:
        return STATEMENT if is_contract else ARRAY
    if call.group(1) == GENERIC_METHOD:
        return REQUIRES_OF_EXCEPTION
    if is_contract:
        return CALL_IN_CONTRACT
    return OWN_CALL if call.group(1) == OWN_METHOD else OTHER_CALL


def form_by_line(method, place):
    """Of the line that has the instruction, where symbols tell it."""
    line = line_at(place) if place and method.reason in LINE_REASONS else ""
    return next((form for words, form in LINE_FORMS if words.search(line or "")), None)


def form_of(method, names, place):
    """What was written in a method that is not analysed; without words where the reason says all."""
    of_type, name = split_name(method.name)
    found = form_by_name(of_type, name, names) or form_by_line(method, place)
    if found:
        return found
    if method.reason == "N1 instance":
        return instance_form(method, name)
    if method.reason == "N4 signature type":
        return signature_form(name)
    if method.reason == "N5 local type":
        return LAMBDA if name in names.with_lambda else LOCAL_VARIABLE
    if method.reason == "N9 opcode":
        return opcode_form(method, name, names)
    if method.reason in ("N10 not pure", "N11 token") and method.instruction:
        return called_form(method.instruction, method.reason == "N10 not pure")
    return Form("", REASONS.get(method.reason, OTHER)[1])


# ---- the instruction of a call

def instruction_at(program, path, method):
    """What `cccheck il` prints at the offset, or nothing where several methods have the name."""
    words = [program, "il", path, method.name]
    ran = subprocess.run(words, capture_output=True, check=False, stdin=subprocess.DEVNULL)
    found = re.search(rb"^IL_%04x (.+)$" % method.offset, ran.stdout, re.MULTILINE)
    return found.group(1).decode("ascii") if found and ran.returncode == 0 else ""


def look_up_calls(reports, program, jobs):
    """Gives each method that calls what may not be called the instruction that does so."""
    asked = [(report.path, method) for report in reports if os.path.exists(report.path) for method in report.methods
             if method.reason in ("N10 not pure", "N11 token")]
    with concurrent.futures.ThreadPoolExecutor(jobs) as pool:
        found = pool.map(lambda it: instruction_at(program, *it), asked)
    for (_, method), instruction in zip(asked, found):
        method.instruction = instruction


def add_forms(report):
    names = Names(report.methods)
    for method in report.methods:
        if method.reason:
            method.form = form_of(method, names, report.lines.at(method.token, method.offset))
