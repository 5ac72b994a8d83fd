"""What each kind of obligation, reason and opcode means, and what to write instead."""

# What an obligation of each kind asks, and what to write where it is not proved.
DIVISOR = "Require or test that the divisor is above 0, or divide by a constant."
KINDS = {
    "requires": ("a Requires of the called method holds", "Test the argument before the call, or require the same."),
    "ensures": ("the method's own Ensures holds at its return", "Test what the result rests on, or require it."),
    "assert": ("the condition of an Assert holds", "Test what it rests on, or require it (docs/KNOWLEDGE.md)."),
    "null": ("the array is not null", "Require that the array is not null."),
    "lower bound": ("the index is not negative", "Test the index, or require 0 <= index."),
    "upper bound": ("the index is below the array's length", "Test the index, or require index < length."),
    "divide by zero": ("the divisor is not 0", DIVISOR),
    "divide overflow": ("the quotient is not that of int.MinValue by -1", DIVISOR),
    "overflow": ("the checked sum, difference or product is an int", "Test the operands, or write them as `n & 1023`."),
    "shift": ("the amount of the shift is 0 to 31", "Write the amount as `n & 31`."),
    "array size": ("the length of the new array is not negative", "Test the length, or require 0 <= length."),
    "inferred ensures": (
        "an Ensures that was inferred of the method holds at its return",
        "Check without --infer, or write an Ensures of what callers need.",
    ),
}
# Why a method is not analysed, and what to write instead.
DAMAGED = "Compile again: the file is damaged, or a tool has changed it."
REASONS = {
    "N1 instance": ("it is no static method", "Make it static, and pass what it reads of its object as arguments."),
    "N2 generic": ("it has type parameters", "Write it for int or bool."),
    "N3 no IL body": ("it is abstract, external or native: it has no IL", "Nothing: there is no code to check."),
    "N4 signature type": (
        "its result or a parameter is none of int, bool, int[], bool[], or it has more than 256 parameters",
        "Move the calculation into a method on these types: pass `text.Length` in place of `text`.",
    ),
    "N5 local type": (
        "a local variable is none of int, bool, int[], bool[]",
        "Use these types; the compiler may have made the local for a conversion or a foreach.",
    ),
    "N6 locals not initialised": ("its locals do not begin with 0 or null", "Leave out [SkipLocalsInit]."),
    "N7 exception section": (
        "it has a try, a lock, a using, or a foreach over an enumerator",
        "Move the calculation out of the try into a method of its own.",
    ),
    "N8 too large": ("it passes a limit on code, variables or blocks", "Split it."),
    "N9 header": ("its body has no header that reads", DAMAGED),
    "N9 short": ("its code ends inside an instruction", DAMAGED),
    "N9 opcode": ("it uses an instruction outside the profile", "Move the calculation into a method without it."),
    "N9 target": ("a branch leads into an instruction", DAMAGED),
    "N10 not pure": (
        "code between its contracts does more than compute a condition",
        "Let contracts stand first, of arguments, constants, operators, lengths, items, Result and OldValue alone.",
    ),
    "N10 backward": ("its contracts have a loop", "Move the loop after the contracts."),
    "N10 stack left": ("a contract stands inside an expression", "Let each contract be a statement of its own."),
    "N10 into block": ("a branch leads into its contracts or out of one", "Let contracts stand first, outside any if."),
    "N10 old form": (
        "Result or OldValue stands where it may not",
        "Use Result<T> and OldValue<T> in Ensures alone, with T the type of the result or of the value.",
    ),
    "N10 too long": ("its contracts pass a limit on their size", "Split the condition or the method."),
    "N11 token": (
        "it calls what is neither Contract nor a static method of this assembly on int, bool and their arrays, "
        "or makes another array",
        "Write the called method in this assembly, on these types (an own Max in place of Math.Max).",
    ),
    "N12 underflow": ("an instruction lacks an operand", DAMAGED),
    "N12 conflict": ("two ways come to one instruction with values of different types", DAMAGED),
    "N12 wrong kind": ("an operand is of a type that the instruction does not take", DAMAGED),
    "N12 falls off": ("its code ends without a return", DAMAGED),
    "N12 deep": ("it has more values on its stack than its header says", DAMAGED),
}

# For words that this table does not have.
OTHER = ("docs/REPORTS.md says what it is", "")

# Opcodes outside the profile, what was written, and what to write instead.
ITEM_ADDRESSES = (0x47, 0x4A, 0x52, 0x54)
POINTERS = " ".join(f"{k:02x}" for k in [*range(0x46, 0x58), 0xDF] if k not in ITEM_ADDRESSES)
CONVERSIONS = " ".join(f"{k:02x}" for k in [*range(0x82, 0x8C), *range(0xB3, 0xBB)])
OPCODES = [
    ("7b 7c 7d fe13", "a field", "Pass its value as an argument."),
    ("7e 7f 80", "a static field, also behind a property", "Pass its value as an argument, or make it a `const`."),
    ("6f fe16 29", "a call of an object's method or property", "Call a static method."),
    ("73", "`new` of an object, as in `if (..) throw new ..`",
     "Write `Contract.Requires(..)` for an `if` that throws; keep other objects in the caller."),
    (f"0f 12 fe0a fe0d 70 71 81 fe15 fe1c {POINTERS}", "`ref`, `out`, a struct or a pointer",
     "Pass values, and return the result."),
    (f"21 22 23 6a 6b 6c 6d 6e 76 d3 e0 {CONVERSIONS}", "a number other than int, or a checked cast", "Use int."),
    ("67 68 d1 d2", "a cast to byte, sbyte, short, ushort or char", "Use `& 255` or the like."),
    ("d7 d9 db d4 d5", "a checked operation without sign", "Use int."),
    ("d0", "an array with listed items (`{ 1, 2, 3 }`), or typeof", "Assign the items one by one."),
    ("7a fe1a dc dd de", "`throw`, or another part of an exception's code", "Return a value that says so."),
    ("fe06 fe07", "a delegate or a lambda", "Call the method itself."),
    ("8c", "a number made an object, as for a text", "Let the message of a contract be a text alone."),
    ("74 75 79 a5", "a cast of objects, `is` or `as`", "Use int and bool."),
    ("90 92 93 95 96 97 98 99 9a 9b 9d 9f a0 a1 a2 a3 a4", "an array of other items", "Use int[] or bool[]."),
]
OTHER_OPCODE = ("an instruction outside the profile", "Write it otherwise.")
