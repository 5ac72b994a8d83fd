"""The number of each kind of obligation and of each reason, as in `warning CC0003`. A number keeps its meaning."""
KIND_NUMBERS = {
    "requires": 1,
    "ensures": 2,
    "assert": 3,
    "null": 4,
    "lower bound": 5,
    "upper bound": 6,
    "divide by zero": 7,
    "divide overflow": 8,
    "overflow": 9,
    "shift": 10,
    "array size": 11,
    "inferred ensures": 12,
}
REASON_NUMBERS = {
    "N1 instance": 101,
    "N2 generic": 102,
    "N3 no IL body": 103,
    "N4 signature type": 104,
    "N5 local type": 105,
    "N6 locals not initialised": 106,
    "N7 exception section": 107,
    "N8 too large": 108,
    "N9 header": 109,
    "N9 short": 110,
    "N9 opcode": 111,
    "N9 target": 112,
    "N10 not pure": 113,
    "N10 backward": 114,
    "N10 stack left": 115,
    "N10 into block": 116,
    "N10 old form": 117,
    "N10 too long": 118,
    "N11 token": 119,
    "N12 underflow": 120,
    "N12 conflict": 121,
    "N12 wrong kind": 122,
    "N12 falls off": 123,
    "N12 deep": 124,
}
# For words that are newer than these tables.
OTHER_KIND, OTHER_REASON = 99, 199


def kind_number(kind):
    return f"CC{KIND_NUMBERS.get(kind, OTHER_KIND):04}"


def reason_number(reason):
    return f"CC{REASON_NUMBERS.get(reason, OTHER_REASON):04}"
