"""Files for checks/fuzz: those that mutants are made of, and the mutants."""
import functools
import glob
import importlib.machinery
import importlib.util
import os
import re
import struct
import subprocess
import sys

sys.dont_write_bytecode = True
import proof_changes

TOP = os.path.dirname(os.path.dirname(os.path.realpath(__file__)))
MOST_BYTES = 100_000
COMPILE = ["mcs", "-target:library", "-d:CONTRACTS_FULL", "-nowarn:162,168,219,665,1691,1717,1718"]

# The columns of each table (ECMA-335 II.22): numbers of two and four bytes, indexes into `#Strings`, `#GUID`, `#Blob`,
# and into tables.
COLUMNS = dict(zip(
    [*range(0x00, 0x03), 0x04, 0x06, *range(0x08, 0x13), 0x14, 0x15, *range(0x17, 0x1E), *range(0x20, 0x2D)],
    "2SGGG -SS 4SS--- 2SB 422SB- 22S -- -SB 2-B --B -B 2-B 24- 4- B -- 2S- -- 2SB 2-- --- S B 2-S- 4- 422224BSS 4 444 "
    "22224BSSB 4- 444- 4SB 44SS- 44S- -- 22-S -B --".split(), strict=True))
# The columns with signatures: of MethodDef, MemberRef, StandAloneSig, MethodSpec.
SIGNATURES = {(0x06, 4), (0x0A, 2), (0x11, 0), (0x2B, 1)}
# So many rows keep each index between tables at two bytes.
FEW_ROWS = 1 << 11

# How many bytes the operand of an instruction has, where it has one; a switch apart.
OPERANDS = dict.fromkeys([*range(0x0E, 0x14), 0x1F, *range(0x2B, 0x38), 0xDE], 1)
OPERANDS |= dict.fromkeys([0x20, 0x22, 0x27, 0x28, 0x29, *range(0x38, 0x45), *range(0x6F, 0x76), 0x79,
                           *range(0x7B, 0x82), 0x8C, 0x8D, 0x8F, 0xA3, 0xA4, 0xA5, 0xC2, 0xC6, 0xD0, 0xDD], 4)
OPERANDS |= {0x21: 8, 0x23: 8}
WIDE_OPERANDS = dict.fromkeys(range(0x09, 0x0F), 2) | dict.fromkeys([0x06, 0x07, 0x15, 0x16, 0x1C], 4) | {0x12: 1}
# First bytes of instructions of the profile.
PROFILE = [0x00, *range(0x02, 0x21), 0x25, 0x26, 0x28, 0x2A, *range(0x2B, 0x46), 0x54, *range(0x58, 0x67), 0x69, 0x72,
           0x8D, 0x8E, 0x8F, 0x90, 0x91, 0x94, 0x9C, 0x9E, 0xD6, 0xD8, 0xDA, 0xFE]
# Instructions of one byte that take and give alike: another one in place of one keeps code typed.
ALIKE = [[*range(0x02, 0x0A), *range(0x15, 0x1F)], [*range(0x58, 0x65), 0xD6, 0xD8, 0xDA], [0x65, 0x66, 0x69],
         [*range(0x2E, 0x38)], [*range(0x3B, 0x45)], [0x2C, 0x2D], [0x39, 0x3A], [0x90, 0x91, 0x94], [0x9C, 0x9E],
         [0x0A, 0x0B, 0x0C, 0x0D, 0x26], range(0x01, 0x06)]
NUMBERS = [0, 1, 2, 3, 0x7F, 0x80, 0xFF, 0x100, 0x7FFF, 0x8000, 0xFFFF, 0x10000, 0x7FFFFFFF, 0x80000000, 0xFFFFFFFF]


def script(name):
    """Another script of checks/, as a module."""
    loader = importlib.machinery.SourceFileLoader(name, f"{TOP}/checks/{name}")
    module = importlib.util.module_from_spec(importlib.util.spec_from_loader(name, loader))
    loader.exec_module(module)
    return module


# ---- where the numbers of an assembly stand


class Layout:
    """The fields of an assembly by their kind, each an offset and a size; those before its first fault."""

    def __init__(self, data):
        self.data, self.fields, self.bodies = data, {}, []
        try:
            self.read()
        except (struct.error, ValueError, IndexError):
            pass

    def number(self, kind, at, size):
        if at + size > len(self.data):
            raise ValueError
        self.fields.setdefault(kind, []).append((at, size))
        return int.from_bytes(self.data[at : at + size], "little")

    def read(self):
        pe = self.number("header", 0x3C, 4) + 4
        count, size = self.number("header", pe + 2, 2), self.number("header", pe + 16, 2)
        optional = pe + 20
        wide = self.number("header", optional, 2) == 0x20B
        cli, _ = [self.number("header", optional + (0xE0 if wide else 0xD0) + at, 4) for at in (0, 4)]
        self.sections = [[self.number("section", optional + size + 40 * k + at, 4) for at in (8, 12, 16, 20)]
                         for k in range(min(count, 20))]
        self.number("cli", self.place(cli) + 12, 4)
        self.root = self.place(self.number("cli", self.place(cli) + 8, 4))
        self.streams()

    def place(self, address):
        """The offset of an address."""
        for _, start, size, raw in self.sections:
            if start <= address < start + size:
                return address - start + raw
        raise ValueError

    def streams(self):
        at = self.root + 16 + self.number("root", self.root + 12, 4)
        heaps = {}
        count, at = self.number("root", at + 2, 2), at + 4
        for _ in range(min(count, 10)):
            start, size = self.number("stream", at, 4), self.number("stream", at + 4, 4)
            end = self.data.index(b"\0", at + 8)
            heaps.setdefault(self.data[at + 8 : end], (self.root + start, size))
            at += 8 + (end - at - 8) // 4 * 4 + 4
        self.blobs = heaps[b"#Blob"][0] if b"#Blob" in heaps else None
        self.tables(heaps.get(b"#~", (len(self.data), 0))[0])

    def tables(self, at):
        sizes = self.number("tables", at + 6, 1)
        valid = self.number("tables", at + 8, 8)
        present = [table for table in range(64) if valid >> table & 1]
        counts = [self.number("rows", at + 24 + 4 * k, 4) for k in range(len(present))]
        at += 24 + 4 * len(present)
        for table, count in zip(present, counts):
            if count >= FEW_ROWS or table not in COLUMNS:
                return
            for _ in range(count):
                at = self.row(table, at, sizes)

    def row(self, table, at, sizes):
        cells = []
        for column, kind in enumerate(COLUMNS[table]):
            wide = kind == "4" or sizes >> "SGB".find(kind) & 1 and kind in "SGB"
            cells.append(self.number(f"cell {table:02x} {column}", at, 4 if wide else 2))
            at += 4 if wide else 2
            if (table, column) in SIGNATURES and self.blobs is not None:
                self.signature(self.blobs + cells[-1])
        if table == 0x06 and cells[0]:
            self.body(self.place(cells[0]))
        return at

    def signature(self, at):
        for k in range(1 + min(20, self.number("signature length", at, 1))):
            self.number("signature", at + k, 1)

    def body(self, at):
        first = self.number("body", at, 1)
        start, size = at + 1, first >> 2
        if first & 3 == 3:
            self.number("body", at + 1, 1)
            self.number("body", at + 2, 2)
            size, start = self.number("code size", at + 4, 4), at + 12
            self.number("body", at + 8, 4)
        self.bodies.append((start, size))
        code(self.data[start : start + size], lambda kind, k, width: self.number(kind, start + k, width))


layout = functools.lru_cache(maxsize=None)(Layout)


def code(text, field):
    """Tells each field of code: its kind, its offset and its size."""
    at = 0
    while at < len(text):
        field("opcode", at, 1)
        first = text[at]
        size = OPERANDS.get(first, 0)
        if first == 0xFE and at + 1 < len(text):
            field("opcode", at + 1, 1)
            at += 1
            size = WIDE_OPERANDS.get(text[at], 0)
        if first == 0x45:
            field("switch", at + 1, 4)
            size = 4 + 4 * min(1000, int.from_bytes(text[at + 1 : at + 5], "little"))
        elif size and at + 1 + size <= len(text):
            field("operand", at + 1, size)
        at += 1 + size


# ---- mutants


def other_number(chance, data, fields, at, size):
    """A number for a field: a small change of its own, a notable one, or that of another field of its kind."""
    old = int.from_bytes(data[at : at + size], "little")
    pick = chance.randrange(6)
    if pick == 0:
        new = old + chance.choice([1, -1, 2, -2, 4, 100])
    elif pick == 1:
        new = old ^ 1 << chance.randrange(8 * size)
    elif pick == 2:
        new = chance.choice(NUMBERS)
    elif pick == 3:
        new = chance.getrandbits(8 * size)
    else:
        at, size = chance.choice(fields)
        new = int.from_bytes(data[at : at + size], "little")
    return new


def other_instruction(chance, first):
    """The first byte of an instruction that is like another's, most of the time."""
    return chance.choice(next((it for it in ALIKE if first in it), PROFILE) if chance.random() < 0.8 else PROFILE)


def put_number(data, at, size, number):
    data[at : at + size] = (number & (1 << 8 * size) - 1).to_bytes(size, "little")


def change_field(chance, data, layout, kinds):
    """Another number in a field of one of the kinds: each kind as often as another."""
    kinds = kinds or list(layout.fields)
    if not kinds:
        return
    kind = chance.choice(kinds)
    fields = layout.fields.get(kind)
    if not fields:
        return
    at, size = chance.choice(fields)
    if kind == "opcode" and chance.random() < 0.8:
        number = other_instruction(chance, data[at] if at < len(data) else 0)
    else:
        number = other_number(chance, data, fields, at, size)
    if at + size <= len(data):
        put_number(data, at, size, number)


def change_bytes(chance, data, other):
    """A byte, a piece, or the length of a file; with pieces of another."""
    at = chance.randrange(len(data) + 1)
    size = chance.choice([1, 1, 2, 4, 8, 100, chance.randrange(1 + len(data))])
    pick = chance.randrange(8)
    if pick < 2 and at < len(data):
        data[at] = chance.randrange(256)
    elif pick == 2 and at < len(data):
        data[at] ^= 1 << chance.randrange(8)
    elif pick == 3:
        del data[at : at + size]
    elif pick == 4:
        data[at:at] = bytes([chance.choice([0, 1, 0xFF, chance.randrange(256)])]) * size
    elif pick == 5:
        del data[at:]
    elif pick == 6:
        data[at : at + size] = other[at : at + size]
    else:
        data[at:] = other[chance.choice([at, chance.randrange(len(other) + 1)]) :]


def copy_code(chance, data, layout, other):
    """Code of this or another file in place of as much code of a method."""
    source = chance.choice([layout, other])
    if not layout.bodies or not source.bodies:
        return
    at, size = chance.choice(layout.bodies)
    start, length = chance.choice(source.bodies)
    skip = chance.randrange(max(1, min(size, length)))
    piece = source.data[start + skip * (chance.random() < 0.5) :][: min(length, size - skip)]
    if at + size <= len(data):
        data[at + skip : at + skip + len(piece)] = piece


CODE_KINDS = [*["opcode"] * 3, *["operand"] * 2, "switch", "body", "code size", "signature", "cell 06 0"]


def assembly_mutant(chance, layout, other, deep):
    """One to four changes of an assembly; where `deep` is set most of them are of code alone."""
    data = bytearray(layout.data)
    in_code = chance.random() < (0.8 if deep else 0.3)
    for _ in range(chance.choice([1, 1, 1, 2, 2, 3, 4])):
        pick = chance.random()
        if pick < 0.15:
            copy_code(chance, data, layout, other)
        elif pick < 0.85 or in_code:
            change_field(chance, data, layout, CODE_KINDS if in_code else None)
        else:
            change_bytes(chance, data, other.data)
    return bytes(data)


def code_mutant(chance, text, other):
    """Code with an instruction changed, put in or taken out, or a piece of other code in it."""
    starts, fields = [], []
    code(text, lambda kind, at, size: (starts if kind == "opcode" else fields).append((at, size)))
    data = bytearray(text)
    at = chance.choice(starts)[0] if starts else 0
    pick = chance.choice([0, 0, 0, 0, 1, 1, 2, 3, 4])
    if pick == 0 and starts:
        data[at] = other_instruction(chance, data[at])
    elif pick == 1 and fields:
        place, size = chance.choice(fields)
        put_number(data, place, size, other_number(chance, data, fields, place, size))
    elif pick == 2:
        first = chance.choice(PROFILE)
        data[at:at] = bytes([first]) + bytes(chance.choice([0, 1, 2, 100, 255]) for _ in range(OPERANDS.get(first, 0)))
    elif pick == 3:
        del data[at : at + 1 + OPERANDS.get(data[at] if data else 0, 0)]
    else:
        start = chance.randrange(len(other) + 1)
        data[at:at] = other[start : start + chance.randrange(40)]
    return bytes(data)


def unit_mutant(chance, forms, unit, other):
    """A unit of other code, places, stack or clauses, in a form of its; sometimes with bytes changed, too."""
    for _ in range(chance.choice([0, 1, 1, 1, 2, 3])):
        pick = chance.randrange(19)
        if pick < 13:
            unit = unit._replace(code=code_mutant(chance, unit.code, other.code))
        elif pick == 13:
            count = chance.choice([0, 1, 2, 3, len(unit.args), 200, 256])
            unit = unit._replace(args=[chance.choice([1, 2, 3, 4]) for _ in range(count)])
        elif pick == 14:
            unit = unit._replace(places=chance.choice([unit.places, other.places, [2] * 100]),
                                 stack=chance.choice([unit.stack, 0, 1, 8, 255]))
        elif pick == 15:
            callees = [*unit.callees, *other.callees]
            unit = unit._replace(callees=callees[: chance.randrange(1 + len(callees))])
        else:
            unit = unit._replace(added=chance.choice([[], other.added, forms.added_to(chance, unit)]))
    data = chance.choice(forms.all_spelled(unit) or [b"CCU2"])
    if chance.random() < 0.3:
        data = bytearray(data)
        change_bytes(chance, data, chance.choice(forms.all_spelled(other)))
    return bytes(data)


def invariant_mutant(chance, caches, invariant):
    """Changed bytes of an invariant: those of an invariant, if eight attempts give one."""
    data = bytearray(invariant)
    for _ in range(8):
        data = bytearray(invariant)
        for _ in range(chance.choice([1, 1, 2, 3])):
            new = chance.choice([0, 1, 2, 255, chance.randrange(256)])
            put_number(data, chance.randrange(max(1, len(data))), 1, new)
        try:
            caches.Invariant(bytes(data)).read()
            break
        except caches.Fault:
            continue
    return bytes(data)


def cache_mutant(chance, caches, good, entries):
    """A cache with entries changed, moved or doubled, or with bytes changed."""
    entries = list(entries)
    for _ in range(chance.choice([0, 1, 1, 2])):
        at = chance.randrange(len(entries)) if entries else 0
        key, invariant = entries[at] if entries else (b"CCU2", b"\0\0")
        pick = chance.randrange(5)
        invariants = [invariant_mutant(chance, caches, invariant), chance.choice(good),
                      chance.choice(entries)[1] if entries else good[0]]
        if pick < 3:
            entries[at : at + 1] = [(key, invariants[pick])]
        else:
            entries[at:at] = [(key[: chance.randrange(1 + len(key))] if pick == 3 else key, invariant)]
    data = caches.spelled(chance.choice([1, 2, 2, 2]), entries)
    if chance.random() < 0.3:
        data = bytearray(data)
        change_bytes(chance, data, data[::-1])
    return bytes(data)


def proof_mutant(chance, data):
    """A proof file with entries changed in a line, doubled, left out or another unit's, or with bytes changed."""
    entries = [lines for _, lines in proof_changes.entries_of(data.decode("ascii"))]
    for _ in range(chance.choice([0, 1, 1, 2, 5]) if entries else 0):
        at = chance.randrange(len(entries))
        unit, *lines = entries[at]
        changes = [[[unit, *chance.choice(entries)[1:]]], [entries[at], entries[at]], []]
        if chance.random() < 0.8 and len(lines) > 1:
            changes = [[proof_changes.changed(chance, entries[at], 1 + chance.randrange(len(lines) - 1))]]
        entries[at : at + 1] = chance.choice(changes)
        if not entries:
            break
    data = proof_changes.text_of(entries).encode()
    if chance.random() < 0.2:
        data = bytearray(data)
        change_bytes(chance, data, data[::-1])
    return bytes(data)


# ---- what mutants are made of


def case_bytes(text):
    """The bytes that a case writes so: a word may be repeated, and what stands in brackets comes after its length."""
    outer, inner = [], None
    for word in text.replace("[", " [ ").replace("]", " ] ").split():
        if word == "[":
            inner = []
        elif word == "]":
            data = b"".join(inner)
            outer, inner = [*outer, struct.pack("<I", len(data)), data], None
        else:
            digits, _, times = word.partition("*")
            (outer if inner is None else inner).append(bytes.fromhex(digits) * int(times or 1))
    return b"".join(outer)


def case_files():
    """The files of the cases of the whole program."""
    found = {}
    for path in sorted(glob.glob(f"{TOP}/crates/program_cases/data/*.cases")):
        with open(path, encoding="utf-8") as it:
            for text in re.findall(r"^file \S+ (.{6,20000})$", it.read(), re.M):
                found[case_bytes(text)] = None
    return [data for data in found if len(data) <= MOST_BYTES]


def compiled(work):
    """The examples, and what Mono's compiler makes of the sources of checks/."""
    paths = sorted(glob.glob(f"{TOP}/examples/*.dll"))
    for number, source in enumerate(sorted(glob.glob(f"{TOP}/checks/*.cs"))):
        path = f"{work}/{number}.dll"
        try:
            subprocess.run([*COMPILE, f"-out:{path}", source], capture_output=True, check=False)
        except FileNotFoundError:
            break
        paths += [path] if os.path.exists(path) else []
    return paths


def contents(paths, most=MOST_BYTES):
    """What files have that are not too long."""
    found = []
    for path in paths:
        if os.path.getsize(path) <= most:
            with open(path, "rb") as it:
                found.append(it.read())
    return found


def libraries():
    return sorted(glob.glob("/usr/lib/mono/4.5/*.dll") + glob.glob("/usr/lib/mono/4.5/Facades/*.dll"))


def entries(caches, data):
    """The keys and invariants of a sound cache."""
    reader, found = caches.Reader(data[4:]), []
    try:
        for _ in range(reader.number(4)[0]):
            key = reader.field(reader.number(4)[0])[0]
            found.append((key, reader.field(reader.number(4)[0])[0]))
    except caches.Fault:
        pass
    return found
