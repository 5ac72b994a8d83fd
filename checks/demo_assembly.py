"""Assemblies as crates/asm_writer writes them: static methods of one class, with the methods of Contract."""
import struct

VOID, BOOL, INT, BOOLS, INTS = b"\x01", b"\x02", b"\x08", b"\x1d\x02", b"\x1d\x08"
NOT_NULL = "02 14 fe03 280100000a"
# The methods of each file: name, result, parameters, locals, code.
ROWS = {
    "max": [("Max", INT, [INT, INT], [], "280200002b 02 fe04 16 fe01 280300000a 02 03 3202 02 2a 03 2a")],
    "fill": [("Fill", VOID, [INTS, INT, INTS], [INT], NOT_NULL +
              "03 16 fe04 16 fe01 280100000a 03 02 8e 69 fe04 280100000a"
              "04 14 fe03 280100000a 04 8e 69 16 fe02 280100000a 16 0a 2b08 02 06 16 9e 06 17 58 0a 06 02 8e 69 32f2"
              "04 16 1b 9e 02 03 94 16 fe01 280500000a 2a")],
    "sum": [("Sum", INT, [INT], [], "02 16 fe04 16 fe01 280100000a 02 2d02 16 2a 02 02 17 59 2801000006 58 2a")],
    "calls": [("Callee", INT, [INT], [], "02 16 fe04 16 fe01 280100000a 02 2a"),
              ("Caller", INT, [], [], "19 2801000006 2a")],
    "small": [("Small", INT, [INT], [], "02 1f0a 5d 2a"), ("Use", INT, [], [], "19 2801000006 1f64 d6 2a")],
    "next": [("Next", INT, [INT], [], "02 17 d6 2a")],
}


def aligned(data, unit=4):
    return data + b"\0" * (-len(data) % unit)


class Heap:
    """Items of a heap, each of which stands once."""

    def __init__(self, spell):
        self.data, self.spell, self.places = b"\0", spell, {}

    def put(self, item):
        if item not in self.places:
            self.places[item] = len(self.data)
            self.data += self.spell(item)
        return self.places[item]


def rows_of(methods, rvas, texts, blobs):
    """The rows of each table, whose indexes have two bytes."""
    text, blob = (lambda name: texts.put(name.encode())), blobs.put
    local = [it[3] for it in methods if it[3]]
    contract = [("Requires", 1), ("Requires", 2), ("Ensures", 1), ("Ensures", 2), ("Assert", 1), ("Assert", 2),
                ("Assume", 1), ("Assume", 2), ("EndContractBlock", 0)]
    signatures = {0: b"\0\0\1", 1: b"\0\1\1\2", 2: b"\0\2\1\2\x0e"}
    members = [(name, signatures[count]) for name, count in contract]
    members += [("Result", b"\x10\1\0\x1e\0"), ("OldValue", b"\x10\1\1\x1e\0\x1e\0")]
    names = [("System", "Object"), ("System", "Int32"), ("System", "Boolean"),
             ("System.Diagnostics.Contracts", "Contract")]
    return {
        0x00: [struct.pack("<5H", 0, text("Demo.dll"), 1, 0, 0)],
        0x01: [struct.pack("<3H", 6, text(name), text(space)) for space, name in names],
        0x02: [struct.pack("<I5H", 0, text("<Module>"), 0, 0, 1, 1),
               struct.pack("<I5H", 1, text("Calc"), text("Demo"), 5, 1, 1)],
        0x06: [struct.pack("<I5H", rva, 0, 0x16, text(name),
                           blob(b"\0" + bytes([len(its)]) + result + b"".join(its)), 1)
               for rva, (name, result, its, _, _) in zip(rvas, methods)],
        0x0A: [struct.pack("<3H", 4 << 3 | 1, text(name), blob(signature)) for name, signature in members],
        0x11: [struct.pack("<H", blob(b"\7" + bytes([len(it)]) + b"".join(it))) for it in local],
        0x20: [struct.pack("<I4HIHHH", 0x8004, 0, 0, 0, 0, 0, 0, text("Demo"), 0)],
        0x23: [struct.pack("<4HI4H", 4, 0, 0, 0, 0, 0, text("mscorlib"), 0, 0)],
        0x2B: [struct.pack("<2H", member << 1 | 1, blob(b"\x0a\1" + it))
               for member in (10, 11) for it in (BOOL, INT, BOOLS, INTS)],
    }


def bodies_of(methods):
    """The bodies, and where each begins; a local's signature is the row of its place among those that have one."""
    data, rvas, row = b"", [], 0
    for _, _, _, its, code in methods:
        row += bool(its)
        text = bytes.fromhex(code.replace(" ", ""))
        rvas.append(0x2048 + len(data))
        data = aligned(data + struct.pack("<HHII", 0x3013, 8, len(text), 0x11000000 + row if its else 0) + text)
    return data, rvas


def metadata_of(rows, texts, blobs):
    rows = {table: its for table, its in rows.items() if its}
    tables = struct.pack("<IBBBBQQ", 0, 2, 0, 0, 1, sum(1 << table for table in rows), 0)
    tables += b"".join(struct.pack("<I", len(rows[table])) for table in sorted(rows))
    tables += b"".join(b"".join(rows[table]) for table in sorted(rows))
    streams = [(b"#~", tables), (b"#Strings", texts.data), (b"#US", b"\0\x03m\0\0"), (b"#GUID", b"\0" * 16),
               (b"#Blob", blobs.data)]
    root = struct.pack("<IHHII12sHH", 0x424A5342, 1, 1, 0, 12, b"v4.0.30319", 0, len(streams))
    at = len(root) + sum(8 + len(aligned(name + b"\0")) for name, _ in streams)
    for name, data in streams:
        root += struct.pack("<II", at, len(aligned(data))) + aligned(name + b"\0")
        at += len(aligned(data))
    return root + b"".join(aligned(data) for _, data in streams)


def assembly(methods):
    """A PE32 file of class Demo.Calc with these methods."""
    texts, blobs = Heap(lambda item: item + b"\0"), Heap(lambda item: bytes([len(item)]) + item)
    bodies, rvas = bodies_of(methods)
    metadata = metadata_of(rows_of(methods, rvas, texts, blobs), texts, blobs)
    text = struct.pack("<IHHII", 72, 2, 5, 0x2048 + len(bodies), len(metadata)) + b"\0" * 56 + bodies + metadata
    text = aligned(text, 0x200)
    head = b"MZ" + b"\0" * 58 + struct.pack("<I", 0x80) + b"\0" * 64 + b"PE\0\0"
    head += struct.pack("<HHIIIHH", 0x14C, 1, 0, 0, 0, 224, 0)
    head += struct.pack("<H", 0x10B) + b"\0" * 206 + struct.pack("<II", 0x2000, 72) + b"\0" * 8
    head += struct.pack("<8sIIII", b".text", len(text), 0x2000, len(text), 0x200) + b"\0" * 16
    return head.ljust(0x200, b"\0") + text
