"""Symbols of Windows for an assembly of C#, by LLVM's writer of such files."""
import struct
import subprocess
import uuid

# A method's record, and the kind of it that C# has, which LLVM's own list does not spell out.
METHOD = struct.Struct("<8IHBH")
METHOD_KIND = "S_GMANPROC"
CODE_SIZE = 256

FILE = """\
---
PdbStream:
  Age: 1
  Guid: '{{{guid}}}'
  Signature: 1
  Version: VC70
StringTable: ['{source}']
DbiStream:
  VerHeader: V70
  Age: 1
  BuildNumber: 1
  PdbDllVersion: 1
  PdbDllRbld: 1
  Flags: 1
  MachineType: x86
  Modules:
    - Module: 'Lines.dll'
      ObjFile: 'Lines.dll'
      Modi:
        Signature: 4
        Records:
{records}      Subsections:
        - !FileChecksums
          Checksums: [{{FileName: '{source}', Kind: None, Checksum: ''}}]
{lines}...
"""
LINES = """\
        - !Lines
          CodeSize: {size}
          Flags: [HasColumnInfo]
          RelocOffset: {offset}
          RelocSegment: 1
          Blocks:
            - FileName: '{source}'
              Lines: [{lines}]
              Columns: [{columns}]
"""


def records_of(tokens):
    """A record for each method, and one that ends it, to which the first one points."""
    at, text = 4, ""
    for number, token in enumerate(tokens):
        name = f"M{number}".encode() + b"\0"
        size = METHOD.size + len(name)
        size += -size % 4
        end = at + 4 + size
        fields = METHOD.pack(0, end, 0, CODE_SIZE, 0, 0, int(token, 16), number * CODE_SIZE, 1, 0, 0)
        data = (fields + name).ljust(size, b"\0").hex()
        text += f"          - {{Kind: {METHOD_KIND}, UnknownSym: {{Data: {data}}}}}\n"
        text += "          - {Kind: S_END, ScopeEndSym: {}}\n"
        at = end + 4
    return text


def lines_of(token, number, rows, source):
    own = [row for row in rows if row[0] == token]
    lines = ", ".join(f"{{Offset: {int(row[1], 16)}, LineStart: {row[2]}, IsStatement: true, EndDelta: 0}}"
                      for row in own)
    columns = ", ".join(f"{{StartColumn: {row[3]}, EndColumn: {int(row[3]) + 1}}}" for row in own)
    return LINES.format(size=CODE_SIZE, offset=number * CODE_SIZE, source=source, lines=lines, columns=columns)


def make_windows_symbols(target, guid, rows):
    """Writes symbols with the points of these rows, which the assembly of this number takes for its own."""
    tokens, source = sorted({row[0] for row in rows}), rows[0][6]
    text = FILE.format(guid=str(uuid.UUID(bytes_le=guid)).upper(), source=source, records=records_of(tokens),
                       lines="".join(lines_of(token, number, rows, source) for number, token in enumerate(tokens)))
    with open(target + ".yaml", "w", encoding="ascii") as file:
        file.write(text)
    subprocess.run(["llvm-pdbutil", "yaml2pdb", f"-pdb={target}", target + ".yaml"], check=True)
