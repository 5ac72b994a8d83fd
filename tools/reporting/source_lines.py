"""The line of source of an instruction, from the debugging symbols beside an assembly.

tools/source_lines.cs reads the symbols. It is compiled on first use, into the folder cccheck of the user's cache.
"""
import bisect
import collections
import dataclasses
import glob
import hashlib
import os
import shutil
import subprocess
import tempfile
import threading

from reporting.paths import TOP

READER = os.path.join(TOP, "tools/source_lines.cs")
# With what symbols within an assembly begin, those of Windows, and the entry that names the symbols of an assembly.
EMBEDDED, WINDOWS, CODE_VIEW = b"MPDB", b"Microsoft C/C++ MSF 7.00", b"RSDS"
# Held while the reader is compiled, which the first of several threads does.
COMPILING = threading.Lock()
NEEDED = "mono-mcs libmono-cecil-private-cil libmono-compilerservices-symbolwriter4.0-cil"


class NoLines(Exception):
    """There are symbols, and the reason in the message keeps them from being read."""


@dataclasses.dataclass(frozen=True)
class Place:
    """Lines and columns are counted from 1; a column or a last line of 0 is not known."""
    file: str
    line: int
    column: int = 0
    last_line: int = 0
    last_column: int = 0

    def __str__(self):
        return f"{self.file}({self.line},{self.column})" if self.column else f"{self.file}({self.line})"


class SourceLines:
    """The sequence points of an assembly: for each token the offsets, in order, and their places."""

    def __init__(self, printed=""):
        points = collections.defaultdict(list)
        for line in printed.splitlines():
            token, offset, *numbers, file = line.split("\t")
            points[token].append((int(offset, 16), Place(shown_path(file), *map(int, numbers))))
        # Of several points of one offset the last has the code; the sort keeps their order.
        self.points = {token: sorted(points[token], key=lambda it: it[0]) for token in points}

    def of_method(self, token):
        """The places of a method, by rising offset."""
        return [place for _, place in self.points.get(token, [])]

    def at(self, token, offset):
        """The place of the greatest offset not above this one; without an offset, the method's first place."""
        points = self.points.get(token, [])
        if offset is None:
            return points[0][1] if points else None
        after = bisect.bisect_right(points, offset, key=lambda it: it[0])
        return points[after - 1][1] if after else None


def shown_path(file):
    """The path from the current folder where the file lies below it, else as the symbols have it."""
    inside = os.path.relpath(file) if os.path.isabs(file) else file
    return file if inside.split(os.sep)[0] == os.pardir else inside


def is_of_windows(symbols):
    with open(symbols, "rb") as file:
        return file.read(len(WINDOWS)) == WINDOWS


def symbols_of(path):
    """Where the symbols of an assembly stand, if it has any; those of Windows only where there are no others."""
    beside = [it for it in (os.path.splitext(path)[0] + ".pdb", path + ".mdb") if os.path.isfile(it)]
    if beside:
        return min(beside, key=is_of_windows)
    with open(path, "rb") as file:
        return path if EMBEDDED in file.read() else None


def converted(path, symbols, folder):
    """A copy of the assembly beside the .mdb that Mono's pdb2mdb makes of symbols of Windows."""
    if not shutil.which("pdb2mdb"):
        raise NoLines(f"no lines of source: {symbols} has the form of Windows: that needs Debian's package mono-devel")
    with open(path, "rb") as assembly, open(symbols, "rb") as file:
        data = assembly.read()
        at = data.find(CODE_VIEW) + len(CODE_VIEW)
        # pdb2mdb does not look at the number by which the two know each other.
        if data[at:at + 16] not in file.read():
            raise NoLines(f"no lines of source: {symbols} is of another compilation")
    copy = shutil.copy(path, folder)
    shutil.copy(symbols, folder)
    subprocess.run(["pdb2mdb", copy], capture_output=True, check=False, stdin=subprocess.DEVNULL)
    if not os.path.isfile(copy + ".mdb"):
        raise NoLines(f"no lines of source: pdb2mdb does not read {symbols}")
    return copy


def lines_of(path):
    """The source lines of an assembly; none where it has no symbols. Raises NoLines where they do not read."""
    symbols = symbols_of(path) if os.path.isfile(path) else None
    if not symbols:
        return SourceLines()
    with COMPILING:
        reader = compiled_reader()
    with tempfile.TemporaryDirectory() as folder:
        read = converted(path, symbols, folder) if is_of_windows(symbols) else path
        ran = subprocess.run(["mono", reader, read], capture_output=True, check=False, stdin=subprocess.DEVNULL)
    if ran.returncode:
        raise NoLines(f"no lines of source: {symbols}: {ran.stderr.decode('utf-8', 'replace').strip()}")
    return SourceLines(ran.stdout.decode("utf-8"))


def libraries():
    """Cecil, of which several releases may be installed, and SymbolWriter."""
    compiler = shutil.which("mcs")
    if not compiler or not shutil.which("mono"):
        return []
    folder = os.path.join(os.path.dirname(os.path.dirname(os.path.realpath(compiler))), "lib/mono/gac")
    found = [glob.glob(f"{folder}/{name}/{release}*/{name}.dll")
             for name, release in (("Mono.Cecil", "0.11."), ("Mono.CompilerServices.SymbolWriter", "4."))]
    return [max(files) for files in found] if all(found) else []


def compiled_reader():
    """The compiled reader. Its name has the sum of what it was made of, so a changed source is compiled anew."""
    used = libraries()
    if not used:
        raise NoLines(f"no lines of source: reading symbols needs Debian's packages {NEEDED}")
    with open(READER, "rb") as file:
        made_of = hashlib.sha256(file.read() + "\n".join(used).encode()).hexdigest()[:16]
    folder = os.path.join(os.environ.get("XDG_CACHE_HOME") or os.path.expanduser("~/.cache"), "cccheck")
    program = os.path.join(folder, f"source_lines-{made_of}.exe")
    if not os.path.isfile(program):
        os.makedirs(folder, exist_ok=True)
        with tempfile.TemporaryDirectory(dir=folder) as work:
            made = os.path.join(work, "source_lines.exe")
            words = ["mcs", f"-out:{made}", *(f"-r:{library}" for library in used), READER]
            ran = subprocess.run(words, capture_output=True, text=True, check=False)
            if ran.returncode:
                raise NoLines(f"no lines of source: {READER} does not compile: {ran.stderr.strip()}")
            os.replace(made, program)
    return program
