"""The five calls of libjoyce, from Python by ctypes. One file: copy it, or put its folder into PYTHONPATH.

    import joyce
    run = joyce.Run(table)                  # bytes; joyce.Refused where begin refuses. Variables begin unset; number=1: as zeros
    answers = run.run([1, 1, 2])            # one step each
    run.look(1, 0)                          # process 1, variable 0, place 0
    run.put(-8192, 5); run.get(-2)          # device words
    joyce.split(b"x := 1")                  # the symbols of a text; joyce.Refused where the call refuses

The calls themselves are check, begin, run, look and symbols below; they return the numbers of joyce.h. pack makes a table of lists of entries, and
unpack lists of a table; reserve says how many words a module reserves for calls. The enums have the names and numbers of joyce.h.

The archive is linked into a shared object _joyce.so the first time, by $CC or gcc, beside it or, where that cannot be written, in a folder of its own
that goes when Python ends. $JOYCE_LIBRARY names the archive or a shared object; else it is target/staticlib/libjoyce.a of the repository, or
lib/libjoyce.a of the prefix that this file was installed below, in share/joyce. Linux on x86-64 only, as the archive."""
import atexit
import collections
import ctypes
import enum
import os
import pathlib
import shutil
import struct
import subprocess
import tempfile

STATE_SIZE, PAGE_SIZE, TABLE_MAX = 37376, 8192, 7913
TEXT_MAX, SYMBOL_SIZE = 65535, 7
ADDRESS_MIN, ADDRESS_MAX = -8192, -2
AREA_WORDS, CALL_WORDS, SPACE_MAX = 256, 4, 510
WORD, SYMBOLS, FAILURE = 65536, 65536, 16

Standard = enum.IntEnum("Standard", "INTEGER BOOLEAN CHARACTER DECLARED", start=0)
Type = enum.IntEnum("Type", "RECORD ARRAY PROCESS", start=1)
Mode = enum.IntEnum("Mode", "LOCAL VALUE VAR", start=0)
Block = enum.IntEnum("Block", "PROGRAM MODULE PROCEDURE", start=0)
Node = enum.IntEnum("Node", "CONSTANT WHOLE FIELD ELEMENT VALUE UNARY BINARY TRANSFER STRING", start=0)
Unary = enum.IntEnum("Unary", "MINUS NOT VAL", start=1)
Binary = enum.IntEnum("Binary", "EQUAL UNEQUAL LESS AT_MOST GREATER AT_LEAST ADD SUBTRACT MULTIPLY DIVIDE MOD AND OR", start=1)
Statement = enum.IntEnum(
    "Statement", "SKIP ASSIGN CALL PROCESS_CALL CREATE START IF WHILE WHEN CYCLE ARM END WRITE BLOCK_END", start=0)
Start = enum.IntEnum("Start", "UNSET ZEROS", start=0)
Symbol = enum.IntEnum("Symbol", "SPECIAL WORD NAME NUMERAL CHARACTER STRING", start=1)
Result = enum.IntEnum("Result", {
    "OK": 0, "LENGTH": 1, "SECTIONS": 2, "KINDS": 3, "NUMBERS": 4, "USES": 5, "NESTING": 6, "SIZES": 7, "SCOPES": 8, "TYPES": 9, "STATE": 10,
    "ABSENT": 11, "NO_SYMBOL": 25, "UNSET_WORD": 32})
Answer = enum.IntEnum("Answer", {
    "DONE": 0, "WAITS": 1, "ENDED": 2, "NO_PROCESS": 3, "OVERFLOW": 16, "DIVISOR": 17, "INDEX": 18, "EMPTY": 19, "TWICE": 20,
    "ADDRESS": 21, "AREA": 22, "TRANSFER": 23, "PROCESSES": 24, "UNSET": 31})

# The sections of a table in order, each with the layout of an entry. The last may be left out.
SECTIONS = {"types": "<BBBHH", "fields": "<B", "variables": "<BB", "blocks": "<BBBBBBH", "arguments": "<B", "nodes": "<BBBH",
            "statements": "<BBBBBB", "characters": "<B"}


class Refused(Exception):
    """A call was refused; its number is .number."""

    def __init__(self, number):
        super().__init__(f"refused with {number}: {Result(number).name.lower()}")
        self.number = number


# ---- tables

def pack(**sections):
    """The table with these sections: lists of entries, each a number or a tuple of its first fields; the fields after them are 0. The
    characters of string constants may be a str or bytes; where they are not named the table ends after the statements."""
    unknown = set(sections) - set(SECTIONS)
    if unknown:
        raise TypeError(f"no section: {', '.join(sorted(unknown))}")
    table = bytearray()
    for name, layout in SECTIONS.items():
        entries = sections.get(name, [])
        if name == "characters" and name not in sections:
            break
        entries = list(entries.encode("ascii") if isinstance(entries, str) else entries)
        table.append(len(entries))
        for entry in entries:
            fields = list(entry) if isinstance(entry, (list, tuple)) else [entry]
            if len(fields) > len(layout) - 1:
                raise ValueError(f"an entry of {name} has {len(layout) - 1} fields: {entry}")
            fields += [0] * (len(layout) - 1 - len(fields))
            table += struct.pack(layout, *(f & 0xFFFF if size == "H" else f for f, size in zip(fields, layout[1:])))
    return bytes(table)


def unpack(table):
    """The sections of a table as lists of tuples, words as 0..65,535, the characters only where the table has them; ValueError where they end
    early or bytes are left over."""
    if len(table) == 0:     # an empty cartridge slot: block 0 skips and ends
        return {**{name: [] for name in SECTIONS if name != "characters"}, "blocks": [(0,) * 7], "statements": [(0,) * 6, (13,) + (0,) * 5]}
    sections, at = {}, 0
    for name, layout in SECTIONS.items():
        if name == "characters" and at == len(table):
            break
        size = struct.calcsize(layout)
        count = table[at] if at < len(table) else 0
        end = at + 1 + count * size
        if end > len(table):
            raise ValueError(f"the table ends in its {name}")
        sections[name] = [struct.unpack_from(layout, table, i) for i in range(at + 1, end, size)]
        at = end
    if at != len(table):
        raise ValueError(f"{len(table) - at} bytes are left over")
    return sections


def integer(word):
    """The integer that a word stands for."""
    word &= 0xFFFF
    return word - 0x10000 if word & 0x8000 else word


def _type_words(sections):
    """The words of each type, by its number."""
    words = [1] * Standard.DECLARED
    for kind, p, q, low, high in sections["types"]:
        if kind == Type.RECORD:
            words.append(sum(words[part] for part, in sections["fields"][p:p + q]))
        else:
            words.append((integer(high) - integer(low) + 1) * words[q] if kind == Type.ARRAY else 1)
    return words


def reserve(table, module=0):
    """The words that a module of an accepted table, or its program, block 0, reserves for calls of its own procedures: one call of each, and half its
    space. While a process works on its own variables, a local call answers Answer.AREA where its calls would take more words than that, or with its
    module's variables more than AREA_WORDS; other calls count against AREA_WORDS alone."""
    sections = unpack(table)
    types, words = _type_words(sections), sections["blocks"][module][6] // 2
    for kind, owner, first, _, variables, _, _ in sections["blocks"]:
        if kind == Block.PROCEDURE and owner == module:
            words += CALL_WORDS + sum(1 if mode == Mode.VAR else types[of] for mode, of in sections["variables"][first:first + variables])
    return words


# ---- the library

def _archive():
    if "JOYCE_LIBRARY" in os.environ:
        return pathlib.Path(os.environ["JOYCE_LIBRARY"])
    above = pathlib.Path(__file__).resolve().parent.parent
    places = [above / "target/staticlib/libjoyce.a", above / "lib/libjoyce.a", above.parent / "lib/libjoyce.a"]
    for place in places:
        if place.exists():
            return place
    raise OSError(f"no libjoyce.a: {', '.join(map(str, places))} are not there. Run make, or set JOYCE_LIBRARY")


def _link(archive, shared):
    """Makes a shared object of the archive. It appears at once, so others may load it meanwhile."""
    new = shared.with_name(f".{shared.name}.{os.getpid()}")
    words = [*os.environ.get("CC", "gcc").split(), "-shared", "-Wl,--whole-archive", str(archive), "-Wl,--no-whole-archive", "-o", str(new)]
    made = subprocess.run(words, capture_output=True, text=True, check=False)
    if made.returncode:
        raise OSError(f"{' '.join(words)}: {made.stderr.strip()}")
    os.replace(new, shared)


def _load():
    archive = _archive()
    if archive.suffix != ".a":
        return ctypes.CDLL(str(archive))
    shared = archive.with_name("_joyce.so")     # not libjoyce.so, which -ljoyce would take before the archive
    if not shared.exists() or shared.stat().st_mtime < archive.stat().st_mtime:
        if not os.access(archive.parent, os.W_OK):
            folder = tempfile.mkdtemp(prefix="joyce.")
            atexit.register(shutil.rmtree, folder, ignore_errors=True)
            shared = pathlib.Path(folder, shared.name)
        _link(archive, shared)
    return ctypes.CDLL(str(shared))


_library = _load()
_slice = [ctypes.c_void_p, ctypes.c_size_t]
for _name, _slices, _numbers in [("check", 1, 0), ("begin", 2, 1), ("run", 5, 0), ("look", 2, 3), ("symbols", 2, 0)]:
    _function = getattr(_library, f"joyce_{_name}")
    _function.argtypes = _slice * _slices + [ctypes.c_uint32] * _numbers
    _function.restype = ctypes.c_uint32


def _lend(*slices):
    """Pointer and length of each; what is no bytearray is copied, so the call cannot change it."""
    words = []
    for data in slices:
        held = data if isinstance(data, bytearray) else bytearray(data)
        words += [(ctypes.c_char * len(held)).from_buffer(held) if held else None, len(held)]
    return words


def check(table):
    """The verdict on a table, 0 or 2..9."""
    return _library.joyce_check(*_lend(table))


def begin(table, state, number):
    """Fills the bytearray state; 0, or a refusal. The number is one of Start."""
    return _library.joyce_begin(*_lend(table, state), number)


def run(table, state, page, schedule, answers):
    """Steps. State, page and answers are bytearrays; 0, or a refusal."""
    return _library.joyce_run(*_lend(table, state, page, schedule, answers))


def look(table, state, process, variable, place):
    """65,536 plus a word, or a refusal."""
    return _library.joyce_look(*_lend(table, state), process, variable, place)


def symbols(text, out):
    """Writes seven bytes for each symbol into the bytearray out; 65,536 plus their number, or a refusal."""
    return _library.joyce_symbols(*_lend(text, out))


# A symbol of a text: its kind, its line from 1, the place of its first byte from 0, and its bytes.
Piece = collections.namedtuple("Piece", "kind line place bytes")


def split(text):
    """The symbols of a text of bytes, as a list of pieces."""
    text = bytes(text)
    out = bytearray(SYMBOL_SIZE * len(text))
    found = symbols(text, out)
    if found < SYMBOLS:
        raise Refused(found)
    whole = struct.iter_unpack("<BHHH", out[:SYMBOL_SIZE * (found - SYMBOLS)])
    return [Piece(Symbol(kind), line, place, text[place:place + length]) for kind, line, place, length in whole]


class Run:
    """A run of a program: its table, state and page. Copy it to go on from there twice. The number, one of Start, says how variables begin; a
    state that is given has its own."""

    def __init__(self, table, state=None, page=None, number=Start.UNSET):
        self.table, self.page = bytes(table), bytearray(PAGE_SIZE if page is None else page)
        self.state = bytearray(STATE_SIZE if state is None else state)
        refused = begin(self.table, self.state, number) if state is None else run(self.table, self.state, self.page, b"", bytearray())
        if refused:
            raise Refused(refused)

    def run(self, schedule):
        """One step for each process number; their answers as bytes."""
        schedule = bytes(schedule)
        answers = bytearray(len(schedule))
        refused = run(self.table, self.state, self.page, schedule, answers)
        if refused:
            raise Refused(refused)
        return bytes(answers)

    def look(self, process, variable, place=0):
        """The word, as an integer; Refused with Result.UNSET_WORD where it has no value."""
        word = look(self.table, self.state, process, variable, place)
        if word < WORD:
            raise Refused(word)
        return integer(word)

    def get(self, address):
        """The device word with an even address, -8192..-2."""
        at = self._place(address)
        return integer(self.page[at] + 256 * self.page[at + 1])

    def put(self, address, value):
        """Makes it value."""
        at = self._place(address)
        self.page[at:at + 2] = struct.pack("<H", value & 0xFFFF)

    def copy(self):
        return Run(self.table, self.state, self.page)

    @staticmethod
    def _place(address):
        if address % 2 or not ADDRESS_MIN <= address <= ADDRESS_MAX:
            raise ValueError(f"{address} is no device address: even, {ADDRESS_MIN}..{ADDRESS_MAX}")
        return address - ADDRESS_MIN
