"""python/joyce.py: a line 'ok NAME' or 'FAIL NAME: why' a test."""
import base64
import hashlib
import os
import pathlib
import re
import shutil
import struct
import subprocess
import sys
import traceback
import zlib

sys.path.insert(0, "python")
import joyce  # noqa: E402

failures = 0
tests = []


def test(function):
    tests.append(function)
    return function


def refused(function, *words):
    try:
        function(*words)
    except joyce.Refused as error:
        return error.number
    return 0


SMALLEST = joyce.pack(blocks=[0], statements=[joyce.Statement.SKIP, joyce.Statement.BLOCK_END])


@test
def numbers():
    """The enums and sizes are those of joyce.h."""
    header = pathlib.Path("include/joyce.h").read_text(encoding="utf-8")
    compared = 0
    for name, kind in [("standard", joyce.Standard), ("type", joyce.Type), ("mode", joyce.Mode), ("block", joyce.Block), ("node", joyce.Node),
                       ("unary", joyce.Unary), ("binary", joyce.Binary), ("statement", joyce.Statement), ("symbol", joyce.Symbol),
                       ("start", joyce.Start), ("result", joyce.Result), ("answer", joyce.Answer)]:
        body = re.search(rf"enum joyce_{name} {{(.*?)}};", header, re.S)[1]
        listed = {n: int(v) for n, v in re.findall(rf"JOYCE_(?:{name.upper()}_)?(\w+) = (\d+)", body)}
        for other in ["ACCEPTED", "WORD", "SYMBOLS"] if name == "result" else []:
            listed.pop(other)
        assert listed == {m.name: m.value for m in kind}, name
        compared += len(listed)
    for name in ["STATE_SIZE", "PAGE_SIZE", "TABLE_MAX", "TEXT_MAX", "SYMBOL_SIZE", "FAILURE", "AREA_WORDS", "CALL_WORDS", "SPACE_MAX"]:
        assert int(re.search(rf"#define JOYCE_{name} (\d+)", header)[1]) == getattr(joyce, name), name
    assert compared > 60


@test
def pages_table():
    """The table of the scope document, and its run."""
    assert SMALLEST == bytes([0, 0, 0, 1] + [0] * 8 + [0, 0, 2] + [0] * 6 + [13] + [0] * 5)
    assert joyce.check(SMALLEST) == joyce.Result.OK
    assert list(joyce.Run(SMALLEST).run([1, 1, 1, 2])) == [0, 2, 2, 3]


@test
def tables_both_ways():
    """A table is what its sections make."""
    for path in sorted(pathlib.Path("bench").glob("**/*.tab")) + [pathlib.Path("examples/board.tab")]:
        table = path.read_bytes()
        assert joyce.pack(**joyce.unpack(table)) == table, path
        assert joyce.check(table) == 0, path
    assert joyce.unpack(b"") == joyce.unpack(SMALLEST) and joyce.check(b"") == 0    # an empty cartridge slot
    assert joyce.pack(**joyce.unpack(SMALLEST + b"\0")) == SMALLEST + b"\0" and joyce.check(SMALLEST + b"\0") == 0    # an eighth count of 0
    for table in [SMALLEST[:1], SMALLEST[:-1], SMALLEST + b"\1", SMALLEST + b"\0\0"]:
        try:
            joyce.unpack(table)
        except ValueError:
            assert joyce.check(table) == joyce.Result.SECTIONS
        else:
            raise AssertionError(table.hex())


@test
def title_strings():
    """A string constant is cut to the parameter that it is passed to, whose words are written to the device page. It may be of str, bytes or
    numbers."""
    line = (joyce.Type.ARRAY, joyce.Standard.INTEGER, joyce.Standard.CHARACTER, 1, 4)
    nodes = [(joyce.Node.STRING, 0, 5)]
    for i in range(4):
        at = len(nodes)
        nodes += [(0, 0, 0, 2 * i - 8), joyce.Node.WHOLE, (0, 0, 0, i + 1), (joyce.Node.ELEMENT, at + 1, at + 2), (joyce.Node.VALUE, at + 3),
                  (joyce.Node.TRANSFER, at + 4, joyce.Standard.INTEGER)]
    sections = {
        "types": [line], "variables": [(joyce.Mode.VALUE, joyce.Standard.DECLARED)],
        "blocks": [0, (joyce.Block.PROCEDURE, 0, 0, 1, 1, 2)], "arguments": [0], "nodes": nodes,
        "statements": [(joyce.Statement.CALL, 1, 0, 0, 1), joyce.Statement.BLOCK_END]
        + [(joyce.Statement.WRITE, 6 * i + 1, 6 * i + 6) for i in range(4)] + [(joyce.Statement.BLOCK_END, 1)]}
    table = joyce.pack(**sections, characters="Joyce")
    assert table == joyce.pack(**sections, characters=b"Joyce") == joyce.pack(**sections, characters=list(b"Joyce"))
    assert joyce.pack(**joyce.unpack(table)) == table and joyce.check(joyce.pack(**sections)) == joyce.Result.NUMBERS
    run = joyce.Run(table)
    assert list(run.run([1] * 7)) == [0] * 6 + [2]
    assert bytes(run.get(address) for address in range(-8, 0, 2)) == b"Joyc"


def recursive(space, depth):
    """begin down(depth) end, where down(n) calls itself with n - 1 while n > 1: as many calls deep, of CALL_WORDS + 1 words each. Another procedure,
    which is never called, has a var parameter and a local record of three words."""
    return joyce.pack(
        types=[(joyce.Type.RECORD, 0, 3)], fields=[0, 0, 0], variables=[joyce.Mode.VALUE, (joyce.Mode.VAR, joyce.Standard.DECLARED),
                                                                        (joyce.Mode.LOCAL, joyce.Standard.DECLARED)],
        blocks=[(0, 0, 0, 0, 0, 0, space), (joyce.Block.PROCEDURE, 0, 0, 1, 1, 2), (joyce.Block.PROCEDURE, 0, 1, 1, 2, 7)], arguments=[0, 8],
        nodes=[(0, 0, 0, depth), joyce.Node.WHOLE, (joyce.Node.VALUE, 1), (0, 0, 0, 1), (joyce.Node.BINARY, 2, 3, joyce.Binary.GREATER),
               joyce.Node.WHOLE, (joyce.Node.VALUE, 5), (0, 0, 0, 1), (joyce.Node.BINARY, 6, 7, joyce.Binary.SUBTRACT)],
        statements=[(joyce.Statement.CALL, 1, 0, 0, 1), joyce.Statement.BLOCK_END, joyce.Statement.IF, (joyce.Statement.ARM, 4, 0, 0, 0, 5),
                    (joyce.Statement.CALL, 1, 0, 1, 1), (joyce.Statement.END, 0, 0, 0, 0, 2), (joyce.Statement.BLOCK_END, 1), 0,
                    (joyce.Statement.BLOCK_END, 2)])


@test
def spaces():
    """A procedure is as deep as the reserve has room for it, and the area."""
    for space in [0, 2, 4, 14, 30, 32, 40, 200, joyce.SPACE_MAX]:
        words = joyce.reserve(recursive(space, 1))
        assert words == 5 + 8 + space // 2
        deepest = min(words, joyce.AREA_WORDS) // 5
        for depth in [1, deepest, deepest + 1]:
            answers = joyce.Run(recursive(space, depth)).run([1] * 400)
            assert (answers[-1] == joyce.Answer.ENDED) == (depth <= deepest), (space, depth)
            assert depth <= deepest or answers.index(joyce.Answer.AREA) == 2 * deepest
    assert joyce.reserve(b"") == 0 and joyce.reserve(pathlib.Path("examples/board.tab").read_bytes(), 3) == 6
    assert joyce.check(recursive(512, 1)) == joyce.check(recursive(3, 1)) == joyce.Result.NUMBERS


class Log:
    """The records of a step log, as tests/logs has them."""

    def __init__(self, path):
        self.bytes, self.at = pathlib.Path(path).read_bytes(), 0

    def take(self, layout):
        values = struct.unpack_from("<" + layout, self.bytes, self.at)
        self.at += struct.calcsize("<" + layout)
        return values

    def word(self):
        return self.take("H")[0]

    def raw(self):
        length = self.word()
        self.at += length
        return self.bytes[self.at - length:self.at]

    def pairs(self):
        return [self.take("HH") for _ in range(self.word())]


def replay(log):
    """One run of a log; its steps."""
    run, steps = joyce.Run(log.raw(), number=log.take("B")[0]), 0
    for _ in range(log.word()):
        for place, value in log.pairs():
            run.put(place - joyce.PAGE_SIZE, value)
        page, schedule = bytearray(run.page), log.raw()
        answers = log.take(f"{len(schedule)}s")[0]
        assert run.run(schedule) == answers
        for place, value in log.pairs():
            page[place:place + 2] = struct.pack("<H", value)
        assert run.page == page
        steps += len(schedule)
    for _ in range(log.word()):
        *place, result = log.take("IIII")
        assert joyce.look(run.table, run.state, *place) == result
    return steps


@test
def outside_logs():
    """The step logs of an independent interpreter."""
    log, runs, steps = Log("tests/logs/space.bin"), 0, 0
    while log.at < len(log.bytes):
        steps += replay(log)
        runs += 1
    assert runs > 1000 and steps > 30000, (runs, steps)


@test
def cut_anywhere():
    """One call and single steps leave the same; a copy goes on by itself."""
    table, schedule = pathlib.Path("bench/boards/calls.tab").read_bytes(), pathlib.Path("bench/boards/calls.sch").read_bytes()[:600]
    once, single = joyce.Run(table, number=1), joyce.Run(table, number=1)
    answers = once.run(schedule)
    assert b"".join(single.run([p]) for p in schedule) == answers
    assert single.state == once.state and single.page == once.page
    copy = once.copy()
    copy.run(schedule)
    assert single.state == once.state != copy.state


# The state of bench/boards/calls after 600 steps, as 1.0.0 left it, and what 600 more steps leave in version 2: answers, state and page. A release
# that cannot read the state that 2.0.0 makes of it needs another JOYCE_VERSION_MAJOR.
STORED = (
    "eNrt3cFqhDAUBdBnNEZbcFEGZtH//8/GaLsojHZZyDkiIjwykquJ4yYpxpgixxwllljrTl9yvQPoVYrhzP/RRoIxUtIrPeX/Hfd2pB/JcNBV/mOd"
    "+1PLf58J6h0w6ZWe8hd33/nn+tZf2vNf6tOfI816paf855/5fznmgqJXesq/nP/5tzoOjPUs+QQAAAAAAAAAAAAAAAAAAAAAAAAAAAAAAAAAAAAA"
    "v+yLPa9tH9r5+rJuiPd2vF4xdl9PeqvHqa0lfF33WaveWnvDZd1Hay/X7S+/O8d8U3e0V6Lc1D3P61turu/R2ltf9h0AwH/yBWbDArY=")
AFTER = "c6d9184a4d3914837ae7c113f5e4e63f3da9159ceff273995ece2a8bfa4929ae"


def carried_over(state):
    """A state of version 1 as one of version 2, by docs/ADOPT.md: it began with zeros, and all its words are marked."""
    return state[:32788] + b"\1\0" + state[32790:] + b"\xff" * 2048


@test
def stored_state():
    """A state that was stored by another release with the same major number is read, and goes on; one of version 1 is refused, and can be carried
    over: it is then the state that version 2 reaches."""
    table, schedule = pathlib.Path("bench/boards/calls.tab").read_bytes(), pathlib.Path("bench/boards/calls.sch").read_bytes()
    old = zlib.decompress(base64.b64decode(STORED))
    assert len(old) == 35328 and refused(joyce.Run, table, old) == joyce.Result.LENGTH
    reached = joyce.Run(table, number=joyce.Start.ZEROS)
    reached.run(schedule[:600])
    assert reached.state == carried_over(old)
    run = joyce.Run(table, carried_over(old))
    answers = run.run(schedule[600:1200])
    assert hashlib.sha256(answers + run.state + run.page).hexdigest() == AFTER
    assert re.search(r"#define JOYCE_VERSION_MAJOR 2$", pathlib.Path("include/joyce.h").read_text(encoding="utf-8"), re.M)


@test
def start_values():
    """n := n + 1: without a value, and from 0."""
    table = joyce.pack(
        variables=[(joyce.Mode.LOCAL, joyce.Standard.INTEGER)], blocks=[(0, 0, 0, 0, 1)],
        nodes=[joyce.Node.WHOLE, joyce.Node.WHOLE, (joyce.Node.VALUE, 1), (0, 0, 0, 1), (joyce.Node.BINARY, 2, 3, joyce.Binary.ADD)],
        statements=[(joyce.Statement.ASSIGN, 0, 4), joyce.Statement.BLOCK_END])
    run = joyce.Run(table)
    assert list(run.run([1, 2])) == [joyce.Answer.UNSET] * 2 and refused(run.look, 1, 0) == joyce.Result.UNSET_WORD
    assert refused(run.look, 1, 1) == joyce.Result.ABSENT and str(joyce.Refused(32)) == "refused with 32: unset_word"
    zeros = joyce.Run(table, number=joyce.Start.ZEROS)
    assert zeros.look(1, 0) == 0 and list(zeros.run([1, 1])) == [0, 2] and zeros.look(1, 0) == 1
    for number in [2, 256, 65536, 2**32 - 1]:
        state = bytearray(b"?" * joyce.STATE_SIZE)
        assert joyce.begin(table, state, number) == joyce.begin(b"?", state, number) == joyce.Result.LENGTH and state == b"?" * joyce.STATE_SIZE


@test
def words():
    """write(-2, val -8192 - 7), and n := -3: device words, and a look."""
    table = joyce.pack(
        variables=[(joyce.Mode.LOCAL, joyce.Standard.INTEGER)], blocks=[(0, 0, 0, 0, 1)],
        nodes=[(0, 0, 0, -2), (0, 0, 0, -8192), (joyce.Node.UNARY, 1, joyce.Unary.VAL), (0, 0, 0, 7),
               (joyce.Node.BINARY, 2, 3, joyce.Binary.SUBTRACT), joyce.Node.WHOLE, (0, 0, 0, -3)],
        statements=[(joyce.Statement.WRITE, 0, 4), (joyce.Statement.ASSIGN, 5, 6), joyce.Statement.BLOCK_END])
    run = joyce.Run(table)
    run.put(-8192, -5)
    assert list(run.run([1, 1, 1])) == [0, 0, 2]
    assert run.get(-2) == -12 and run.get(-8192) == -5 and run.look(1, 0) == -3
    assert refused(run.look, 1, 1) == refused(run.look, 2, 0) == joyce.Result.ABSENT
    for address in [-8194, -1, 0]:
        try:
            run.get(address)
        except ValueError:
            continue
        raise AssertionError(address)


@test
def refusals():
    """Wrong lengths, tables and states."""
    state, page = bytearray(joyce.STATE_SIZE), bytearray(joyce.PAGE_SIZE)
    assert joyce.begin(SMALLEST, bytearray(5), 0) == joyce.Result.LENGTH
    assert joyce.begin(SMALLEST, state, 0) == 0 and any(state)
    assert joyce.run(SMALLEST, state, page, b"\1\1", bytearray(1)) == joyce.Result.LENGTH
    assert joyce.look(SMALLEST, state, 1, 0, 0) == joyce.Result.ABSENT
    assert refused(joyce.Run, SMALLEST[:1]) == joyce.Result.SECTIONS
    assert list(joyce.Run(b"").run([1, 1, 1, 2])) == [0, 2, 2, 3]
    assert refused(joyce.Run, SMALLEST, bytes(joyce.STATE_SIZE)) == joyce.Result.STATE
    assert str(joyce.Refused(10)) == "refused with 10: state"
    kept = bytes(state)
    assert joyce.begin(SMALLEST, kept, 0) == 0  # bytes are lent as a copy
    for error, sections in [(TypeError, {"type": []}), (ValueError, {"fields": [(0, 0)]})]:
        try:
            joyce.pack(**sections)
        except error:
            continue
        raise AssertionError(sections)


@test
def texts():
    """Symbols with their kinds, lines and places; refusals, and a slice that is longer than needed."""
    kind = joyce.Symbol
    assert joyce.split(b'Mod "a\n" x2<>#17\n\'@39\' \'A@64\'') == [
        (kind.WORD, 1, 0, b"Mod"), (kind.NAME, 2, 9, b"x2"), (kind.SPECIAL, 2, 11, b"<>"), (kind.NUMERAL, 2, 13, b"#17"),
        (kind.CHARACTER, 3, 17, b"'@39'"), (kind.STRING, 3, 23, b"'A@64'")]
    assert joyce.split(b"") == joyce.split(b" \n") == []
    for text in [b'"open', b"'open", b"#8", b"a\tb", b"''"]:
        assert refused(joyce.split, text) == joyce.Result.NO_SYMBOL, text
    assert refused(joyce.split, bytes(joyce.TEXT_MAX + 1)) == joyce.Result.LENGTH
    out = bytearray(b"?" * 20)
    assert joyce.symbols(b"a+", out[:13]) == joyce.Result.LENGTH
    assert joyce.symbols(b"+ ", out) == joyce.SYMBOLS + 1 and out == bytes([1, 1, 0, 0, 0, 1, 0]) + b"?" * 13
    assert str(joyce.Refused(25)) == "refused with 25: no_symbol"
    board = pathlib.Path("examples/board.joyce").read_bytes()
    assert all(board[piece.place:].startswith(piece.bytes) for piece in joyce.split(board))
    lines = pathlib.Path("examples/board.symbols").read_text(encoding="utf-8").splitlines()[1:]
    assert [f"{p.kind.name.lower()} {p.bytes.decode()}" for p in joyce.split(board)] == [line.split(": ", 1)[1] for line in lines]


@test
def elsewhere():
    """Installed, beside an archive that cannot be written to, and with a shared object named."""
    top = pathlib.Path("target/tests/python")
    shutil.rmtree(top, ignore_errors=True)
    for folder in ["python", "lib"]:
        (top / folder).mkdir(parents=True)
    shutil.copy("python/joyce.py", top / "python")
    shutil.copy("target/staticlib/libjoyce.a", top / "lib")
    words = [sys.executable, "-B", "-c", "import joyce; print(joyce.check(bytes(1)))"]
    clean = {**{k: v for k, v in os.environ.items() if k != "JOYCE_LIBRARY"}, "PYTHONPATH": str(top / "python")}
    assert subprocess.run(words, env=clean, capture_output=True, text=True, check=True).stdout == "2\n"
    assert (top / "lib/_joyce.so").exists()
    named = {**clean, "JOYCE_LIBRARY": str((top / "lib/_joyce.so").resolve())}
    assert subprocess.run(words, env=named, capture_output=True, text=True, check=True).stdout == "2\n"
    (top / "lib/libjoyce.a").unlink()
    failed = subprocess.run(words, env=clean, capture_output=True, text=True, check=False)
    assert failed.returncode != 0 and "no libjoyce.a" in failed.stderr


for one in tests:
    try:
        one()
    except Exception:
        failures += 1
        print(f"FAIL python/{one.__name__}: {traceback.format_exc().strip().splitlines()[-1]}")
        traceback.print_exc()
    else:
        print(f"ok python/{one.__name__}")
sys.exit(failures > 0)
