"""The fenced blocks of a guide: tables, their runs and verdicts. A line 'ok NAME' or 'FAIL NAME: why' a block. The form of the blocks is
described at the beginning of docs/LANGUAGE.md."""
import pathlib
import re
import sys

sys.path.insert(0, "python")
import joyce  # noqa: E402

FIELDS = {"types": ["kind", "p", "q", "low", "high"], "fields": ["type"], "variables": ["mode", "type"],
          "blocks": ["kind", "owner", "first", "parameters", "variables", "statement", "space"], "arguments": ["node"],
          "nodes": ["kind", "p", "q", "v"], "statements": ["kind", "a", "b", "c", "d", "link"], "characters": ["character"]}
RECORDS, RECORD, HOLDER = 32768, 40, 12     # see docs/STATE.md
failures = 0


def report(name, why=None):
    global failures
    failures += why is not None
    print(f"FAIL guide/{name}: {why}" if why else f"ok guide/{name}")


def expect(found, wanted, line):
    if found != wanted:
        raise AssertionError(f"'{line}': {found}")


def numbers(text):
    return [int(word) for word in text.split()]


def looked(run, *place):
    """The word as the guide writes it."""
    try:
        return str(run.look(*place))
    except joyce.Refused as refused:
        return "unset" if refused.number == joyce.Result.UNSET_WORD else str(refused)


def changed(table, section, entry, field, value):
    """The table with another number in one field."""
    sections = joyce.unpack(table)
    at = int(entry) - (joyce.Standard.DECLARED if section == "types" else 0)
    fields = list(sections[section][at])
    fields[FIELDS[section].index(field)] = int(value)
    sections[section][at] = tuple(fields)
    return joyce.pack(**sections)


def try_run(table, lines):
    """Each line in order; the first is the verdict. The run begins unset, unless a line begins it with another number."""
    run = None
    for line in lines:
        word, _, rest = line.partition(" ")
        left, _, right = rest.partition(" -> " if word == "steps" else " = ")
        if word == "verdict":
            expect(joyce.check(table), int(rest), line)
            run = joyce.Run(table)
        elif word == "change":
            table = changed(table, *left.split(), right)
        elif word == "begin":
            run = joyce.Run(table, number=int(rest))
        elif word == "steps":
            before = run.copy()
            expect(list(run.run(numbers(left))), numbers(right), line)
            expect([before.run([p])[0] for p in numbers(left)], numbers(right), line + ", step by step")
        elif word == "look":
            expect(looked(run, *numbers(left)), right, line)
        elif word == "word":
            expect(run.get(int(left)), int(right), line)
        elif word == "put":
            run.put(int(left), int(right))
        elif word == "holder":
            expect(run.state[RECORDS + RECORD * (int(left) - 1) + HOLDER], int(right), line)
        else:
            raise AssertionError(f"'{line}' is no line of a run")


def try_verdicts(table, lines):
    """SECTION ENTRY FIELD = NUMBER -> VERDICT, each alone."""
    for line in lines:
        section, entry, field, value, verdict = re.fullmatch(r"(\w+) (\d+) (\w+) = (-?\d+) *-> (\d+)", line).groups()
        expect(joyce.check(changed(table, section, entry, field, value)), int(verdict), line)


def kinds(tables):
    """The numbers of which the tables have no example."""
    seen = {kind: set() for kind in [joyce.Type, joyce.Mode, joyce.Block, joyce.Node, joyce.Unary, joyce.Statement]}
    for table in tables:
        sections = joyce.unpack(table)
        for section, kind in [("types", joyce.Type), ("variables", joyce.Mode), ("blocks", joyce.Block), ("nodes", joyce.Node),
                              ("statements", joyce.Statement)]:
            seen[kind] |= {entry[0] for entry in sections[section]}
        seen[joyce.Unary] |= {node[2] for node in sections["nodes"] if node[0] == joyce.Node.UNARY}
    return [f"{kind.__name__} {number.name}" for kind, numbers_seen in seen.items() for number in kind if number not in numbers_seen]


page = pathlib.Path(sys.argv[1]).read_text(encoding="utf-8")
tables, runs = {}, set()
for sort, name, body in re.findall(r"^```(table|run|verdicts) (\w+)\n(.*?)^```$", page, re.M | re.S):
    lines = [line for line in (text.partition(";")[0].strip() for text in body.splitlines()) if line]
    try:
        if sort == "table":
            tables[name] = bytes.fromhex(" ".join(lines))
            if joyce.pack(**joyce.unpack(tables[name])) != tables[name]:
                raise AssertionError("its sections do not make it")
            continue
        (try_run if sort == "run" else try_verdicts)(tables[name], lines)
        runs |= {name} if sort == "run" else set()
        report(f"{sort}_{name}")
    except Exception as error:
        report(f"{sort}_{name}", f"{type(error).__name__}: {error}")
report("each_table_runs", None if tables and set(tables) == runs else f"no run: {', '.join(set(tables) - runs)}")
missing = kinds(tables.values())
report("each_kind_has_an_example", f"none of {', '.join(missing)}" if missing else None)
sys.exit(failures > 0)
