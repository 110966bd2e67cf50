"""The fenced blocks of the guide to texts: texts and their symbols. A line 'ok NAME' or 'FAIL NAME: why' a block. The form of the blocks is described
at the beginning of docs/TEXT.md."""
import pathlib
import re
import sys

sys.path.insert(0, "python")
import joyce  # noqa: E402

failures = 0


def report(name, why=None):
    global failures
    failures += why is not None
    print(f"FAIL guide/{name}: {why}" if why else f"ok guide/{name}")


def found(text):
    """The symbols, or the number of the refusal."""
    try:
        return joyce.split(text)
    except joyce.Refused as error:
        return error.number


def in_words(piece):
    return f"{piece.kind.name.lower()} {piece.bytes.decode()}"


def split_lines(body):
    """TEXT -> symbols or a number, each alone; what it says of those where the library says something else."""
    wrong = []
    for line in body.splitlines():
        text, wanted = re.fullmatch(r"(.*?) +->(.*)", line).groups()
        got = found(text.replace(r"\n", "\n").replace(r"\t", "\t").encode())
        said = str(got) if isinstance(got, int) else " | ".join(map(in_words, got))
        if said != wanted.strip():
            wrong.append(f"{text}: {said}")
    return wrong


def vocabulary(name):
    """The symbols that a list of the definitions has in its numbers, each with the comment beside it."""
    definitions = pathlib.Path("crates/symbols/specs/Vocabulary.antt").read_text(encoding="utf-8")
    body = re.search(rf"^{name} =\n(.*?)^    \[\]$", definitions, re.M | re.S)[1]
    return [("".join(map(chr, map(int, re.findall(r"\d+", codes)))), said) for codes, said in re.findall(r"^(.*?)  -- (.*)$", body, re.M)]


page = pathlib.Path(sys.argv[1]).read_text(encoding="utf-8")
texts, kinds, split_blocks = {}, set(), 0
for sort, name, body in re.findall(r"^```(text|symbols|splits)(?: (\w+))?\n(.*?)^```$", page, re.M | re.S):
    if sort == "text":
        texts[name] = body.encode()
    elif sort == "symbols":
        pieces = found(texts.pop(name))
        wanted = [tuple(line.split(None, 3)) for line in body.splitlines()]
        got = [(str(p.line), str(p.place), p.kind.name.lower(), p.bytes.decode()) for p in pieces]
        kinds |= {p.kind for p in pieces}
        report(f"symbols_{name}", None if got == wanted else f"{[pair for pair in zip(got, wanted) if pair[0] != pair[1]]}, {len(got)} symbols")
    else:
        split_blocks += 1
        wrong = split_lines(body)
        report(f"splits_{split_blocks}", "; ".join(wrong) or None)
for kind, name in [("special", "special_symbols"), ("word", "word_symbols")]:
    listed, pairs = re.search(rf"^\| \d \| {kind} \| `(.*?)` \|$", page, re.M)[1].split(), vocabulary(name)
    wrong = [pair for pair in pairs if pair[0] != pair[1]] or set(listed) ^ {symbol for symbol, _ in pairs} or len(listed) - len(pairs)
    report(f"each_{kind}", f"the definition's numbers, its comments and the guide differ: {wrong}" if wrong else None)
report("each_text_has_symbols", f"none: {', '.join(texts)}" if texts else None)
report("each_symbol_has_an_example", None if kinds == set(joyce.Symbol) and split_blocks > 3 else f"only {kinds}")
sys.exit(failures > 0)
