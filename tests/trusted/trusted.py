"""What public promises are said with, and what not. A promise is a contract of crates/joyce or one of the theorems below; the definitions
that its text names, and those that these name in turn, must be believed. Each file of crates/*/specs says in its first line whether it
holds such definitions or others, and this test fails where that is not so; and where an export of crates/joyce_c, which C links, has other
clauses than the function of crates/joyce. With --list it prints the files and their lines.
A line 'ok NAME' or 'FAIL NAME: why' a test."""
import collections
import pathlib
import re
import sys

TRUSTED = "-- Trusted: public promises are said with these definitions."
INNER = "-- Inner: for code and proofs only; no public promise is said with these definitions."
CALLS = "crates/joyce/src/lib.rt"
EXPORTS = "crates/joyce_c/src/lib.rt"
THEOREMS = {
    "crates/joyce/proofs/Logs.antt": ["calls_demand3"],
    "crates/joyce/proofs/CallsCut.antt": ["calls_cut"],
    "crates/joyce/proofs/EmptySlots.antt": ["empty_slot"],
    "crates/nesting/proofs/Complete.antt": ["sound", "complete"],
    "crates/words/proofs/BitLaws.antt": ["and_bit", "or_bit", "not_word_bit"],
    "crates/sound/proofs/Theorems/Demand3.antt": ["demand3"],
    "crates/sound/proofs/Theorems/TestedAlike.antt": ["tested_alike"],
    "crates/sound/proofs/Theorems/CutsAgree.antt": ["cuts", "cuts_one_each", "cuts_anywhere"],
    "crates/sound/proofs/Theorems/Refusals.antt": ["results"],
    "crates/sound/proofs/Theorems/StateRule.antt": ["state_rule"],
    "crates/sound/proofs/Theorems/SpaceUse.antt": ["space_use"],
    "crates/sound/proofs/Theorems/PlacesApart.antt": ["step_places"],
    "crates/symbols/proofs/Splitting.antt": ["list_is", "list_found", "list_unique", "no_list", "places_rise"],
    "crates/symbols/proofs/Lines.antt": ["lines_counted"],
}

USE = re.compile(r"^(?:ghost )?use Rattle\.(\w+)\.specs\.(\w+)(?:\.\{([^}]*)\}| as (\w+));?$", re.M)
HEAD = re.compile(r"(?:(?:unfoldable|abbrev) )*pub (?:(data|record) )?([^\s:({]+)")


class Names:
    """The names that a file brings in: each with the crate and the module that defines it."""

    def __init__(self, text):
        self.names, self.modules = {}, {}
        for crate, module, listed, alias in USE.findall(text):
            for name in listed.split(","):
                self.names[name.strip()] = (crate, module)
            if alias:
                self.modules[alias] = (crate, module)


def code(text):
    return [line for line in (re.sub(r"--.*", "", line).rstrip() for line in text.split("\n")) if line.strip() and not line.startswith("use ")]


def definitions(lines):
    """Each definition with its lines, and for each constructor the data type that has it."""
    found, owner, name, depth, data = collections.OrderedDict(), {}, None, 0, False
    for line in lines:
        indent = len(line) - len(line.lstrip())
        if re.match(r"\s*(module|mutual|unfoldable mutual)\b", line):
            name = None
            continue
        head = HEAD.match(line.strip())
        if head and (name is None or indent <= depth):
            name, depth, data = head.group(2), indent, head.group(1) == "data"
            found[name] = []
        elif name and data and indent > depth and " : " in line:
            for constructor in line.split(" : ")[0].split():
                owner[constructor] = name
        if name:
            found[name].append(line)
    return found, owner


class Spec:
    def __init__(self, path):
        text = path.read_text(encoding="utf-8")
        self.path, self.first = path, text.split("\n", 1)[0]
        self.uses, self.lines = Names(text), code(text)
        self.definitions, self.owner = definitions(self.lines)

    def get(self, name):
        return name if name in self.definitions else self.owner.get(name)


specs = {(path.parts[1], path.stem): Spec(path) for path in sorted(pathlib.Path("crates").glob("*/specs/*.antt")) if path.stem != "Lib"}


def named(text, uses, here=None):
    """The definitions that a text names."""
    found = set()
    for word in set(re.split(r"[\s(){},;]+", text)):
        for part in {word, word.split(".")[0]}:
            for key in ([here] if here else []) + [uses.names.get(part)]:
                if key in specs and specs[key].get(part):
                    found.add((key, specs[key].get(part)))
        head, dot, name = word.partition(".")
        if dot and uses.modules.get(head) in specs:
            key = uses.modules[head]
            if specs[key].get(name):
                found.add((key, specs[key].get(name)))
    return found


def promises():
    """What the contracts of the calls and the theorems' statements name."""
    text = pathlib.Path(CALLS).read_text(encoding="utf-8")
    found, missing = named(" ".join(re.findall(r"ensures (?:\w+ )?\{(.*?)\}\n", text, re.S)), Names(text)), []
    for path, theorems in THEOREMS.items():
        text = pathlib.Path(path).read_text(encoding="utf-8")
        for theorem in theorems:
            statement = re.search(rf"^ *pub {re.escape(theorem)} ?:(.*?)^ *(?:unfolding .*\n *)?{re.escape(theorem)}\b", text, re.S | re.M)
            if statement:
                found |= named(re.sub(r"--.*", "", statement.group(1)), Names(text))
            else:
                missing.append(f"{path}: {theorem}")
    return found, missing


def contracts(path):
    """Each function that C calls, with its parameters and clauses, and the names that it brings in."""
    text = pathlib.Path(path).read_text(encoding="utf-8")
    return {name: (re.sub(r"[\s,]+", " ", rest), Names(text).names) for name, rest in re.findall(r'^pub extern "C" fn (\w+)(.*?)^\{$', text, re.S | re.M)}


def reached(roots):
    seen, left = set(roots), list(roots)
    while left:
        key, name = left.pop()
        for found in named(" ".join(specs[key].definitions[name]), specs[key].uses, key) - seen:
            seen.add(found)
            left.append(found)
    return seen


def report(name, wrong, fine):
    print(f"FAIL trusted/{name}: {', '.join(sorted(wrong))}" if wrong else f"ok trusted/{name}: {fine}")
    return bool(wrong)


def label(key):
    return "/".join(key)


roots, missing = promises()
believed = reached(roots)
holders = {key for key, name in believed}
trusted = {key for key, spec in specs.items() if spec.first == TRUSTED}
inner = {key for key, spec in specs.items() if spec.first == INNER}
lines = {key: sum(len(block) for block in spec.definitions.values()) for key, spec in specs.items()}

if "--list" in sys.argv:
    for key in sorted(specs):
        names = [name for name in specs[key].definitions if (key, name) not in believed]
        part = "trusted" if not names else "inner" if key not in holders else "MIXED " + ", ".join(names)
        print(f"{label(key):24} {lines[key]:4} {part}")
    sys.exit(0)

failed = report("promises", set(missing) if roots else {"none is found"}, len(roots))
failed |= report("marked", {label(key) for key in specs if key not in trusted | inner}, len(specs))
failed |= report("inner", {label(key) for key in inner & holders}, len(inner))
failed |= report("trusted", {f"{label(key)}: {name}" for key in trusted for name in specs[key].definitions if (key, name) not in believed}, len(believed))
calls, exports = contracts(CALLS), contracts(EXPORTS)
failed |= report("exports", {name for name in calls.keys() | exports.keys() if calls.get(name) != exports.get(name)} if calls else {"none is found"}, len(exports))
page = pathlib.Path("docs/MAP.md").read_text(encoding="utf-8")
order = re.findall(r"^\| ([a-z]+)/([A-Z]\w*) \| (\d+) \|", page, re.M)
wrong = {f"{label(key)} is not listed" for key in trusted - {(crate, module) for crate, module, _ in order}}
wrong |= {f"{crate}/{module} has {lines.get((crate, module), 0)} lines" for crate, module, count in order if lines.get((crate, module)) != int(count)}
total = sum(lines[key] for key in trusted)
if f"{total:,} lines" not in page:
    wrong.add(f"all have {total:,} lines")
failed |= report("reading_order", wrong, f"{total:,} lines")
sys.exit(failed)
