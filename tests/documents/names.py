"""Every definition, constructor, theorem, function and test that docs/MAP.md names is there, and every file that a document names.
A line 'ok NAME' or 'FAIL NAME: why' a kind."""
import pathlib
import re
import sys

failures = 0


def report(name, missing, count):
    global failures
    if count == 0:
        missing = ["none is named"]
    if missing:
        failures += 1
        print(f"FAIL documents/{name}: {', '.join(missing)}")
    else:
        print(f"ok documents/{name}: {count}")


def text(paths):
    return "\n".join(path.read_text(encoding="utf-8") for path in paths if path.is_file())


page = pathlib.Path("docs/MAP.md").read_text(encoding="utf-8")
names = r"([A-Za-z0-9_]+(?:, [A-Za-z0-9_]+)*)"

# crate/File: name, name
missing, count = [], 0
for crate, file, listed in re.findall(r"\b([a-z]+)/([A-Z][A-Za-z]*): " + names, page):
    spec = text([pathlib.Path("crates", crate, "specs", file + ".antt")])
    for name in listed.split(", "):
        count += 1
        if not re.search(rf"^\s*(?:unfoldable |abbrev )?pub (?:data |record )?{re.escape(name)}\b", spec, re.M):
            missing.append(f"{crate}/{file}: {name}")
report("definitions", missing, count)

# crate/File: .., Type (constructor, constructor)
missing, count = [], 0
for crate, file, listed in re.findall(r"\b([a-z]+)/([A-Z][A-Za-z]*): [A-Za-z0-9_, ]+ \(([A-Za-z0-9_]+(?:, [A-Za-z0-9_]+)*)\)", page):
    spec = text([pathlib.Path("crates", crate, "specs", file + ".antt")])
    for name in listed.split(", "):
        count += 1
        if not re.search(rf"^  +(?:\w+ )*{name} (?:\w+ )*: ", spec, re.M):
            missing.append(f"{crate}/{file}: {name}")
report("constructors", missing, count)

# `crates/crate/proofs/File.antt`: name, name; or `crates/crate/proofs/Folder/File.antt`
missing, count = [], 0
for path, listed in re.findall(r"`(crates/[a-z]+/proofs/(?:[A-Za-z0-9]+/)?[A-Za-z0-9]+\.antt)`: ([A-Za-z0-9_'-]+(?:, [A-Za-z0-9_'-]+)*)", page):
    proofs = text([pathlib.Path(path)])
    for name in listed.split(", "):
        count += 1
        if not re.search(rf"^\s*pub {re.escape(name)} ?:", proofs, re.M):
            missing.append(f"{path}: {name}")
report("theorems", missing, count)

# crate::function
missing, count = [], 0
for crate, name in re.findall(r"`([a-z]+)::([a-z_]+)`", page):
    count += 1
    source = text(sorted(pathlib.Path("crates", crate, "src").glob("**/*.rt")))
    if not re.search(rf"^pub (?:extern \"C\" )?fn {name}\b", source, re.M):
        missing.append(f"{crate}::{name}")
report("functions", missing, count)

# tests/folder: name, name. A test is run by its name in C, or its line is printed by the folder's script
for folder, runner in [("check", "run"), ("calls", "run_test"), ("symbols", "run")]:
    missing, count = [], 0
    tests = text(sorted(path for path in pathlib.Path("tests", folder).iterdir() if path.suffix != ".bin"))
    for listed in re.findall(rf"\btests/{folder}: " + names, page):
        for name in listed.split(", "):
            count += 1
            if not re.search(rf'\b{runner}\("{name}"|"(?:ok |skip )?{folder}/{name}\b', tests):
                missing.append(f"tests/{folder}: {name}")
    report(f"tests_{folder}", missing, count)

# files and folders of the repository, in any document
places = r"(?<![\w/])((?:crates|docs|include|examples|tests|bench|tools|fuzz|python)/(?:[\w./-]*[\w/])?)(?![\w*/])"
missing, count = [], 0
for document in [pathlib.Path("README.md"), *sorted(pathlib.Path().glob("*/README.md")), *sorted(pathlib.Path("docs").glob("**/*.md"))]:
    for path in re.findall(places, document.read_text(encoding="utf-8")):
        count += 1
        if not pathlib.Path(path).exists():
            missing.append(f"{document}: {path}")
report("files", missing, count)

sys.exit(failures > 0)
