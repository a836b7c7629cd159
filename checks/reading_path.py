#!/usr/bin/env python3
"""The files of specs/ in which the headline rests, and whether docs/READING.md lists them.

They are those that the contract of `run_check` names, and those that these import, with the number of their
lines that are neither empty nor imports. The page has to list each of them once, behind all that it imports,
with that number, and their sums; and each of its thirty words has to stand in one of them.
Without words it prints the list as it has to stand, group by group, and what the page says otherwise.
"""
import os
import re
import sys

TOP = os.path.dirname(os.path.dirname(os.path.abspath(__file__)))
PAGE = os.path.join("docs", "READING.md")
CODE = os.path.join("crates", "dt_top", "src", "top.rt")
CALL = "pub fn run_check"
WORDS = 30
IMPORT = re.compile(r"^(?:pub )?(?:ghost )?use Rattle\.(\w+)\.([\w.]+?)(?:\.\{([^}]*)\}|\s+as\s+\w+)?;?$")
ROW = re.compile(r"^\| (\w+) \| `(\w+)` \| (\d+) \|$")
WORD = re.compile(r"^\| (`\w+`(?:, `\w+`)*) \| \S.*\S \|$")
SUMS = re.compile(r"(\d+) files, ([\d,]+) lines")


def lines_of(path):
    with open(os.path.join(TOP, path), encoding="utf-8") as file:
        return file.read().split("\n")


def file_of(crate, module):
    """The file of specs/ or proofs/ that a module of a crate of this repository is, if it is one."""
    parts = module.split(".")
    for length in range(len(parts), 0, -1):
        path = os.path.join("crates", crate, *parts[:length]) + ".antt"
        if os.path.exists(os.path.join(TOP, path)):
            return path
    return None


def imports_of(path):
    """The files that a file imports, those that the compiler makes of src/ left out."""
    matches = [IMPORT.match(line.strip()) for line in lines_of(path)]
    files = [file_of(match.group(1), match.group(2)) for match in matches if match]
    return [name for name in files if name]


def count_of(path):
    return sum(1 for line in lines_of(path) if line.strip() and not IMPORT.match(line.strip()))


def first_files():
    """The files that the contract of the headline's call names."""
    lines = lines_of(CODE)
    start = next(number for number, line in enumerate(lines) if line.startswith(CALL))
    end = next(number for number, line in enumerate(lines) if number > start and line == "{")
    contract = set(re.findall(r"\w+", "\n".join(lines[start:end])))
    for line in lines[:start]:
        match = IMPORT.match(line.strip())
        if match and contract & {name.strip() for name in (match.group(3) or "").split(",")}:
            path = file_of(match.group(1), match.group(2))
            if path:
                yield path


def crates_in_order():
    """The crates as docs/PROVED.md names them, lowest group first."""
    groups, order = {}, []
    heading = None
    for line in lines_of(os.path.join("docs", "PROVED.md")):
        if line.startswith("## "):
            heading = line[3:]
        elif line.startswith("| dt_"):
            for crate in re.findall(r"dt_\w+", line.split("|")[1]):
                if crate not in groups:
                    groups[crate] = heading
                    order.append(crate)
    return groups, order


def reading_order():
    """Every file behind those that it imports, in the order of the groups as far as that goes."""
    groups, order = crates_in_order()
    ordered, on_the_way = [], set()

    def visit(path):
        if path in on_the_way:
            return
        on_the_way.add(path)
        for name in sorted(set(imports_of(path)), key=place):
            visit(name)
        ordered.append(path)

    def place(path):
        crate = path.split(os.sep)[1]
        return (order.index(crate) if crate in order else len(order), path)

    reached = set()
    waiting = list(first_files())
    while waiting:
        path = waiting.pop()
        if path not in reached:
            reached.add(path)
            waiting += imports_of(path)
    for path in sorted(reached, key=place):
        visit(path)
    return ordered, groups


def row_of(path):
    _, crate, _, name = path.split(os.sep)
    return crate, name.removesuffix(".antt"), count_of(path)


def faults_of_reading():
    """What docs/READING.md does not say as it is."""
    ordered, _ = reading_order()
    wanted = {row_of(path)[:2]: (path, row_of(path)[2]) for path in ordered}
    yield from (f"{path} is a proof, and the headline rests on it" for path in ordered if "/proofs/" in path)
    page = lines_of(PAGE)
    listed = [(match.group(1), match.group(2), int(match.group(3))) for match in map(ROW.match, page) if match]
    seen = set()
    for crate, name, lines in listed:
        if (crate, name) in seen or (crate, name) not in wanted:
            yield f"{PAGE} lists {crate} {name}, which " + ("stands there twice" if (crate, name) in seen else "the headline does not rest on")
            continue
        path, count = wanted[crate, name]
        seen.add((crate, name))
        if lines != count:
            yield f"{PAGE} gives {crate} {name} {lines} lines, and it has {count}"
        late = [other for other in imports_of(path) if row_of(other)[:2] not in seen]
        if late:
            yield f"{PAGE} lists {crate} {name} before {', '.join(late)}, which it imports"
    yield from (f"{PAGE} does not list {crate} {name}" for crate, name in wanted if (crate, name) not in seen)
    sums = f"{len(wanted)} files, {sum(count for _, count in wanted.values()):,} lines"
    if not any(match.group(0) == sums for line in page for match in SUMS.finditer(line)):
        yield f"{PAGE} does not say that there are {sums}"
    yield from faults_of_words(page, ordered)


def faults_of_words(page, ordered):
    """Whether there are thirty words, each in one of the files."""
    rows = [match.group(1) for match in map(WORD.match, page) if match]
    if len(rows) != WORDS:
        yield f"{PAGE} explains {len(rows)} words, not {WORDS}"
    text = set(re.findall(r"\w+", "\n".join("\n".join(lines_of(path)) for path in ordered)))
    for row in rows:
        for word in re.findall(r"\w+", row):
            if word not in text:
                yield f"{PAGE} explains {word}, which none of its files has"


def main():
    ordered, groups = reading_order()
    heading = None
    for path in ordered:
        crate, name, count = row_of(path)
        if groups.get(crate) != heading:
            heading = groups.get(crate)
            print(f"\n{heading}\n")
        print(f"| {crate} | `{name}` | {count} |")
    print(f"\n{len(ordered)} files, {sum(count_of(path) for path in ordered):,} lines\n")
    faults = list(faults_of_reading())
    for fault in faults:
        print(fault)
    return 1 if faults else 0


if __name__ == "__main__":
    sys.exit(main())
