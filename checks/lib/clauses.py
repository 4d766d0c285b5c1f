"""Compares the clauses that docs/PROVED.md names with the contracts of the calls and types before them.

A clause in brackets has to be one of a call before it, of some call of a type before it, or a fact of that
type. Prints each that is not, and then how many were compared. With --wide it prints the lines of clauses that
are wider than 100 columns, and compares nothing.
"""
import collections
import pathlib
import re
import sys

TOP = pathlib.Path(__file__).resolve().parent.parent.parent
GENERICS = re.compile(r"<[^<>]*>")
OWNER = re.compile(r"(?:pub(?:\(.*?\))? )?(?:struct|enum|trait|impl(?: \S+ for)?) (\w+)")
CALL = re.compile(r" *(?:pub(?:\(.*?\))? )?fn (\w+)")
CLAUSE = re.compile(r"(?:ensures|ghost) (\w+)\b(?: \{|:| =)")
HEAD = re.compile(r" *(?:ensures|requires|ghost (?!use))")
WIDEST = 100


def plain(line):
    """The line without what is in angle brackets."""
    while line != (line := GENERICS.sub("", line)):
        pass
    return line


def contracts():
    """The clauses of each call under its name, with and without its type, and of each type with its facts."""
    found = collections.defaultdict(set)
    for source in sorted(TOP.glob("crates/*/src/**/*.rt")):
        owner = None
        names = ()
        for line in source.read_text().splitlines():
            if header := OWNER.match(plain(line)):
                owner = header[1]
                names = (owner,)
            elif header := CALL.match(line):
                inside = line.startswith(" ")
                names = (header[1], owner, f"{owner}::{header[1]}") if inside else (header[1],)
            for clause in CLAUSE.findall(line):
                for name in names:
                    found[name].add(clause)
    return found


def groups():
    """The calls and types before each group of clauses in brackets, and the group."""
    for row in re.findall(r"\\\n((?:  .*\n)+)", (TOP / "docs/PROVED.md").read_text()):
        names = []
        for group, name in re.findall(r"\(((?:`\w+`(?:, |; | or )?)+)\)|`([^`]+)`", " ".join(row.split())):
            if name:
                names.append(name)
            else:
                yield names, re.findall(r"`(\w+)`", group)
                names = []


def wide_lines():
    """Where the lines of clauses are that are too wide."""
    for source in sorted(TOP.glob("crates/*/src/**/*.rt")):
        is_clause = False
        for number, line in enumerate(source.read_text().splitlines(), 1):
            is_clause = is_clause or bool(HEAD.match(line))
            if is_clause and len(line) > WIDEST:
                yield f"{source.relative_to(TOP)}:{number}"
            is_clause = is_clause and not line.endswith(("}", "};"))


def main():
    if sys.argv[1:] == ["--wide"]:
        print(*wide_lines(), sep="\n")
        return
    found = contracts()
    count = 0
    for names, group in groups():
        for clause in group:
            count += 1
            if not any(clause in found[name] for name in names):
                print(f"{', '.join(names)}: {clause}")
    print(count)


if __name__ == "__main__":
    main()
