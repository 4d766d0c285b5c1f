"""Edits of a repository, and the functions of its sources: what the checks that apply edits share.

An edit is a file of the lines 'crate: NAME', 'file: PATH', 'old: TEXT' and 'new: TEXT', with more
that its check reads. The old text stands once in the file; \\n in a text is a line's end. Further
lines change more places, in turn. A line 'same: TEXT' in place of 'new: TEXT' writes the code in
another way that does the same, before anything else is changed.
Usage: edits.py apply EDIT REPOSITORY, which changes its files as they stand, or none, with status 1,
if an old text does not stand once; edits.py places REPOSITORY EDIT.., for each edit a line 'PLACE ERROR EDIT
beside|alone': where its first old text stands, as FILE:NUMBER of the function, the error that it names, and
whether it changes a body alone, or 'EDIT: why' if it cannot be applied; edits.py functions FILE, for each
line the number of the function that it is a part of, and whether of its head or its body, or 'no function'.
"""
import os
import re
import sys


def read(path):
    with open(path) as file:
        return file.read()


def write(path, text):
    with open(path, "w") as file:
        file.write(text)


class Unapplied(Exception):
    """Why an edit cannot be applied."""


class Edit:
    """The lines of an edit: its changes as (file, old text, new text), and the others by their key."""

    def __init__(self, path):
        self.path = path
        self.name = os.path.basename(path)
        self.rewrites = []
        self.changes = []
        self.said = {}
        for line in read(path).splitlines():
            key, text = line.partition(": ")[::2]
            self.said[key] = text.replace("\\n", "\n")
            if key in ("same", "new"):
                places = self.changes if key == "new" else self.rewrites
                places.append(tuple(self.said[it] for it in ("file", "old", key)))
        self.crate = self.said["crate"]
        self.function = self.said.get("function")
        self.test = self.said.get("test")

    def texts(self, repository, changes):
        """The files that these changes change, as they leave them."""
        texts = {}
        for file, old, new in changes:
            path = f"{repository}/crates/{self.crate}/{file}"
            text = texts.get(path) or read(path)
            times = text.count(old)
            if times != 1:
                raise Unapplied(f"{self.name}: its old text stands {times} times in its file, and not once")
            texts[path] = text.replace(old, new)
        return texts

    def rewrite(self, repository):
        """Writes the code as it needs it, which does the same."""
        for path, text in self.texts(repository, self.rewrites).items():
            write(path, text)

    def apply(self, repository):
        for path, text in self.texts(repository, [*self.rewrites, *self.changes]).items():
            write(path, text)

    def bodies(self, repository):
        """The bodies that it changes, as (path, number of the function, body): it changes no more."""
        for path, text in self.texts(repository, self.changes).items():
            before = read(path)
            functions, changed = functions_of(before), functions_of(text)
            if frame(before, functions) != frame(text, changed):
                raise Unapplied(f"{self.name}: it changes more than bodies of functions")
            for number, (one, other) in enumerate(zip(functions, changed)):
                if before[one.body : one.last] != text[other.body : other.last]:
                    yield path, number, text[other.body : other.last]


class Function:
    """A function of a file: where its head begins, and where its body begins and ends."""

    def __init__(self, line, first, owner, is_plain):
        self.indent, self.name = re.match(r"( *).*?\bfn (\w+)", line).groups()
        self.first = first
        self.owner = owner
        self.is_plain = is_plain
        self.body = self.last = self.end = None


def functions_of(text):
    """The functions of a file that is in rt fmt's layout, but for those without a body of lines."""
    found, function, block, at = [], None, "", 0
    for line in text.splitlines(keepends=True):
        if not function and re.match(r" *(pub(\([a-z_: ]+\))? )?fn ", line):
            function = Function(line, at, *owner_of(block))
        at += len(line)
        if not function:
            if re.match(r"impl\b|(pub )?trait ", line) or block and not block.endswith("{\n"):
                block = line if re.match(r"impl\b|(pub )?trait ", line) else block + line
            elif line == "}\n":
                block = ""
        elif function.body is None:
            one_line = at - len(line) == function.first and line.endswith("}\n")
            if line.endswith(";\n") or one_line:
                function = None
            elif re.fullmatch(function.indent + r"(\S.*)?\{\n", line):
                function.body = at
        elif line == function.indent + "}\n":
            function.last, function.end = at - len(line), at
            found.append(function)
            function = None
    return found


def owner_of(block):
    """The type of a block of methods, or nothing, and whether they are the type's own, for all of it."""
    if not block.startswith("impl"):
        return "", not block
    given, rest = brackets(block.removeprefix("impl"))
    type_name, rest = re.match(r"(?:\w+::)*(\w+)(.*)", rest.split(" for ")[-1].strip(), re.S).groups()
    is_of_trait = " for " in block
    # A lifetime that the block leaves open is any.
    taken = [it for it in brackets(rest)[0] if it != "'_"]
    return type_name, not is_of_trait and [it.split(":")[0] for it in given] == taken


def brackets(text):
    """The parts in the angle brackets that a text begins with, and the text after them."""
    parts, depth = [""], 0
    for at, sign in enumerate(text):
        depth += (sign == "<") - (sign == ">")
        if depth == 0:
            return [it.strip() for it in parts if it], text[at + (at > 0) :]
        if depth == 1 and sign == ",":
            parts.append("")
        elif depth > 1 or sign != "<":
            parts[-1] += sign
    return [], text


def frame(text, functions):
    """A file without the bodies of these functions."""
    ends = [0, *(function.last for function in functions)]
    return [text[end : it.body] for end, it in zip(ends, functions)], text[ends[-1] :]


def parts_of_lines(text):
    """For each line of a file, the number of its function and its part, or 'no function'."""
    said = ["no function"] * text.count("\n")
    for number, function in enumerate(functions_of(text), 1):
        first, body, end = (text.count("\n", 0, at) for at in (function.first, function.body, function.end))
        said[first:body] = [f"{number} head"] * (body - first)
        said[body:end] = [f"{number} body"] * (end - body)
    return said


def place_of(edit, repository):
    """Where an edit changes a repository first, the error that it names, and whether it changes a body alone."""
    file, old, _ = edit.changes[0]
    text = read(f"{repository}/crates/{edit.crate}/{file}")
    first = text.count("\n", 0, text.index(old))
    parts = sorted(set(parts_of_lines(text)[first : first + old.rstrip("\n").count("\n") + 1]))
    numbers = "-".join(sorted({part.split(" ")[0] for part in parts}))
    way = "beside" if all(part.endswith("body") for part in parts) else "alone"
    return f"{file}:{numbers} {edit.said['error']} {edit.path} {way}"


def main(command, path, *others):
    if command == "functions":
        print(*parts_of_lines(read(path)), sep="\n")
        return
    for edit in map(Edit, others if command == "places" else [path]):
        try:
            if command == "places":
                edit.texts(path, edit.changes)
                print(place_of(edit, path))
            else:
                edit.apply(*others)
        except Unapplied as why:
            if command == "apply":
                sys.exit(str(why))
            print(why)


if __name__ == "__main__":
    main(*sys.argv[1:])
