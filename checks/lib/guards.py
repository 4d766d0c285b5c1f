"""Lays out guards of a crate in a copy of the repository: as many as one check can try.

The first guard of a function changes the function itself. Each further one changes a copy of it,
which stands below it and has a copy of its proof. A function of a trait has no copies, so its further
guards wait. All other functions have nothing to prove: a body that ends at once, and an empty file of
a proof. Who calls them goes by their contracts, as ever. A program is tried without its `main`, so that the
check reads no code of its libraries.
Usage: guards.py COPY CRATE GUARD.., where GUARD is a file. It prints a line 'FUNCTION GUARD' for each
that is laid out or, with status 1, why some cannot be.
"""
import os
import re
import shutil
import sys

from edits import Edit, Unapplied, functions_of, read, write

STUB = "unreachable!()\n"


class Crate:
    """The sources and the proofs of a crate."""

    def __init__(self, copy, name):
        self.name = name
        self.folder = f"{copy}/crates/{name}"
        self.sources = {}
        for folder, _, files in os.walk(f"{self.folder}/src"):
            self.sources.update((path, read(path)) for path in (f"{folder}/{file}" for file in files))
        self.homes = {}
        for path, text in self.sources.items():
            for type_name in re.findall(r"^(?:pub(?:\([^)]*\))? )?(?:struct|enum) (\w+)", text, re.M):
                self.homes.setdefault(type_name, []).append(self.module_of(path))

    def module_of(self, path):
        """The path of a source's module, as a list of names."""
        names = os.path.relpath(path, f"{self.folder}/src").removesuffix(".rt").split("/")
        return [] if names in (["lib"], ["main"]) else names

    def path_of(self, source, function):
        """The path of a function that is of no trait: that of its type, if it has one, goes before."""
        module = self.module_of(source)
        if function.owner:
            homes = self.homes[function.owner]
            module = [*(module if module in homes else homes[0]), function.owner]
        return [*module, function.name]

    def is_named(self, source, function, name):
        """Whether a check prints a function so."""
        if function.is_plain:
            return name == "::".join(self.path_of(source, function))
        owner = "::".join([*self.module_of(source), function.owner])
        return name.startswith(owner) and name.endswith(f"::{function.name}")

    def proof_of(self, path):
        return "/".join([self.folder, "proofs", *path])

    def copy_proof(self, path, name):
        """Gives a copy of a function, of this name, a copy of its proof."""
        proof = self.proof_of(path)
        if not os.path.isdir(proof):
            return
        other = self.proof_of([*path[:-1], name])
        shutil.copytree(proof, other)
        dotted = f"Rattle.{self.name}.proofs.{'.'.join(path[:-1])}.".replace("..", ".")
        for file in os.listdir(other):
            text = read(f"{other}/{file}").replace(f"{dotted}{path[-1]}.", f"{dotted}{name}.")
            write(f"{other}/{file}", text)

    def leave_out(self, path):
        """Gives a function an empty file of a proof, and returns a body for it."""
        proof = self.proof_of(path)
        shutil.rmtree(proof, ignore_errors=True)
        os.makedirs(proof)
        write(f"{proof}/Proof.antt", "")
        return STUB


def bodies_of(crate, copy, guards):
    """The guards of each function, as {(source, its number): [(guard, body)]}."""
    found = {}
    for guard in guards:
        if not all(file.startswith("src/") for file, _, _ in guard.changes):
            raise Unapplied(f"{guard.name}: it changes no file of src/")
        changed = list(guard.bodies(copy))
        if len(changed) != 1:
            raise Unapplied(f"{guard.name}: it changes {len(changed)} functions, and not one")
        for source, number, body in changed:
            if not crate.is_named(source, functions_of(crate.sources[source])[number], guard.function):
                raise Unapplied(f"{guard.name}: it changes another function than {guard.function}")
            found.setdefault((source, number), []).append((guard, body))
    return found


def lay_out(crate, bodies):
    """Writes the sources with these bodies, and says which function each guard changes."""
    for source, text in crate.sources.items():
        made, end = "", 0
        for number, function in enumerate(functions_of(text)):
            (guard, body), *others = bodies.get((source, number)) or [(None, None)]
            if guard:
                print(guard.function, guard.path)
            elif function.is_plain and crate.path_of(source, function) == ["main"]:
                made += re.sub(r"(?:^(?:///|#\[).*\n)*\Z", "", text[end : function.first], flags=re.M)
                end = function.end
                continue
            elif function.is_plain:
                body = crate.leave_out(crate.path_of(source, function))
            else:
                body = text[function.body : function.last]
            made += text[end : function.body] + body + text[function.last : function.end]
            end = function.end
            for at, (guard, body) in enumerate(others if function.is_plain else [], 2):
                name = f"{function.name}_{at}"
                made += "\n" + with_body(text, function, body, name)
                crate.copy_proof(crate.path_of(source, function), name)
                print(f"{guard.function}_{at}", guard.path)
        write(source, made + text[end:])


def with_body(text, function, body, name):
    """The text of a function, with its attributes, of another body and name."""
    attributes = re.search(r"(?: *#\[.*\]\n)*$", text[: function.first])[0]
    head = text[function.first : function.body].replace(f"fn {function.name}", f"fn {name}", 1)
    return attributes + head + body + text[function.last : function.end]


def main(copy, name, *paths):
    crate = Crate(copy, name)
    try:
        lay_out(crate, bodies_of(crate, copy, [Edit(path) for path in paths]))
    except Unapplied as why:
        print(why)
        sys.exit(1)


main(*sys.argv[1:])
