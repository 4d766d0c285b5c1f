"""Puts wrong bodies beside the right ones of a copy, so that one build has many of them.

Each function that an edit changes gets the body that the edit makes of its own, and takes it if the
number of the edit is chosen. The crates of tests become one, the suite. Of their tests those stay
that an edit names, and each edit has a copy of its test, of the edit's name, which chooses that
number first. All code is first written as the edits need it, which does the same.
Usage: choose.py folder COPY NAME EDIT.., which also keeps every test of this folder of tests, or choose.py
beside COPY EDIT.., or choose.py program COPY EDIT.., which leaves the tests, or choose.py one COPY
MODULE::TEST, which keeps that one alone. COPY is a copy of the repository, and EDIT a file. With status 1
it says why one cannot be applied.
"""
import os
import re
import shutil
import sys

from edits import Edit, Unapplied, functions_of, read, write

# The crate of all the tests, and its root.
SUITE = "suite"
ROOT = "#![tactic(auto)]\n\n#[cfg(test)]\nmod tests;\n"

# The folder of the tests that the gate leaves out.
LEFT_OUT = "tests"

# The crate below all others, and what it gets: the functions of chosen.c, fail_nth.c and halt_nth.c.
LOWEST = "executor_core"
CHOICE = """//! Which wrong body is chosen, and which request for memory is refused.

unsafe extern "C" {
    pub safe fn choose(number: u32);

    pub safe fn chosen() -> u32;

    pub safe fn refused_request() -> u64;

    pub safe fn refuse_request(number: u64);

    pub safe fn was_request_refused() -> u32;
}
"""
HALTS = """//! A request for memory that halts, and a thread that waits for a lock meanwhile.

unsafe extern "C" {
    pub safe fn halt_request(number: u32);

    pub safe fn is_request_halted() -> u32;

    pub safe fn let_request_go_on();

    pub safe fn watch_thread(it: u32);

    pub safe fn is_thread_waiting() -> u32;
}
"""


def add_bodies(copy, edits):
    """Has each function take the body of an edit where its number is chosen."""
    found = {}
    for number, edit in edits:
        for path, place, body in edit.bodies(copy):
            found.setdefault(path, {}).setdefault(place, []).append((number, body))
    for path, places in found.items():
        choice = f"{'crate' if f'/crates/{LOWEST}/' in path else LOWEST}::choice::chosen()"
        text, made, end = read(path), "", 0
        for place, function in enumerate(functions_of(text)):
            made += text[end : function.body]
            end = function.last
            right = text[function.body : end]
            bodies = places.get(place, [])
            made += "".join(f"if {choice} == {number} {{\n{body}}} else " for number, body in bodies)
            made += f"{{\n{right}}}\n" if bodies else right
        write(path, made + text[end:])


def tests_of(copy):
    """Each folder of tests, with the ending of its files, its modules and what they use."""
    listed = dict(re.findall(r"^([a-z0-9_]+)\b[^#\n]*:(.*)$", read(f"{copy}/crates.txt"), re.M))
    for crate, used in listed.items():
        folder = f"{copy}/crates/{crate}/src/tests"
        if os.path.exists(f"{folder}.rt"):
            yield folder, ".rt", re.findall(r"^mod (\w+);$", read(f"{folder}.rt"), re.M), used.split()
    yield f"{copy}/{LEFT_OUT}", ".rs", modules_left_out(copy), listed


def modules_left_out(copy):
    """The outermost modules of the tests that the gate leaves out, each a file or a folder."""
    return modules_in(f"{copy}/{LEFT_OUT}", ".rs")


def modules_in(folder, ending):
    """The modules of a folder."""
    names = os.listdir(folder)
    return sorted({name.removesuffix(ending) for name in names if name.endswith(ending) or "." not in name})


def declare_modules(folder):
    """Has each folder below this one that has no file of its own declare its modules."""
    for place, folders, _ in os.walk(folder):
        for name in folders:
            file = f"{place}/{name}.rt"
            if not os.path.exists(file):
                modules = modules_in(f"{place}/{name}", ".rt")
                write(file, "".join(f"pub mod {module};\n" for module in modules))


def files_of(folder):
    """The files below a folder."""
    return [os.path.join(place, file) for place, _, files in os.walk(folder) for file in files]


def join_tests(copy, wanted):
    """Makes the suite of these modules, and of those that they use."""
    suite, uses = f"{copy}/crates/{SUITE}/src", set()
    for folder, ending, modules, used in tests_of(copy):
        if {module.split("::")[0] for module in wanted}.intersection(modules):
            for path in (path for path in files_of(folder) if path.endswith(ending)):
                source = f"{suite}/tests/{os.path.relpath(path, folder).removesuffix(ending)}.rt"
                os.makedirs(os.path.dirname(source), exist_ok=True)
                shutil.copyfile(path, source)
            uses.update(used)
    leave_out_unused(f"{suite}/tests", wanted)
    declare_modules(f"{suite}/tests")
    write(f"{suite}/lib.rt", ROOT)
    write(f"{suite}/tests.rt", "".join(f"mod {module};\n" for module in modules_in(f"{suite}/tests", ".rt")))
    texts = [read(file) for file in files_of(f"{suite}/tests")]
    uses = [crate for crate in sorted(uses) if any(re.search(rf"\b{crate}::", text) for text in texts)]
    write(f"{copy}/crates.txt", f"{read(f'{copy}/crates.txt')}{SUITE}: {' '.join(uses)}\n")


def leave_out_unused(folder, wanted):
    """Leaves the files below a folder that are these modules, are below them, or are used by one that is left."""
    texts = {os.path.relpath(path, folder).removesuffix(".rt"): read(path) for path in files_of(folder)}
    left, new = set(), [module.replace("::", "/") for module in wanted]
    while new:
        named = new.pop()
        for path in texts.keys() - left:
            if path == named or path.startswith(f"{named}/") or named.startswith(f"{path}/"):
                left.add(path)
                new += [longest(texts, it) for it in paths_in(texts[path], path)]
                new += [path] if re.search(r"^(pub )?mod \w+;$", texts[path], re.M) else []
    for path in texts.keys() - left:
        os.remove(f"{folder}/{path}.rt")
    for place, _, _ in os.walk(folder, topdown=False):
        if not os.listdir(place):
            os.rmdir(place)


def paths_in(text, path):
    """The paths of modules that a file of this path names, each with the items below it."""
    for start, rest in re.findall(r"\b(crate::tests::|(?:super::)+)([\w:]+)", text):
        up = start.count("super::")
        yield "/".join([*(path.split("/")[:-up] if up else []), *rest.strip(":").split("::")])


def longest(texts, path):
    """The longest beginning of a path that is a file, or the path."""
    parts = path.split("/")
    found = ("/".join(parts[:count]) for count in range(len(parts), 0, -1))
    return next((it for it in found if it in texts), path)


def keep_tests(folder, edits, kept):
    """Has the modules below a folder keep the tests that an edit names, each with its copies.

    Those are kept, too, whose path or whose outermost module is one of kept.
    """
    for path in files_of(folder):
        module = os.path.relpath(path, folder).removesuffix(".rt").replace("/", "::")
        text, made, end = read(path), "", 0
        for function in functions_of(text):
            if text.endswith("#[test]\n", 0, function.first):
                test = text[function.first : function.end]
                made += text[end : function.first].removesuffix("#[test]\n")
                path_of_test = f"{module}::{function.name}"
                is_kept = bool(kept & {path_of_test, module.split("::")[0]})
                made += copies_of(test, function, path_of_test, edits, is_kept)
                end = function.end
        write(path, made + text[end:])


def copies_of(test, function, path, edits, is_kept):
    """A test, if it is kept or an edit names it, and its copies."""
    named = [(number, edit) for number, edit in edits if edit.test == path]
    copies = ["#[test]\n" + test] if named or is_kept else []
    body = function.body - function.first
    for number, edit in named:
        head = test[:body].replace(f"fn {function.name}", f"fn {edit.name.removesuffix('.edit')}")
        copies.append(f"#[test]\n{head}{LOWEST}::choice::choose({number});\n{test[body:]}")
    return "".join(copies)


def main(way, copy, *words):
    kept = set(words[:1]) if way in ("folder", "one") else set()
    edits = [(number, Edit(path)) for number, path in enumerate(words[len(kept) :], 1)]
    try:
        for _, edit in edits:
            edit.rewrite(copy)
        add_bodies(copy, edits)
    except Unapplied as why:
        sys.exit(str(why))
    if way != "program":
        tests = {edit.test for _, edit in edits} | kept
        join_tests(copy, kept if way == "folder" else {test.rpartition("::")[0] for test in tests})
        keep_tests(f"{copy}/crates/{SUITE}/src/tests", edits, kept)
    lowest = f"{copy}/crates/{LOWEST}/src"
    write(f"{lowest}/choice.rt", CHOICE)
    write(f"{lowest}/halts.rt", HALTS)
    write(f"{lowest}/lib.rt", read(f"{lowest}/lib.rt") + "\npub mod choice;\n\npub mod halts;\n")


main(*sys.argv[1:])
