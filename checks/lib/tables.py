"""Makes the tables of lines that the player takes a part of the program that checks/replay.sh records.

Usage: tables.py TESTS SOURCE, the folders of the tests and of the program's sources. Of each module of
TESTS/executors it writes the tests that call the player, with the functions that these call, as
SOURCE/tables/MODULE.rt, and SOURCE/tables.rt, which takes all of them. It prints the number and the path of
each: what is recorded of test N has the numbers from 10 N on, one for each executor that plays it.
"""
import os
import re
import sys

from edits import functions_of, read, write

# Of whom a function of the program takes tables: its main alone has a runtime of its own.
TAKES = (
    "<R: AllocGlobal + std::sync::Wait + std::thread::Threads + Clone + Drop + Send + Sync + 'static>"
    "(rt: &R) -> Result<(), std::test::Fail>"
)
TABLES = """//! Takes each table of lines, with its number.
use executor_core::recorder::begin_table;

{modules}

pub fn take_all{takes} {{
{calls}
    Ok(())
}}
"""


def text_of(text, function):
    return text[function.first : function.end]


def tables_in(text):
    """The tests of a module that call the player, and the functions of it that these call."""
    functions = functions_of(text)
    tests = [it for it in functions if text.endswith("#[test]\n", 0, it.first)]
    tables = [it for it in tests if re.search(r"\bplay(_with|_unsharded|_once)?\(", text_of(text, it))]
    called = " ".join(text_of(text, it) for it in tables)
    helpers = [it for it in functions if it not in tests and re.search(rf"\b{it.name}\(", called)]
    return tables, helpers


def module_of(text, tables, helpers):
    """What is left of a module: what it uses, these functions, and the tests as functions of a program."""
    uses = "".join(re.findall(r"^use [^;]*;\n", text, re.M))
    parts = [uses.replace("crate::tests::support::running", "crate::support")]
    parts += [text_of(text, it) for it in helpers]
    for it in tables:
        body = text[it.body : it.end].replace("&rt", "rt")
        parts.append(f"pub fn {it.name}{TAKES} {{\n{body}")
    return "\n".join(parts)


def main(tests, source):
    os.makedirs(f"{source}/tables", exist_ok=True)
    modules, calls = [], []
    for file in sorted(os.listdir(f"{tests}/executors")):
        text, module = read(f"{tests}/executors/{file}"), file.removesuffix(".rs")
        tables, helpers = tables_in(text)
        if tables:
            modules.append(f"mod {module};")
            write(f"{source}/tables/{module}.rt", module_of(text, tables, helpers))
        for it in tables:
            print(len(calls), f"executors::{module}::{it.name}")
            calls.append(f"    begin_table({len(calls)});\n    {module}::{it.name}(rt)?;")
    modules, calls = "\n".join(modules), "\n".join(calls)
    write(f"{source}/tables.rt", TABLES.format(takes=TAKES, modules=modules, calls=calls))


if __name__ == "__main__":
    main(*sys.argv[1:])
