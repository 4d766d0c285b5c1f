"""Checks each execution of a log twice: as steps of a world, and as what each call owes.

Usage: replay.py lines LOG FOLDER [CHECK:NAME..], which writes for each execution of the log the lines that
the world is to take, as FOLDER/NAME, and to FOLDER.said what the second check says and which replies are
wanted. If executions of wrong bodies are named, it leaves their others out, and the lines if CHECK is calls.
replay.py compare FOLDER OUTPUT compares these with the replies of exsim. It prints a line for each execution,
'NAME: N steps' or which check refuses it, and then how often each step had each reply with the right bodies,
and which have none.
"""
import json
import os
import sys
from collections import Counter

from edits import write
from owed_steps import check_calls
from recorded import Refused, executions
from world_steps import all_kinds, kind_of, steps_of

# How many lines are printed before the first that differs.
BEFORE = 10


def refused_by(check, lines, *more):
    """What a check gives, and why it refuses these lines, with those before."""
    try:
        return check(lines, *more), None
    except Refused as why:
        before = "".join(f"\n    {line}" for line in lines[max(0, why.at - BEFORE) : why.at + 1])
        return None, f"{why}{before}"


def is_right(name):
    """Whether an execution of this name is one of the right bodies."""
    return name.startswith("0.")


def write_lines(log, folder, *named):
    os.makedirs(folder, exist_ok=True)
    checks = dict(reversed(it.split(":")) for it in named)
    said, files = {}, {}
    for execution in executions(log):
        name = execution.name
        if checks and not is_right(name) and name not in checks:
            continue
        steps, unordered = refused_by(steps_of, execution.lines)
        _, calls = refused_by(check_calls, execution.lines, execution.end)
        said[name] = {"end": execution.end, "calls": calls, "order": unordered, "steps": steps or []}
        # Executions of the same lines, as a table has on executors of each kind, are one to the world.
        lines = "".join(f"{line}\n" for _, line, _ in steps or ())
        if checks.get(name) != "calls":
            said[name]["file"] = files.setdefault(lines, name)
            write(f"{folder}/{files[lines]}", f"{lines}show\n")
    with open(f"{folder}.said", "w") as file:
        json.dump(said, file)


def replies_in(output):
    """The replies that exsim gave, by execution."""
    replies, case = {}, None
    with open(output) as file:
        for text in file:
            if text.startswith("== "):
                case = replies.setdefault(text[3:].strip(), [])
            elif case is not None and not text.startswith("case="):
                case.append(text.rstrip("\n"))
    return replies


def difference(said, replies):
    """Where the world answers otherwise than the executor did, if anywhere, with the steps before."""
    if said["order"] or "file" not in said:
        return said["order"]
    steps = said["steps"]
    for number, (at, line, wanted) in enumerate(steps):
        got = replies[number] if number < len(replies) else "nothing"
        if got != wanted:
            before = steps[max(0, number - BEFORE) : number]
            shown = "".join(f"\n    {at}: {line} -> {reply}" for at, line, reply in before)
            return f"line {at}: {line} -> {wanted}, and the world says {got}{shown}"
    if said["end"] == "Wrong":
        return "line end: the program finds its end wrong"
    shown = replies[len(steps)] if len(steps) < len(replies) else "nothing"
    rest = "notices 0 picks 0" + (" undropped 0" if said["end"] == "Closed" else "")
    if rest not in shown:
        return f"line end: {shown}, and not {rest}"
    return None


def compare(folder, output):
    with open(f"{folder}.said") as file:
        all_said = json.load(file)
    replies, counts = replies_in(output), Counter()
    for name, said in all_said.items():
        steps, calls = difference(said, replies.get(said.get("file"), [])), said["calls"]
        if steps:
            print(f"{name}: steps, {steps}")
        if calls:
            print(f"{name}: calls, {calls}")
        if not steps and not calls:
            print(f"{name}: {len(said['steps'])} steps")
            if is_right(name):
                counts.update(kind_of(line, reply) for _, line, reply in said["steps"])
    for kind, times in sorted(counts.items()):
        print(f"{times:9,} {kind}")
    print(f"{sum(counts.values()):9,} steps")
    for kind in sorted(all_kinds() - counts.keys()):
        print(f"never: {kind}")


if __name__ == "__main__":
    {"lines": write_lines, "compare": compare}[sys.argv[1]](*sys.argv[2:])
