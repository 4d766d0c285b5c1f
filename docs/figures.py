#!/usr/bin/env python3
"""Writes the figures of docs/figures.txt where readers look for them.

They become text and tables in README.md, docs/MEASURED.md, docs/PROCESSORS.md and docs/EXSIM.md, between
the lines '<!-- figures: KIND -->' and '<!-- end -->', and the charts docs/benchmark.svg and
docs/throughput.svg.
With the argument --check nothing is written: each page that does not say what docs/figures.txt says
is named, and the last line counts the pages.

The arguments --busy FILE put what FILE says of the polls that work into docs/figures.txt first. Its
lines are 'value WHO ROW NANOSECONDS ..': WHO is ours, rust or tokio, ROW busy_W_T, parked_busy_W_T or
sharded_busy_W_T, and each number is that of a pass. A line 'swept ..' says how they were taken. Its other lines are
left out.
"""
import itertools
import pathlib
import re
import sys
import textwrap

sys.dont_write_bytecode = True
import processors
import throughput

TOP = pathlib.Path(__file__).resolve().parent.parent
PAGES = ("README.md", "docs/MEASURED.md", "docs/PROCESSORS.md", "docs/EXSIM.md")
HEADS = {
    "beside": ("what", "async-executor 1.14.1", "tokio 1.24", "the kit's futures and tokio", "here"),
    "bench": ("row", "one operation", "instructions (the Rust crate)", "nanoseconds"),
    "utilities": ("row", "one operation", "instructions (smol's crates)", "nanoseconds (smol's crates)"),
    "busy": ("work", "runs never park", "the Rust crate", "runs park", "by shards", "the Rust crate", "tokio 1.24"),
    "shards": ("row", "one operation", "shards", "one executor", "the Rust crate", "tokio 1.24"),
    "processors": ("row", "predicted", "measured"),
    "expected": ("what", *map(str, processors.PROCESSORS)),
    "exsim": ("lines", "milliseconds", "million instructions", "peak memory, MB"),
}


def figures():
    """The fields of each line, by the line's kind."""
    found = {}
    for line in (TOP / "docs/figures.txt").read_text().splitlines():
        if line and not line.startswith("#"):
            kind, *fields = (field.strip() for field in line.split("|"))
            found.setdefault(kind, []).append(fields)
    return found


def first(found):
    """The figures that the README begins with."""
    spawn = next(row for row in found["bench"] if row[0] == "spawn_try_tick")
    shards = next(row for row in found["shards"] if row[0] == "sharded_yield_T")
    times = throughput.listed(medians(shards[3]).split(", "))
    return (
        f"- A task is spawned, run and ended in {spawn[2]} instructions; the Rust crate takes {spawn[3]}.\n"
        f"- With a shard for each thread, a yield takes {times} nanoseconds on one, two and four threads.\n"
        "- A task takes no allocation of its own: tables grow, and keep their memory."
    )


def commands(found):
    """The commands that a reader begins with, what each does, and how long it takes."""
    width = max(len(command) for command, *_ in found["time"])
    lines = [f"{command:<{width}}  # {said}" for command, said in found["time"]]
    return "\n".join(["```sh", *lines, "```"])


def families(rows):
    """Rows whose names differ in their last number alone, one after another, as one row: instructions, and
    nanoseconds, here and of others."""
    for _, family in itertools.groupby(rows, lambda row: row[0].rstrip("0123456789")):
        (name, said, *_), *others = family = list(family)
        names = [f"`{name}`", *(re.search(r"\d+$", row[0])[0] for row in others)]
        cells = zip(*(row[2:] for row in family))
        ours, theirs, *times = ("-" if set(cell) == {"-"} else ", ".join(cell) for cell in cells)
        yield ", ".join(names), said, next_to(ours, theirs), next_to(*times)


def next_to(ours, theirs="-"):
    """Figures here, and those of others in brackets, if there are any."""
    return ours if theirs == "-" else f"{ours} ({theirs})"


def medians(times):
    """The medians of minima and medians."""
    return ", ".join(time.split("/")[-1] for time in times.split(", "))


def beside(found):
    """The rows that set executors side by side, with '{ROW WHO}' filled in by the figure of that row."""
    named = {}
    for name, _, *instructions, _ in found["bench"]:
        named.update(zip((f"{name} here", f"{name} rust"), instructions))
    for name, _, _, *times in found["shards"]:
        whose = (f"{name} {who}" for who in ("shards", "here", "rust", "tokio"))
        named.update(zip(whose, map(medians, times)))
    fill = lambda cell: re.sub(r"\{(.*?)\}", lambda figure: named[figure[1]], cell)
    return [[fill(cell) for cell in row] for row in found["beside"]]


def rows(kind, found):
    """The rows of a table of this kind."""
    if kind == "beside":
        return beside(found)
    if kind in ("bench", "utilities"):
        return list(families(found[kind]))
    if kind == "busy":
        by_kind = zip(*(found[kind] for kind in throughput.SWEPT))
        return [(*never, parked[1], *shards[1:], *parked[2:]) for never, parked, shards in by_kind]
    if kind == "shards":
        spawner = next(row for row in found["threads"] if row[0] == "one_spawner_T")
        # The page says that T is 1, 2, 4 but in the last row.
        return [(*row[:2], *row[3:]) for row in found["shards"]] + [(*spawner[:2], "-", *spawner[3:], "-")]
    if kind == "processors":
        return processors.compared(found)
    if kind == "expected":
        return processors.expected(found)
    return found[kind]


def wrapped(text):
    """The text in lines as wide as those of a page."""
    return "\n".join(textwrap.wrap(text, 110))


SAID = {
    "first": first,
    "time": commands,
    "ahead": throughput.ahead,
    "taken": lambda found: wrapped(f"Taken at {found['taken'][0][0]}."),
    "furthest": lambda found: wrapped(processors.furthest(found)),
    "programs": lambda found: wrapped(f"These are of {found['programs'][0][0]}."),
    "swept": lambda found: wrapped(f"These are {found['swept'][0][0]}."),
}


def table(kind, found):
    """What a page says of a kind: its text, or its rows as a table. What was not measured is left empty."""
    if kind in SAID:
        return SAID[kind](found)
    shown = (["" if cell == "-" else cell for cell in line] for line in rows(kind, found))
    head, *lines = (" | ".join(line).rstrip() for line in (HEADS[kind], *shown))
    return "\n".join((head, "|".join(["---"] * len(HEADS[kind])), *lines))


def page(text, found):
    """The page with its tables made anew."""
    return re.sub(
        r"(<!-- figures: (\w+) -->\n)(?:(?!<!-- figures).)*?(<!-- end -->)",
        lambda block: f"{block[1]}{table(block[2], found)}\n{block[3]}",
        text,
        flags=re.DOTALL,
    )


# The rows of the chart, with what a reader calls each.
SHOWN = {
    "spawn_try_tick": "spawn a task and run it",
    "spawn_drain": "spawn many, then run them",
    "spawn_cancel": "spawn a task and cancel it",
    "spawn_many_run": "spawn_many, await each",
    "spawn_await_run": "spawn and await, one by one",
    "spawn_try_tick_4k": "spawn a future of 4,096 bytes",
    "yield_try_tick": "a yield, by try_tick",
    "yield_run": "a yield, in a run",
    "ping_pong": "two tasks wake each other",
    "idle_million": "wake one of 1,000,000 idle",
    "idle_run_0": "poll a run that finds nothing",
    "idle_run_15": "the same, beside 15 idle runs",
    "local_spawn_try_tick": "spawn and run, LocalExecutor",
    "static_spawn_try_tick": "spawn and run, StaticExecutor",
}
# Where the names of the rows end, how long a bar is that takes as many instructions as the Rust crate,
# and where the two columns of figures end.
NAMES = 250
SAME = 196
COLUMNS = (612, 706)


def chart(found):
    """Rows of the benchmark as bars, each as a part of the same row of the Rust crate."""
    counted = {name: (ours, theirs) for name, _, ours, theirs, _ in found["bench"]}
    shown = {name: counted[name] for name in SHOWN}
    height = 84 + 24 * len(shown)
    same = NAMES + 8 + SAME
    said = " ".join(f"{SHOWN[name]}: {count[0]}, the Rust crate {count[1]}." for name, count in shown.items())
    lines = [
        throughput.opening(height),
        '<title id="title">Instructions an operation, beside the Rust crate: fewer is better</title>',
        f'<desc id="description">{said}</desc>',
        throughput.STYLE,
        f'<rect class="ground" width="{throughput.WIDTH}" height="{height}"/>',
        '<text x="10" y="24" font-size="16">Instructions an operation, beside the Rust crate: '
        "fewer is better</text>",
        f'<text x="{same}" y="52" text-anchor="middle">100 %</text>',
        f'<text x="{COLUMNS[0]}" y="52" text-anchor="end">here</text>',
        f'<text x="{COLUMNS[1]}" y="52" text-anchor="end">Rust crate</text>',
    ]
    for place, (name, (ours, theirs)) in enumerate(shown.items()):
        top = 64 + 24 * place
        width = round(SAME * int(ours) / int(theirs), 1)
        lines += [
            f'<text x="{NAMES}" y="{top + 13}" text-anchor="end">{SHOWN[name]}</text>',
            f'<rect class="ours" x="{NAMES + 8}" y="{top}" width="{width:g}" height="17"/>',
            f'<text x="{COLUMNS[0]}" y="{top + 13}" text-anchor="end">{ours}</text>',
            f'<text x="{COLUMNS[1]}" y="{top + 13}" text-anchor="end">{theirs}</text>',
        ]
    lines.append(f'<path class="ideal" d="M{same} 60V{height - 14}" stroke-width="2"/>')
    return "\n".join(lines + ["</svg>", ""])


def main():
    if sys.argv[1:2] == ["--busy"]:
        file = TOP / "docs/figures.txt"
        file.write_text(throughput.with_measured(file.read_text(), pathlib.Path(sys.argv[2]).read_text()))
    found = figures()
    wanted = {name: page((TOP / name).read_text(), found) for name in PAGES}
    wanted["docs/benchmark.svg"] = chart(found)
    wanted["docs/throughput.svg"] = throughput.picture(found)
    if sys.argv[1:] != ["--check"]:
        for name, text in wanted.items():
            (TOP / name).write_text(text)
        return 0
    failed = [kind for kind in found for fields in found[kind] if "?" in fields]
    for kind in failed:
        print(f"docs/figures.txt: a figure of the kind {kind} is still to be measured")
    for name, text in wanted.items():
        if not (TOP / name).exists() or (TOP / name).read_text() != text:
            print(f"{name}: not as docs/figures.py writes it")
            failed.append(name)
    print(f"{len(wanted) + sum(map(len, found.values())) - len(failed)} passed, {len(failed)} failed")
    return 1 if failed else 0


if __name__ == "__main__":
    sys.exit(main())
