"""Draws docs/throughput.svg, how many processors' worth of work the polls of an executor do, and says
where others are ahead.

Read by docs/figures.py. The figures are those of the kinds busy, parked_busy and sharded_busy of
docs/figures.txt.
"""
import itertools
import re
import statistics
import textwrap

KINDS = {"busy": "runs that never park", "parked_busy": "runs that park"}
# These, and the shards beside them, whose runs park.
SWEPT = (*KINDS, "sharded_busy")
THREADS = {1: "one thread", 2: "two threads", 4: "four threads"}
# What draws an executor: its name here, in a file of passes and in the style, its dashes, its mark.
DRAWN = (
    ("here", "ours", "none", '<circle cx="{x:g}" cy="{y:g}" r="4.5"/>'),
    ("the Rust crate", "rust", "7 4", '<rect x="{x0:g}" y="{y0:g}" width="8" height="8"/>'),
    ("tokio 1.24", "tokio", "2 4", '<path d="M{x:g} {y0:g}l5 9h-10z"/>'),
)
# The colors of a light page, and those of a dark one.
COLORS = (
    "text{fill:#1f2328}.ground{fill:#ffffff}.grid{stroke:#dfe3e8}.ideal{stroke:#8a929c}"
    ".ours{fill:#1f5fa8;stroke:#1f5fa8}.rust{fill:#b8500f;stroke:#b8500f}.tokio{fill:#3c7a3c;stroke:#3c7a3c}",
    "text{fill:#e6edf3}.ground{fill:#0d1117}.grid{stroke:#30363d}"
    ".ours{fill:#6cb0ff;stroke:#6cb0ff}.rust{fill:#f0883e;stroke:#f0883e}.tokio{fill:#56d364;stroke:#56d364}",
)
STYLE = f"<style>{COLORS[0]}@media(prefers-color-scheme:dark){{{COLORS[1]}}}</style>"
WIDTH = 720
LEFT = 70
# Between two amounts of work, and for one processor.
STEP = 88
PROCESSOR = 52


def measured(text):
    """The lines of docs/figures.txt that passes of all rows come to: 'value WHO ROW NANOSECONDS ..'."""
    passes = {}
    for line in text.splitlines():
        row = re.fullmatch(r"value (\w+) (\w*busy)_(\d+)_(\d+) (.*)", line)
        if row:
            times = [float(time) for time in row[5].split()]
            both = f"{min(times):.0f}/{statistics.median(times):.0f}"
            passes[row[1], row[2], int(row[3]), int(row[4])] = both
    works = sorted({work for _, _, work, _ in passes})
    lines = []
    for kind in SWEPT:
        # In runs that never park there is no tokio, and of shards there is one executor alone.
        names = [name for _, name, *_ in DRAWN if any((name, kind, work, 1) in passes for work in works)]
        for work in works:
            cells = [", ".join(passes[name, kind, work, threads] for threads in THREADS) for name in names]
            lines.append(" | ".join((kind, f"{work:,}", *cells)))
    return lines


def with_measured(figures, passes):
    """The text of docs/figures.txt with the lines of these passes in place of those that it has."""
    for kind in SWEPT:
        lines = [line for line in measured(passes) if line.startswith(f"{kind} |")]
        if lines:
            figures = re.sub(rf"(^{kind} \|.*\n)+", "\n".join(lines) + "\n", figures, flags=re.MULTILINE)
    said = re.search("^swept (.*)$", passes, flags=re.MULTILINE)
    return re.sub("(?<=^swept \\| ).*$", lambda _: said[1], figures, flags=re.MULTILINE) if said else figures


def number(text):
    """A number that is written with commas."""
    return int(text.replace(",", ""))


def median(row, executor, threads):
    """Nanoseconds a poll on so many threads, of a row of docs/figures.txt."""
    return int(row[1 + executor].split(", ")[list(THREADS).index(threads)].split("/")[1])


def listed(words):
    """A list of words, as in a sentence."""
    return " and ".join(filter(None, (", ".join(words[:-1]), words[-1])))


def ranges(words, those):
    """Those of the words that are among those, in ranges if they follow one another."""
    parts = []
    for is_one, group in itertools.groupby(words, those.__contains__):
        group = list(group)
        if is_one:
            parts += group if len(group) < 3 else [f"{group[0]} to {group[-1]}"]
    return parts


def ahead(found):
    """The works at which another executor is ahead by more than a hundredth, in a sentence for each kind."""
    sentences = []
    for kind, runs in KINDS.items():
        parts = []
        for executor in range(1, len(found[kind][0]) - 1):
            places = []
            for threads, name in THREADS.items():
                is_ahead = lambda row: 1.01 * median(row, executor, threads) < median(row, 0, threads)
                those = [row[0] for row in found[kind] if is_ahead(row)]
                works = ranges([row[0] for row in found[kind]], those)
                places += [f"on {name} at {listed(works)}"] if works else []
            where = listed(places) if places else "nowhere"
            parts.append(f"{DRAWN[executor][0]} is ahead {where}")
        sentences.append(f"In {runs} {'; '.join(parts)}.")
    return "\n".join(textwrap.wrap(" ".join(sentences), 110))


def pace(rows):
    """How long the machine took for what a row calls a nanosecond of work: by the longest polls, on one thread."""
    longest = rows[-1]
    return min(median(longest, executor, 1) for executor in range(len(DRAWN))) / number(longest[0])


def worth(rows, executor):
    """For each number of threads the work that an executor does in a time, by the amount of a poll's work."""
    by_threads = {threads: [] for threads in THREADS}
    nanosecond = pace(rows)
    for row in rows:
        for threads in THREADS:
            by_threads[threads].append(nanosecond * number(row[0]) / median(row, executor, threads))
    return by_threads


def curve(points, executor, dashes, mark):
    """A line through these points, with a mark at each."""
    path = " ".join(f"{x:g},{y:g}" for x, y in points)
    marks = "".join(mark.format(x=x, y=y, x0=x - 4, y0=y - (6 if "path" in mark else 4)) for x, y in points)
    return (
        f'<g class="{executor}"><polyline points="{path}" style="fill:none" stroke-width="2.5" '
        f'stroke-dasharray="{dashes}"/><g stroke="none">{marks}</g></g>'
    )


def said(nanoseconds):
    """An amount of work as a reader says it."""
    return f"{nanoseconds} ns" if nanoseconds < 1_000 else f"{nanoseconds // 1_000} \u00b5s"


def panel(threads, bottom, works, all_worth):
    """What this many threads do, above this height of the picture."""
    places = [LEFT + 30 + STEP * n for n in range(len(works))]
    right = places[-1] + 30
    height = lambda processors: round(bottom - PROCESSOR * processors, 1)
    lines = [f'<text x="{LEFT}" y="{height(threads) - 12:g}" font-weight="bold">{THREADS[threads]}</text>']
    for processors in range(threads + 1):
        ideal = processors == threads
        stroke = 'class="ideal" stroke-width="3"' if ideal else 'class="grid"'
        lines += [
            f'<line x1="{LEFT}" y1="{height(processors):g}" x2="{right}" y2="{height(processors):g}" {stroke}/>',
            f'<text x="{LEFT - 8}" y="{height(processors) + 4:g}" text-anchor="end">{processors}</text>',
        ]
    for (_, *look), of_executor in reversed(list(zip(DRAWN, all_worth))):
        points = [(x, height(y)) for x, y in zip(places, of_executor[threads])]
        lines.append(curve(points, *look))
    for x, work in zip(places, works):
        lines.append(f'<text x="{x}" y="{bottom + 18}" text-anchor="middle">{said(work)}</text>')
    return lines


def description(works, all_worth):
    """The figures in words."""
    sentences = []
    for threads in THREADS:
        for place, work in enumerate(works):
            values = [f"{name} {of[threads][place]:.2f}" for (name, *_), of in zip(DRAWN, all_worth)]
            sentences.append(f"On {THREADS[threads]}, polls of {said(work)}: {', '.join(values)}.")
    return " ".join(sentences)


def legend(y):
    """What each line stands for."""
    lines = [
        f'<line x1="{LEFT}" y1="{y}" x2="{LEFT + 34}" y2="{y}" class="ideal" stroke-width="3"/>',
        f'<text x="{LEFT + 44}" y="{y + 5}">ideal</text>',
    ]
    for x, (name, *look) in zip((LEFT + 130, LEFT + 260, LEFT + 450), DRAWN):
        lines += [curve([(x, y), (x + 34, y)], *look), f'<text x="{x + 44}" y="{y + 5}">{name}</text>']
    return lines


def opening(height):
    """Where a picture of this height begins."""
    return (
        f'<svg xmlns="http://www.w3.org/2000/svg" width="{WIDTH}" height="{height}" '
        f'viewBox="0 0 {WIDTH} {height}" role="img" aria-labelledby="title description" '
        'font-family="sans-serif" font-size="14">'
    )


def picture(found):
    """The work that is done in a time, as so many processors, over the work of a poll."""
    rows = [row for row in found["parked_busy"] if row[0] != "0"]
    works = [number(row[0]) for row in rows]
    all_worth = [worth(rows, executor) for executor in range(len(DRAWN))]
    lines, bottom = legend(74), 100
    for threads in THREADS:
        bottom += 34 + PROCESSOR * threads
        lines += panel(threads, bottom, works, all_worth)
        bottom += 24
    height = bottom + 34
    title = "Processors' worth of work that 1,000 tasks do, over the work of a poll: more is better"
    return "\n".join(
        [
            opening(height),
            f'<title id="title">{title}</title>',
            f'<desc id="description">{description(works, all_worth)}</desc>',
            STYLE,
            f'<rect class="ground" width="{WIDTH}" height="{height}"/>',
            f'<text x="10" y="24" font-size="15">{title}</text>',
            '<text x="10" y="46" font-size="13">Each task wakes itself in each poll. The runs park while '
            "there is nothing to run. Medians.</text>",
            *lines,
            f'<text x="{WIDTH // 2}" y="{height - 10}" text-anchor="middle">work in each poll</text>',
            "</svg>",
            "",
        ]
    )
