"""Draws an execution that was written down, as an SVG: a lane for each thread, and the lengths below.

A bar is a poll of a task, or the drop of its future, in the colour of the task. A line is a step on what is
shared, with its reply. A step that gave a notice has a circle, and one that gave or spent a pick a square. A
thin arrow goes from the step that queued a task, with its notice, to its take by another thread, and a thick
one from the notification of another thread's sleeper, which spends a pick, to its next step. Below stand how
many tasks are in the queues together, and how many sleepers have numbers. Text stands before all lines, with
an edge in the colour of the ground. The text that a screen reader reads has each step.
Usage: portray.py window LOG NAME [FROM TO], for the execution NAME of a log of checks/replay.sh, as
0.fixed_3, from one of its lines to another. It prints the picture.
portray.py differences LOG SAID FOLDER PREFIX draws each execution of the log whose name begins with PREFIX
and of which SAID, what checks/lib/replay.py compares, says at which line it differs: from 40 steps before
that line, which is marked, to 15 behind it. Of each wrong body it draws the first. It prints the names of
the files.
"""
import re
import sys
from html import escape
from math import hypot

from recorded import Refused, executions, walk
from world_steps import steps_of

WIDTH, LEFT, LANE, BAR, BELOW, LEGEND = 1000, 76, 148, 18, 60, 24
# How far from the middle of a mark an arrow begins and ends.
MARK = 5
# How many steps are drawn before the first difference, and behind it.
BEFORE, BEHIND = 40, 15
# So many characters of a text fit into a line.
MOST_SAID = 165
STYLE = """
  text { font: 11px system-ui, sans-serif; fill: #1f2328; stroke: #ffffff }
  text { paint-order: stroke; stroke-width: 3px; stroke-linejoin: round }
  .small { font-size: 10px }
  .of { font-size: 10px; stroke: none }
  .lane { stroke: #8b949e; stroke-width: 1 }
  .step { stroke: #1f2328; stroke-width: 1 }
  .passes { fill: none; stroke: #57606a; stroke-width: 1 }
  .notice { fill: #ffffff; stroke: #57606a; stroke-width: 1.5 }
  .pick { fill: #b35900 }
  .end { fill: #8b6d3f }
  .wakes { fill: none; stroke: #b35900; stroke-width: 2.5 }
  .length { fill: #a8c7fa }
  .sleepers { fill: none; stroke: #b35900; stroke-width: 2 }
  .asleep { fill: #b35900 }
  .back { fill: #ffffff }
  .fault { stroke: #cf222e; stroke-width: 2; stroke-dasharray: 5 3 }
  .why { fill: #cf222e }
  @media (prefers-color-scheme: dark) {
    text { fill: #e6edf3; stroke: #0d1117 }
    .of { stroke: none }
    .notice { fill: #0d1117; stroke: #9da7b3 }
    .pick { fill: #f0883e }
    .end { fill: #d0a35e }
    .step { stroke: #e6edf3 }
    .passes { stroke: #9da7b3 }
    .wakes, .sleepers { stroke: #f0883e }
    .length { fill: #274a78 }
    .back { fill: #0d1117 }
    .fault { stroke: #ff7b72 }
    .why { fill: #ff7b72 }
    .asleep { fill: #f0883e }
    .bar { filter: brightness(0.62) }
  }
"""


class Picture:
    """The steps of a window, each with its place from left to right, and the lanes of their threads."""

    def __init__(self, lines, first, last):
        self.lines = {line.at: line for line in lines}
        self.all_steps = steps_in(lines)
        self.steps = [step for step in self.all_steps if first <= step[0] <= last]
        self.lanes = sorted({self.lines[at].thread for at, _, _ in self.steps})
        self.by = (WIDTH - LEFT - 12) / max(1, len(self.steps))
        self.drawn, self.said = [], []
        self.labels = []
        self.height = 24 + LANE * len(self.lanes) + 2 * BELOW + LEGEND

    def x(self, place):
        return LEFT + self.by * (place + 0.5)

    def y(self, at):
        return 24 + LANE * self.lanes.index(self.lines[at].thread)

    def x_of_line(self, at):
        """Where a line stands that may be no step: behind the steps before it."""
        return LEFT + self.by * sum(1 for it, _, _ in self.steps if it < at)

    def draw(self, text):
        self.drawn.append(f"  {text}")

    def label(self, kind, place, text):
        """A text, which stands before all that is drawn."""
        self.labels.append(f'  <text class="{kind}" {place}>{escape(str(text))}</text>')

    def draw_lanes(self):
        for number, thread in enumerate(self.lanes):
            y = 24 + LANE * number
            self.draw(f'<line class="lane" x1="{LEFT}" y1="{y + BAR}" x2="{WIDTH - 8}" y2="{y + BAR}"/>')
            self.label("lane-name", f'x="8" y="{y + BAR + 4}"', f"thread {thread}")

    def draw_polls(self, lines, first, last):
        for line, frame, _ in walk(lines):
            is_end = line.word == "End" and frame.word in ("Future", "Disposal")
            if is_end and first <= frame.at and line.at <= last:
                self.draw_bar(frame, line)

    def draw_bar(self, frame, end):
        x, to = self.x_of_line(frame.at), self.x_of_line(end.at)
        y, width = self.y(frame.at), max(to - x, self.by * 0.7)
        colour = f"hsl({frame.of * 67 % 360} 65% 72%)"
        self.draw(f'<rect class="bar" x="{x:.1f}" y="{y}" width="{width:.1f}" height="{BAR - 2}" rx="3"'
                  f' fill="{colour}"/>')
        self.label("of", f'x="{x + 2:.1f}" y="{y + 12}"', frame.of)

    def draw_steps(self):
        for place, (at, step, reply) in enumerate(self.steps):
            x, y = self.x(place), self.y(at) + BAR
            shown = step if not step.startswith("search") else " ".join(step.split()[:2])
            said = shown if reply in ("nothing", "done") or step == "show" else f"{shown} → {reply}"
            self.draw(f'<line class="step" x1="{x:.1f}" y1="{y - 3}" x2="{x:.1f}" y2="{y + 5}"/>')
            self.draw_mark(x, y, step, reply)
            place = f"translate({x - 3:.1f} {y + 9}) rotate(90)"
            self.label("small", f'transform="{place}"', said)
            self.said.append(f"thread {self.lines[at].thread}: {step} → {reply}")

    def draw_mark(self, x, y, step, reply):
        """The mark of a step that gave a notice, or that gave or spent a pick."""
        if gives_notice(step, reply):
            self.draw(f'<circle class="notice" cx="{x:.1f}" cy="{y}" r="3"/>')
        elif reply == "pick" or step == "notify":
            self.draw(f'<rect class="pick" x="{x - 3:.1f}" y="{y - 3}" width="6" height="6"/>')

    def draw_legend(self):
        """What the marks and the arrows stand for."""
        y = self.height - 9
        self.draw(f'<circle class="notice" cx="{LEFT + 4}" cy="{y - 4}" r="3"/>')
        self.draw(f'<rect class="pick" x="{LEFT + 104}" y="{y - 7}" width="6" height="6"/>')
        self.draw(f'<path class="passes" marker-end="url(#end)" d="M{LEFT + 270} {y - 4}h24"/>')
        self.draw(f'<path class="wakes" marker-end="url(#end)" d="M{LEFT + 560} {y - 4}h24"/>')
        for x, said in (
            (14, "gives a notice"),
            (116, "gives or spends a pick"),
            (300, "a task and its notice pass to another thread"),
            (590, "a pick passes to a sleeper of another thread"),
        ):
            self.label("small", f'x="{LEFT + x}" y="{y}"', said)

    def draw_arrow(self, kind, start, end):
        """An arrow from the edge of the mark of one step to that of another, from above or along its lane."""
        (x, y), (to, down) = ((self.x(place), self.y(self.steps[place][0]) + BAR) for place in (start, end))
        rise, fall = ((x + to) / 2, y - 22), (to - 14, down - 36) if down > y else (to - 36, down)
        points = (beside_mark((x, y), rise), rise, fall, beside_mark((to, down), fall))
        first, *rest = (f"{right:.1f} {below:.1f}" for right, below in points)
        self.draw(f'<path class="{kind}" marker-end="url(#end)" d="M{first} C{" ".join(rest)}"/>')

    def draw_passing(self):
        """The arrows, by what each step queues, takes and notifies."""
        queued, numbers, notified = {}, {}, {}
        for place, (at, step, reply) in enumerate(self.steps):
            word, *of = step.split()
            said, *value = reply.split()
            if said in ("task", "queued"):
                queued[value[0]] = place
            elif said == "notice" and of:
                queued[of[0]] = place
            elif said in ("poll", "drop") and word in ("search", "trytick", "tryany", "drain"):
                self.draw_if_apart("passes", queued.pop(value[0], None), place)
            if said == "number":
                numbers[value[0]] = of[0]
            elif said == "sleeper":
                notified[numbers.get(value[0])] = place
            elif of and word in ("poll", "sleep", "remove", "unregister", "drop"):
                self.draw_if_apart("wakes", notified.pop(of[0], None), place)

    def draw_if_apart(self, kind, start, end):
        if start is not None and self.thread(start) != self.thread(end):
            self.draw_arrow(kind, start, end)

    def thread(self, place):
        return self.lines[self.steps[place][0]].thread

    def draw_fault(self, at, why):
        """Marks the line that differs, and says why."""
        x = self.x_of_line(at)
        self.draw(f'<line class="fault" x1="{x:.1f}" y1="18" x2="{x:.1f}" y2="{self.height - LEGEND - 16}"/>')
        said = why if len(why) <= MOST_SAID else f"{why[:MOST_SAID]}.."
        self.label("why", 'x="8" y="13"', said)
        self.said.append(f"It differs: {why}")

    def draw_lengths(self):
        """How many tasks are queued and how many sleepers there are, after each step of these."""
        base, queued, sleepers, path = self.height - LEGEND - 16, 0, 0, []
        shown = {at for at, _, _ in self.steps}
        lengths = []
        for at, step, reply in self.all_steps:
            queued += change_of_queues(step, reply)
            sleepers += (reply.startswith("number ")) - (reply in ("notified", "unnotified"))
            if at in shown:
                lengths.append((queued, sleepers))
        most = max(1, *(max(pair) for pair in lengths))
        for place, (tasks, asleep) in enumerate(lengths):
            high = (BELOW - 6) * tasks / most
            self.draw(f'<rect class="length" x="{self.x(place) - self.by / 2:.1f}" y="{base - high:.1f}"'
                      f' width="{self.by:.1f}" height="{high:.1f}"/>')
            path.append(f"{self.x(place):.1f} {base - (BELOW - 6) * asleep / most:.1f}")
        self.draw(f'<polyline class="sleepers" points="{", ".join(path)}"/>')
        self.label("lane-name", f'x="8" y="{base - 34}"', "queued")
        self.label("asleep", f'x="8" y="{base - 18}"', "sleepers")
        self.label("small", f'x="{LEFT - 16}" y="{base - BELOW + 14}"', most)
        self.label("small", f'x="{LEFT - 16}" y="{base}"', 0)

    def text(self, name):
        steps = escape(". ".join(self.said))
        return "\n".join([
            f'<svg xmlns="http://www.w3.org/2000/svg" viewBox="0 0 {WIDTH} {self.height}" role="img"'
            ' aria-labelledby="title steps">',
            f'  <title id="title">What {len(self.lanes)} threads did, in the order of their tickets</title>',
            f'  <desc id="steps">{escape(name)}. {steps}.</desc>',
            f"  <style>{STYLE}  </style>",
            '  <defs><marker id="end" viewBox="0 0 6 6" refX="5" refY="3" markerWidth="6" markerHeight="6"'
            ' orient="auto" markerUnits="userSpaceOnUse"><path class="end" d="M0 0L6 3L0 6z"/></marker>'
            '</defs>',
            f'  <rect class="back" width="{WIDTH}" height="{self.height}"/>',
            *self.drawn,
            *self.labels,
            "</svg>",
        ])


def beside_mark(mark, towards):
    """Where the edge of a mark is, on the way towards a point."""
    (x, y), (to, down) = mark, towards
    way = hypot(to - x, down - y)
    return x + MARK * (to - x) / way, y + MARK * (down - y) / way


def gives_notice(step, reply):
    """Whether a notice comes of a step."""
    word, said = step.split()[0], reply.split()[0]
    return said in ("task", "queued", "notice", "notified") or (
        said in ("poll", "drop") and word in ("search", "trytick", "tryany")
    )


def change_of_queues(step, reply):
    """How many tasks more stand in the queues after a step. A close or a leak is not drawn."""
    said, word = reply.split()[0], step.split()[0]
    if said in ("task", "queued") or said == "notice" and word in ("wake", "cancel", "drophandle"):
        return 1
    return -1 if said in ("poll", "drop") and word in ("search", "trytick", "tryany", "drain") else 0


def steps_in(lines):
    """The steps of these lines, or of those before the first that is no step of a world."""
    try:
        return steps_of(lines)
    except Refused as why:
        return steps_in(lines[: why.at])


def picture_of(execution, first, last, fault=None):
    """The picture of a window of an execution, with its fault: the line, and why."""
    picture = Picture(execution.lines, first, last)
    picture.draw_lanes()
    picture.draw_lengths()
    picture.draw_polls(execution.lines, first, last)
    picture.draw_passing()
    picture.draw_steps()
    picture.draw_legend()
    if fault:
        picture.draw_fault(*fault)
    return picture.text(execution.name)


def draw_window(log, name, first=0, last=10**9):
    for execution in executions(log):
        if execution.name == name:
            print(picture_of(execution, int(first), int(last)))
            return
    sys.exit(f"no execution {name}")


def faults_in(said, prefix):
    """For each execution that is drawn, what is said of its first difference."""
    faults, drawn = {}, set()
    with open(said) as file:
        for text in file:
            found = re.match(r"((\d+)\.\w+): (?:steps|calls), (line (\d+|end): .*)", text)
            if found and found[1].startswith(prefix) and found[2] not in drawn:
                faults.setdefault(found[1], (found[4], f"{found[1]}, {found[3]}"))
                drawn |= {found[2]} - {"0"}
    return faults


def draw_differences(log, said, folder, prefix):
    faults = faults_in(said, prefix)
    for execution in executions(log):
        if execution.name in faults:
            line, why = faults[execution.name]
            at = len(execution.lines) if line == "end" else int(line)
            steps = [step for step, _, _ in steps_in(execution.lines)] or [0]
            before = sum(1 for step in steps if step < at)
            first, last = steps[max(0, before - BEFORE)], steps[min(len(steps), before + BEHIND) - 1]
            path = f"{folder}/{execution.name}.svg"
            with open(path, "w") as file:
                file.write(f"{picture_of(execution, first, max(at, last), (at, why))}\n")
            print(path)


if __name__ == "__main__":
    {"window": draw_window, "differences": draw_differences}[sys.argv[1]](*sys.argv[2:])
