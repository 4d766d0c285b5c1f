"""The first check: an execution as the steps of a world, with the replies that are wanted."""
import re

from flag_order import order_of_flag
from recorded import TICKERS, Frame, Line, Refused, walk

TAKES = {"Poll": "poll {0}", "Drop": "drop {0}", "None": "none"}
NOTICED = {"Notice": "notice", "Nothing": "nothing"}
READY = {
    "Finished": "finished",
    "FinishedAwaiter": "finished awaiter",
    "Unwanted": "unwanted {1}",
    "UnwantedAwaiter": "unwanted {1} awaiter",
}
# By word, the line of the world, and its reply by answer. {0} is the line's own number, {1} the output, {2}
# what it is said of, {3} the ticker of the call, {4} the word of a search.
PLAIN = {
    "Limits": ("local {2}", {"Nothing": "done"}),
    "Spawn": ("spawn", {"Task": "task {0}"}),
    "Wake": ("wake {2}", NOTICED),
    "TakeAny": ("tryany", TAKES),
    "Search": ("search {3} {4}", TAKES),
    "InVain": ("search {3} 0", TAKES),
    "Pend": ("pend {2}", {"Idle": "idle {0}", "Queued": "queued {0}", "Drop": "drop {0}"}),
    "Ready": ("ready {2} {1}", READY),
    "Dropped": ("dropped {2}", {"Gone": "gone", "GoneAwaiter": "gone awaiter"}),
    "PollHandle": (
        "pollhandle {2}",
        {"Output": "output {1}", "Cancelled": "cancelled", "Pending": "pending"},
    ),
    "Cancel": ("cancel {2}", NOTICED),
    "DropHandle": ("drophandle {2}", {**NOTICED, "Output": "output {1}"}),
    "WakeAll": ("leak", NOTICED),
    "Close": ("close", NOTICED),
    "Drain": ("drain", {"Drop": "drop {0}", "None": "none"}),
    "ReserveRunner": ("run", {"Runner": "ticker {3}"}),
    "Register": ("register {3}", {"Done": "done"}),
    "Unregister": ("unregister {3}", NOTICED),
    "Fair": ("fair {3}", {"Moved": "moved {0}"}),
    "Insert": ("sleep {3}", {"Number": "number {0}"}),
    "Update": ("sleep {3}", {"Again": "again", "Parked": "parked"}),
    "SleepOn": ("sleep {3}", {"Parked": "parked"}),
    "Yield": ("yield {3}", {"Nothing": "done"}),
    "Remove": ("remove {3}", {"Notified": "notified", "Unnotified": "unnotified"}),
    "Leave": ("drop {3}", {"Notified": "notified", "Unnotified": "unnotified"}),
    "Store": ("store {3}", {"True": "true", "False": "false"}),
    "Exchange": ("exchange", {"Pick": "pick", "Nothing": "nothing"}),
    "Notify": ("notify", {"Sleeper": "sleeper {0}", "Nobody": "nobody"}),
}
# What a detach of the table is, by the call that makes it.
DETACHES = {
    "PollHandle": ("pollhandle {2}", {"Output": "output {1}", "Nothing": "cancelled"}),
    "Detach": ("detach {2}", {"Output": "output {1}", "Nothing": "nothing"}),
    "DropHandle": ("drophandle {2}", {"Output": "output {1}", "Nothing": "nothing"}),
}


# The step by which the world numbers a ticker, by the call that makes it.
LAST_OF_MAKING = {"Tick": "ReserveSleeper", "Run": "ReserveRunner"}


class World:
    """The lines that the world is to take, with their replies."""

    def __init__(self, outputs):
        self.tickers, self.outputs = {}, outputs
        self.queues = [[]]

    def show(self, line):
        """The state at rest, as the executor's own table, list and flag say it."""
        queued, *queues = (f"[{', '.join(map(str, queue))}]" for queue in self.queues)
        self.queues = [[]]
        flag = "true" if line.answer == "True" else "false"
        sleepers = f"numbers {line.of} notified {line.with_}"
        out = f"notices 0 picks 0 undropped {line.value}"
        said = f"global {queued} locals [{', '.join(queues)}] flag {flag} {sleepers} {out}"
        return [(line.at, "show", said)]

    def ticker(self, frame, line):
        """The number that the world gives the ticker of a call, as the last of its places is reserved."""
        if line.word == LAST_OF_MAKING.get(frame.word) and line.answer != "Refused":
            self.tickers[frame.of] = len(self.tickers)
        return self.tickers.get(frame.of)

    def said_by(self, line, frame):
        """The line of the world, and its reply by answer, if the line of the log is a step of it."""
        if line.word == "Detach":
            return DETACHES.get(frame.word)
        if line.word == "Take":
            return ("search {3} 0" if frame.word == "PollTick" else "trytick"), TAKES
        if line.word == "ReserveSleeper" and frame.word == "Tick":
            return "tick", {"Done": "ticker {3}"}
        # One that sleeps gives its place back behind its drop, and one that is refused was never made.
        if line.word == "ReleaseSleeper" and frame.word not in ("PollTick", "Run") and not frame.has_left:
            return "drop {3}", {"Done": "awake"}
        return PLAIN.get(line.word)

    def take(self, line, frame):
        """The steps of the world that a line is."""
        if line.word == "Show":
            return self.show(line)
        if line.word == "ShowRunner":
            self.queues.append([])
        if line.word in ("ShowGlobal", "ShowLocal"):
            self.queues[-1].append(line.of)
        k = self.ticker(frame, line) if frame.word in TICKERS else None
        frame.has_left |= line.word == "Leave"
        said = self.said_by(line, frame)
        if said is None or line.answer == "Refused":
            return []
        numbers = (line.value, self.outputs.get(line.at), line.of, k, line.with_)
        reply = said[1].get(line.answer)
        if reply is None:
            raise Refused(line.at, f"{line.word} answers {line.answer}")
        step = (line.at, said[0].format(*numbers), reply.format(*numbers))
        # A poll of a ticker is known to it alone. It comes before each search that no store asks for.
        if step[1].startswith("search") and line.of == 0:
            return [(line.at, f"poll {k}", "done"), step]
        return [step]


def outputs_of(lines):
    """The output of each step that has one: that which its thread made last, or that which it let go next."""
    made, waiting, outputs = {}, {}, {}
    for line in lines:
        if line.word == "Made":
            made[line.thread] = line.of
        elif line.word == "LetGo":
            at = waiting.pop(line.thread, None)
            if at is not None:
                outputs[at] = line.of
        elif line.word == "Ready":
            outputs[line.at] = made.pop(line.thread, None)
            if line.answer.startswith("Unwanted"):
                waiting[line.thread] = line.at
        elif line.answer == "Output":
            waiting[line.thread] = line.at
    return outputs


def steps_of(lines):
    """The steps that the world is to take, in order: the place in the log, the line and the reply of each."""
    world, made, steps = World(outputs_of(lines)), order_of_flag(lines), {}
    nobody = Frame(Line(0, "0 0 0 0 0 0"))
    for line, frame, _ in walk(lines):
        if line.is_step:
            steps[line.at] = world.take(line, frame or nobody)
    waits = {at for several in made.values() for at in several}
    taken = []
    for line in lines:
        for at in made.get(line.at, () if line.at in waits else (line.at,)):
            taken += steps.get(at, ())
    return taken


def kind_of(line, reply):
    """A step and its reply without their numbers."""
    return f"{line.split()[0]} -> {re.sub(r' [0-9]+', '', 'a state' if line == 'show' else reply)}"


def all_kinds():
    """Each step of the world, with each of its replies, but for those that no step of an executor has."""
    rest = [("tick", {"": "ticker"}), ("trytick", TAKES), ("drop", {"": "awake"}), ("poll", {"": "done"})]
    rest.append(("show", {"": ""}))
    return {
        kind_of(line, re.sub(r" {\d}", "", reply))
        for line, replies in [*PLAIN.values(), *DETACHES.values(), *rest]
        for reply in replies.values()
    }
