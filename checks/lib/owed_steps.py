"""The second check: each call makes the steps that it owes, in its order."""
import re

from recorded import TICKERS, Refused, walk

# The sign of a step, by its word and its answer. What has none is a step that no call may make.
SIGNS = {
    "Given": {"Nothing": "i"},
    "Spawn": {"Task": "s", "Refused": "S"},
    "Wake": {"Nothing": "w", "Notice": "W"},
    "Take": {"None": "t", "Poll": "T", "Drop": "T"},
    "TakeAny": {"None": "0", "Poll": "1", "Drop": "1"},
    "Search": {"None": "2", "Poll": "3", "Drop": "3"},
    "InVain": {"None": "4"},
    "Pend": {"Idle": "p", "Queued": "q", "Drop": "d"},
    "Ready": {"Finished": "r", "FinishedAwaiter": "r", "Unwanted": "r", "UnwantedAwaiter": "r"},
    "Dropped": {"Gone": "x", "GoneAwaiter": "x"},
    "PollHandle": {"Pending": "h", "Output": "H", "Cancelled": "H"},
    "Detach": {"Output": "H", "Nothing": "H"},
    "Cancel": {"Nothing": "c", "Notice": "C"},
    "DropHandle": {"Nothing": "g", "Output": "g", "Notice": "G"},
    "WakeAll": {"Nothing": "a", "Notice": "A"},
    "Close": {"Nothing": "z", "Notice": "Z"},
    "Drain": {"None": "y", "Drop": "Y"},
    "ReserveRunner": {"Runner": "M", "Refused": "S"},
    "ReleaseRunner": {"Done": "m"},
    "Register": {"Done": "j", "Refused": "S"},
    "Unregister": {"Nothing": "u", "Notice": "U"},
    "Fair": {"Moved": "f"},
    "ReserveSleeper": {"Done": "n", "Refused": "S"},
    "ReleaseSleeper": {"Done": "l"},
    "Insert": {"Number": "I", "Refused": "S"},
    "Update": {"Again": "P", "Parked": "k"},
    "SleepOn": {"Parked": "k"},
    "NoCopy": {"Nothing": "K"},
    "Yield": {"Nothing": "v"},
    "Remove": {"Unnotified": "R", "Notified": "R"},
    "Leave": {"Unnotified": "X", "Notified": "V"},
    "Store": {"True": "O", "False": "O"},
    "Exchange": {"Nothing": "e", "Pick": "E"},
    "Notify": {"Sleeper": "N", "Nobody": "N"},
    "ShowGlobal": {"Nothing": ""},
    "ShowRunner": {"Nothing": ""},
    "ShowLocal": {"Nothing": ""},
    "Show": {"True": "", "False": ""},
}
# What a notice owes: an exchange, and behind a pick the notification.
NEWS = "(?:e|EN)"
# A poll or a drop of a task with its end; L is a poll whose lent waker was woken.
END = "(?:Bp|Lwp|BdDx|LwdDx|[BL]r|Dx)"
QUEUED = "(?:Bq|Lwq)"
LEFT = f"(?:l|XOl|VO{NEWS}l)"
ENDED = f"(?:u|U{NEWS}){LEFT}"
NEXT = f"(?:{END}3{NEWS}f?|{QUEUED}3{NEWS}{NEWS}f?)"
EMPTY = f"(?:{END}2|[BL]r4|{QUEUED}2{NEWS})"
TASKS = f"3(?:RO)?{NEWS}f?{NEXT}*"
OVER = f"(?:{END}|{QUEUED}{NEWS})"
OWED = {
    "Spawn": f"s{NEWS}|S?",
    "SpawnMany": f"(?:i(?:b|s{NEWS}))*(?:iF)?",
    "Wake": f"w|W{NEWS}",
    "TryTick": f"t|T{NEWS}{OVER}",
    "TryAny": f"0|1{NEWS}{OVER}",
    "PollHandle": "h|H|K",
    "Cancel": f"c|C{NEWS}",
    "Detach": "H",
    "DropHandle": f"g|G{NEWS}|H",
    "Tick": "n|S",
    "Run": "nM|nSl|S?",
    "PollTick": f"(?:t[IP]O)*(?:T(?:RO)?{NEWS}{OVER}l|t(?:k|Kv))",
    "DropTick": LEFT,
    "PollRun": f"j?Q(?:{ENDED}|(?:2[IP]O|{TASKS}{EMPTY}IO)*(?:2(?:k|Kv)|{TASKS}(?:{EMPTY}Kv|{OVER})))",
    "DropRun": f"ml|{ENDED}",
    "Leak": f"a|A{NEWS}",
    "Close": f"(?:z|Z{NEWS})(?:YDx)*y",
    "Future": "",
    "Disposal": "",
    "Own": "",
}
OWED = {word: re.compile(owed) for word, owed in OWED.items()}
# The signs of a poll, of a drop and of a poll of the own future, which stand for calls within a call. A spawn
# within a call that spawns many is b, or F if it is refused.
INNER = {"Future": "B", "Disposal": "D", "Own": "Q"}
OF_TASK = ("Pend", "Ready", "Dropped")
# The calls that let an executor go, by the end of a program.
GOES = {"Closed": ["Close"], "Leaked": ["Leak"], "Kept": []}


class Words:
    """The words of a runner's generator, Xoshiro256++ from SplitMix64 of its number."""

    MASK = 2**64 - 1

    def __init__(self, seed):
        self.state = []
        for _ in range(4):
            seed = (seed + 0x9E3779B97F4A7C15) & self.MASK
            word = ((seed ^ (seed >> 30)) * 0xBF58476D1CE4E5B9) & self.MASK
            word = ((word ^ (word >> 27)) * 0x94D049BB133111EB) & self.MASK
            self.state.append(word ^ (word >> 31))

    def rotated(self, word, by):
        return (word << by | word >> (64 - by)) & self.MASK

    def next(self):
        a, b, c, d = self.state
        word = (self.rotated((a + d) & self.MASK, 23) + a) & self.MASK
        c, d, shifted = c ^ a, d ^ b, (b << 17) & self.MASK
        b, a = b ^ c, a ^ d
        self.state = [a, b, c ^ shifted, self.rotated(d, 45)]
        return word


class Owed:
    """What each call has still to do."""

    def __init__(self):
        self.lent, self.words, self.over, self.live = set(), {}, set(), set()
        self.gone, self.forgotten = [], 0

    def take(self, line, frame):
        """Adds the sign of a step to its call."""
        sign = SIGNS[line.word].get(line.answer)
        if sign is None:
            raise Refused(line.at, f"{frame.word} has a step {line.word} that answers {line.answer}")
        if line.word in ("Take", "TakeAny", "Search", "Drain"):
            frame.task = line.value
        if line.word in OF_TASK and line.of != frame.task:
            raise Refused(line.at, f"{frame.word} ends task {line.of}, and has taken {frame.task}")
        if line.word == "ReserveRunner" and sign == "M":
            self.words[frame.of] = Words(line.value)
        if line.word == "Search" and line.with_ != self.words[frame.of].next():
            raise Refused(line.at, "the word of the search is not the next one of its runner")
        if frame.of in self.over and frame.word in TICKERS:
            raise Refused(line.at, "a step of a ticker that has ended")
        frame.signs += sign

    def end(self, frame, outer, at):
        """Whether a call has made what it owes. One within a call is a sign of that."""
        # A tick or a run that has ended owes nothing.
        is_over = frame.word in TICKERS and frame.of in self.over
        if not (frame.signs == "" if is_over else OWED[frame.word].fullmatch(frame.signs)):
            raise Refused(at, f"{frame.word} of line {frame.at} made the steps '{frame.signs}'")
        if frame.word in INNER:
            if outer is None or frame.word != "Own" and frame.of != outer.task:
                raise Refused(at, f"the future of task {frame.of} is out, and was not taken")
            is_lent = frame.word == "Future" and frame.of in self.lent
            outer.signs += "L" if is_lent else INNER[frame.word]
        if frame.word == "Spawn" and outer and outer.word == "SpawnMany":
            outer.signs += "b" if "s" in frame.signs else "F"
        if frame.word in ("Tick", "Run") and frame.signs[:1] == "n" and "S" not in frame.signs:
            self.live.add(frame.of)
        if frame.word in TICKERS and frame.signs.endswith("l"):
            self.over.add(frame.of)
            self.live.discard(frame.of)

    def let_go(self, call, line, end):
        """The executor is closed or leaked, once, as its program does it."""
        self.gone.append(call)
        if end != "Wrong" and self.gone != GOES[end]:
            raise Refused(line.at, f"the executor is {end.lower()}, by {', '.join(self.gone)}")

    def finish(self, at, end):
        if end != "Wrong" and self.gone != GOES[end]:
            raise Refused(at, f"the executor is not {end.lower()}")
        if len(self.live) != self.forgotten:
            kept = f"{len(self.live)} tickers keep their places"
            raise Refused(at, f"{kept}, and {self.forgotten} are forgotten")


def check_calls(lines, end):
    """Whether each call made the steps that it owes, and no step stands outside of one, in a program that
    ends so.
    """
    owed = Owed()
    for line, frame, outer in walk(lines):
        if line.word == "CallLent":
            owed.lent.add(line.of)
        elif line.word == "Forgotten":
            owed.forgotten += 1
        elif line.word == "CallFuture":
            owed.lent.discard(line.of)
        elif line.word == "Limits":
            continue
        elif line.word == "End":
            owed.end(frame, outer, line.at)
            if [frame.word] in GOES.values():
                owed.let_go(frame.word, line, end)
        elif line.is_step and frame is None and not line.word.startswith("Show"):
            raise Refused(line.at, f"a step {line.word} of no call")
        elif line.is_step and frame:
            owed.take(line, frame)
    owed.finish(len(lines), end)
