"""The order of the exchanges and of the stores of the flag, which tickets leave open."""
from recorded import Refused


def flag_operations(lines):
    """The exchanges and the stores by their last line: the first one, and what they see and leave.

    A store comes behind the change of the list that it is for, and an exchange behind the line before it.
    """
    first, operations = {}, {}
    for line in lines:
        if line.word in ("ExchangeBegins", "Insert", "Update", "Remove", "Leave"):
            first[line.thread] = line.at
        elif line.word == "Exchange":
            sees = line.answer != "Pick"
            operations[line.at] = (first.get(line.thread, line.at), sees, True)
        elif line.word == "Store":
            operations[line.at] = (first.get(line.thread, line.at), None, line.answer == "True")
    return operations


def applied(states, open_ones, last, operations):
    """Each way in which the operation `last` is made now, maybe behind others that are under way.

    A state is the flag, and which of those under way are made. The way is the list of what is made here.
    """
    after = {}
    for flag, made in states:
        ways = [(flag, made, ())]
        while ways:
            value, done, way = ways.pop()
            if last in done:
                after.setdefault((value, done - {last}), ((flag, made), way))
                continue
            for it in open_ones - done:
                _, sees, leaves = operations[it]
                if sees is None or sees == value:
                    ways.append((leaves, done | {it}, (*way, it)))
    return after


def order_of_flag(lines):
    """For each last line of an exchange or a store, which of them are made there, in order."""
    operations = flag_operations(lines)
    begins = {}
    for last, (at, _, _) in operations.items():
        begins.setdefault(at, []).append(last)
    states, open_ones, history = {(True, frozenset())}, set(), []
    for line in lines:
        open_ones.update(begins.get(line.at, ()))
        if line.at in operations:
            after = applied(states, open_ones, line.at, operations)
            if not after:
                raise Refused(line.at, "the flag allows no order of this and those beside it")
            open_ones.discard(line.at)
            history.append((line.at, after))
            states = set(after)
    made, state = {}, next(iter(states))
    for at, after in reversed(history):
        state, made[at] = after[state]
    return made
