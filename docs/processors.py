"""What a model of a ShardedExecutor, from the figures of a few shards and threads, says of more of them.

Read by docs/figures.py. The figures are those of the kinds bench, shards and parked_busy of
docs/figures.txt.
"""
import statistics

import throughput

# On how many processors nobody has measured.
PROCESSORS = (16, 64, 128)


def nanoseconds(rows, name):
    """The nanoseconds of a row of bench."""
    return int(next(row for row in rows if row[0] == name)[-1])


def medians(found, name):
    """The medians of a row of shards, for each number of threads."""
    times = next(row for row in found["shards"] if row[0] == name)[3]
    return [int(time.split("/")[1]) for time in times.split(", ")]


def cycle(found, shards):
    """What it takes to sleep in so many shards and to be woken, by the rows of 1 and of 64 shards."""
    one, most = (nanoseconds(found["bench"], f"sharded_cycle_{count}") for count in (1, 64))
    return one + (most - one) * (shards - 1) / 63


def predictions(found):
    """Each row that the model predicts: its rule, its name, on how many shards or threads, the predicted
    nanoseconds and the measured ones."""
    for name in ("sharded_yield_T", "sharded_spawn_T", "sharded_parked_T"):
        one, *others = medians(found, name)
        for threads, measured in zip((2, 4), others):
            yield 1, name, threads, one / threads, measured
    for micros, work in ((1, "1,000"), (3, "3,000"), (10, "10,000")):
        name = f"sharded_unbalanced_{micros}us_T"
        alone = next(row for row in found["parked_busy"] if row[0] == work)
        for threads, measured in zip((2, 4), medians(found, name)[1:]):
            yield 2, name, threads, throughput.median(alone, 0, threads), measured
    for shards in (4, 16):
        name = f"sharded_cycle_{shards}"
        yield 3, name, shards, cycle(found, shards), nanoseconds(found["bench"], name)


def compared(found):
    """The rows of the table that compares the model with what was measured."""
    rows = {}
    for _, name, _, *times in predictions(found):
        cells = rows.setdefault(name, ([], []))
        for cell, time in zip(cells, times):
            cell.append(f"{time:,.0f}")
    return [(name, *map(", ".join, cells)) for name, cells in rows.items()]


def expected(found):
    """What the model says of more processors, a row each."""
    one = medians(found, "sharded_yield_T")[0]
    spawn = statistics.median(medians(found, "sharded_one_spawner_T"))
    rows = {
        "nanoseconds of a yield, at best": lambda count: f"{one / count:.1f}",
        "microseconds to sleep and be woken": lambda count: f"{cycle(found, count) / 1000:.1f}",
        "microseconds of work a task, for one spawner": lambda count: f"{spawn * count / 1000:.0f}",
        "places of all runs": lambda count: f"{count * count:,}",
    }
    return [(said, *map(of, PROCESSORS)) for said, of in rows.items()]


def furthest(found):
    """How far the measured rows of each rule are from the model."""
    factors = {}
    for rule, _, _, predicted, measured in predictions(found):
        factors.setdefault(rule, []).append(measured / predicted)
    said = [f"{min(all_of):.2f} to {max(all_of):.2f}" for all_of in factors.values()]
    return f"Measured over predicted, by rule: {throughput.listed(said)}; the first is the best case."
