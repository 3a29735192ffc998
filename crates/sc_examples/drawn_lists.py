"""Lists of events drawn at random, with the answers of a bucket of plain lists.

`drawn_lists.py stdin` writes the last lines of the file stdin, from `bucket 1 2 40` on, and `drawn_lists.py stdout` those of stdout.
"""

import sys

from plain_bucket import MOST, Bucket, hold, murmur3, shown, signed


class Dice:
    """Draws numbers (Marsaglia, "Xorshift RNGs")."""

    def __init__(self, seed):
        self.state = seed * 0x9E3779B97F4A7C15 % 2**64 | 1

    def below(self, limit):
        self.state ^= self.state << 13 & 2**64 - 1
        self.state ^= self.state >> 7
        self.state ^= self.state << 17 & 2**64 - 1
        return (self.state >> 11) % limit if limit else 0


# How an event is drawn, which may come or may not.


def draw(dice, bucket):
    kind = dice.below(20)
    if kind < 5:
        return draw_write(dice, bucket)
    if kind < 7:
        return "nth", dice.below(len(bucket.flight) + 1)
    if kind < 10:
        return "deliver" if kind == 7 else "settle", dice.below(len(bucket.entries))
    if kind == 10:
        return draw_any(dice, bucket)
    if kind == 11:
        return ("commit",) if dice.below(2) == 0 else ("detach", *draw_there(dice, bucket))
    if kind == 12:
        return draw_seat(dice, bucket)
    return draw_next(dice, bucket)


def draw_of_seats(dice, bucket):
    """An event among which most are of cores that go down, rejoin, catch up and take the lead."""
    kind = dice.below(10)
    if kind == 0:
        return draw(dice, bucket)
    if kind < 4:
        return draw_write(dice, bucket)
    if kind == 4:
        return "nth", dice.below(len(bucket.flight) + 1)
    if bucket.phase != "Idle":
        return draw_next(dice, bucket)
    late = [core for core in bucket.cores if core.catches_up()]
    return draw_piece(late[dice.below(len(late))]) if late and kind < 8 else draw_seat(dice, bucket)


def draw_write(dice, bucket):
    id = bucket.ids[dice.below(len(bucket.ids))]
    last = shown(bucket.table().get(id))
    condition = {0: 1, 1: -1, 2: 5, 3: last, 4: last}.get(dice.below(12), 0)
    now = dice.below(3)
    return "add" if dice.below(4) > 0 else "delete", id, condition, now


def draw_any(dice, bucket):
    core = draw_core(dice, bucket)
    kind = dice.below(10)
    if kind == 0:
        return draw_begin(dice, bucket)
    if kind in (4, 6, 7):
        return ({4: "ready", 6: "switch", 7: "abort"}[kind],)
    return {1: "feed", 2: "start", 3: "replay", 5: "grow"}.get(kind, "drop"), *core


def draw_core(dice, bucket):
    return bucket.slices[dice.below(len(bucket.slices))].id, dice.below(3) + 1


def draw_there(dice, bucket):
    """A core that is there, most often a follower."""
    followers = [core for core in bucket.cores if core.name[1] > 1]
    cores = followers if followers and dice.below(4) > 0 else bucket.cores
    return cores[dice.below(len(cores))].name


def draw_seat(dice, bucket):
    """A core goes down, takes the lead, or rejoins, most often one that is down."""
    kind = dice.below(6)
    if kind < 3:
        return "detach" if kind == 0 else "lead", *draw_there(dice, bucket)
    down = [core for core in bucket.cores if core.down]
    return "rejoin", *(down[dice.below(len(down))].name if down and dice.below(4) > 0 else draw_there(dice, bucket))


def draw_begin(dice, bucket):
    """A split of some slice at some hash; of ten, one has a hole."""
    slice = bucket.slices[dice.below(len(bucket.slices))]
    last = slice.least + dice.below(2**32) % (slice.most - slice.least + 1)
    first = signed(last + (2 if dice.below(10) == 0 else 1))
    return ("begin", slice.id, last, first) if first <= slice.most else ("commit",)


def draw_next(dice, bucket):
    """An event that takes the split on, or now and then gives it up."""
    if bucket.phase == "Idle":
        for slice in bucket.slices:
            if slice.state == "Inactive" and dice.below(3) == 0:
                return "drop", slice.id
        late = [core for core in bucket.cores if core.catches_up()]
        return draw_piece(late[dice.below(len(late))]) if late and dice.below(4) > 0 else draw_begin(dice, bucket)
    if dice.below(100) == 0:
        return ("abort",)
    core = bucket.cores[dice.below(len(bucket.cores))]
    if core.catches_up():
        return draw_piece(core)
    if bucket.phase == "Building":
        return ("ready",)
    return ("switch",) if dice.below(3) == 0 else ("grow", *draw_core(dice, bucket))


def draw_piece(core):
    """What the core comes to next that catches up."""
    return "feed" if core.rows is not None else "start" if core.mode == "Buffering" else "replay", *core.name


def adds(bucket, count):
    """The first ids are added, so many of them, and each is settled."""
    first = len(bucket.entries)
    for n in range(count):
        yield "add", bucket.ids[n], 0, 0
        yield "settle", first + 2 * n


def crowd(bucket, count):
    """A split whose first sub has almost every hash, and whose leader buffers more than a piece."""
    yield "begin", 0, MOST - 1, MOST
    yield from adds(bucket, count)
    yield from [("feed", 1, 1), ("feed", 1, 1), ("start", 1, 1), ("replay", 1, 1)]


def lists():
    """The lists: the lines that make a bucket and have the events come, each with its answer."""
    shapes = [(seed, draw, 20, 4, 0, 120, seed * 40) for seed in range(1, 21)] + [(21, draw, 75, 70, 65, 40, 1000)]
    shapes += [(seed, draw_of_seats, 20, 4, 0, 120, seed % 3 * 200 + 40) for seed in range(22, 34)]
    for seed, drawn, count, before, during, events, limit in shapes:
        dice = Dice(seed)
        replicas, limit = dice.below(3) + (1 if drawn is draw else 2), max(limit, 20)
        bucket = Bucket(replicas, limit, count)
        yield f"bucket 1 {replicas} {limit}", "done"
        parts = [adds(bucket, before), crowd(bucket, during) if during else []]
        parts.append(drawn(dice, bucket) for _ in range(events))
        for part in parts:
            for event in part:
                yield " ".join(map(str, event)), bucket.come(*event)
                yield "sum", f"{murmur3(bucket.show()):08x}"
                hold(bucket)
        yield "show", bucket.show()


if __name__ == "__main__":
    for pair in lists():
        print(pair[sys.argv[1] == "stdout"])
