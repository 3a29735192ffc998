"""A bucket that keeps everything in plain lists, and looks through them from the start. It has no line in common with the crates.

`come` has an event come and gives its answer, `show` gives all that a bucket shows, and `hold` tests what is true between any two events.
"""

import struct
from dataclasses import dataclass, field

LEAST, MOST = -(2**31), 2**31 - 1
PIECE = 64  # the rows that a core is fed at once, and the writes that it replays at once


def murmur3(text):
    """The hash of a text (MurmurHash3_x86_32 with the seed 0)."""
    data, low = text.encode(), 2**32 - 1
    turn = lambda x, n: (x << n | x >> (32 - n)) & low
    mix = lambda k: turn(k * 0xCC9E2D51 & low, 15) * 0x1B873593 & low
    h, whole = 0, len(data) // 4 * 4
    for (k,) in struct.iter_unpack("<I", data[:whole]):
        h = turn(h ^ mix(k), 13) * 5 + 0xE6546B64 & low
    h ^= mix(int.from_bytes(data[whole:], "little")) ^ len(data)
    h = (h ^ h >> 16) * 0x85EBCA6B & low
    h = (h ^ h >> 13) * 0xC2B2AE35 & low
    return h ^ h >> 16


def signed(number):
    """The number of 32 bits with a sign."""
    return (number + 2**31) % 2**32 - 2**31


@dataclass(frozen=True)
class Write:
    place: int
    id: str
    hash: int
    version: int
    live: bool

    def __str__(self):
        return f" {self.id}={shown(self)}"


def shown(write):
    """The version of an id's last write as clients see it."""
    return -1 if write is None else write.version if write.live else -write.version


@dataclass
class Slice:
    id: int
    least: int
    most: int
    replicas: int
    state: str = "Construction"

    def has(self, number):
        return self.least <= number <= self.most

    def takes(self, number):
        return self.state != "Inactive" and self.has(number)


@dataclass
class Core:
    name: tuple  # the slice's id, and the seat that the core sits in
    number: int
    slice: Slice
    mode: str
    clock: int = 0
    down: bool = False
    cells: dict = field(default_factory=dict)
    buffer: list = field(default_factory=list)
    rows: list = None  # those that it is still to be fed, where it is fed

    def apply(self, write):
        self.clock = max(self.clock, write.version)
        if write.id not in self.cells or self.cells[write.id].version < write.version:
            self.cells[write.id] = write

    def receive(self, write):
        if self.mode == "Buffering":
            self.buffer.append(write)
        else:
            self.apply(write)

    def catches_up(self):
        return self.mode != "Active" or self.rows is not None

    def awaits(self):
        return self.buffer + [row for row in self.rows or [] if self.slice.has(row.hash)]


@dataclass
class Searcher:
    slice: Slice
    place: int
    rows: list


class Bucket:
    def __init__(self, replicas, limit, count):
        first = Slice(0, LEAST, MOST, replicas, "Active")
        self.ids, self.limit, self.phase, self.parent = [f"{n:03}" for n in range(count)], limit, "Idle", None
        self.slices, self.entries, self.flight, self.spares = [first], [], [], None
        self.cores = [Core((0, k + 1), k + 1, first, "Active") for k in range(replicas)]
        self.searchers = [Searcher(first, 0, [])]

    # What there is.

    def writes(self, count=None):
        return [e[1] for e in self.entries[:count] if e[0] == "write"]

    def table(self, count=None):
        """The last write of each id among the first entries."""
        return {write.id: write for write in self.writes(count)}

    def written(self, place):
        return place < len(self.entries) and self.entries[place][0] == "write"

    def is_settled(self, place):
        return ("settled", place) in self.entries

    def owed(self):
        settled = sum(e[0] == "settled" for e in self.entries)
        inactive = sum(s.state == "Inactive" for s in self.slices)
        return len(self.writes()) - settled + (2 if self.parent is not None else 0) + inactive + self.followers_up()

    def followers_up(self):
        named = [(s.id, k + 1) for s in self.slices if s.state != "Inactive" for k in range(1, s.replicas)]
        return sum(not self.is_down(name) for name in named)

    def is_down(self, name):
        marks = [e[0] for e in self.entries if e[0] in ("down", "up", "led") and e[1] == "%d/%d" % name]
        return marks != [] and marks[-1] != "up"

    def number_in(self, name):
        """Which of the slice's cores sits in the seat, by the entries."""
        slice, seat = name
        for e in reversed(self.entries):
            if e[0] == "led" and e[1].startswith(f"{slice}/"):
                other = int(e[1].split("/")[1])
                seat = {1: other, other: 1}.get(seat, seat)
        return seat

    def has_room(self, more):
        return len(self.entries) + self.owed() + more <= self.limit

    def slice(self, id):
        return next((s for s in self.slices if s.id == id), None)

    def core(self, slice, replica=1):
        return next((c for c in self.cores if c.name == (slice, replica)), None)

    def subs(self):
        return [s for s in self.slices if s.state == "Construction"]

    def is_active(self, slice, replica):
        core = self.core(slice.id, replica)
        return core is not None and core.mode == "Active"

    # What may come.

    def can(self, name, *words):
        slice = self.slice(words[0]) if words else None
        of_core = name in ("detach", "rejoin", "lead", "feed", "start", "replay", "grow")
        core = self.core(*words) if of_core else None
        if name == "settle":
            return self.written(words[0]) and not self.is_settled(words[0])
        if name in ("detach", "rejoin", "lead"):
            follows = slice is not None and slice.state == "Active" and 1 < words[1] <= slice.replicas
            settled = name == "detach" or (self.phase == "Idle" and core is not None and not core.catches_up())
            return follows and settled and self.is_down(words) == (name == "rejoin")
        if name == "begin":
            ends = slice and (slice.least <= words[1] < words[2] <= slice.most and words[1] + 1 == words[2])
            settled = self.phase == "Idle" and not any(c.catches_up() for c in self.cores)
            return settled and slice is not None and slice.state == "Active" and ends
        if name == "feed":
            return core is not None and core.rows is not None
        if name == "start":
            return core is not None and core.mode == "Buffering" and core.rows is None
        if name == "replay":
            return core is not None and core.mode == "Replaying"
        if name == "ready":
            return self.phase == "Building" and all(self.is_active(s, 1) for s in self.subs())
        if name == "grow":
            joins = slice in self.subs() and 1 < words[1] <= slice.replicas and core is None
            return self.phase == "Recovering" and joins
        if name == "switch":
            whole = all(self.is_active(s, k + 1) for s in self.subs() for k in range(s.replicas))
            return self.phase == "Recovering" and whole
        if name == "abort":
            return self.phase != "Idle"
        if name == "drop":
            return self.phase == "Idle" and slice is not None and slice.state == "Inactive"
        return True

    # What comes.

    def come(self, name, *words):
        """What the event answers."""
        if not self.can(name, *words):
            return "passed over"
        return getattr(self, name)(*words) or "done"

    def add(self, id, condition, now, live=True):
        found = shown(self.table().get(id))
        met = {0: True, 1: found > 0}.get(condition, found < 0 if condition < 0 else found == condition)
        if not met:
            return f"the version is {found}"
        if not self.has_room(2):
            return "the update log is full"
        number = signed(murmur3(id))
        leader = self.core(next(s.id for s in self.slices if s.state == "Active" and s.has(number)))
        version = max(leader.clock + 1, now * 2**20)
        write = Write(len(self.entries), id, number, version, live)
        leader.apply(write)
        for slice in self.slices:
            for k in range(slice.replicas if slice.takes(number) else 0):
                core = self.core(slice.id, k + 1)
                if core not in (None, leader) and not core.down:
                    self.flight.append(((slice.id, k + 1), write))
        self.entries.append(("write", write))
        return f"{shown(write)} at {write.place}"

    def delete(self, id, condition, now):
        return self.add(id, condition, now, live=False)

    def nth(self, k):
        if k >= len(self.flight):
            return "None"
        name, write = self.flight.pop(k)
        self.core(*name).receive(write)
        return "Some(CoreId { slice: SliceId(%d), replica: %d })" % name

    def deliver(self, place):
        sent = [k for k, (_, write) in enumerate(self.flight) if write.place == place]
        return self.nth(sent[0] if sent else len(self.flight))

    def deliver_all(self, name):
        for write in [write for to, write in self.flight if to == name]:
            self.core(*name).receive(write)
        self.flight = [sent for sent in self.flight if sent[0] != name]

    def settle(self, place):
        while self.deliver(place) != "None":
            pass
        self.entries.append(("settled", place))

    def take_searchers(self):
        active = [s for s in self.slices if s.state == "Active"]
        rows = [sorted(self.core(s.id).cells.values(), key=lambda w: w.id) for s in active]
        self.searchers = [Searcher(s, len(self.entries), r) for s, r in zip(active, rows)]

    def prepare(self):
        """Makes ready what the switch leaves: the other searchers, and the parent's for each sub."""
        own = next(s for s in self.searchers if s.slice.id == self.parent)
        others = [s for s in self.searchers if s is not own]
        self.spares = others + [Searcher(sub, own.place, own.rows) for sub in self.subs()]

    def commit(self):
        if not self.has_room(1):
            return "the update log is full"
        self.take_searchers()
        if self.parent is not None:
            self.prepare()
        self.entries.append(("committed",))

    def detach(self, *name):
        self.core(*name).down = True
        self.flight = [sent for sent in self.flight if sent[0] != name]
        self.entries.append(("down", "%d/%d" % name))

    def rejoin(self, *name):
        if not self.has_room(2):
            return
        old = self.core(*name)
        self.cores = [core for core in self.cores if core is not old]
        self.join(name, old.number, old.slice, self.core(name[0]))
        self.entries.append(("up", "%d/%d" % name))

    def lead(self, *name):
        self.deliver_all(name)
        core, leader = self.core(*name), self.core(name[0])
        self.flight = [sent for sent in self.flight if sent[0] != leader.name]
        core.name, leader.name = leader.name, core.name
        leader.down = True
        self.entries.append(("led", "%d/%d" % name))

    def begin(self, parent, last, first):
        old, next_id = self.slice(parent), max(s.id for s in self.slices) + 1
        if not self.has_room(3 + 2 * (old.replicas - 1)):
            return
        self.take_searchers()
        for n, (least, most) in enumerate([(old.least, last), (first, old.most)]):
            self.slices.append(Slice(next_id + n, least, most, old.replicas))
            self.join((next_id + n, 1), 1, self.slices[-1], self.core(parent))
        self.phase, self.parent = "Building", parent
        self.prepare()
        self.entries.append(("begun", parent))

    def join(self, name, number, slice, source):
        rows = sorted(source.cells.values(), key=lambda w: w.id)
        self.cores.append(Core(name, number, slice, "Buffering", rows=rows))

    def feed(self, *name):
        core = self.core(*name)
        for row in core.rows[:PIECE]:
            if core.slice.has(row.hash):
                core.apply(row)
        core.rows = core.rows[PIECE:] or None

    def start(self, *name):
        self.core(*name).mode = "Replaying"

    def replay(self, *name):
        core = self.core(*name)
        for write in core.buffer[:PIECE]:
            core.apply(write)
        core.buffer = core.buffer[PIECE:]
        core.mode = "Replaying" if core.buffer else "Active"

    def ready(self):
        self.phase = "Recovering"

    def grow(self, *name):
        self.deliver_all((name[0], 1))
        self.join(name, name[1], self.slice(name[0]), self.core(name[0]))

    def switch(self):
        for core in self.cores:
            if core.slice in self.subs():
                self.deliver_all(core.name)
        self.close("switched", "Active")
        self.slice(self.entries[-1][1]).state = "Inactive"
        self.searchers, self.spares = self.spares, None

    def abort(self):
        self.close("failed", "given up")
        self.spares = None
        self.keep([s for s in self.slices if s.state != "given up"])

    def close(self, entry, state):
        for sub in self.subs():
            sub.state = state
        self.entries.append((entry, self.parent))
        self.phase, self.parent = "Idle", None

    def drop(self, id, _=None):
        self.keep([s for s in self.slices if s.id != id])
        self.entries.append(("dropped", id))

    def keep(self, slices):
        ids = [s.id for s in slices]
        self.slices = slices
        self.cores = [c for c in self.cores if c.name[0] in ids]
        self.flight = [sent for sent in self.flight if sent[0][0] in ids]

    # What it shows.

    def show(self):
        phase = self.phase if self.parent is None else f"{self.phase} {{ parent: SliceId({self.parent}) }}"
        text, last = f"{phase} {self.owed()} {self.limit} |", self.table()
        for name, *more in self.entries:
            if name == "write":
                write = more[0]
                text += f"{write}:{write.hash}:{str(not write.live).lower()}:{shown(last[write.id])}"
            else:
                text += f" {name}" + "".join(f":{n}" for n in more)
        for s in self.slices:
            text += f" | {s.id} {s.state} {s.least}..{s.most} {s.replicas}"
        feeds = sum(c.rows is not None for c in self.cores)
        for c in sorted(self.cores, key=lambda c: c.name):
            text += " | %d/%d" % c.name + (f" core:{c.number}" if c.number != c.name[1] else "") + (" down" if c.down else "")
            text += f" {c.mode} {c.clock} {len(c.buffer)} {feeds}"
            text += f" {len(c.rows)} {len(c.awaits()) - len(c.buffer)}" if c.rows is not None else ""
            text += "".join(str(c.cells[id]) for id in sorted(c.cells))
        text += " |" + "".join(" %d/%d<%d" % (*to, write.place) + str(write) for to, write in self.flight)
        for searchers in [self.searchers] + ([self.spares] if self.spares else []):
            for s in searchers:
                text += f" | {s.slice.id} {s.slice.least}..{s.slice.most} {s.place}" + "".join(map(str, s.rows))
            text += " |"
        return text


def hold(bucket):
    """Fails where something isn't true that is true between any two events."""
    writes, last, seen, clocks = bucket.writes(), bucket.table(), {}, {0}
    assert bucket.has_room(0)
    for write in writes:
        assert bucket.entries[write.place] == ("write", write)
        assert seen.get(write.id, 0) < write.version
        seen[write.id] = write.version
        clocks.add(write.version)
    settled = [(at, e[1]) for at, e in enumerate(bucket.entries) if e[0] == "settled"]
    assert all(bucket.written(place) and place < at for at, place in settled)
    assert len({place for _, place in settled}) == len(settled)
    for core in bucket.cores:
        sent = [write for to, write in bucket.flight if to == core.name]
        kept = list(core.cells.values())
        assert all(write in writes and core.slice.has(write.hash) for write in kept + core.buffer + sent)
        assert core.clock in clocks and all(write.version <= core.clock for write in kept)
        assert core.rows is None or core.mode == "Buffering"
        late = bucket.phase == "Idle" and core.slice.state == "Active" and core.name[1] > 1
        assert late or core.slice in bucket.subs() or not core.catches_up()
        assert core.mode != "Active" or not core.buffer
        assert core.down == bucket.is_down(core.name) and not (core.down and (core.name[1] == 1 or sent))
        assert core.number == bucket.number_in(core.name)
        for write in last.values() if not core.down else []:
            pending = core.awaits() + sent
            assert not core.slice.takes(write.hash) or core.cells.get(write.id) == write or write in pending
    marks = [at for at, e in enumerate(bucket.entries) if e[0] in ("committed", "begun")]
    found = bucket.table(marks[-1] if marks else 0)
    active = [s for s in bucket.slices if s.state == "Active"]
    assert [s.slice for s in bucket.searchers] == active
    for searcher in bucket.searchers:
        own = [write for write in searcher.rows if searcher.slice.has(write.hash)]
        assert own == [found[id] for id in sorted(found) if searcher.slice.has(found[id].hash)]
    for slice in bucket.slices:
        leader = bucket.core(slice.id)
        assert slice in bucket.subs() or all(bucket.core(slice.id, k + 1) for k in range(slice.replicas))
        for id, write in last.items() if slice in active else []:
            assert leader.cells.get(id) == write or not slice.has(write.hash)
    assert all(not bucket.is_settled(write.place) and bucket.core(*to) for to, write in bucket.flight)
    assert len(set(bucket.flight)) == len(bucket.flight)
    assert bool(bucket.subs()) == (bucket.phase != "Idle") == (bucket.spares is not None)
    assert bucket.phase != "Recovering" or all(bucket.is_active(s, 1) for s in bucket.subs())
