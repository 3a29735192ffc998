"""Splits of a shard that are stopped at each call of their pace, or of which each start of a core fails.

`stopped_splits.py stdin` writes the lines of the file stdin from the comment `Each call of the pace` up to that on lists of events, and
`stopped_splits.py stdout` those of stdout. Each answer is computed from the rules of docs/SPECIFICATION.md, and none is taken from the
program: the answers after a refusal are those before it, but that a stop has the place that its journal has come to.
"""

import json
import sys

from plain_bucket import murmur3

REASONS = {200: "OK", 500: "Internal Server Error"}
HEADER = {"QTime": 0, "status": 0}
IDS = [f"d{n:02}" for n in range(20)]
RANGES = {"shard1": "80000000-7fffffff", "shard1_0": "80000000-ffffffff", "shard1_1": "0-7fffffff"}
# Each call of the pace for two buckets, two subs and a follower of each: first what was done before it.
STEPS = ["begun"] + ["started"] * 2 + ["opened"] * 2 + ["filled"] * 8
STEPS += ["recovering"] + ["started"] * 2 + (["grown"] * 2 + ["filled"] * 4) * 2 + ["before the switch"]


def request(method, target, body=None):
    length = "" if body is None else f"Content-Length: {len(body)}|"
    return f"{method} /solr/{target} HTTP/1.1|Host: a|{length}|{body or ''}"


def reply(status, body, stops):
    text = json.dumps(body, separators=(",", ":"), sort_keys=True)
    head = f"HTTP/1.1 {status} {REASONS[status]}|Content-Type: application/json;charset=utf-8|Content-Length: {len(text)}||"
    return " ".join([f"Done {head}{text}", *stops])


def refusal(message, stops):
    return reply(500, {"error": {"code": 500, "msg": message}, "responseHeader": {"QTime": 0, "status": 500}}, stops)


def core(shard, k):
    return f"docs_{shard}_replica_n{k}"


def shown_slice(shard, state):
    leader = {"leader": "true", "node_name": "node1", "state": "active"}
    replicas = {core(shard, 1): leader, core(shard, 2): {"node_name": "node2", "state": "active"}}
    return {"range": RANGES[shard], "replicas": replicas, "state": state}


class Collection:
    """Two buckets and a shard with two replicas on two nodes; how many entries the journals of the buckets have, and that of the board."""

    def __init__(self):
        self.counts = [0, 0]
        self.docs = {}
        for id in IDS:
            bucket = murmur3(id) & 1
            self.docs[id] = {"_version_": 1000 * 2**20 + self.counts[bucket] // 2, "id": id}
            self.counts[bucket] += 2
        self.board = 0
        self.states = {"shard1": "active"}

    def add(self):
        """The documents are added and committed."""
        body = json.dumps([{"id": id} for id in IDS], separators=(",", ":"))
        places, stops = [0, 0], []
        for id in IDS:
            bucket = murmur3(id) & 1
            stops += [f"{bucket}:{places[bucket]}+", f"{bucket}:{places[bucket] + 1}+"]
            places[bucket] += 2
        return request("POST", "docs/update?commit=true", body), reply(200, {"responseHeader": HEADER}, stops + self.commit())

    def commit(self):
        stops = [f"{bucket}:{count}+" for bucket, count in enumerate(self.counts)]
        self.counts = [count + 1 for count in self.counts]
        return stops

    def status(self):
        shards = {shard: shown_slice(shard, state) for shard, state in self.states.items()}
        docs = {"router": {"name": "compositeId"}, "shards": shards}
        cluster = {"collections": {"docs": docs}, "live_nodes": ["node1", "node2"]}
        body = {"cluster": cluster, "responseHeader": HEADER}
        return request("GET", "admin/collections?action=CLUSTERSTATUS"), reply(200, body, [f"2:{self.board}"])

    def show(self):
        """The status, the cores that are started, a search and a get."""
        yield self.status()
        yield "cores", " ".join(sorted(f"{core(shard, k)}@{k}" for shard in self.states for k in (1, 2)))
        found = {"docs": list(self.docs.values()), "numFound": len(IDS), "numFoundExact": True, "start": 0}
        stops = [f"{bucket}:{count}" for bucket, count in enumerate(self.counts)]
        yield request("GET", "docs/select?q=*:*&rows=20"), reply(200, {"response": found, "responseHeader": HEADER}, stops)
        bucket = murmur3("d07") & 1
        yield request("GET", "docs/get?id=d07"), reply(200, {"doc": self.docs["d07"]}, [f"{bucket}:{self.counts[bucket]}"])

    def split(self):
        """A split that is done."""
        first = f"2:{self.board}+"
        self.board, self.counts = self.board + 3, [count + 2 for count in self.counts]
        self.states = {"shard1": "inactive", "shard1_0": "active", "shard1_1": "active"}
        body = {"committed": True, "responseHeader": HEADER, "subs": ["shard1_0", "shard1_1"]}
        return SPLIT, reply(200, body, [first, *self.commit()])

    def refuse(self, message, done):
        """A split that is refused after these steps were done."""
        stop = f"2:{self.board}+"
        begun = done.count("opened")
        self.counts = [count + 2 * (bucket < begun) for bucket, count in enumerate(self.counts)]
        self.board += 2 + ("recovering" in done)
        return SPLIT, refusal(message, [stop])


SPLIT = request("GET", "admin/collections?action=SPLITSHARD&shard=shard1")
# The cores of a split in the order in which they are started, and the steps that are done before each.
CORES = [core(shard, k) for k in (1, 2) for shard in ("shard1_0", "shard1_1")]
BEFORE = [STEPS[:at] for at, step in enumerate(STEPS) if step == "started"]


def refused(line, message, done):
    """A collection whose split is refused by what this line sets, and then done."""
    collection = Collection()
    yield "collection 1 2 2 1048576", "done"
    yield collection.add()
    yield from collection.show()
    yield line, "done"
    yield collection.refuse(message, done)
    yield from collection.show()
    yield line.split()[0], "done"
    yield collection.split()
    yield collection.status()


def lines():
    """The lines, each with its answer."""
    yield from [("# Each call of the pace stops a split: all is as before, but for the places of stops, and the next split is done.",) * 2]
    for at in range(len(STEPS)):
        yield from refused(f"stops {at}", "split was stopped", STEPS[: at + 1])
    collection = Collection()
    yield from [("",) * 2, ("# The pace is not asked again, and the split is done.",) * 2]
    yield "collection 1 2 2 1048576", "done"
    yield collection.add()
    yield f"stops {len(STEPS)}", "done"
    yield collection.split()
    yield from collection.show()
    yield from [("",) * 2, ("# Each start of a core fails: all is as before, and the next split is done.",) * 2]
    for at, name in enumerate(CORES):
        yield from refused(f"fails {at}", f"host failed on core {name}", BEFORE[at])
    yield from [("",) * 2]


if __name__ == "__main__":
    for pair in lines():
        print(pair[sys.argv[1] == "stdout"])
