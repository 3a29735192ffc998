"""Connections of which each read or each write fails, read in pieces of several sizes.

`failing_wires.py stdin` writes the lines of the file stdin from the comment `Each read of` up to that on lists of events, and
`failing_wires.py stdout` those of stdout. Each answer is computed from the rules of docs/SPECIFICATION.md, and none is taken from the
program: a request takes as many reads as it has whole pieces and a part of one, one more tells that no bytes follow, and a reply of at
most 4,096 bytes is one write, a longer one two, its head and its body.
"""

import json
import sys

HEADER = {"QTime": 0, "status": 0}
ADD = 'POST /solr/docs/update?versions=true HTTP/1.1|Host: localhost|Content-Length: 24||[{"id":"abc","t_s":"x"}]'
GET = "GET /solr/docs/get?id=abc HTTP/1.1|Host: localhost||"
LONG = "x" * 5000


def parts(body):
    """The head and the body of a reply."""
    text = json.dumps(body, separators=(",", ":"), sort_keys=True)
    return f"HTTP/1.1 200 OK|Content-Type: application/json;charset=utf-8|Content-Length: {len(text)}||", text


def writes(body):
    """The writes that a reply takes."""
    head, text = parts(body)
    return [head + text] if len((head + text).replace("|", "\r\n")) <= 4096 else [head, text]


def ended(end, written, stops=()):
    return " ".join([f"{end} {''.join(written)}", *stops])


ADDED = writes({"adds": ["abc", 1000 << 20], "responseHeader": HEADER})
ADD_STOPS = ["0:0+", "0:1+"]


def doc(text="x"):
    return writes({"doc": {"_version_": 1000 << 20, "id": "abc", "t_s": text}})


def new():
    yield "collection 1 1 1 1048576", "done"


def read(size):
    """The request to add, read in pieces of this size, with each read failing in turn."""
    count = -(-len(ADD.replace("|", "\r\n")) // size)
    yield from new()
    yield f"pieces {size}", "done"
    yield ADD, ended("Done", ADDED, ADD_STOPS)
    for at in range(count + 2):
        yield from new()
        yield f"pieces {size}", "done"
        yield f"reads {at}", "done"
        if at < count:
            yield ADD, "ReadFault "
        else:
            yield ADD, ended("ReadFault" if at == count else "Done", ADDED, ADD_STOPS)
        yield "reads", "done"
        yield GET, ended("Done", writes({"doc": None}), ["0:0"]) if at < count else ended("Done", doc(), ["0:2"])


def write():
    """Two requests to add and get on one connection, and a get of a long document, with each write failing in turn."""
    for at in range(3):
        yield from new()
        yield f"writes {at}", "done"
        replies = ADDED + doc()
        stops = ADD_STOPS + (["0:2"] if at else [])
        yield ADD + GET, ended("WriteFault" if at < 2 else "Done", replies[:at], stops)
        yield "writes", "done"
        yield GET, ended("Done", doc(), ["0:2"])
    body = json.dumps([{"id": "abc", "t_s": LONG}], separators=(",", ":"))
    yield from new()
    yield "pieces 1000", "done"
    yield f"POST /solr/docs/update HTTP/1.1|Host: localhost|Content-Length: {len(body)}||{body}", ended("Done", writes({"responseHeader": HEADER}), ADD_STOPS)
    for at in range(3):
        yield f"writes {at}", "done"
        yield GET, ended("WriteFault" if at < 2 else "Done", doc(LONG)[:at], ["0:2"])


def lines():
    """The lines, each with its answer."""
    yield from [("# Each read of a request fails in turn, in pieces of 1, 2, 3 and 7 bytes: what was written before stands, and no more.",) * 2]
    for size in (1, 2, 3, 7):
        yield from read(size)
    yield from [("",) * 2, ("# Each write of replies fails in turn: what was written is a beginning of them, and what was accepted stands.",) * 2]
    yield from write()
    yield from [("",) * 2]


if __name__ == "__main__":
    for pair in lines():
        print(pair[sys.argv[1] == "stdout"])
