#!/usr/bin/env python3
"""How much memory `solr_split serve` takes at most while one document is overwritten again and again, with a commit after each write and without.

A journal lets a write go once a commit covers it: only the document's last write, what a search still shows, and some keys of the index that nothing
has any more stay. Without commits each write stays until one comes. For each row a server is started, the document is sent as often as the row says,
and then the most memory that its process ever had is read from /proc/PID/status. The document has one field, of 10,000 values of 100 bytes or of one
value of 1,000,000 bytes, and each write of it has other values. Prints a table in Markdown; takes a minute.

    PROGRAM=crates/solr_split/out/solr_split bench/overwritten.py
"""
import argparse
import platform
import os
import sys

sys.dont_write_bytecode = True

from loopback import PROGRAM, Client, serve, stop_at_signals, written_into

# name, field, values, bytes of each, and of each row how often it is written and whether a commit follows each time
DOCUMENTS = (
    ('10,000 values of 100 bytes', 'many_ss', 10000, 100, ((1, True), (1000, True), (100, False))),
    ('one value of 1,000,000 bytes', 'one_s', 1, 1000000, ((1, True), (1000, True), (100, False))),
)


def arguments():
    reader = argparse.ArgumentParser(description=__doc__.split('\n')[0])
    reader.add_argument('--program', default=PROGRAM, help='the built program ($PROGRAM)')
    reader.add_argument('--buckets', type=int, default=8, help='buckets of the collection (8)')
    reader.add_argument('--page', default='', help='a page into which the table is written, between its lines `<!-- overwritten -->` and `<!-- end -->`')
    return reader.parse_args()


def value(turn, number, length):
    head = f'{turn} {number} '
    return head + 'x' * (length - len(head))


def times(count):
    return 'once' if count == 1 else f'{count:,} times'


def most_memory(options, field, values, length, writes, commits):
    """The most megabytes of memory that a server ever had by the end of these writes."""
    server, port = serve(options.program, more=['--buckets', str(options.buckets)])
    try:
        client = Client(port)
        path = '/solr/docs/update' + ('?commit=true' if commits else '')
        for turn in range(writes):
            listed = [value(turn, number, length) for number in range(values)]
            document = {'id': 'a', field: listed if values > 1 else listed[0]}
            status, answer = client.ask('POST', path, [document])
            if status != 200:
                sys.exit(f'write {turn} was answered {status}: {answer}')
        client.close()
        return server.memory()[1] * 1.048576
    finally:
        server.stop()


def main():
    options = arguments()
    stop_at_signals()
    with written_into(options.page, 'overwritten'):
        print(f'{os.cpu_count()} processors ({platform.machine()}), load before {os.getloadavg()[0]:.1f}; {options.buckets} buckets.\n')
        print('| A document of | written | a commit after each | memory at most |')
        print('|---|---|---|---|')
        for name, field, values, length, rows in DOCUMENTS:
            for writes, commits in rows:
                most = most_memory(options, field, values, length, writes, commits)
                print(f'| {name} | {times(writes)} | {"yes" if commits else "no"} | {most:.1f} MB |')


if __name__ == '__main__':
    main()
