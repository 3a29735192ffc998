#!/usr/bin/env python3
"""How much processor time `solr_split script` takes to load documents over a pipe.

It sends the documents of `search.py` over standard input in requests of four thousand, as often as `--turns` says, each time to a program of its own.
The time is that of the program with all its threads, user and system. Every request has to be answered 200. Prints a table in Markdown; takes
some seconds.

    PROGRAM=crates/solr_split/out/solr_split bench/loading.py
"""
import argparse
import os
import platform
import resource
import shutil
import statistics
import subprocess
import sys
import tempfile

sys.dont_write_bytecode = True

from loopback import PROGRAM, request, stop_at_signals
from search import documents


def arguments():
    reader = argparse.ArgumentParser(description=__doc__.split('\n')[0])
    reader.add_argument('--program', default=PROGRAM, help='the built program ($PROGRAM)')
    reader.add_argument('--documents', type=int, default=30000, help='documents that are loaded (30000); a connection takes at most some 30,000')
    reader.add_argument('--buckets', type=int, default=64, help='buckets of the collection (64)')
    reader.add_argument('--turns', type=int, default=5, help='how often they are loaded (5)')
    return reader.parse_args()


def requests_of(count):
    """The requests that load so many documents."""
    bodies = [{'id': name, 'lang_s': language, 'price_i': price, 'title_t': ' '.join(words)} for name, language, price, words in documents(count)]
    return [request('POST', '/solr/docs/update', bodies[at:at + 4000]) for at in range(0, count, 4000)]


def children_seconds():
    used = resource.getrusage(resource.RUSAGE_CHILDREN)
    return used.ru_utime + used.ru_stime


def loaded(options, requests):
    """Processor seconds of a program that takes these requests."""
    folder, before = tempfile.mkdtemp(prefix='loading_'), children_seconds()
    try:
        run = subprocess.run([os.path.abspath(options.program), 'script', '--clock', '1000', '--buckets', str(options.buckets)], input=b''.join(requests),
                             stdout=subprocess.PIPE, stderr=subprocess.PIPE, cwd=folder)
    finally:
        shutil.rmtree(folder, ignore_errors=True)
    answers = run.stdout.count(b'HTTP/1.1 200 ')
    if run.returncode or answers != len(requests):
        sys.exit(f'{answers} of {len(requests)} requests were answered 200, and the program ended with {run.returncode}')
    return children_seconds() - before


def main():
    stop_at_signals()
    options, load_before = arguments(), os.getloadavg()[0]
    requests = requests_of(options.documents)
    empty = min(loaded(options, []) for _ in range(options.turns))
    spans = [loaded(options, requests) - empty for _ in range(options.turns)]
    print(f'{os.cpu_count()} processors ({platform.machine()}), load before {load_before:.1f}; {options.documents} documents, {options.buckets} buckets.\n')
    print('| What | processor time |\n|---|---|')
    print(f'| a program that is sent nothing | {empty * 1e3:.0f} ms |')
    print(f'| all documents, beyond that: least, median, most of {options.turns} | {min(spans):.3f}, {statistics.median(spans):.3f}, {max(spans):.3f} s |')
    print(f'| a document, by the least | {min(spans) * 1e6 / options.documents:.2f} µs |', flush=True)


if __name__ == '__main__':
    main()
