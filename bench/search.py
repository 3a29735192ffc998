#!/usr/bin/env python3
"""What searches and commits of `solr_split serve` cost over many documents, beside Lucene on the same documents and queries.

It makes documents of some 110 bytes of JSON and ten terms (an id, a language, a price, a title of five to ten words out of twenty thousand),
loads them, commits, searches for one word, for two joined by AND and by OR, and commits after one changed document, after a thousand and after
none. Costs are processor time of the server's threads alone, from /proc/PID/task; each count that a search gives is compared with the script's own.
Searches come in passes of a hundred queries. The first five have words that were drawn for each, and their median is given; then the words of the first
pass are asked again, and the least of five passes is given, as it is of Lucene. A commit's cost is the median of its rounds. It
does all this twice: with memory in pages of 4 KiB, and with memory in huge pages, which a variable of the server's environment asks the C library for. Where
Lucene 8 stands in /usr/share/java (Debian: liblucene8-java) and `javac` is on the path, `LuceneSearch.java` then indexes the same documents and
answers the queries of the first pass on one thread, with its heap in huge pages: the least of five passes, after twenty that are not timed. Prints tables
in Markdown; a million documents take some three minutes and 3 GB.

With `--texts` the documents have ten texts of 100 bytes, each with a value of its own, and what is shown is memory: once they are loaded, once they
are committed, and at most, with the commits of a thousand changed documents after it.

    PROGRAM=crates/solr_split/out/solr_split bench/search.py --documents 1000000
    PROGRAM=crates/solr_split/out/solr_split bench/search.py --texts --commits 1000
"""
import argparse
import array
import bisect
import itertools
import os
import platform
import random
import shutil
import statistics
import subprocess
import sys
import tempfile
import urllib.parse

sys.dont_write_bytecode = True

from loopback import PROGRAM, Client, serve, stop_at_signals, written_into

VOCABULARY = 20000
PASSES = 5
# What asks the GNU C library, from its version 2.35 on, for memory in huge pages where the system gives them to who asks.
HUGE_PAGES = {'GLIBC_TUNABLES': 'glibc.malloc.hugetlb=1'}
LANGUAGES = ('en', 'de', 'fr', 'es', 'it')
JARS = '/usr/share/java/lucene-core-8.7.0.jar:/usr/share/java/lucene-analyzers-common-8.7.0.jar'


def arguments():
    reader = argparse.ArgumentParser(description=__doc__.split('\n')[0])
    reader.add_argument('--program', default=PROGRAM, help='the built program ($PROGRAM)')
    reader.add_argument('--documents', type=int, default=1000000, help='documents that are loaded (1000000)')
    reader.add_argument('--buckets', type=int, default=64, help='buckets of the collection (64)')
    reader.add_argument('--queries', type=int, default=100, help='queries of each kind (100)')
    reader.add_argument('--alone', action='store_true', help='without Lucene')
    reader.add_argument('--commits', type=int, default=10, help='commits of a thousand changed documents (10)')
    reader.add_argument('--texts', action='store_true', help='memory alone, of documents of ten texts of 100 bytes')
    reader.add_argument('--page', default='', help='a page into which the tables are written, between its lines `<!-- search -->` and `<!-- end -->`')
    return reader.parse_args()


def words_of(number):
    """A word of five letters or more for each number: consonants and vowels in turn."""
    letters = []
    for _ in range(3):
        number, last = divmod(number, 100)
        letters.append('bcdfghklmnprstvwyzjq'[last // 5] + 'aeiou'[last % 5])
    return ''.join(letters)


def documents(count):
    """Documents, the same at each call: (id, language, price, words)."""
    draw = random.Random(7)
    vocabulary = [words_of(number) for number in range(VOCABULARY)]
    weights = list(itertools.accumulate(1 / (rank + 10) for rank in range(VOCABULARY)))
    for number in range(count):
        size = 5 + number % 6
        words = [vocabulary[bisect.bisect(weights, draw.random() * weights[-1])] for _ in range(size)]
        yield f'doc-{number:07d}', LANGUAGES[draw.randrange(5)], draw.randrange(10000), words


def queries_of(count, turn):
    """So many pairs of words for this pass, from frequent to rare."""
    draw = random.Random(11 + turn)
    ranks = [int(10 * 100 ** draw.random()) for _ in range(2 * count)]
    return [(words_of(one), words_of(other if other != one else one + 1)) for one, other in zip(ranks[::2], ranks[1::2])]


def send_all(client, texts):
    """Sends documents of JSON by four thousand, and returns how many bytes of JSON came."""
    size, texts = 0, iter(texts)
    while batch := list(itertools.islice(texts, 4096)):
        text = ('[' + ','.join(batch) + ']').encode()
        size += len(text)
        status, _ = client.exchange(b'POST /solr/docs/update HTTP/1.1\r\nHost: localhost\r\nContent-Length: %d\r\n\r\n' % len(text) + text)
        assert status == 200, status
    return size


def load(client, options, wanted):
    """Sends all documents, and returns the numbers of the documents of each word that is wanted, and how many bytes of JSON came."""
    rows = {word: array.array('I') for word in wanted}

    def texts():
        for number, (name, language, price, words) in enumerate(documents(options.documents)):
            for word in set(words):
                if word in rows:
                    rows[word].append(number)
            yield '{"id":"%s","lang_s":"%s","price_i":%d,"title_t":"%s"}' % (name, language, price, ' '.join(words))
    return rows, send_all(client, texts())


def document_of_texts(number, draw):
    """A document with ten texts of 100 bytes that are drawn."""
    return '{"id":"doc-%07d",%s}' % (number, ','.join('"part_%s_s":"%0100x"' % (letter, draw.getrandbits(400)) for letter in 'abcdefghij'))


def nanoseconds(server):
    """Processor time of the server's threads."""
    total = 0
    for task in os.listdir(f'/proc/{server.child.pid}/task'):
        with open(f'/proc/{server.child.pid}/task/{task}/schedstat') as file:
            total += int(file.read().split()[0])
    return total


def spent(server, calls):
    """Processor milliseconds of the server in these calls."""
    before = nanoseconds(server)
    for call in calls:
        call()
    return (nanoseconds(server) - before) / 1e6


def commit(client):
    status, body = client.ask('GET', '/solr/docs/update?commit=true')
    assert status == 200, body


def change(client, options, first, count):
    body = [{'id': f'doc-{(first + 7919 * turn) % options.documents:07d}', 'lang_s': 'en', 'price_i': turn, 'title_t': 'changed once more'} for turn in range(count)]
    status, answer = client.ask('POST', '/solr/docs/update', body)
    assert status == 200, answer


def search(client, query, expected):
    status, body = client.ask('GET', '/solr/docs/select?rows=10&q=' + urllib.parse.quote(query))
    assert status == 200, body
    found = body['response']['numFound']
    assert found == expected, (query, found, expected)


def kinds(queries, rows):
    """Of each kind of search its queries, each with how many documents it finds."""
    yield 'term', [(f'title_t:{one}', len(rows[one])) for one, _ in queries]
    both = [len(set(rows[one]).intersection(rows[other])) for one, other in queries]
    yield 'AND', [(f'title_t:{one} AND title_t:{other}', found) for (one, other), found in zip(queries, both)]
    yield 'OR', [(f'title_t:{one} OR title_t:{other}', len(rows[one]) + len(rows[other]) - found) for (one, other), found in zip(queries, both)]


def search_all(server, client, asked):
    """Processor milliseconds a search."""
    return spent(server, [lambda one=one: search(client, *one) for one in asked]) / len(asked)


def lucene(options, queries):
    """Milliseconds a search of each kind, by Lucene; empty where it is not there."""
    here = os.path.dirname(os.path.abspath(__file__))
    if options.alone or not shutil.which('javac') or not os.path.exists(JARS.split(':')[0]):
        return {}
    folder = tempfile.mkdtemp(prefix='lucene_')
    try:
        subprocess.run(['javac', '-cp', JARS, '-d', folder, f'{here}/LuceneSearch.java'], check=True)
        with open(f'{folder}/documents', 'w') as file:
            for name, language, price, words in documents(options.documents):
                file.write(f'{name}\t{language}\t{price}\t{" ".join(words)}\n')
        with open(f'{folder}/queries', 'w') as file:
            for one, other in queries:
                file.write(f'{one}\t{other}\n')
        said = subprocess.run(['java', '-Xmx2g', '-XX:+UseTransparentHugePages', '-cp', f'{JARS}:{folder}', 'LuceneSearch', folder], check=True, stdout=subprocess.PIPE, text=True).stdout
    finally:
        shutil.rmtree(folder, ignore_errors=True)
    return {line.split('\t')[0]: float(line.split('\t')[1]) for line in said.splitlines()}


def costs(options, queries, variables):
    """What the server costs that has these variables: rows of a table, and of each kind of search the milliseconds, those of words that were asked
    before, and the documents found. The queries are those of each pass."""
    server, port = serve(options.program, workers=1, more=['--buckets', str(options.buckets)], variables=variables)
    lines, searches = {}, {}
    try:
        client = Client(port, 600)
        start = nanoseconds(server)
        rows, size = load(client, options, {word for pairs in queries for pair in pairs for word in pair})
        lines['to load a document'] = f'{(nanoseconds(server) - start) / 1e3 / options.documents:.1f} µs'
        before = server.memory()[0]
        first = spent(server, [lambda: commit(client)])
        after = server.memory()[0]
        lines['first commit, a document'] = f'{first * 1000 / options.documents:.2f} µs'
        lines['memory before and after it, a document'] = f'{before * 2**20 / options.documents:.0f} and {after * 2**20 / options.documents:.0f} bytes'
        passes = [dict(kinds(pairs, rows)) for pairs in queries]
        for kind, asked in passes[0].items():
            search(client, *asked[0])
            first_time = [search_all(server, client, one[kind]) for one in passes]
            again = [search_all(server, client, asked) for _ in range(PASSES)]
            searches[kind] = statistics.median(first_time), min(again), sum(found for _, found in asked) / len(asked)
        for count, rounds in ((0, 50), (1, 50), (1000, options.commits)):
            spans = []
            for turn in range(rounds):
                if count:
                    change(client, options, turn * 31, count)
                spans.append(spent(server, [lambda: commit(client)]))
            lines[f'a commit after {count} changed documents'] = f'{statistics.median(spans):.2f} ms'
        lines['memory at most, a document'] = f'{server.memory()[1] * 2**20 / options.documents:.0f} bytes'
    finally:
        server.stop()
    return lines, searches, size / options.documents


def memory_of_texts(options):
    """Prints what documents of ten texts take in memory."""
    load_before, draw = os.getloadavg()[0], random.Random(7)
    server, port = serve(options.program, workers=1, more=['--buckets', str(options.buckets)])

    def row(what, mebibytes):
        print(f'| {what}, a document | {mebibytes * 2**20 / options.documents:.0f} bytes |')

    try:
        client = Client(port, 600)
        size = send_all(client, (document_of_texts(number, draw) for number in range(options.documents)))
        print(f'{os.cpu_count()} processors ({platform.machine()}), load before {load_before:.1f}; {options.documents} documents of {size / options.documents:.0f} bytes of JSON; {options.buckets} buckets.\n')
        print('| What | takes |\n|---|---|')
        row('memory before the first commit', server.memory()[0])
        commit(client)
        row('memory after it', server.memory()[0])
        row('memory at most so far', server.memory()[1])
        for turn in range(options.commits):
            send_all(client, [document_of_texts((turn * 31 + 7919 * number) % options.documents, draw) for number in range(1000)])
            commit(client)
        row(f'memory after {options.commits} commits of 1000 changed documents', server.memory()[0])
        row('memory at most', server.memory()[1])
    finally:
        server.stop()


def tables(options):
    load_before = os.getloadavg()[0]
    queries = [queries_of(options.queries, turn) for turn in range(PASSES)]
    small, searches, size = costs(options, queries, {})
    huge, huge_searches, _ = costs(options, queries, HUGE_PAGES)
    other = lucene(options, queries[0])
    print(f'{os.cpu_count()} processors ({platform.machine()}), load before {load_before:.1f}; {options.documents} documents of {size:.0f} bytes of JSON; {options.buckets} buckets.\n')
    print('| What | costs | with huge pages |\n|---|---|---|')
    for what, cost in small.items():
        print(f'| {what} | {cost} | {huge[what]} |')
    print('\n| Search | found | processor time | asked again | with huge pages | asked again | Lucene 8, asked again |')
    print('|---|---|---|---|---|---|---|')
    for kind, (cost, again, found) in searches.items():
        huge_cost, huge_again, _ = huge_searches[kind]
        theirs = f'{other[kind]:.3f} ms' if kind in other else 'not measured'
        print(f'| {kind} | {found:.0f} | {cost:.3f} ms | {again:.3f} ms | {huge_cost:.3f} ms | {huge_again:.3f} ms | {theirs} |')
    if 'index' in other:
        print(f'\nLucene takes {other["index"]:.1f} µs to index a document.')


if __name__ == '__main__':
    stop_at_signals()
    options = arguments()
    with written_into(options.page, 'texts' if options.texts else 'search'):
        memory_of_texts(options) if options.texts else tables(options)
