#!/usr/bin/env python3
"""How many instructions `solr_split script` takes for a search, a get, updates, a commit of nothing, a load and a first commit.

It has the program load the documents of `search.py` over standard input, once more with each kind of request after them, and counts the
instructions of each run by valgrind's callgrind: what a request takes is the difference of two runs. What an added document of one kind takes is the
difference of two runs on such documents alone. So the figures are the same on a busy machine. Every request has to be answered 200. Prints a table
in Markdown; 8,000 documents take some three minutes.

    PROGRAM=crates/solr_split/out/solr_split bench/instructions.py --documents 8000 --buckets 64
"""
import argparse
import os
import random
import re
import shutil
import subprocess
import sys
import tempfile

sys.dont_write_bytecode = True

from loopback import PROGRAM, request, stop_at_signals
from search import documents, words_of

# So many requests of a kind are sent in one run and not in the other.
TIMES = 10
# So many documents of a kind are added in one run and in the other.
MANY, FEW = 3000, 1000
LETTERS = 'abcdefghijklmnopqrstuvwxyz'


def arguments():
    reader = argparse.ArgumentParser(description=__doc__.split('\n')[0])
    reader.add_argument('--program', default=PROGRAM, help='the built program ($PROGRAM)')
    reader.add_argument('--documents', type=int, default=8000, help='documents that are loaded (8000); a connection takes at most some 30,000')
    reader.add_argument('--buckets', type=int, default=64, help='buckets of the collection (64)')
    return reader.parse_args()


def counted(options, requests):
    """The instructions of a run of the program on these requests, on one connection."""
    folder = tempfile.mkdtemp(prefix='instructions_')
    try:
        run = subprocess.run(['valgrind', '--tool=callgrind', f'--callgrind-out-file={folder}/out', os.path.abspath(options.program), 'script', '--clock', '1000',
                              '--buckets', str(options.buckets)], input=b''.join(requests), stdout=subprocess.PIPE, stderr=subprocess.PIPE, cwd=folder)
    finally:
        shutil.rmtree(folder, ignore_errors=True)
    answers = run.stdout.count(b'HTTP/1.1 200 ')
    if run.returncode or answers != len(requests):
        sys.exit(f'{answers} of {len(requests)} requests were answered 200, and the program ended with {run.returncode}')
    return int(re.search(rb'Collected : (\d+)', run.stderr)[1])


def batches(options):
    """The requests that load all documents."""
    bodies = [{'id': name, 'lang_s': language, 'price_i': price, 'title_t': ' '.join(words)} for name, language, price, words in documents(options.documents)]
    return [request('POST', '/solr/docs/update', bodies[at:at + 4000]) for at in range(0, len(bodies), 4000)], bodies


def two_texts(count):
    """Documents of two texts of 35 bytes, the same at each call."""
    draw = random.Random(5)
    return [{'id': f'doc-{number:07d}', **{name: ''.join(draw.choices(LETTERS, k=35)) for name in ('a_s', 'b_s')}} for number in range(count)]


def titles(count):
    """Documents of a title of eight words of three to nine letters, a language and a price, the same at each call."""
    draw = random.Random(5)
    return [{'id': f'doc-{number:07d}', 'lang_s': 'en', 'price_i': draw.randrange(10000),
             'title_t': ' '.join(''.join(draw.choices(LETTERS, k=draw.randint(3, 9))) for _ in range(8))} for number in range(count)]


def added(options, kind):
    """What one added document of a kind takes, without a commit."""
    many, few = (counted(options, [request('POST', '/solr/docs/update', kind(count))]) for count in (MANY, FEW))
    return (many - few) / (MANY - FEW)


def main():
    stop_at_signals()
    options = arguments()
    if not shutil.which('valgrind'):
        sys.exit('valgrind is not on the path')
    load, bodies = batches(options)
    commit = request('GET', '/solr/docs/update?commit=true')
    search = request('GET', '/solr/docs/select?rows=10&q=title_t:' + words_of(100))
    update = request('POST', '/solr/docs/update?commit=true', [dict(bodies[len(bodies) // 2], title_t='changed once more')])
    get = request('GET', '/solr/docs/get?id=' + bodies[len(bodies) // 2]['id'])
    ten = request('POST', '/solr/docs/update', [{'id': 'ten', **{f'part_{letter}_s': f'a text of {letter}' for letter in LETTERS[:10]}}])
    part = request('POST', '/solr/docs/update', [{'id': 'ten', 'part_e_s': {'set': 'another text'}}])

    loaded = counted(options, load)
    ready = load + [commit]
    committed = counted(options, ready)

    def each(one, *before):
        """What one of these takes, once one came before it, and these others before that."""
        begun = [*ready, *before, one]
        return (counted(options, begun + [one] * TIMES) - counted(options, begun)) / TIMES

    print(f'{options.documents} documents, {options.buckets} buckets.\n\n| What | instructions |\n|---|---|')
    print(f'| to load a document | {(loaded - counted(options, [])) / len(bodies):,.0f} |')
    print(f'| first commit, a document | {(committed - loaded) / len(bodies):,.0f} |')
    print(f'| a commit of nothing | {each(commit):,.0f} |')
    print(f'| an update of a document with its commit | {each(update):,.0f} |')
    print(f'| a search for a word | {each(search):,.0f} |')
    print(f'| a get of a document of three fields | {each(get):,.0f} |')
    print(f'| an added document of two texts of 35 bytes | {added(options, two_texts):,.0f} |')
    print(f'| an added document of a title of eight words | {added(options, titles):,.0f} |')
    print(f'| an update of one field of ten | {each(part, ten):,.0f} |', flush=True)


if __name__ == '__main__':
    main()
