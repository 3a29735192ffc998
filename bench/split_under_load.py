#!/usr/bin/env python3
"""Splits a shard while clients write, read and search, and shows what each of them waited.

It starts `solr_split serve`, loads documents on several connections, and then sends gets and conditional updates at a steady rate, and searches
on connections of their own. In the middle it sends SPLITSHARD, and reads from CLUSTERSTATUS how far the split is. At the end it prints, for each
kind of request, how many were answered a second and how long they took before, during and after the split, checks what the collection has
against what it was told, and writes a picture (SVG) of the times with the steps of the split. It ends with status 1 where any answer was wrong.

A request's time counts from the moment at which it was due, so that a server that stands still makes every request late that falls into
that time. Before a connection's thousandth request, with which a server ends it, it is opened anew between two requests. For example:

    PROGRAM=crates/solr_split/out/solr_split bench/split_under_load.py --svg docs/split_under_load.svg --page docs/SPLIT_UNDER_LOAD.md
"""
import argparse
import json
import math
import os
import random
import sys
import threading
import time

sys.dont_write_bytecode = True

from loopback import PROGRAM, Client, percentile, serve, stop_at_signals, written_into

KINDS = ('get', 'search', 'update')
COLORS = {'get': '#1f77b4', 'search': '#2ca02c', 'update': '#d62728'}
WORDS = ('river stone cloud window garden letter bridge market island engine mirror forest harbor candle ladder '
         'pocket silver thunder velvet winter').split()


def arguments():
    reader = argparse.ArgumentParser(description=__doc__.split('\n')[0])
    reader.add_argument('--program', default=PROGRAM, help='the built program ($PROGRAM)')
    reader.add_argument('--port', type=int, default=0, help='the port (a free one)')
    reader.add_argument('--workers', type=int, default=16, help='threads of the server; more than there are connections (16)')
    reader.add_argument('--buckets', type=int, default=64)
    reader.add_argument('--replicas', type=int, default=2)
    reader.add_argument('--documents', type=int, default=300000, help='how many documents are loaded before (300000)')
    reader.add_argument('--connections', type=int, default=8, help='connections that send gets and updates (8)')
    reader.add_argument('--rate', type=float, default=400, help='gets and updates a second, over these connections, two gets for each update (400)')
    reader.add_argument('--searchers', type=int, default=2, help='connections that send searches (2)')
    reader.add_argument('--searches', type=float, default=20, help='searches a second, over these connections (20)')
    reader.add_argument('--seconds', type=float, default=24, help='how long the steady requests go on (24)')
    reader.add_argument('--split-at', type=float, default=10, help='the second in which the shard is split (10)')
    reader.add_argument('--svg', default='', help='the file for the picture')
    reader.add_argument('--page', default='', help='a page into which the figures are written, between its lines `<!-- split -->` and `<!-- end -->`')
    reader.add_argument('--seed', type=int, default=1)
    return reader.parse_args()


def document(number, turn, draw):
    return {'id': f'doc{number}', 'title_t': ' '.join(draw.sample(WORDS, 5)), 'kind_s': WORDS[number % len(WORDS)], 'turn_i': turn}


def load(client, numbers, draw, versions):
    for at in range(0, len(numbers), 500):
        batch = [document(number, 0, draw) for number in numbers[at:at + 500]]
        status, answer = client.ask('POST', '/solr/docs/update?versions=true', batch)
        if status != 200:
            raise RuntimeError(f'loading was answered {status}: {answer}')
        adds = answer['adds']
        for id_, version in zip(adds[0::2], adds[1::2]):
            versions[int(id_[3:])] = version


class Run:
    """What the threads share. Each document belongs to one connection, which alone updates it."""

    def __init__(self, options, port):
        self.options, self.port = options, port
        self.versions = {}
        self.samples = []
        self.steps = []
        self.problems = []
        self.stop = threading.Event()
        self.split = None

    def steady(self, kinds, connections, rate, index, start):
        """One of so many connections, which together send so many requests a second, each of one of these kinds."""
        options = self.options
        draw = random.Random(f'{options.seed} {kinds} {index}')
        client = Client(self.port)
        own = range(index, options.documents, connections)
        gap = connections / rate
        due = start + gap * index / connections
        count = 0
        while due < start + options.seconds and not self.stop.is_set():
            kind = draw.choice(kinds)
            number = draw.choice(own)
            count += 1
            if count % 990 == 0:
                client.close()
            wait = due - time.monotonic()
            if wait > 0:
                time.sleep(wait)
            problem = None
            if kind == 'get':
                status, answer = client.ask('GET', f'/solr/docs/get?id=doc{number}')
                if status != 200 or (answer['doc'] or {}).get('_version_') != self.versions[number]:
                    problem = f'get of doc{number}: {status} {answer}, not version {self.versions[number]}'
            elif kind == 'search':
                word = draw.choice(WORDS)
                status, answer = client.ask('GET', f'/solr/docs/select?q=kind_s:{word}&rows=10')
                wanted = len(range(WORDS.index(word), options.documents, len(WORDS)))
                if status != 200 or answer['response']['numFound'] != wanted:
                    problem = f'search for {word}: {status}, {answer.get("response", {}).get("numFound")} and not {wanted}'
            else:
                new = document(number, draw.randrange(1 << 20), draw)
                new['_version_'] = self.versions[number]
                status, answer = client.ask('POST', '/solr/docs/update?versions=true', [new])
                if status == 200:
                    self.versions[number] = answer['adds'][1]
                else:
                    problem = f'update of doc{number}: {status} {answer}'
            self.samples.append((kind, due - start, time.monotonic() - due))
            if problem:
                self.problems.append(problem)
            due += gap

    def watch(self, start):
        client = Client(self.port)
        seen = None
        while not self.stop.is_set():
            _, answer = client.ask('GET', '/solr/admin/collections?action=CLUSTERSTATUS')
            shards = answer['cluster']['collections']['docs']['shards']
            states = ', '.join(f'{name} {shards[name]["state"]}' for name in sorted(shards))
            if states != seen:
                self.steps.append((time.monotonic() - start, states))
                seen = states
            time.sleep(0.01)

    def divide(self, start):
        time.sleep(max(0, start + self.options.split_at - time.monotonic()))
        began = time.monotonic() - start
        status, answer = Client(self.port, 600).ask('GET', '/solr/admin/collections?action=SPLITSHARD&collection=docs&shard=shard1')
        self.split = (began, time.monotonic() - start, f'{status} {json.dumps(answer, sort_keys=True)}')
        if status != 200:
            self.problems.append(f'the split was answered {self.split[2]}')

    def guarded(self, work, *with_):
        # A thread that fails is a problem that is told, and ends the run.
        try:
            work(*with_)
        except Exception as error:  # pylint: disable=broad-except
            self.problems.append(f'{work.__name__} ended with {error!r}')
            self.stop.set()

    def check(self):
        """Whether each document is at its last acknowledged version."""
        client = Client(self.port)
        numbers = sorted(self.versions)
        wrong = 0
        for at in range(0, len(numbers), 500):
            part = numbers[at:at + 500]
            _, answer = client.ask('GET', '/solr/docs/get?ids=' + ','.join(f'doc{number}' for number in part))
            found = {int(one['id'][3:]): one['_version_'] for one in answer['response']['docs']}
            wrong += sum(found.get(number) != self.versions[number] for number in part)
        if wrong:
            self.problems.append(f'{wrong} documents are not at their last acknowledged version')


def table(run):
    began, ended, _ = run.split
    spans = (('before', 0, began), ('during', began, ended), ('after', ended, run.options.seconds))
    print('\n| Requests | When | seconds | a second | p50 ms | p99 ms | p99.9 ms | most ms |\n|' + '---|' * 8)
    for kind in KINDS:
        for name, first, last in spans:
            of = sorted(taken * 1000 for one, due, taken in run.samples if one == kind and first <= due < last)
            each = f'{len(of) / (last - first):.1f} | ' + ' | '.join(f'{percentile(of, part):.2f}' for part in (.5, .99, .999, 1)) if of else 'none | | | |'
            print(f'| {kind} | {name} | {max(0, last - first):.2f} | {each} |')


def picture(run, path):
    """A panel for each kind of request: a dot where requests of that moment took so long, and a line for the worst of each half second."""
    width, height, left, top, between = 900, 150, 70, 70, 44
    seconds, cell = run.options.seconds, 2
    floor, ceiling = 0.1, max(10.0, max(taken for _, _, taken in run.samples) * 1500)

    def across(second):
        return left + width * max(0, min(second, seconds)) / seconds

    def down(milliseconds, panel):
        part = math.log(max(milliseconds, floor) / floor) / math.log(ceiling / floor)
        return top + panel * (height + between) + height * (1 - part)

    whole = top + 3 * (height + between) + 20 + 16 * len(run.steps)
    began, ended, _ = run.split
    lines = [f'<svg xmlns="http://www.w3.org/2000/svg" width="{width + left + 20}" height="{whole}" font-family="sans-serif" font-size="12">',
             '<rect width="100%" height="100%" fill="white"/>',
             f'<text x="{left}" y="20" font-size="14">Times of requests while shard1 is split: {run.options.documents} documents, {run.options.rate:g} gets and updates '
             f'and {run.options.searches:g} searches a second on {run.options.connections + run.options.searchers} connections</text>',
             f'<text x="{left}" y="40">shaded: from SPLITSHARD to its answer; dashed: CLUSTERSTATUS showed a step, told below; line: the longest of each half second</text>']
    for panel, kind in enumerate(KINDS):
        base = top + panel * (height + between)
        lines.append(f'<rect x="{across(began):.1f}" y="{base}" width="{max(1.0, across(ended) - across(began)):.1f}" height="{height}" fill="#ffe9b0"/>')
        mark = floor
        while mark <= ceiling:
            lines.append(f'<path d="M{left} {down(mark, panel):.1f}h{width}" stroke="#ddd"/>'
                         f'<text x="{left - 8}" y="{down(mark, panel) + 4:.1f}" text-anchor="end">{mark:g} ms</text>')
            mark *= 10
        of = [(due, taken * 1000) for one, due, taken in run.samples if one == kind]
        dots = sorted({(round(across(due) / cell) * cell, round(down(taken, panel) / cell) * cell) for due, taken in of})
        lines.append(f'<path d="{"".join(f"M{x} {y}h0" for x, y in dots)}" stroke="{COLORS[kind]}" stroke-width="{2 if len(of) > 500 else 5}" stroke-linecap="round" stroke-opacity="0.55"/>')
        worst = {}
        for due, taken in of:
            worst[int(due * 2)] = max(worst.get(int(due * 2), 0), taken)
        points = ' '.join(f'{across(half / 2 + 0.25):.0f},{down(taken, panel):.0f}' for half, taken in sorted(worst.items()))
        lines.append(f'<polyline points="{points}" fill="none" stroke="#444" stroke-width="1"/>')
        lines.append(f'<text x="{left}" y="{base - 6}" fill="{COLORS[kind]}" font-weight="bold">{kind}</text>')
        for number, (second, _) in enumerate(run.steps[1:], 1):
            lines.append(f'<path d="M{across(second):.1f} {base}v{height}" stroke="#555" stroke-dasharray="4 3"/>'
                         f'<text x="{across(second) + 2:.1f}" y="{base + 11}" font-size="10">{number}</text>')
    for second in range(0, int(seconds) + 1, 2):
        lines.append(f'<text x="{across(second):.1f}" y="{base + height + 20}" text-anchor="middle">{second} s</text>')
    for number, (second, states) in enumerate(run.steps[1:], 1):
        lines.append(f'<text x="{left}" y="{base + height + 26 + 16 * number}">{number}: {second:.2f} s, {states}</text>')
    lines.append('</svg>')
    with open(path, 'w') as file:
        file.write('\n'.join(lines) + '\n')


def measure(options):
    # The threads of this process take turns often, so that none of them makes another late.
    sys.setswitchinterval(0.0005)
    server, port = serve(options.program, options.port, options.workers, ['--buckets', str(options.buckets), '--replicas', str(options.replicas)])
    try:
        run = Run(options, port)
        began = time.monotonic()
        threads = [threading.Thread(target=run.guarded, args=(load, Client(port), range(index, options.documents, options.connections),
                                                              random.Random(options.seed + index), run.versions)) for index in range(options.connections)]
        for thread in threads:
            thread.start()
        for thread in threads:
            thread.join()
        if run.problems:
            sys.exit(run.problems[0])
        Client(port).ask('GET', '/solr/docs/update?commit=true')
        taken = time.monotonic() - began
        print(f'{os.cpu_count()} processors, load {os.getloadavg()[0]:.1f}; {options.workers} workers, {options.buckets} buckets, {options.replicas} replicas. '
              f'{options.documents} documents were loaded on {options.connections} connections in {taken:.2f} s: {options.documents / taken:.0f} a second.')
        start = time.monotonic() + 0.2
        threads = [threading.Thread(target=run.guarded, args=(run.steady, ('get', 'get', 'update'), options.connections, options.rate, index, start))
                   for index in range(options.connections)]
        threads += [threading.Thread(target=run.guarded, args=(run.steady, ('search',), options.searchers, options.searches, index, start))
                    for index in range(options.searchers)]
        threads += [threading.Thread(target=run.guarded, args=(run.divide, start))]
        watcher = threading.Thread(target=run.guarded, args=(run.watch, start))
        for thread in threads + [watcher]:
            thread.start()
        for thread in threads:
            thread.join()
        run.stop.set()
        watcher.join()
        if run.split:
            print(f'\nSPLITSHARD at second {run.split[0]:.2f}, answered after {run.split[1] - run.split[0]:.3f} s: `{run.split[2]}`\n')
            print('| Second | CLUSTERSTATUS shows |\n|---|---|')
            for second, states in run.steps[1:]:
                print(f'| {second:.3f} | {states} |')
            table(run)
        run.check()
        now, most = server.memory()
        print(f'\n{len(run.samples)} answers and the versions of {len(run.versions)} documents were checked: {len(run.problems)} problems. '
              f'The server holds {now:.0f} MiB, at most {most:.0f} MiB.')
        for problem in run.problems[:20]:
            print('- ' + problem)
        if options.svg and run.split and run.samples:
            picture(run, options.svg)
        return 1 if run.problems else 0
    finally:
        server.stop()


def main():
    stop_at_signals()
    options = arguments()
    with written_into(options.page, 'split'):
        status = measure(options)
    sys.exit(status)


if __name__ == '__main__':
    main()
