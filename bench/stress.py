#!/usr/bin/env python3
"""Splits and deletes shards without a pause while clients write, read and search, and checks every answer.

Each document belongs to one writer, which knows its last version: it updates and deletes under that version, so that a lost or a doubled write
is a conflict, and its gets have to show that version. Searches have to list each id once, in order. Three clients split and delete shards that
they pick at random; in each status the ranges of the active shards have to tile all hashes, and what is refused has to be refused for a cause
that another's command can make. At the end each document is at its last version, a search finds as many as are live, and the folders of the
cores are those of the status. Ends with status 1 where something was wrong.

    PROGRAM=crates/solr_split/out/solr_split bench/stress.py --seconds 15
"""
import argparse
import os
import random
import sys
import threading
import time

sys.dont_write_bytecode = True

from loopback import PROGRAM, Client, serve, stop_at_signals

COMMANDS = '/solr/admin/collections?collection=docs&action='
CAUSES = ('split of ', 'unknown shard', 'shard is ')


def arguments():
    reader = argparse.ArgumentParser(description=__doc__.split('\n')[0])
    reader.add_argument('--program', default=PROGRAM, help='the built program ($PROGRAM)')
    reader.add_argument('--seconds', type=float, default=15)
    reader.add_argument('--documents', type=int, default=4000)
    reader.add_argument('--writers', type=int, default=6)
    reader.add_argument('--replicas', type=int, default=2)
    reader.add_argument('--buckets', type=int, default=16)
    reader.add_argument('--seed', type=int, default=1)
    return reader.parse_args()


def name_of(number):
    return f'k{number % 7}!d{number}'


class Run:
    def __init__(self, options, port):
        self.options, self.port = options, port
        # The last version of each document, as its negative where that is a deletion.
        self.versions = {}
        self.problems = []
        self.counts = {}
        self.stop = threading.Event()

    def count(self, what):
        self.counts[what] = self.counts.get(what, 0) + 1

    def shown(self, client, number):
        document = client.ask('GET', f'/solr/docs/get?id={name_of(number)}')[1]['doc']
        return document['_version_'] if document else -1

    def write(self, index):
        client, draw = Client(self.port), random.Random(f'{self.options.seed} write {index}')
        own = range(index, self.options.documents, self.options.writers)
        while not self.stop.is_set():
            number, kind = draw.choice(own), draw.random()
            last = max(self.versions.get(number, -1), -1)
            if kind < 0.35:
                found = self.shown(client, number)
                if found != last:
                    self.problems.append(f'a get of {name_of(number)} shows {found} and not {last}')
                self.count('gets')
                continue
            if kind < 0.5 and last > 0:
                body, answers = {'delete': {'id': name_of(number), '_version_': last}}, 'deletes'
            else:
                body, answers = [{'id': name_of(number), '_version_': last, 'number_i': number, 't_s': 'x' * 50}], 'adds'
            commit = '&commit=true' if draw.random() < 0.02 else ''
            status, answer = client.ask('POST', f'/solr/docs/update?versions=true{commit}', body)
            if status != 200:
                self.problems.append(f'an update of {name_of(number)} at {last}: {status} {answer}')
                continue
            if abs(answer[answers][1]) <= abs(self.versions.get(number, 0)):
                self.problems.append(f'the version of {name_of(number)} fell from {self.versions[number]} to {answer[answers][1]}')
            self.versions[number] = answer[answers][1]
            self.count('updates')

    def search(self, index):
        client, draw = Client(self.port), random.Random(f'{self.options.seed} search {index}')
        while not self.stop.is_set():
            status, answer = client.ask('GET', f'/solr/docs/select?q=*:*&rows=100&start={draw.choice((0, 100, 1000))}')
            ids = [one['id'] for one in answer['response']['docs']] if status == 200 else None
            if status != 200 or ids != sorted(set(ids)):
                self.problems.append(f'a search: {status} {str(answer)[:200]}')
            self.count('searches')

    def command(self, index):
        client, draw = Client(self.port, 120), random.Random(f'{self.options.seed} command {index}')
        while not self.stop.is_set():
            shards = self.shards(client)
            active = [name for name in shards if shards[name]['state'] == 'active']
            inactive = [name for name in shards if shards[name]['state'] == 'inactive']
            ranges = sorted(tuple(int(end, 16) ^ 0x80000000 for end in shards[name]['range'].split('-')) for name in active)
            ends = [-1] + [last for _, last in ranges]
            if [first for first, _ in ranges] != [end + 1 for end in ends[:-1]] or ends[-1] != 0xffffffff:
                self.problems.append(f'the active shards do not tile: {ranges}')
            if inactive and (draw.random() < 0.4 or len(shards) > 100):
                what, path = 'deletions', f'DELETESHARD&shard={draw.choice(inactive)}'
            elif len(active) < 120:
                what, path = 'splits', f'SPLITSHARD&shard={draw.choice(active)}&numSubShards={draw.choice((2, 3, 8))}'
            else:
                time.sleep(0.1)
                continue
            status, answer = client.ask('GET', COMMANDS + path)
            if status != 200 and not answer['error']['msg'].startswith(CAUSES):
                self.problems.append(f'{path}: {status} {answer}')
            self.count(what if status == 200 else f'{what} refused')

    def shards(self, client):
        return client.ask('GET', COMMANDS + 'CLUSTERSTATUS')[1]['cluster']['collections']['docs']['shards']

    def guarded(self, work, index):
        try:
            work(index)
        except Exception as error:  # pylint: disable=broad-except
            self.problems.append(f'{work.__name__} ended with {error!r}')

    def check(self, folder):
        client = Client(self.port)
        wrong = sum(self.shown(client, number) != max(version, -1) for number, version in self.versions.items())
        if wrong:
            self.problems.append(f'{wrong} documents are not at their last version')
        client.ask('GET', '/solr/docs/update?commit=true')
        live = sum(version > 0 for version in self.versions.values())
        found = client.ask('GET', '/solr/docs/select?q=*:*&rows=0')[1]['response']['numFound']
        if found != live:
            self.problems.append(f'a search finds {found} documents, and {live} are live')
        shards = self.shards(client)
        named = sorted(core for shard in shards.values() for core in shard['replicas'])
        if named != sorted(os.listdir(f'{folder}/cores')):
            self.problems.append('the folders of the cores are not those of the status')
        print(f'{live} documents are live, in {len(shards)} shards with {len(named)} cores.')


def main():
    stop_at_signals()
    options = arguments()
    workers = options.writers + 6
    server, port = serve(options.program, workers=workers, more=['--replicas', str(options.replicas), '--buckets', str(options.buckets)])
    try:
        run = Run(options, port)
        works = [(run.write, index) for index in range(options.writers)] + [(run.search, 0)] + [(run.command, index) for index in range(3)]
        threads = [threading.Thread(target=run.guarded, args=work, daemon=True) for work in works]
        for thread in threads:
            thread.start()
        time.sleep(options.seconds)
        run.stop.set()
        for thread in threads:
            thread.join(120)
        run.check(server.folder)
        print(', '.join(f'{run.counts[what]} {what}' for what in sorted(run.counts)) + f'; {len(run.problems)} problems.')
        for problem in run.problems[:20]:
            print('- ' + problem)
        sys.exit(1 if run.problems or not server.lives() else 0)
    finally:
        server.stop()


if __name__ == '__main__':
    main()
