#!/usr/bin/env python3
"""What `solr_split script` answers where one of its allocations is refused: the first, the second, and so on, until none is left that it makes.

A library that is loaded before the program's (built here by `cc`) refuses the allocation of a number. The answers before the request that is
hit have to be as ever, and then the run ends with status 6, after a last answer with 503 unless it had not begun; or a host fails for want of
memory (500, or status 8), a commit is told as `out of memory`, or nothing differs. It ends with status 1 at anything else.

    PROGRAM=crates/solr_split/out/solr_split bench/refused_memory.py
"""
import argparse
import collections
import json
import os
import re
import subprocess
import sys
import tempfile

sys.dont_write_bytecode = True

from loopback import PROGRAM

LIBRARY = r'''
#define _GNU_SOURCE
#include <dlfcn.h>
#include <errno.h>
#include <stdlib.h>
static int refused(void) {
    static long count, at = -1;
    if (at < 0) at = getenv("REFUSED") ? atol(getenv("REFUSED")) : 0;
    return ++count == at ? (errno = ENOMEM) : 0;
}
void *malloc(size_t size) {
    static void *(*real)(size_t);
    if (!real) real = dlsym(RTLD_NEXT, "malloc");
    return refused() ? 0 : real(size);
}
void *realloc(void *old, size_t size) {
    static void *(*real)(void *, size_t);
    if (!real) real = dlsym(RTLD_NEXT, "realloc");
    return refused() ? 0 : real(old, size);
}
'''
# No allocation is made past the last that differs and this many more.
ENOUGH = 400


def post(target, body):
    return f'POST {target} HTTP/1.1\r\nHost: a\r\nContent-Length: {len(body)}\r\n\r\n{body}'


def get(target):
    return f'GET {target} HTTP/1.1\r\nHost: a\r\n\r\n'


UPDATE, GET, SELECT, ADMIN = '/solr/docs/update', '/solr/docs/get', '/solr/docs/select', '/solr/admin/collections'
CASES = (
    (['--buckets', '1'],
     post(UPDATE + '?commit=true&versions=true', '[{"id":"abc","t_t":"two words","n_i":5}]')
     + f'POST {UPDATE} HTTP/1.1\r\nHost: a\r\nTransfer-Encoding: chunked\r\n\r\n5\r\n[{{"id\r\n9\r\n":"xyz"}}]\r\n0\r\n\r\n'
     + get(GET + '?ids=abc,xyz') + post(SELECT, 'q=t_t:words') + get(ADMIN + '?action=SPLITSHARD&collection=docs&shard=shard1')
     + get(SELECT + '?q=*:*') + get(ADMIN + '?action=CLUSTERSTATUS')),
    (['--buckets', '2', '--replicas', '2', '--nodes', '2'],
     post(UPDATE + '?versions=true', '[{"id":"a"},{"id":"b","n_is":{"add":4}},{"id":"a","n_i":{"inc":2}}]')
     + post(UPDATE + '?commit=true', '{"delete":["b"],"add":{"doc":{"id":"c","t_t":"three"}}}')
     + get(SELECT + '?q=*:*&fq=t_t:three&_route_=c') + get(ADMIN + '?action=SPLITSHARD&shard=shard1&numSubShards=3')
     + get(ADMIN + '?action=DELETESHARD&shard=shard1') + get(GET + '?ids=a,b,c') + get(ADMIN + '?action=CLUSTERSTATUS')
     + get(SELECT + '?q=*:*')),
)


def answers(written):
    """The status and the body of each answer."""
    found = []
    while written:
        head = re.match(rb'HTTP/1.1 (\d+).*?Content-Length: (\d+)\r\n(?:Connection: close\r\n)?\r\n', written, re.S)
        if not head:
            return found + [(0, written)]
        end = head.end() + int(head[2])
        found.append((int(head[1]), written[head.end():end]))
        written = written[end:]
    return found


def judged(status, found, usual):
    """How a run with one refusal ended, and whether it may."""
    same = 0
    while same < min(len(found), len(usual)) and found[same] == usual[same]:
        same += 1
    rest = found[same:]
    if status == 6 and not rest:
        return 'status 6 before the first answer', same == 0
    if status == 6:
        return 'status 6 after an answer with 503', [one for one, _ in rest] == [503]
    if status == 8:
        return 'status 8, a first core was not started', not found
    if status == 0 and not rest and len(found) == len(usual):
        return 'no difference', True
    body = json.loads(rest[0][1]) if rest and rest[0][0] else {}
    if status == 0 and body.get('committed') == 'out of memory':
        return 'a split that is done, whose commits are not', True
    host = body.get('error', {}).get('msg', '').startswith('host failed on core ')
    return ('a host failed' if host else f'status {status}, {rest[:1]}'), status == 0 and host


def measure(program, library, options, requests):
    def run(at):
        with tempfile.TemporaryDirectory() as folder:
            made = subprocess.run([program, 'script', '--clock', '1000', *options], input=requests.encode(), capture_output=True, cwd=folder,
                                  env={'LD_PRELOAD': library, 'REFUSED': str(at)}, timeout=60)
            return made.returncode, answers(made.stdout)
    status, usual = run(0)
    if status or any(one != 200 for one, _ in usual):
        sys.exit(f'with no refusal: status {status}, {usual}')
    ends, wrong, at, alike = collections.Counter(), [], 0, 0
    while alike < ENOUGH:
        at += 1
        what, may = judged(*run(at), usual)
        ends[what] += 1
        alike = alike + 1 if what == 'no difference' else 0
        if not may:
            wrong.append(f'allocation {at}: {what}')
    ends['no difference'] -= alike
    print(f'{" ".join(options)}: {len(usual)} requests, {at - alike} allocations refused, one a run: '
          + '; '.join(f'{count} {what}' for what, count in ends.most_common() if count))
    for line in wrong[:10]:
        print('- ' + line)
    return len(wrong)


def main():
    reader = argparse.ArgumentParser(description=__doc__.split('\n')[0])
    reader.add_argument('--program', default=PROGRAM, help='the built program ($PROGRAM)')
    options = reader.parse_args()
    with tempfile.TemporaryDirectory() as folder:
        library = os.path.join(folder, 'refuses.so')
        subprocess.run(['cc', '-shared', '-fPIC', '-O1', '-x', 'c', '-', '-o', library, '-ldl'], input=LIBRARY.encode(), check=True)
        wrong = sum(measure(os.path.abspath(options.program), library, *case) for case in CASES)
    print(f'{wrong} problems.')
    sys.exit(1 if wrong else 0)


if __name__ == '__main__':
    main()
