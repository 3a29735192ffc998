#!/usr/bin/env python3
"""Runs the curl lines and the Python lines of a document against `solr_split serve`, and compares the answers with those that stand below them.

The lines stand in fenced blocks of the kind `console`: each begins with `$ curl`, goes on in the lines after it while a quotation is open or
a backslash ends it, and has its answer below: the body, after `HTTP <status> ` where the status is not 200. Python lines stand in blocks of the
kind `pycon`, as an interactive session shows them, with examples/clients on their path; where pysolr is not there (Debian: python3-pysolr) they are
passed over. Before each section (`## `) the server is started anew, with a clock that stands still, so that versions are the same in every run. Ends with
status 1 where an answer differs; with --write it puts the answers that came into the document.

    PROGRAM=crates/solr_split/out/solr_split bench/guide.py docs/COMING_FROM_SOLR.md
"""
import argparse
import contextlib
import doctest
import importlib
import io
import os
import subprocess
import sys
import traceback

sys.dont_write_bytecode = True

from loopback import PROGRAM, serve, stop_at_signals

WRITTEN = 'localhost:8983'
CLIENTS = os.path.join(os.path.dirname(os.path.abspath(__file__)), '../examples/clients')


def answer(command, port):
    """What a line has below it: the body, and before it the status where that is not 200."""
    ran = subprocess.run(['sh', '-c', command.replace('curl', "curl -sS -w '\\n%{http_code}'", 1).replace(WRITTEN, f'127.0.0.1:{port}')],
                         stdout=subprocess.PIPE, stderr=subprocess.STDOUT, text=True, timeout=60)
    body, _, status = ran.stdout.rpartition('\n')
    return body if status == '200' else f'HTTP {status} {body}'


def shown(example, names, port):
    """What a Python line has below it, as an interactive session shows it, with these names, to which its own are added."""
    out = io.StringIO()
    with contextlib.redirect_stdout(out):
        try:
            exec(compile(example.source.replace(WRITTEN, f'127.0.0.1:{port}'), '<document>', 'single'), names)
        except Exception as error:
            print('Traceback (most recent call last):', traceback.format_exception_only(type(error), error)[-1], sep='\n', end='')
    return out.getvalue()


def curl_lines(block, names, port):
    """Runs the commands of a block: of each its lines, those below it, and those that came."""
    for command, below in commands_of(block):
        yield ['$ ' + command[0], *command[1:]], below, answer('\n'.join(command), port).split('\n')


def python_lines(block, names, port):
    """The same of the Python lines of a block."""
    for example in doctest.DocTestParser().get_examples('\n'.join(block) + '\n'):
        first, *more = example.source.rstrip('\n').split('\n')
        yield ['>>> ' + first, *('... ' + line for line in more)], example.want.splitlines(), shown(example, names, port).splitlines()


def commands_of(block):
    """The commands of a block, each with the lines that stand below it."""
    found, at = [], 0
    while at < len(block):
        command = [block[at][2:]]
        at += 1
        while at < len(block) and (''.join(command).count("'") % 2 or command[-1].endswith('\\')):
            command.append(block[at])
            at += 1
        below = []
        while at < len(block) and not block[at].startswith('$ '):
            below.append(block[at])
            at += 1
        found.append((command, below))
    return found


def main():
    stop_at_signals()
    reader = argparse.ArgumentParser(description=__doc__.split('\n')[0])
    reader.add_argument('document')
    reader.add_argument('--program', default=PROGRAM, help='the built program ($PROGRAM)')
    reader.add_argument('--write', action='store_true', help='write the answers that came into the document')
    options = reader.parse_args()
    with open(options.document) as file:
        lines = file.read().split('\n')
    kinds = {'```console': curl_lines}
    with contextlib.suppress(ImportError):
        importlib.import_module('pysolr')
        sys.path.insert(0, CLIENTS)
        kinds['```pycon'] = python_lines
    made, at, server, port, names, count, differ = [], 0, None, 0, {}, 0, 0
    try:
        while at < len(lines):
            made.append(lines[at])
            if lines[at].startswith('## ') and server:
                server.stop()
                server = None
            if lines[at] not in kinds:
                at += 1
                continue
            end = lines.index('```', at)
            if not server:
                server, port = serve(options.program, workers=4, more=['--clock', '1000'])
                names = {}
            for asked, below, came in kinds[lines[at]](lines[at + 1:end], names, port):
                count += 1
                if came != below:
                    differ += 1
                    if not options.write:
                        print(*asked, *(f'- {line}' for line in below), *(f'+ {line}' for line in came), sep='\n')
                made += [*asked, *came]
            at = end
    finally:
        if server:
            server.stop()
    if options.write:
        with open(options.document, 'w') as file:
            file.write('\n'.join(made))
    print(f'{count} lines were run, {differ} answers differ' + (' and were written' if options.write else ''))
    if '```pycon' in lines and '```pycon' not in kinds:
        print('the Python lines were passed over, since pysolr is not there')
    sys.exit(1 if differ and not options.write else 0)


if __name__ == '__main__':
    main()
