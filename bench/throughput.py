#!/usr/bin/env python3
"""How many gets and updates a second `solr_split serve` answers, and what one costs, beside nginx and redis on the same machine.

For 4 workers and for 64 it measures gets and updates on 1, 8 and 64 connections that ask without a pause, connections that are opened for one
get each, and what 64 clients that say nothing do to 8 that ask. Then it has the same clients ask nginx for a file as long as a get's answer, and
redis for a value of that length, where these programs are installed (Debian: nginx-light, redis-server). The processor time of a request is
that of the server alone, from /proc/PID/stat. Each figure is of `--seconds` seconds; all take about two minutes. Prints tables in Markdown.

    PROGRAM=crates/solr_split/out/solr_split bench/throughput.py
"""
import argparse
import multiprocessing
import os
import platform
import random
import shutil
import socket
import sys
import tempfile
import time

sys.dont_write_bytecode = True

from loopback import HOST, PROGRAM, Client, Process, drive, free_port, percentile, redis_end, request, serve, stop_at_signals, written_into

CONNECTIONS = (1, 8, 64)
WORDS = ('river stone cloud window garden letter bridge market island engine mirror forest harbor candle ladder '
         'pocket silver thunder velvet winter').split()


def arguments():
    reader = argparse.ArgumentParser(description=__doc__.split('\n')[0])
    reader.add_argument('--program', default=PROGRAM, help='the built program ($PROGRAM)')
    reader.add_argument('--seconds', type=float, default=2, help='seconds of each figure (2)')
    reader.add_argument('--documents', type=int, default=5000, help='documents that are loaded before (5000)')
    reader.add_argument('--workers', default='4,64', help='workers of the servers that are measured (4,64)')
    reader.add_argument('--processes', type=int, default=2, help='processes of the clients (2)')
    reader.add_argument('--alone', action='store_true', help='neither nginx nor redis')
    reader.add_argument('--page', default='', help='a page into which the tables are written, between its lines `<!-- throughput -->` and `<!-- end -->`')
    return reader.parse_args()


def document(number, draw):
    return {'id': f'doc{number}', 'title_t': ' '.join(draw.sample(WORDS, 5)), 'kind_s': WORDS[number % len(WORDS)], 'turn_i': number}


def head(*names):
    print('| ' + ' | '.join(names) + ' |')
    print('|' + '---|' * len(names))


def row(*cells):
    print('| ' + ' | '.join(str(cell) for cell in cells) + ' |', flush=True)


def figure(options, server, port, connections, requests, ends=None):
    """The cells of one measurement: a second, p50, p99 and the most in milliseconds, processor microseconds a request, failures."""
    before = server.processor_seconds()
    taken, faults, opened, waits = drive(port, connections, options.seconds, requests, *([ends] if ends else []), processes=options.processes)
    spent = server.processor_seconds() - before
    if not taken:
        return '0', '', '', f'{waits * 1000:.0f}', '', faults
    return (f'{len(taken) / options.seconds:.0f}', f'{percentile(taken, .5) * 1000:.2f}', f'{percentile(taken, .99) * 1000:.2f}',
            f'{max(taken[-1], waits) * 1000:.0f}', f'{spent / len(taken) * 1e6:.0f}', faults)


NAMES = ('a second', 'p50 ms', 'p99 ms', 'most ms', 'processor µs each', 'refused')


def _open_and_ask(port, seconds, asked, pipe):
    # One connection after another, each for one get.
    count, until = 0, time.perf_counter() + seconds
    while time.perf_counter() < until:
        with socket.create_connection((HOST, port), 10) as stream:
            stream.sendall(asked)
            while stream.recv(1 << 16):
                pass
        count += 1
    pipe.send(count)


def opened_a_second(options, port, clients):
    asked = request('GET', '/solr/docs/get?id=doc1', more='Connection: close\r\n')
    running = []
    for _ in range(clients):
        ours, theirs = multiprocessing.Pipe(False)
        child = multiprocessing.Process(target=_open_and_ask, args=(port, options.seconds, asked, theirs))
        child.start()
        running.append((child, ours))
    total = sum(ours.recv() for _, ours in running)
    for child, _ in running:
        child.join()
    return total / options.seconds


def idle_clients(port, count):
    """Connections that are opened and say nothing."""
    return [socket.create_connection((HOST, port), 10) for _ in range(count)]


def closed(streams):
    """How many of these connections the server has closed."""
    count = 0
    for stream in streams:
        stream.setblocking(False)
        try:
            count += not stream.recv(1)
        except BlockingIOError:
            pass
        except OSError:
            count += 1
    return count


def measure(options, workers):
    draw = random.Random(1)
    server, port = serve(options.program, workers=workers)
    try:
        client = Client(port)
        for at in range(0, options.documents, 500):
            status, answer = client.ask('POST', '/solr/docs/update?commit=true', [document(number, draw) for number in range(at, min(at + 500, options.documents))])
            if status != 200:
                sys.exit(f'loading was answered {status}: {answer}')
        length = len(client.exchange(request('GET', '/solr/docs/get?id=doc1'))[1])
        client.close()
        numbers = [draw.randrange(options.documents) for _ in range(2000)]
        gets = [request('GET', f'/solr/docs/get?id=doc{number}') for number in numbers]
        updates = [request('POST', '/solr/docs/update', [document(number, draw)]) for number in numbers]
        print(f'\n### {workers} workers\n')
        head('Connections', 'Requests', *NAMES)
        for kind, requests in (('gets', gets), ('updates', updates)):
            for connections in CONNECTIONS:
                row(connections, kind, *figure(options, server, port, connections, requests))
        print()
        head('Clients that open a connection for each get', 'connections a second', 'processor µs each')
        for clients in (1, 4):
            before = server.processor_seconds()
            count = opened_a_second(options, port, clients)
            row(clients, f'{count:.0f}', f'{(server.processor_seconds() - before) / max(1, count * options.seconds) * 1e6:.0f}')
        print()
        head('64 connections that say nothing', 'gets on 8 connections: ' + NAMES[0], *NAMES[1:], 'of the 64 closed')
        row('no', *figure(options, server, port, 8, gets), '')
        idle = idle_clients(port, 64)
        time.sleep(0.5)
        before = server.processor_seconds()
        time.sleep(1)
        spent = server.processor_seconds() - before
        row('yes', *figure(options, server, port, 8, gets), closed(idle))
        for stream in idle:
            stream.close()
        now, most = server.memory()
        print(f'\nThe server with nothing but the 64: {spent * 1000:.0f} ms of processor time a second. Memory: {now:.0f} MiB, at most {most:.0f} MiB.')
        return length
    finally:
        server.stop()


def measure_nginx(options, length):
    program = shutil.which('nginx') or shutil.which('nginx', path='/usr/sbin')
    if not program:
        print('\nnginx is not installed.')
        return
    port = free_port()
    folder = tempfile.mkdtemp(prefix='bench_nginx_')
    os.chmod(folder, 0o755)
    with open(f'{folder}/one.json', 'w') as file:
        file.write('x' * length)
    with open(f'{folder}/conf', 'w') as file:
        file.write(f'daemon off; worker_processes 4; pid {folder}/pid; error_log {folder}/errors;\n'
                   'events { worker_connections 512; }\n'
                   f'http {{ access_log off; keepalive_requests 1000; server {{ listen {HOST}:{port}; root {folder}; }} }}\n')
    server = Process([program, '-p', folder, '-c', f'{folder}/conf', '-e', f'{folder}/errors'], folder)
    try:
        if not listens(port):
            print('\nnginx did not start.')
            return
        print(f'\n### nginx, 4 workers, a file of {length} bytes\n')
        head('Connections', *NAMES)
        for connections in CONNECTIONS:
            row(connections, *figure(options, server, port, connections, [request('GET', '/one.json')]))
    finally:
        server.stop()


def measure_redis(options, length):
    program = shutil.which('redis-server')
    if not program:
        print('\nredis is not installed.')
        return
    port = free_port()
    server = Process([program, '--port', str(port), '--bind', HOST, '--save', '', '--appendonly', 'no'])
    try:
        if not listens(port):
            print('\nredis did not start.')
            return

        def command(*words):
            return f'*{len(words)}\r\n'.encode() + b''.join(f'${len(word)}\r\n{word}\r\n'.encode() for word in words)
        value = 'x' * length
        numbers = random.Random(1).choices(range(options.documents), k=2000)
        sets = [command('SET', f'doc{number}', value) for number in numbers]
        gets = [command('GET', f'doc{number}') for number in numbers]
        print(f'\n### redis, without persistence, values of {length} bytes\n')
        head('Connections', 'Requests', *NAMES)
        for kind, requests in (('sets', sets), ('gets', gets)):
            for connections in CONNECTIONS:
                row(connections, kind, *figure(options, server, port, connections, requests, redis_end))
    finally:
        server.stop()


def listens(port):
    for _ in range(100):
        try:
            socket.create_connection((HOST, port), 1).close()
            return True
        except OSError:
            time.sleep(0.05)
    return False


def measure_all(options):
    print(f'{os.cpu_count()} processors ({platform.machine()}), load before {os.getloadavg()[0]:.1f}; {options.documents} documents; '
          f'{options.seconds:g} s each; clients in {options.processes} Python processes on the same machine.')
    length = 100
    for workers in options.workers.split(','):
        length = measure(options, int(workers))
    if not options.alone:
        measure_nginx(options, length)
        measure_redis(options, length)
    print(f'\nLoad after: {os.getloadavg()[0]:.1f}.')


def main():
    stop_at_signals()
    options = arguments()
    with written_into(options.page, 'throughput'):
        measure_all(options)


if __name__ == '__main__':
    main()
