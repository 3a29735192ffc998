#!/usr/bin/env python3
"""What clients that break the rules do to `solr_split serve`, and to the clients beside them.

Clients send slow requests and cut ones, thousands of bytes of headers, many requests in one piece, bytes that are no HTTP, bodies that are
announced and never come, take no answers, and come two hundred at once. Meanwhile an honest client gets a document fifty times a second. Each
line of the output is one attack: what it had to end in, whether it did, how long the honest client waited at most, and the memory of the
server. It ends with status 1 if anything was not as it had to be, or the server is gone. About forty seconds; with --patient a minute and
a half more, for clients that say nothing until the server gives them up while they hold every worker.

    PROGRAM=crates/solr_split/out/solr_split bench/hostile.py
"""
import argparse
import os
import random
import socket
import sys
import threading
import time

sys.dont_write_bytecode = True

from loopback import HOST, PROGRAM, Client, answer_end, request, serve, stop_at_signals, written_into

GET = request('GET', '/solr/docs/get?id=honest')


def arguments():
    reader = argparse.ArgumentParser(description=__doc__.split('\n')[0])
    reader.add_argument('--program', default=PROGRAM, help='the built program ($PROGRAM)')
    reader.add_argument('--workers', type=int, default=4, help='threads of the server (4), one more than the connections of an attack that hold one')
    reader.add_argument('--memory', type=float, default=1024, help='mebibytes that the server may hold (1024)')
    reader.add_argument('--patient', action='store_true', help='also wait for the server to give silent clients up')
    reader.add_argument('--page', default='', help='a page into which the table is written, between its lines `<!-- hostile -->` and `<!-- end -->`')
    return reader.parse_args()


class Honest(threading.Thread):
    """A client that gets one document fifty times a second, and keeps the longest that it waited and what it was answered wrongly."""

    def __init__(self, port):
        super().__init__(daemon=True)
        self.port, self.stop = port, threading.Event()
        self.longest, self.count, self.wrong = 0, 0, []

    def run(self):
        client = Client(self.port, 100)
        while not self.stop.is_set():
            began = time.monotonic()
            try:
                status, body = client.exchange(GET)
                if status != 200 or b'"id":"honest"' not in body:
                    self.wrong.append(f'{status} {body[:80]}')
            except OSError as error:
                self.wrong.append(repr(error))
                client.close()
            self.longest = max(self.longest, time.monotonic() - began)
            self.count += 1
            time.sleep(0.02)

    def since(self):
        """The longest wait and the number of gets since this was last asked."""
        found = self.longest, self.count
        self.longest, self.count = 0, 0
        return found


class Attacks:
    def __init__(self, server, port):
        self.server, self.port, self.note = server, port, ''
        self.draw = random.Random(1)

    def open(self, seconds=20):
        return socket.create_connection((HOST, self.port), seconds)

    def answers(self, stream, most=1 << 30):
        """The statuses of the answers until the server ends the connection or so many have come."""
        received, statuses = bytearray(), []
        while len(statuses) < most:
            end, _ = answer_end(received)
            if end is not None:
                statuses.append(int(received[9:12]))
                del received[:end]
                continue
            try:
                piece = stream.recv(1 << 16)
            except ConnectionResetError:
                return statuses + ['reset']
            if not piece:
                return statuses + (['cut'] if received else [])
            received += piece
        return statuses

    def sent(self, piece, most=1 << 30):
        """The statuses that come for a piece that is sent at once. The server may stop reading in its midst."""
        with self.open() as stream:
            try:
                stream.sendall(piece)
            except (BrokenPipeError, ConnectionResetError):
                pass
            return self.answers(stream, most)

    def slow(self):
        """a byte of a get every 50 milliseconds | one answer, 200"""
        with self.open() as stream:
            for byte in request('GET', '/solr/docs/get?id=honest')[:-1]:
                stream.send(bytes([byte]))
                time.sleep(0.05)
            stream.send(b'\n')
            return self.answers(stream, 1) == [200]

    def cut_heads(self):
        """a hundred heads that are cut off | no answer, and the connections end"""
        ended = []
        for at in range(100):
            with self.open() as stream:
                stream.sendall(GET[:1 + at % (len(GET) - 2)])
                stream.shutdown(socket.SHUT_WR)
                ended.append(self.answers(stream))
        return all(one == [] for one in ended)

    def cut_bodies(self):
        """a hundred updates that are cut off in their body | no answer, and nothing is written"""
        whole = request('POST', '/solr/docs/update', [{'id': 'cut', 't_s': 'x' * 2000}])
        ended = []
        for at in range(100):
            with self.open() as stream:
                stream.sendall(whole[:len(whole) - 1 - at * 15])
                stream.shutdown(socket.SHUT_WR)
                ended.append(self.answers(stream))
        return all(one == [] for one in ended) and Client(self.port).ask('GET', '/solr/docs/get?id=cut') == (200, {'doc': None})

    def broken_off(self):
        """a hundred connections that are reset in the midst of a request | the server goes on"""
        for _ in range(100):
            stream = self.open()
            stream.sendall(request('POST', '/solr/docs/update', [{'id': 'gone'}])[:60])
            stream.setsockopt(socket.SOL_SOCKET, socket.SO_LINGER, b'\1\0\0\0\0\0\0\0')
            stream.close()
        return True

    def long_head(self):
        """a get with 60,000 bytes of headers | 200"""
        return self.sent(request('GET', '/solr/docs/get?id=honest', more=''.join(f'X-{at}: {"v" * 990}\r\n' for at in range(60))), 1) == [200]

    def longer_head(self):
        """a get with 200,000 bytes of headers | 413 and the end, or a reset after it"""
        return self.sent(request('GET', '/solr/docs/get?id=honest', more=''.join(f'X-{at}: {"v" * 1990}\r\n' for at in range(100)))) in ([413], [413, 'reset'])

    def endless_line(self):
        """a header line of a million bytes | 413 and the end, or a reset after it"""
        return self.sent(b'GET / HTTP/1.1\r\nX: ' + b'v' * 1_000_000) in ([413], [413, 'reset'])

    def many_lines(self):
        """a get with 5,000 header lines | 413 and the end, or a reset after it"""
        return self.sent(request('GET', '/solr/docs/get?id=honest', more=''.join(f'X-{at}: v\r\n' for at in range(5000)))) in ([413], [413, 'reset'])

    def pipelined(self):
        """900 gets in one piece | 900 answers in order, 200"""
        with self.open() as stream:
            writer = threading.Thread(target=stream.sendall, args=(GET * 900,), daemon=True)
            writer.start()
            return self.answers(stream, 900) == [200] * 900

    def pipelined_past_the_limit(self):
        """3,000 gets in one piece | 1,000 answers, and the connection ends"""
        found = self.sent(GET * 3000)
        return found in ([200] * 1000, [200] * 1000 + ['reset'])

    def no_http(self):
        """bytes that are no HTTP, forty times | 400 each, or the end where they could be a beginning"""
        pieces = [b'PRI * HTTP/2.0\r\n\r\nSM\r\n\r\n', b'\x16\x03\x01\x02\x00\x01\x00\x01\xfc\x03\x03' + b'\0' * 40, b'GET\r\n\r\n', b'\0' * 100,
                  b'GET / HTTP/9.9\r\n\r\n', b'\xff' * 5000, b'*1\r\n$4\r\nPING\r\n']
        pieces += [bytes(self.draw.randrange(256) for _ in range(self.draw.randrange(1, 3000))) + b'\r\n\r\n' for _ in range(33)]
        found = []
        for piece in pieces:
            with self.open() as stream:
                try:
                    stream.sendall(piece)
                    stream.shutdown(socket.SHUT_WR)
                except OSError:
                    pass
                found.append(self.answers(stream))
        return all(one in ([400], [400, 'reset'], [], ['reset']) for one in found) and [400] in found

    def lengths(self):
        """lengths of a body that are none, and another coding than chunks | 400 and 413, and the end"""
        head = b'POST /solr/docs/update HTTP/1.1\r\nHost: x\r\n'
        wanted = ((b'Content-Length: -1', 400), (b'Content-Length: 1e3', 400), (b'Content-Length: 2\r\nContent-Length: 2', 400),
                  (b'Content-Length: 99999999999999999999999', 413), (b'Content-Length: 16777217', 413), (b'Transfer-Encoding: gzip', 400))
        return all(self.sent(head + line + b'\r\n\r\n') in ([status], [status, 'reset']) for line, status in wanted)

    def chunks(self):
        """bodies in chunks: bytewise, with an extension and a trailer; malformed; with too large a chunk | 200, 400 and 413"""
        head = b'POST /solr/docs/update HTTP/1.1\r\nHost: x\r\nTransfer-Encoding: chunked\r\n\r\n'
        with self.open() as stream:
            for byte in head + b'5;a=b\r\n[{"id\r\n9\r\n":"abc"}]\r\n0\r\nX: y\r\n\r\n':
                stream.send(bytes([byte]))
            slow = self.answers(stream, 1)
        wanted = ((b'zz\r\n', 400), (b'2\r\n[]0\r\n\r\n', 400), (b'0\r\nno name\r\n\r\n', 400), (b'ffffffffffffffff\r\n', 413), (b'1000001\r\n', 413))
        return slow == [200] and all(self.sent(head + coding) in ([status], [status, 'reset']) for coding, status in wanted)

    def endless_coding(self):
        """an extension of a chunk of 40 MB, and trailer lines of 80 KB | 413 and 400, and the end, or a reset after it"""
        head = b'POST /solr/docs/update HTTP/1.1\r\nHost: x\r\nTransfer-Encoding: chunked\r\n\r\n'
        first, second = self.sent(head + b'1;' + b'x' * 40_000_000), self.sent(head + b'0\r\n' + b'X: y\r\n' * 13_334)
        return first in ([413], [413, 'reset']) and second in ([400], [400, 'reset'])

    def many_pairs(self):
        """a search by a form of 8 million pairs (16 MB) | 200 or 400, with no more than a gibibyte for it"""
        before = self.server.memory()[1]
        found = self.sent(b'POST /solr/docs/select HTTP/1.1\r\nHost: x\r\nContent-Length: 16000003\r\n\r\n' + b'a&' * 8_000_000 + b'q=a', 1)
        self.note = f'{found}, {self.server.memory()[1] - before:.0f} MiB more'
        return found in ([200], [400]) and self.server.memory()[1] - before <= 1024

    def no_body(self):
        """three updates that announce 16 MB of body and send none, for four seconds | nothing comes for them, others go on"""
        streams = [self.open() for _ in range(3)]
        for stream in streams:
            stream.sendall(b'POST /solr/docs/update HTTP/1.1\r\nHost: x\r\nContent-Length: 16000000\r\n\r\n')
        time.sleep(4)
        silent = True
        for stream in streams:
            stream.setblocking(False)
            try:
                stream.recv(1)
                silent = False
            except BlockingIOError:
                pass
            stream.close()
        return silent

    def half_bodies(self):
        """three updates that send 15 of 16 MB and no more, for four seconds | nothing comes for them, others go on"""
        streams = [self.open() for _ in range(3)]

        def half(stream):
            stream.sendall(b'POST /solr/docs/update HTTP/1.1\r\nHost: x\r\nContent-Length: 16000000\r\n\r\n')
            for _ in range(15):
                stream.sendall(b' ' * 1_000_000)
            sent.append(stream)
        sent = []
        threads = [threading.Thread(target=half, args=(stream,), daemon=True) for stream in streams]
        for thread in threads:
            thread.start()
        for thread in threads:
            thread.join(10)
        time.sleep(4)
        for stream in streams:
            stream.close()
        return len(sent) == 3

    def deep(self):
        """an update of 16 MB of open brackets, and a query of 4,000 parentheses | 400 each"""
        body = b'[' * 16_000_000
        first = self.sent(b'POST /solr/docs/update HTTP/1.1\r\nHost: x\r\nContent-Length: %d\r\n\r\n' % len(body) + body, 1)
        return first == [400] and self.sent(request('GET', '/solr/docs/select?q=' + '(' * 4000), 1) == [400]

    def many_fields(self):
        """an update of one document with 20,000 fields (240 KB) | 200 within two seconds"""
        fields = {f'f{at}_i': at for at in range(20_000)}
        began = time.monotonic()
        status, _ = Client(self.port).ask('POST', '/solr/docs/update', [{'id': 'wide', **fields}])
        self.note = f'{time.monotonic() - began:.2f} s'
        return status == 200 and time.monotonic() - began < 2

    def empty_objects(self):
        """an update of a million empty documents (3 MB) | 400, with no more than 100 MiB for it"""
        before = self.server.memory()[1]
        found = self.sent(b'POST /solr/docs/update HTTP/1.1\r\nHost: x\r\nContent-Length: 3000001\r\n\r\n[' + b'{},' * 999_999 + b'{}]', 1)
        self.note = f'{self.server.memory()[1] - before:.0f} MiB more'
        return found == [400] and self.server.memory()[1] - before <= 100

    def one_id_often(self):
        """a get of 4,096 ids that are all one document of 20,000 bytes | 200 with 82 MB, or a refusal"""
        Client(self.port).ask('POST', '/solr/docs/update', [{'id': 'far', 't_s': 'x' * 20_000}])
        return self.sent(request('GET', '/solr/docs/get?ids=' + ','.join(['far'] * 4096)), 1) in ([200], [400])

    def never_reads(self):
        """three clients that ask 900 times for a document of 100,000 bytes and read nothing, for four seconds | others go on"""
        Client(self.port).ask('POST', '/solr/docs/update', [{'id': 'long', 't_s': 'x' * 100_000}])
        streams = [self.open() for _ in range(3)]
        for stream in streams:
            stream.setblocking(False)
            try:
                stream.send(request('GET', '/solr/docs/get?id=long') * 900)
            except BlockingIOError:
                pass
        time.sleep(4)
        for stream in streams:
            stream.close()
        return True

    def two_hundred(self):
        """two hundred connections at once, a get on each | 200 on each"""
        began = time.monotonic()
        streams = []
        for _ in range(200):
            streams.append(self.open(30))
            streams[-1].sendall(GET)
        found = [self.answers(stream, 1) for stream in streams]
        for stream in streams:
            stream.close()
        self.note = f'{time.monotonic() - began:.2f} s for all'
        return found == [[200]] * 200

    def two_hundred_again(self):
        """two hundred clients that each get twenty times, with pauses | 200 each time, over as many connections as it takes"""
        found = []

        def ask():
            client = Client(self.port, 60)
            for _ in range(20):
                found.append(client.exchange(GET)[0])
                time.sleep(0.05)
            client.close()
        began = time.monotonic()
        threads = [threading.Thread(target=ask, daemon=True) for _ in range(200)]
        for thread in threads:
            thread.start()
        for thread in threads:
            thread.join(60)
        self.note = f'{time.monotonic() - began:.2f} s for all'
        return found == [200] * 4000

    def opens_and_goes(self):
        """two thousand connections that are opened and closed with nothing said | the server goes on"""
        for _ in range(2000):
            self.open().close()
        return True

    def silent_ones(self, workers):
        """as many clients as workers that begin a request and stop | each is given up after a minute, and then others go on"""
        streams = [self.open(100) for _ in range(workers)]
        for stream in streams:
            stream.sendall(GET[:-2])
        began = time.monotonic()
        found = [self.answers(stream) for stream in streams]
        self.note = f'given up after {time.monotonic() - began:.1f} s'
        for stream in streams:
            stream.close()
        return all(one in ([], ['reset']) for one in found) and time.monotonic() - began < 75


def measure(options):
    server, port = serve(options.program, workers=options.workers)
    failed = 0
    try:
        status, _ = Client(port).ask('POST', '/solr/docs/update?commit=true', [{'id': 'honest', 't_s': 'here'}])
        if status != 200:
            sys.exit(f'the first update was answered {status}')
        attacks, honest = Attacks(server, port), Honest(port)
        honest.start()
        time.sleep(1)
        longest, count = honest.since()
        print(f'{options.workers} workers, load {os.getloadavg()[0]:.1f}. Before: {count} gets, at most {longest * 1000:.0f} ms; {server.memory()[0]:.0f} MiB')
        print('\n| What comes | What it has to end in | It did | honest gets | most ms | MiB now | MiB at most |\n|' + '---|' * 7)
        names = ('slow cut_heads cut_bodies broken_off long_head longer_head endless_line many_lines pipelined pipelined_past_the_limit no_http lengths '
                 'chunks endless_coding many_pairs no_body half_bodies deep empty_objects many_fields one_id_often never_reads two_hundred two_hundred_again opens_and_goes').split()
        for name in names + ['silent_ones'] * options.patient:
            attack = getattr(attacks, name)
            attacks.note = ''
            honest.since()
            try:
                held = attack(options.workers) if name == 'silent_ones' else attack()
            except OSError as error:
                held, attacks.note = False, repr(error)
            time.sleep(0.3)
            longest, count = honest.since()
            now, most = server.memory() if server.lives() else (0, 0)
            failed += not held or not server.lives()
            what, wanted = attack.__doc__.split(' | ')
            note = f' ({attacks.note})' if attacks.note else ''
            print(f'| {what} | {wanted} | {"yes" if held else "NO"}{note} | {count} | {longest * 1000:.0f} | {now:.0f} | {most:.0f} |', flush=True)
            if not server.lives():
                break
        honest.stop.set()
        honest.join(5)
        now, most = server.memory() if server.lives() else (0, 0)
        failed += bool(honest.wrong) + (most > options.memory) + (not server.lives())
        print(f'\nThe server {"lives" if server.lives() else f"ended with {server.child.returncode}"}; it holds {now:.0f} MiB, at most {most:.0f} MiB; '
              f'{len(honest.wrong)} wrong answers to the honest client; {failed} problems.')
        for wrong in honest.wrong[:10]:
            print('- ' + wrong)
        return 1 if failed else 0
    finally:
        server.stop()


def main():
    stop_at_signals()
    options = arguments()
    with written_into(options.page, 'hostile'):
        status = measure(options)
    sys.exit(status)


if __name__ == '__main__':
    main()
