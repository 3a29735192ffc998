"""What the benches share: a server that is started and measured, a connection that asks, and clients that ask without a pause.

Python 3.8 on Linux, no packages. Everything goes over 127.0.0.1.
"""
import contextlib
import io
import json
import multiprocessing
import os
import selectors
import shutil
import signal
import socket
import subprocess
import sys
import tempfile
import time

HOST = '127.0.0.1'
PROGRAM = os.environ.get('PROGRAM') or os.path.join(os.path.dirname(os.path.abspath(__file__)), '../crates/solr_split/out/solr_split')
TICKS = os.sysconf('SC_CLK_TCK')


def free_port():
    with socket.socket() as it:
        it.bind((HOST, 0))
        return it.getsockname()[1]


def percentile(values, part):
    """The value below which this part of the sorted values lies."""
    return values[min(len(values) - 1, int(part * len(values)))] if values else float('nan')


class Process:
    """A program that runs in a new folder until it is stopped, with its processor time and its memory from /proc."""

    def __init__(self, words, folder=None, variables=()):
        self.folder = folder or tempfile.mkdtemp(prefix='bench_')
        self.child = subprocess.Popen(words, cwd=self.folder, env={**os.environ, **dict(variables)}, stdout=subprocess.PIPE, stderr=subprocess.DEVNULL, text=True)

    def pids(self):
        found = [self.child.pid]
        for one in os.listdir('/proc'):
            if one.isdigit():
                try:
                    with open(f'/proc/{one}/stat') as file:
                        if int(file.read().rpartition(')')[2].split()[1]) == self.child.pid:
                            found.append(int(one))
                except (OSError, ValueError):
                    pass
        return found

    def processor_seconds(self):
        """Processor time of the program and its children, user and system, with all their threads."""
        total = 0
        for pid in self.pids():
            try:
                with open(f'/proc/{pid}/stat') as file:
                    fields = file.read().rpartition(')')[2].split()
                total += int(fields[11]) + int(fields[12])
            except OSError:
                pass
        return total / TICKS

    def memory(self):
        """Mebibytes that the program holds now, and the most that it ever held."""
        with open(f'/proc/{self.child.pid}/status') as file:
            said = dict(line.split(':', 1) for line in file if ':' in line)
        return int(said['VmRSS'].split()[0]) / 1024, int(said['VmHWM'].split()[0]) / 1024

    def lives(self):
        return self.child.poll() is None

    def stop(self):
        if self.lives():
            self.child.terminate()
            try:
                self.child.wait(10)
            except subprocess.TimeoutExpired:
                self.child.kill()
                self.child.wait()
        shutil.rmtree(self.folder, ignore_errors=True)


def serve(program=PROGRAM, port=0, workers=4, more=(), variables=()):
    """Starts `solr_split serve`, with these variables of its environment, and returns it and its port once it listens."""
    port = port or free_port()
    server = Process([os.path.abspath(program), 'serve', '--port', str(port), '--workers', str(workers), *more], variables=variables)
    line = server.child.stdout.readline().strip()
    if line != f'listening {port}':
        server.stop()
        sys.exit(f'{program} said {line!r}, and ended with {server.child.returncode}')
    return server, port


def request(method, path, body=None, more=''):
    """The bytes of a request; the body is JSON's value."""
    head = f'{method} {path} HTTP/1.1\r\nHost: localhost\r\n{more}'
    if body is None:
        return (head + '\r\n').encode()
    text = json.dumps(body, separators=(',', ':')).encode()
    return f'{head}Content-Type: application/json\r\nContent-Length: {len(text)}\r\n\r\n'.encode() + text


def answer_end(received):
    """The place at which the first HTTP answer in these bytes ends, or None, and whether it is the last of its connection."""
    head = received.find(b'\r\n\r\n')
    if head < 0:
        return None, False
    lines = received[:head].lower()
    at = lines.find(b'\r\ncontent-length:')
    length = int(lines[at + 17:].split(b'\r\n', 1)[0]) if at >= 0 else 0
    end = head + 4 + length
    return (end, b'\r\nconnection: close' in lines) if len(received) >= end else (None, False)


class Client:
    """One connection, opened anew where the server closed it. A request that finds it closed, before any of its answer came, is sent again."""

    def __init__(self, port, seconds=60):
        self.port, self.seconds, self.stream, self.rest = port, seconds, None, b''

    def close(self):
        if self.stream:
            self.stream.close()
        self.stream, self.rest = None, b''

    def exchange(self, sent):
        """The answer to the bytes of a request: its status and its body."""
        for _ in range(50):
            try:
                if self.stream is None:
                    self.stream = socket.create_connection((HOST, self.port), self.seconds)
                    self.stream.setsockopt(socket.IPPROTO_TCP, socket.TCP_NODELAY, 1)
                self.stream.sendall(sent)
                received = bytearray(self.rest)
                while True:
                    end, last = answer_end(received)
                    if end is not None:
                        break
                    piece = self.stream.recv(1 << 18)
                    if not piece:
                        raise ConnectionResetError
                    received += piece
            except (ConnectionResetError, BrokenPipeError):
                self.close()
                continue
            self.rest = bytes(received[end:])
            if last:
                self.close()
            head, _, body = bytes(received[:end]).partition(b'\r\n\r\n')
            return int(head.split(b' ', 2)[1]), body
        raise ConnectionError('the server closed fifty connections without an answer')

    def ask(self, method, path, body=None):
        status, text = self.exchange(request(method, path, body))
        return status, json.loads(text)


def redis_end(received):
    """As `answer_end`, for an answer of redis: a line, or a piece with its length."""
    line = received.find(b'\r\n')
    if line < 0:
        return None, False
    if received[:1] != b'$':
        return line + 2, False
    end = line + 4 + int(received[1:line]) if received[1:3] != b'-1' else line + 2
    return (end, False) if len(received) >= end else (None, False)


def _drive(port, connections, seconds, requests, ends, begins, pipe):
    # Each connection asks again as soon as it is answered; a request's time counts from its first byte, over as many connections as it takes.
    selector = selectors.DefaultSelector()
    taken, faults, opened = [], 0, 0
    at = begins

    def open_one(state):
        stream = socket.socket()
        stream.setsockopt(socket.IPPROTO_TCP, socket.TCP_NODELAY, 1)
        stream.connect((HOST, port))
        stream.setblocking(False)
        state[0], state[1] = stream, b''
        stream.send(state[3])
        selector.register(stream, selectors.EVENT_READ, state)

    until = time.perf_counter() + seconds
    for _ in range(connections):
        state = [None, b'', time.perf_counter(), requests[at % len(requests)]]
        at += 1
        opened += 1
        open_one(state)
    while True:
        now = time.perf_counter()
        if now >= until:
            break
        for key, _ in selector.select(min(0.5, until - now)):
            state = key.data
            try:
                piece = state[0].recv(1 << 18)
            except BlockingIOError:
                continue
            except ConnectionError:
                piece = b''
            if not piece:
                # The server has closed the connection before it took the request.
                selector.unregister(state[0])
                state[0].close()
                opened += 1
                open_one(state)
                continue
            state[1] += piece
            end, last = ends(state[1])
            if end is None:
                continue
            if state[1][:1] == b'-' or (state[1][:5] == b'HTTP/' and state[1][9:12] != b'200'):
                faults += 1
            now = time.perf_counter()
            taken.append(now - state[2])
            state[2], state[3] = now, requests[at % len(requests)]
            at += 1
            if last:
                selector.unregister(state[0])
                state[0].close()
                opened += 1
                open_one(state)
            else:
                state[1] = state[1][end:]
                try:
                    state[0].send(state[3])
                except ConnectionError:
                    pass
    waits = [time.perf_counter() - state[2] for state in (key.data for key in selector.get_map().values())]
    for key in list(selector.get_map().values()):
        key.data[0].close()
    pipe.send((taken, faults, opened, max(waits, default=0)))
    pipe.close()


def drive(port, connections, seconds, requests, ends=answer_end, processes=2):
    """Connections that ask for so many seconds without a pause, over several processes. The times of all answers, sorted; how many were no
    success; how many connections were opened; and the longest that a request waited which had no answer in the end."""
    processes = min(processes, connections)
    parts = [connections // processes + (index < connections % processes) for index in range(processes)]
    running = []
    for index, part in enumerate(parts):
        ours, theirs = multiprocessing.Pipe(False)
        child = multiprocessing.Process(target=_drive, args=(port, part, seconds, requests, ends, index * len(requests) // processes, theirs))
        child.start()
        theirs.close()
        running.append((child, ours))
    taken, faults, opened, waits = [], 0, 0, 0
    for child, ours in running:
        some = ours.recv()
        child.join()
        taken += some[0]
        faults += some[1]
        opened += some[2]
        waits = max(waits, some[3])
    return sorted(taken), faults, opened, waits


@contextlib.contextmanager
def written_into(page, name):
    """What is printed meanwhile also goes into a page, in place of what stands between the lines `<!-- NAME -->` and `<!-- end -->`."""
    said, shown = io.StringIO(), sys.stdout

    class Both(io.TextIOBase):
        def write(self, text):
            shown.write(text)
            shown.flush()
            return said.write(text)
    with contextlib.redirect_stdout(Both()):
        yield
    if page:
        with open(page) as file:
            head, _, rest = file.read().partition(f'<!-- {name} -->\n')
        with open(page, 'w') as file:
            file.write(f'{head}<!-- {name} -->\n\n{said.getvalue().strip()}\n\n<!-- end -->{rest.partition("<!-- end -->")[2]}')


def stop_at_signals():
    """Has a bench that is told to stop end by its `finally` clauses, which stop its servers."""
    for it in (signal.SIGTERM, signal.SIGHUP):
        signal.signal(it, lambda number, _: sys.exit(128 + number))
