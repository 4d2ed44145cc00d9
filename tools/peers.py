"""The hostile peers of `tools/attack`: frames, connections, the programs that are attacked, and what came of it."""
import itertools
import os
import re
import socket
import statistics
import struct
import subprocess
import tempfile
import threading
import time
import types

PATIENCE = 10  # seconds that a step may take: a connect, an answer, the end of a program
# what a server under attack tells of itself, a line each
FAULTS = re.compile(r"ttrpc-(?:demo|chat): (no connection was accepted|a connection was closed|a worker is missing|a handler failed): .*\n")
NEXT_CALL = 5000  # milliseconds that another client's call may take
LET_GO = 5  # seconds until threads and descriptors are back
DEADLINE = 50  # milliseconds that a call has, where it has a deadline
LATE = 500  # milliseconds that such a call may last longer than its deadline and an answered call together
LONGEST = 4194304  # bytes that a message may have
MIB = 1024 * 1024
ASKED = ("demo.Echo", "Echo", "2a")  # what `call` asks for: service, method and payload
# the program that is attacked, its name, whether its ends are polled, and a temporary folder
GIVEN = types.SimpleNamespace(program=None, name=None, is_polled=False, folder=None)
STARTED, NUMBERS = [], itertools.count()


class Row:
    """What came of one attack."""

    def __init__(self):
        self.right, self.wrong = [], []

    def say(self, text, is_right=True):
        (self.right if is_right else self.wrong).append(text)

    def say_within(self, text, number, unit, limit):
        digits = 1 if unit == "s" else 0
        told = f"{text} {number:.{digits}f} {unit}"
        self.say(told + (f" (limit {limit:.{digits}f})" if number > limit else ""), number <= limit)

    def text(self):
        told = "; ".join(self.wrong + self.right).replace("|", "/").replace("\n", " ")
        return f"wrong: {told}" if self.wrong else told


# ---- frames and their messages


def varint(number):
    spelled = bytearray()
    while number >= 128:
        spelled.append(number % 128 + 128)
        number //= 128
    return bytes([*spelled, number])


def field(number, value):
    if isinstance(value, int):
        return varint(number * 8) + varint(value)
    return varint(number * 8 + 2) + varint(len(value)) + value


def header(length, stream, kind, flags=0):
    return struct.pack(">IIBB", length, stream, kind, flags)


def frame(stream, kind, body, flags=0):
    return header(len(body), stream, kind, flags) + body


def request(stream, payload=b"*", method=b"Echo", flags=0):
    return frame(stream, 1, field(1, b"demo.Echo") + field(2, method) + field(3, payload), flags)


def response(stream, payload=b"*", code=0):
    status = field(1, code) + field(2, b"no") if code else b""
    return frame(stream, 2, field(1, status) + field(2, payload))


def number_at(body, at):
    """The varint that begins there, and where it ends."""
    value = shift = 0
    while body[at] > 127:
        value, at, shift = value | (body[at] & 127) << shift, at + 1, shift + 7
    return value | body[at] << shift, at + 1


def fields(body):
    """The fields of a message by number, the last of each."""
    found, at = {}, 0
    while at < len(body):
        tag, at = number_at(body, at)
        value, at = number_at(body, at)
        if tag % 8 == 2:
            value, at = body[at : at + value], at + value
        found[tag // 8] = value
    return found


# ---- connections


def connect(address, limit=PATIENCE):
    kind, place = address.split("://")
    if kind == "unix":
        connection = socket.socket(socket.AF_UNIX)
        connection.settimeout(limit)
        connection.connect(place)
        return connection
    host, port = place.rsplit(":", 1)
    connection = socket.create_connection((host, int(port)), limit)
    connection.setsockopt(socket.IPPROTO_TCP, socket.TCP_NODELAY, 1)
    return connection


def reset(connection):
    connection.setsockopt(socket.SOL_SOCKET, socket.SO_LINGER, struct.pack("ii", 1, 0))
    connection.close()


def close_all(connections):
    for connection in connections:
        connection.close()


def exactly(connection, count):
    """So many bytes, or those before the end."""
    held = bytearray()
    while len(held) < count and (piece := connection.recv(count - len(held))):
        held += piece
    return bytes(held)


def frames(connection):
    """The frames that come, each as its id and body, until the end. No byte behind a frame is read with it."""
    while len(head := exactly(connection, 10)) == 10:
        length, stream = struct.unpack_from(">II", head)
        if len(body := exactly(connection, length)) < length:
            return
        yield stream, body


def is_answered(connection, limit=PATIENCE):
    connection.settimeout(limit)
    try:
        return next(frames(connection), None) is not None
    except OSError:
        return False


def answers(connection, count):
    """The ids and codes of so many answers, and of those that come within a fifth of a second behind them, in order."""
    found, coming = [], frames(connection)
    try:
        while True:
            stream, body = next(coming)
            found.append((stream, fields(fields(body).get(1, b"")).get(1, 0)))
            connection.settimeout(PATIENCE if len(found) < count else 0.2)
    except (TimeoutError, StopIteration, ConnectionError):
        return sorted(found)


# ---- the programs


def start(words, **options):
    program = subprocess.Popen(words, cwd=GIVEN.folder, stdin=subprocess.DEVNULL, **options)
    STARTED.append(program)
    return program


def end(program):
    program.kill()
    program.wait(PATIENCE)
    STARTED.remove(program)


def new_path():
    return os.path.join(GIVEN.folder, f"socket{next(NUMBERS)}")


def milliseconds(since):
    return (time.monotonic() - since) * 1000


def told_of(program):
    """What the system tells of a program, by name."""
    with open(f"/proc/{program.pid}/status", encoding="ascii") as status:
        return dict(line.split(":", 1) for line in status)


def data_of(program):
    """How many KiB a program may write to, whether it has done so or not."""
    return int(told_of(program)["VmData"].split()[0])


def state(program):
    """How many threads and descriptors a program has, and its resident memory in MiB."""
    told = told_of(program)
    resident = int(told.get("VmRSS", "0").split()[0])
    return int(told["Threads"]), len(os.listdir(f"/proc/{program.pid}/fd")), resident / 1024


def run(words, limit=PATIENCE, **options):
    """What became of a run of a program: its status (None: it had to be ended), what it told, and its milliseconds."""
    since = time.monotonic()
    program = start(words, **{"stdout": subprocess.PIPE, "stderr": subprocess.PIPE, "text": True} | options)
    try:
        told = "".join(filter(None, program.communicate(timeout=limit))).strip()
        return program.returncode, told, milliseconds(since)
    except subprocess.TimeoutExpired:
        return None, f"no end within {limit} s", milliseconds(since)
    finally:
        end(program)


class Server:
    """`PROGRAM serve` at a free port or at a path, with these words, while the block runs. After the block another client's call
    must be answered within `next_call` milliseconds, and threads and descriptors must be back within `let_go` seconds."""

    def __init__(self, row, at_path=False, next_call=NEXT_CALL, let_go=LET_GO, is_judged=True, words=(), **options):
        self.row, self.options, self.is_judged, self.words = row, options, is_judged, words
        self.next_call, self.let_go = next_call, let_go
        self.path = new_path() if at_path else None
        self.address = f"unix://{self.path}" if at_path else "tcp://127.0.0.1:0"

    def __enter__(self):
        self.errors = tempfile.TemporaryFile("w+", dir=GIVEN.folder)
        self.program = start([GIVEN.program, "serve", self.address, *self.words], stderr=self.errors, **self.options)
        since = time.monotonic()
        while not (os.path.exists(self.path) if self.path else "tcp://" in self.told()):
            if milliseconds(since) > PATIENCE * 1000 or self.program.poll() is not None:
                raise OSError(f"the server doesn't listen: {self.told()}")
            time.sleep(0.05)
        if not self.path:
            self.address = re.search(r"tcp://\S+", self.told())[0]
        time.sleep(0.1)
        self.call()
        time.sleep(0.5)
        self.before = state(self.program)
        return self

    def told(self):
        self.errors.seek(0)
        return self.errors.read()

    def connect(self):
        return connect(self.address)

    def call(self, limit=PATIENCE):
        """How many milliseconds a call over a new connection takes."""
        since = time.monotonic()
        with connect(self.address, limit) as connection:
            connection.sendall(request(1, b"next"))
            if fields(next(frames(connection), (0, b""))[1]).get(2) != b"next":
                raise OSError("a call got no answer, or a wrong one")
        return milliseconds(since)

    def say_others(self):
        self.row.say_within("others' calls within", max(self.call() for _ in range(5)), "ms", NEXT_CALL)

    def grown(self):
        """By how many MiB its resident memory has grown."""
        return state(self.program)[2] - self.before[2]

    def judge(self):
        self.row.say_within("next call", self.call(PATIENCE + self.next_call / 1000), "ms", self.next_call)
        since, is_back = time.monotonic(), False
        while not is_back and milliseconds(since) < self.let_go * 1000:
            time.sleep(0.05)
            threads, descriptors, resident = state(self.program)
            is_back = threads <= self.before[0] and descriptors <= self.before[1]
        told = f"{threads} threads, {descriptors} descriptors, {resident:.0f} MiB {milliseconds(since) / 1000:.1f} s later"
        self.row.say(told if is_back else f"{told} (before {self.before[0]} and {self.before[1]})", is_back)

    def __exit__(self, kind, *_):
        try:
            if kind is None and self.is_judged:
                self.judge()
        finally:
            if self.is_judged and self.program.poll() is not None:
                self.row.say(f"the server ended with status {self.program.returncode}", False)
            end(self.program)
            told, faults = FAULTS.subn("", re.sub(r".*listen(ing|s) at.*\n", "", self.told()))
            if faults:
                self.row.say(f"{faults} faults told")
            if told:
                self.row.say(f"the server told: {told[:200]!r}", False)
            self.errors.close()


# ---- hostile servers


class Peer:
    """A hostile server of one connection, which `behave` gets, with an event that tells that the client has ended."""

    def __init__(self, behave, at_path=False):
        self.behave, self.over = behave, threading.Event()
        self.listener = socket.socket(socket.AF_UNIX if at_path else socket.AF_INET)
        # A small buffer and small segments: little leaves a client while the peer doesn't read.
        self.listener.setsockopt(socket.SOL_SOCKET, socket.SO_RCVBUF, 4096)
        if not at_path:
            self.listener.setsockopt(socket.IPPROTO_TCP, socket.TCP_MAXSEG, 536)
        self.listener.bind(new_path() if at_path else ("127.0.0.1", 0))
        name = self.listener.getsockname()
        self.address = f"unix://{name}" if at_path else f"tcp://127.0.0.1:{name[1]}"
        self.listener.settimeout(PATIENCE)
        self.listener.listen()
        self.thread = threading.Thread(target=self.serve, daemon=True)

    def serve(self):
        try:
            with self.listener.accept()[0] as connection:
                connection.settimeout(PATIENCE)
                self.behave(connection, self.over)
        except (OSError, StopIteration):
            pass

    def __enter__(self):
        self.thread.start()
        return self

    def __exit__(self, *_):
        self.over.set()
        self.thread.join(2 * PATIENCE)
        self.listener.close()


def says(data, then=None):
    """Reads the request, and says this. Then it does what is given, or stays."""

    def behave(connection, over):
        next(frames(connection))
        connection.sendall(data)
        if then:
            then(connection)
        else:
            over.wait(PATIENCE)

    return behave


def floods(data):
    """Reads nothing, and says this for ever."""

    def behave(connection, over):
        while not over.is_set():
            connection.sendall(data)

    return behave


def stays(_, over):
    """Reads nothing, and says nothing."""
    over.wait(PATIENCE)


def byte_by_byte(connection, over):
    next(frames(connection))
    connection.setsockopt(socket.IPPROTO_TCP, socket.TCP_NODELAY, 1)
    for byte in response(1):
        connection.sendall(bytes([byte]))
        time.sleep(0.002)
    over.wait(PATIENCE)


def called(behave, deadline=0, asked=ASKED):
    """What became of a call by the program to a server that behaves so. The deadline is in milliseconds."""
    with Peer(behave) as peer:
        return run([GIVEN.program, "call", peer.address, *asked, str(deadline * 1000000)])


def meet_deadline(row, behave, tries, asked=ASKED):
    """Makes calls with a deadline to a server that behaves so, and says how long they took."""
    usual, times = statistics.median(called(says(response(1)), 0, asked)[2] for _ in range(5)), []
    for _ in range(tries):
        status, told, took = called(behave, DEADLINE, asked)
        times.append(took)
        if status != 1 or "deadline elapsed" not in told:
            row.say(f"{status}: {told}", False)
            return
    told = f"of {tries}: least {min(times):.0f}, median {statistics.median(times):.0f} ms"
    row.say(f"an answered call takes {usual:.0f} ms; {told}")
    row.say_within("most", max(times), "ms", usual + DEADLINE + LATE)
