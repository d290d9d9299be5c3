"""What the tests over sockets share: the bytes of answers, a client, and the built program as a server."""
import os, queue, socket, subprocess, threading, time

TOP = os.path.dirname(os.path.dirname(os.path.abspath(__file__)))
LANES = 4
WAIT = 60  # seconds, of each wait
SILENCE = 30  # seconds that the server gives a client for a message

CALL = b"POST /hello/v1 HTTP/1.1\r\nhost: localhost\r\ncontent-length: 3\r\n\r\nAnn"
LAST = b"POST /hello/v1 HTTP/1.1\r\nhost: localhost\r\nconnection: close\r\ncontent-length: 3\r\n\r\nAnn"
HEAD = b"HEAD /hello/v1 HTTP/1.1\r\nhost: localhost\r\n\r\n"


def own_answer(status, cause, message, closes=False, head_only=False):
    """The bytes of one of the gateway's own answers."""
    return caused_answer(status, cause, b'{"message":"%s"}' % message, closes, head_only)


def caused_answer(status, cause, body, closes=False, head_only=False):
    """The same with a body of its API."""
    head = b"HTTP/1.1 %s\r\ncontent-type: application/json\r\nx-gateway-cause: %s\r\n" % (status, cause)
    close = b"connection: close\r\n" if closes else b""
    return head + close + b"content-length: %d\r\n\r\n" % len(body) + (b"" if head_only else body)


def edge_answer(status):
    """The bytes of an answer to what is no message."""
    return b"HTTP/1.1 %s\r\nconnection: close\r\ncontent-length: 0\r\n\r\n" % status


def json_answer(status, body, closes=False):
    """The bytes of an answer of the administration."""
    close = b"connection: close\r\n" if closes else b""
    return b"HTTP/1.1 %s\r\ncontent-type: application/json\r\n%scontent-length: %d\r\n\r\n%s" % (status, close, len(body), body)


def text_answer(body, closes=False):
    """The bytes of a text API's answer."""
    close = b"connection: close\r\n" if closes else b""
    return b"HTTP/1.1 200 OK\r\ncontent-type: text/plain\r\n%scontent-length: %d\r\n\r\n%s" % (close, len(body), body)


def request(verb, path, body=b"", last=False):
    close = b"connection: close\r\n" if last else b""
    length = b"content-length: %d\r\n" % len(body) if body else b""
    return b"%s %s HTTP/1.1\r\nhost: localhost\r\n%s%s\r\n%s" % (verb, path, close, length, body)


def no_stage(**kind):
    return own_answer(b"403 Forbidden", b"UNKNOWN_STAGE", b"Unknown stage", **kind)


DONE = json_answer(b"200 OK", b'{"reply":"done"}')


class Wrong(Exception):
    """Something else came than what was expected."""


def expect(what, got, wanted):
    if got == wanted:
        return
    if isinstance(wanted, bytes):
        same = len(os.path.commonprefix([got, wanted]))
        raise Wrong(f"{what}: the same for {same} bytes, then {got[same : same + 100]} in place of {wanted[same : same + 100]}")
    raise Wrong(f"{what}: {got} in place of {wanted}")


class Client:
    """A connection to the server."""

    def __init__(self, port):
        self.socket = socket.create_connection(("127.0.0.1", port), timeout=WAIT)
        self.socket.setsockopt(socket.IPPROTO_TCP, socket.TCP_NODELAY, 1)

    def __enter__(self):
        return self

    def __exit__(self, *_):
        self.socket.close()

    def send(self, piece):
        self.socket.settimeout(WAIT)
        self.socket.sendall(piece)

    def read(self, most):
        """At most so many bytes, fewer only where the server closed the connection."""
        got, end = b"", time.monotonic() + WAIT
        while len(got) < most:
            left = end - time.monotonic()
            if left <= 0:
                raise Wrong(f"no more came in {WAIT} seconds behind {len(got)} bytes, which end in {got[-100:]}")
            self.socket.settimeout(left)
            try:
                piece = self.socket.recv(min(65536, most - len(got)))
            except socket.timeout:
                continue
            if not piece:
                break
            got += piece
        return got

    def has_answer(self, what, wanted):
        """This answer comes, and the connection may go on."""
        expect(what, self.read(len(wanted)), wanted)

    def has_last(self, what, wanted):
        """This comes, and nothing behind it: the server closes the connection."""
        expect(what, self.read(len(wanted) + 1), wanted)

    def calls(self, what, request, wanted):
        self.send(request)
        self.has_answer(what, wanted)


class Server:
    """The program, listening, in a folder of its own, over a store there. The words before it may name a program that becomes it."""

    def __init__(self, program, room, store="orders.store", lanes=LANES, before=()):
        self.program, self.room, self.store, self.lanes, self.process, self.port = program, room, store, lanes, None, None
        self.before = before

    def run(self, *words, lines=b""):
        """The program with these words and this input, which ends by itself: its status, and what it prints."""
        ended = subprocess.run([*self.before, self.program, *words], cwd=self.room, input=lines, capture_output=True, timeout=WAIT)
        return ended.returncode, ended.stdout

    def start(self):
        """On a port that was free. Where another program took it in between, on another one."""
        for _ in range(5):
            with socket.socket() as probe:
                probe.bind(("127.0.0.1", 0))
                self.port = probe.getsockname()[1]
            words = [*self.before, self.program, "serve", self.store, str(self.port), str(self.lanes)]
            with open(f"{self.room}/output", "wb") as output:
                self.process = subprocess.Popen(words, cwd=self.room, stdin=subprocess.DEVNULL, stdout=output, stderr=subprocess.PIPE)
            line = self.first_line()
            if line == f"listening on 127.0.0.1:{self.port} with {self.lanes} lanes\n".encode():
                return
            told = self.end()
            if told != b"fault port\n":
                raise Wrong(f"the first line of standard error is {line}, and standard output has {told}")
        raise Wrong("no free port in five tries")

    def first_line(self):
        """The first line of its standard error, which is read on to its end, so that the program never waits for a reader."""
        lines, process = queue.Queue(), self.process

        def read():
            for line in process.stderr:
                lines.put(line)
            lines.put(b"")

        threading.Thread(target=read, daemon=True).start()
        try:
            return lines.get(timeout=WAIT)
        except queue.Empty:
            raise Wrong(f"no line on standard error in {WAIT} seconds")

    def ends_by_itself(self):
        """Waits until it ends: its status, and what it printed."""
        status = self.process.wait(WAIT)
        self.process = None
        with open(f"{self.room}/output", "rb") as output:
            return status, output.read()

    def end(self):
        """Ends it, and gives what it printed."""
        if self.process is None:
            return b""
        self.process.kill()
        self.process.wait(WAIT)
        self.process = None
        with open(f"{self.room}/output", "rb") as output:
            return output.read()


def at_once(count, work):
    """Does the work in so many threads, and tells the first that went wrong."""
    faults, begin = queue.Queue(), threading.Barrier(count)

    def one(number):
        try:
            begin.wait(WAIT)
            work(number)
        except Exception as fault:
            faults.put(f"client {number}: {fault}")

    threads = [threading.Thread(target=one, args=(number,), daemon=True) for number in range(count)]
    for thread in threads:
        thread.start()
    end = time.monotonic() + 4 * WAIT
    for thread in threads:
        thread.join(max(0.0, end - time.monotonic()))
    if any(thread.is_alive() for thread in threads):
        raise Wrong(f"a client was not done in {4 * WAIT} seconds")
    if not faults.empty():
        raise Wrong(faults.get())


def free_port():
    with socket.socket() as probe:
        probe.bind(("127.0.0.1", 0))
        return str(probe.getsockname()[1])
