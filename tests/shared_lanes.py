"""Tests of clients that share few lanes: kept connections that are silent, pools, stops, and clients and backends that end early. Each test
starts a server of its own. `tests/live.py` runs them."""
import contextlib, http.client, json, resource, signal, socket, tempfile, threading, time

from harness import CALL, DONE, LAST, SILENCE, WAIT, Client, Server, Wrong, at_once, edge_answer, expect, json_answer, no_stage, own_answer, request, text_answer

SOON = 1.0  # seconds: what is answered within them did not wait for a silent client
FEW, MANY = 64, 4096  # open files of a process


@contextlib.contextmanager
def serving(server, lanes):
    """The same program, with so many lanes and a store of its own."""
    with tempfile.TemporaryDirectory() as room:
        other = Server(server.program, room, lanes=lanes)
        try:
            other.start()
            yield other
        finally:
            other.end()


@contextlib.contextmanager
def clients(server, count):
    """So many connections, each used once and kept."""
    with contextlib.ExitStack() as kept:
        made = []
        for number in range(count):
            client = kept.enter_context(Client(server.port))
            client.calls(f"the first call of client {number}", CALL, no_stage())
            made.append(client)
        yield made


def is_answered_soon(server, what):
    """A call on a new connection is answered, though others are kept."""
    begun = time.monotonic()
    with Client(server.port) as client:
        client.send(LAST)
        client.has_last(what, no_stage(closes=True))
    taken = time.monotonic() - begun
    if taken > SOON:
        raise Wrong(f"{what} took {taken:.1f} seconds")


def make_api(server, name, document):
    """Puts a document, and stages it."""
    with Client(server.port) as client:
        for asked, answer in (
            (request(b"PUT", b"/_admin/apis/" + name, document), DONE),
            (request(b"POST", b"/_admin/apis/%s/deployments" % name), json_answer(b"200 OK", b'{"reply":"deployed 1"}')),
            (request(b"PUT", b"/_admin/apis/%s/stages/v1" % name, b"1"), DONE),
        ):
            client.calls(f"to {asked[:60]}", asked, answer)


def make_greeting(server):
    with Client(server.port) as client:
        client.calls("the template", request(b"PUT", b"/_admin/apis/hello/text", b"Hi $input.body!"), DONE)
        client.calls("its deployment", request(b"POST", b"/_admin/apis/hello/deployments"), json_answer(b"200 OK", b'{"reply":"deployed 1"}'))
        client.calls("its stage", request(b"PUT", b"/_admin/apis/hello/stages/v1", b"1"), DONE)


def proxy_to(verb, uri):
    """A document whose path `/p` passes its calls on."""
    method = {"integration": {"type": "HTTP_PROXY", "method": verb, "uri": uri, "timeout": 5000}}
    return json.dumps({"version": 1, "resources": {"/p": {verb: method}}}).encode()


def passed_on(status, body):
    return b"HTTP/1.1 %s\r\ncontent-type: application/json\r\ncontent-length: %d\r\n\r\n%s" % (status, len(body), body)


@contextlib.contextmanager
def backend(reply, host="127.0.0.1", family=socket.AF_INET):
    """The port of a backend that answers each connection by this function."""

    def accept():
        with contextlib.suppress(OSError):
            while True:
                threading.Thread(target=one, args=(listener.accept()[0],), daemon=True).start()

    def one(taken):
        with taken, contextlib.suppress(OSError):
            taken.settimeout(WAIT)
            reply(taken)

    with socket.create_server((host, 0), family=family) as listener:
        threading.Thread(target=accept, daemon=True).start()
        yield listener.getsockname()[1]


def answer_at_once(taken):
    """Replies behind the first bytes, and closes the connection over what was not read: the system resets it."""
    taken.recv(100)
    taken.sendall(b"HTTP/1.1 401 Unauthorized\r\ncontent-length: 2\r\n\r\nno")


def answer_late(taken):
    taken.recv(65536)
    time.sleep(0.5)
    taken.sendall(b"HTTP/1.1 200 OK\r\ncontent-length: 2\r\n\r\nok")


def stop_for(server, seconds):
    """Stops the program, as Ctrl-Z does, and lets it go on."""
    server.process.send_signal(signal.SIGSTOP)
    time.sleep(seconds)
    server.process.send_signal(signal.SIGCONT)


# The tests.


def a_seventh_connection_is_answered_beside_six_kept_ones(server):
    """A browser opens six connections, uses each once and keeps them."""
    for lanes in (1, 4):
        with serving(server, lanes) as other, clients(other, 6) as kept:
            is_answered_soon(other, f"the seventh connection over {lanes} lanes")
            for number, client in enumerate(kept):
                client.calls(f"the second call of client {number}", CALL, no_stage())


def a_client_that_says_nothing_holds_no_lane(server):
    with serving(server, 1) as other, contextlib.ExitStack() as kept:
        silent = [kept.enter_context(Client(other.port)) for _ in range(20)]
        is_answered_soon(other, "a call beside clients that say nothing")
        for client in silent:
            client.send(LAST)
            client.has_last("a client that had said nothing", no_stage(closes=True))


def a_pool_shares_two_lanes_and_loses_no_half(server):
    """Twenty kept connections. Each sends a message with a part of the next behind it, waits for the first answer, and then sends the rest."""

    def work(number):
        with Client(other.port) as client:
            for turn in range(12):
                first, second = (b"%d-%d-%d" % (number, turn, half) for half in range(2))
                message = request(b"POST", b"/hello/v1", second)
                cut = (number + 7 * turn) % len(message)
                client.send(request(b"POST", b"/hello/v1", first) + message[:cut])
                client.has_answer(f"the first answer of turn {turn}", text_answer(b"Hi %s!" % first))
                if turn % 4 == 0:
                    time.sleep(0.01)
                client.send(message[cut:])
                client.has_answer(f"the answer to a message cut at {cut}", text_answer(b"Hi %s!" % second))

    with serving(server, 2) as other:
        make_greeting(other)
        at_once(20, work)


def a_pipeline_behind_a_silence_is_answered_in_order(server):
    """A hundred messages of one send, behind a silence, while another client waits for the only lane."""
    with serving(server, 1) as other, clients(other, 2) as kept:
        time.sleep(0.05)
        kept[0].send(CALL * 100)
        kept[1].calls("a call beside a pipeline", CALL, no_stage())
        kept[0].has_answer("the pipeline", no_stage() * 100)


def a_silent_client_may_send_garbage_or_close(server):
    with serving(server, 1) as other, clients(other, 3) as kept:
        time.sleep(0.05)
        kept[0].socket.close()
        kept[1].send(b"GET\r\n")
        kept[1].has_last("behind a silence", edge_answer(b"400 Bad Request"))
        kept[2].calls("the call of another", CALL, no_stage())


def half_a_message_holds_its_lane_for_30_seconds(server):
    with serving(server, 1) as other, Client(other.port) as half:
        half.send(CALL[:30])
        time.sleep(0.1)
        begun = time.monotonic()
        with Client(other.port) as client:
            client.send(LAST)
            client.has_last("behind half a message", no_stage(closes=True))
        taken = time.monotonic() - begun
        half.has_last("the half", b"")
        if not SILENCE - 2 <= taken <= SILENCE + 5:
            raise Wrong(f"the lane was free after {taken:.1f} seconds")


def a_shutdown_closes_idle_connections(server):
    """Fifty connections, half of them never used. What is being read when the shutdown comes is answered."""
    for in_message in (False, True):
        with serving(server, 4) as other, clients(other, 25), contextlib.ExitStack() as kept:
            for _ in range(25):
                kept.enter_context(Client(other.port))
            late = kept.enter_context(Client(other.port))
            if in_message:
                late.send(CALL[:40])
                time.sleep(0.1)
            with Client(other.port) as client:
                client.send(request(b"POST", b"/_admin/shutdown"))
                client.has_last("the shutdown", json_answer(b"200 OK", b'{"reply":"done"}', closes=True))
            if in_message:
                time.sleep(0.2)
                late.send(CALL[40:])
                late.has_last("the message that was being read", no_stage(closes=True))
            begun = time.monotonic()
            status = other.ends_by_itself()[0]
            taken = time.monotonic() - begun
            expect("status", status, 0)
            if taken > SOON:
                raise Wrong(f"the program ended {taken:.1f} seconds behind the last answer")


def a_client_that_sends_on_delays_no_shutdown(server):
    """Behind its last answer it sends until its connection is closed."""

    def send_on(client):
        with contextlib.suppress(OSError):
            for _ in range(2000):
                client.send(b"x" * 1000)
                time.sleep(0.005)

    with serving(server, 2) as other, Client(other.port) as noisy:
        noisy.send(LAST)
        noisy.has_answer("the last answer", no_stage(closes=True))
        threading.Thread(target=send_on, args=(noisy,), daemon=True).start()
        time.sleep(0.2)
        with Client(other.port) as client:
            client.send(request(b"POST", b"/_admin/shutdown"))
            client.has_last("the shutdown", json_answer(b"200 OK", b'{"reply":"done"}', closes=True))
        begun = time.monotonic()
        expect("status", other.ends_by_itself()[0], 0)
        taken = time.monotonic() - begun
        if taken > SOON:
            raise Wrong(f"the program ended {taken:.1f} seconds behind the last answer")


def an_early_answer_of_a_backend_is_passed_on(server):
    """A body of 2 MB, and one of 9, to a backend that replies 401 behind the first bytes."""
    with serving(server, 1) as other, backend(answer_at_once) as port:
        make_api(other, b"early", proxy_to("POST", f"http://127.0.0.1:{port}/p"))
        with Client(other.port) as client:
            for size in (2_000_000, 9_000_000) * 3:
                client.calls(f"a body of {size} bytes", request(b"POST", b"/early/v1/p", b"x" * size), passed_on(b"401 Unauthorized", b"no"))


def a_413_arrives_whatever_is_sent(server):
    """The standard client sends the whole body before it reads."""
    with serving(server, 1) as other:
        for megabytes in (20, 50, 200):
            client = http.client.HTTPConnection("127.0.0.1", other.port, timeout=WAIT)
            client.request("POST", "/hello/v1", body=bytes(megabytes * 1_000_000))
            expect(f"the status for {megabytes} MB", client.getresponse().status, 413)
            client.close()


def a_backend_at_the_other_loopback_is_reached(server):
    """Under the name `localhost` alone. Where the system has no ::1 there is nothing to be tried."""
    try:
        socket.create_server(("::1", 0), family=socket.AF_INET6).close()
    except OSError:
        return
    failed = own_answer(b"504 Gateway Timeout", b"INTEGRATION_FAILURE", b"Network error communicating with endpoint")
    with serving(server, 1) as other, backend(answer_late, "::1", socket.AF_INET6) as port:
        for name, host, answer in ((b"both", "localhost", passed_on(b"200 OK", b"ok")), (b"one", "127.0.0.1", failed)):
            make_api(other, name, proxy_to("GET", f"http://{host}:{port}/p"))
            with Client(other.port) as client:
                client.calls(f"to {host}", request(b"GET", b"/%s/v1/p" % name), answer)


def a_program_that_was_stopped_goes_on(server):
    """In a message, in an exchange, and while it waits for a client."""
    with serving(server, 2) as other, backend(answer_late) as port:
        make_api(other, b"late", proxy_to("GET", f"http://127.0.0.1:{port}/p"))
        for _ in range(3):
            with Client(other.port) as client:
                client.send(CALL[:40])
                time.sleep(0.05)
                stop_for(other, 0.1)
                client.send(CALL[40:])
                client.has_answer("a stop in a message", no_stage())
                client.send(request(b"GET", b"/late/v1/p"))
                time.sleep(0.1)
                stop_for(other, 0.1)
                client.has_answer("a stop in an exchange", passed_on(b"200 OK", b"ok"))
                stop_for(other, 0.05)
                client.calls("a stop in a silence", CALL, no_stage())
            stop_for(other, 0.05)


def the_longest_silent_client_makes_room(server):
    """More connections than are kept, and more than the program may have files open."""
    hard = resource.getrlimit(resource.RLIMIT_NOFILE)[1]
    resource.setrlimit(resource.RLIMIT_NOFILE, (min(hard, MANY) if hard > 0 else MANY, hard))
    with serving(server, 2) as other, clients(other, 1040) as kept:
        kept[0].has_last("the first of 1,040", b"")
        kept[-1].calls("the last", CALL, no_stage())
        kept[500].calls("one of the middle", CALL, no_stage())
    with serving(server, 2) as other:
        resource.prlimit(other.process.pid, resource.RLIMIT_NOFILE, (FEW, FEW))
        with clients(other, 3 * FEW) as kept:
            is_answered_soon(other, "a new client")
            kept[-1].calls("the last", CALL, no_stage())


TESTS = [
    a_seventh_connection_is_answered_beside_six_kept_ones,
    a_client_that_says_nothing_holds_no_lane,
    a_pool_shares_two_lanes_and_loses_no_half,
    a_pipeline_behind_a_silence_is_answered_in_order,
    a_silent_client_may_send_garbage_or_close,
    half_a_message_holds_its_lane_for_30_seconds,
    a_shutdown_closes_idle_connections,
    a_client_that_sends_on_delays_no_shutdown,
    an_early_answer_of_a_backend_is_passed_on,
    a_413_arrives_whatever_is_sent,
    a_backend_at_the_other_loopback_is_reached,
    a_program_that_was_stopped_goes_on,
    the_longest_silent_client_makes_room,
]
