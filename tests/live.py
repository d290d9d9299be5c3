#!/usr/bin/env python3
"""Tests of the running server: starts the built program on a free port of the loopback, talks to it over sockets, and ends it.

Usage: tests/live.py [PROGRAM]; the program is built by `rt run` in crates/gateway.

Prints `ok NAME` or `FAILED NAME: why` for each test, and last `N passed, N failed`. Its status is 0 only where none failed. Each wait
has a limit of its own, so it ends whatever the program does. The store begins empty, so every call is answered 403 until an API is put
over HTTP, by a program of its own that is shut down over HTTP, too; what is expected is said to the byte by docs/HTTP.md, docs/ADMIN.md,
docs/STORE.md and docs/SCRIPT.md. Nothing is sent that the server would leave unread where it closes a connection: the system would then reset it, and the
answer might be lost."""
import http.server, json, os, queue, shutil, signal, socket, sqlite3, struct, subprocess, sys, tempfile, threading, time

import shared_lanes
from harness import (
    CALL,
    DONE,
    HEAD,
    LANES,
    LAST,
    TOP,
    WAIT,
    Client,
    Server,
    Wrong,
    at_once,
    caused_answer,
    edge_answer,
    expect,
    free_port,
    json_answer,
    no_stage,
    own_answer,
    request,
    text_answer,
)

# The tests.


def eight_clients_are_answered_over_kept_connections(server):
    def work(_):
        with Client(server.port) as client:
            for turn in range(20):
                client.calls(f"call {turn}", CALL, no_stage())
            client.send(LAST)
            client.has_last("the last call", no_stage(closes=True))

    at_once(8, work)


def requests_of_one_send_are_answered_in_order(server):
    def work(number):
        heads = [(number + turn) % 3 == 0 for turn in range(30)]
        with Client(server.port) as client:
            client.send(b"".join(HEAD if head else CALL for head in heads) + LAST)
            client.has_last("the answers", b"".join(no_stage(head_only=head) for head in heads) + no_stage(closes=True))

    at_once(8, work)


def a_head_in_single_bytes_is_a_head(server):
    with Client(server.port) as client:
        for place in range(len(LAST)):
            client.send(LAST[place : place + 1])
        client.has_last("the answer", no_stage(closes=True))


def a_broken_head_is_answered_400(server):
    for broken in (b"GET\r\n", b"GET /hello/v1 HTTP/1.1\r\n\r\n", b"GET /hello/v1 HTTP/1.1\r\nhost : localhost\r\n"):
        with Client(server.port) as client:
            client.send(broken)
            client.has_last(f"behind {broken}", edge_answer(b"400 Bad Request"))


def a_broken_head_behind_a_call_is_answered_400(server):
    with Client(server.port) as client:
        client.send(CALL + b"GET\r\n")
        client.has_last("the answers", no_stage() + edge_answer(b"400 Bad Request"))


def a_head_that_is_too_long_is_answered_431(server):
    front = b"GET /hello/v1 HTTP/1.1\r\nhost: localhost\r\nx-long: "
    with Client(server.port) as client:
        client.send(front + b"a" * (10240 - len(front)))  # any head that begins so is longer; more would be left unread
        client.has_last("the answer", edge_answer(b"431 Request Header Fields Too Large"))


def a_head_request_is_answered_with_a_head_alone(server):
    with Client(server.port) as client:
        client.calls("HEAD", HEAD, no_stage(head_only=True))
        client.send(LAST)
        client.has_last("the call behind it", no_stage(closes=True))


def version_1_0_closes(server):
    with Client(server.port) as client:
        client.send(b"GET /hello/v1 HTTP/1.0\r\n\r\n")
        client.has_last("the answer", no_stage(closes=True))


def a_body_in_chunks_is_taken_whole(server):
    chunked = b"POST /hello/v1 HTTP/1.1\r\nhost: localhost\r\ntransfer-encoding: chunked\r\n\r\n"
    with Client(server.port) as client:
        client.calls("the call", chunked + b"3;name=value\r\nAnn\r\nA\r\n0123456789\r\n0\r\nx-trailer: dropped\r\n\r\n", no_stage())
        client.send(LAST)
        client.has_last("the call behind it", no_stage(closes=True))


def a_broken_chunk_is_answered_400(server):
    with Client(server.port) as client:
        client.send(b"POST /hello/v1 HTTP/1.1\r\nhost: localhost\r\ntransfer-encoding: chunked\r\n\r\ng\r\n")
        client.has_last("the answer", edge_answer(b"400 Bad Request"))


def a_body_that_is_too_large_is_answered_413(server):
    with Client(server.port) as client:
        client.send(b"POST /hello/v1 HTTP/1.1\r\nhost: localhost\r\ncontent-length: 10485761\r\n\r\n")
        client.has_last("the answer", own_answer(b"413 Payload Too Large", b"REQUEST_TOO_LARGE", b"Request Entity Too Large", closes=True))


def a_second_program_at_the_port_ends_with_3(server):
    expect("status and output", server.run("serve", "other.store", str(server.port), str(LANES)), (3, b"fault port\n"))
    with Client(server.port) as client:
        client.send(LAST)
        client.has_last("the first program's answer", no_stage(closes=True))


# What an API is made by, each request with its answer: all of them change the tables.
MADE = [
    (request(b"PUT", b"/_admin/apis/hello/text", b"Hi $input.body!"), DONE),
    (request(b"POST", b"/_admin/apis/hello/deployments"), json_answer(b"200 OK", b'{"reply":"deployed 1"}')),
    (request(b"PUT", b"/_admin/apis/hello/stages/v1", b"1 env=test"), DONE),
]
# What the book refuses.
REFUSED = [
    (request(b"POST", b"/_admin/apis/none/deployments"), b'{"reply":"refused NoApi"}'),
    (request(b"PUT", b"/_admin/apis/hello/stages/v1", b"2"), b'{"reply":"refused NoDeployment"}'),
    (request(b"PUT", b"/_admin/apis/%68ello/text", b"Hi"), b'{"reply":"refused BadName"}'),
]
# What is answered before the book is asked.
UNASKED = [
    (request(b"GET", b"/_admin/apis/hello"), b"404 Not Found", b'{"refused":"NoRoute"}'),
    (request(b"PUT", b"/_admin/apis/hello/text/", b"Hi"), b"404 Not Found", b'{"refused":"NoRoute"}'),
    (request(b"PUT", b"/_admin/apis/hello/stages/v1", b"one"), b"400 Bad Request", b'{"refused":"BadRecord"}'),
    (request(b"PUT", b"/_admin/apis/hello/text", b"#if($a)"), b"400 Bad Request", b'{"refused":"Unclosed(0) at /text"}'),
    (request(b"PUT", b"/_admin/apis/doc", b'{"version":1,"bogus":1}'), b"400 Bad Request", b'{"refused":"Unknown(bogus) at /bogus"}'),
]
TOO_LARGE = b"PUT /_admin/apis/hello HTTP/1.1\r\nhost: localhost\r\ncontent-length: 10485761\r\n\r\n"
CLIENTS = 4


def an_api_is_made_called_and_shut_down_over_http(server):
    """One program: an API is put, deployed, staged and called; each refusal comes by its body; and a shutdown ends the program with its line."""
    with tempfile.TemporaryDirectory() as room:
        other = Server(server.program, room)
        try:
            other.start()
            made_called_and_shut_down(other)
        finally:
            other.end()


def made_called_and_shut_down(other):
    with Client(other.port) as client:
        for asked, answer in MADE:
            client.calls(f"to {asked[:60]}", asked, answer)
        for asked, body in REFUSED:
            client.calls(f"to {asked[:60]}", asked, json_answer(b"409 Conflict", body))
        for asked, status, body in UNASKED:
            client.calls(f"to {asked[:60]}", asked, json_answer(status, body))
        client.calls("the call", CALL, text_answer(b"Hi Ann!"))

    def work(_):
        with Client(other.port) as client:
            client.send(LAST)
            client.has_last("a call beside others", text_answer(b"Hi Ann!", closes=True))

    at_once(CLIENTS, work)
    with Client(other.port) as client:
        client.send(TOO_LARGE)
        client.has_last("a body that is too large", json_answer(b"413 Payload Too Large", b'{"refused":"TooLarge"}', closes=True))
    with Client(other.port) as client:
        client.send(request(b"POST", b"/_admin/shutdown"))
        client.has_last("the shutdown", json_answer(b"200 OK", b'{"reply":"done"}', closes=True))
    calls = 1 + CLIENTS
    asked = len(MADE) + len(REFUSED) + 1
    entries = 2 * (calls + asked) + len(UNASKED) + 1
    line = b"session entries=%d calls=%d admitted=0 throttled=0 quota=0 notkept=0\n" % (entries, calls)
    expect("status and output", other.ends_by_itself(), (0, line))


# A page that asks for each change that a browser sends without a question, and says when all are answered.
PAGE = b'''<!doctype html><title>tries</title><script>
const changes = ["apis/hello/deployments", "apis/hello/stages/v1/promote", "apis/hello/stages/v1/flush", "plans/p/keys/k/grant", "shutdown"];
const ask = change => fetch("http://127.0.0.1:%d/_admin/" + change, {method: "POST", mode: "no-cors", body: "7"});
Promise.allSettled(changes.map(ask)).then(all => fetch("/done?" + all.map(one => one.status).join()));
</script>'''


class Site(http.server.BaseHTTPRequestHandler):
    """A site that shows this page, and notes what is asked of it."""

    def do_GET(self):
        self.server.asked.put(self.path)
        self.send_response(200)
        self.send_header("content-type", "text/html")
        self.end_headers()
        self.wfile.write(self.server.page)

    def log_message(self, *_):
        pass


def a_page_of_another_site_administers_nothing(server):
    """By headless Chromium, where it is installed: the page is of a name that is bound to this machine."""
    browser = shutil.which("chromium")
    if not browser:
        return
    site = http.server.ThreadingHTTPServer(("127.0.0.1", 0), Site)
    site.asked = queue.Queue()
    threading.Thread(target=site.serve_forever, daemon=True).start()
    with tempfile.TemporaryDirectory() as room:
        other = Server(server.program, room)
        try:
            other.start()
            with Client(other.port) as client:
                for asked, answer in MADE:
                    client.calls(f"to {asked[:60]}", asked, answer)
            site.page = PAGE % other.port
            words = ["--headless", "--no-sandbox", "--disable-gpu", f"--user-data-dir={room}/profile", "--host-resolver-rules=MAP site.example 127.0.0.1"]
            page = subprocess.Popen([browser, *words, f"http://site.example:{site.server_port}/"], stdout=subprocess.DEVNULL, stderr=subprocess.DEVNULL)
            try:
                while not (path := site.asked.get(timeout=WAIT)).startswith("/done"):
                    pass
            finally:
                page.kill()
                page.wait(WAIT)
            expect("what the page came to", path, "/done?" + ",".join(5 * ["fulfilled"]))
            with Client(other.port) as client:
                client.calls("the next deployment", MADE[1][0], json_answer(b"200 OK", b'{"reply":"deployed 2"}'))
        finally:
            other.end()
            site.shutdown()


def rows_of(path, table):
    """The rows of a table of a store that no program has open, in the order of their keys."""
    with sqlite3.connect(path) as store:
        return store.execute(f"SELECT * FROM {table} ORDER BY 1, 2").fetchall()


def change_store(path, statement):
    store = sqlite3.connect(path)
    store.execute(statement)
    store.commit()
    store.close()


def is_answered(server, what, answer):
    with Client(server.port) as client:
        client.send(LAST)
        client.has_last(what, answer)


def a_program_that_is_killed_is_found_again_in_its_store(server):
    """One program is put an API and ended at once by the system; another over the same file answers as it did, and its tables are the file's."""
    with tempfile.TemporaryDirectory() as room:
        first = Server(server.program, room)
        try:
            first.start()
            with Client(first.port) as client:
                for asked, answer in MADE:
                    client.calls(f"to {asked[:60]}", asked, answer)
        finally:
            first.end()
        second = Server(server.program, room)
        try:
            second.start()
            is_answered(second, "the call of the next program", text_answer(b"Hi Ann!", closes=True))
            with Client(second.port) as client:
                client.send(request(b"POST", b"/_admin/shutdown"))
                client.has_last("the shutdown", json_answer(b"200 OK", b'{"reply":"done"}', closes=True))
            expect("status", second.ends_by_itself()[0], 0)
        finally:
            second.end()
        path = f"{room}/{second.store}"
        expect("meta", rows_of(path, "meta"), [(0, 1)])
        expect("apis", rows_of(path, "apis"), [("hello", 1, "Hi $input.body!")])
        expect("deployments", rows_of(path, "deployments"), [("hello", 1, 1, "Hi $input.body!")])
        expect("stages", rows_of(path, "stages"), [("hello", "v1", 1, "env=test", 0, 0, "")])


def a_second_program_over_a_store_ends_with_3_and_loses_nothing(server):
    with tempfile.TemporaryDirectory() as room:
        first = Server(server.program, room)
        try:
            first.start()
            with Client(first.port) as client:
                client.calls("the first change", *MADE[0])
                expect("the second program", first.run("serve", first.store, free_port(), "1"), (3, b"fault keeper\n"))
                expect("administration", first.run("admin", first.store, lines=b"deploy 0 hello\n"), (3, b"fault keeper\n"))
                for asked, answer in MADE[1:]:
                    client.calls(f"to {asked[:60]}", asked, answer)
            is_answered(first, "the call", text_answer(b"Hi Ann!", closes=True))
        finally:
            first.end()


with open(f"{TOP}/examples/hello.commands", "rb") as commands:
    LINES = commands.read()


def a_store_that_was_administered_is_served(server):
    """Each run of `admin` finds what the one before left, and so does the server."""
    with tempfile.TemporaryDirectory() as room:
        other = Server(server.program, room)
        expect("the first lines", other.run("admin", other.store, lines=LINES), (0, b"done\ndeployed 1\ndone\n"))
        more = b"deploy 0 none\ndeploy 0 hello\npost 0 0 hello v1 Ann\ndeploy 0 hello\n"
        expect("more lines", other.run("admin", other.store, lines=more), (1, b"refused NoApi\ndeployed 2\nrefused line 3 BadRecord at ~\n"))
        expect("no lines", other.run("admin", other.store), (0, b""))
        try:
            other.start()
            is_answered(other, "the call", text_answer(b"Hi Ann!", closes=True))
        finally:
            other.end()


def a_file_that_is_no_store_is_told(server):
    with tempfile.TemporaryDirectory() as room:
        other = Server(server.program, room)
        with open(f"{room}/x", "wb") as file:
            file.write(b"x" * 4096)
        for words in (("admin", "x"), ("serve", "x", free_port(), "1"), ("admin", "no/such/folder")):
            expect(f"{words}", other.run(*words), (3, b"fault keeper\n"))
        with open(f"{room}/x", "rb") as file:
            expect("the file", file.read(), b"x" * 4096)
        for name, statement, told in (
            ("version", "UPDATE meta SET version = 9", b"refused BadStore(meta,0)\n"),
            ("plans", "INSERT INTO plans VALUES ('p', 0, 1, 0, 0, 0, 0, '')", b"refused BadStore(plans,0)\n"),
            ("stages", "UPDATE stages SET deployment = 7", b"refused BadStore(stages,0)\n"),
        ):
            expect("lines", other.run("admin", name, lines=LINES), (0, b"done\ndeployed 1\ndone\n"))
            change_store(f"{room}/{name}", statement)
            expect(f"admin over {name}", other.run("admin", name, lines=LINES), (1, told))
            expect(f"serve over {name}", other.run("serve", name, free_port(), "1"), (1, told))


def book(body):
    """A post of a book, as the guide's curl sends it."""
    return b"POST /books/v1/books HTTP/1.1\r\nhost: localhost\r\ncontent-type: application/json\r\ncontent-length: %d\r\n\r\n%s" % (len(body), body)


def requests_to_a_document_are_checked(server):
    """The document of the examples: its paths, its parameters, its model, and its own answer to a path that is not there."""
    with open(f"{TOP}/examples/books.json", "rb") as file:
        document = file.read()
    missing = b"Missing required request parameters: [%s]"
    steps = [
        (request(b"PUT", b"/_admin/apis/books", document), DONE),
        (request(b"POST", b"/_admin/apis/books/deployments"), json_answer(b"200 OK", b'{"reply":"deployed 1"}')),
        (request(b"PUT", b"/_admin/apis/books/stages/v1", b"1"), DONE),
        (request(b"GET", b"/books/v1/books"), own_answer(b"400 Bad Request", b"BAD_REQUEST_PARAMETERS", missing % b"author, x-reader")),
        (request(b"GET", b"/books/v1/books?author=Ann"), own_answer(b"400 Bad Request", b"BAD_REQUEST_PARAMETERS", missing % b"x-reader")),
        (request(b"POST", b"/books/v1/books", b'{"year":1859}'), own_answer(b"400 Bad Request", b"BAD_REQUEST_BODY", b"Invalid request body")),
        (request(b"GET", b"/books/v1/none"), caused_answer(b"404 Not Found", b"MISSING_AUTHENTICATION_TOKEN", b'{"message": "No such page"}')),
        (request(b"PUT", b"/books/v1/books", b"{}"), caused_answer(b"404 Not Found", b"MISSING_AUTHENTICATION_TOKEN", b'{"message": "No such page"}')),
        (
            request(b"POST", b"/books/v1/books", b'{"title":"On the Origin"}'),
            proxied(b"201 Created", b"", b"content-type: application/json\r\nlocation: /books/1\r\n"),
        ),
        (
            b"GET /books/v1/books?author=Ann HTTP/1.1\r\nhost: localhost\r\nx-reader: Bob\r\n\r\n",
            proxied(b"200 OK", b'{"author": "Ann", "books": []}'),
        ),
        (book(b'{"year": 1859}'), own_answer(b"400 Bad Request", b"BAD_REQUEST_BODY", b"Invalid request body")),
        (
            book(b'{"title": "On the Origin"}'),
            proxied(b"201 Created", b"", b"content-type: application/json\r\nlocation: /books/1\r\n"),
        ),
    ]
    with Client(server.port) as client:
        for asked, answer in steps:
            client.calls(f"to {asked[:60]}", asked, answer)


KEYED = b"""{"version":1,"resources":{"/k":{"GET":{"apiKeyRequired":true,"integration":{"type":"MOCK",
"templates":{"application/json":"{\\"statusCode\\":200}"},"responses":[{"status":200,"templates":{"application/json":"$context.identity.apiKeyId"}}]}}}}}"""

KEYED_CALL = b"GET /keyed/v1/k HTTP/1.1\r\nhost: localhost\r\nx-api-key: %s\r\n\r\n"


def calls_count_against_their_quota(server):
    """A key with a quota of a hundred calls a month: of two hundred by two clients at once just a hundred are answered; a throttle of one call,
    a key that is switched off, and one that is not known."""
    used = b'{"reply":"usage period=MONTH:%d allowance=100 used=100 remaining=0"}'
    steps = [
        (request(b"PUT", b"/_admin/apis/keyed", KEYED), DONE),
        (request(b"POST", b"/_admin/apis/keyed/deployments"), json_answer(b"200 OK", b'{"reply":"deployed 1"}')),
        (request(b"PUT", b"/_admin/apis/keyed/stages/v1", b"1"), DONE),
        (request(b"PUT", b"/_admin/keys/ann", b"ann-has-this-key on"), DONE),
        (request(b"PUT", b"/_admin/plans/basic", b"- 100:0:MONTH keyed/v1"), DONE),
        (KEYED_CALL % b"ann-has-this-key", own_answer(b"403 Forbidden", b"INVALID_API_KEY", b"Forbidden")),
        (request(b"PUT", b"/_admin/plans/basic/keys/ann"), DONE),
    ]
    with Client(server.port) as client:
        for asked, answer in steps:
            client.calls(f"to {asked[:60]}", asked, answer)
    counts = queue.Queue()
    good = proxied(b"200 OK", b"ann")
    over = own_answer(b"429 Too Many Requests", b"QUOTA_EXCEEDED", b"Limit Exceeded")

    def work(_):
        answered = 0
        with Client(server.port) as client:
            for _ in range(100):
                client.send(KEYED_CALL % b"ann-has-this-key")
                got = client.read(len(good))
                if got == good:
                    answered += 1
                else:
                    expect("a call over the quota", got + client.read(len(over) - len(good)), over)
        counts.put(answered)

    at_once(2, work)
    expect("the calls that were answered", counts.get() + counts.get(), 100)
    now = time.gmtime()
    month = 12 * (now.tm_year - 1970) + now.tm_mon - 1
    steps = [
        (request(b"GET", b"/_admin/plans/basic/keys/ann/usage"), json_answer(b"200 OK", used % month)),
        (request(b"POST", b"/_admin/plans/basic/keys/ann/grant", b"1"), DONE),
        (KEYED_CALL % b"ann-has-this-key", good),
        (KEYED_CALL % b"ann-has-this-key", over),
        (KEYED_CALL % b"none-has-this", own_answer(b"403 Forbidden", b"INVALID_API_KEY", b"Forbidden")),
        (request(b"PUT", b"/_admin/keys/ann", b"ann-has-this-key off"), DONE),
        (KEYED_CALL % b"ann-has-this-key", own_answer(b"403 Forbidden", b"INVALID_API_KEY", b"Forbidden")),
        (request(b"PUT", b"/_admin/keys/ann", b"ann-has-this-key on"), DONE),
        (request(b"POST", b"/_admin/plans/basic/keys/ann/grant", b"1"), DONE),
        (request(b"PUT", b"/_admin/plans/basic", b"1:1 100:0:MONTH keyed/v1"), DONE),
        (KEYED_CALL % b"ann-has-this-key", good),
        (KEYED_CALL % b"ann-has-this-key", own_answer(b"429 Too Many Requests", b"THROTTLED", b"Too Many Requests")),
    ]
    with Client(server.port) as client:
        for asked, answer in steps:
            client.calls(f"to {asked[:60]}", asked, answer)


class Backend:
    """A backend on the loopback, which replies by the path of a request and keeps what it was sent."""

    def __init__(self):
        self.listener = socket.create_server(("127.0.0.1", 0))
        self.port = self.listener.getsockname()[1]
        self.sent = queue.Queue()
        threading.Thread(target=self.accept, daemon=True).start()

    def accept(self):
        while True:
            try:
                taken, _ = self.listener.accept()
            except OSError:
                return
            threading.Thread(target=self.serve, args=(taken,), daemon=True).start()

    def serve(self, taken):
        with taken:
            taken.settimeout(WAIT)
            got = b""
            while b"\r\n\r\n" not in got:
                got += taken.recv(65536)
            head, _, body = got.partition(b"\r\n\r\n")
            length = int(head.rpartition(b"content-length: ")[2].split(b"\r\n")[0])
            while len(body) < length:
                body += taken.recv(65536)
            self.sent.put(head + b"\r\n\r\n" + body)
            self.reply(taken, head.split(b" ")[1].split(b"?")[0], body)

    def reply(self, taken, path, body):
        if path == b"/silent":
            time.sleep(2)
        elif path in REPLIES:
            taken.sendall(REPLIES[path])
        elif path == b"/post":
            told = b"%d" % len(body)
            taken.sendall(b"HTTP/1.1 200 OK\r\ncontent-length: %d\r\n\r\n%s" % (len(told), told))
        else:
            taken.sendall(b'HTTP/1.1 200 OK\r\nContent-Type: application/json\r\nContent-Length: 12\r\n\r\n{"id":"k 1"}')

    def end(self):
        self.listener.close()


REPLIES = {
    b"/get": b"HTTP/1.1 200 OK\r\nX-B: 1\r\nContent-Type: text/csv\r\nX-Gateway-Cause: THROTTLED\r\nContent-Length: 3\r\n\r\na,b",
    b"/head": b"HTTP/1.1 200 OK\r\nContent-Length: 5\r\n\r\n",
    b"/chunked": b"HTTP/1.1 200 OK\r\nTransfer-Encoding: chunked\r\n\r\n2\r\nhe\r\n3\r\nllo\r\n0\r\n\r\n",
    b"/none": b"HTTP/1.1 204 No Content\r\n\r\n",
    b"/garbage": b"nonsense\r\n\r\n",
    b"/cut": b"HTTP/1.1 200 OK\r\nContent-Length: 10\r\n\r\nabc",
}
PROXIED = {"GET": ("get", "chunked", "none", "garbage", "cut"), "POST": ("post",), "HEAD": ("head",)}


def backed_document(dead):
    """An API with a backend at its stage's port, and a method whose backend is not there."""
    uri = "http://127.0.0.1:${stageVariables.port}"
    resources = {
        f"/{path}": {verb: {"integration": {"type": "HTTP_PROXY", "method": verb, "uri": f"{uri}/{path}"}}}
        for verb, paths in PROXIED.items()
        for path in paths
    }
    resources["/silent"] = {"GET": {"integration": {"type": "HTTP_PROXY", "method": "GET", "uri": f"{uri}/silent", "timeout": 200}}}
    resources["/dead"] = {"GET": {"integration": {"type": "HTTP_PROXY", "method": "GET", "uri": f"http://127.0.0.1:{dead}/"}}}
    resources["/items/{id}"] = {
        "POST": {
            "integration": {
                "type": "HTTP",
                "method": "POST",
                "uri": f"{uri}/v/{{item}}",
                "parameters": {
                    "integration.request.path.item": "method.request.path.id",
                    "integration.request.querystring.n": "method.request.querystring.count",
                    "integration.request.header.X-User": "method.request.header.x-reader",
                },
                "templates": {"application/json": "{\"n\":$input.json('$.qty')}"},
                "responses": [
                    {
                        "pattern": "2\\d\\d",
                        "status": 201,
                        "parameters": {"method.response.header.x-id": "integration.response.body.id"},
                    },
                    {"status": 502},
                ],
            }
        }
    }
    return json.dumps({"version": 1, "resources": resources}).encode()


def proxied(status, body, headers=b"content-type: application/json\r\n", length=True):
    return b"HTTP/1.1 %s\r\n%s%s\r\n%s" % (status, headers, b"content-length: %d\r\n" % len(body) if length else b"", body)


FAILED = own_answer(b"504 Gateway Timeout", b"INTEGRATION_FAILURE", b"Network error communicating with endpoint")
LAPSED = own_answer(b"504 Gateway Timeout", b"INTEGRATION_TIMEOUT", b"Endpoint request timed out")


def integrations_reach_their_backend(server):
    """Requests to a backend to the byte, its replies mapped and passed on, and what a client is told where none comes."""
    backend, dead = Backend(), free_port()
    at = b"127.0.0.1:%d" % backend.port
    million = b"x" * 1000000
    item = b'POST /backed/v1/items/a%%2Fb?count=2&more=1 HTTP/1.1\r\nhost: localhost\r\nx-reader: Ann\r\ncontent-length: 9\r\n\r\n{"qty":3}'.replace(b"%%", b"%")
    steps = [
        (request(b"PUT", b"/_admin/apis/backed", backed_document(dead)), DONE, None),
        (request(b"POST", b"/_admin/apis/backed/deployments"), json_answer(b"200 OK", b'{"reply":"deployed 1"}'), None),
        (request(b"PUT", b"/_admin/apis/backed/stages/v1", b"1 port=%d" % backend.port), DONE, None),
        (
            item,
            proxied(b"201 Created", b'{"id":"k 1"}', b"content-type: application/json\r\nx-id: k 1\r\n"),
            b'POST /v/a%2Fb?n=2 HTTP/1.1\r\nhost: ' + at + b'\r\nx-user: Ann\r\ncontent-type: application/json\r\nconnection: close\r\ncontent-length: 7\r\n\r\n{"n":3}',
        ),
        (
            request(b"GET", b"/backed/v1/get?a=%20b"),
            proxied(b"200 OK", b"a,b", b"content-type: text/csv\r\nx-b: 1\r\n"),
            b"GET /get?a=%20b HTTP/1.1\r\nhost: " + at + b"\r\nconnection: close\r\ncontent-length: 0\r\n\r\n",
        ),
        (
            request(b"POST", b"/backed/v1/post", million),
            proxied(b"200 OK", b"1000000"),
            b"POST /post HTTP/1.1\r\nhost: " + at + b"\r\nconnection: close\r\ncontent-length: 1000000\r\n\r\n" + million,
        ),
        (
            request(b"HEAD", b"/backed/v1/head"),
            proxied(b"200 OK", b""),
            b"HEAD /head HTTP/1.1\r\nhost: " + at + b"\r\nconnection: close\r\ncontent-length: 0\r\n\r\n",
        ),
        (request(b"GET", b"/backed/v1/chunked"), proxied(b"200 OK", b"hello"), ...),
        (request(b"GET", b"/backed/v1/none"), proxied(b"204 No Content", b"", length=False), ...),
        (request(b"GET", b"/backed/v1/garbage"), FAILED, ...),
        (request(b"GET", b"/backed/v1/cut"), FAILED, ...),
        (request(b"GET", b"/backed/v1/silent"), LAPSED, ...),
        (request(b"GET", b"/backed/v1/dead"), FAILED, None),
    ]

    def work(_):
        with Client(server.port) as client:
            for _ in range(5):
                client.calls("a call beside others", request(b"GET", b"/backed/v1/get"), proxied(b"200 OK", b"a,b", b"content-type: text/csv\r\nx-b: 1\r\n"))

    try:
        with Client(server.port) as client:
            for asked, answer, sent in steps:
                client.calls(f"to {asked[:60]}", asked, answer)
                if sent is ...:
                    backend.sent.get(timeout=WAIT)
                elif sent is not None:
                    expect(f"what is sent for {asked[:60]}", backend.sent.get(timeout=WAIT), sent)
        expect("exchanges that nobody asked for", backend.sent.qsize(), 0)
        at_once(8, work)
        expect("exchanges", backend.sent.qsize(), 5 * 8)
    finally:
        backend.end()


class Authorizer(Backend):
    """An authorizer, whose policies and faults come by the token."""

    def reply(self, taken, path, body):
        token = json.loads(body)["authorizationToken"].encode()
        given = GIVEN.get(token, POLICY % b"*")
        taken.sendall(b"HTTP/1.1 %s\r\ncontent-length: %d\r\n\r\n%s" % (STATUSES.get(token, b"200 OK"), len(given), given))


POLICY = b'{"principalId":"u7","policyDocument":{"Statement":[{"Effect":"Allow","Action":"execute-api:Invoke","Resource":"%s"}]}}'
NO_POSTS = (
    b'{"principalId":"u8","policyDocument":{"Statement":[{"Effect":"Allow","Action":"execute-api:*","Resource":"*"},'
    b'{"Effect":"Deny","Action":"*","Resource":"*/POST/*"}]}}'
)
GIVEN = {b"reads": NO_POSTS, b"garbage": b"{}", b"broken": b"oh"}
STATUSES = {b"broken": b"500 Internal Server Error"}


def guarded(uri, ttl):
    """An API whose one resource is behind an authorizer, and tells who calls."""
    mock = {
        "type": "MOCK",
        "templates": {"application/json": '{"statusCode":200}'},
        "responses": [{"status": 200, "templates": {"application/json": "$context.authorizer.principalId"}}],
    }
    method = {"authorizer": "tok", "integration": mock}
    authorizer = {"header": "authorization", "pattern": "[a-z0-9]+", "uri": uri, "ttl": ttl}
    return json.dumps({"version": 1, "authorizers": {"tok": authorizer}, "resources": {"/x": {"GET": method, "POST": method}}}).encode()


def guarded_call(verb, token, stage=b"v1"):
    return b"%s /guarded/%s/x HTTP/1.1\r\nhost: localhost\r\nauthorization: %s\r\n\r\n" % (verb, stage, token)


DENIED = own_answer(b"403 Forbidden", b"ACCESS_DENIED", b"User is not authorized to access this resource")
UNAUTHORIZED = own_answer(b"401 Unauthorized", b"UNAUTHORIZED", b"Unauthorized")
UNANSWERED = own_answer(b"500 Internal Server Error", b"AUTHORIZER_FAILURE", b"Authorizer failed")
GARBAGE = own_answer(b"500 Internal Server Error", b"AUTHORIZER_CONFIGURATION_ERROR", b"Invalid authorizer reply")


def an_authorizer_is_asked_once_for_a_token(server):
    """One exchange for ten calls with a token, one more behind a flush; a policy that denies POST is remembered too; one that answers garbage
    or fails is asked each time; a token that is none is told without an exchange; and each of 1,025 tokens, and then the first once more."""
    authorizer = Authorizer()
    steps = [
        (request(b"PUT", b"/_admin/apis/guarded", guarded("http://127.0.0.1:%d/auth" % authorizer.port, 3600)), DONE),
        (request(b"POST", b"/_admin/apis/guarded/deployments"), json_answer(b"200 OK", b'{"reply":"deployed 1"}')),
        (request(b"PUT", b"/_admin/apis/guarded/stages/v1", b"1"), DONE),
        (request(b"PUT", b"/_admin/apis/guarded/stages/v2", b"1"), DONE),
    ]

    def asked(what, count):
        expect(f"exchanges {what}", authorizer.sent.qsize(), count)
        return [authorizer.sent.get() for _ in range(count)]

    try:
        with Client(server.port) as client:

            def calls(verb, token, answer, stage=b"v1"):
                client.calls(f"{verb} with {token}", guarded_call(verb, token, stage), answer)

            for step, answer in steps:
                client.calls(f"to {step[:60]}", step, answer)
            for _ in range(10):
                calls(b"GET", b"ann", proxied(b"200 OK", b"u7"))
            body = b'{"type":"TOKEN","authorizationToken":"ann","methodArn":"arn:aws:execute-api:local:000000000000:guarded/v1/GET/x"}'
            head = b"POST /auth HTTP/1.1\r\nhost: 127.0.0.1:%d\r\ncontent-type: application/json\r\nconnection: close\r\ncontent-length: %d\r\n\r\n"
            expect("what the authorizer is asked", asked("for ten calls", 1), [head % (authorizer.port, len(body)) + body])
            calls(b"GET", b"ann", proxied(b"200 OK", b"u7"), b"v2")
            asked("at another stage", 1)
            client.calls("to a flush", request(b"POST", b"/_admin/apis/guarded/stages/v1/flush"), DONE)
            calls(b"GET", b"ann", proxied(b"200 OK", b"u7"))
            calls(b"GET", b"ann", proxied(b"200 OK", b"u7"), b"v2")
            asked("behind a flush", 1)
            none = request(b"POST", b"/_admin/apis/guarded/stages/v3/flush")
            client.calls("to a flush of no stage", none, json_answer(b"409 Conflict", b'{"reply":"refused NoStage"}'))
            for verb, answer in ((b"GET", proxied(b"200 OK", b"u8")), (b"POST", DENIED), (b"GET", proxied(b"200 OK", b"u8"))):
                calls(verb, b"reads", answer)
            asked("of a policy that denies some", 1)
            for token, answer in ((b"garbage", GARBAGE), (b"broken", UNANSWERED)) * 2:
                calls(b"GET", token, answer)
            asked("that come to no policy", 4)
            for token in (b"", b" ", b"Bad!"):
                calls(b"GET", token, UNAUTHORIZED)
            client.calls("without a token", request(b"GET", b"/guarded/v1/x"), UNAUTHORIZED)
            asked("without a token", 0)
        tokens = [b"t%d" % number for number in range(1025)]
        for first in range(0, 1025, 500):
            # a connection has 1,000 answers at most
            with Client(server.port) as client:
                for token in tokens[first : first + 500]:
                    client.calls(f"GET with {token}", guarded_call(b"GET", token), proxied(b"200 OK", b"u7"))
        asked("for 1,025 tokens", 1025)
        with Client(server.port) as client:
            client.calls("with the second token", guarded_call(b"GET", b"t1"), proxied(b"200 OK", b"u7"))
            asked("for one of the last 1,024", 0)
            client.calls("with the first token", guarded_call(b"GET", b"t0"), proxied(b"200 OK", b"u7"))
            asked("for the first of 1,025", 1)
    finally:
        authorizer.end()


def played_guarded(uri=b"http://127.0.0.1:9001/auth", ttl=300):
    lines = [b"api 0 a " + field(guarded(uri.decode(), ttl)), b"deploy 0 a", b"stage 0 a s 1"]
    return lines, [b"done", b"deployed 1", b"done"]


def guarded_at(moment, verb, token, *outcomes):
    call = b"%s /a/s/x HTTP/1.1\r\nhost: localhost\r\nauthorization: %s\r\n\r\n" % (verb, token)
    return b"call %d 0 " % moment + b" ".join([field(call), *outcomes])


def asked_for(verb, token):
    body = b'{"type":"TOKEN","authorizationToken":"%s","methodArn":"arn:aws:execute-api:local:000000000000:a/s/%s/x"}' % (token, verb)
    head = b"POST /auth HTTP/1.1\r\nhost: 127.0.0.1:9001\r\ncontent-type: application/json\r\nconnection: close\r\ncontent-length: %d\r\n\r\n"
    return b"sent " + field(head % len(body) + body)


def gives(body, status=b"200 OK"):
    return field(b"HTTP/1.1 %s\r\ncontent-length: %d\r\n\r\n%s" % (status, len(body), body))


def a_policy_is_remembered_for_its_seconds(server):
    """At 0, at 299,999 and at 300,000 with 300 seconds; behind a flush; an authorizer that fails or gives no policy; and one whose policies
    may not be remembered."""
    ok, ended = b"answer " + field(proxied(b"200 OK", b"u8")), b"ended Closed"
    lines, wanted = played_guarded()
    lines += [
        guarded_at(0, b"GET", b"t", gives(NO_POSTS)),
        guarded_at(299_999, b"POST", b"t"),
        guarded_at(300_000, b"GET", b"t", gives(NO_POSTS)),
        b"flush 300001 a s",
        guarded_at(300_002, b"GET", b"t", gives(NO_POSTS)),
        b"flush 300003 a q",
        guarded_at(300_004, b"GET", b"t"),
        guarded_at(300_005, b"GET", b"u", gives(b"oh", b"500 Internal Server Error")),
        guarded_at(300_006, b"GET", b"u", gives(b"{}")),
        guarded_at(300_007, b"GET", b"u", b"!failed"),
        guarded_at(300_008, b"GET", b"u", b"!lapsed"),
        guarded_at(300_009, b"GET", b"U"),
    ]
    get, unlearned = asked_for(b"GET", b"t"), asked_for(b"GET", b"u")
    wanted += [get, ok, ended, b"answer " + field(DENIED), ended, get, ok, ended, b"done", get, ok, ended, b"refused NoStage", ok, ended]
    for answer in (UNANSWERED, GARBAGE, UNANSWERED, UNANSWERED):
        wanted += [unlearned, b"answer " + field(answer), ended]
    wanted += [b"answer " + field(UNAUTHORIZED), ended]
    plays(server, "an authorizer of 300 seconds", lines, wanted)
    lines, wanted = played_guarded(ttl=0)
    for moment in range(3):
        lines += [guarded_at(moment, b"GET", b"t", gives(NO_POSTS))]
        wanted += [get, ok, ended]
    plays(server, "an authorizer whose policies are not remembered", lines, wanted)


ORDERS = (
    b'{"version":1,\n"models":{"Order":{"type":"object","required":["sku","qty","price"],"properties":{"sku":{"type":"string","pattern":"^[A-Z]{2}-[0-9]+$"},'
    b'"qty":{"type":"integer","minimum":1},"price":{"type":"number","minimum":0},"note":{"type":"string","maxLength":2000}}}},\n'
    b'"validators":{"all":{"body":true,"parameters":true}},\n'
    b'"authorizers":{"tok":{"header":"authorization","pattern":"Bearer [a-z0-9]+","uri":"http://127.0.0.1:9001/auth","ttl":300}},\n'
    b'"resources":{"/orders":{"POST":{"apiKeyRequired":true,"authorizer":"tok","validator":"all","parameters":{"method.request.querystring.shop":true},'
    b'"models":{"application/json":"Order"},\n"integration":{"type":"HTTP","method":"PUT","uri":"http://127.0.0.1:9002/${stageVariables.env}/orders",'
    b'"parameters":{"integration.request.header.x-shop":"method.request.querystring.shop"},\n"templates":{"application/json":'
    b'"#set($in = $input.path(\'$\'))\\n{\\"item\\":\\"$in.sku\\",\\"qty\\":$in.qty,\\"price\\":$input.json(\'$.price\'),\\"by\\":\\"$context.authorizer.principalId\\"}"},\n'
    b'"responses":[{"pattern":"2\\\\d\\\\d","status":201,"parameters":{"method.response.header.location":"integration.response.header.location"},'
    b'"templates":{"application/json":"{\\"id\\":$input.json(\'$.id\')}"}},{"status":502}]}}}}}'
)


def an_order_goes_through_all_its_checks(server):
    """The API of orders: a model, a validator, an authorizer, a key with its quota, a mapped request and a mapped reply, to the byte; two
    exchanges, and one unit of the quota."""
    body = b'{"sku":"AB-12","qty":3,"price":12.90,"note":"' + b"n" * 1900 + b'"}'
    order = (
        b"POST /shop/prod/orders?shop=7 HTTP/1.1\r\nhost: localhost:8080\r\nuser-agent: curl/8.5.0\r\naccept: */*\r\ncontent-type: application/json\r\n"
        b"authorization: Bearer abc123\r\nx-api-key: 0123456789abcdef0123\r\ncontent-length: 1947\r\n\r\n" + body
    )
    lines = [b"api 0 shop " + field(ORDERS), b"deploy 0 shop", b"stage 0 shop prod 1 env=live", b"key 0 k1 0123456789abcdef0123 on"]
    lines += [b"plan 0 gold 10:20 1000:0:MONTH shop/prod", b"join 0 gold k1"]
    allow = b'{"principalId":"u7","policyDocument":{"Version":"2012-10-17","Statement":[{"Effect":"Allow","Action":"execute-api:Invoke","Resource":"*"}]}}'
    taken = b'HTTP/1.1 201 Created\r\nlocation: /orders/55\r\ncontent-type: application/json\r\ncontent-length: 25\r\n\r\n{"id":55,"state":"taken"}'
    lines += [b" ".join([b"call 0 0", field(order), gives(allow), field(taken)]), b"usage 0 gold k1"]
    question = b'{"type":"TOKEN","authorizationToken":"Bearer abc123","methodArn":"arn:aws:execute-api:local:000000000000:shop/prod/POST/orders"}'
    asked = b"POST /auth HTTP/1.1\r\nhost: 127.0.0.1:9001\r\ncontent-type: application/json\r\nconnection: close\r\ncontent-length: 128\r\n\r\n" + question
    mapped = b'{"item":"AB-12","qty":3,"price":12.90,"by":"u7"}'
    put = b"PUT /live/orders HTTP/1.1\r\nhost: 127.0.0.1:9002\r\nx-shop: 7\r\ncontent-type: application/json\r\nconnection: close\r\ncontent-length: 48\r\n\r\n" + mapped
    answer = b'HTTP/1.1 201 Created\r\ncontent-type: application/json\r\nlocation: /orders/55\r\ncontent-length: 9\r\n\r\n{"id":55}'
    wanted = [b"done", b"deployed 1", b"done", b"done", b"done", b"done", b"sent " + field(asked), b"sent " + field(put), b"answer " + field(answer), b"ended Closed"]
    plays(server, "an order", lines, [*wanted, b"usage period=MONTH:0 allowance=1000 used=1 remaining=999"])
    # each front of the order, and the broken ones among what is to come
    lines, wanted = lines[:6], wanted[:6]
    for count in range(1, len(order)):
        lines += [b"call 0 0 " + field(order[:count])]
        wanted += [b"ended Cut(%d)" % count]
    plays(server, "the fronts of an order", [*lines, b"usage 0 gold k1"], [*wanted, b"usage period=MONTH:0 allowance=1000 used=0 remaining=1000"])


def the_pets_are_called(server):
    """The example with a backend of its own."""
    script = f"{TOP}/examples/petstore.sh"
    ended = subprocess.run([script, server.program, free_port(), free_port()], stdin=subprocess.DEVNULL, capture_output=True, timeout=WAIT)
    lines = [
        b'{"reply":"done"}',
        b'{"reply":"deployed 1"}',
        b'{"reply":"done"}',
        b"<h1>Pets</h1>",
        b'[{"id": 1, "type": "dog"}]',
        b'{"id": 3, "type": "fish", "price": 0.99}',
        b'{"errors": ["no pet 9"]}',
        b"201 /pets/4",
        b'{"message":"Invalid request body"}',
        b'{"reply":"done"}',
        b"session entries=20 calls=6 admitted=0 throttled=0 quota=0 notkept=0",
    ]
    expect("petstore.sh", (ended.returncode, sorted(ended.stdout.splitlines())), (0, sorted(lines)))


def the_keyed_api_is_called(server):
    """The example with a key and a plan. A month that ends within it begins the count again; then it is played once more."""
    said = b'{"reply":"deployed 1"}\n' + 4 * b'{"reply":"done"}\n'
    said += b'403 INVALID_API_KEY\n200 hello ann\n200 hello ann\n429 QUOTA_EXCEEDED\n{"reply":"done"}\n200 hello ann\n'
    month = time.gmtime().tm_mon
    ended = None
    while ended is None or month != time.gmtime().tm_mon:
        month = time.gmtime().tm_mon
        ended = subprocess.run([f"{TOP}/examples/keyed.sh", server.program, free_port()], stdin=subprocess.DEVNULL, capture_output=True, timeout=WAIT)
    expect("keyed.sh", (ended.returncode, ended.stdout), (0, said))


def the_guarded_api_is_called(server):
    """The example with an authorizer of its own."""
    script = f"{TOP}/examples/guarded.sh"
    ended = subprocess.run([script, server.program, free_port(), free_port()], stdin=subprocess.DEVNULL, capture_output=True, timeout=WAIT)
    said = b"401 UNAUTHORIZED\n200 hello ann\n200 hello ann\n403 ACCESS_DENIED\n200 hello root\n500 AUTHORIZER_FAILURE\nasked 3 times\n"
    expect("guarded.sh", (ended.returncode, ended.stdout), (0, said))


def a_stage_shows_its_deployment_and_its_variables(server):
    """The guide's second and third steps, on the common program: they leave the stage that the other tests call unknown."""
    steps = [
        (request(b"PUT", b"/_admin/apis/greet/text", b"$stageVariables.greeting $input.body!"), DONE),
        (request(b"POST", b"/_admin/apis/greet/deployments"), json_answer(b"200 OK", b'{"reply":"deployed 1"}')),
        (request(b"PUT", b"/_admin/apis/greet/stages/formal", b"1 greeting=Good%20day,"), DONE),
        (request(b"PUT", b"/_admin/apis/greet/stages/short", b"1 greeting=Hi"), DONE),
        (request(b"POST", b"/greet/formal", b"Ann"), text_answer(b"Good day, Ann!")),
        (request(b"POST", b"/greet/short", b"Ann"), text_answer(b"Hi Ann!")),
        (request(b"PUT", b"/_admin/apis/greet/text", b"Hello, $input.body!"), DONE),
        (request(b"POST", b"/greet/short", b"Ann"), text_answer(b"Hi Ann!")),
        (request(b"POST", b"/_admin/apis/greet/deployments"), json_answer(b"200 OK", b'{"reply":"deployed 2"}')),
        (request(b"PUT", b"/_admin/apis/greet/stages/short", b"2"), DONE),
        (request(b"POST", b"/greet/short", b"Ann"), text_answer(b"Hello, Ann!")),
        (request(b"POST", b"/greet/formal", b"Ann"), text_answer(b"Good day, Ann!")),
        (request(b"PUT", b"/_admin/apis/greet/stages/short", b"1 greeting=Hi"), DONE),
        (request(b"POST", b"/greet/short", b"Ann"), text_answer(b"Hi Ann!")),
    ]
    with Client(server.port) as client:
        for asked, answer in steps:
            client.calls(f"to {asked[:60]}", asked, answer)


def the_examples_do_what_stands_beside_them(server):
    """What the guide runs without a server, and the first call by curl."""
    examples = f"{TOP}/examples"
    expect("render", server.run("render", f"{examples}/greeting.vtl", f"{examples}/greeting.body"), (0, b"Dear Ann,\ngood morning.\n"))
    expect("check", server.run("check", f"{examples}/orders.json"), (0, b"ok resources=3 methods=3 models=1\n"))
    expect("check", server.run("check", f"{examples}/books.json"), (0, b"ok resources=1 methods=2 models=1\n"))
    with open(f"{examples}/hello.script", "rb") as script, open(f"{examples}/hello.said", "rb") as said:
        ended = subprocess.run([server.program, "play"], stdin=script, capture_output=True, timeout=WAIT)
        expect("play", (ended.returncode, ended.stdout), (0, said.read()))
    ended = subprocess.run([f"{examples}/hello.sh", server.program, free_port()], stdin=subprocess.DEVNULL, capture_output=True, timeout=WAIT)
    lines = b'{"reply":"done"}\n{"reply":"deployed 1"}\n{"reply":"done"}\nHi Ann!\n{"reply":"done"}\n'
    line = b"session entries=10 calls=1 admitted=0 throttled=0 quota=0 notkept=0\n"
    expect("hello.sh", (ended.returncode, sorted(ended.stdout.splitlines())), (0, sorted((lines + line).splitlines())))


def call_of(body, last=False):
    return request(b"POST", b"/hello/v1", body, last)


def leaves_half_a_head(client):
    client.send(b"POST /hello/v1 HTTP/1.1\r\nhost: local")


def leaves_half_a_body(client):
    client.send(b"POST /hello/v1 HTTP/1.1\r\nhost: localhost\r\ncontent-length: 1000\r\n\r\nAnn")
    client.socket.shutdown(socket.SHUT_WR)


def is_slow(client):
    for byte in call_of(b"Slow", last=True):
        client.send(bytes([byte]))
        time.sleep(0.002)
    client.has_last("the slow one's answer", text_answer(b"Hi Slow!", closes=True))


def resets(client):
    """Closed so, a connection is reset, with its answer unread."""
    client.send(call_of(b"Ann") * 3)
    client.socket.setsockopt(socket.SOL_SOCKET, socket.SO_LINGER, struct.pack("ii", 1, 0))


def sends_no_head(client):
    client.send(b"GET\r\n")
    client.has_last("the answer to no head", edge_answer(b"400 Bad Request"))


def sends_a_bad_chunk(client):
    client.send(b"POST /hello/v1 HTTP/1.1\r\nhost: localhost\r\ntransfer-encoding: chunked\r\n\r\n-1\r\n")
    client.has_last("the answer to a bad chunk", edge_answer(b"400 Bad Request"))


def sends_two_lengths(client):
    client.send(b"POST /hello/v1 HTTP/1.1\r\nhost: localhost\r\ncontent-length: 3\r\ncontent-length: 4\r\n\r\n")
    client.has_last("the answer to two lengths", edge_answer(b"400 Bad Request"))


def says_nothing(_):
    pass


BROKEN = [leaves_half_a_head, leaves_half_a_body, is_slow, resets, sends_no_head, sends_a_bad_chunk, sends_two_lengths, says_nothing]


def broken_clients_harm_no_other(server):
    """A storm: 64 clients over eight lanes, half of them broken in one of eight ways, each four times; of the others 1,024 calls and 128 with
    a key, each of which is answered to the byte. Behind them the key has used just 128 of its quota; then the server is shut down, and its
    line has at least these calls."""
    steps = [
        *MADE,
        (request(b"PUT", b"/_admin/apis/keyed", KEYED), DONE),
        (request(b"POST", b"/_admin/apis/keyed/deployments"), json_answer(b"200 OK", b'{"reply":"deployed 1"}')),
        (request(b"PUT", b"/_admin/apis/keyed/stages/v1", b"1"), DONE),
        (request(b"PUT", b"/_admin/keys/ann", b"ann-has-this-key on"), DONE),
        (request(b"PUT", b"/_admin/plans/basic", b"- 1000:0:MONTH keyed/v1"), DONE),
        (request(b"PUT", b"/_admin/plans/basic/keys/ann"), DONE),
    ]
    keyed = proxied(b"200 OK", b"ann")

    def work(number):
        if number % 2:
            for _ in range(4):
                with Client(other.port) as client:
                    BROKEN[number // 2 % len(BROKEN)](client)
            return
        for turn in range(4):
            with Client(other.port) as client:
                client.calls(f"the call with a key of turn {turn}", KEYED_CALL % b"ann-has-this-key", keyed)
                for call in range(8):
                    name, last = b"%d-%d-%d" % (number, turn, call), call == 7
                    client.send(call_of(name, last))
                    answer = text_answer(b"Hi %s!" % name, closes=last)
                    (client.has_last if last else client.has_answer)(f"call {call} of turn {turn}", answer)

    with tempfile.TemporaryDirectory() as room:
        other = Server(server.program, room, lanes=8)
        try:
            other.start()
            with Client(other.port) as client:
                for asked, answer in steps:
                    client.calls(f"to {asked[:60]}", asked, answer)
            at_once(64, work)
            month = (time.gmtime().tm_year - 1970) * 12 + time.gmtime().tm_mon - 1
            used = json_answer(b"200 OK", b'{"reply":"usage period=MONTH:%d allowance=1000 used=128 remaining=872"}' % month)
            with Client(other.port) as client:
                client.calls("the use of the key", request(b"GET", b"/_admin/plans/basic/keys/ann/usage"), used)
            with Client(other.port) as client:
                client.send(request(b"POST", b"/_admin/shutdown"))
                client.has_last("the end", json_answer(b"200 OK", b'{"reply":"done"}', closes=True))
            status, line = other.ends_by_itself()
            expect("status", status, 0)
            calls = int(line.split(b" calls=")[1].split()[0])
            if not 1152 + 16 <= calls <= 1152 + 16 + 48 or b" admitted=128 " not in line:
                raise Wrong(f"of 1,168 calls that were answered, 128 of them admitted, and 48 that may have been, the line has {line}")
        finally:
            other.end()


def words_that_are_no_command_end_with_2(server):
    for words in ((), ("bogus",), ("serve",), ("serve", "s", "1"), ("serve", "s", "port", "4"), ("admin",), ("admin", "-s"), ("load", "7"), ("load", "7", "0")):
        expect(f"status and output of {words}", server.run(*words), (2, b"usage\n"))


def summary_of(seed, calls):
    """What a load comes to, reckoned anew: the words of SplitMix64, a bucket of 10 that gets 5 a second and 1,000 a day for each of eight keys."""
    state, counts, keys = seed, {"admitted": 0, "throttled": 0, "quota": 0, "canary": 0}, {}
    for number in range(calls):
        state = (state + 0x9E3779B97F4A7C15) % 2**64
        word = (state ^ state >> 30) * 0xBF58476D1CE4E5B9 % 2**64
        word = (word ^ word >> 27) * 0x94D049BB133111EB % 2**64
        word ^= word >> 31
        moment, key = 10 * number + (word >> 8) % 10, word % 8
        counts["canary"] += (word >> 16) % 10000 < 2500
        level, at, used = keys.get(key, (10000, 0, 0))
        level = min(10000, level + 5 * (moment - at))
        reply = "throttled" if level < 1000 else "quota" if used == 1000 else "admitted"
        counts[reply] += 1
        if reply == "admitted":
            keys[key] = (level - 1000, moment, used + 1)
    lines = [f"calls={calls} " + " ".join(f"{name}={count}" for name, count in counts.items())]
    lines += [f"k{key} used={keys[key][2]} remaining={1000 - keys[key][2]}" if key in keys else f"k{key} none" for key in range(8)]
    return ("\n".join(lines) + "\n").encode()


def loads_come_to_what_they_are_reckoned_to(server):
    for seed, calls in ((0, 1), (7, 20_000), (7, 20_000), (2**64 - 1, 300_000)):
        expect(f"a load of {calls} by {seed}", server.run("load", str(seed), str(calls)), (0, summary_of(seed, calls)))


def field(text):
    """A field of a script."""
    return b"".join(b"%c" % byte if 33 <= byte <= 126 and byte != 37 else b"%%%02X" % byte for byte in text) or b"~"


def plays(server, what, lines, wanted, status=0):
    """A script prints this."""
    expect(what, server.run("play", lines=b"\n".join(lines) + b"\n"), (status, b"".join(line + b"\n" for line in wanted)))


def a_message_that_is_cut_anywhere_makes_no_answer(server):
    """Every front of a request but the empty one."""
    made = [b"text 0 hello Hi%20$input.body!", b"deploy 0 hello", b"stage 0 hello v1 1"]
    fronts = range(1, len(CALL))
    lines = made + [b"call 0 0 " + field(CALL[:count]) for count in fronts]
    plays(server, "the fronts of a call", lines, [b"done", b"deployed 1", b"done", *(b"ended Cut(%d)" % count for count in fronts)])


def a_change_that_is_lost_at_any_call_of_the_keeper_is_told(server):
    """Six commands and a keyed call, with each of the keeper's calls failing: each command is two calls behind the load, the keyed call one."""
    lines = [b"api 0 keyed " + field(KEYED), b"deploy 0 keyed", b"stage 0 keyed v1 1", b"key 0 k1 kk on", b"plan 0 p - 3:0:DAY keyed/v1", b"join 0 p k1"]
    lines += [b"call 0 0 " + field(KEYED_CALL % b"kk")]
    done = [b"done", b"deployed 1", b"done", b"done", b"done", b"done"]
    called = [
        own_answer(b"403 Forbidden", b"UNKNOWN_STAGE", b"Unknown stage"),
        own_answer(b"403 Forbidden", b"INVALID_API_KEY", b"Forbidden"),
        own_answer(b"500 Internal Server Error", b"STORE_FAILURE", b"Store unavailable"),
        proxied(b"200 OK", b"k1"),
    ]
    lost = [
        ([b"store", b"refused NoApi", b"refused NoApi", b"done", b"refused NoStage", b"refused NoPlan"], called[0]),
        ([b"done", b"store", b"refused NoDeployment", b"done", b"refused NoStage", b"refused NoPlan"], called[0]),
        ([b"done", b"deployed 1", b"store", b"done", b"refused NoStage", b"refused NoPlan"], called[0]),
        ([b"done", b"deployed 1", b"done", b"store", b"done", b"refused NoKey"], called[1]),
        ([b"done", b"deployed 1", b"done", b"done", b"store", b"refused NoPlan"], called[1]),
        ([b"done", b"deployed 1", b"done", b"done", b"done", b"store"], called[1]),
    ]
    plays(server, "with a load that fails", [b"keepfails 0", *lines], [b"fault keeper"], 3)
    for number in range(1, 15):
        said, answer = lost[(number - 1) // 2] if number <= 12 else (done, called[2 if number == 13 else 3])
        plays(server, f"with call {number} failing", [b"keepfails %d" % number, *lines], [*said, b"answer " + field(answer), b"ended Closed"])


def an_exchange_that_comes_to_nothing_is_told(server):
    """A backend that cannot be reached, one that is silent, and one behind the last outcome; each is asked once."""
    document = b'{"version":1,"resources":{"/p":{"GET":{"integration":{"type":"HTTP","method":"GET","uri":"http://127.0.0.1:9002/p","responses":[{"status":200}]}}}}}'
    call = b"call 0 0 " + field(b"GET /p/v1/p HTTP/1.1\r\nhost: localhost\r\n\r\n")
    sent = b"sent " + field(b"GET /p HTTP/1.1\r\nhost: 127.0.0.1:9002\r\ncontent-type: application/json\r\nconnection: close\r\ncontent-length: 0\r\n\r\n")
    lines, wanted = [b"api 0 p " + field(document), b"deploy 0 p", b"stage 0 p v1 1"], [b"done", b"deployed 1", b"done"]
    for outcome, answer in ((b" !failed", FAILED), (b" !lapsed", LAPSED), (b"", FAILED)):
        lines += [call + outcome]
        wanted += [sent, b"answer " + field(answer), b"ended Closed"]
    plays(server, "outcomes that are none", lines, wanted)


def a_body_of_ten_million_brackets_is_refused(server):
    """It is nested deeper than a document may be, and is refused before any model is asked."""
    body = b"[" * 10_485_760
    with Client(server.port) as client:
        asked = book(body)
        client.calls("to ten million brackets", asked, own_answer(b"400 Bad Request", b"BAD_REQUEST_BODY", b"Invalid request body"))


def the_program_still_runs(server):
    expect("status", server.process.poll(), None)


TESTS = [
    eight_clients_are_answered_over_kept_connections,
    requests_of_one_send_are_answered_in_order,
    a_head_in_single_bytes_is_a_head,
    a_broken_head_is_answered_400,
    a_broken_head_behind_a_call_is_answered_400,
    a_head_that_is_too_long_is_answered_431,
    a_head_request_is_answered_with_a_head_alone,
    version_1_0_closes,
    a_body_in_chunks_is_taken_whole,
    a_broken_chunk_is_answered_400,
    a_body_that_is_too_large_is_answered_413,
    a_second_program_at_the_port_ends_with_3,
    an_api_is_made_called_and_shut_down_over_http,
    a_page_of_another_site_administers_nothing,
    a_program_that_is_killed_is_found_again_in_its_store,
    a_second_program_over_a_store_ends_with_3_and_loses_nothing,
    a_store_that_was_administered_is_served,
    a_file_that_is_no_store_is_told,
    a_stage_shows_its_deployment_and_its_variables,
    requests_to_a_document_are_checked,
    calls_count_against_their_quota,
    integrations_reach_their_backend,
    an_authorizer_is_asked_once_for_a_token,
    a_policy_is_remembered_for_its_seconds,
    an_order_goes_through_all_its_checks,
    the_pets_are_called,
    the_keyed_api_is_called,
    the_guarded_api_is_called,
    the_examples_do_what_stands_beside_them,
    broken_clients_harm_no_other,
    words_that_are_no_command_end_with_2,
    loads_come_to_what_they_are_reckoned_to,
    a_message_that_is_cut_anywhere_makes_no_answer,
    a_change_that_is_lost_at_any_call_of_the_keeper_is_told,
    an_exchange_that_comes_to_nothing_is_told,
    a_body_of_ten_million_brackets_is_refused,
    the_program_still_runs,
]


def try_one(name, test):
    """Whether it passed."""
    try:
        test()
    except Exception as fault:
        print(f"FAILED {name}: {type(fault).__name__}: {fault}", flush=True)
        return False
    print(f"ok {name}", flush=True)
    return True


def main():
    program = os.path.abspath(sys.argv[1] if len(sys.argv) > 1 else f"{TOP}/crates/gateway/out/gateway")
    passed = failed = 0
    with tempfile.TemporaryDirectory() as room:
        server = Server(program, room)
        try:
            if not try_one("the_program_listens", server.start):
                failed = 1
            else:
                passed = 1
                for test in TESTS[:-1] + shared_lanes.TESTS + TESTS[-1:]:
                    if try_one(test.__name__, lambda: test(server)):
                        passed += 1
                    else:
                        failed += 1
        except KeyboardInterrupt:
            print("FAILED: ended from outside")
            failed += 1
        finally:
            server.end()
    print(f"{passed} passed, {failed} failed")
    return 1 if failed else 0


if __name__ == "__main__":
    signal.signal(signal.SIGTERM, signal.default_int_handler)
    sys.exit(main())
