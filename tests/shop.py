"""What the tests of stores share: a server over a store with a keyed API, what it has acknowledged, and what is there behind a restart."""
import contextlib, re, shutil, sqlite3, tempfile

from failing_calls import FailingCalls, lacks
from harness import DONE, Client, Server, Wrong, expect, json_answer, own_answer, request

DOCUMENT = (
    b'{"version":1,"resources":{"/k":{"GET":{"apiKeyRequired":true,"integration":{"type":"MOCK","templates":{"application/json":"{\\"statusCode\\":200}"},'
    b'"responses":[{"status":200,"templates":{"application/json":"$context.identity.apiKeyId"}}]}}}}}'
)


def field(text):
    """A field of a script."""
    return b"".join(b"%c" % byte if 33 <= byte <= 126 and byte != 37 else b"%%%02X" % byte for byte in text) or b"~"


# A keyed API with its stage, and a key that joined a plan of many calls.
LINES = [
    b"api 0 shop " + field(DOCUMENT),
    b"deploy 0 shop",
    b"stage 0 shop v1 1",
    b"key 0 ann secret-of-ann on",
    b"plan 0 basic - 1000000000:0:MONTH shop/v1",
    b"join 0 basic ann",
]
MADE = b"done\ndeployed 1\ndone\ndone\ndone\ndone\n"
KEYED = b"GET /shop/v1/k HTTP/1.1\r\nhost: localhost\r\nx-api-key: secret-of-ann\r\n\r\n"
ADMITTED = b"HTTP/1.1 200 OK\r\ncontent-type: application/json\r\ncontent-length: 3\r\n\r\nann"
LOST = own_answer(b"500 Internal Server Error", b"STORE_FAILURE", b"Store unavailable")
DEPLOY = request(b"POST", b"/_admin/apis/shop/deployments")
REFUSED = json_answer(b"500 Internal Server Error", b'{"reply":"store"}')
USAGE = request(b"GET", b"/_admin/plans/basic/keys/ann/usage")


class Skipped(Exception):
    """Something that a test needs is not there."""


def one_of(what, client, *answers):
    """Which of these answers comes."""
    got = b""
    for answer in sorted(answers, key=len):
        got += client.read(len(answer) - len(got))
        if got == answer:
            return answer
    raise Wrong(f"{what} was answered {got[:300]}")


class Shop:
    """A server over a store with the keyed API, and what it has acknowledged: calls of the key, and deployments."""

    def __init__(self, program, room, lanes, before):
        self.server = Server(program, room, lanes=lanes, before=before)
        self.path = f"{room}/{self.server.store}"
        self.used, self.deployed = 0, 1
        expect("the first lines", self.run_lines(*LINES), (0, MADE))
        self.server.start()

    def run_lines(self, *lines):
        """Runs `admin` over the store."""
        return self.server.run("admin", self.server.store, lines=b"".join(line + b"\n" for line in lines))

    def call(self):
        """A call of the key: whether it is admitted. Otherwise its count could not be stored."""
        with Client(self.server.port) as client:
            client.send(KEYED)
            admitted = one_of("a keyed call", client, ADMITTED, LOST) == ADMITTED
        self.used += admitted
        return admitted

    def deploy(self):
        """A command: whether it is carried out. Otherwise it could not be stored."""
        done = json_answer(b"200 OK", b'{"reply":"deployed %d"}' % (self.deployed + 1))
        with Client(self.server.port) as client:
            client.send(DEPLOY)
            carried_out = one_of("a deployment", client, done, REFUSED) == done
        self.deployed += carried_out
        return carried_out

    def put_key(self):
        """Another command, which must be carried out."""
        with Client(self.server.port) as client:
            client.calls("another key", request(b"PUT", b"/_admin/keys/bob", b"secret-of-bob on"), DONE)

    def goes_on(self, why):
        """Calls and commands are answered as always."""
        for change in (self.call, self.deploy, self.call):
            if not change():
                raise Wrong(f"{why}: the next {change.__name__} is refused")

    def kill(self):
        self.server.end()

    def shut_down(self):
        with Client(self.server.port) as client:
            client.send(request(b"POST", b"/_admin/shutdown"))
            client.has_last("the shutdown", json_answer(b"200 OK", b'{"reply":"done"}', closes=True))
        expect("the status", self.server.ends_by_itself()[0], 0)

    def tables(self):
        """What sqlite3 finds in a copy of the store: the use of the key, and the deployments."""
        with tempfile.TemporaryDirectory() as room:
            for end in ("", "-wal"):
                with contextlib.suppress(FileNotFoundError):
                    shutil.copyfile(self.path + end, f"{room}/copy{end}")
            with contextlib.closing(sqlite3.connect(f"{room}/copy")) as store:
                expect("the integrity", store.execute("PRAGMA integrity_check").fetchall(), [("ok",)])
                used = store.execute("SELECT used FROM joins").fetchall()
                deployments = store.execute("SELECT number FROM deployments ORDER BY 1").fetchall()
        return used[0][0], [number for number, in deployments]

    def usage(self):
        """What the server says of the use of the key."""
        with Client(self.server.port) as client:
            client.send(USAGE.replace(b"\r\n\r\n", b"\r\nconnection: close\r\n\r\n"))
            said = client.read(4096)
        found = re.search(rb"used=(\d+)", said)
        if not found:
            raise Wrong(f"the usage is {said}")
        return int(found.group(1))

    def has_kept(self, why, more=0):
        """Behind a restart there is what was acknowledged, by sqlite3 and by the program, and at most so many further changes."""
        used, deployments = self.tables()
        self.server.start()
        expect(f"{why}: the usage by the program and by sqlite3", self.usage(), used)
        expect(f"{why}: the numbers of the deployments", deployments, list(range(1, len(deployments) + 1)))
        further = used - self.used, len(deployments) - self.deployed
        if min(further) < 0 or sum(further) > more:
            raise Wrong(f"{why}: {used} calls and {len(deployments)} deployments are stored; acknowledged are {self.used} and {self.deployed}")
        self.used, self.deployed = used, len(deployments)

    def restarts(self, why, more=0):
        self.kill()
        self.has_kept(f"{why}, killed", more)


@contextlib.contextmanager
def a_shop(program, room=None, lanes=1, before=()):
    with contextlib.ExitStack() as ends:
        shop = Shop(program, room or ends.enter_context(tempfile.TemporaryDirectory()), lanes, before)
        try:
            yield shop
        finally:
            shop.kill()


@contextlib.contextmanager
def a_failing_shop(program):
    """A shop, with the means to make its calls fail."""
    if why := lacks():
        raise Skipped(why)
    calls = FailingCalls()
    with a_shop(program, before=calls.words) as shop:
        yield shop, calls
