"""Tests of what is in a store: each column that is overwritten; stores that are moved, replaced or copied while they are served, or opened with
another log; and the repair of a moment in the far future. `tests/faults.py` runs them."""
import contextlib, os, re, shutil, sqlite3, tempfile, time

from harness import DONE, TOP, WAIT, Client, Server, Wrong, expect, own_answer, request, text_answer
from shop import DOCUMENT, KEYED, a_shop, field

# Each column that a command can write is written twice.
FIRST = [
    b"text 1000 greet Hi",
    b"deploy 1000 greet",
    b"stage 1000 greet v1 1 a=1",
    b"key 1000 bob secret-of-bob on",
    b"plan 1000 basic 10:20 1000:10:MONTH shop/v1",
    b"plan 1000 other 1:2 3:1:DAY greet/v1",
    b"join 1000 other bob",
    b"grant 1000 other bob 5",
    b"grant 1000 basic ann 7",
]
SECOND = [
    b"api 0 greet " + field(DOCUMENT),
    b"deploy 0 greet",
    b"stage 0 greet v1 2 b=x%20y c=%25",
    b"canary 0 greet v1 1 2500 d=4",
    b"key 0 ann other-of-ann off",
    b"key 0 bob other-of-bob off",
    b"plan 0 other 7:8 9:4:WEEK shop/v1 greet/v1",
    b"grant 0 other bob 6",
]
# What sqlite3 then makes of the rows.
BY_HAND = """
UPDATE apis SET text = 1, source = 'Ho' WHERE api = 'shop';
UPDATE deployments SET text = 1, source = 'You, $stageVariables.a' WHERE api = 'greet' AND number = 1;
UPDATE stages SET deployment = 1, vars = 'a=Ann', canary = 0, share = 0, canary_vars = '' WHERE api = 'greet';
UPDATE apis SET api = 'hail' WHERE api = 'greet';
UPDATE deployments SET api = 'hail' WHERE api = 'greet';
UPDATE stages SET api = 'hail', stage = 'v2' WHERE api = 'greet';
UPDATE keys SET value = 'third-of-ann', enabled = 1 WHERE key = 'ann';
UPDATE keys SET key = 'zoe' WHERE key = 'bob';
UPDATE plans SET rate = 3, burst = 4, tversion = 5, qlimit = 60, qoffset = 7, qkind = 1, stages = 'shop/v1' WHERE plan = 'basic';
UPDATE plans SET plan = 'third', stages = 'hail/v2' WHERE plan = 'other';
UPDATE joins SET level = 2500, tversion = 5, pkind = 1, pnumber = at / 86400000, allowance = 77, used = 70, first = 1 WHERE plan = 'basic';
UPDATE joins SET plan = 'third', key = 'zoe' WHERE plan = 'other';
"""
THIRD = [b"usage 0 basic ann", b"grant 0 basic ann 3", b"deploy 0 shop", b"deploy 0 hail", b"grant 0 third zoe 1"]


def rows_of(path):
    """Each table of a store that no program has open, by sqlite3."""
    with contextlib.closing(sqlite3.connect(path)) as store:
        expect("the integrity", store.execute("PRAGMA integrity_check").fetchall(), [("ok",)])
        tables = [name for name, in store.execute("SELECT name FROM sqlite_schema WHERE type = 'table' ORDER BY 1")]
        return {table: store.execute(f"SELECT * FROM {table} ORDER BY 1, 2").fetchall() for table in tables}


def has_rows(shop, why, **wanted):
    rows = rows_of(shop.path)
    expect(f"{why}: the tables", sorted(rows), sorted(wanted))
    for table in wanted:
        expect(f"{why}: {table}", rows[table], wanted[table])


def a_column_that_is_overwritten_is_there_again(program):
    """Every column of every table: by lines of `admin`, by a call, and by sqlite3; behind each, the program and sqlite3 find the same."""
    document = DOCUMENT.decode()
    with a_shop(program) as shop:
        shop.shut_down()
        expect("the first lines", shop.run_lines(*FIRST), (0, b"done\ndeployed 1\n" + b"done\n" * 7))
        meta, shop_row = [(0, 1)], ("shop", 1, 0, document)
        apis, deployments = [("greet", 1, "Hi"), ("shop", 0, document)], [("greet", 1, 1, "Hi"), shop_row]
        stages = [("greet", "v1", 1, "a=1", 0, 0, ""), ("shop", "v1", 1, "", 0, 0, "")]
        keys = [("ann", "secret-of-ann", 1), ("bob", "secret-of-bob", 1)]
        plans = [("basic", 10, 20, 1, 1000, 10, 3, "shop/v1"), ("other", 1, 2, 0, 3, 1, 1, "greet/v1")]
        joins = [("basic", "ann", 20_000, 1000, 1, 3, 0, 997, 0, 1), ("other", "bob", 2000, 1000, 0, 1, 0, 7, 0, 1)]
        has_rows(shop, "behind the first lines", meta=meta, apis=apis, deployments=deployments, stages=stages, keys=keys, plans=plans, joins=joins)

        begun = int(time.time() * 1000)
        shop.server.start()
        expect("whether a call is admitted", shop.call(), True)
        shop.shut_down()
        at = rows_of(shop.path)["joins"][0][3]
        if not begun <= at <= time.time() * 1000:
            raise Wrong(f"the moment of the call is {at}")
        moment = time.gmtime(at // 1000)
        joins[0] = ("basic", "ann", 19_000, at, 1, 3, 12 * (moment.tm_year - 1970) + moment.tm_mon - 1, 1000, 1, 0)
        has_rows(shop, "behind a call", meta=meta, apis=apis, deployments=deployments, stages=stages, keys=keys, plans=plans, joins=joins)

        expect("the second lines", shop.run_lines(*SECOND), (0, b"done\ndeployed 2\n" + b"done\n" * 6))
        apis[0], stages[0] = ("greet", 0, document), ("greet", "v1", 2, "b=x%20y c=%25", 1, 2500, "d=4")
        deployments.insert(1, ("greet", 2, 0, document))
        keys = [("ann", "other-of-ann", 0), ("bob", "other-of-bob", 0)]
        plans[1] = ("other", 7, 8, 1, 9, 4, 2, "shop/v1 greet/v1")
        joins[1] = ("other", "bob", 8000, at, 1, 2, (at // 86_400_000 + 3) // 7, 15, 0, 0)
        has_rows(shop, "behind the second lines", meta=meta, apis=apis, deployments=deployments, stages=stages, keys=keys, plans=plans, joins=joins)

        with contextlib.closing(sqlite3.connect(shop.path)) as store:
            store.executescript(BY_HAND)
        day = at // 86_400_000
        said = b"usage period=DAY:%d allowance=77 used=70 remaining=7\ndone\ndeployed 2\ndeployed 3\ndone\n" % day
        expect("the third lines", shop.run_lines(*THIRD), (0, said))
        apis = [("hail", 0, document), ("shop", 1, "Ho")]
        deployments = [("hail", 1, 1, "You, $stageVariables.a"), ("hail", 2, 0, document), ("hail", 3, 0, document), shop_row, ("shop", 2, 1, "Ho")]
        stages[0] = ("hail", "v2", 1, "a=Ann", 0, 0, "")
        keys = [("ann", "third-of-ann", 1), ("zoe", "other-of-bob", 0)]
        plans = [("basic", 3, 4, 5, 60, 7, 1, "shop/v1"), ("third", 7, 8, 1, 9, 4, 2, "hail/v2")]
        joins[0] = ("basic", "ann", 2500, at, 5, 1, day, 80, 70, 1)
        joins[1] = ("third", "zoe", 8000, at, 1, 2, (day + 3) // 7, 16, 0, 0)
        has_rows(shop, "behind sqlite3", meta=meta, apis=apis, deployments=deployments, stages=stages, keys=keys, plans=plans, joins=joins)
        shop.server.start()
        with Client(shop.server.port) as client:
            client.calls("a call", request(b"GET", b"/hail/v2"), text_answer(b"You, Ann"))


def a_new_store_has_the_schema_of_the_theorem(program):
    """The theorem that a written row is read back (crates/kept_rows) is over the schema of a new store: its texts, and the order in which its tables and
    their indexes are made."""
    with open(f"{TOP}/crates/kept_rows/specs/Store.antt", encoding="utf-8") as file:
        spec = file.read()
    texts = re.findall(r'^table_text \w+ = codes "(.*)"$', spec, re.MULTILINE)
    trees = re.findall(r'^table_in \w+ = table \(codes "(\w+)"\) (\d+) ', spec, re.MULTILINE) + re.findall(r'index \(codes "(\w+)"\) (\d+) ', spec)
    with a_shop(program) as shop:
        shop.shut_down()
        with contextlib.closing(sqlite3.connect(shop.path)) as store:
            found = store.execute("SELECT rowid, name, sql FROM sqlite_schema ORDER BY rowid").fetchall()
    expect("the texts of the tables", [re.sub(r"\( | (?=\))", lambda it: it[0].strip(), " ".join(sql.split())) for _, _, sql in found if sql], texts)
    expect("the trees", [(name, number - 1) for number, name, _ in found], sorted(((name, int(tree)) for name, tree in trees), key=lambda it: it[1]))


# Stores that are moved, replaced or copied, as docs/STORE.md says.

USED = re.compile(rb"usage period=MONTH:\d+ allowance=\d+ used=(\d+) remaining=\d+\n")


def used_by_admin(shop, path):
    """The use of the key in the store at this path, or all that `admin` says."""
    status, said = shop.server.run("admin", path, lines=b"usage 0 basic ann\n")
    found = USED.fullmatch(said)
    return int(found.group(1)) if found else (status, said)


NO_STORE = (0, b"refused NoJoin\n")  # what an empty store answers
FAULT = (3, b"fault keeper\n")


def move(shop, name, *ends):
    """Moves the file, its log or both to another name."""
    for end in ends:
        os.rename(shop.path + end, f"{os.path.dirname(shop.path)}/{name}{end}")


def copy_store(shop, name, *ends):
    for end in ends:
        shutil.copyfile(shop.path + end, f"{os.path.dirname(shop.path)}/{name}{end}")


def a_store_that_is_moved_while_it_is_served_goes_with_its_program(program):
    with a_shop(program) as shop:
        shop.goes_on("at first")
        move(shop, "moved", "", "-wal")
        shop.goes_on("moved")
        expect("the moved store is open", used_by_admin(shop, "moved"), FAULT)
        expect("a program at the old path", used_by_admin(shop, shop.server.store), NO_STORE)
        shop.shut_down()
        expect("the moved store", used_by_admin(shop, "moved"), shop.used)
    with a_shop(program) as shop:
        shop.goes_on("at first")
        move(shop, "moved", "")
        shop.goes_on("moved without its log")
        shop.kill()
        expect("the moved file", used_by_admin(shop, "moved"), 0)
        expect("a program at the old path", used_by_admin(shop, shop.server.store), NO_STORE)
        expect("the log at the old path is emptied", os.path.getsize(shop.path + "-wal") < 100, True)
    with a_shop(program) as shop:
        move(shop, "moved", "")
        shop.goes_on("moved without its log")
        shop.shut_down()
        expect("the moved file, closed", used_by_admin(shop, "moved"), shop.used)


def a_store_that_is_removed_or_replaced_while_it_is_served_is_lost(program):
    """The program answers as always, and the next one does not find what it answered."""
    with a_shop(program) as shop:
        for end in ("", "-wal"):
            os.remove(shop.path + end)
        shop.goes_on("removed")
        shop.shut_down()
        expect("the next program", used_by_admin(shop, shop.server.store), NO_STORE)
    with a_shop(program) as shop:
        expect("another store", shop.server.run("admin", "other", lines=b"text 0 other T\n"), (0, b"done\n"))
        os.rename(f"{os.path.dirname(shop.path)}/other", shop.path)
        shop.goes_on("replaced")
        expect("the log is beside the other store", os.path.getsize(shop.path + "-wal") > 4096, True)
        shop.shut_down()
        expect("the next program", used_by_admin(shop, shop.server.store), NO_STORE)
        expect("the other store", shop.run_lines(b"deploy 0 other"), (0, b"deployed 1\n"))
    with a_shop(program) as shop:
        expect("another store", shop.server.run("admin", "other", lines=b"text 0 other T\n"), (0, b"done\n"))
        shutil.copyfile(f"{os.path.dirname(shop.path)}/other", shop.path)
        shop.goes_on("overwritten")
        shop.kill()
        expect("the next program", used_by_admin(shop, shop.server.store), FAULT)


def a_file_without_its_log_lacks_what_the_log_has(program):
    with a_shop(program) as shop:
        shop.goes_on("at first")
        copy_store(shop, "both", "", "-wal")
        copy_store(shop, "alone", "")
        expect("a copy of both", used_by_admin(shop, "both"), shop.used)
        expect("a copy of the file alone", used_by_admin(shop, "alone"), 0)
        shop.kill()
        os.remove(shop.path + "-wal")
        expect("a store whose log was removed", used_by_admin(shop, shop.server.store), 0)
    with tempfile.TemporaryDirectory() as room:
        server = Server(program, room)
        try:
            server.start()
            with Client(server.port) as client:
                client.calls("a change", request(b"PUT", b"/_admin/apis/hello/text", b"Hi"), DONE)
        finally:
            server.end()
        os.remove(f"{room}/{server.store}-wal")
        expect("a store that was never closed", server.run("admin", server.store, lines=b"deploy 0 hello\n"), (0, b"refused NoApi\n"))


def a_log_of_another_store_is_taken_where_it_contradicts_nothing(program):
    """A log of calls beside a store with the same tables, beside one with a further key, and beside one with another API."""
    with a_shop(program) as shop:
        shop.shut_down()
        for name in ("same", "more"):
            copy_store(shop, name, "")
        more = b"key 0 bob secret-of-bob on\njoin 0 basic bob\n"
        expect("a further key", shop.server.run("admin", "more", lines=more), (0, b"done\ndone\n"))
        expect("another API", shop.server.run("admin", "other", lines=b"text 0 other T\n"), (0, b"done\n"))
        shop.server.start()
        shop.call()
        shop.call()
        shop.kill()
        for name in ("same", "more"):
            shutil.copyfile(f"{shop.path}-wal", f"{os.path.dirname(shop.path)}/{name}-wal")
        expect("the same tables", used_by_admin(shop, "same"), 2)
        expect("a further key", used_by_admin(shop, "more"), FAULT)
        shop.has_kept("its own log")
        shop.shut_down()
        shop.server.start()
        shop.deploy()
        shop.kill()
        shutil.copyfile(f"{shop.path}-wal", f"{os.path.dirname(shop.path)}/other-wal")
        expect("another API", used_by_admin(shop, "other"), (1, b"refused BadStore(deployments,0)\n"))
        expect("what is no log", shop.server.run("admin", "same"), (0, b""))
        with open(f"{os.path.dirname(shop.path)}/same-wal", "wb") as log:
            log.write(b"no log" * 1000)
        expect("what is no log", used_by_admin(shop, "same"), 2)


def an_older_file_below_a_newer_log_is_taken_as_a_mixture(program):
    """What was copied into the newer file before is missing, and what the log has is there."""
    with a_shop(program) as shop:
        shop.shut_down()
        copy_store(shop, "older", "")
        expect("a further API", shop.run_lines(b"text 0 extra T"), (0, b"done\n"))
        shop.server.start()
        shop.call()
        shop.kill()
        os.replace(f"{os.path.dirname(shop.path)}/older", shop.path)
        expect("the log", used_by_admin(shop, shop.server.store), 1)
        expect("the file", shop.run_lines(b"deploy 0 extra"), (0, b"refused NoApi\n"))


def a_moment_of_the_far_future_is_repaired_by_the_line_of_the_pages(program):
    """A grant in microseconds stops the time of the store, also for another key; the line of docs/STORE.md and docs/PLANS.md repairs it."""
    lines = []
    for page in ("STORE", "PLANS"):
        with open(f"{TOP}/docs/{page}.md", encoding="utf-8") as file:
            lines += re.findall(r"^UPDATE joins .*;$", file.read(), re.M)
    expect("the lines of the pages", (len(lines), len(set(lines))), (2, 1))
    microseconds, usage = time.time_ns() // 1000, b"usage 0 basic bob"
    with a_shop(program) as shop:
        shop.shut_down()
        made = [b"key 0 bob secret-of-bob on", b"plan 0 basic 1:2 5:0:DAY shop/v1", b"join 0 basic bob", b"grant %d basic ann 3" % microseconds]
        expect("the lines", shop.run_lines(*made), (0, b"done\n" * 4))
        expect("the other key", shop.run_lines(usage), (0, b"usage period=DAY:47481 allowance=5 used=0 remaining=5\n"))
        shop.server.start()
        expect("two calls of its bucket", (shop.call(), shop.call()), (True, True))
        time.sleep(2)  # two more calls of its throttle
        with Client(shop.server.port) as client:
            client.calls("a call", KEYED, own_answer(b"429 Too Many Requests", b"THROTTLED", b"Too Many Requests"))
        shop.shut_down()
        with contextlib.closing(sqlite3.connect(shop.path)) as store:
            expect("the repaired rows", store.execute(lines[0]).rowcount, 1)
            store.commit()
        now = time.time()
        day = int(now // 86_400)
        shop.server.start()
        time.sleep(max(0, 2 - (time.time() - now)))
        expect("a call", shop.call(), True)
        shop.shut_down()
        rows = rows_of(shop.path)["joins"]
        if abs(rows[0][3] / 1000 - time.time()) > WAIT or rows[0][6] - day not in (0, 1) or rows[0][7:] != (5, 1, 0):
            raise Wrong(f"behind the repair: {rows}")


TESTS = [
    a_new_store_has_the_schema_of_the_theorem,
    a_column_that_is_overwritten_is_there_again,
    a_store_that_is_moved_while_it_is_served_goes_with_its_program,
    a_store_that_is_removed_or_replaced_while_it_is_served_is_lost,
    a_file_without_its_log_lacks_what_the_log_has,
    a_log_of_another_store_is_taken_where_it_contradicts_nothing,
    an_older_file_below_a_newer_log_is_taken_as_a_mixture,
    a_moment_of_the_far_future_is_repaired_by_the_line_of_the_pages,
]
