#!/usr/bin/env python3
"""Tests of a store whose disk fails or is full, and of programs that are killed: starts the built program over stores of its own, makes
chosen system calls of it fail (tests/failing_calls.py), and compares what was answered with what is there behind a restart, by the
program and by Python's sqlite3.

Usage: tests/faults.py [PROGRAM [NAME ..]]; the program is built by `rt run` in crates/gateway. With names, only these tests run.

Prints `ok NAME`, `skipped NAME: why` or `FAILED NAME: why` for each test, and last `N passed, N failed`. Its status is 0 only where none
failed. Each wait has a limit of its own. What is expected is said by docs/STORE.md and docs/PLANS.md. A test is skipped where the kernel or
the rights that it needs are missing."""
import contextlib, errno, os, random, resource, shutil, signal, sqlite3, subprocess, sys, tempfile, threading, time

import kept_stores
from failing_calls import OPENINGS, READS, SYNCS, WRITES, FailingCalls, lacks
from harness import CALL, TOP, WAIT, Client, Server, Wrong, expect, no_stage
from shop import ADMITTED, DEPLOY, KEYED, Skipped, a_failing_shop, a_shop

KILLS, CLIENTS, LANES = 50, 8, 4
MOST_CALLS = 12  # system calls of one name in one change, at most


def costs_its_change_alone(program, names, change_of, error=errno.EIO):
    """Each of the calls of these names in a change fails once, in the first change of a start and in a later one, which makes fewer. The
    change that meets the fault is refused, the next ones are carried out, and behind a kill there is what was acknowledged and nothing else."""
    with a_failing_shop(program) as (shop, calls):
        for is_first in (True, False):
            for first in range(1, MOST_CALLS + 1):
                if not is_first:
                    shop.goes_on("before the fault")
                calls.fail(names, first, error=error)
                kept = change_of(shop)()
                failed = calls.pass_all()
                why = f"behind call {first} of {'/'.join(names)} ({', '.join(failed)}) in a {'first' if is_first else 'later'} change"
                if not failed:
                    if not kept:
                        raise Wrong(f"with {first - 1} calls, none of which failed, a change is refused")
                    if first == 1:
                        raise Wrong(f"a change makes no call of {'/'.join(names)}")
                    break
                if kept:
                    raise Wrong(f"{why} a change is acknowledged")
                shop.goes_on(why)
                shop.restarts(why)
            shop.restarts("behind a change without a fault")
        shop.goes_on("at the end")
        shop.shut_down()
        shop.has_kept("shut down")


# The tests.


def a_failed_sync_costs_the_call_that_met_it(program):
    costs_its_change_alone(program, SYNCS, lambda shop: shop.call)


def a_failed_sync_costs_the_command_that_met_it(program):
    costs_its_change_alone(program, SYNCS, lambda shop: shop.deploy)


def a_failed_write_costs_the_call_that_met_it(program):
    costs_its_change_alone(program, WRITES, lambda shop: shop.call)


def a_failed_write_costs_the_command_that_met_it(program):
    costs_its_change_alone(program, WRITES, lambda shop: shop.deploy)


def a_write_without_room_costs_the_call_that_met_it(program):
    costs_its_change_alone(program, WRITES, lambda shop: shop.call, errno.ENOSPC)


def a_stop_behind_a_failed_sync_leaves_at_most_the_refused_change(program):
    """The program is killed directly behind the refusal, or shut down. The first change of a start makes two syncs, a later one makes one."""
    with a_failing_shop(program) as (shop, calls):
        for change in (shop.call, shop.deploy):
            for is_first, sync in ((True, 1), (True, 2), (False, 1)):
                for stop in (shop.kill, shop.shut_down):
                    if not is_first:
                        shop.goes_on("before the fault")
                    calls.fail(SYNCS, sync)
                    why = f"behind sync {sync} of a {change.__name__}, {stop.__name__}"
                    expect(f"{why}: whether it is acknowledged", change(), False)
                    expect(f"{why}: how many syncs failed", len(calls.pass_all()), 1)
                    stop()
                    shop.has_kept(why, more=1)


def a_refused_change_is_undone_before_another_is_stored(program):
    """Behind the refusal there is one change of another row; then the program is killed."""
    with a_failing_shop(program) as (shop, calls):
        for change in (shop.call, shop.deploy):
            for is_first, sync in ((True, 1), (True, 2), (False, 1)):
                if not is_first:
                    shop.goes_on("before the fault")
                calls.fail(SYNCS, sync)
                why = f"behind sync {sync} of a {change.__name__}"
                expect(f"{why}: whether it is acknowledged", change(), False)
                calls.pass_all()
                shop.put_key()
                shop.restarts(why)


def syncs_that_fail_for_a_while_cost_the_changes_that_met_them(program):
    with a_failing_shop(program) as (shop, calls):
        for round in range(3):
            calls.fail(SYNCS, count=10**9)
            for change in (shop.call, shop.deploy, shop.call, shop.call):
                expect(f"round {round}: whether a {change.__name__} is acknowledged", change(), False)
            calls.pass_all()
            shop.goes_on(f"round {round}")
        shop.restarts("behind syncs that failed for a while")


def a_file_that_cannot_be_opened_is_tried_again(program):
    """Behind a failed sync, no opening of the file succeeds for three changes."""
    with a_failing_shop(program) as (shop, calls):
        for round in range(2):
            calls.fail(SYNCS)
            expect("whether a call is acknowledged", shop.call(), False)
            calls.fail(OPENINGS, count=10**9, file=shop.server.store)
            for change in (shop.call, shop.deploy, shop.call):
                expect(f"whether a {change.__name__} is acknowledged", change(), False)
            calls.pass_all()
            shop.goes_on(f"round {round}")
        shop.restarts("behind openings that failed")


def syncs_of(program, calls, lines):
    """How many syncs `admin` makes with these lines over a new store."""
    with tempfile.TemporaryDirectory() as room:
        calls.fail(SYNCS, first=10**9)
        expect("a run without a fault", Server(program, room, before=calls.words).run("admin", "some.store", lines=lines), (0, b"done\n" * lines.count(b"\n")))
        calls.pass_all()
        return calls.counted


def a_store_that_was_moved_is_missed_behind_a_failed_sync_until_it_is_back(program):
    with a_failing_shop(program) as (shop, calls):
        shop.goes_on("at first")
        for end in ("", "-wal"):
            os.rename(shop.path + end, f"{shop.path}.moved{end}")
        shop.goes_on("moved")
        calls.fail(SYNCS)
        expect("whether a call is acknowledged", shop.call(), False)
        calls.pass_all()
        for change in (shop.call, shop.deploy, shop.call):
            expect(f"whether a {change.__name__} is acknowledged", change(), False)
        for end in ("", "-wal"):
            os.replace(f"{shop.path}.moved{end}", shop.path + end)
        shop.goes_on("moved back")
        shop.restarts("moved back")


def a_line_whose_sync_fails_is_answered_store(program):
    """Of ten lines of `admin` one meets the fault. The others are carried out, and the next run finds these alone. A refused change may be
    there only where no change was acknowledged behind it."""
    if why := lacks():
        raise Skipped(why)
    calls = FailingCalls()
    lines = b"".join(b"text 0 t%d T\n" % number for number in range(10))
    one, all_ten = syncs_of(program, calls, lines[: lines.index(b"\n") + 1]), syncs_of(program, calls, lines)
    each = (all_ten - one) // 9
    for first in {one - each, one, one + 1, one + 5 * each, one + 5 * each + 1, *range(all_ten - 2 * each - 4, all_ten + 1)}:
        with tempfile.TemporaryDirectory() as room:
            server = Server(program, room, before=calls.words)
            calls.fail(SYNCS, first)
            status, said = server.run("admin", "orders.store", lines=lines)
            why = f"behind a fault of sync {first} of {all_ten} ({', '.join(calls.pass_all())})"
            if (status, said) == (3, b"fault keeper\n"):
                continue
            said = said.split(b"\n")[:-1]
            if status != 0 or len(said) != 10 or said.count(b"done") < 9 or said.count(b"done") + said.count(b"store") != 10:
                raise Wrong(f"{why}: {status} and {said}")
            expect(f"{why}: the next run", server.run("admin", "orders.store"), (0, b""))
            with contextlib.closing(sqlite3.connect(f"{room}/orders.store")) as store:
                found = [name for name, in store.execute("SELECT api FROM apis ORDER BY 1")]
            wanted = [f"t{number}" for number in range(10) if said[number] == b"done"]
            if found != wanted and not (said[9] == b"store" and found == wanted + ["t9"]):
                raise Wrong(f"{why}: {said}, and then the APIs {found}")


def a_start_that_meets_a_fault_changes_nothing(program):
    """Each of the first reads, syncs and writes of a start fails: the program says so, or runs; the next start finds every row."""
    with a_failing_shop(program) as (shop, calls):
        for round in range(20):
            expect("a call", shop.call(), True)
        shop.kill()
        for names in (READS, SYNCS, WRITES):
            for first in (1, 2, 3, 4, 6, 9):
                calls.fail(names, first, file=shop.server.store)
                status, said = shop.run_lines()
                failed = calls.pass_all()
                if (status, said) not in ((0, b""), (3, b"fault keeper\n")) or not failed and status != 0:
                    raise Wrong(f"with {failed}: {status} and {said}")
        shop.has_kept("behind starts that failed")
        shop.goes_on("behind starts that failed")


def fills_up(shop, limit, free):
    """Changes are made until one is refused; the next are refused, too. Once there is room, all is as always."""
    limit()
    for _ in range(20_000):
        if not (shop.call() if shop.used % 8 else shop.call() and shop.deploy()):
            break
    else:
        raise Wrong("twenty thousand changes found room")
    if all(change() for change in (shop.call, shop.deploy, shop.call)):
        raise Wrong("none of three further changes is refused")
    free()
    shop.goes_on("once there is room")
    shop.restarts("behind a disk that was full")
    shop.goes_on("behind the restart")


def a_full_disk_costs_the_changes_that_met_it(program):
    """On a file system of its own, in memory, which another file fills."""
    if os.geteuid() != 0 or not shutil.which("mount"):
        raise Skipped("only root can mount a small file system")

    def limit():
        with open(f"{room}/ballast", "wb", buffering=0) as file, contextlib.suppress(OSError):
            while file.write(b"x" * 4096):
                pass
        os.truncate(f"{room}/ballast", os.path.getsize(f"{room}/ballast") - 65536)

    with tempfile.TemporaryDirectory() as room:
        mounted = subprocess.run(["mount", "-t", "tmpfs", "-o", "size=4m", "tmpfs", room], capture_output=True)
        if mounted.returncode != 0:
            raise Skipped(f"a small file system cannot be mounted: {mounted.stderr.decode().strip()}")
        try:
            with a_shop(program, room) as shop:
                fills_up(shop, limit, lambda: os.remove(f"{room}/ballast"))
        finally:
            subprocess.run(["umount", "-l", room], capture_output=True)


# Python ignores the signal of a file that may not grow, and a program that it becomes does so, too.
IGNORING = [sys.executable, "-c", "import os, sys; os.execv(sys.argv[1], sys.argv[1:])"]


def may_grow(shop, more):
    """Sets the limit of the program for the size of a file."""
    size = max(os.path.getsize(shop.path), os.path.getsize(shop.path + "-wal"))
    resource.prlimit(shop.server.process.pid, resource.RLIMIT_FSIZE, (size + more if more else resource.RLIM_INFINITY, resource.RLIM_INFINITY))


def a_file_that_may_not_grow_costs_the_changes_that_met_it(program):
    with a_shop(program, before=IGNORING) as shop:
        fills_up(shop, lambda: may_grow(shop, 10_000), lambda: may_grow(shop, 0))


def a_program_that_the_system_ends_at_the_limit_has_counted_what_it_admitted(program):
    """Where the signal of that limit is not ignored, it ends the program."""
    with a_shop(program) as shop:
        may_grow(shop, 10_000)
        with contextlib.suppress(Wrong, OSError):
            while shop.used < 20_000:
                shop.call()
        expect("the status", shop.server.process.wait(WAIT), -signal.SIGXFSZ)
        shop.kill()
        shop.has_kept("behind the signal", more=1)


class Caller(threading.Thread):
    """A client that calls with the key, one call behind the other, until its connection ends."""

    def __init__(self, port):
        super().__init__(daemon=True)
        self.port, self.admitted, self.in_flight, self.fault = port, 0, 0, None

    def run(self):
        try:
            with Client(self.port) as client:
                while True:
                    self.in_flight = 1
                    client.send(KEYED)
                    answer = client.read(len(ADMITTED))
                    if len(answer) < len(ADMITTED):
                        return
                    if answer != ADMITTED:
                        self.fault = f"a keyed call was answered {answer}"
                        return
                    self.admitted, self.in_flight = self.admitted + 1, 0
                    if self.admitted % 900 == 0:  # a connection has a thousand answers
                        client.socket.close()
                        client.__init__(self.port)
        except OSError:
            pass
        except Wrong as fault:
            self.fault = str(fault)


def killed_under_load(shop, seconds):
    """Eight clients call until the program is killed. How many calls were in flight."""
    callers = [Caller(shop.server.port) for _ in range(CLIENTS)]
    for caller in callers:
        caller.start()
    time.sleep(seconds)
    shop.kill()
    for caller in callers:
        caller.join(WAIT)
        if caller.is_alive() or caller.fault:
            raise Wrong(caller.fault or "a client was not done")
        shop.used += caller.admitted
    return sum(caller.in_flight for caller in callers)


def a_program_that_is_killed_has_counted_what_it_admitted(program):
    """Fifty times at random moments under the calls of eight clients: at least the acknowledged calls are counted, and at most those in
    flight beside them. The next program continues over the same file."""
    with a_shop(program, lanes=LANES) as shop:
        for number in range(KILLS):
            seconds = 0.2 * random.random()
            in_flight = killed_under_load(shop, seconds)
            shop.has_kept(f"kill {number}, after {seconds:.3f} seconds", more=in_flight)
        if shop.used < KILLS:
            raise Wrong(f"in {KILLS} runs only {shop.used} calls were admitted")


def a_program_that_is_killed_inside_a_change_keeps_it_whole_or_not(program):
    """It is killed before each of the writes and syncs of a call and of a command."""
    with a_failing_shop(program) as (shop, calls):
        for change, stored in ((KEYED, 0), (DEPLOY, 1)):
            for first in range(1, MOST_CALLS + 1):
                calls.kill(WRITES + SYNCS, first)
                with Client(shop.server.port) as client, contextlib.suppress(OSError):
                    client.send(change)
                    answer = client.read(1)
                failed = calls.pass_all()
                if not failed:
                    if first < 4:
                        raise Wrong(f"only {first - 1} writes and syncs")
                    shop.used, shop.deployed = shop.used + 1 - stored, shop.deployed + stored
                    break
                expect(f"the answer before {failed}", answer, b"")
                shop.restarts(f"killed before {failed}", more=1)
        shop.goes_on("at the end")
        shop.restarts("at the end")


SESSION = 1_048_576  # entries, two a call


def a_session_begins_behind_a_fault_and_a_full_one(program):
    """A sync fails once; then calls fill the session. The next one begins over the same store."""
    with a_failing_shop(program) as (shop, calls):
        calls.fail(SYNCS)
        expect("whether a call is acknowledged", shop.call(), False)
        calls.pass_all()
        shop.call()
        answer, full = no_stage(), 0
        for _ in range(SESSION // 2000 + 2):
            with contextlib.suppress(OSError), Client(shop.server.port) as client:
                client.send(CALL * 999)
                full += client.read(999 * len(answer)) != answer * 999
        with contextlib.suppress(subprocess.TimeoutExpired):
            raise Wrong(f"the program ended with {shop.server.process.wait(0.5)}")
        if not full:
            raise Wrong("no session was full")
        shop.goes_on("in the next session")
        shop.restarts("behind two sessions")


TESTS = [
    a_failed_sync_costs_the_call_that_met_it,
    a_failed_sync_costs_the_command_that_met_it,
    a_failed_write_costs_the_call_that_met_it,
    a_failed_write_costs_the_command_that_met_it,
    a_write_without_room_costs_the_call_that_met_it,
    a_stop_behind_a_failed_sync_leaves_at_most_the_refused_change,
    a_refused_change_is_undone_before_another_is_stored,
    syncs_that_fail_for_a_while_cost_the_changes_that_met_them,
    a_file_that_cannot_be_opened_is_tried_again,
    a_store_that_was_moved_is_missed_behind_a_failed_sync_until_it_is_back,
    a_line_whose_sync_fails_is_answered_store,
    a_start_that_meets_a_fault_changes_nothing,
    a_full_disk_costs_the_changes_that_met_it,
    a_file_that_may_not_grow_costs_the_changes_that_met_it,
    a_program_that_the_system_ends_at_the_limit_has_counted_what_it_admitted,
    a_session_begins_behind_a_fault_and_a_full_one,
    a_program_that_is_killed_inside_a_change_keeps_it_whole_or_not,
    a_program_that_is_killed_has_counted_what_it_admitted,
]


def main():
    program = os.path.abspath(sys.argv[1] if len(sys.argv) > 1 else f"{TOP}/crates/gateway/out/gateway")
    passed = failed = 0
    for test in TESTS + kept_stores.TESTS:
        if len(sys.argv) > 2 and test.__name__ not in sys.argv[2:]:
            continue
        try:
            test(program)
        except Skipped as why:
            print(f"skipped {test.__name__}: {why}", flush=True)
        except Exception as fault:
            print(f"FAILED {test.__name__}: {type(fault).__name__}: {fault}", flush=True)
            failed += 1
        else:
            print(f"ok {test.__name__}", flush=True)
            passed += 1
    print(f"{passed} passed, {failed} failed")
    return 1 if failed else 0


if __name__ == "__main__":
    signal.signal(signal.SIGTERM, signal.default_int_handler)
    sys.exit(main())
