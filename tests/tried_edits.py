#!/usr/bin/env python3
"""Whether the edits of each crate were tried on the crate as it stands: compares the sum that bench/wrong-bodies --changed left in
crates/NAME/wrong-bodies/tried with the sum of the files as they are. It proves nothing and takes a second. A crate that changed since its
edits were tried fails; so does one without a record, unless tests/untried names it: the crates whose edits were never all tried since there
are records. That list may only get shorter: a crate that it names and that has a record fails too. It prints each crate whose edits are to be
tried, and ends with how many crates passed. Usage: tests/tried_edits.py [NAME..]"""
import glob, hashlib, os, sys

TOP = os.path.dirname(os.path.dirname(os.path.abspath(__file__)))
PARTS = ("src", "specs", "proofs")


def crates():
    """The crates that have edits."""
    found = {it.split(os.sep)[-3] for it in glob.glob(f"{TOP}/crates/*/*/*.edit") if it.split(os.sep)[-2] in ("must-fail", "wrong-bodies")}
    return sorted(found)


def edits_of(crate):
    """The edits of a crate, by name, whether the gate tries them or not."""
    found = [it for part in ("must-fail", "wrong-bodies") for it in glob.glob(f"{TOP}/crates/{crate}/{part}/*.edit")]
    return sorted(found, key=os.path.basename)


def files_of(crate):
    """What the refusals of a crate's edits stand on, by relative name; an edit may move between its two folders."""
    folder = f"{TOP}/crates/{crate}"
    found = {os.path.relpath(it, folder): it for part in PARTS for it in glob.glob(f"{folder}/{part}/**", recursive=True) if os.path.isfile(it)}
    found.update({f"edits/{os.path.basename(it)}": it for it in edits_of(crate)})
    return found


def sum_of(crate):
    """The sum over the names and bytes of those files."""
    made = hashlib.sha256()
    for name, path in sorted(files_of(crate).items()):
        with open(path, "rb") as file:
            text = file.read()
        made.update(f"{name} {len(text)}\n".encode() + text)
    return made.hexdigest()


def record_of(crate):
    """The file that tells what was tried."""
    return f"{TOP}/crates/{crate}/wrong-bodies/tried"


def last_sum(crate):
    """The sum at which all edits of a crate were tried and refused last; None where they never were."""
    try:
        with open(record_of(crate), encoding="utf-8") as file:
            words = file.readline().split()
    except FileNotFoundError:
        return None
    return words[1] if len(words) == 2 and words[0] == "sum" else None


def write_record(crate, date):
    """Notes that all edits of a crate, as it stands, were tried and refused."""
    count = len(edits_of(crate))
    os.makedirs(os.path.dirname(record_of(crate)), exist_ok=True)
    with open(record_of(crate), "w", encoding="utf-8") as file:
        file.write(f"sum {sum_of(crate)}\ndate {date}\ntried {count}, refused {count}\n")


def untried():
    """The crates whose edits were never all tried since there are records."""
    try:
        with open(f"{TOP}/tests/untried", encoding="utf-8") as file:
            return file.read().split()
    except FileNotFoundError:
        return []


def fault_of(crate, may_lack):
    """Why a crate fails, or None."""
    last = last_sum(crate)
    if last is None:
        return None if may_lack else "no record that its edits were tried"
    if may_lack:
        return "tests/untried names it, and its edits were tried"
    return None if last == sum_of(crate) else "it changed since its edits were tried"


def main(names):
    passed, failed, lacking = 0, 0, untried()
    for crate in names or crates():
        fault = fault_of(crate, crate in lacking)
        if fault:
            failed += 1
            print(f"{crate}: {fault}: bench/wrong-bodies --changed {crate}")
        elif crate not in lacking:
            passed += 1
    if lacking:
        print(f"not tried yet: {' '.join(lacking)}")
    print(f"{passed} passed, {failed} failed")
    return 1 if failed else 0


if __name__ == "__main__":
    sys.exit(main(sys.argv[1:]))
