#!/usr/bin/env python3
"""Runs the cases under tests/cases over the built program, and tells each difference.

Usage: tests/cases.py [PROGRAM [PART]]; the program is built by `rt run` in crates/gateway. With PART only the files run whose path has it in it.
       tests/cases.py --field FILE; prints what the file holds as one field of a script.

The folder of a case tells its kind, and the end of its name the form; KINDS below has them all:

    play/NAME.script      with NAME.said: what `play` prints of the script
    play/NAME.table.jsonl     rows of {"name", "script", "said", "status"}
    check/NAME.json       with NAME.said: what `check` prints of the document
    check/NAME.table.jsonl    rows of {"name", "document", "said"}
    render/NAME.vtl       with NAME.body and NAME.said: what `render` prints
    render/NAME.table.jsonl   rows of {"name", "template", "body", "said", "status", "steps", "bytes"}
    admin/NAME.commands   with NAME.said: what `admin` prints over a new store; with NAME.dump, if there is one, the rows behind it: the INSERT lines of sqlite3's .dump, sorted
    words/NAME.table.jsonl    rows of {"name", "words", "files", "input", "said", "status"}: what any words of the command line print

A file NAME.status beside a script, a document, a template or commands holds the exit status that is wanted, where it is not 0. A row is one JSON object on
a line. `status` is 0 where a row lacks it; `files` has the contents of files by their names, which the words may give; other members may lack where they are
empty. A text of a row is a string, in UTF-8, or {"hex": "c3 28"}, or {"repeat": TEXT, "times": N}, or a list of texts, which are joined. `said` is all of the
standard output; in tables of `check`, and in rows of `render` whose status is not 0, it is one line without its line feed; in tables of `play`, `script` and
`said` may be lists of lines. `steps` is how many steps of its budget a render takes: it then prints `said` behind loops that leave it just so many, and `stop
Steps` behind those that leave one less. `bytes` is the same for the bytes of texts that it makes, 17 at least and 16,777,216 at most.

What is wanted comes from the standards and from docs/, never from the program. Each line of a NAME.said or NAME.dump, and each row of a table, is one check.
Cases run side by side, each in a folder of its own and within a limit of time. Prints each difference, and last `N passed, M failed`; the status is 0 only
where none failed."""
import concurrent.futures, contextlib, json, os, sqlite3, subprocess, sys, tempfile, urllib.parse

TOP = os.path.dirname(os.path.dirname(os.path.abspath(__file__)))
CASES = os.path.join(TOP, "tests", "cases")
LIMIT = 120  # seconds, of each run of the program
SHOWN = 300  # bytes of a text in a difference
MOST = 20  # differences that are printed of one file


class Bad(Exception):
    """A case that is of no form."""


class Tally:
    """How many checks of one case passed, and what was different in the others."""

    def __init__(self):
        self.passed, self.differences = 0, []

    def compare(self, where, came, wanted):
        if came == wanted:
            self.passed += 1
        else:
            self.differences.append(difference(where, came, wanted))


def difference(where, came, wanted):
    """The lines that tell a difference; long texts from a little before the first byte that differs."""
    same = len(os.path.commonprefix([came, wanted])) if isinstance(came, bytes) and isinstance(wanted, bytes) else 0
    start = max(0, same - 60) if same > 100 else 0
    place = f" (from byte {start} on)" if start else ""
    return f"FAILED {where}{place}\n  wanted {escaped(wanted, start)}\n  came   {escaped(came, start)}"


def escaped(text, start=0):
    if text is None:
        return "nothing"
    if not isinstance(text, bytes):
        return str(text)
    cut = text[start : start + SHOWN]
    return repr(cut)[1:] + (f" and {len(text) - start - SHOWN} bytes" if len(text) > start + SHOWN else "")


# Runs


def ran(program, words, given, folder):
    """The exit status of the program and all that it prints; the status is a text where it ends in no good way. Without an input each read of it fails."""
    try:
        if given is None:
            with open_folder(folder) as none:
                done = subprocess.run([program, *words], stdin=none, capture_output=True, cwd=folder, timeout=LIMIT)
        else:
            done = subprocess.run([program, *words], input=given, capture_output=True, cwd=folder, timeout=LIMIT)
    except subprocess.TimeoutExpired as late:
        return f"no end in {LIMIT} seconds", late.stdout or b""
    if done.returncode < 0:
        return f"signal {-done.returncode}", done.stdout
    return done.returncode, done.stdout


@contextlib.contextmanager
def open_folder(folder):
    """A file of which each read fails: a folder."""
    number = os.open(folder, os.O_RDONLY)
    try:
        yield number
    finally:
        os.close(number)


# Files


def contents(path):
    with open(path, "rb") as file:
        return file.read()


def beside(path, ending, end, otherwise=None):
    """What the file of the same name with another ending holds."""
    other = path[: -len(ending)] + end
    if os.path.exists(other):
        return contents(other)
    if otherwise is None:
        raise Bad(f"{shown(path)} lacks {shown(other)}")
    return otherwise


def wanted_status(path, ending):
    return int(beside(path, ending, ".status", b"0"))


def shown(path):
    return os.path.relpath(path, TOP)


def lines(text):
    """The lines of a text, each with its line feed; the last may lack it."""
    parts = text.split(b"\n")
    return [it + b"\n" for it in parts[:-1]] + [it for it in parts[-1:] if it]


def compare_lines(tally, path, came, wanted, note=lambda number: ""):
    """Line by line; `note` tells what the line of this number belongs to."""
    came, wanted = lines(came), lines(wanted)
    for at in range(max(len(came), len(wanted))):
        here = came[at] if at < len(came) else None
        there = wanted[at] if at < len(wanted) else None
        tally.compare(f"{shown(path)}:{at + 1}{note(at)}", here, there)


# Rows of tables


def text_of(value):
    """The bytes of a text of a row."""
    if isinstance(value, str):
        return value.encode()
    if isinstance(value, list):
        return b"".join(map(text_of, value))
    if isinstance(value, dict) and value.keys() == {"hex"}:
        return bytes.fromhex(value["hex"])
    if isinstance(value, dict) and value.keys() == {"repeat", "times"}:
        return text_of(value["repeat"]) * value["times"]
    raise Bad(f"no text: {value!r}")


def lines_of(value):
    """The same, where a list is one of lines."""
    return b"".join(text_of(it) + b"\n" for it in value) if isinstance(value, list) else text_of(value)


def rows(path, members):
    """The rows of a table with the places where they stand."""
    for number, line in enumerate(lines(contents(path)), 1):
        try:
            row = json.loads(line)
        except ValueError as why:
            raise Bad(f"{shown(path)}:{number} is no JSON: {why}")
        if not isinstance(row, dict) or not row.keys() <= {"name", "said", "status", *members} or "said" not in row:
            raise Bad(f"{shown(path)}:{number} is no row of {', '.join(members)}")
        yield f"{shown(path)}:{number} {row.get('name', '')}".rstrip(), row


def row_case(where, words, files, given, said, status):
    """A case of one check: these words print this with this status."""

    def run(program, folder):
        for name, held in files.items():
            with open(os.path.join(folder, name), "wb") as file:
                file.write(held)
        tally = Tally()
        tally.compare(where, *pairs(ran(program, words, given, folder), (status, said)))
        return tally

    return run


def pairs(came, wanted):
    """What is compared of two pairs of a status and a text: the texts, or where only the statuses differ or the program ended in no good way, these."""
    if came[0] != wanted[0] and (came[1] == wanted[1] or isinstance(came[0], str)):
        return f"status {came[0]}", f"status {wanted[0]}"
    return came[1], wanted[1]


# Kinds: each gives the cases of one file, each case a function of the program and a folder that gives a tally


def play_script(path):
    said = beside(path, ".script", ".said")
    status = wanted_status(path, ".script")
    script = contents(path)

    def run(program, folder):
        tally = Tally()
        ended, came = ran(program, ["play"], script, folder)
        owners = lines_that_print(script, said)
        compare_lines(tally, path[: -len(".script")] + ".said", came, said, lambda at: f" (line {owners[at]} of the script)" if at < len(owners) else "")
        if ended != status:
            tally.compare(f"{shown(path)}: status", ended, status)
        return tally

    return [run]


def lines_that_print(script, said):
    """Of each line that is said, the number of the line of the script that it belongs to."""
    said, owners = lines(said), []
    for number, line in enumerate(lines(script), 1):
        record = urllib.parse.unquote_to_bytes(line.rstrip(b"\n").split(b" ")[0])
        if not record or record.startswith(b"#") or record == b"keepfails":
            continue
        while len(owners) < len(said):
            owners.append(number)
            if record not in (b"post", b"call") or not said[len(owners) - 1].startswith((b"sent ", b"answer ")):
                break
    return owners


def play_table(path):
    for where, row in rows(path, ["script"]):
        yield row_case(where, ["play"], {}, lines_of(row.get("script", "")), lines_of(row["said"]), row.get("status", 0))


def check_file(path):
    said = beside(path, ".json", ".said")
    status = 0 if said.startswith(b"ok ") else 1
    return [row_case(shown(path), ["check", path], {}, None, said, status)]


def check_table(path):
    for where, row in rows(path, ["document"]):
        said = text_of(row["said"]) + b"\n"
        status = 0 if said.startswith(b"ok ") else 1
        yield row_case(where, ["check", "document"], {"document": text_of(row.get("document", ""))}, None, said, status)


def render_file(path):
    files = {"template": contents(path), "body": beside(path, ".vtl", ".body", b"")}
    said = beside(path, ".vtl", ".said")
    return [row_case(shown(path), ["render", "template", "body"], files, None, said, wanted_status(path, ".vtl"))]


def render_table(path):
    for where, row in rows(path, ["template", "body", "steps", "bytes"]):
        status = row.get("status", 0)
        template, body = text_of(row.get("template", "")), text_of(row.get("body", ""))
        said = text_of(row["said"]) + (b"\n" if status else b"")
        yield render_case(where, template, body, said, status)
        for what, budget, spent in (("steps", STEPS, idle), ("bytes", BYTES, texts_made)):
            if what in row:
                left = budget - row[what]
                yield render_case(f"{where} (just its {what})", spent(left) + template, body, said, status)
                yield render_case(f"{where} (one of its {what} less)", spent(left + 1) + template, body, b"stop %s\n" % what.capitalize().encode(), 1)


def render_case(where, template, body, said, status):
    return row_case(where, ["render", "template", "body"], {"template": template, "body": body}, None, said, status)


STEPS, BYTES = 1_000_000, 67_108_864  # of a render


def idle(steps):
    """A template that takes just so many steps, 2,000 at least, and prints nothing; what follows begins a line."""
    turns = (steps - 9) // 999  # of 4 + 995 steps each; each loop takes 4 of its own
    inner = b"#foreach($idle in [1..%d])#foreach($idle in [1..995])$!none_such#end#end" % turns
    return inner + b"#foreach($idle in [1..%d])$!none_such#end##\n" % (steps - 8 - 999 * turns)


def texts_made(count):
    """A template that makes texts of just so many bytes and prints nothing: a doubled one of 33,554,416 and two parts of its last."""
    doubled, last = 33_554_416, 16_777_216
    text = b"#set($idle='0123456789abcdef')#foreach($i in [1..20])#set($idle=$idle+$idle)#end"
    parts = b"#set($idle_part=$idle.substring(0,%d))#set($idle_part=$idle.substring(0,%d))" % (last, count - doubled - last)
    return text + parts + b"##\n"


def admin_commands(path):
    said = beside(path, ".commands", ".said")
    dump = beside(path, ".commands", ".dump", b"")
    status = wanted_status(path, ".commands")
    commands = contents(path)
    start = path[: -len(".commands")]

    def run(program, folder):
        tally = Tally()
        ended, came = ran(program, ["admin", "store"], commands, folder)
        compare_lines(tally, start + ".said", came, said)
        if dump:
            compare_lines(tally, start + ".dump", dumped(os.path.join(folder, "store")), dump)
        if ended != status:
            tally.compare(f"{shown(path)}: status", ended, status)
        return tally

    return [run]


def dumped(store):
    """The rows of a store as statements, in the order of their texts."""
    if not os.path.exists(store):
        return b""
    base = sqlite3.connect(store)
    try:
        return "".join(sorted(it + "\n" for it in base.iterdump() if it.startswith("INSERT"))).encode()
    finally:
        base.close()


def words_table(path):
    for where, row in rows(path, ["words", "files", "input"]):
        files = {name: text_of(held) for name, held in row.get("files", {}).items()}
        given = text_of(row["input"]) if "input" in row else None
        yield row_case(where, row["words"], files, given, text_of(row["said"]), row.get("status", 0))


KINDS = {
    "play": {".script": play_script, ".table.jsonl": play_table},
    "check": {".json": check_file, ".table.jsonl": check_table},
    "render": {".vtl": render_file, ".table.jsonl": render_table},
    "admin": {".commands": admin_commands},
    "words": {".table.jsonl": words_table},
}
BESIDE = (".said", ".status", ".body", ".dump")  # files that stand beside that of a case


# All of them


def case_files(part):
    """Each file of cases with the function of its kind."""
    for folder in sorted(os.listdir(CASES)):
        for name in sorted(os.listdir(os.path.join(CASES, folder))):
            path = os.path.join(CASES, folder, name)
            kinds = [(ending, kind) for ending, kind in KINDS.get(folder, {}).items() if name.endswith(ending)]
            if kinds:
                if part in shown(path):
                    yield path, kinds[0][1]
            elif not has_owner(path, KINDS.get(folder, {})):
                raise Bad(f"{shown(path)} is of no kind")


def has_owner(path, kinds):
    """Whether the file stands beside that of a case."""
    start, end = os.path.splitext(path)
    return end in BESIDE and any(os.path.exists(start + ending) for ending in kinds)


def tally_of(program, case):
    with tempfile.TemporaryDirectory(prefix="case-") as folder:
        return case(program, folder)


def told(path, tallies):
    """Prints the differences of one file, and gives how many of its checks passed and failed."""
    differences = [it for tally in tallies for it in tally.differences]
    for it in differences[:MOST]:
        print(it)
    if len(differences) > MOST:
        print(f"FAILED {shown(path)}: and {len(differences) - MOST} more")
    return sum(it.passed for it in tallies), len(differences)


def main(program, part):
    if not os.access(program, os.X_OK):
        raise Bad(f"{program} is no program")
    passed = failed = 0
    with concurrent.futures.ThreadPoolExecutor(os.cpu_count()) as pool:
        started = []
        for path, kind in case_files(part):
            started.append((path, [pool.submit(tally_of, program, case) for case in kind(path)]))
        for path, cases in started:
            here = told(path, [it.result() for it in cases])
            passed, failed = passed + here[0], failed + here[1]
    if passed + failed == 0:
        raise Bad("there are no cases")
    print(f"{passed} passed, {failed} failed")
    return 1 if failed else 0


def field(text):
    """A text as a field of a script."""
    if text in (b"", b"~"):
        return "%7E" if text else "~"
    return "".join(chr(byte) if 33 <= byte <= 126 and byte != 37 else f"%{byte:02X}" for byte in text)


if __name__ == "__main__":
    if sys.argv[1:2] == ["--field"] and len(sys.argv) == 3:
        print(field(contents(sys.argv[2])))
        sys.exit()
    given = sys.argv[1:] + [os.path.join(TOP, "crates/gateway/out/gateway"), ""][len(sys.argv) - 1 :]
    if len(given) != 2:
        sys.exit("usage: tests/cases.py [PROGRAM [PART]] or --field FILE")
    try:
        sys.exit(main(os.path.abspath(given[0]), given[1]))
    except Bad as why:
        sys.exit(f"tests/cases.py: {why}")
