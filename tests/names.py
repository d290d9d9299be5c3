#!/usr/bin/env python3
"""Whether the names in the documents exist: looks up each code span of README.md and docs/*.md that looks like a name of this repository.

    tests/names.py [FILE ..]

It reads the files below crates/ (.rt and .antt), tests/, bench/ and examples/ and crates.txt once, into a set of words. A span is looked up if
it has one of these forms; any other span is left alone:
- a path or a file name: `docs/X.md`, `crates/X/src/y.rt`, `X/specs/Y.antt`, `src/y.rt`, `Y.antt`. A path below a part of a crate (`src`,
  `specs`, `proofs`, `must-fail`, `wrong-bodies`) may be in any crate. A segment in capitals stands for any name (`crates/NAME`).
- `crate::item`: the crate is in crates.txt, and the item is a word of its files. In `Type::item` both are words.
- a word with an underscore, a word that begins with a capital and goes on in lower case (`Book`, `TellsLoadToFail`), or `call()`. The names of
  crates, of edits and of cases are words too.
It prints each name that is missing as FILE:LINE: NAME, then `N passed, M failed`, and ends with 1 if a name is missing."""
import glob, os, re, sys

TOP = os.path.dirname(os.path.dirname(os.path.abspath(__file__)))
PARTS = ("src", "specs", "proofs", "must-fail", "wrong-bodies")
TOPS = ("docs", "crates", "tests", "bench", "examples")
ENDS = r"\.(rt|antt|edit|py|md|sh|vtl|body|json|jsonl|script|said|commands)$"

# Names from outside of this repository: the first segments of Rust paths, and words.
ROOTS = {"std", "core", "alloc"}
OUTSIDE = {
    "crates/gateway/out/gateway",  # the built program
    "wrong-bodies/the_wrong_behaviour_as_a_sentence.edit",  # how an edit is named
    "EXPIRED_TOKEN", "INVALID_SIGNATURE", "RESOURCE_NOT_FOUND", "WAF_FILTERED",  # kinds of Amazon's gateway responses that are left out
    "Lts", "Tie",  # files that the prover keeps
    "read_to_end",  # of Rust's `Read`
}


def words_of(paths):
    """The words of these files."""
    found = set()
    for path in paths:
        with open(path, encoding="utf-8", errors="replace") as file:
            found.update(re.findall(r"\w+", file.read()))
    return found


def files_below(folder, ends=""):
    """The files below a folder of the repository, without what the tool makes."""
    found = []
    for at, folders, names in os.walk(os.path.join(TOP, folder)):
        folders[:] = [it for it in folders if it not in ("out", "__pycache__")]
        found += [os.path.join(at, it) for it in names if re.search(ends, it)]
    return found


class Names:
    """What exists."""

    def __init__(self):
        with open(f"{TOP}/crates.txt", encoding="utf-8") as file:
            listed = [line.split(":")[0].split() for line in file if ":" in line]
        self.crates = {words[0] for words in listed if words}
        self.files = {os.path.relpath(it, TOP) for folder in TOPS for it in files_below(folder)}
        self.bases = {os.path.basename(it) for it in self.files}
        self.by_crate, self.words = {}, words_of([f"{TOP}/crates.txt"])
        code = {}
        for path in files_below("crates", r"\.(rt|antt)$"):
            code.setdefault(os.path.relpath(path, TOP).split(os.sep)[1], []).append(path)
        for crate, paths in code.items():
            self.by_crate[crate] = words_of(paths)
            self.words |= self.by_crate[crate]
        for folder in ("tests", "bench", "examples"):
            self.words |= words_of(os.path.join(TOP, it) for it in self.files if it.startswith(folder + "/") and it != "tests/names.py")
        self.words |= self.crates | {os.path.basename(it).split(".")[0] for it in self.files}

    def has_path(self, path):
        """Whether a file or a folder has this path from the top, from a crate, or from a part of a crate."""
        if path in self.bases or path.rstrip("/") in PARTS:
            return True
        pattern = "/".join(re.sub(r"^([A-Z]+|\.\.)(?=\.\w|$)", "*", it) for it in path.rstrip("/").split("/"))
        below = ("", "crates/", "crates/*/", "crates/*/proofs/", "tests/cases/")
        return any(glob.glob(os.path.join(TOP, it, pattern)) for it in below)

    def has_item(self, segments):
        """Whether the first segment is a crate and the others are words of it, or all are words."""
        known = self.by_crate.get(segments[0], self.words)
        return all(it in known or it == segments[0] in self.crates for it in segments)

    def lacks(self, name):
        """Whether a code span is a name that does not exist; None if it is not looked up."""
        bare = re.sub(r"\(\)$", "", name)
        if name in OUTSIDE or bare in OUTSIDE or re.match(r"https?:|\*", name):
            return None
        begins = "/" in name and name.split("/")[0] in {*TOPS, *PARTS, *self.crates}
        if re.fullmatch(r"\w[\w./*-]*", name) and (begins or re.search(ENDS, name)):
            return not self.has_path(name)
        if re.fullmatch(r"\w+(::\w+)+", bare):
            segments = bare.split("::")
            return None if segments[0] in ROOTS else not self.has_item(segments)
        if re.fullmatch(r"[A-Za-z]\w*", bare) and ("_" in bare.strip("_") or re.fullmatch(r"[A-Z][a-z]\w*", bare) or bare != name):
            return bare not in self.words
        return None


def spans_of(path):
    """Each code span of a document outside of its code blocks, with the number of its line."""
    fenced = False
    with open(path, encoding="utf-8") as file:
        for number, line in enumerate(file, 1):
            if line.strip().startswith("```"):
                fenced = not fenced
            elif not fenced:
                for _, span in re.findall(r"(?<!`)(`+)(?!`)(.+?)(?<!`)\1(?!`)", line):
                    yield number, span.strip()


def main():
    names, passed, failed = Names(), 0, 0
    for path in sys.argv[1:] or [f"{TOP}/README.md"] + sorted(glob.glob(f"{TOP}/docs/*.md")):
        for number, span in spans_of(path):
            missing = names.lacks(span)
            if missing:
                print(f"{os.path.relpath(path, TOP)}:{number}: {span}")
            passed, failed = passed + (missing is False), failed + bool(missing)
    print(f"{passed} passed, {failed} failed")
    return int(failed > 0)


if __name__ == "__main__":
    sys.exit(main())
