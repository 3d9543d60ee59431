#!/usr/bin/env python3
"""Plants the bugs of tools/planted.txt into a copy of the repository, one at a time, and says which the prover refuses, and where.

planted.py [CRATE..]    the crates whose bugs are planted (default: all)

Each bug is tried as an edit that must fail, by `rt must-fail`, which says the first thing that is wrong. Where that is in a proof,
the crate is checked once more with the bug, for an open fact of src/ behind it.
Ends with a table of kinds and outcomes, and with status 1 where a bug survived or could not be tried.
"""
import collections
import os
import re
import shutil
import subprocess
import sys
import tempfile

TOP = os.path.join(os.path.dirname(os.path.abspath(__file__)), "..")
KINDS = {
    "comparison": "another comparison",
    "count": "off by one",
    "arguments": "swapped arguments or fields",
    "dropped": "a dropped statement",
    "case": "a missed or wrong case",
    "constant": "a wrong constant",
    "checks": "a wrong order of checks, or one left out",
    "buffer": "a wrong buffer, core or cell",
    "stale": "a stale value",
}
OPEN, BEHIND, PROOF, NAME = "open fact of src/", "open fact behind a proof", "proof of the fact", "proof that names what is gone"
LIMIT, SURVIVED, UNTRIED = "limit", "survived", "not tried"
OUTCOMES = [OPEN, BEHIND, PROOF, NAME, LIMIT, SURVIVED, UNTRIED]
SAID = re.compile(r"rt: must-fail (\S+)/(\S+)\.edit: (.*)")
FACT = re.compile(r"^(so far: )?note: src/\S+: it is not proved", re.MULTILINE)

Bug = collections.namedtuple("Bug", "crate name kind file lines")


def bugs(chosen):
    """The bugs of the list, those of the chosen crates, by crate and name."""
    numbers = collections.Counter()
    for block in open(os.path.join(TOP, "tools/planted.txt")).read().split("\n\n"):
        lines = [it for it in block.split("\n") if it and not it.startswith("#")]
        if not lines:
            continue
        kind, path = lines[0].split()
        crate, file = path.split("/", 1)
        if kind not in KINDS or any(it[0] not in "-+" for it in lines[1:]):
            sys.exit(f"cannot read the bug\n{block}")
        numbers[crate, kind] += 1
        if not chosen or crate in chosen:
            yield Bug(crate, f"{kind}_{numbers[crate, kind]}", kind, file, lines[1:])


def plant(top, bug):
    """Writes a bug as an edit that must fail."""
    folder = f"{top}/crates/{bug.crate}/must-fail"
    os.makedirs(folder, exist_ok=True)
    with open(f"{folder}/{bug.name}.edit", "w") as it:
        it.write(f"file: {bug.file}\n" + "".join(f"{'old' if line[0] == '-' else 'new'}: {line[2:]}\n" for line in bug.lines))


def outcome(said):
    if "NOT REFUSED" in said:
        return SURVIVED
    if "BAD EDIT" in said or "NOT TRIED" in said:
        return UNTRIED
    if "only by a limit" in said:
        return LIMIT
    if "names what the edit took away" in said:
        return NAME
    return OPEN if re.search(r": (note: )?(\./)?src/", said) else PROOF


def behind(top, bug):
    """Whether a check of the crate with the bug names an open fact of src/."""
    folder = f"{top}/crates/{bug.crate}"
    path = f"{folder}/{bug.file}"
    right = text = open(path).read()
    for old, new in zip(bug.lines[::2], bug.lines[1::2]):
        text = text.replace(old[2:], new[2:])
    with open(path, "w") as it:
        it.write(text)
    ran = subprocess.run(["rt", "check"], cwd=folder, stdout=subprocess.PIPE, stderr=subprocess.STDOUT, text=True)
    with open(path, "w") as it:
        it.write(right)
    return bool(FACT.search(ran.stdout))


def tried(top, crates):
    """What the prover said of each edit, as it says it."""
    ran = subprocess.Popen(["rt", "must-fail", *sorted(crates)], cwd=top, stdout=subprocess.PIPE, stderr=subprocess.STDOUT, text=True)
    for line in ran.stdout:
        if m := SAID.match(line):
            yield (m[1], m[2]), m[3].strip()


def outcomes(top, planted):
    """Each bug with its outcome, and what was said; those refused in a proof come when no edit is being tried any more."""
    left, again = dict(planted), []
    for key, said in tried(top, {bug.crate for bug in planted.values()}):
        if bug := left.pop(key, None):
            found = outcome(said)
            if found in (PROOF, NAME):
                again.append((bug, found, said))
            else:
                yield bug, found, said
    for bug, found, said in again:
        yield bug, BEHIND if behind(top, bug) else found, said
    for bug in left.values():
        yield bug, UNTRIED, ""


def table(counts):
    yield "| Kind | " + " | ".join(OUTCOMES) + " | all |"
    yield "|" + "---|" * (len(OUTCOMES) + 2)
    for kind, words in KINDS.items():
        row = [counts[kind, it] for it in OUTCOMES]
        yield f"| {words} | " + " | ".join(map(str, [*row, sum(row)])) + " |"
    row = [sum(counts[kind, it] for kind in KINDS) for it in OUTCOMES]
    yield "| all | " + " | ".join(map(str, [*row, sum(row)])) + " |"


def main():
    counts = collections.Counter()
    with tempfile.TemporaryDirectory() as room:
        top = f"{room}/planted"
        shutil.copytree(TOP, top, ignore=shutil.ignore_patterns(".git"), symlinks=True)
        for crate in os.listdir(f"{top}/crates"):
            shutil.rmtree(f"{top}/crates/{crate}/must-fail", ignore_errors=True)
        planted = {(bug.crate, bug.name): bug for bug in bugs(sys.argv[1:])}
        for bug in planted.values():
            plant(top, bug)
        for bug, found, said in outcomes(top, planted):
            counts[bug.kind, found] += 1
            print(f"{bug.crate}/{bug.file} {bug.kind}: {found}: {' '.join(bug.lines)}\n    {said[:200]}", flush=True)
    print("\n".join(table(counts)))
    sys.exit(any(counts[kind, it] for kind in KINDS for it in (SURVIVED, UNTRIED)))


if __name__ == "__main__":
    main()
