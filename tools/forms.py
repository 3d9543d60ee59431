#!/usr/bin/env python3
"""Lists the places in src/ that docs/DESIGN-PASS.md counts, point by point.

forms.py [FOLDER]    FOLDER: the repository (default: this one). Tests count only at point 1.
"""
import collections
import glob
import itertools
import os
import re
import sys

TOP = sys.argv[1] if len(sys.argv) > 1 else os.path.join(os.path.dirname(os.path.abspath(__file__)), "..")
WORD = re.compile(r"[A-Za-z_]\w*|\d+|\S")
KEYWORDS = set("fn let mut if else match for while loop in return pub crate self Self Some None Ok Err as break continue ref impl struct enum".split())


def sources():
    for path in sorted(glob.glob(os.path.join(TOP, "crates/*/src/*.rt"))):
        yield os.path.relpath(path, TOP).removeprefix("crates/"), open(path).read()


def is_test(path):
    return "_tests/" in path


def functions(text):
    """Name, parameters, clauses, body and line of each function with a body."""
    for m in re.finditer(r"\bfn (\w+)(?:<[^(]*>)?\(", text):
        depth, i = 1, m.end()
        while depth:
            depth += {"(": 1, ")": -1}.get(text[i], 0)
            i += 1
        params = text[m.end():i - 1]
        # the clauses' braces stand on lines of their own that begin with requires or ensures
        head = re.compile(r"(?:\[[^\]]*\]|[^{;\[])*?(?:\n\s+(?:requires|ensures)\*?[^\n]*)*\s*\{").match(text, i)
        if not head:
            continue
        depth, j = 1, head.end()
        while depth:
            depth += {"{": 1, "}": -1}.get(text[j], 0)
            j += 1
        yield m.group(1), params, head.group(0), text[head.end():j - 1], text.count("\n", 0, m.start()) + 1


def shape(body):
    names = {}
    out = []
    for word in WORD.findall(re.sub(r"//[^\n]*", "", body)):
        if re.match(r"[A-Za-z_]", word) and word not in KEYWORDS:
            word = "x"
        out.append(word)
    return tuple(out)


def show(title, rows):
    rows = list(rows)
    print(f"{title}: {len(rows)}")
    for row in rows:
        print("   ", row)


def main():
    files = list(sources())
    code = [(p, t) for p, t in files if not is_test(p)]
    all_functions = [(p,) + f for p, t in code for f in functions(t)]

    def grep(pattern, where=code):
        for p, t in where:
            for n, line in enumerate(t.split("\n"), 1):
                if re.search(pattern, line) and not line.strip().startswith(("//", "ghost", "ensures", "requires")):
                    yield f"{p}:{n}: {line.strip()}"

    print("1. own Option- and Result-like forms, flags, numbers for kinds")
    show("enums", grep(r"^ *(pub(\(crate\))? )?enum "))
    show("an error as an Option, or a flag as a result", (row for row in grep(r"-> (Option<\w*(Refusal|Fault|Error)>|Result<bool|fmt::Result)") if "fn fmt<" not in row))
    show("errors passed on by hand", itertools.chain(
        grep(r"Err\((_|e|error|refusal)\) => (Err|return Err|match)"),
        (f"{p}:{t.count(chr(10), 0, m.start()) + 1}: {' '.join(m.group(0).split())}" for p, t in code
         for m in re.finditer(r"(let (Some|Ok)\([^=]*\) = [^;{]* else|if let (Err|Some)\(\w+\) = [^{]*)\s*\{\s*return (Err|Some)\([^;]*;\s*\}", t)),
        (f"{p}:{t.count(chr(10), 0, m.start()) + 1}: {' '.join(m.group(0).split())}" for p, t in code
         for m in re.finditer(r"None => (return )?Err\(", t))))
    show("numbers for refusals, in tests", (f"{p}:{line}: {name}" for p, t in files if is_test(p) for name, params, head, body, line in functions(t)
                                   if re.search(r"Refusal", params + head) and re.search(r"-> (\[usize|u16|Code)", head)))

    print("2. twins")
    pairs = []
    for a, b in itertools.combinations(all_functions, 2):
        s, t = shape(a[4]), shape(b[4])
        if len(s) >= 7 and s == t:
            pairs.append(f"{a[0]}:{a[5]} {a[1]} ~ {b[0]}:{b[5]} {b[1]}")
    show("functions of one shape", pairs)
    wrappers = [f"{p}:{line}: {name}" for p, name, params, head, body, line in all_functions
                if re.fullmatch(r"\s*\w+\(\s*[\w, \n.()]*\)\s*", body) and len(re.findall(r"\w+:", params)) == body.count(",") + 1]
    show("functions that only hand their parameters on", wrappers)
    structs = [(p, m.group(1), tuple(sorted(re.findall(r"(\w+): ([^,\n]+)", m.group(2)))), t.count("\n", 0, m.start()) + 1)
               for p, t in code for m in re.finditer(r"struct (\w+)(?:<[^>]*>)? \{([^}]*)\}", t)]
    show("structs with two or more fields of one name and type", (f"{a[0]}:{a[3]} {a[1]} ~ {b[0]}:{b[3]} {b[1]}: {sorted(x[0] for x in set(a[2]) & set(b[2]))}" for a, b in itertools.combinations(structs, 2)
                                 if len(set(a[2]) & set(b[2])) >= 2))

    print("3. loops that count an index by hand")
    show("for over a range, while, loop", grep(r"^\s*(for \w+ in [^{]*\.\.|while |loop )"))
    show("elements written out one by one", (f"{p}:{line}: {name}" for p, name, params, head, body, line in all_functions
                                          if re.search(r"\[0\].*\n?.*\[1\].*\n?.*\[2\]", body) or re.search(r", 0\).*\n.*, 1\).*\n.*, 2\)", body)))
    show("a test and an index where the library has get", (f"{p}:{line}: {name}" for p, name, params, head, body, line in all_functions
                                                        if re.search(r"if (\w+) (<|>=) [^{]*(len\(\)|4)[^{]*\{", body) and re.search(r"\[[^\]]*\b\w+\b[^\]]*\]", body) and body.count("\n") <= 9))
    show("a push for each item", (f"{p}:{line}: {name}" for p, name, params, head, body, line in all_functions
                                 if re.search(r"for [^{]*\{\s*[^{}]*\.push\([^{}]*\)\?;\s*\}", body) or re.search(r"for [^{]*\{\s*let Ok[^{}]*\{[^{}]*\};\s*[^{}]*\.push\(", body)))

    print("4. equality, order, copying, conversion, printing by hand")
    show("numbers made of bytes and bytes of numbers", grep(r"256 \* \w+|\* 256 \+|/ 256\)"))
    show("conversions and comparisons of named fields", itertools.chain(
        (f"{p}:{line}: {name}" for p, name, params, head, body, line in all_functions if re.search(r"-> Option<(Kind|Reduction)>", head)),
        (f"{p}:{t.count(chr(10), 0, m.start()) + 1}: {' '.join(m.group(0).split())}" for p, t in code for m in re.finditer(r"(\w+) == self\.\w+\.\1\s*&& ", t)),
        grep(r"if let Request::Halt = ")))
    show("impl From, TryFrom, Display, comparison", grep(r"^impl.* (From|TryFrom|fmt::Display|PartialEq|Ord|Default)\b"))
    show("functions that write a text into a String", (f"{p}:{line}: {name}" for p, name, params, head, body, line in all_functions if "out: &mut String" in params))

    print("5. facts of three or more contracts, parameters that travel together")
    facts = collections.defaultdict(list)
    groups = collections.defaultdict(list)
    for p, name, params, head, body, line in all_functions:
        for clause in re.findall(r"requires(?: \w+)? \{(.*)\}", head):
            for fact in re.split(r" × ", clause):
                facts[re.sub(r"\.(old|now)\b", "", fact.strip(" ()"))].append(f"{p.split('/')[0]}::{name}")
        names = sorted({n for n in re.findall(r"(\w+):", params)})
        for g in itertools.combinations(names, 3):
            groups[g].append(f"{p.split('/')[0]}::{name}")
    show("facts", (f"{fact}  ({len(names)}: {', '.join(names)})" for fact, names in sorted(facts.items()) if len(names) >= 3))
    show("groups of three parameters in four or more functions", (f"{', '.join(g)}  ({len(names)})" for g, names in sorted(groups.items(), key=lambda x: (-len(x[1]), x[0])) if len(names) >= 4))

    print("6. buffers with a length, parallel arrays, indices")
    arrays = []
    for p, t in code:
        for m in re.finditer(r"struct (\w+)(?:<[^>]*>)? \{([^}]*)\}", t):
            found = re.findall(r"(\w+): \[[^;\]]+; (\d+)\]", m.group(2))
            sizes = collections.Counter(n for _, n in found)
            if any(k > 1 for k in sizes.values()):
                arrays.append(f"{p}: {m.group(1)}: {', '.join(n for n, _ in found)}")
    show("arrays of one length in one struct", arrays)
    show("indices into a slice kept in a struct", (f"{p}: {m.group(1)}" for p, t in code for m in re.finditer(r"struct (\w+)(?:<[^>]*>)? \{([^}]*)\}", t)
                                                   if len(re.findall(r"\w+(_at|_end|_start): usize", m.group(2))) > 0))
    show("text or items cut out by start and end", grep(r"\[start\.\.|\.\.end\]"))

    print("7. switches on which step to run, tables of functions")
    show("a match whose arms make the same call", (f"{p}:{line}: {name}" for p, name, params, head, body, line in all_functions
                                                   if re.search(r"match [^{]*\{(\s*[\w:]+(\(\w*\))? => \{?[^=]*?(\w+)\([^=]*)(\s*[\w:]+ => [^=]*?\3\([^=]*)+\}", body)))
    show("dyn values and function pointers", grep(r"\bdyn \w|: fn\("))


main()
