#!/usr/bin/env python3
"""forms.py [COMMIT] [POINT]: the places of the older language's forms in crates/*/src at a commit, or in the work tree, by the points of
docs/DESIGN-PASS.md; with a point, each place by its line."""

import re
import subprocess
import sys

GONE = r"Nothing|Absent|Refused|Skipped|Skip|Below|End|Short|Closed"
SENTINEL = r"where there is none|where it has none|or their number|, or end\.|where the table has none"
OWN = r"eq_\w+|same_\w+|is_word|greater|lesser|least|higher|lower|min|max|at_most_\w+|wide|bit|kind_byte|kind_of|kind_number|signed\d*|bits\d*|low32|half" \
      r"|eighth|unsigned_abs|is_negative|wrap_i32|wrapping_\w+|u\d+_at|byte_at|put_refusal|print_refusal|bits_of|scale_of|narrow|tell_\w+|clear|fill"
GROUPS = {
    "the store": "objects slots payload",
    "the table": "opcodes types runtime intrinsic layout",
    "an array's slots": "slots first count ts",
    "a pool's elements": "slots payload blocks ts pool",
    "a code and its decoding": "code opcodes types wide extra",
    "a text's buffer and place": "out at",
    "what a walk keeps": "heads words catches",
    "marks and queue": "marks queue",
    "answers for C": "place steps values",
}
WIDTH = r"_?(u8|u16|u32|u64|i32|i64|8|16|32|64|40|2|3|5|28)(?=_|$)"
SIZE = r"short|middle|long|few|many|old|new|lesser|greater"


def files(commit):
    """Each source file of a crate, by its path, with its text."""
    if commit:
        names = subprocess.run(["git", "ls-tree", "-r", "--name-only", commit, "crates"], capture_output=True, text=True).stdout.split("\n")
        read = lambda f: subprocess.run(["git", "show", f"{commit}:{f}"], capture_output=True, text=True).stdout
    else:
        names = subprocess.run(["git", "ls-files", "crates"], capture_output=True, text=True).stdout.split("\n")
        read = lambda f: open(f, encoding="utf-8").read()
    return {f: read(f) for f in names if re.fullmatch(r"crates/\w+/src/.*\.rt", f)}


def functions(text):
    """Each function's line, name, parameters and body."""
    for m in re.finditer(r"^ *(?:pub(?:\(crate\))? )?fn (\w+)(?:<[^>]*>)?\(", text, re.M):
        end, depth = m.end(), 1
        while depth:
            depth += {"(": 1, ")": -1}.get(text[end], 0)
            end += 1
        yield text.count("\n", 0, m.start()) + 1, m[1], text[m.end() : end - 1], m.start()


def places(texts):
    found = {n: [] for n in range(1, 9)}
    for f, text in texts.items():
        crate = f.split("/")[1]
        lines = text.split("\n")
        for m in re.finditer(r"^(?:pub )?enum (\w+) \{\n(.*?)^\}", text, re.M | re.S):
            if re.search(rf"^    ({GONE})\b", m[2], re.M):
                found[1].append((f, text.count("\n", 0, m.start()) + 1, f"enum {m[1]}"))
        for m in re.finditer(r"^(?:pub )?struct (\w+)(?:<[^>]*>)? \{\n(.*?)^\}", text, re.M | re.S):
            if re.search(r"^    (?:pub )?(outcome|check|good|answer|refused): ", m[2], re.M):
                found[1].append((f, text.count("\n", 0, m.start()) + 1, f"struct {m[1]}: a flag and what is beside it"))
            if re.search(r": \[[^;\]]*; \d+\],", m[2]):
                found[6].append((f, text.count("\n", 0, m.start()) + 1, f"struct {m[1]}: arrays of a length beside"))
        for n, line in enumerate(lines, 1):
            if re.match(r"\s*//", line) and re.search(SENTINEL, line):
                found[1].append((f, n, "a number for none: " + line.strip()))
            if re.match(r"\s*(pub )?number: u8", line):
                found[1].append((f, n, "a number for a refusal: " + line.strip()))
            if re.match(r"\s*(while\b|loop \{)", line):
                found[3].append((f, n, line.strip()))
            if re.search(r"\bmatch (what|f|form|to|row|kind|status|program) \{", line):
                found[7].append((f, n, line.strip()))
        stems = {}
        for n, name, params, at in functions(text):
            after = text[at : at + 400]
            if re.search(r"fault", name) and re.search(r"\) -> u8", after.split("{")[0]):
                found[1].append((f, n, f"fn {name}: 0 for no fault"))
            if re.fullmatch(OWN, name):
                found[4].append((f, n, f"fn {name}"))
            stem = re.sub(SIZE, "X", re.sub(WIDTH, "", name))
            if stem != name:
                stems.setdefault(stem, []).append((n, name))
            names = set(re.findall(r"(\w+): ", params))
            for group, members in GROUPS.items():
                if len(names & set(members.split())) >= 2 and (group != "answers for C" or "&mut" in params):
                    if group == "a text's buffer and place" and "out: &mut" not in params:
                        continue
                    found[5].append((f, n, f"fn {name}: {group}"))
            if "partition_point" == name:
                found[6].append((f, n, f"fn {name}: a sorted list searched by hand"))
        for stem, members in stems.items():
            if len(members) > 1:
                found[2].append((f, members[0][0], "twins: " + ", ".join(name for _, name in members)))
    return found


def answers(commit):
    """How many proof files, answers in them, and lemmas beside there are."""
    grep = lambda pattern, paths: subprocess.run(["git", "grep", "-h", "-E", pattern, *([commit] if commit else []), "--", *paths], capture_output=True, text=True).stdout.count("\n")
    of = ["crates/*/proofs/*Answers.antt", "crates/*/proofs/*Invariants.antt"]
    return grep(r"^(abbrev )?pub [^ ]+ : goal\.", of), grep(r"^ *(pub |abbrev |unfoldable )*[a-z0-9_?'-]+ : ", ["crates/*/proofs/*.antt"])


def main():
    commit = sys.argv[1] if len(sys.argv) > 1 and sys.argv[1] != "." else None
    point = int(sys.argv[2]) if len(sys.argv) > 2 else None
    found = places(files(commit))
    for n in range(1, 8):
        print(f"point {n}: {len(found[n])} places")
        if n == point:
            for f, line, what in found[n]:
                print(f"  {f}:{line}: {what}")
    print("point 8: %d answers, %d declarations in proofs/" % answers(commit))


main()
