#!/usr/bin/env python3
"""sides.py COMMIT: old and new of what changed since a commit, as the last part of docs/DESIGN-PASS.md has it: public signatures with their clauses,
public types, definitions of specs/, theorems and public lemmas of proofs/, and the private functions that are gone. Run at the repository's root."""

import re
import subprocess
import sys


def git(*words):
    return subprocess.run(["git", *words], capture_output=True, text=True).stdout


def texts(commit):
    """Each file of the crates, by its path: of the commit, or of the work tree."""
    if commit:
        return {f: git("show", f"{commit}:{f}") for f in git("ls-tree", "-r", "--name-only", commit, "crates").split("\n") if f.endswith((".rt", ".antt"))}
    return {f: open(f, encoding="utf-8").read() for f in git("ls-files", "crates").split("\n") if f.endswith((".rt", ".antt"))}


def flat(text):
    return re.sub(r"\s+", " ", text).strip().replace("( ", "(").replace(", )", ")").replace(",)", ")")


def rust(files):
    """Functions and public types: by crate, module and name, whether a function is public, and its text up to the body."""
    functions, types = {}, {}
    for f, text in files.items():
        at = re.fullmatch(r"crates/(\w+)/src/(.*)\.rt", f)
        if not at:
            continue
        crate, module = at[1], "" if at[2] in ("lib", "main") else at[2]
        owners = [(m.start(), m[1]) for m in re.finditer(r"^impl(?:<[^>]*>)? (?:[\w:<>']+ for )?(\w+)", text, re.M)]
        for m in re.finditer(r"^( *)(pub(?:\(crate\))? )?fn (\w+)", text, re.M):
            rest = text[m.start() :]
            end = re.search(r"\n" + m[1] + r"\{\n| \{\n", rest)
            owner = [name for start, name in owners if start < m.start()][-1:] if m[1] else []
            name = "::".join([*owner, m[3]])
            functions[(crate, module, name)] = (bool(m[2]), flat(rest[: end.start()] if end else rest[:200]))
        for m in re.finditer(r"^((?:#\[derive[^\n]*\n)?)(pub )?(struct|enum) (\w+)[^\n]*?(;\n|\{\n.*?^\}|\{\})", text, re.M | re.S):
            if m[2]:
                types[(crate, m[4])] = flat(re.sub(r"//[^\n]*", "", m[0]))
    return functions, types


def antt(files, part):
    """Public declarations of specs/ whole, of proofs/ their statements."""
    found = {}
    for f, text in files.items():
        at = re.fullmatch(r"crates/(\w+)/" + part + r"/(.*)\.antt", f)
        if not at or re.search(r"(Answers|Invariants)$", at[2]):
            continue
        lines = [line for line in text.split("\n") if not line.lstrip().startswith("--")]
        i = 0
        while i < len(lines):
            m = re.match(r"^( *)((?:(?:abbrev|unfoldable|pub) )*)(data |record )?([^\s(:{]+)(.*)$", lines[i])
            if not (m and "pub" in m[2] and not re.match(r" *(pub )?(use|mod)\b", lines[i])):
                i += 1
                continue
            deeper = lambda line: len(line) - len(line.lstrip()) > len(m[1])
            end = i + 1
            while end < len(lines) and lines[end].strip() and (deeper(lines[end]) or not re.match(r"^ *((abbrev|unfoldable|pub) )+", lines[end])):
                end += 1
            stated = end
            if part == "proofs" and not m[3]:
                starts = (m[4] + " ", "unfolding")
                stated = next((k for k in range(i + 1, end) if lines[k].lstrip().startswith(starts)), end)
            found[(at[1], at[2], m[4])] = flat(re.sub(r"unfolding [^\n]*", "", "\n".join(lines[i:stated])))
            i = end
    return found


def show(title, old, new):
    keys = [k for k in sorted(set(old) | set(new)) if old.get(k) != new.get(k)]
    if not keys:
        return
    print(f"\n### {title} ({len(keys)})\n\n```diff")
    for key in keys:
        print("# " + " ".join(word for word in key if word))
        if key in old:
            print("- " + old[key])
        if key in new:
            print("+ " + new[key])
    print("```")


def main():
    old, new = texts(sys.argv[1]), texts(None)
    (old_fns, old_types), (new_fns, new_types) = rust(old), rust(new)
    public = {k for fns in (old_fns, new_fns) for k, (is_public, _) in fns.items() if is_public}
    signatures = lambda fns: {k: text for k, (_, text) in fns.items() if k in public}
    show("Public signatures with their clauses", signatures(old_fns), signatures(new_fns))
    show("Public types", old_types, new_types)
    show("Definitions of specs/", antt(old, "specs"), antt(new, "specs"))
    show("Theorems and public lemmas of proofs/", antt(old, "proofs"), antt(new, "proofs"))
    show("Private functions that are gone", {k: text for k, (_, text) in old_fns.items() if k not in public and k not in new_fns}, {})


main()
