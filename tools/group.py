#!/usr/bin/env python3
"""group.py LIST: parameters that travel together become one of a struct, over the whole tree (docs/DESIGN-PASS.md, point 5). LIST is JSON: groups of
{crate, fns, var, type, make, fields, nest}. In each of the functions the parameters that stand in `fields` (name: path in the struct) become `var: type`
at the place of the first; its clauses (`var.entry.path` in an ensures), its body, its answers and invariants, and every call follow. A caller that has
the struct hands it on; any other makes it (`make`; `nest` says what a first part of a path is made of). The struct itself, its imports and what a
clause is then better called are left to the writer, and so is what does not prove."""

import json
import os
import re
import subprocess
import sys


def split(text):
    """The parts of an argument or parameter list."""
    parts, depth, part = [], 0, ""
    for ch in text:
        if ch in "([{" or (ch == "<" and not part.endswith((" ", "="))):
            depth += 1
        if ch in ")]}" or (ch == ">" and not part.endswith(("-", "=", " "))):
            depth -= 1
        if ch == "," and depth == 0:
            parts.append(part.strip())
            part = ""
        else:
            part += ch
    return parts + [part.strip()] if part.strip() else parts


def behind(text, i):
    """The place behind the bracket that closes the one before place i."""
    depth = 1
    while depth:
        depth += {"(": 1, ")": -1}.get(text[i], 0)
        i += 1
    return i


def function(text, name):
    """Where a function begins, its parameters, its body and its end."""
    m = re.search(r"(?:pub(?:\(crate\))? )?fn " + name + r"(?:<[^>]*>)?\(", text)
    if not m:
        return None
    close = behind(text, m.end())
    indent = re.match(r" *", text[text.rfind("\n", 0, m.start()) + 1 :]).group()
    body = text.find("\n" + indent + "{\n", close)
    line = text.find(" {\n", close)
    if 0 <= line < (body if body >= 0 else len(text)) and "\n" not in text[close:line]:
        body = line
    end = text.find("\n" + indent + "}\n", body) + len("\n" + indent + "}\n")
    return m.start(), m.end(), close, body, end


def in_body(text, fields, var):
    for name, (path, _) in fields.items():
        text = re.sub(r"(?<![.\w:])" + name + r"\b(?!\s*:(?!:))(?!\s*\()(?!::)", f"{var}.{path}", text)
    return text


def in_clauses(text, fields, var):
    said, mode = "", None
    for part in re.split(r"(\b(?:requires|ensures)\b)", text):
        if part in ("requires", "ensures"):
            mode = part
        elif mode:
            at = var + (".entry" if mode == "ensures" else "")
            for name, (path, lent) in fields.items():
                rest = r"(?=\.(?:now|old|new|entry)\b)" if lent else r"\b(?! *[=:])"
                part = re.sub(r"(?<![.\w])" + name + rest, f"{at}.{path}", part)
        said += part
    return said


def in_proofs(base, fields, var):
    for file, pattern, end in (("Answers", r"\b(a|c\.args|args|c\.ranges)\.{}\b", ""), ("Invariants", r"\b(l|l\.initial)\.{}\b", ".now")):
        path = f"{base}/{file}.antt"
        if os.path.exists(path):
            text = open(path, encoding="utf-8").read()
            for name, (to, lent) in fields.items():
                text = re.sub(pattern.format(name), rf"\1.{var}.{to}" + (end if lent else ""), text)
            open(path, "w", encoding="utf-8").write(text)


def whole(pairs):
    """The struct whose fields these are, if they are those of one."""
    heads = {value[: -len(path) - 1] for path, value in pairs if value.endswith("." + path)}
    return heads.pop() if len(heads) == 1 and all(value.endswith("." + path) for path, value in pairs) else None


def made(make, pairs, nest):
    if whole(pairs):
        return whole(pairs)
    parts = {}
    for path, value in pairs:
        head, _, rest = path.partition(".")
        parts.setdefault(head, []).append((rest, value))
    fields = [(head, made(nest[head], inner, nest) if inner[0][0] else inner[0][1]) for head, inner in parts.items()]
    return f"{make} {{ " + ", ".join(value if value == head else f"{head}: {value}" for head, value in fields) + " }"


def regroup(group, texts):
    """Changes the functions of a group; the parameters that each had."""
    had = {}
    for name in group["fns"]:
        for file in [f for f in texts if f.startswith(f"crates/{group['crate']}/src/") and function(texts[f], name)]:
            text = texts[file]
            start, first, close, body, end = function(text, name)
            params = [(p.split(":", 1)[0].strip(), p.split(":", 1)[1].strip() if ":" in p else "", p) for p in split(text[first : close - 1])]
            fields = {n: (group["fields"][n], type.startswith("&")) for n, type, _ in params if n in group["fields"]}
            taken = [k for k, (n, _, _) in enumerate(params) if n in fields]
            kept = [f"{group['var']}: {group['type']}" if k == taken[0] else p for k, (_, _, p) in enumerate(params) if k == taken[0] or k not in taken]
            said = in_clauses(text[close:body], fields, group["var"]) + in_body(text[body:end], fields, group["var"])
            texts[file] = text[:first] + ", ".join(kept) + ")" + said + text[end:]
            had[name] = ([n for n, _, _ in params], taken, fields)
            module = re.sub(r"^crates/\w+/src/|\.rt$", "", file)
            in_proofs(f"crates/{group['crate']}/proofs/" + ("" if module in ("lib", "main") else module + "/") + name, fields, group["var"])
            break
        else:
            print("not found:", group["crate"], name)
    return had


def recall(group, had, texts):
    """Changes the calls of a group's functions."""
    for file, text in texts.items():
        own = file.split("/")[1] == group["crate"]
        for name, (params, taken, fields) in had.items():
            pattern = re.compile(r"(?<![\w.])" + (r"(?:crate::|super::)?(?:\w+::)?" if own else group["crate"] + r"::(?:\w+::)*") + name + r"(?:::<[^>]*>)?\(")
            i = 0
            while m := pattern.search(text, i):
                i = m.end()
                close = behind(text, i)
                args = split(text[i : close - 1])
                if text[: m.start()].endswith("fn ") or len(args) != len(params):
                    continue
                pairs = [(fields[params[k]][0], args[k]) for k in taken]
                one = made(group["make"], pairs, group.get("nest", {}))
                args = [one if k == taken[0] else arg for k, arg in enumerate(args) if k == taken[0] or k not in taken]
                text = text[:i] + ", ".join(args) + ")" + text[close:]
        texts[file] = text


def main():
    names = subprocess.run(["git", "ls-files", "crates"], capture_output=True, text=True).stdout.split("\n")
    texts = {f: open(f, encoding="utf-8").read() for f in names if re.fullmatch(r"crates/\w+/src/.*\.rt", f)}
    groups = json.load(open(sys.argv[1], encoding="utf-8"))
    for group, had in [(group, regroup(group, texts)) for group in groups]:
        recall(group, had, texts)
    for file, text in texts.items():
        open(file, "w", encoding="utf-8").write(text)


main()
