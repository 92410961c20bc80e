#!/usr/bin/env python3
"""Respells the repository's own ghost names as Rattle's CONTRACT_STYLE.md, section "Names", says.

    tools/rename.py --list   prints each old and new name and what collides, and changes nothing
    tools/rename.py          writes the files, where nothing collides

Own names are what specs/ and the lemma files of proofs/ declare: definitions, lemmas, fields, constructors. Functions, fields and
constructors become snake case, a predicate upper camel case, a dash in a lemma stays only between two names of definitions, a
prime is an apostrophe. Names of libraries, of Rust source and what Rattle makes from it stay: a name is respelled in a file where
it is declared or imported from a file of ours, behind a dot where it is a field or a member of a module of ours, and in the code
spans of comments and pages where one new name is meant. It was run once, behind the toolchain's own script; in answers and invariants written since,
it would take names that the check makes for ours.
"""
import collections
import os
import re
import subprocess
import sys

# lemmas whose own new name is a definition's
LEMMAS = """walk-told decode-told entry-told buffer-told fields-ok run-list is-list part-sizes header-room lines-room pool-found header-found header-searched
lent-pool pool-searched is-start header-back raw-searched check-store elem-searched len-searched slot-searched falls-in table-unprefixed
index-of number-of base-of pad-left pad-right walk-check operand-bytes check-back end-at list-end not-name numbers-told object-ok
opcode-count operands-at prefix-mark reads-back refused-at target-back target-of walk-searched wide-switch word-at line-room"""

# old name, or file:name, and the new one, where the rule's own would fall together with another name
EXCEPTIONS = {n: n.replace("-", "_") + "_lem" for n in LEMMAS.split()}
EXCEPTIONS.update({
    "codeAt": "code_span",  # beside the field code_at, in one record
    "paramBase": "param_base_of",  # beside the field param_base
    "goesOn": "continues",  # goes_on is a lemma
    "To": "to_offset",  # `to` is a variable
    "crates/lines/proofs/Room.antt:target_room": "target_room_lem",
    "crates/function/proofs/Searched.antt:lent_found": "lent_found_lem",
    "crates/steps/proofs/Laws.antt:kept_by": "kept_by_lem",
    "crates/writer/proofs/Heads.antt:scale_ok": "scale_fine",  # fields of the type scaleOk .. and operandsOk .. ≡ true
    "crates/writer/proofs/Laws.antt:scale_ok": "scale_fine",
    "crates/writer/proofs/Round.antt:scale_ok": "scale_fine",
    "opcode-ok": "opcode_fine",
    "operands-ok": "operands_fine",
    "opcode-fits": "fits_opcode",  # fields; opcodeFits and typeNames are definitions
    "scale-fits": "fits_scale",
    "operands-fit": "fit_operands",
    "type-names": "names_of_types",
})

# a file's own words for modules of Rattle that would fall together with a definition: word, end of the module's path, new word
ALIASES = {
    "slot_at": ("declared.SlotAt.TheVariants", "slot_case"),
    "raw_at": ("declared.RawAt.TheVariants", "raw_case"),
    "found_as": ("declared.Found.TheVariants", "found_case"),
    "read_at": ("contracts.read_at", "read-at"),
}

# names of definitions of the library, for dashes
LIBRARY = set("""take drop append set get get_or map sum add sub mul div mod min max eqb ltb leb lt le eq cond to_z of_z modulo suc zero not
slice_index slice_index_or slice_get replicate reverse length all any concat filter fold head tail last range zip rev nat_abs neg
pos negsuc is_some unwrap_or all_of count_of""".split())

KEYWORDS = set("""record data open where let in use mod module pub elim rw simp cc omega grind search ground assumption result ruleset
abbrev unfoldable unfolding syntax requires ensures ghost old now at absurd refl""".split())

WORD = r"[^\W\d][\w'′?]*(?:-[^\W][\w'′?]*)*"
MODIFIERS = {"pub", "abbrev", "unfoldable"}


def snake(word):
    """One word of a name: camel case with a small first letter to snake case; a fact keeps its capital."""
    if not word[:1].islower():
        return word
    word = re.sub(r"([A-Z]+)([A-Z][a-z])", r"\1_\2", word)
    word = re.sub(r"([a-z0-9])([A-Zℕℤ])", r"\1_\2", word)
    return word.lower()


def camel(name):
    return "".join(w[:1].upper() + w[1:] for w in re.split(r"[_-]", snake(name)))


def listed(pattern):
    return [f for f in subprocess.check_output(["git", "ls-files", "--", pattern], text=True).split("\n") if f]


def declared(text):
    """What an antt file declares: (name, kind, what stands behind its colon, the type whose constructor or field it is)."""
    out, lines, blocks, opened = [], text.split("\n"), [(0, "def", "")], None
    for n, line in enumerate(lines):
        s = line.strip()
        if not s or s.startswith("--"):
            continue
        indent = len(line) - len(line.lstrip())
        if opened and indent > opened[0]:
            blocks.append((indent, opened[1], opened[2]))
        opened = None
        while indent < blocks[-1][0]:
            blocks.pop()
        kind, owner = blocks[-1][1:]
        if s == "where":
            opened = (indent, "where", "")
            continue
        if indent != blocks[-1][0]:
            if s.endswith(" where"):
                opened = (blocks[-1][0], kind, owner)
            continue
        words = s.split()
        while words and words[0] in MODIFIERS:
            words.pop(0)
        if words[0] in ("data", "record"):
            out.append((words[1], "type", "Type 0", ""))
            opened = (indent, "con" if words[0] == "data" else "field", words[1])
        elif words[0] == "module":
            opened = (indent, kind, owner) if words[-1] == "where" else None
        elif words[0] not in ("use", "mod", "unfolding", "open"):
            m = re.match(r"((?:%s|◌\S*)(?: (?:%s|◌\S*))*) : (.*)$" % (WORD, WORD), " ".join(words))
            if m:
                said, k = m[2], n + 1
                while k < len(lines) and lines[k].strip() and len(lines[k]) - len(lines[k].lstrip()) > indent:
                    said += " " + lines[k].strip()
                    k += 1
                out.extend((name, kind, said, owner) for name in m[1].split())
            elif s.endswith(" where"):
                opened = (indent, kind, owner)
    return out


def uncommented(text, rust):
    """The text with comments and strings blanked."""
    pattern = r'//[^\n]*|"(?:\\.|[^"\\])*"|b?\'(?:\\[^\n]{1,8}?|[^\'\\])\'' if rust else r'(?m)(?:^|(?<=\s))--(?=\s)[^\n]*|"(?:\\.|[^"\\])*"'
    return re.sub(pattern, lambda m: " " * len(m[0]), text)


USE = re.compile(r"(?m)^[ ]*(pub )?(?:ghost )?use ([\w.'#·-]+?)(?:\.\{([^}]*)\}| as ([\w'·-]+))?[ ]*;?[ ]*$")


class Names:
    def __init__(self):
        self.text = {f: open(f, encoding="utf-8").read() for p in ("crates/*.antt", "crates/*.rt") for f in listed(p)}
        self.own = {f: declared(t) for f, t in self.text.items() if f.endswith(".antt") and not f.endswith("/Proof.antt")}
        self.path = {}
        for f in self.own:
            p = f[len("crates/"):-len(".antt")].split("/")
            self.path[".".join(["Rattle"] + p)] = f
        self.words = {snake(n) for f, d in self.own.items() if "/specs/" in f for n, k, s, o in d if k in ("def", "type")}
        self.new = {f: self.respelled(f, d) for f, d in self.own.items()}
        self.fields = {}
        for f, d in self.own.items():
            for n, k, s, o in d:
                if k == "field" and self.new[f][n] != n:
                    self.fields[n] = self.new[f][n]
        self.aliases = {}
        self.scope = {f: self.scope_of(f) for f in self.text}
        spelled = collections.defaultdict(set)
        for f, d in self.own.items():
            for n, k, s, o in d:
                spelled[n].add(self.new[f][n])
        self.anywhere = {n: min(s) for n, s in spelled.items() if len(s) == 1}
        self.spelled = spelled
        self.all_new = {x for s in spelled.values() for x in s}

    def respelled(self, f, declarations):
        return {n: EXCEPTIONS.get(f + ":" + n, EXCEPTIONS.get(n, self.rule(n, k, said))) for n, k, said, o in declarations}

    def rule(self, name, kind, said):
        name = name.replace("′", "'")
        if "◌" in name:
            return name
        if kind in ("con", "field"):
            return snake(name[0].lower() + name[1:]).replace("-", "_")
        if kind == "def" and name[0].islower() and re.search(r"(^|→ )Type [01]$", said):
            return camel(name)
        parts = [snake(p) for p in name.split("-")]
        out = parts[0]
        for p in parts[1:]:
            left = out.split("-")[-1]
            out += ("-" if self.names(left) and self.names(p) else "_") + p
        return out

    def names(self, word):
        return word in self.words or word in LIBRARY or (word[:1].isupper() and len(word) > 1)

    def module(self, path):
        """The own file of a path, and the type behind it."""
        if path in self.path:
            return self.path[path], ""
        head, _, last = path.rpartition(".")
        if head in self.path and any(n == last and k == "type" for n, k, s, o in self.own[self.path[head]]):
            return self.path[head], last
        return None, ""

    def exported(self, f, owner):
        if owner:
            return {n: self.new[f][n] for n, k, s, o in self.own[f] if o == owner}
        out = {n: self.new[f][n] for n, k, s, o in self.own[f] if k in ("def", "type", "con")}
        for public, path, names, alias in USE.findall(self.text[f]):
            g, o = self.module(path)
            if public and g and g != f:
                inner = self.exported(g, o)
                out.update({n: inner[n] for n in re.split(r"[,\s]+", names) if n in inner})
        return out

    def scope_of(self, f):
        """Names in scope in a file: plain (old: new), what is imported from elsewhere, modules and types of ours (alias: file, type)."""
        plain, foreign, modules = {}, set(), {}
        self.aliases[f] = {}
        if f in self.own:
            plain.update(self.new[f])
            modules.update({n: (f, n) for n, k, s, o in self.own[f] if k == "type"})
        elif f.endswith(".antt"):
            foreign.update(n for n, k, s, o in declared(self.text[f]))
        for public, path, names, alias in USE.findall(self.text[f]):
            g, o = self.module(path)
            inner = self.exported(g, o) if g else {}
            for item in re.split(r",\s*", names.strip()) if names else []:
                n, _, alias_of = item.strip().partition(" as ")
                if n in inner:
                    plain[n] = inner[n]
                    if alias_of:
                        plain[alias_of] = EXCEPTIONS.get(alias_of, snake(alias_of))
                    if any(k == "type" and m == n for m, k, s, o2 in self.own[g]):
                        modules[alias_of or n] = (g, n)
                else:
                    foreign.add(alias_of or n)
            if not names:
                if g:
                    modules[alias or path.split(".")[-1]] = (g, o)
                else:
                    if path.endswith(ALIASES.get(alias, ("?", ""))[0]):
                        self.aliases[f][alias] = ALIASES[alias][1]
                    foreign.add(self.aliases[f].get(alias, alias) or path.split(".")[-1])
        return plain, foreign, modules

    def token(self, f, before, t, after):
        plain, foreign, modules = self.scope[f]
        m = re.search(r"([\w'·-]+)\.$", before)
        if before.endswith("."):
            if m and m[1] in modules:
                g, o = modules[m[1]]
                return self.exported(g, o).get(t, t)
            if m and m[1] in foreign and m[1] not in plain:
                return t
            return self.field(f, t, after)
        if t in self.aliases[f] and (after[:1] == "." or re.search(r"^\s*(pub )?(ghost )?use [\w.]+ as $", before.split("\n")[-1])):
            return self.aliases[f][t]
        if t in plain:
            return plain[t]
        return t if t in foreign else self.field(f, t)

    def field(self, f, t, after=""):
        """A field of a record of ours. In a function's folder a call of a function of the name goes on with a dot; Rust has the plain words."""
        if f in self.own or re.search(r"[a-z][A-Z]", t) or f.endswith(".antt") and after not in ("", "."):
            return self.fields.get(t, t)
        return t

    def spans(self, text, f=None):
        """Code spans of a comment or a page."""
        def word(w):
            if "-" in w[0] and re.search(r"(^|[\s(])[a-z][\w.'-]*\.$|\s\.$", w.string[:w.start()]):
                return w[0]  # what Rattle makes of a call, as in c.first-refusal.ensures
            new = self.spoken(w[0], f)
            return new if new != w[0] or "-" not in w[0] or w[0].replace("-", "_") not in self.all_new else w[0].replace("-", "_")

        def one(m):
            return re.sub(WORD, word, m[0])
        return re.sub(r"`[^`\n]+`", one, text.replace("..-numbers-one", ".._numbers_one"))

    def comment(self, text, f):
        """A comment: its code spans, and definitions in camel case beside them; V8's constants stay."""
        def plain(w):
            return self.anywhere.get(w[0], w[0]) if re.match(r"(?!k[A-Z])[a-z0-9]+[A-Z]", w[0]) else w[0]
        pieces = re.split(r"(`[^`\n]+`)", text)
        return "".join(self.spans(p, f) if i % 2 else re.sub(WORD, plain, p) for i, p in enumerate(pieces))

    def spoken(self, t, f=None):
        if f and t in self.scope[f][0]:
            return self.scope[f][0][t]
        if t in self.anywhere:
            return t if t.islower() and "-" not in t else self.anywhere[t]
        if re.match(r"[a-z]+[A-Z]", t) and snake(t) in self.all_new:
            return snake(t)
        return t

    def code(self, text, f):
        """A whole file, its strings left and of comments the code spans alone."""
        rust = f.endswith(".rt")
        pattern = (r'(//[^\n]*)|("(?:\\.|[^"\\])*"|b?\'(?:\\[^\n]{1,8}?|[^\'\\])\')|' if rust else r'((?:(?<=\s)|^)--(?=\s)[^\n]*)|("(?:\\.|[^"\\])*")|') + "(" + WORD + ")"
        lists = [(m.start(3), m.end(3), m[2]) for m in USE.finditer(text) if m[3] is not None]
        paths = [(m.start(2), m.end(2)) for m in USE.finditer(text)]

        def one(m):
            if m[1]:
                return self.comment(m[1], f)
            if m[2] or any(a <= m.start() < b for a, b in paths):
                return m[0]
            for a, b, path in lists:
                if a <= m.start() < b:
                    g, o = self.module(path)
                    alias = re.search(r" as $", text[max(a, m.start() - 4):m.start()])
                    return self.scope[f][0].get(m[3], m[3]) if alias else (self.exported(g, o) if g else {}).get(m[3], m[3])
            return self.token(f, text[max(0, m.start() - 160):m.start()], m[3], text[m.end():m.end() + 1])
        return re.sub(pattern, one, text, flags=re.M)

    def edit(self, text, at):
        """A must-fail edit: its old and new lines in the scope of its file, and its comment."""
        m = re.search(r"(?m)^file: *(\S+)", text)
        f = at.split("/must-fail/")[0] + "/" + m[1] if m else None
        f = f if f in self.text else None

        def word(m, line):
            t, before = m[0], line[:m.start()]
            if f and t in self.aliases[f] and line[m.end():m.end() + 1] == ".":
                return self.aliases[f][t]
            if f and not before.endswith("."):
                plain, foreign, _ = self.scope[f]
                if t in plain:
                    return plain[t]
                if t in foreign:
                    return t
            if re.search(r"[a-z][A-Z]", t) and t[0].islower() or "-" in t and f and f.endswith(".antt"):
                return self.spoken(t)
            return t
        out = []
        for line in text.split("\n"):
            if line.startswith("#"):
                line = self.spans(line, f)
            elif not line.startswith("file:"):
                pieces = re.split(r'("(?:\\.|[^"\\])*")', line)
                line = "".join(p if i % 2 else re.sub(WORD, lambda m, p=p: word(m, p), p) for i, p in enumerate(pieces))
            out.append(line)
        return "\n".join(out)

    def page(self, text):
        blocks = re.split(r"(?ms)(^```.*?^```)", text)
        return "".join(re.sub(WORD, lambda w: self.spoken(w[0]), b) if i % 2 else self.spans(b) for i, b in enumerate(blocks))

    def collisions(self):
        told = []
        for f, text in sorted(self.text.items()):
            plain, foreign, _ = self.scope[f]
            bare = uncommented(text, f.endswith(".rt"))
            bare = re.sub(r"(?m)^([ ]*(?:pub )?(?:ghost )?use )([\w.'#·-]+?)(?=\.\{|[ ;]|$)", r"\1", bare)
            for a in self.aliases[f]:
                bare = re.sub(r"(?<![\w.'-])%s(?=\.)|(?<= as )%s\b" % (a, a), self.aliases[f][a], bare)
            seen = collections.Counter(m[0] for m in re.finditer(r"(?<![\w.'-])" + WORD, bare))
            becomes = collections.defaultdict(set)
            for old, new in plain.items():
                becomes[new].add(old)
            for old, new in sorted(plain.items()):
                if new == old or not re.search(r"(?<![\w'-])" + re.escape(old) + r"(?![\w'-])", bare):
                    continue
                if new in KEYWORDS or len(becomes[new]) > 1 or new in foreign:
                    told.append((f, old, new, "keyword" if new in KEYWORDS else "two names" if len(becomes[new]) > 1 else "imported"))
                elif f.endswith(".rt"):
                    for m in re.finditer(r"(?<![\w.:'-])(?<!fn )" + re.escape(new) + r"\b(?!\s*\(|::|')", bare):
                        told.append((f, old, new, "in Rust: " + bare[max(0, m.start() - 30):m.end() + 20].replace("\n", " ")))
                        break
                elif seen[new] and plain.get(new, new) == new and new not in self.fields:
                    told.append((f, old, new, "already there, %d times" % seen[new]))
        by_new = collections.defaultdict(set)
        for old, news in self.spelled.items():
            for new in news:
                by_new[new].add(old)
        for new, olds in sorted(by_new.items()):
            if len(olds) > 1:
                told.append(("", " ".join(sorted(olds)), new, "declared: " + " ".join(sorted({o + "@" + f for f in self.own for o in olds if o in self.new[f] and self.new[f][o] == new}))))
        return told


def main():
    os.chdir(os.path.dirname(os.path.dirname(os.path.abspath(__file__))))
    names = Names()
    told = names.collisions()
    if "--list" in sys.argv:
        for old in sorted(names.spelled):
            for new in sorted(names.spelled[old] - {old}):
                print(old, new)
    for row in told:
        print("collides:", *row, sep="  ")
    count = sum(1 for old in names.spelled if names.spelled[old] != {old})
    print(count, "names,", len(told), "collisions")
    if "--list" in sys.argv:
        return
    if count and any(row[0] for row in told):
        sys.exit(1)
    changed = 0
    todo = [(f, names.code(t, f)) for f, t in names.text.items()]
    todo += [(f, names.edit(open(f, encoding="utf-8").read(), f)) for f in listed("crates/*.edit")]
    todo += [(f, names.page(open(f, encoding="utf-8").read())) for f in listed("*.md")]
    for f, text in todo:
        if text != open(f, encoding="utf-8").read():
            with open(f, "w", encoding="utf-8") as out:
                out.write(text)
            changed += 1
    print(changed, "files changed")


if __name__ == "__main__":
    main()
