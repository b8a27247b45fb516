#!/usr/bin/env python3
"""Brings this repository's own definitions and lemmas to the spelling of today's Rattle: snake case for definitions, fields and
constructors that are not types, a dash only between two names, `_` before a plain word. Run once, after the kit's port script.

usage: python3 tools/respell.py KIT_LIBRARY [--write]     KIT_LIBRARY: the folder of the kit's .antt files
Without --write it prints the names that it would change, and those that would fall together.
"""
import os
import re
import subprocess
import sys

IDENT = re.compile(r"[A-Za-z_][\w'′]*(?:-[A-Za-z_0-9][\w'′]*)*")
# lemmas that already have the spelling that a definition gets: what each is called instead
OWN = {"no_table": "no_table_lem", "last_line": "last_line_lem", "step_line": "step_line_lem", "built_in": "built_in_lem", "rows-from": "rows_from_lem"}


def antt_files(root):
    for folder, dirs, files in os.walk(root):
        dirs[:] = [d for d in dirs if d not in ("out", "target", ".git")]
        for f in sorted(files):
            if f.endswith(".antt"):
                yield os.path.join(folder, f)


def read(p):
    with open(p, encoding="utf-8") as f:
        return f.read()


def code(text):
    return re.sub(r"(?m)(^|\s)--(?=\s|-).*$", r"\1", text)


def kit_names(kit):
    names = set()
    for p in antt_files(kit):
        names.update(IDENT.findall(code(read(p))))
    return names


def snake(word):
    if not word or word[0].isupper():
        return word
    word = re.sub(r"([a-z0-9])([A-Z])", r"\1_\2", word)
    return word.lower()


def needs_turn(t):
    return "-" in t or (t[0].islower() and any(c.isupper() for c in t))


# definitions of a file: a name at the head of a signature, a field or a constructor
HEAD = re.compile(r"(?m)^\s*(?:(?:abbrev|unfoldable|pub|mutual|private)\s+)*([A-Za-z_][\w'′]*(?:-[A-Za-z_0-9][\w'′]*)*)\s*:(?=\s)")
KINDS = re.compile(r"(?m)^\s*(?:pub\s+)?(?:record|data)\s+([A-Za-z_][\w'-]*)")


def main(argv):
    kit = argv[0]
    write = "--write" in argv[1:]
    known = kit_names(kit)
    root = subprocess.run(["git", "rev-parse", "--show-toplevel"], capture_output=True, text=True, check=True).stdout.strip()
    os.chdir(root)
    ours = [p for p in antt_files("crates")]
    shared = [p for p in ours if not p.endswith("Proof.antt")]
    heads, tokens = set(), set()
    for p in ours:
        t = code(read(p))
        tokens.update(IDENT.findall(t))
        if p in set(shared):
            heads.update(HEAD.findall(t))
    for folder, _, files in os.walk("crates"):
        for f in files:
            if f.endswith(".rt"):
                tokens.update(IDENT.findall(re.sub(r"//.*", "", read(os.path.join(folder, f)))))
    words = {snake(h) for h in heads if "-" not in h} | {h for h in known if "-" not in h and len(h) > 2}

    plain = {"is", "not", "of", "at", "in", "on", "by", "to", "from", "no", "none", "same", "all", "one", "more", "less", "below", "above", "with",
             "inside", "past", "end", "has", "some", "other", "first", "next", "last", "fits", "laws", "law", "after", "before", "within", "kept",
             "here", "there", "either", "never", "only", "whole", "part", "past_end", "rest", "known", "behind", "left"}

    def named(part):
        return part and (part[0].isupper() or (part in words and part not in plain))

    def turn(t):
        if t in OWN:
            return OWN[t]
        parts = [snake(p) for p in t.split("-")]
        out = parts[0]
        for a, b in zip(parts, parts[1:]):
            out += ("-" if named(a) and named(b) else "_") + b
        return out

    names = dict(OWN)
    for h in sorted(heads):
        if needs_turn(h) and h not in known and h not in OWN:
            n = turn(h)
            if n != h:
                names[h] = n
    # local names: those of a function's own proof file keep theirs
    for p in shared:
        for t in set(IDENT.findall(code(read(p)))):
            if needs_turn(t) and t not in known and t not in names and t[0].islower():
                n = turn(t)
                if n not in tokens and n not in names.values():
                    names[t] = n
    # a lemma that would get its function's name
    back = {}
    for a, b in names.items():
        back.setdefault(b, []).append(a)
    for b, a in back.items():
        if len(a) > 1:
            for x in a:
                if "-" in x:
                    names[x] = b + "_lem"
    back = {}
    for a, b in names.items():
        back.setdefault(b, []).append(a)
    for b, a in sorted(back.items()):
        if len(a) > 1 or (b in tokens and b not in names) or b in known:
            print("together:", b, "<-", ", ".join(a), "(in use)" if b in tokens else "", "(the kit's)" if b in known else "")
    print(len(names), "names")
    if not write:
        for a, b in sorted(names.items()):
            print(" ", a, "->", b)
        return 0

    def subst(text, path, comments=True):
        function = path.endswith("Proof.antt")

        def one(m):
            t = m.group(0)
            if t not in names:
                return t
            before = text[m.start() - 1] if m.start() else ""
            if function and before == "." and "-" in t:
                return t
            return names[t]

        return IDENT.sub(one, text)

    def camel(text):
        return re.sub(r"(?<![\w'-])[a-z][a-z0-9]*[A-Z]\w*(?![\w'-])", lambda m: names.get(m.group(0), m.group(0)), text)

    for p in ours:
        t = read(p)
        n = subst(t, p)
        if n != t:
            open(p, "w", encoding="utf-8").write(n)
    for folder, dirs, files in os.walk("."):
        dirs[:] = [d for d in dirs if d not in ("out", "target", ".git")]
        for f in files:
            p = os.path.join(folder, f)
            if f.endswith(".rt") or (f.endswith(".md") and f != "LANDINGS.md"):
                t = read(p)
                n = camel(t)
            elif f.endswith(".edit"):
                t = read(p)
                n = subst(t, p) if ".antt" in t.split("\n")[0] else camel(t)
            else:
                continue
            if n != t:
                open(p, "w", encoding="utf-8").write(n)
    return 0


if __name__ == "__main__":
    raise SystemExit(main(sys.argv[1:]))
