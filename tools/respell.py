#!/usr/bin/env python3
"""Brings the repository's own definitions and lemmas to the spelling of today's Rattle: words in snake case.

usage: tools/respell.py      at the top of the repository, once, after the toolchain's port.py

A definition `bitOf` becomes `bit_of`, a lemma or a field `by-sum` becomes `by_sum`. Names of the library, generated names, functions of src/,
strings and numbers stay. Two names of one file that would fall together are told apart: the lemma gets `_lem`. It prints these.
The table of what became what goes to docs/respelled.tsv.
"""
import collections
import os
import re
import subprocess
import sys

START = r"(?<![\w'₀-₉·\-])"
TOKEN = re.compile(START + r"[A-Za-zα-ωΑ-Ω_][\w'₀-₉·]*(?:-[\w'₀-₉·]+)*")
USE = re.compile(r"^\s*(?:pub |ghost )*use ([^\s{;]+?)(?:\.\{([^}]*)\})?(?: as ([^\s;]+))?;?$", re.M)


def snake(name):
    name = name.replace("-", "_")
    return re.sub(r"(?<=[a-z0-9])([A-Z])", lambda m: "_" + m[1].lower(), name)


def odd(name):
    return name[0].islower() and ("-" in name or re.match(r"[a-z]\w*[A-Z]", name))


def own(path):
    m = re.match(r"Rattle\.(\w+)(?:\.|$)", path)
    return bool(m) and os.path.isdir("crates/" + m[1])


def imports(text):
    """The names that a file has of the library, and those of the repository."""
    lib, ours = set(), set()
    for path, names, alias in USE.findall(text):
        to = ours if own(path) else lib
        for n in re.split(r",\s*", names):
            to.update(w for w in n.strip().split(" as ") if w)
        if alias:
            to.add(alias)
    return lib, ours


def tracked(*ends):
    out = subprocess.run(["git", "ls-files"], capture_output=True, text=True, check=True).stdout.split("\n")
    return [f for f in out if f.endswith(ends)]


def heads(text):
    """Names that a file defines: definitions, fields, parameters, and local names."""
    return {m[0] for m in TOKEN.finditer(re.sub(r"--.*", "", text)) if m[0][0].islower()}


# Lemmas that port.py spelled as a definition that now gets its name.
LEMMAS = [
    ("kept_of", "crates/kernelstill/proofs/WidthsKept.antt"),
    ("number_by", "crates/stream_promises/proofs/Composing.antt"),
    ("line_read", "crates/line_meanings/proofs/Meaning.antt", "crates/hexlines/proofs/read_with_room/Proof.antt"),
    ("turn_by", "crates/round_trip/proofs/Cycles.antt"),
    ("read_as", "crates/promises/proofs/Refusals.antt"),
]


def main():
    for name, *places in LEMMAS:
        for f in places:
            t = open(f).read()
            open(f, "w").write(re.sub(START + name + r"(?![\w'-])", name + "_lem", t))
    antt = [f for f in tracked(".antt") if f.startswith("crates/")]
    rt = [f for f in tracked(".rt") if f.startswith("crates/")]
    texts = {f: open(f).read() for f in antt + rt}
    # A name is the library's where a file imports it from there; elsewhere it is the repository's.
    defined = collections.defaultdict(set)
    for f in antt:
        for m in re.finditer(r"^[ \t]*(?:let |abbrev |unfoldable |pub )*(?:record )?(" + TOKEN.pattern + r")(?=[ :].*)", re.sub(r"--.*", "", texts[f]), re.M):
            defined[m[1]].add(f)
    answers = {}
    for f in antt:
        if f.endswith("/Proof.antt"):
            answers[f] = set(re.findall(r"^(?:abbrev )?(\S+) : (?:tie|lts)\.", texts[f], re.M))
            answers[f] |= set(re.findall(r"^pub (\S+-spec) : ", texts[f], re.M))

    def turned(f, name, before):
        if not odd(name) or name in libs[f] or name in answers.get(f, ()):
            return False
        if before == ".":
            return name in defined and not re.match(r".*-end$", name)
        return True

    libs = {f: imports(t)[0] for f, t in texts.items()}
    # Which names fall together in a file.
    together = collections.defaultdict(set)
    for f, t in texts.items():
        words = {}
        for m in TOKEN.finditer(t):
            n = m[0]
            if n[0].islower():
                to = snake(n) if turned(f, n, t[m.start() - 1 : m.start()]) else n
                words.setdefault(to, set()).add(n)
        for to, froms in words.items():
            if len(froms) > 1:
                together[to] |= {(f, x) for x in froms}
    table = {}
    for to, places in sorted(together.items()):
        names = {x for _, x in places}
        print(f"together: {to}: {sorted(names)} in {sorted({f for f, _ in places})[:4]}")
        dashed = {x for x in names if "-" in x}
        for x in dashed if len(dashed) < len(names) or len(names) == 1 else sorted(dashed)[1:]:
            table[x] = to + "_lem"
    used = {}

    def turn(f, t):
        def one(m):
            n = m[0]
            if not turned(f, n, t[m.start() - 1 : m.start()]):
                return n
            used[n] = table.get(n, snake(n))
            return used[n]

        return one

    for f in antt:
        t = texts[f]
        new = TOKEN.sub(turn(f, t), t)
        if new != t:
            open(f, "w").write(new)
    for f in rt:
        t = texts[f]
        # Strings and code stay: only clauses, imports and comments have such names.
        parts = re.split(r'(b?"(?:[^"\\]|\\.)*")', t)
        new = "".join(p if k % 2 else TOKEN.sub(turn(f, p), p) for k, p in enumerate(parts))
        if new != t:
            open(f, "w").write(new)
    for f in tracked(".md"):
        if not f.startswith(("docs/", "README", "reference/README")):
            continue
        t = open(f).read()
        new = re.sub(r"`[^`\n]+`", lambda s: TOKEN.sub(lambda m: used.get(m[0], m[0]), s[0]), t)
        if new != t:
            open(f, "w").write(new)
    with open("docs/respelled.tsv", "w") as out:
        for n in sorted(used):
            out.write(f"{n}\t{used[n]}\n")
    print(f"{len(used)} names")


if __name__ == "__main__":
    sys.exit(main())
