#!/usr/bin/env python3
"""Brings the repository's own names of definitions and lemmas to today's spelling, once, behind the kit's port.py.

usage: python3 tools/respell.py [--look]     at the top of the repository; --look writes nothing and lists what meets

A definition, lemma, field or constructor of specs/ and proofs/ is in snake case, a type in upper camel case, a prime is an apostrophe. A name that
Rattle makes of a function, a parameter or a local keeps that name's own spelling behind a dot of a proof. Names of the libraries, labels that Rattle
makes, functions of src/, exported names, strings, inputs and outputs stay as they are.
"""

import collections
import os
import re
import sys

TOKEN = re.compile(r"\"(?:[^\"\\\n]|\\.)*\"|[^\s(){}.;,@\"«»\[\]]+")
DECLARED = re.compile(r"(?m)^ *(?:(?:pattern|unfoldable|abbrev|pub|record|data|mod|module) +)*([^\s(){}.;,]+)(?: \{[^{}\n]*\})* :(?= |$)")
DECLARED_TYPE = re.compile(r"(?m)^ *(?:(?:pub|abbrev|unfoldable) +)*(?:record|data) ([^\s(){}.;,]+)")
CASES = re.compile(r"(?m)^ +((?:[^\s(){}.;,=λ→:]+ )+):(?= )")
LET = re.compile(r"\blet ([^\s(){}.;,]+)(?= [:=])")
CLAUSE = re.compile(r"(?m)^ *([^\s(){}.;,]+)(?: [^\s=]+)* =(?= |$)")
USE = re.compile(r"\buse ([^\s;{]+)\.\{([^}]*)\}")
# Labels that Rattle makes for goals and facts, in proofs that walk the code.
LABEL = re.compile(
    r"(invariant|decreases)-loop\d*|returns(-\d+)?|loop-(test|again|init|preserved|smaller)(-\d+)?|Need-.*|After-.*|Lts-.*|In-loop|enum-told\d*|.*-kinds|.*-lts"
    r"|shared-slice-known\d*|eed-.*"
)
# Own names that today's spelling would bring together with another one of the same file.
OTHERWISE = {}


def is_old(name):
    return "′" in name or re.search(r"[\w'₀-₉]-[\w'₀-₉]", name) is not None


def today(name):
    if name in OTHERWISE:
        return OTHERWISE[name]
    name = name.replace("′", "'")
    if re.match(r"[A-Z][a-z]", name) and "-" in name:
        return "".join(w[:1].upper() + w[1:] for w in re.split("[-_]", name))
    return name.replace("-", "_")


def without_notes(text):
    return re.sub(r"--[^\n]*", "", text)


def files(root, ends):
    for folder, dirs, names in os.walk(os.path.join(root, "crates")):
        dirs[:] = sorted(d for d in dirs if d not in ("out", "must-fail"))
        yield from (os.path.join(folder, n) for n in sorted(names) if n.endswith(ends))


def is_of_library(path):
    return not re.match(r"(Rattle|package)\b", path) or re.match(r"Rattle\.(core|std\w*|libc|io|os)\b", path) is not None


def main(argv):
    look = argv == ["--look"]
    proofs, sources = list(files(".", ".antt")), list(files(".", ".rt"))
    texts = {p: open(p, encoding="utf-8").read() for p in proofs + sources}
    own, rust, turned_before = set(), set(), set()
    for p in proofs:
        t = without_notes(texts[p])
        for form in (DECLARED, DECLARED_TYPE, LET, CLAUSE):
            own |= {m[1] for m in form.finditer(t)}
        own |= {n for m in CASES.finditer(t) for n in m[1].split()}
        # names that port.py turned where they are declared, and not at each use
        turned_before |= set(TOKEN.findall(t)) if "/specs/" in p else set()
    for p in sources:
        rust |= set(re.findall(r"[A-Za-z_]\w*", re.sub(r"//[^\n]*", "", texts[p])))
    own = {n for n in own if is_old(n) and not LABEL.fullmatch(n)}

    def is_own(name):
        return name in own or ("_" in today(name) and today(name) in turned_before)

    def of_rust(name):
        name = re.sub(r"[₀-₉\d]+$", "", name.replace("-", "_"))
        return name in rust

    meets = []
    for p, text in texts.items():
        lent = set()
        for m in USE.finditer(text):
            if is_of_library(m[1]):
                lent |= {n for n in re.split(r"[\s,]+", m[2]) if n}
        before = set(TOKEN.findall(without_notes(text) if p.endswith(".antt") else re.sub(r"//[^\n]*", "", text)))
        in_sources = p.endswith(".rt")
        made = {}

        def turned(m):
            name = m[0]
            if name[:1] == '"' or not is_old(name) or name in lent or LABEL.fullmatch(name) or "'" in name[:2] and name[:1] != "b" and "-'" in name:
                return name
            behind_dot = m.start() > 0 and text[m.start() - 1] == "."
            if in_sources and not is_own(name):
                return name
            # behind a dot stands a field, a case or a module of ours, or what Rattle makes of a name of src/
            if not behind_dot or is_own(name) or of_rust(name):
                made[name] = today(name)
            return made.get(name, name)

        new = TOKEN.sub(turned, text)
        for old, word in sorted(made.items()):
            if word in before:
                meets.append(f"{p}: {old} and {word}")
        by_word = collections.defaultdict(set)
        for old, word in made.items():
            by_word[word].add(old)
        meets += [f"{p}: {sorted(olds)} fall together as {w}" for w, olds in by_word.items() if len(olds) > 1]
        if new != text and not look:
            with open(p, "w", encoding="utf-8") as f:
                f.write(new)
    print("\n".join(meets) or "nothing meets")
    left = collections.Counter()
    for p in proofs + sources:
        t = open(p, encoding="utf-8").read()
        for n in TOKEN.findall(without_notes(t) if p.endswith(".antt") else re.sub(r"//[^\n]*", "", t)):
            if is_old(n):
                left[n] += 1
    if not look:
        print("still of the older form:", " ".join(sorted(left)))


if __name__ == "__main__":
    main(sys.argv[1:])
