#!/usr/bin/env python3
"""Turns proofs that walk the code (Proof.antt) into Invariants.antt and Answers.antt, by the names that the kit gives to goals and steps.

usage: python3 tools/answers.py CRATE-FOLDER NAMES.json [FUNCTION-PATH ..]

NAMES.json is written by `rt check --generated FOLDER --old-names` in the crate's folder. A proof that cannot be turned is left and named.
"""

import json
import os
import re
import sys

CRATES = None
OPEN, CLOSE = "({[", ")}]"
FREE = {"args", "requires", "ranges", "lifetimes", "well_formed", "well-formed", "type_inv", "utf8"}
TRIVIAL = {"search rules", "omega arith", "refl", "tt"}
CHAIN = r"(?<![\w'.₀-₉◌])(%s)(?![\w'₀-₉-])((?:\.before)*)((?:\.[\w'₀-₉«»-]+)*)"


class No(Exception):
    pass


def norm(s):
    return s.replace("-", "_").lower()


def parts_of(text, seps=None):
    """Top-level arguments of an application, or parts between commas."""
    out, depth, cur, i = [], 0, "", 0
    in_string = False
    while i < len(text):
        ch = text[i]
        if ch == '"':
            in_string = not in_string
        if not in_string:
            if ch in OPEN:
                depth += 1
            elif ch in CLOSE:
                depth -= 1
        is_sep = depth == 0 and not in_string and (ch.isspace() if seps is None else ch in seps)
        if is_sep:
            if cur.strip():
                out.append(cur.strip())
            cur = ""
        else:
            cur += ch
        i += 1
    if cur.strip():
        out.append(cur.strip())
    return out


def matching(text, i):
    depth, in_string = 0, False
    for k in range(i, len(text)):
        ch = text[k]
        if ch == '"':
            in_string = not in_string
        if in_string:
            continue
        depth += (ch in OPEN) - (ch in CLOSE)
        if depth == 0:
            return k
    raise No("unbalanced")


def labels_in(crates):
    """crate -> function name -> (type, module) list -> labels of ensures and requires."""
    found = {}
    for crate in os.listdir(crates):
        src = os.path.join(crates, crate, "src")
        for folder, _, files in os.walk(src):
            for f in files:
                if not f.endswith(".rt"):
                    continue
                text = re.sub(r"//[^\n]*", "", open(os.path.join(folder, f)).read())
                for m in re.finditer(r"\bfn (\w+)", text):
                    depth, i = 0, m.end()
                    end = len(text)
                    labels = {"ensures": [], "requires": []}
                    # the head: up to the brace that opens the body
                    while i < len(text):
                        c = re.compile(r"\s*(requires|ensures)\s*(\w*)\s*\{").match(text, i)
                        if c:
                            k = matching(text, c.end() - 1)
                            labels[c[1]].append(c[2])
                            i = k + 1
                            continue
                        if text[i] in "([":
                            i = matching(text, i) + 1
                            continue
                        if text[i] in "{;":
                            break
                        i += 1
                    found.setdefault(crate, {}).setdefault(m[1], []).append(labels)
    return found


class Function:
    def __init__(self, crate, path, names, labels):
        self.crate, self.path, self.labels = crate, path, labels
        self.places = names["places"]
        self.new_place = names["places_by_name"]
        self.index = {norm(p[0]): i for i, p in enumerate(self.places)}
        self.arms = names["arms"]
        self.needs = names["needs"]
        self.asked_at = names["asked_at"]
        self.asked = names["asked"]
        self.loops = names["loops"]
        self.changed = names["changed"]
        self.params = names["params"]
        self.notes = []

    def parent(self, i):
        return self.index.get(norm(self.places[i][1])) if self.places[i][1] else None

    def up(self, i, n):
        for _ in range(n):
            above = self.parent(i)
            i = i if above is None else above
        return i

    def clause_labels(self, callee, kind):
        crate, name = callee.split("::")[0], callee.split("::")[-1]
        each = self.labels.get(crate, {}).get(name, [])
        each = [it[kind] for it in each]
        if not each:
            return []
        if any(it != each[0] for it in each):
            self.notes.append(f"clauses of {callee} are not told apart")
            each.sort(key=len)
            return each[-1]
        return each[0]

    def labelled(self, rest, labels):
        """.1.0 of a pair of clauses as .label"""
        if len(labels) < 2:
            return rest
        for k, label in enumerate(labels):
            want = ["1"] * k + (["0"] if k < len(labels) - 1 else [])
            if rest[: len(want)] == want:
                return [label] + rest[len(want) :]
        return rest

    def numbered(self, rest, params):
        """.1.1.0 of a tuple over the parameters as .parameter"""
        k = 0
        while k < len(rest) and rest[k] == "1":
            k += 1
        if k < len(rest) and rest[k] == "0" and k < len(params):
            return [params[k]] + rest[k + 1 :]
        if k == len(params) - 1:
            return [params[k]] + rest[k:]
        return rest

    def field(self, asked, place, path):
        """The path of a field behind a context at that place, as today's."""
        step, rest = path[0], path[1:]
        if step in FREE:
            if step == "well-formed":
                step = "well_formed"
            if step == "requires":
                rest = self.labelled(rest, self.clause_labels(self.crate + "::" + self.path.split("/")[-1], "requires"))
            return [step] + rest
        # what a match told stands in one step for its arm
        i = asked
        while i is not None:
            for new, old_step, old_path in sorted(self.arms[i][2] if self.arms[i] else [], key=lambda it: -len(it[2])):
                if norm(old_step) == norm(step) and rest[: len(old_path)] == old_path:
                    tail = rest[len(old_path) :]
                    if new == "ensures" and tail:
                        callee = self.callee_above(i)
                        tail = self.labelled(tail, self.clause_labels(callee, "ensures")) if callee else tail
                    return [self.arms[i][0], new] + tail
            i = self.parent(i)
        # a kit may count one place more or less on the way, and each step's name stands once on it
        chain = []
        i = asked
        while i is not None:
            chain.append(i)
            i = self.parent(i)
        near = chain.index(place) if place in chain else 0
        found = [k for k, i in enumerate(chain) if norm(self.places[i][2][0]) == norm(step)]
        if not found:
            raise No(f"no step {step} at {self.places[place][0]}")
        i = chain[min(found, key=lambda k: abs(k - near))]
        new, callee = self.places[i][2][1], self.places[i][3]
        if rest and callee:
            if rest[0] == "ensures":
                rest = ["ensures"] + self.labelled(rest[1:], self.clause_labels(callee, "ensures"))
            elif rest[0] == "requires":
                rest = ["requires"] + self.labelled(rest[1:], self.clause_labels(callee, "requires"))
            elif rest[0] in ("new", "auto"):
                rest = [rest[0]] + self.numbered(rest[1:], self.params.get(callee, []))
        return [new] + rest

    def callee_above(self, i):
        while i is not None:
            if self.places[i][3]:
                return self.places[i][3]
            i = self.parent(i)
        return None

    def turn(self, body, contexts):
        """A body with each path behind a context as today's; contexts: name -> place."""
        body = body.replace("\t", " ")
        contexts = dict(contexts)
        root = {}
        for name in contexts:
            root[name] = name
        # let-bound contexts
        while True:
            hit = None
            for m in re.finditer(r"\blet ([\w'₀-₉]+) = ([\w'₀-₉]+)((?:\.before)*) in\b", body):
                if m[2] in contexts and m[1] not in contexts:
                    hit = m
                    break
            if not hit:
                break
            contexts[hit[1]] = self.up(contexts[hit[2]], hit[3].count(".before"))
            root[hit[1]] = root[hit[2]]
        # let-bound steps are written out, as what stands behind them has new names
        for m in list(re.finditer(r"\blet ([\w'₀-₉]+) = (([\w'₀-₉]+)(?:\.before)*\.([\w'-]+)(?:\.[\w'-]+)*) in\s*", body)):
            name, whole, head, step = m[1], m[2], m[3], m[4]
            if head not in contexts or norm(step) in FREE | {"loop"} or name in contexts:
                continue
            body = re.sub(r"(?<![\w'.₀-₉])%s(?=\.[\w'-])" % re.escape(name), whole, body)
            if len(re.findall(r"(?<![\w'.₀-₉])%s(?![\w'₀-₉])" % re.escape(name), body)) == 1:
                body = body.replace(m[0], "", 1)
        def path(m):
            name = m[1]
            place = self.up(contexts[name], m[2].count(".before"))
            fields = [f for f in m[3].split(".") if f]
            if not fields:
                return m[0]
            return ".".join([root[name]] + self.field(contexts[root[name]], place, fields))

        body = re.sub(CHAIN % "|".join(re.escape(n) for n in sorted(contexts, key=len, reverse=True)), path, body)
        # a test of `!b` tells of b itself now
        body = re.sub(r"not-(true|false) _ (c\.if-not[\w.-]*\.\1)\b", r"\2", body)
        # lets of contexts that nothing names any more, the last one first, as each may name the one before it
        while True:
            before = body
            for name in list(contexts):
                if name == root[name]:
                    continue
                form = re.compile(r"\blet %s = [\w'₀-₉]+(?:\.before)* in\s*" % re.escape(name))
                uses = len(re.findall(r"(?<![\w'.₀-₉])%s(?![\w'₀-₉])" % re.escape(name), body))
                if len(form.findall(body)) == uses:
                    body = form.sub("", body)
            if body == before:
                break
        return body


def declarations(text):
    """Blocks parted by empty lines, with the notes above them."""
    return [b.strip("\n") for b in re.split(r"\n\s*\n", text) if b.strip()]


def split_uses(text):
    notes, uses, rest = [], [], text
    pos = 0
    pattern = re.compile(r"\s*(?:(--[^\n]*)\n|(use [^\n{]*(?:\{[^}]*\})?[^\n]*)\n)")
    while True:
        m = pattern.match(text, pos)
        if not m:
            break
        if m[1] is not None:
            if uses:
                break
            notes.append(m[1])
        else:
            uses.append(m[2])
        pos = m.end()
    return notes, uses, text[pos:]


class Declared:
    def __init__(self, block):
        self.block = block
        lines = block.split("\n")
        self.notes = []
        while lines and lines[0].lstrip().startswith("--"):
            self.notes.append(lines.pop(0))
        self.lines = lines
        m = re.match(r"(?:(?:abbrev|unfoldable|pub) )*([^\s:(){}]+)\s*(?:\{[^}]*\}\s*)?:", lines[0]) if lines else None
        self.name = m[1] if m else None
        text = "\n".join(lines)
        self.unfolding = None
        self.sig, self.body = text, ""
        if self.name:
            # the signature goes on to the line that begins with the name again, or unfolding
            for k in range(1, len(lines)):
                if re.match(r"unfolding\b", lines[k]):
                    self.unfolding = lines[k]
                    self.sig, self.body = "\n".join(lines[:k]), "\n".join(lines[k + 1 :])
                    break
                if re.match(re.escape(self.name) + r"(?![\w'-])", lines[k]):
                    self.sig, self.body = "\n".join(lines[:k]), "\n".join(lines[k:])
                    break


def lambda_of(arg):
    a = arg
    while a.startswith("(") and matching(a, 0) == len(a) - 1:
        a = a[1:-1].strip()
    m = re.match(r"λ ((?:[\w'₀-₉]+ ?)+)\.\s+", a)
    if not m:
        return None, a
    return m[1].split(), a[m.end() :]


def as_record(body, labels):
    """A tuple over clauses as a record."""
    lead = ""
    b = body.strip()
    while True:
        m = re.match(r"let ", b)
        if not m:
            break
        # up to its own 'in'
        depth, k, lets = 0, 0, 0
        toks = list(re.finditer(r"[({\[]|[)}\]]|\blet\b|\bin\b", b))
        for t in toks:
            if t[0] in "({[":
                depth += 1
            elif t[0] in ")}]":
                depth -= 1
            elif depth == 0 and t[0] == "let":
                lets += 1
            elif depth == 0 and t[0] == "in":
                lets -= 1
                if lets == 0:
                    k = t.end()
                    break
        lead += b[:k] + " "
        b = b[k:].strip()
    if re.fullmatch(r"[\w'₀-₉.-]+", b):
        # the parts of a pair that stands under a name
        n = len(labels)
        return lead + "record { " + "; ".join(f"{l} = {b}{'.1' * k}{'.0' if k < n - 1 else ''}" for k, l in enumerate(labels)) + " }"
    if b.startswith("rw "):
        # the goal is rewritten before the tuple is given
        last = parts_of(b)[-1]
        if not last.startswith("("):
            return None
        made = as_record(last, labels)
        return made and lead + b[: b.rindex(last)] + "(" + made + ")"
    if not (b.startswith("(") and matching(b, 0) == len(b) - 1):
        return None
    parts = parts_of(b[1:-1], ",")
    while len(parts) < len(labels) and parts[-1].startswith("(") and matching(parts[-1], 0) == len(parts[-1]) - 1 and len(parts_of(parts[-1][1:-1], ",")) > 1:
        parts[-1:] = parts_of(parts[-1][1:-1], ",")
    if len(parts) < len(labels):
        return None
    if len(parts) > len(labels):
        n = len(labels)
        parts = parts[: n - 1] + ["(" + ", ".join(parts[n - 1 :]) + ")"]
    return lead + "record { " + "; ".join(f"{l} = {p}" for l, p in zip(labels, parts)) + " }"


def turn_file(folder, crate, path, names, labels):
    f = Function(crate, path, names, labels)
    file = os.path.join(folder, "proofs", path, "Proof.antt")
    notes, uses, rest = split_uses(open(file, encoding="utf-8").read())
    blocks = [Declared(b) for b in declarations(rest)]
    main = [b for b in blocks if b.name and b.name.endswith("_spec") and "tie.spec" in b.body]
    if len(main) != 1:
        raise No("no one spec")
    main = main[0]
    by_name = {b.name: b for b in blocks if b.name}
    k = main.body.index("tie.spec")
    start = main.body.rfind("(", 0, k)
    if start < 0 or main.body[start + 1 : k].strip():
        # tie.close tie.spec, with nothing to give
        args = []
        after = main.body[k + len("tie.spec") :]
    else:
        end = matching(main.body, start)
        args = parts_of(main.body[k + len("tie.spec") : end])
        after = main.body[end + 1 :]
    if after.strip():
        f.notes.append("behind the spec: " + after.strip()[:60])
    n_loops = len(f.loops)
    if len(args) != 2 * n_loops + len(f.needs):
        raise No(f"{len(args)} arguments, and {n_loops} loops with {len(f.needs)} goals")
    done = {main.name}
    invariants = []
    for i, (label, variables) in enumerate(f.loops):
        for what, arg in zip(("invariant", "decreases"), args[2 * i : 2 * i + 2]):
            b = by_name.get(arg)
            if b is None:
                raise No(f"{arg} is not declared")
            done.add(arg)
            m = re.match(re.escape(arg) + r"((?: [^\s=]+)*) =\s*", b.body)
            if not m:
                raise No(f"{arg} is no plain definition")
            binders, body = m[1].split(), b.body[m.end() :]
            order = [(v, c) for v, c in zip(variables, f.changed[i])]
            flat = [("l.initial." if c else "l.") + v for v, c in order] + ["l." + v for v, c in order if c]
            if len(binders) != len(flat):
                raise No(f"{arg}: {len(binders)} binders for {len(flat)}")
            table = {b: v for b, v in zip(binders, flat) if b != "_"}
            body = re.sub(r"(?<![\w'.₀-₉])([\w'₀-₉]+)", lambda t: table.get(t[1], t[1]), body)
            new = f"{what}-{label[1]}"
            # a long body keeps its lines
            invariants.append("\n".join(b.notes + [f"abbrev pub {new} : goal.{new}"] + ([b.unfolding] if b.unfolding else []) + [f"{new} l =\n    " + body if "\n" in body or len(body) > 120 else f"{new} l = {body}"]))
    answers = []
    given = {}
    lemmas = {}
    for b in blocks:
        m = b.name and re.match(
            r"(?:abbrev )?%s : \(([\w']+) : tie\.([\w-]+)(?: (?:invariant|decreases)-loop)*\)\s*→\s*" % re.escape(b.name), b.sig
        )
        n = m and re.match(re.escape(b.name) + " " + re.escape(m[1]) + r" =\s*", b.body)
        if m and n and "→" not in re.sub(r"\([^()]*→[^()]*\)", "", b.sig[m.end() :]) and b.body.count("\n" + b.name + " ") == 0:
            lemmas[b.name] = (m[1], m[2], b.sig[m.end() :], b.body[n.end() :], b.unfolding)

    def with_lemmas(body, c, place, unfolding):
        """A body in which the lemmas about its context stand as lets, since a step has one name at every place below it."""
        needed = []

        def visit(text):
            def use(m):
                if m[1] not in needed:
                    var, at, kind, proof, opened = lemmas[m[1]]
                    kind, proof = visit(kind), visit(proof)
                    needed.append(m[1])
                    lets[m[1]] = (var, at, kind, proof, opened)
                return m[1]

            names = "|".join(map(re.escape, lemmas))
            return re.sub(r"(?<![\w'.-])(%s)\s+[\w']+(?:\.before)*(?![\w'.-])" % names, use, text) if lemmas else text

        lets = {}
        body = f.turn(visit(body), {c: place})
        head, opened_names = "", (unfolding or "").replace("unfolding", "").split()
        for name in needed:
            var, at, kind, proof, opened = lets[name]
            if norm(at) not in f.index:
                raise No(f"a place {at}")
            it = {var: f.index[norm(at)]}
            kind, proof = f.turn(kind, it), f.turn(proof, it)
            if var != c:
                kind, proof = (re.sub(r"(?<![\w'.])%s(?=\.)" % re.escape(var), c, t) for t in (kind, proof))
            head += f"let {name} : {' '.join(kind.split())} = {proof.strip()} in\n    "
            opened_names += [w for w in (opened or "").replace("unfolding", "").split() if w not in opened_names]
        return head + body, "unfolding " + " ".join(opened_names) if opened_names else None
    for (old, new), (old_place, new_place), arg in zip(f.needs, f.asked_at, args[2 * n_loops :]):
        place = f.index[norm(old_place)]
        binders, body = lambda_of(arg)
        unfolding, note = main.unfolding, []
        if binders is None:
            b = by_name.get(arg)
            if b is None or "tie.Need" not in b.sig:
                # a lemma of the context, or an imported one
                binders, body = ["c"], arg + " c"
                if b is None and re.fullmatch(r"[\w'-]+", arg) is None:
                    raise No(f"argument {arg[:40]}")
            else:
                done.add(arg)
                unfolding, note = b.unfolding, b.notes
                m = re.match(re.escape(arg) + r"((?: [^\s=]+)*) =\s*", b.body)
                if not m:
                    raise No(f"{arg} is no plain definition")
                binders, body = m[1].split(), b.body[m.end() :]
                given[arg] = new
        if body.strip() == "search rules" or (body.strip() in TRIVIAL and not unfolding):
            continue
        if not binders:
            # given as a function
            binders, body = ["c"], "(" + body + ") c"
        c = binders[0]
        body, unfolding = with_lemmas(body, c, place, unfolding)
        if len(binders) > 1 and binders[1] == "κs":
            if re.search(r"(?<![\w'.])κs(?![\w'])", body):
                f.notes.append(f"{new} names {binders[1]}")
        elif len(binders) > 1:
            body = "λ " + " ".join(binders[1:]) + ". " + body
        if old in f.asked and len(f.asked[old]) > 1:
            made = as_record(body, f.asked[old])
            if made is None:
                f.notes.append(f"{new}: clauses {f.asked[old]} of {body[:60]}")
            else:
                body = made
        head = f"{new} {c} ="
        body = body.strip()
        answers.append("\n".join(note + [f"pub {new} : goal.{new}"] + ([unfolding] if unfolding else []) + [head + "\n    " + body if "\n" in body or len(body) > 120 else head + " " + body]))
    own = []
    for b in blocks:
        if b.name in done or b.name in lemmas:
            continue
        text = "\n".join(b.lines)
        contexts = {}
        for m in re.finditer(r"\(([\w']+) : tie\.([\w-]+)((?: (?:invariant|decreases)-loop)*)\)", text):
            if norm(m[2]) not in f.index:
                raise No(f"a place {m[2]}")
            contexts[m[1]] = f.index[norm(m[2])]
        if "tie." in re.sub(r"\(([\w']+) : tie\.([\w-]+)((?: (?:invariant|decreases)-loop)*)\)", "", text):
            f.notes.append(f"tie in {b.name or text[:40]}")
        if contexts:
            text = f.turn(text, contexts)
            text = re.sub(
                r"\(([\w']+) : tie\.([\w-]+)((?: (?:invariant|decreases)-loop)*)\)", lambda m: f"({m[1]} : goal.{f.new_place[f.index[norm(m[2])]]})", text
            )
        own.append("\n".join(b.notes + [text]))
    module = f"Rattle.{crate}.proofs.{path.replace('/', '.')}"
    uses = [u for u in uses if ".Statement.{" not in u and not re.search(r"\.Tie as tie$", u)]
    base = os.path.join(folder, "proofs", path)
    notes = [re.sub(r"\s*Assumes nothing\.", "", n) for n in notes]
    if invariants:
        with open(os.path.join(base, "Invariants.antt"), "w", encoding="utf-8") as it:
            it.write("\n".join(uses + [f"use {module}.Given as goal", "", "\n\n".join(invariants)]) + "\n")
    if answers or own:
        with open(os.path.join(base, "Answers.antt"), "w", encoding="utf-8") as it:
            it.write("\n".join(notes + uses + [f"use {module}.Goals as goal", "", "\n\n".join(own + answers)]) + "\n")
    os.remove(file)
    return f.notes


def main(argv):
    folder, names_file, only = argv[0], argv[1], set(argv[2:])
    crate = os.path.basename(os.path.realpath(folder))
    labels = labels_in(os.path.join(folder, ".."))
    every = json.load(open(names_file))
    for key, names in sorted(every.items()):
        m = re.fullmatch(r"Rattle-(\w+)-proofs\.(.*)\.Lts", key)
        if not m:
            print("not turned:", key)
            continue
        path = m[2].replace(".", "/")
        if only and path not in only:
            continue
        if not os.path.exists(os.path.join(folder, "proofs", path, "Proof.antt")):
            continue
        try:
            for n in turn_file(folder, crate, path, names, labels):
                print(f"look: {path}: {n}")
        except (No, KeyError, ValueError, IndexError) as e:
            print(f"left: {path}: {type(e).__name__} {e}")


if __name__ == "__main__":
    main(sys.argv[1:])
