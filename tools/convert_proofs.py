#!/usr/bin/env python3
"""Turns the proofs of a crate's functions that walk the code by hand (proofs/F/Proof.antt, over the toolchain's older names) into answers and invariants.

    convert_proofs.py CRATE NAMES

at the top of the repository, after `rt check --generated NAMES --old-names` in crates/CRATE. For each proofs/F/Proof.antt it writes proofs/F/Invariants.antt
(invariants and measures) and proofs/F/Answers.antt (the goals, under today's names; those that were answered by a search alone are left out, since the check
finds them), and removes the old file. What it cannot turn is left with a line that begins `-- by hand`. It goes by text: the check decides.
"""
import json
import os
import re
import sys

crate, names = sys.argv[1], sys.argv[2]
known = json.load(open(os.path.join(names, "names.json")))
root = os.path.join("crates", crate, "proofs")

IDENT = r"[A-Za-z_μ][A-Za-z0-9_'′₀-₉-]*"
TRIVIAL = re.compile(r"^(omega arith|search rules|refl|search \(rules, arith\)|omega \(arith\)|tt)$")


def facts_of(folder):
    """what the toolchain says of the function whose proofs lie in this folder"""
    path = folder.replace("/", ".")
    for key in (f"Rattle-{crate}-proofs.{path}.Lts", f"Rattle-{crate}-proofs.{path}.Tie"):
        if key in known:
            return known[key]
    return None


def blocks(text):
    return [b for b in re.split(r"\n\n+", text.strip("\n")) if b.strip()]


def split_top(s):
    """the parts of a tuple's inside, cut at its own commas"""
    parts, depth, cur = [], 0, ""
    for ch in s:
        if ch in "([{":
            depth += 1
        elif ch in ")]}":
            depth -= 1
        if ch == "," and depth == 0:
            parts.append(cur)
            cur = ""
        else:
            cur += ch
    parts.append(cur)
    return [p.strip() for p in parts]


def whole_parentheses(s):
    """the inside of a term that is one pair of parentheses"""
    s = s.strip()
    if not (s.startswith("(") and s.endswith(")")):
        return None
    depth = 0
    for i, ch in enumerate(s):
        if ch == "(":
            depth += 1
        elif ch == ")":
            depth -= 1
            if depth == 0 and i < len(s) - 1:
                return None
    return s[1:-1]


def flat_tuple(s, count):
    """the parts of nested pairs, (a, (b, c)) or (a, b, c), if there are so many"""
    inside = whole_parentheses(s)
    if inside is None:
        return None
    parts = split_top(inside)
    while len(parts) < count:
        more = flat_inside(parts[-1])
        if more is None:
            return None
        parts[-1:] = more
    return parts if len(parts) == count else None


def flat_inside(s):
    inside = whole_parentheses(s)
    if inside is None:
        return None
    parts = split_top(inside)
    return parts if len(parts) > 1 else None


# steps that tools/snake_names.py took for words of ours
RENAMED = [("how-many", "how_many_picked"), ("is-picked", "row_is_picked"), ("is-ready", "row_is_ready"), ("row-at", "row_at_is"), ("own-core", "own_core_is")]


def arguments_of(folder):
    """the names of the function's arguments, from the sources"""
    parts = folder.split("/")
    src = os.path.join("crates", crate, "src")
    stem = {"lib.rt", "main.rt"} if len(parts) == 1 or parts[0][0].isupper() else {parts[0] + ".rt"}
    for file in sorted(os.listdir(src)):
        if file not in stem:
            continue
        m = re.search(r"\bfn %s\(([^()]*(?:\([^()]*\)[^()]*)*)\)" % re.escape(parts[-1]), open(os.path.join(src, file)).read())
        if m:
            return [re.sub(r"^(mut )?", "", a.strip()).split(":")[0].strip().lstrip("&") for a in split_top(m.group(1)) if a.strip()]
    return []


class Function:
    def __init__(self, folder):
        self.folder = folder
        self.facts = facts_of(folder)
        self.path = os.path.join(root, folder)
        self.text = open(os.path.join(self.path, "Proof.antt")).read()
        self.steps, self.needs, self.params, self.helpers = {}, {}, {}, []
        for place in self.facts["places"]:
            old, new = place[2]
            if old and old != "":
                self.steps[old.replace("_", "-")] = new
                self.steps[old] = new
                if place[3]:
                    self.params[new] = self.facts["params"].get(place[3], [])
        for old, new in RENAMED:
            if old in self.steps:
                self.steps[new] = self.steps[old]
        self.arguments = arguments_of(folder)
        for loop in self.facts["loops"]:
            self.steps[loop[0][0]] = loop[0][1]
        for old, new in self.facts["needs"]:
            self.needs[self.key(old)] = new
        self.clauses = {self.key(k): v for k, v in self.facts["asked"].items()}

    @staticmethod
    def key(name):
        name = name.replace("_", "-")
        name = re.sub(r"^overflow-|^nonzero-", "", name)
        return {"loop-holds": "loop-init"}.get(name, name)

    # text of a term: steps and names as they are today
    def term(self, text):
        text = re.sub(r"(\.before)+(?=[.\s)\],;]|$)", "", text)
        # `let a = c in` says nothing now
        while True:
            m = re.search(r"let (%s) = (c|a|so_far|at) in\s*" % IDENT, text)
            if not m:
                break
            rest = text[m.end():]
            rest = re.sub(r"(?<![A-Za-z0-9_'.-])%s(?![A-Za-z0-9_'-])" % re.escape(m.group(1)), m.group(2), rest)
            text = text[: m.start()] + rest
        text = re.sub(r"((?<![A-Za-z0-9_'.-])c)\.(%s)" % IDENT, lambda m: m.group(1) + "." + self.steps.get(m.group(2), m.group(2)), text)
        # an argument that had a number
        text = re.sub(r"\.args\.t(\d+)", lambda m: ".args." + (self.arguments[int(m.group(1)) - 1] if int(m.group(1)) <= len(self.arguments) else "t" + m.group(1)), text)
        # what a lent argument holds afterwards
        def new(m):
            params = self.params.get(m.group(1))
            if params and int(m.group(2)) < len(params):
                return f".{m.group(1)}.new.{params[int(m.group(2))]}"
            return m.group(0)
        text = re.sub(r"\.(%s)\.new\.(\d+)(\.0)?" % IDENT, new, text)
        text = text.replace(".taken", ".true").replace(" κs =", " =")
        # a negation is read as what it negates
        text = re.sub(r"not-(?:true|false) _ (c\.if-not-[^\s)]*)", r"\1", text)
        text = re.sub(r"\((c\.if-not-[^\s()]*)\)", r"\1", text)
        text = re.sub(r"⊎_elim\s*\(λ w\. ", "⊎_elim (λ w. ", text)
        return text

    def head_type(self, text):
        """types of places in lemmas: tie.At-loop, lts.Else1"""
        table = dict(self.facts["asked_at"])
        old = {k.replace("_", "-"): v for k, v in table.items()}
        for place, by in zip(self.facts["places"], self.facts["places_by_name"]):
            old[place[0].replace("_", "-")] = by
            old[place[0]] = by
        def one(m):
            name = m.group(2)
            return "tie." + old.get(name, name) if not name.startswith("Need-") else m.group(0)
        return re.sub(r"\b(tie|lts)\.(%s)" % IDENT, one, text)

    def helper(self, body):
        """a lemma of a place alone: its name, its statement and its proof over c, to be a `let` where it is used"""
        m = re.match(r"^(?:pub )?(%s) :\s+\((%s) : (?:tie|lts)\.[^()]*(?:\([^()]*\)[^()]*)*\)\s*→\s*(.*?)\n((?:unfolding [^\n]*\n)?)\1\s+(.*)$" % (IDENT, IDENT), body, re.S)
        if not m or m.group(4) or "\n  where" in body:
            return None
        name, var, statement, rest = m.group(1), m.group(2), m.group(3), m.group(5)
        k = re.match(r"^(%s|_)((?:\s+(?:%s|_))*)\s*=\s*(.*)$" % (IDENT, IDENT), rest, re.S)
        if not k or re.search(r"\n%s " % re.escape(name), body[m.start(5):]):
            return None
        def over_c(text, v):
            return self.term(re.sub(r"(?<![A-Za-z0-9_'.-])%s(?![A-Za-z0-9_'-])" % re.escape(v), "c", text)) if v != "_" else self.term(text)
        proof = over_c(k.group(3), k.group(1))
        for arg in reversed(k.group(2).split()):
            proof = f"λ {arg}. {proof}"
        one = lambda t: re.sub(r"\s*\n\s*", " ", t.strip())
        return name, one(over_c(statement, var)), one(proof)

    def with_helpers(self, term):
        """the term, with those lemmas of places in front that it uses"""
        front = []
        for name, statement, proof in reversed(self.helpers):
            use = r"(?<![A-Za-z0-9_'.-])%s\s+c(?![A-Za-z0-9_'.-])" % re.escape(name)
            whole = " ".join(front) + " " + term
            if not re.search(use, whole):
                continue
            term = re.sub(r"\(%s\)" % use, name, term)
            term = re.sub(use, name, term)
            front = [re.sub(use, name, re.sub(r"\(%s\)" % use, name, f)) for f in front]
            front.insert(0, f"let {name} : {statement} = {proof} in")
        return "\n    ".join(front + [term])

    def loop_of(self, name):
        """`invariant-loop2`: which loop"""
        tail = re.sub(r"^(invariant|decreases|μ|Inv)-", "", name)
        for loop, changed in zip(self.facts["loops"], self.facts["changed"]):
            if loop[0][0] == tail:
                return loop, changed
        return None, None

    def choice(self, kind, name, body):
        """an invariant or a measure over the record l of the live variables"""
        loop, changed = self.loop_of(name)
        m = re.match(r"^(%s)((?:\s+(?:%s|_))*)\s*=\s*(.*)$" % (IDENT, IDENT), body, re.S)
        if not loop or not m:
            return None
        args = m.group(2).split()
        vars_ = loop[1]
        wanted = ["l.initial." + v if ch else "l." + v for v, ch in zip(vars_, changed)] + ["l." + v for v, ch in zip(vars_, changed) if ch]
        term = m.group(3)
        odd = len(args) != len(wanted)
        table = dict(zip(args, wanted))
        term = re.sub(r"(?<![A-Za-z0-9_'′₀-₉.-])%s" % IDENT, lambda k: table.get(k.group(0), k.group(0)), term)
        new = f"{kind}-{loop[0][1]}"
        out = f"abbrev pub {new} : goal.{new}\n{new} l = {term}"
        if odd:
            out = f"-- by hand: the old one had the arguments {' '.join(args)} for {' '.join(wanted)}\n" + out
        return out

    def answer(self, lines_before, need, definition, unfolding):
        key = self.key(need)
        new = self.needs.get(key)
        definition = definition.replace(" κs =", " =")
        m = re.match(r"^%s((?:\s+%s)*)\s*=\s*(.*)$" % (IDENT, IDENT), definition, re.S)
        if new is None:
            print(f"{crate}/{self.folder}: {need} is asked no more")
            return None
        if m is None:
            return f"-- by hand: {need}\n" + "\n".join("-- " + l for l in definition.split("\n"))
        term = self.term(m.group(2).strip())
        if TRIVIAL.match(term) and not unfolding:
            return None
        clauses = self.clauses.get(key)
        if clauses and len(clauses) > 1:
            let, inner = "", term
            while True:
                k = re.match(r"^(let .*? in\s+)(?=\(|let )", inner, re.S)
                if not k:
                    break
                let += k.group(1)
                inner = inner[k.end():]
            parts = flat_tuple(inner, len(clauses))
            if parts:
                fields = [f"{c} = {p}" for c, p in zip(clauses, parts)]
                term = let + "record { " + "; ".join(fields) + " }"
            else:
                paths = [".1" * i + (".0" if i < len(clauses) - 1 else "") for i in range(len(clauses))]
                fields = [f"{c} = all_hold{p}" for c, p in zip(clauses, paths)]
                term = let + f"let all_hold = {inner} in\n    record {{ " + "; ".join(fields) + " }"
        term = self.with_helpers(term)
        out = list(lines_before) + [f"pub {new} : goal.{new}"] + unfolding + [f"{new} c ="]
        if "\n" in term or len(term) > 140:
            out += ["    " + term]
        else:
            out[-1] += " " + term
        return "\n".join(out)

    def convert(self):
        invariants, answers, imports = [], [], []
        for block in blocks(self.text):
            lines = block.split("\n")
            if lines[0].startswith("use ") or lines[0].startswith("-- ") and any(l.startswith("use ") for l in lines):
                imports += [l for l in lines]
                continue
            comments = []
            while lines and lines[0].startswith("--"):
                comments.append(lines.pop(0))
            if not lines:
                continue
            body = "\n".join(lines)
            if re.match(r"^pub %s-?_?spec" % IDENT, body) or re.search(r"^pub [^\n]* : \{M : Type 1\} → statement M", body):
                continue
            m = re.match(r"^(?:abbrev )?(?:pub )?(%s) : tie\.(invariant|decreases)-(%s)[^\n]*\n(.*)$" % (IDENT, IDENT), body, re.S)
            if m:
                turned = self.choice(m.group(2), m.group(2) + "-" + m.group(3), m.group(4))
                invariants.append("\n".join(comments + [turned or "-- by hand\n" + "\n".join("-- " + l for l in lines)]))
                continue
            m = re.match(r"^(?:abbrev )?(?:pub )?(%s) : tie\.Need-(%s)[^\n]*\n(.*)$" % (IDENT, IDENT), body, re.S)
            if m:
                rest = m.group(3).split("\n")
                unfolding = [l for l in rest if l.startswith("unfolding ")]
                definition = "\n".join(l for l in rest if not l.startswith("unfolding "))
                turned = self.answer(comments, m.group(2), definition, unfolding)
                if turned:
                    answers.append(turned)
                continue
            helper = self.helper(body)
            if helper:
                self.helpers.append(helper)
                continue
            answers.append("\n".join(comments + [self.head_type(self.term(body))]))
        path = self.folder.replace("/", ".")
        keep = [l for l in imports if not re.search(r"\.proofs\.%s\.(Statement|Tie|Reads|Lts)\b" % re.escape(path), l) and not re.search(r" as (tie|reads|lts|[a-z_-]+-reads)$", l)]
        head = self.shorter_imports("\n".join(keep))
        def write(file, parts, goal):
            if not parts:
                return
            text = "\n\n".join(parts)
            uses = self.used(head, text)
            if "tie." in text:
                uses.append(f"use Rattle.{crate}.proofs.{path}.Tie as tie")
            uses.append(f"use Rattle.{crate}.proofs.{path}.{goal} as goal")
            open(os.path.join(self.path, file), "w").write("\n".join(uses) + "\n\n" + text + "\n")
        write("Invariants.antt", invariants, "Given")
        write("Answers.antt", answers, "Goals")
        os.remove(os.path.join(self.path, "Proof.antt"))

    @staticmethod
    def shorter_imports(text):
        """each import as one line"""
        text = re.sub(r"\{\s*\n\s*", "{", text)
        text = re.sub(r",\s*\n\s*", ", ", text)
        text = re.sub(r",?\s*\n?\s*\}", "}", text)
        return text.split("\n")

    @staticmethod
    def used(head, text):
        out = []
        for line in head:
            m = re.match(r"^use ([^ {}]+)\.\{([^}]*)\}$", line)
            if not m:
                if line.strip():
                    out.append(line)
                continue
            keep = []
            for name in [n.strip() for n in m.group(2).split(",")]:
                plain = name.split(" as ")[-1]
                core = plain.strip("◌")
                word = core if core else plain
                if re.search(r"(?<![A-Za-z0-9_'-])%s(?![A-Za-z0-9_'-])" % re.escape(word), text) or (not word.isalnum() and word in text):
                    keep.append(name)
            if keep:
                out.append(f"use {m.group(1)}.{{{', '.join(keep)}}}")
        return out


done = hand = 0
for folder, _, files in sorted(os.walk(root)):
    if "Proof.antt" not in files:
        continue
    name = os.path.relpath(folder, root)
    if facts_of(name) is None:
        print(f"{crate}/{name}: the toolchain names no such function")
        continue
    f = Function(name)
    f.convert()
    done += 1
    for file in ("Invariants.antt", "Answers.antt"):
        path = os.path.join(folder, file)
        if os.path.exists(path):
            for n, line in enumerate(open(path), 1):
                if "by hand" in line or re.search(r"⊎_elim|tie\.|\.auto\b|\bκs\b|\.new\.\d|\.args\.t\d", line):
                    hand += 1
                    print(f"{path}:{n}: {line.strip()[:150]}")
print(f"{crate}: {done} proofs turned, {hand} lines to look at")
