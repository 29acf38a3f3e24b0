#!/usr/bin/env python3
"""Brings the definitions and lemmas of every crate to snake case, once, at the top of the repository, after the toolchain's own port script.

A word of specs/ and proofs/ that began with a small letter and had capitals (partFound) or dashes (no-byte) gets underscores (part_found, no_byte). Words
that come from a library keep their spelling, and so do functions, types, modules, texts and what the toolchain names itself. Where two words would fall
together in a file, one of them is in OTHER with the name that it gets. With --dry it changes nothing and says what would fall together.
"""
import collections
import glob
import re
import sys

DRY = "--dry" in sys.argv

WORD = re.compile(r"(?<![A-Za-z0-9_'′₀-₉·◌-])[A-Za-z_][A-Za-z0-9_'′₀-₉·-]*")

# what would fall together with another word: FILES (a part of the path), the word, the name that it gets
OTHER = [
    ("crates/printer/proofs", "all_slots", "all_slots_written"),
    ("crates/cores/", "left_over", "left_over_is"),
    ("crates/demands/proofs/RunPasses", "one_more", "with_one_more"),
    ("crates/demands/proofs/WholeCore", "share_up", "share_up_is"),
    ("crates/demands/proofs/WholeCore", "share-down", "share_down_is"),
    ("crates/demands/", "ran_on", "ran_on_is"),
    ("crates/demands/", "ran-before", "ran_before_is"),
    ("crates/demands/", "bit-left-out", "bit_left_out_row_is_late"),
    ("crates/demands/", "last-subtask", "last_subtask_is"),
    ("crates/demands/", "time-limit", "time_limit_is"),
    ("crates/demands/", "slot-limit", "slot_limit_is"),
    ("crates/demands/", "upper-limit", "upper_limit_is"),
    ("crates/pd2/proofs/Order", "by-D", "by_group_deadline"),
    ("crates/printer/proofs/FullList", "in-full", "listed_in_full"),
    ("crates/table/", "bytes-needed", "bytes_needed_is"),
    ("crates/summary/proofs/FromZero", "place-said", "place_is_said"),
    ("crates/summary/proofs/FromZero", "quanta-said", "quanta_are_said"),
    ("crates/", "how-many", "how_many_picked"),
    ("crates/", "is-picked", "row_is_picked"),
    ("crates/", "is-ready", "row_is_ready"),
    ("crates/", "is-row", "row_is_there"),
    ("crates/", "row-at", "row_at_is"),
    ("crates/", "lacks-room", "lacks_room_is"),
    ("crates/", "own-core", "own_core_is"),
    ("crates/", "some-row", "some_row_is"),
    ("crates/", "some-from", "some_from_is"),
    ("crates/", "ready-from", "ready_from_is"),
]
LAWS = re.compile(r"^([a-z]+)[-_]laws$")


def other(path, word):
    for files, old, new in OTHER:
        if files in path and word == old:
            return new
    if path.endswith("crates/demands/proofs/Laws.antt") and LAWS.match(word):
        return LAWS.match(word).group(1) + "_laws_hold"
    # what a lent slice holds afterwards, which a contract calls `buffer.new`
    if path.endswith("crates/demands/specs/Promises.antt") and re.match(r"^[a-z]+-after$", word):
        return word[: -len("-after")] + "_new"
    return None


def snake(word):
    """The word in snake case; each part of a path with dots in the middle by itself, types among them as they are."""
    parts = []
    for part in word.split("·"):
        if part[:1].isupper():
            parts.append(part)
            continue
        part = part.replace("-", "_")
        part = re.sub(r"(?<=[a-z0-9'])([A-Z])", lambda m: "_" + m.group(1).lower(), part)
        parts.append(re.sub(r"[A-Z]", lambda m: m.group(0).lower(), part))
    return "·".join(parts)


USE = re.compile(r"^(?:pub |ghost )*use ([^ {};]+?)\.\{([^{}]*)\};?", re.M)


def imports(text):
    """module, names as they stand, of each import of names"""
    for m in USE.finditer(text):
        yield m.group(1), [n.strip() for n in m.group(2).split(",") if n.strip()]


def crates():
    return [line.split(":")[0].strip() for line in open("crates.txt") if line.strip() and not line.startswith("#")]


OWN = {"Rattle." + c for c in crates()}


def is_own(module):
    return ".".join(module.split(".")[:2]) in OWN


def code_and_comment(line):
    """an antt line, cut where its comment begins"""
    m = re.search(r"(^|\s)--(\s|$)", line)
    return (line[: m.start()], line[m.start() :]) if m else (line, "")


def files(kind):
    return sorted(glob.glob("crates/*/" + kind, recursive=True))


PROOF = files("proofs/**/Proof.antt")
PLAIN = [f for f in files("specs/**/*.antt") + files("proofs/**/*.antt") if f not in PROOF]
SOURCES = files("src/**/*.rt")


def from_libraries(text):
    return {n.split(" as ")[-1] for module, names in imports(text) if not is_own(module) for n in names}


def declared():
    """the words that specs/ and proofs/ declare, and those of them that are fields"""
    words, fields = set(), set()
    head = re.compile(r"^(\s*)((?:pub |unfoldable |abbrev |record |data )*)(" + WORD.pattern + r")\s*(?=\(|\{|:)")
    for f in PLAIN:
        record = -1
        for line in open(f):
            line = code_and_comment(line)[0]
            m = head.match(line)
            if m:
                words.add(m.group(3))
                indent = len(m.group(1))
                if record >= 0 and indent > record:
                    fields.add(m.group(3))
                else:
                    record = indent if "record " in m.group(2) else -1
    return words, fields


WORDS, FIELDS = declared()


def functions():
    names = set()
    for f in SOURCES:
        names |= set(re.findall(r"\bfn ([a-z_0-9]+)", open(f).read()))
    return names


STEPS = {n.replace("_", "-") for n in functions()}
together = []


def renamed(path, word, known):
    new = other(path, word)
    if new is None and word[0].islower() and snake(word) != word and known(word):
        new = snake(word)
    return new or word


def turn(path, text, known, kept):
    """the text with each word renamed that `known` takes and `kept` has not; `kept` words come from libraries"""
    seen = collections.defaultdict(set)

    def one(m, line):
        word = m.group(0)
        before = line[: m.start()]
        if word in kept and not before.endswith("."):
            return word
        # a path: module names, and what the toolchain makes
        if re.search(r"(^|[^A-Za-z0-9_'])(tie|reads|lts|goal|[a-z]+-reads)\.$", before) or re.search(r"Rattle(\.[A-Za-z0-9_+]+)*\.$", before):
            return word
        if line[m.end() :].startswith(".") and re.match(r"^\.[A-Za-z]", line[m.end() :]) and before.endswith("use "):
            return word
        new = renamed(path, word, known(before))
        seen[new].add(word)
        return new

    out = []
    for line in text.split("\n"):
        code, comment = code_and_comment(line) if path.endswith(".antt") else (line, "")
        code = WORD.sub(lambda m: one(m, code), code)
        comment = re.sub(r"`[^`]*`", lambda q: WORD.sub(lambda m: renamed(path, m.group(0), lambda w: w in WORDS), q.group(0)), comment)
        out.append(code + comment)
    for new, words in seen.items():
        if len(words) > 1:
            together.append((path, new, sorted(words)))
    return "\n".join(out)


def plain(path, text):
    """a file of definitions or lemmas: every word but a library's"""
    kept = from_libraries(text)
    return turn(path, text, lambda before: lambda w: True, kept)


def proof(path, text):
    """a proof of a function: the words that specs/ and proofs/ declare, and not what the toolchain names"""
    kept = from_libraries(text)

    def known(before):
        if before.endswith("."):
            return lambda w: w in FIELDS and w not in STEPS
        return lambda w: w in WORDS

    return turn(path, text, known, kept)


def source(path, text):
    """a source: the imports of ghosts and the clauses; of a comment what stands in backquotes"""
    kept = from_libraries(text)
    known = {n for module, names in imports(text) if is_own(module) for n in names}
    out, depth, ghost = [], 0, False
    for line in text.split("\n"):
        if depth == 0 and not ghost:
            clause = re.match(r"^\s*(requires|ensures|decreases)\b", line)
            ghost = line.startswith("ghost use ")
        if ghost or depth or clause:
            head = re.match(r"^\s*(requires|ensures|decreases)( [a-z_0-9]+)? (?=\{)", line) if depth == 0 and not ghost else None
            cut = head.end() if head else 0
            line = line[:cut] + turn(path, line[cut:], lambda before: lambda w: w in known or (before.endswith(".") and w in FIELDS), kept)
            if ghost:
                ghost = not line.rstrip().endswith(";")
            else:
                depth += line.count("{") - line.count("}")
                clause = None
        elif "//" in line:
            at = line.index("//")
            line = line[:at] + re.sub(r"`[^`]*`", lambda q: WORD.sub(lambda m: snake(m.group(0)) if m.group(0) in WORDS else m.group(0), q.group(0)), line[at:])
        out.append(line)
    return "\n".join(out)


def main():
    for kind, paths in ((plain, PLAIN), (proof, PROOF), (source, SOURCES)):
        for path in paths:
            text = open(path).read()
            new = kind(path, text)
            if new != text and not DRY:
                open(path, "w").write(new)
    for path, new, words in together:
        print(f"together: {path}: {new}: {', '.join(words)}")


main()
