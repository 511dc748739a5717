#!/usr/bin/env python3
"""Counts the places that the design pass is about, in src/ of every crate.

    python3 tools/places.py [POINT]        the counts, or the places of one point (1 to 8), a line each

Run it at the top of the repository. It reads text, not meaning: a place that it prints may be as it should be, and
docs/DESIGN-PASS.md says what became of each.
"""
import collections
import difflib
import pathlib
import re
import sys

ROOT = pathlib.Path("crates")


def files(folder, suffix):
    for crate in sorted(ROOT.iterdir()):
        for path in sorted((crate / folder).rglob("*" + suffix)):
            yield path


def code(path):
    """The lines without comments."""
    out = []
    for line in path.read_text().split("\n"):
        out.append(re.sub(r"(^|\s)//.*", "", line))
    return out


class Fn:
    """A function: where it stands, its head, its clauses and its body."""

    def __init__(self, path, row, text):
        self.path, self.row = path, row
        head, brace = text, text.find("{")
        match = re.search(r"fn\s+(\w+)", text)
        self.name = match.group(1)
        self.clauses = [re.sub(r"\s+", " ", c).strip() for c in re.findall(
            r"^\s*(?:requires|ensures)\*?\s*(?:\w+\s*)?\{(.*)\}\s*$", text, re.M)]
        stop = re.search(r"^\s*(?:requires|ensures)", text, re.M)
        end = stop.start() if stop else brace
        self.head = re.sub(r"\s+", " ", text[:end]).strip()
        body = re.split(r"^\s*(?:requires|ensures)\*?\s*(?:\w+\s*)?\{.*\}\s*$", text, flags=re.M)[-1]
        self.body = re.sub(r"\s+", " ", body if stop else text[brace:]).strip()

    def place(self):
        return f"{self.path}:{self.row}: {self.name}"


def functions():
    for path in files("src", ".rt"):
        lines = code(path)
        row = 0
        while row < len(lines):
            match = re.match(r"(\s*)(pub(\(crate\))? )?(const )?fn \w+", lines[row])
            if not match:
                row += 1
                continue
            start = row
            closing = match.group(1) + "}"
            opened = False
            while row < len(lines):
                opened = opened or lines[row].rstrip().endswith("{")
                if lines[row].startswith(closing) or lines[row].rstrip().endswith("{}"):
                    break
                if not opened and lines[row].rstrip().endswith(";"):
                    break  # a declaration in a trait
                row += 1
            yield Fn(path, start + 1, "\n".join(lines[start:row + 1]))
            row += 1


def lines_with(pattern, keep=lambda path, line: True):
    for path in files("src", ".rt"):
        for row, line in enumerate(code(path), 1):
            if re.search(pattern, line) and keep(path, line):
                yield f"{path}:{row}: {line.strip()}"


def point_1():
    """Enums that may be an Option or a Result, bools for what a call did, numbers that stand for none, a value beside what is left."""
    for path in files("src", ".rt"):
        text = "\n".join(code(path))
        for match in re.finditer(r"^(?:pub(?:\(crate\))? )?enum (\w+) \{(.*?)^\}", text, re.M | re.S):
            cases = [c.strip() for c in match.group(2).split(",\n") if c.strip()]
            bare = [c for c in cases if re.fullmatch(r"\w+,?", c)]
            if 2 <= len(cases) <= 3 and len(bare) < len(cases):
                yield f"{path}:{text[:match.start()].count(chr(10)) + 1}: enum {match.group(1)}"
        for match in re.finditer(r"^(?:pub(?:\(crate\))? )?struct (\w+) \{(.*?)^\}", text, re.M | re.S):
            if re.search(r"\brest: u", match.group(2)):
                yield f"{path}:{text[:match.start()].count(chr(10)) + 1}: struct {match.group(1)} with what is left beside its value"
    for f in functions():
        if "&mut" in f.head and f.head.endswith("-> bool"):
            yield f"{f.place()}: answers a bool for what it did"
    for path in files("src", ".rt"):
        for row, line in enumerate(path.read_text().split("\n"), 1):
            if re.search(r"//.*(\b0 and 0\b|\bor 0\b|: 0 where|k \+ 1 if none)", line):
                yield f"{path}:{row}: {line.strip()}"
    yield from lines_with(r"\b(length|len) == 0 \{", lambda p, l: "()" not in l)


def words(text):
    return re.findall(r"\w+|[^\s\w]", text)


def point_2():
    """Functions whose code is nearly that of another of the same crate."""
    by_crate = collections.defaultdict(list)
    for f in functions():
        if len(words(f.body)) >= 24:
            by_crate[f.path.parts[1]].append(f)
    for crate, all_of in sorted(by_crate.items()):
        seen = set()
        for i, f in enumerate(all_of):
            for g in all_of[i + 1:]:
                same = difflib.SequenceMatcher(None, words(f.body), words(g.body), autojunk=False).ratio()
                if same >= 0.8:
                    for h in (f, g):
                        if h.place() not in seen:
                            seen.add(h.place())
                            yield f"{h.place()} (with {(g if h is f else f).name}, {same:.2f})"


def point_3():
    """Loops over a range, and loops that add to an index by hand."""
    yield from lines_with(r"\bfor \w+ in [\w.()]+\.\.|\bwhile |\bloop \{")


def point_4():
    """Conversions, comparisons and words written by hand."""
    yield from lines_with(r"^impl.*\b(From|TryFrom|PartialEq|PartialOrd|Ord|Eq|Clone|Copy|Display)\b.* for ")
    for f in functions():
        if re.search(r"-> &'static str$", f.head) and "match" in f.body:
            yield f"{f.place()}: words by hand"
        if re.search(r"fn (same|equals?)\b", f.head):
            yield f"{f.place()}: equality by hand"
        if re.fullmatch(r"(pub(\(crate\))? )?fn \w+\(\w+: \w+\) -> [A-Z]\w+", f.head) and f.body.startswith("{ match"):
            yield f"{f.place()}: a value made of another by a match"


def point_5():
    """Clauses that stand in three functions of a crate or more, and three parameters that go together in as many."""
    clauses = collections.defaultdict(set)
    together = collections.defaultdict(set)
    for f in functions():
        for c in f.clauses:
            clauses[(f.path.parts[1], c)].add(f.name)
        inside = re.search(r"\((.*)\)", f.head)
        names = [p.strip() for p in (inside.group(1) if inside else "").split(",") if ":" in p]
        if len(names) >= 3:
            for i in range(len(names) - 2):
                together[(f.path.parts[1], ", ".join(names[i:i + 3]))].add(f.name)
    for (crate, c), who in sorted(clauses.items()):
        if len(who) >= 3:
            yield f"{crate}: clause {c} in {', '.join(sorted(who))}"
    for (crate, names), who in sorted(together.items()):
        if len(who) >= 3:
            yield f"{crate}: parameters {names} in {', '.join(sorted(who))}"


def point_6():
    """Arrays of a fixed size."""
    yield from lines_with(r":\s*&?(mut )?\[[^\]]+; \w+\]|-> \[[^\]]+; \w+\]|\[0(u\d+)?; \w+\]")


def point_7():
    """Calls chosen by a match on an operator."""
    for f in functions():
        if re.search(r"(Operator::\w+|Binary::\w+|Unary::\w+) =>", f.body):
            yield f.place()
    yield from lines_with(r"\bfn\(|\bdyn ")


def point_8():
    """Answers, and lemmas of files in proofs/."""
    for crate in sorted(ROOT.iterdir()):
        answers = lemmas = 0
        for path in sorted((crate / "proofs").rglob("*.antt")):
            for line in path.read_text().split("\n"):
                if re.match(r"(abbrev )?(pub )?[\w'\-◌+×≡≤<]+ : ", line):
                    if path.name == "Answers.antt":
                        answers += line.startswith("pub ")
                        lemmas += not line.startswith("pub ")
                    elif path.name != "Invariants.antt":
                        lemmas += 1
        if answers or lemmas:
            yield f"{crate.name}: answers {answers}, lemmas {lemmas}"


POINTS = [point_1, point_2, point_3, point_4, point_5, point_6, point_7, point_8]

if __name__ == "__main__":
    if len(sys.argv) > 1:
        for place in POINTS[int(sys.argv[1]) - 1]():
            print(place)
    else:
        for number, point in enumerate(POINTS, 1):
            print(f"{number} {len(list(point()))} {point.__doc__}")
