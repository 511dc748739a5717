#!/usr/bin/env python3
"""Respells the repository's own definitions and lemmas: facts and types in camel case, all else in snake case.

usage: python3 tools/respell.py          at the top of the repository, after the kit's own port script
       python3 tools/respell.py --list   only prints each old name and its new one

It goes by whole words. A word is changed if specs/ or proofs/ declare it (a definition, a lemma, a field, a
constructor, a helper below `where`, a section's or a lemma's own variable), and, in a file, only if that file does not
bring the word in from the library. Names of goals, which the checker makes, are left. In .rt files strings and comments
are left, but for words in backticks; so are pages of docs/ and the README, where only words in backticks change.
"""

import os
import re
import sys

WORD = r"[A-Za-zΑ-Ωα-ω][^\s(){}\[\];,.:@\"`|]*"
OWN_FILES = ("specs", "proofs")
DECLARED = re.compile(r"^\s*((?:(?:abbrev|unfoldable|pub|data|record)\s+)*)(" + WORD + r")(\s*[({].*)?\s:(?:\s|$)")
APART = {"bit-and": "bit_of_and", "bit-or": "bit_of_or"}  # would fall together with words of the library
KEYWORDS = {"use", "let", "open", "elim", "in", "mod", "module", "where", "pub", "abbrev", "unfoldable", "data", "record"}
LIBRARY = re.compile(r"\buse\s+((?:Rattle\.std|mathlib|native|borrow|lib|Prim)[\w.⊎∥+']*)\.\{([^}]*)\}")


def files(root, ending):
    for folder, folders, names in os.walk(os.path.join(root, "crates")):
        folders[:] = sorted(f for f in folders if f != "out")
        for name in sorted(names):
            if name.endswith(ending):
                yield os.path.join(folder, name)


def read(path):
    with open(path, encoding="utf-8") as f:
        return f.read()


def spelled(name):
    return "-" in name or "_" in name


def snake(name):
    return APART.get(name) or re.sub(r"(?<=[a-z])([A-Z])", lambda m: "_" + m.group(1).lower(), name.replace("-", "_"))


def lowered(name):
    return "_".join(part[:1].lower() + part[1:] if not part.isupper() else part.lower() for part in re.split(r"[-_]", name))


def camel(name):
    return "".join(part[:1].upper() + part[1:] for part in re.split(r"[-_]", name))


def declarations(text):
    """Each declared name of a file with the text of its signature."""
    lines = [line.split(" -- ")[0] for line in text.split("\n")]
    for at, line in enumerate(lines):
        if line.strip().startswith("--"):
            continue
        m = DECLARED.match(line)
        if not m or m.group(2) in KEYWORDS:
            continue
        indent = len(line) - len(line.lstrip())
        signature = line
        for more in lines[at + 1 :]:
            if not more.strip() or len(more) - len(more.lstrip()) <= indent:
                break
            signature += " " + more.strip()
        yield m.group(1).split(), m.group(2), signature


def is_type(words, signature):
    if "record" in words or "data" in words:
        return True
    return bool(re.search(r"Type 0\s*(where)?\s*$", signature))


def binders(text):
    """Names that a lemma or a section binds: (a-name : T), let a-name, λ a-name."""
    for m in re.finditer(r"[({]((?:" + WORD + r"\s+)*" + WORD + r")\s:\s", text):
        yield from m.group(1).split()
    for m in re.finditer(r"\blet\s+(" + WORD + r")", text):
        yield m.group(1)
    for m in re.finditer(r"λ\s+((?:" + WORD + r"\s+)*" + WORD + r")\.", text):
        yield from m.group(1).split()
    for m in re.finditer(r"^\s*" + WORD + r"((?:\s+" + WORD + r")+)\s+=\s", text, re.M):
        if "use" not in m.group(0).split():
            yield from m.group(1).split()


def aliases(text):
    """Names that a file gives to the repository's own: use Rattle.c.specs.M.{name as a-name}."""
    for m in re.finditer(r"\buse\s+Rattle\.(?!std)[\w.]*\.\{([^}]*)\}", text):
        for item in m.group(1).split(","):
            if " as " in item:
                yield item.split(" as ")[1].strip()


def goals(root):
    """Names that the checker makes: goals, and the folders of functions."""
    found = set()
    for path in files(root, ".antt"):
        for m in re.finditer(r"\b(?:goal|need)\.(" + WORD + ")", read(path)):
            found.add(m.group(1))
    return found


def names(root):
    """Each old name that changes, with its new one."""
    made = goals(root)
    new = {}
    for path in files(root, ".antt"):
        if not any("/" + part + "/" in path for part in OWN_FILES):
            continue
        text = read(path)
        for words, name, signature in declarations(text):
            if name in made or not spelled(name):
                continue
            if name[0].isupper():
                new[name] = camel(name) if is_type(words, signature) else lowered(name)
            elif "-" in name:
                new[name] = snake(name)
        for name in binders(text):
            if "-" in name and name not in made and name not in new and name[0].islower():
                new[name] = snake(name)
    for ending in (".antt", ".rt"):
        for path in files(root, ending):
            for name in aliases(read(path)):
                if "-" in name and name not in new:
                    new[name] = camel(name) if name[0].isupper() else snake(name)
    return {old: word for old, word in new.items() if old != word}


def brought_in(text):
    found = set()
    for m in LIBRARY.finditer(text):
        for item in m.group(2).split(","):
            found.update(item.split(" as "))
    return {item.strip() for item in found}


def replacer(new, kept):
    words = sorted((w for w in new if w not in kept), key=len, reverse=True)
    if not words:
        return lambda text: text
    edge = r"[A-Za-z0-9_'′\-·≡≢≤⊎∥Α-Ωα-ω]"
    pattern = re.compile("(?<!" + edge + ")(" + "|".join(map(re.escape, words)) + ")(?!" + edge + ")")
    return lambda text: pattern.sub(lambda m: new[m.group(1)], text)


def in_backticks(text, turn):
    return re.sub(r"`[^`\n]*`", lambda m: turn(m.group(0)), text)


def turned_antt(text, new):
    turn = replacer(new, brought_in(text))
    out = []
    for line in text.split("\n"):
        if line.strip().startswith("--"):
            out.append(in_backticks(line, turn))
        else:
            out.append(turn(line))
    return "\n".join(out)


def turned_rt(text, new):
    turn = replacer(new, brought_in(text))
    out = []
    for line in text.split("\n"):
        code, mark, comment = line.partition("//")
        if code.count('"') % 2:
            code, mark, comment = line, "", ""
        parts = re.split(r'("(?:[^"\\]|\\.)*")', code)
        code = "".join(p if p.startswith('"') else turn(p) for p in parts)
        out.append(code + mark + in_backticks(comment, turn))
    return "\n".join(out)


def pages(root):
    yield os.path.join(root, "README.md")
    docs = os.path.join(root, "docs")
    for name in sorted(os.listdir(docs)) if os.path.isdir(docs) else []:
        if name.endswith(".md") and name != "PORT.md":
            yield os.path.join(docs, name)


def rewrite(path, text):
    with open(path, "w", encoding="utf-8") as f:
        f.write(text)


def main():
    root = "."
    new = names(root)
    if "--list" in sys.argv:
        for old in sorted(new):
            print(old, new[old])
        return
    for path in files(root, ".antt"):
        rewrite(path, turned_antt(read(path), new))
    for path in files(root, ".rt"):
        rewrite(path, turned_rt(read(path), new))
    turn = replacer(new, set())
    for path in pages(root):
        rewrite(path, in_backticks(read(path), turn))
    print(len(new), "names respelled")


main()
