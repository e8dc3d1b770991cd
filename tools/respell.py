#!/usr/bin/env python3
"""Spells the repository's own definitions and lemmas as today's Rattle spells words: in snake case, and in camel case where the name is a type's.

usage: tools/respell.py [--check] [ROOT]

Run once, after the kit's own port.py, at the top of the repository. Names are those that the files of specs/ and the lemma files of proofs/ declare; what a function's own
proof declares (Proof.antt and what stands below a folder Proof) answers names that Rattle makes, and stays. Where a file imports a name of a library that is spelled the
same, it stays in that file. Where a law would fall together with the definition that it is about, it gets `_law` after its name, which a line 'meets:' shows. In a .rt file the clauses, the ghost items and the code spans of comments are turned; in a page the code spans. --check writes nothing."""

import collections
import os
import re
import sys

WORD = r'[^\s(){}.;,@"«»]+'
DECLARED = re.compile(r"(?m)^ *(?:\w+ )*?(" + WORD + r")(?: \{[^{}\n]*\})* :(?= |$)")
RULESET = re.compile(r"(?m)^ *(?:pub )?ruleset (" + WORD + r")")
IMPORT = re.compile(r"\buse ([^\s;{]+)\.\{([^}]*)\}")
BLOCK = re.compile(r"(?:requires|ensures)\s*\*?\s*(?:\w+\s*)?\{|ghost\s*(?:\w+\s*(?::\s*(?:(?:owns|lends)\s*)?|=\s*))?\{")
SPAN = re.compile(r"`[^`\n]*`")
TYPES = {"came-back": "CameBack", "Inv-loop": None}


def target(name):
    if name in TYPES:
        return TYPES[name] or name
    if name[0].isupper() or "::" in name or name[0] in "+μ◌":
        return name
    words = re.sub(r"(?<=[A-Za-z0-9])[A-Z]", lambda m: "_" + m[0].lower(), name)
    return words.replace("-", "_")


def files(root, *endings):
    for folder, dirs, names in os.walk(root):
        dirs[:] = sorted(d for d in dirs if d not in ("out", ".git", "target", "__pycache__"))
        for n in sorted(names):
            if n.endswith(endings):
                yield os.path.join(folder, n)


def is_answer(path):
    return "/Proof/" in path or os.path.basename(path) == "Proof.antt" or "/proofs/+" in path


def table(root):
    old, met, stated = collections.OrderedDict(), collections.defaultdict(set), set()
    for p in files(os.path.join(root, "crates"), ".antt"):
        if is_answer(p):
            continue
        with open(p, encoding="utf-8") as f:
            text = f.read()
        for m in list(DECLARED.finditer(text)) + list(RULESET.finditer(text)):
            old[m[1]] = target(m[1])
            met[target(m[1])].add(m[1])
            if "/specs/" in p:
                stated.add(m[1])
    for new, names in sorted(met.items()):
        if len(names) > 1:
            # a definition and a law of it: the definition has the name, the law is called one
            first = sorted(names, key=lambda n: (n not in stated, "-" in n, n))
            print("meets:", new, "is", first[0] + ";", ", ".join(f"{n} is {new}_law" for n in first[1:]))
            assert len(first) == 2 and new + "_law" not in met
            old[first[1]] = new + "_law"
    return {a: b for a, b in old.items() if a != b}


def turn(text, names, bare):
    def word(m):
        w = m[0]
        if w in names:
            return names[w]
        core = w.rstrip("'")
        return names[core] + w[len(core):] if core in names and core != w else w

    return re.sub(WORD if bare else r"[\w'-]+", word, text)


def libraries(text):
    """The names that a file has of a library."""
    found = set()
    for m in IMPORT.finditer(text):
        if not m[1].startswith("Rattle.") or re.match(r"Rattle\.(std|core|std_\w+)\b", m[1]):
            found |= {w.strip() for w in m[2].split(",")}
    return found


def antt(text, names):
    mine = {a: b for a, b in names.items() if a not in libraries(text)}
    out = []
    for line in re.split(r"(?m)(^.*\n?)", text):
        cut = re.search(r"(?<![^\s(){}.;,@\"«»])--(?=\s|$)", line)
        code, comment = (line[: cut.start()], line[cut.start():]) if cut else (line, "")
        out.append(turn(code, mine, True) + said(comment, mine))
    return "".join(out)


def said(text, names):
    """A comment or a page: its code spans, and words in camel case."""
    text = SPAN.sub(lambda m: turn(m[0], names, False), text)
    return re.sub(r"(?<![\w`/.-])[a-z]+[0-9]*[A-Z]\w*(?![\w(]|::)", lambda m: names.get(m[0], m[0]), text)


def rust(text, names):
    mine = {a: b for a, b in names.items() if a not in libraries(text)}
    spans = []
    for m in re.finditer(r"ghost\s+use\b[^;]*;", text):
        spans.append((m.start(), m.end()))
    for m in BLOCK.finditer(text):
        i, depth = m.end(), 1
        while i < len(text) and depth:
            depth += {"{": 1, "}": -1}.get(text[i], 0)
            i += 1
        spans.append((m.end(), i))
    out, at = [], 0
    for a, b in sorted(spans):
        if a < at:
            continue
        out.append(comments(text[at:a], mine))
        out.append(turn(text[a:b], mine, True))
        at = b
    out.append(comments(text[at:], mine))
    return "".join(out)


def comments(text, names):
    return re.sub(r"//[^\n]*", lambda m: said(m[0], names), text)


def main():
    words = [a for a in sys.argv[1:] if a != "--check"]
    root = words[0] if words else "."
    names = table(root)
    n = 0
    for p in list(files(os.path.join(root, "crates"), ".antt", ".rt")) + list(files(root, ".md")):
        with open(p, encoding="utf-8") as f:
            text = f.read()
        here = set(re.findall(r"[\w'-]+", text))
        for a in sorted(here):
            if a in names and names[a] in here and names[a] not in names:
                print("look:", p, a, names[a])
        new = antt(text, names) if p.endswith(".antt") else rust(text, names) if p.endswith(".rt") else said(text, names)
        if new != text:
            n += 1
            if "--check" not in sys.argv:
                with open(p, "w", encoding="utf-8") as f:
                    f.write(new)
    print(len(names), "names,", n, "files")


if __name__ == "__main__":
    main()
