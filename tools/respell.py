#!/usr/bin/env python3
"""Brings the repository's own definitions and lemmas to one spelling: words in snake case, types in camel case.

Run once at the top of the repository, after the toolchain's port.py. It renames what the .antt files under crates/ declare, wherever
the .antt and .rt files, README.md and docs/ say it. Names that the check makes (goals, steps, invariants), names of the library, and
functions of src/ keep their spelling. It prints where a name takes the spelling of another that its file speaks of.
"""
import collections
import os
import re

WORD = re.compile(r"[^\s(){}.,;:|⟨⟩«»`\"]+|:+(?![=])")
GOALS = ("goal", "given", "need", "goals")


def respelled(name):
    parts = [p for p in name.split("-")]
    if name[0].isupper():
        return "".join(p[:1].upper() + p[1:] for p in parts)
    return "_".join(parts)


def files(ends):
    for top, folders, names in os.walk("crates"):
        folders[:] = sorted(f for f in folders if f not in ("out", "target"))
        for name in sorted(names):
            if name.endswith(ends):
                yield os.path.join(top, name)


def read(path):
    with open(path, encoding="utf-8") as f:
        return f.read()


def declarations(text):
    """The names that a file declares, and those of them that are fields of a record."""
    names, fields = set(), set()
    record = None
    for line in text.split("\n"):
        code = line.split("--")[0] if line.lstrip().startswith("--") else line
        if not code.strip() or code.lstrip().startswith("use "):
            continue
        indent = len(code) - len(code.lstrip())
        if record is not None and indent <= record:
            record = None
        m = re.match(r"\s*(?:pub )?record ([^\s(){}]+)", code)
        if m and "where" in code:
            names.add(m.group(1))
            record = indent
            continue
        m = re.match(r"\s*(?:pub )?data ([^\s(){}]+)", code)
        if m:
            names.add(m.group(1))
            continue
        m = re.match(r"\s*(?:(?:abbrev|unfoldable|pub)\s+)*([^\s(){}.,;:|]+(?: [^\s(){}.,;:|=→λ]+)*) : (.*)$", code)
        if not m:
            continue
        if m.group(2).split(".")[0].strip() in GOALS:
            continue
        for n in m.group(1).split():
            names.add(n)
            if record is not None:
                fields.add(n)
    return names, fields


def locals_of(text):
    """Names bound inside terms: let, lambda, arguments of clauses and of types."""
    found = set()
    for m in re.finditer(r"\blet ([^\s:=]+)|λ ([^.]+)\.|[({]([^\s(){}.,;:]+(?: [^\s(){}.,;:]+)*) : ", text):
        for group in m.groups():
            if group:
                found.update(group.split())
    return found


def imported(text, crates):
    """Names that a file imports from elsewhere than the repository's crates, and aliases of modules of its own."""
    foreign, aliases = set(), {}
    for m in re.finditer(r"^\s*(?:ghost )?use (\S+?)\.\{([^}]*)\};?\s*$|^\s*(?:ghost )?use (\S+?)(?: as (\S+?))?;?\s*$", text, re.M):
        path = m.group(1) or m.group(3)
        if path.startswith("Rattle.") and path.split(".")[1] in crates:
            if ".Goals" in path or ".Given" in path or ".declared" in path:
                if m.group(2):
                    foreign.update(x.split(" as ")[-1].strip() for x in m.group(2).split(","))
                continue
            if m.group(3):
                aliases[(m.group(4) or path.split(".")[-1])] = path
        elif m.group(2):
            foreign.update(x.split(" as ")[-1].strip() for x in m.group(2).split(","))
    return foreign, aliases


def main():
    crates = set(os.listdir("crates"))
    antt = list(files(".antt"))
    names, fields = set(), set()
    for path in antt:
        n, f = declarations(read(path))
        names |= n
        fields |= f
    change = {n: respelled(n) for n in names if "-" in n and respelled(n) != n}
    bad = collections.defaultdict(set)
    for path in antt + list(files(".rt")):
        text = read(path)
        foreign, aliases = imported(text, crates)
        own = dict(change)
        local = {n for n in locals_of(text) if "-" in n}
        for n in local:
            own[n] = respelled(n)
        out, last, seen = [], 0, collections.defaultdict(set)
        for m in WORD.finditer(text):
            word = m.group(0)
            before = text[m.start() - 1] if m.start() else ""
            if word not in own or (word in foreign and before != "."):
                seen[word].add(word)
                continue
            if path.endswith(".rt") and "-" in word and before in '"':
                continue
            if before == ".":
                head = re.search(r"([^\s(){}.,;:|]+)\.$", text[: m.start()])
                head = head.group(1) if head else ""
                module = head in aliases or (head[:1].isupper() and head not in fields)
                if head in GOALS or head == "at" or re.search(r"(?:Goals|Given)\.$", text[: m.start()]):
                    continue
                if not module and word not in fields:
                    continue
            line = text[text.rfind("\n", 0, m.start()) + 1 : text.find("\n", m.start())]
            if path.endswith("antt") and re.match(r"(pub )?" + re.escape(word) + r" : (goal|given|need)\.", line.strip()):
                continue
            if re.search(r"(Goals|Given)\.\{[^}]*$", text[: m.start()].split("\n")[-1]):
                continue
            out.append(text[last : m.start()])
            out.append(own[word])
            last = m.end()
            seen[own[word]].add(word)
        out.append(text[last:])
        for new, olds in seen.items():
            if len(olds) > 1:
                bad[path].add((new, tuple(sorted(olds))))
        result = "".join(out)
        if result != text:
            with open(path, "w", encoding="utf-8") as f:
                f.write(result)
    for path in ["README.md"] + sorted(os.path.join("docs", f) for f in os.listdir("docs")):
        if path.endswith(".md") and os.path.exists(path):
            text = read(path)
            new = re.sub(
                r"`([^`\n]+)`",
                lambda m: "`" + WORD.sub(lambda w: change.get(w.group(0), w.group(0)), m.group(1)) + "`",
                text,
            )
            if new != text:
                with open(path, "w", encoding="utf-8") as f:
                    f.write(new)
    for path in sorted(bad):
        for new, olds in sorted(bad[path]):
            print(f"in {path}: {olds} as {new}")
    print(f"{len(change)} names respelled")


if __name__ == "__main__":
    main()
