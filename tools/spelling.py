#!/usr/bin/env python3
"""Brings the names that this repository defines in specs/ and proofs/ to one spelling: snake case for all but types and modules.

Run once, after the toolchain's port script; it changes the checkout that it stands in. A name is renamed where it is defined in a file of specs/ or proofs/ and has a dash or a
capital inside: both become `_`. Names that the toolchain makes (goals, `tie.` terms), and names that are also imported from the toolchain's library, stay. Where two names would
fall together, a definition (a capital inside, no dash) keeps the plain one and the law (a dash, or a name that the port script had respelled) gets `_lem`; so does one whose new
name the library has. In sources only imports and clauses have such names; in comments and pages only what stands in backquotes, or has a capital inside, is renamed.
"""
import collections
import os
import re

ROOT = os.path.dirname(os.path.dirname(os.path.realpath(__file__)))
HEAD = re.compile(r"\s*(?:(?:abbrev|opaque|unfoldable|pub|instance|record|data|where|let|in)\s+)*([^\s(){}.,;:\[\]]+)((?:\s+[^\s:=]+|\s*\([^)]*\)|\s*\{[^}]*\})*)\s*:\s+(\S+)")
TOKEN = re.compile(r"[^\s(){}.,;:\[\]⟨⟩@\"⌜⌝`]+")
CAMEL = re.compile(r"(?<=[a-z0-9])[A-Z]")


def files(top, *ends):
    for folder, dirs, names in os.walk(os.path.join(ROOT, top)):
        dirs[:] = sorted(d for d in dirs if d not in ("out", "target", ".git"))
        for n in sorted(names):
            if n.endswith(ends):
                yield os.path.join(folder, n)


def read(path):
    with open(path, encoding="utf-8") as f:
        return f.read()


def wants(name):
    return "-" in name[1:-1] and re.match(r"[^\W\d_]", name) or name[:1].islower() and CAMEL.search(name)


# two records of document03, which have the names of those of frames that they follow from, in another crate
TYPES = {"Two-passes": "TwoPasses", "Demand-3": "Demand3"}


def snake(name):
    if name in TYPES:
        return TYPES[name]
    if name[0].islower():
        name = CAMEL.sub(lambda m: "_" + m[0].lower(), name)
    return name.replace("-", "_")


def table():
    defined, crates = set(), os.listdir(os.path.join(ROOT, "crates"))
    library = set()  # what is imported from outside this repository keeps its spelling, and nothing takes that spelling
    for path in files("crates", ".antt", ".rt"):
        for m in re.finditer(r"use ([\w.◌'+-]+)\.\{([^}]*)\}", read(path)):
            if not (m[1].startswith("Rattle.") and m[1].split(".")[1] in crates):
                library |= {n.strip().split(" as ")[0] for n in m[2].split(",")}
    for path in files("crates", ".antt"):
        for line in read(path).split("\n"):
            m = HEAD.match(re.sub(r"(^|\s)--.*", "", line))
            if m and not m[3].startswith("tie.") and not m[1].endswith("-spec"):
                defined.add(m[1])
    by_new = collections.defaultdict(set)
    for name in defined:
        by_new[snake(name)].add(name)
    to = {}
    for new, olds in by_new.items():
        # first what has no dash, a definition with a capital inside before a lemma that the port script had respelled: that one keeps the name
        for i, old in enumerate(sorted(olds, key=lambda o: ("-" in o, ("-" in o) == bool(CAMEL.search(o)), o))):
            end = new if (i == 0 and new not in library) or old in TYPES else new + "_lem"
            if (wants(old) or i > 0) and old not in library and end != old:
                to[old] = end
    ends = collections.Counter(end for old, end in to.items() if old not in TYPES)
    assert all(n == 1 for n in ends.values()), [n for n in ends if ends[n] > 1]
    taken = {end for old, end in to.items() if old not in TYPES} & (defined - set(to))
    assert not taken, taken
    return to


def renamed(text, to, dashes):
    return TOKEN.sub(lambda m: to[m[0]] if m[0] in to and (dashes or "-" not in m[0] and CAMEL.search(m[0])) else m[0], text)


def prose(text, to):
    """Names in backquotes, and names with a capital inside."""
    text = re.sub(r"`[^`\n]+`", lambda m: renamed(m[0], to, True), text)
    return renamed(text, to, False)


def antt(text, to):
    out = []
    for line in text.split("\n"):
        m = re.search(r"(^|\s)--(\s|$)", line)
        i = m.start() if m else len(line)
        out.append(renamed(line[:i], to, True) + prose(line[i:], to))
    return "\n".join(out)


def rt(text, to):
    """Imports and clauses by every name, the rest as prose; a string stays as it is."""
    out, i = [], 0
    for m in re.finditer(r'"(?:\\.|[^"\\])*"|^ghost use [^;]*;|^ *(?:requires|ensures)\b[^{\n]*\{', text, re.M):
        if m.start() < i:
            continue
        out.append(prose(text[i : m.start()], to))
        i = m.end()
        if m[0].endswith("{"):
            deep = 1
            while deep:
                deep += (text[i] == "{") - (text[i] == "}")
                i += 1
            out.append(renamed(text[m.start() : i], to, True))
        else:
            out.append(m[0] if m[0][0] == '"' else renamed(m[0], to, True))
    out.append(prose(text[i:], to))
    return "".join(out)


def main():
    to = table()
    count = 0
    for path in [*files("crates", ".antt", ".rt", ".edit"), *files("tests/edits", ".edit")]:
        old = read(path)
        if path.endswith(".rt"):
            new = rt(old, to)
        elif path.endswith(".antt"):
            new = antt(old, to)
        else:
            new = "\n".join(renamed(l, to, True) if l.startswith(("old:", "new:")) else prose(l, to) for l in old.split("\n"))
        if new != old:
            count += 1
            with open(path, "w", encoding="utf-8") as f:
                f.write(new)
    # pages name also what the port script itself had respelled
    known = set(to.values())
    for path in files("crates", ".antt"):
        for line in read(path).split("\n"):
            m = HEAD.match(re.sub(r"(^|\s)--.*", "", line))
            if m:
                known.add(m[1])
    for path in [*files("docs", ".md"), os.path.join(ROOT, "README.md")]:
        if os.path.basename(path) == "PORT.md":
            continue
        old = read(path)
        more = dict(to)
        for t in set(TOKEN.findall(old)):
            if t not in more and wants(t) and snake(t) in known:
                more[t] = snake(t)
        new = prose(old, more)
        if new != old:
            count += 1
            with open(path, "w", encoding="utf-8") as f:
                f.write(new)
    print(f"{len(to)} names, {count} files")


main()
