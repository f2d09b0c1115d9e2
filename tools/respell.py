#!/usr/bin/env python3
"""Brings the repository's own definitions and lemmas to one spelling: words in snake case.

usage: python3 tools/respell.py [FOLDER]

It was run once, after the toolchain's own script, when the repository moved to the Rattle of 2026-11. It reads the names that the .antt files below
crates/ declare, and writes each that has a dash or a capital inside (`kept-learnt`, `bytesOf`) with underscores (`kept_learnt`, `bytes_of`), wherever
it stands: in specs/ and proofs/, in the ghost lines of src/, in must-fail edits, and between backticks in README.md and docs/. Names that begin with a
capital stay: they are types, records and facts. It leaves names that a file brings in from another library, names of goals (`returns-2`), and names
that would fall together with another of the same file, and prints these.
"""

import os
import re
import sys

NAME = r"[^\s(){}\[\].,;:`\"]+"
DECLARED = re.compile(r"^(\s*)((?:pub |abbrev |unfoldable )*)(" + NAME + r")((?: [({][^:]*?:.*?[)}])*) : (.*)$")
USED = re.compile(r"^\s*(?:pub )?(?:ghost )?use ([\w.·+\-◌]+?)\.\{([^}]*)\}")
PARTS = re.compile(r"([^\s(){}\[\].,;:`\"]+)")
OWN = re.compile(r"^Rattle[.·](\w+)")


def walk(root, ends):
    for folder, dirs, files in os.walk(root):
        dirs[:] = sorted(d for d in dirs if d not in ("out", ".git", "target"))
        for f in sorted(files):
            if f.endswith(ends):
                yield os.path.join(folder, f)


def snake(name):
    """The name in snake case, or None where it stays."""
    if not re.match(r"^[a-z][A-Za-z0-9'_\-]*$", name):
        return None
    if "-" not in name and not re.search(r"[A-Z]", name):
        return None
    out = name.replace("-", "_")
    out = re.sub(r"(?<=[a-z0-9])([A-Z])", lambda m: "_" + m.group(1).lower(), out)
    out = re.sub(r"(?<=_)([A-Z])", lambda m: m.group(1).lower(), out)
    return None if out == name or re.search(r"[A-Z]", out) else out


def read(path):
    with open(path, encoding="utf-8") as f:
        return f.read()


def main(argv):
    root = argv[0] if argv else "."
    crates = os.path.join(root, "crates")
    own = {c for c in os.listdir(crates) if os.path.isdir(os.path.join(crates, c))}
    texts = {p: read(p) for p in walk(crates, (".antt", ".rt"))}
    edits = {p: read(p) for p in walk(crates, (".edit",))}
    declared, foreign, goals = set(), set(), {}
    for p, t in texts.items():
        for line in t.split("\n"):
            u = USED.match(line)
            if u:
                o = OWN.match(u.group(1))
                # a path without Rattle in front is a library's where it begins in lower case, else a module's of the same folder
                if o.group(1) not in own if o else not u.group(1)[0].isupper() or u.group(1).startswith("Prim"):
                    foreign |= {n.strip().split(" as ")[-1].strip() for n in u.group(2).split(",")}
                continue
            if p.endswith(".antt"):
                m = DECLARED.match(line)
                if m and m.group(5).startswith("tie."):
                    goals.setdefault(p, set()).add(m.group(3))
                elif m:
                    declared.add(m.group(3))
    turned = {n: snake(n) for n in sorted(declared) if n not in foreign and snake(n)}
    # a lemma that would have its function's name gets `_lem`
    functions = {to for n, to in turned.items() if "-" not in n}
    turned |= {n: n + "_lem" for n in declared if n in functions}
    taken = {n for n in declared if n not in turned} | foreign | {to for n, to in turned.items() if "-" not in n}
    for n, to in turned.items():
        if "-" in n and to in taken:
            turned[n] = to + "_lem"
    free = re.compile(r"(?<![.\w'\-])([a-z][\w'\-]*)")
    fell, seen = set(), {}
    for n, to in turned.items():
        if to in seen or to in declared - turned.keys() or to in foreign:
            fell |= {n, seen.get(to, n)}
        seen[to] = n
    for p, t in texts.items():
        if p.endswith(".antt"):
            lines = [l for l in t.split("\n") if not l.startswith("--")]
            words = set().union(*[set(free.findall(l)) for l in lines])
            for n in set(PARTS.findall(t)) & turned.keys():
                if turned[n] in words and turned[n] not in turned:
                    fell.add(n)
    for n in sorted(fell):
        print(f"stays, since it would fall together with another name: {n} ({turned[n]})")
        turned.pop(n, None)

    # names that stand behind a dot in a file of lemmas are fields; behind a dot in a function's proof a name may be one that the check made
    fields = set()
    for p, t in texts.items():
        if p.endswith(".antt") and not p.endswith("Proof.antt"):
            fields |= set(re.findall(r"\.([a-z][\w'\-]*)", "\n".join(l for l in t.split("\n") if not re.match(r"\s*(--|use )", l))))

    def write(p, t, keep=()):
        def one(m):
            n = m.group(1)
            if n in keep or p.endswith("Proof.antt") and t[m.start() - 1 : m.start()] == "." and n not in fields:
                return n
            return turned.get(n, n)

        new = PARTS.sub(one, t)
        if new != t:
            with open(p, "w", encoding="utf-8") as f:
                f.write(new)

    for p, t in texts.items():
        if p.endswith(".rt"):
            code = lambda l: not re.search(r"ghost|requires|ensures|λ|≡|→", l)
            lines = t.split("\n")
            new = [l if code(l) else PARTS.sub(lambda m: turned.get(m.group(1), m.group(1)), l) for l in lines]
            if new != lines:
                with open(p, "w", encoding="utf-8") as f:
                    f.write("\n".join(new))
        else:
            write(p, t, goals.get(p, ()))
    for p, t in edits.items():
        if re.search(r"(?m)^file: (specs|proofs)/|^(old|new): .*(ghost|requires|ensures|≡)", t):
            write(p, t)
    for p in [os.path.join(root, "README.md"), *walk(os.path.join(root, "docs"), (".md",))]:
        t = read(p)
        # the toolchain's script turned some of the names: the pages say these too
        known = declared | set(turned.values())
        say = lambda n: turned.get(n) or (snake(n) if snake(n) in known else n)
        new = re.sub(r"`[^`\n]+`", lambda m: PARTS.sub(lambda w: say(w.group(1)), m.group(0)), t)
        if new != t:
            with open(p, "w", encoding="utf-8") as f:
                f.write(new)
    print(f"{len(turned)} names turned")
    return 0


if __name__ == "__main__":
    raise SystemExit(main(sys.argv[1:]))
