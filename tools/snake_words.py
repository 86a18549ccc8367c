#!/usr/bin/env python3
"""Spells this repository's own definitions, lemmas and fields in snake case: `lastPosition` is `last_position`, `field-below` is `field_below`, a prime is '.

usage: snake_words.py [FOLDER]      run once, in a tree that the kit's port.py has turned

Turned are names that specs/ and proofs/ declare, wherever they stand in .antt files, clauses, `ghost use` lines, must-fail edits and comments' backticks. Left are types and modules,
names of Rust's, of std and of the logic, and the names that Rattle makes in a function's proof folder. Where a lemma would get its definition's name it ends in `_lem`.
"""
import collections
import os
import re
import sys

NAME = r"[^\s(){}\[\].;,@\"«»|:λ↦=⌜⌝`]+"
DECLARED = re.compile(r"^ *(?:(?:abbrev|unfoldable|opaque) )?(?:pub )?(?:(?:record|data|infixl|infixr) )?(" + NAME + r")((?: \([^()]*(?:\([^()]*\)[^()]*)*\)| \{[^{}]*\})*) :(?= |$)")
USE = re.compile(r"^(?:ghost )?use (\S+?)(?:\.\{([^}]*)\})?(?: as (\S+?))?;?$")
TOKEN = re.compile(NAME)


# Lemmas that have in snake case already what a definition is called: file: name.
LEMMAS = {
    "strip/proofs/Parts.antt": "counts_of",
    "part/proofs/Ends.antt": "open_done",
    "part/proofs/open/Proof.antt": "open_done",
    "goqhari/proofs/Ends.antt": "open_done",
    "goqhari/proofs/goqhari_open/Proof.antt": "open_done",
}
# And one whose name in snake case is one of the logic's, in its own file.
OF_LOGIC = ("nan-bits", "is-nan")


def crates(root):
    return sorted(os.listdir(os.path.join(root, "crates")))


def is_wrong(name):
    if not re.fullmatch(r"[\w'′·→≢⁻¹^*+-]+", name) or not re.match(r"[a-z]", name):
        return False
    return "-" in name or "′" in name or bool(re.search(r"[a-z0-9][A-Z]", name))


def snake(name):
    words = re.sub(r"(?<=[a-z0-9])[A-Z]", lambda m: "_" + m[0].lower(), name)
    return words.replace("-", "_").replace("′", "'")


def texts(root, ending):
    for folder, dirs, files in os.walk(os.path.join(root, "crates")):
        dirs[:] = sorted(d for d in dirs if d != "out")
        for f in sorted(files):
            if f.endswith(ending):
                yield os.path.join(folder, f)


def is_function(path):
    """Whether a file is of the proof of one function, where Rattle makes names."""
    return "/proofs/" in path and "/" in path.split("/proofs/")[-1]


def own(module, names):
    return module.startswith("Rattle.") and module.split(".")[1] in names


def main(root):
    names = set(crates(root))
    files = {p: open(p, encoding="utf-8").read() for e in (".antt", ".rt", ".edit") for p in texts(root, e)}
    for p, n in LEMMAS.items():
        p = os.path.join(root, "crates", p)
        files[p] = re.sub(rf"(?<![\w-]){n}(?![\w-])", n + "_lem", files[p])
    before = {p: open(p, encoding="utf-8").read() for p in files}
    declared = collections.defaultdict(set)  # name: files that declare it
    for p, t in files.items():
        if p.endswith(".antt") and not is_function(p):
            for line in t.splitlines():
                m = DECLARED.match(line)
                if m and is_wrong(m[1]):
                    declared[m[1]].add(p)
    turned = {n: snake(n) + ("_lem" if n in OF_LOGIC else "") for n in declared}
    # names that fall together: with another that is turned, or with one that is declared as it is
    plain = collections.defaultdict(set)
    for p, t in files.items():
        if p.endswith(".antt"):
            for line in t.splitlines():
                m = DECLARED.match(line)
                if m and not is_wrong(m[1]):
                    plain[m[1]].add(p)
    back = collections.defaultdict(list)
    for n, s in turned.items():
        back[s].append(n)
    for s, ns in sorted(back.items()):
        taken = plain.get(s, set())
        for n in sorted(ns, key=lambda n: "-" in n):
            if taken or (n != sorted(ns, key=lambda n: "-" in n)[0]):
                print(f"look: {n} falls together with {s}: {', '.join(sorted(os.path.relpath(p, root) for p in declared[n]))} | {', '.join(sorted(os.path.relpath(p, root) for p in taken))} {ns}")
                turned[n] = s + "_lem"
            taken = taken | declared[n]
    for p, t in files.items():
        new = turn(p, t, turned, names, root)
        if new != before[p]:
            open(p, "w", encoding="utf-8").write(new)


def turn(path, text, turned, names, root):
    foreign, mine, aliases = set(), set(), {}
    function = is_function(path)
    for line in text.splitlines():
        m = USE.match(line.strip())
        if m:
            module, items, alias = m.groups()
            if items is not None:
                words = [w.strip().split(" as ")[0] for w in items.split(",")]
                (mine if own(module, names) else foreign).update(words)
            if alias:
                aliases[alias] = own(module, names)
            elif items is None:
                aliases[module.split(".")[-1]] = own(module, names)
    def word(m):
        n = m[0]
        if n not in turned:
            return n
        before = text_of[: m.start()]
        if before.endswith("."):
            owner = re.search(r"(" + NAME + r")\.$", before)
            if owner and owner[1] in aliases:
                return turned[n] if aliases[owner[1]] and not (function and owner[1] in ("tie", "goal")) else n
            return turned[n]
        if n in foreign and n not in mine:
            return n
        if function and n not in mine and not re.search(r"\brecord \{|;\s*$|\{ *$", before[-12:]):
            return n
        return turned[n]

    out = []
    in_rt = path.endswith(".rt")
    for line in text.split("\n"):
        stripped = line.lstrip()
        comment = stripped.startswith("//") if in_rt else stripped.startswith("--") or (path.endswith(".edit") and stripped.startswith("#"))
        text_of = line
        if comment:
            def ticked(m):
                inner = m[1]
                return "`" + (turned.get(inner, inner)) + "`"
            out.append(re.sub(r"`([^`\s]+)`", ticked, line))
        else:
            out.append(TOKEN.sub(word, line))
    return "\n".join(out)


if __name__ == "__main__":
    main(sys.argv[1] if len(sys.argv) > 1 else ".")
