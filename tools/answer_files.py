#!/usr/bin/env python3
"""Turns the proofs of an older Rattle, proofs/F/Proof.antt, into today's Invariants.antt and Answers.antt.

usage: answer_files.py OLD CRATE [F..]    at the top; OLD is the commit before port.py ran

Reads what `rt check --generated /tmp/names-CRATE --old-names` says of each goal's and step's name. Answers that are only `search rules` go, as do those of goals that
Rattle settles itself. A function with no names there keeps its Proof.antt.
"""
import json
import os
import re
import subprocess
import sys

NAME = r"[^\s(){}\[\].;,@\"«»|:λ↦=]+"
START = re.compile(r"^(?:abbrev |unfoldable )?(?:pub )?(" + NAME + r")((?: [({][^\n]*[)}])?) : ?(.*)$")


def said(*words, cwd=None):
    return subprocess.run(words, cwd=cwd, capture_output=True, text=True)


def plain(name):
    name = name.replace("_", "-")
    for old, new in (("-holds", "-init"), ("-again", "-preserved"), ("-less", "-smaller")):
        name = re.sub(rf"(?<=loop){old}(?=-\d|$)|(?<=loop\d){old}(?=-\d|$)", new, name)
    return name


def blocks(text):
    """Top-level pieces: imports, comments, and each declaration with its body, module sections whole."""
    out, now = [], []
    for line in text.split("\n"):
        top = line and not line[0].isspace() and line[0] not in ")]}|∙"
        if top and now:
            head = START.match(now[0]) or None
            name = head[1] if head else None
            same = name and (re.match(r"(?:unfolding )", line) or re.split(r"[\s]", line)[0] == name)
            if not same:
                out.append("\n".join(now))
                now = []
        now.append(line)
    if now:
        out.append("\n".join(now))
    return out


def main(old, crate, wanted):
    where = f"/tmp/names-{crate}"
    os.makedirs(where, exist_ok=True)
    said("rt", "check", "--generated", where, "--old-names", cwd=f"crates/{crate}")
    names = json.load(open(f"{where}/names.json"))
    top = f"crates/{crate}/proofs"
    for folder, _, files in sorted(os.walk(top)):
        if "Proof.antt" not in files or folder == top:
            continue
        f = os.path.relpath(folder, top)
        if wanted and f not in wanted:
            continue
        key = f"Rattle-{crate}-proofs.{f.replace('/', '.')}.Lts"
        if key not in names:
            print(f"left: {crate} {f}: no names")
            continue
        before = said("git", "show", f"{old}:{folder}/Proof.antt").stdout
        turn(folder, crate, f, open(f"{folder}/Proof.antt").read(), before, names[key])


def turn(folder, crate, f, text, before, table):
    goals = {plain(o): n for o, n in table["needs"]}
    was = re.findall(r"tie ?\.Need-(" + NAME + ")", before)
    now = re.findall(r"tie\.Need-(" + NAME + ")", text)
    if len(was) != len(now):
        print(f"left: {crate} {f}: {len(was)} goals before, {len(now)} now")
        return
    by_now = {}
    for w, n in zip(was, now):
        by_now[n] = goals.get(plain(w))
    steps = {}
    for place in table["places"]:
        o, n = place[2]
        if o:
            steps[plain(o)] = n
    places = {}
    for place, new in zip(table["places"], table["places_by_name"]):
        places[plain(place[0])] = new
    loops = {plain(o): (n, v, ch) for ((o, n), v), ch in zip(table["loops"], table["changed"])} if table["loops"] else {}

    def path(m):
        words = m[0].split(".")
        whole = len(words)  # `before` is needed only where a step is handed over whole
        while whole > 1 and words[whole - 1] == "before":
            whole -= 1
        out = [words[0]]
        for i, w in enumerate(words[1:], 1):
            if w == "before" and (i < whole or bound(m)):
                continue
            w = {"taken": "true", "well-formed": "well_formed", "type-inv": "type_inv"}.get(w, w)
            if plain(re.sub(r"_lem$", "", w)) in steps:  # snake_words.py takes a step of this name for the lemma
                w = re.sub(r"_lem$", "", w)
            out.append(steps.get(plain(w), w))
        return ".".join(out)

    def bound(m):
        """Whether the path is all that a `let` binds: its fields are then cited from the newest step as well."""
        return re.search(r"let [\w'₀-₉]+ = $", m.string[: m.start()]) is not None and re.match(r" in\b", m.string[m.end():]) is not None

    uses, pieces, invariants = [], [], []
    answers, text_of = {}, {}
    comment = ""
    for block in blocks(text):
        m = START.match(block.split("\n")[0])
        if m and m[3].startswith("tie.Need-"):
            goal = by_now.get(re.match(NAME, m[3][9:])[0])
            if goal:
                answers[m[1]] = goal
        elif m and "-" in m[1] and not re.match(r"tie\.(invariant|decreases)-", m[3]):
            answers[m[1]] = m[1].replace("-", "_")

    def answer(m):
        return answers.get(m[0], m[0])

    for block in blocks(text):
        lines = block.split("\n")
        if all(l.startswith("--") or not l.strip() for l in lines):
            comment += block.rstrip() + "\n" if block.strip() else ""
            continue
        if lines[0].startswith("use "):
            if not re.search(r"\.(Statement|Tie|Reads|Lts)(\.| as|$|\.\{)", lines[0]):
                uses.append(block.rstrip())
            continue
        m = START.match(lines[0])
        if m and re.match(r"\{M : Type 1\} → statement M", m[3]):
            continue
        block = re.sub(r"(?<![\w.-])" + NAME, lambda t: t[0] if block[: t.start()].endswith("tie.") else answer(t), block)
        lines = block.split("\n")
        m = START.match(lines[0])
        block = re.sub(r"(?<![\w.-])(" + NAME + r")((?:\.(?:" + NAME + r"))+)", path, block)
        if m and m[3].startswith(("tie.invariant-", "tie.decreases-")):
            kind, loop = m[3][4:].split("-", 1)
            body = block.split("\n", 1)[1]
            head, term = body.split(" =", 1)
            params = head.split()[1:]
            o = plain(loop)
            if o not in loops:
                print(f"look: {crate} {f}: no loop {loop} in {list(loops)}")
                continue
            new, vs, ch = loops[o]
            value = {}
            for i, p in enumerate(params):
                if i < len(vs):
                    value[p] = f"l.initial.{vs[i]}" if ch[i] else f"l.{vs[i]}"
                else:
                    changed = [v for v, c in zip(vs, ch) if c]
                    value[p] = f"l.{changed[i - len(vs)]}" if i - len(vs) < len(changed) else p
            term = re.sub(r"(?<![\w.'-])" + NAME, lambda t: value.get(t[0], t[0]) if not t[0].startswith(".") else t[0], term)
            term = re.sub(r"(\bl\.(?:initial\.)?\w+)\.now\b", r"\1", term)
            invariants.append(f"abbrev pub {kind}-{new} : goal.{kind}-{new}\n{kind}-{new} l ={term.rstrip()}\n")
            continue
        if m and m[3].startswith("tie.Need-"):
            n = re.match(NAME, m[3][9:])[0]
            goal = by_now.get(n)
            if goal is None:
                print(f"drop: {crate} {f}: {n}")
                continue
            body = block.split("\n", 1)[1]
            body = re.sub(r"(?m)^" + re.escape(goal) + r" c κs =", f"{goal} c =", body)
            if re.sub(r"\s+", " ", body).strip() == f"{goal} c = search rules":
                text_of[len(pieces)] = goal
            pieces.append(f"pub {goal} : goal.{goal}\n{body.rstrip()}\n")
            continue
        if m:
            block = re.sub(r"\b(?:tie|lts)\.((?:After|Then|Else|In|At|Start|Out)" + r"[^\s(){}.,;]*)", lambda t: "goal." + places.get(plain(t[1]), t[1]), block)
            pieces.append(block.rstrip() + "\n")
            continue
        pieces.append(block.rstrip() + "\n")
    cited = lambda o, i: any(re.search(r"(?<![\w.-])" + re.escape(o) + r"(?![\w-])", p) for j, p in enumerate(pieces) if j != i)
    needless = {i for i, o in text_of.items() if not cited(o, i)}
    pieces = [p for i, p in enumerate(pieces) if i not in needless]
    if invariants:
        with open(f"{folder}/Invariants.antt", "w") as out:
            out.write("\n".join(uses) + f"\nuse Rattle.{crate}.proofs.{f.replace('/', '.')}.Given as goal\n\n" + "\n".join(invariants))
    if pieces:
        with open(f"{folder}/Answers.antt", "w") as out:
            out.write(comment + "\n".join(uses) + f"\nuse Rattle.{crate}.proofs.{f.replace('/', '.')}.Goals as goal\n" + "\n" + "\n".join(pieces))
    os.remove(f"{folder}/Proof.antt")


if __name__ == "__main__":
    if len(sys.argv) < 3:
        print(__doc__)
        raise SystemExit(2)
    main(sys.argv[1], sys.argv[2], sys.argv[3:])
