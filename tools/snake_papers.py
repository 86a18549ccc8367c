#!/usr/bin/env python3
"""Spells in papers, comments and headers what snake_words.py spelled anew: names in backticks that specs/ and proofs/ declare now.

usage: snake_papers.py OLD [FOLDER]    OLD: a folder that port.py has turned and snake_words.py has not
"""
import collections
import os
import re
import sys

sys.dont_write_bytecode = True
import snake_words as words


def declared(root):
    names = set()
    for p in words.texts(root, ".antt"):
        if not words.is_function(p):
            with open(p, encoding="utf-8") as f:
                names |= {m[1] for m in map(words.DECLARED.match, f) if m}
    return names


def papers(root):
    for folder, dirs, files in os.walk(root):
        dirs[:] = sorted(d for d in dirs if d not in (".git", "out", "build", "target", "specs", "proofs", "must-fail", "tools"))
        for f in sorted(files):
            if f.endswith((".md", ".h", ".c", ".rs", ".sh")) and f != "PORT.md" or folder.endswith("harness") and "." not in f:
                yield os.path.join(folder, f)


def main(old, root):
    new, before = declared(root), declared(old)
    for p in papers(root):
        with open(p, encoding="utf-8") as f:
            text = f.read()

        def ticked(m):
            n = m[1]
            if not words.is_wrong(n) or n in new:
                return m[0]
            s = words.snake(n)
            if s + "_lem" in new and n in before and "-" in n:
                s += "_lem"
            return f"`{s}`" if s in new else m[0]

        turned = re.sub(r"`([^`\s]+)`", ticked, text)
        if turned != text:
            with open(p, "w", encoding="utf-8") as f:
                f.write(turned)
        for n in re.findall(r"`([^`\s]+)`", turned):
            if words.is_wrong(n) and n not in new:
                print(f"look: {os.path.relpath(p, root)}: {n}")


if __name__ == "__main__":
    main(sys.argv[1], sys.argv[2] if len(sys.argv) > 2 else ".")
