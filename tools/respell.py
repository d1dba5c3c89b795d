#!/usr/bin/env python3
"""Spells the names of this repository's definitions and lemmas in snake case: usage: python3 tools/respell.py, at the top.

It goes over what specs/ and proofs/ declare: a dash in such a name becomes '_'. A lemma that would then have the name of a function of the
same crate gets '_lem', and the older word getD becomes get_or. Names of src/, names that the checker makes, strings and prose keep their
spelling; in a comment and in a page only what stands between backticks is turned. It refuses to run where two names would fall together.
"""

import glob
import re
import sys

NAME = r"[A-Za-z][A-Za-z0-9_'-]*"
TOP = re.compile(r"^(?:(?:pub|abbrev|unfoldable)\s+)*(" + NAME + r")\s+:\s(.*)$")
INNER = re.compile(r"^\s+(?:pub )?(" + NAME + r")\s+:\s(.*)$")
TOKEN = re.compile(r"(?<![A-Za-z0-9_'-])" + NAME)
FN = re.compile(r"\bfn (\w+)")


def read(path):
    with open(path, encoding="utf-8") as f:
        return f.read()


def antt_files():
    return sorted(glob.glob("crates/*/specs/**/*.antt", recursive=True) + glob.glob("crates/*/proofs/**/*.antt", recursive=True))


def rt_files():
    return sorted(glob.glob("crates/*/src/**/*.rt", recursive=True))


def functions():
    """The names of each crate's functions."""
    found = {}
    for path in rt_files():
        found.setdefault(path.split("/")[1], set()).update(FN.findall(read(path)))
    return found


def declared():
    """Each name with a dash that specs/ or proofs/ declare, and its new spelling."""
    fns, names = functions(), {}
    for path in antt_files():
        crate, lemma = path.split("/")[1], "/proofs/" in path
        for line in read(path).split("\n"):
            m = TOP.match(line)
            top = m is not None
            m = m or INNER.match(line)
            if not m or "-" not in m[1] or m[2].startswith("goal."):
                continue
            new = m[1].replace("getD", "get_or").replace("-", "_")
            clash = lemma and top and new in fns.get(crate, ()) and not m[2].startswith("ℕ")
            names[m[1]] = new + "_lem" if clash or names.get(m[1], "").endswith("_lem") else new
    return names


def turned(text, names):
    return TOKEN.sub(lambda m: names.get(m[0], m[0]), text)


def turn_prose(text, names):
    return re.sub(r"`[^`\n]*`", lambda m: turned(m[0], names), text)


def turn_line(line, names, comment):
    """The code of a line is turned outside of its strings, and a comment between its backticks."""
    parts = re.split(r'("(?:[^"\\]|\\.)*")', line)
    out = []
    for k, part in enumerate(parts):
        if k % 2 == 1:
            out.append(part)
            continue
        at = part.find(comment)
        if at >= 0:
            rest = part[at:] + "".join(parts[k + 1 :])
            return "".join(out) + turned(part[:at], names) + turn_prose(rest, names)
        out.append(turned(part, names))
    return "".join(out)


def main():
    names = declared()
    words = set()
    for path in antt_files() + rt_files():
        words.update(TOKEN.findall(read(path)))
    news = list(names.values())
    for old, new in sorted(names.items()):
        if news.count(new) > 1:
            sys.exit(f"respell: {old} falls together with another name at {new}")
        if new in words:
            print(f"look: {old} becomes {new}, a word that stands already")
    for path in antt_files() + rt_files():
        text = read(path)
        comment = "--" if path.endswith(".antt") else "//"
        new = "\n".join(turn_line(line, names, comment) for line in text.split("\n"))
        if new != text:
            with open(path, "w", encoding="utf-8") as f:
                f.write(new)
    for path in ["README.md"] + sorted(glob.glob("docs/*.md")):
        text = read(path)
        new = turn_prose(text, names)
        if new != text:
            with open(path, "w", encoding="utf-8") as f:
                f.write(new)
    print(f"respell: {len(names)} names")


main()
