#!/usr/bin/env python3
"""usage: python3 tools/spell.py [--write]

Spells this repository's own names as its Rattle does. Run once, at the top, after the kit's own script.

Types and facts are in upper camel case (Law-of-runs becomes LawOfRuns), all other words in snake case (answerText and
pool-says become answer_text and pool_says). A dash stays where it joins the name of a list function to what it is
applied to, as in length-step. Names that Rattle makes, names of the library and Rust's own names are left alone. The
crate arrayvec is called bounded, since the library has a crate of that name.

It prints each name that it turns, and on standard error those whose new spelling a file has already: look whether the
two are one thing there, as a word of specs/ and a function of src/ may be. Only with --write does it turn the files.
"""
import collections
import os
import re
import shutil
import subprocess
import sys

ROOT = "crates"
OLD_CRATE, NEW_CRATE = "arrayvec", "bounded"
# a lemma on one of these keeps its first dash
HEADS = {"length", "map", "nth", "take", "cond", "times", "removed"}
# names that would fall together with others
OTHERS = {"lines-of": "lines_of_lem", "refusalOf": "scripted_refusal"}
# goals, and the names of steps and arms, are Rattle's to spell
MADE = re.compile(r"^(loop|returns|invariant|overflow|decreases|in|then|else|if)-")
NAME = re.compile(r"[^\s(){}\[\].,;:@\"«»⟦⟧]+")
OWN = re.compile(r"-|[a-z0-9][A-Z]|OK$")
DECLARED = re.compile(r"\s*(?:abbrev |unfoldable |pub )*(?:(?:data|record) )?([^\s:(){}.;,]+)(?: [^:=]*)? : (.*)")
FIELD = re.compile(r"  (?:pub )?([^\s:(){}.;,]+)(?: [^:=]*)? : ")


def files(ending):
    for folder, dirs, names in os.walk(ROOT):
        dirs[:] = sorted(d for d in dirs if d != "out")
        for f in sorted(names):
            if f.endswith(ending):
                yield os.path.join(folder, f)


def crates():
    return sorted(c for c in os.listdir(ROOT) if os.path.isdir(os.path.join(ROOT, c, "src")))


def spelled(name):
    if name in OTHERS:
        return OTHERS[name]
    if name[0].isupper():
        parts = name.split("-")
        return re.sub(r"OK$", "Ok", parts[0] + "".join(p[0].upper() + p[1:] for p in parts[1:]))
    snake = re.sub(r"([a-z0-9])([A-Z])", lambda m: m[1] + "_" + m[2].lower(), name)
    head, dash, rest = snake.partition("-")
    if dash and head in HEADS:
        return head + "-" + rest.replace("-", "_")
    return snake.replace("-", "_")


def declared():
    """Every name that a file of specs/ or proofs/ declares, with where; goals that answer files restate are not names of ours."""
    at = collections.defaultdict(set)
    for p in files(".antt"):
        for line in open(p, encoding="utf-8"):
            m = DECLARED.match(line) if not line.lstrip().startswith("--") else None
            if not m or not OWN.search(m[1]) or m[2].startswith("goal.") or MADE.match(m[1]) and "/specs/" not in p and not re.match(r"crates/\w+/proofs/\w+\.antt$", p):
                continue
            at[m[1]].add(p)
    return at


def foreign(text, own):
    """Names that a file takes from the library, which has its own spelling."""
    found = set()
    for m in re.finditer(r"use ([\w.]+?)\.\{([^}]*)\}", text):
        parts = m[1].split(".")
        if not (parts[0] == "Rattle" and len(parts) > 1 and parts[1] in own):
            for item in m[2].split(","):
                found.update(item.replace(" as ", " ").split()[:1])
    return found


def main():
    own = set(crates())
    names = declared()
    turn = {n: spelled(n) for n in names if spelled(n) != n}
    texts, bad = {}, []
    for p in list(files(".antt")) + list(files(".rt")):
        text = open(p, encoding="utf-8").read()
        alone = foreign(text, own)
        here = set(NAME.findall(text))
        for n in sorted(here & set(turn)):
            if n not in alone and turn[n] in here:
                bad.append(f"{p}: {n} would be {turn[n]}, which is there already")

        def one(m):
            n = m[0]
            if n in alone:
                return n
            return turn.get(n, n)

        lines = []
        for line in text.split("\n"):
            cut = line.find("-- ") if p.endswith(".antt") else line.find("// ")
            code, said = (line, "") if cut < 0 else (line[:cut], line[cut:])
            code = NAME.sub(one, code)
            code = code.replace(f"Rattle.{OLD_CRATE}.", f"Rattle.{NEW_CRATE}.")
            if p.endswith(".rt"):
                code = re.sub(rf"\b{OLD_CRATE}::", f"{NEW_CRATE}::", code)
            lines.append(code + said)
        texts[p] = "\n".join(lines)
    twice = collections.Counter(turn.values())
    for n in sorted(turn):
        if twice[turn[n]] > 1:
            bad.append(f"{turn[n]} is the spelling of {n} in {', '.join(sorted(names[n]))}")
    for n in sorted(turn):
        print(n, "->", turn[n])
    print("\n".join(bad), file=sys.stderr)
    if "--write" not in sys.argv:
        return 1 if bad else 0
    for p, text in texts.items():
        open(p, "w", encoding="utf-8").write(text)
    shutil.move(os.path.join(ROOT, OLD_CRATE), os.path.join(ROOT, NEW_CRATE))
    lines = open("crates.txt", encoding="utf-8").read()
    open("crates.txt", "w", encoding="utf-8").write(re.sub(rf"\b{OLD_CRATE}\b", NEW_CRATE, lines))
    for c in crates():
        subprocess.run(["rt", "fmt"], cwd=os.path.join(ROOT, c), stdout=subprocess.DEVNULL)
    return 0


if __name__ == "__main__":
    raise SystemExit(main())
