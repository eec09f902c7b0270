#!/usr/bin/env python3
"""Brings the names of this repository's own definitions and lemmas to today's spelling: snake case, words joined by `_`.

Run once at the top, right after port.py. It takes the names that .antt files declare, and respells them in .antt and .rt
files, in the edits of must-fail/, and between backticks in comments. What Rattle itself names, what a file imports of a
library, strings and the code of src/ keep their spelling. A name that would fall together with another word is given in TAKEN.
"""

import glob
import os
import re
import sys
from collections import defaultdict

# names whose plain spelling is another word already, with what they are called instead
TAKEN = {
    "ROof": "RO_of",
    "inPlace": "put_in_place",
    "oneClass": "class_one",
    "ofPart": "value_of_part",
    "face-amount": "face_within",
    "of-block": "a_block",
    "of-class": "a_class",
    "k-at": "k_not_below",
}
for lemma in (
    "accepted-of all-zero buffer-at credit-above each-rounded length-in line-in pc-in-risk radicand-at read-from sheets-of signed-line"
    " three-classes turned-away whole-lines zero-only after-block has-key"
).split():
    TAKEN[lemma] = lemma.replace("-", "_") + "_lem"

# `result` is what a function returns in a clause: the requirement after its factor has a name of its own
RESULT = "crates/fluctuation"
RESULT_FILES = "specs/Result.antt specs/Call.antt specs/Accepted.antt proofs/fluctuation/Proof.antt proofs/Demand.antt proofs/Rules.antt src/lib.rt".split()

DECLARED = re.compile(r"^(\s*)((?:abbrev |unfoldable |pub |data |record )*)([^\s:{}()\[\];,.=|]+)((?:\s+\{[^}]*\})*)\s*((?:\([^)]*\)\s*)*):(\s|$)")
GOAL = re.compile(r":\s*tie\.(Need-|invariant-|decreases-|ghost-)")
TOKEN = re.compile(r"[^\s(){}\[\];,.`]+")
USE = re.compile(r"\buse ([^\s{]+?)\.\{([^}]*)\}", re.S)


def snake(name):
    if not re.fullmatch(r"[A-Za-z0-9_'-]+", name):
        # an operator's own law: a dash between two operators stays, words are joined by `_`
        return re.sub(r"-(?=[a-z])", "_", name)
    if name[0].isupper():
        return name
    name = name.replace("-", "_")
    name = re.sub(r"(?<=[a-z0-9'])([A-Z])", lambda m: "_" + m.group(1), name)
    return name.lower()


def read(p):
    with open(p, encoding="utf-8") as f:
        return f.read()


def own_crates(root):
    return sorted(os.path.basename(c) for c in glob.glob(os.path.join(root, "crates", "*")) if os.path.isdir(os.path.join(c, "src")))


def antt(root):
    return sorted(p for p in glob.glob(os.path.join(root, "crates", "*", "*", "**", "*.antt"), recursive=True) if "/out/" not in p)


def declared(root):
    """The names that files declare, with the files; answers to Rattle's own goals are left out."""
    names, goals = defaultdict(set), defaultdict(set)
    for p in antt(root):
        for line in read(p).splitlines():
            if line.lstrip().startswith("--"):
                continue
            m = DECLARED.match(line)
            if not m:
                continue
            if os.path.basename(p) == "Proof.antt" and (GOAL.search(line) or m.group(3).endswith("-spec") or m.group(3).endswith("_spec")):
                goals[p].add(m.group(3))
            else:
                names[m.group(3)].add(p)
    return names, goals


def imported(text, crates):
    """The names that a file takes from a library."""
    found = set()
    for path, items in USE.findall(text):
        parts = path.split(".")
        if parts[0] == "Rattle" and len(parts) > 1 and parts[1] in crates:
            continue
        for it in items.split(","):
            it = it.strip()
            if it:
                found.add(it.split(" as ")[-1].strip())
    return found


def respell_code(text, table, dotted):
    def turn(m):
        name = m.group(0)
        if dotted is not None and m.start() > 0 and m.string[m.start() - 1] == "." and not re.search(r"Rattle\.[\w.]*$", m.string[: m.start()]):
            return dotted.get(name, name)
        return table.get(name, name)

    return TOKEN.sub(turn, text)


def respell_comment(text, table):
    return re.sub(r"`[^`\n]*`", lambda m: respell_code(m.group(0), table, None), text)


def respell_line(line, mark, table, dotted):
    """One line: its code, and what stands between backticks in its comment. Strings keep their text."""
    code, comment = line, ""
    at = line.find(mark)
    if at >= 0 and (mark == "//" or at == 0 or line[at - 1] in " \t") and line[:at].count('"') % 2 == 0:
        code, comment = line[:at], line[at:]
    parts = code.split('"')
    parts[::2] = [respell_code(x, table, dotted) for x in parts[::2]]
    return '"'.join(parts) + respell_comment(comment, table)


def main():
    root = os.getcwd()
    crates = set(own_crates(root))
    names, goals = declared(root)
    fields = set()
    for p in antt(root):
        for m in re.finditer(r"^\s+pub ([^\s:(){}]+) :", read(p), re.M):
            fields.add(m.group(1))
    functions = set()
    for p in glob.glob(os.path.join(root, "crates", "*", "src", "**", "*.rt"), recursive=True):
        functions |= {f.replace("_", "-") for f in re.findall(r"\bfn (\w+)", read(p))}
    table = {}
    for n in names:
        to = TAKEN.get(n, snake(n))
        if to != n:
            table[n] = to
    # names that fall together
    words = defaultdict(set)
    everything = antt(root) + sorted(glob.glob(os.path.join(root, "crates", "*", "src", "**", "*.rt"), recursive=True))
    for p in everything:
        for line in read(p).splitlines():
            if line.lstrip().startswith(("--", "//")):
                continue
            for w in TOKEN.findall(line):
                words[w].add(p)
    back = defaultdict(set)
    for old, to in table.items():
        back[to].add(old)
    together = False
    for to, olds in sorted(back.items()):
        if len(olds) > 1:
            print("together:", to, sorted(olds), [sorted(os.path.relpath(q, root) for q in names[o])[:3] for o in sorted(olds)])
            together = True
        for o in sorted(olds):
            both = {q for q in words.get(to, ()) if q in words.get(o, ())}
            if both:
                print("taken:", o, "->", to, sorted(os.path.relpath(q, root) for q in both)[:4])
                together = True
    if "--look" in sys.argv:
        return 0
    if together and "--anyway" not in sys.argv:
        print("nothing was written")
        return 1
    for p in everything:
        text = read(p)
        skip = imported(text, crates) | goals.get(p, set())
        mine = {o: t for o, t in table.items() if o not in skip}
        dotted = None
        if os.path.basename(p) == "Proof.antt":
            dotted = {o: t for o, t in mine.items() if o in fields and o not in functions}
        mark = "//" if p.endswith(".rt") else "--"
        new = "\n".join(respell_line(l, mark, mine, dotted) for l in text.split("\n"))
        if new != text:
            with open(p, "w", encoding="utf-8") as f:
                f.write(new)
    for p in sorted(glob.glob(os.path.join(root, "crates", "*", "must-fail", "*.edit"))):
        out, mark, mine = [], "//", table
        for line in read(p).split("\n"):
            if line.startswith("file: "):
                of = os.path.join(os.path.dirname(os.path.dirname(p)), line[6:].strip())
                mark = "//" if of.endswith(".rt") else "--"
                mine = {o: t for o, t in table.items() if not os.path.exists(of) or o not in imported(read(of), crates)}
            if line[:5] in ("old: ", "new: "):
                line = line[:5] + respell_line(line[5:], mark, mine, None)
            out.append(line)
        new = "\n".join(out)
        if new != read(p):
            with open(p, "w", encoding="utf-8") as f:
                f.write(new)
    for p in (os.path.join(root, RESULT, f) for f in RESULT_FILES):
        lines = read(p).split("\n")
        for i, l in enumerate(lines):
            if not l.lstrip().startswith(("--", "//")):
                l = re.sub(r"(?<=[{ ])result(?=[}])", "factored_requirement", l) if " use " in l or l.startswith("use ") else l
                l = re.sub(r"(?<![.\w])result(?= \(row_of| w b face| : Row|\(row_of)", "factored_requirement", l)
                lines[i] = l
        with open(p, "w", encoding="utf-8") as f:
            f.write("\n".join(lines))
    print(len(table), "names respelled")
    return 0


if __name__ == "__main__":
    raise SystemExit(main())
