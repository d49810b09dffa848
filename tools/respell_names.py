#!/usr/bin/env python3
"""Brings the names of definitions and lemmas to today's spelling. It was run once, behind the kit's port.py, and stands here so that
the step from the older spelling can be made again.

    tools/respell_names.py [FOLDER]        FOLDER is the top of the repository, this one if there is none

- A word gets snake case, also one with dashes: `lookAtMost` is `look_at_most`, `case-a` is `case_a`. `member` and `rising`, which are facts, are `IsMember` and `IsRising`.
- In the name of a lemma a dash stands in front of the name of a definition or of an operation of lists and numbers, and an underscore in
  front of any other word: `count-of-single` is `count_of-single`.
- The proof of a function `f` is `f_spec`.

Names of src/, the names of goals (which the check makes), names that a file takes from the kit, strings and file names keep their spelling. Where a
lemma would have the name of a definition it gets `_lem` behind it, and a line says so. Comments, must-fail edits, README and docs/ get the new names where they stand between back quotes
or in code.
"""
import os
import re
import sys

TOP = os.path.abspath(sys.argv[1] if len(sys.argv) > 1 else os.path.join(os.path.dirname(__file__), ".."))
CRATES = os.path.join(TOP, "crates")
DECLARED = re.compile(r"^(\s*)((?:abbrev |unfoldable |pub |record |data )*)([^\s(){}:;,=]+) : (.*)$")
WORD = re.compile(r"[A-Za-z0-9_'⊎≤≡ℕ∷¬×∙₀-₉ᴰ⊥][A-Za-z0-9_'⊎≤≡ℕ∷¬×∙₀-₉ᴰ⊥-]*")
FACTS = {"member": "IsMember", "rising": "IsRising"}
# Fields of records: snake case, also behind a dot.
FIELDS = "bytes-written content-there head-there length-fits longer-left longer-right rule-faultless two-long".split()
# Operations of std that stand in lemma names.
OF_STD = "length get_or set take drop append replicate min max and or xor not".split()


def antt_files():
    for folder, dirs, files in os.walk(CRATES):
        dirs[:] = sorted(d for d in dirs if d != "out")
        for f in sorted(files):
            if f.endswith(".antt"):
                yield os.path.join(folder, f)


def snake(name):
    return re.sub(r"(?<=[a-z0-9])([A-Z])", lambda m: "_" + m.group(1).lower(), name)


# What is declared: names of definitions in camel case, names of lemmas with a dash, and those of specs/.
def declared():
    camel, dashed, defined, every, words = set(), set(), set(OF_STD), set(), set()
    for path in antt_files():
        with open(path, encoding="utf-8") as f:
            for line in f:
                m = DECLARED.match(line.rstrip("\n"))
                if not m or line.lstrip().startswith(("--", "use ")):
                    continue
                name, kind = m.group(3), m.group(4)
                if path.endswith("/Proof.antt") and (re.match(r"(tie|goal)\b", kind) or re.match(r"(invariant|decreases|loop|μ)-", name)):
                    continue
                every.add(name)
                if re.search(r"[a-z0-9][A-Z]", name) and name[0].islower():
                    camel.add(name)
                elif "-" in name and name not in FIELDS and not re.search(r"[A-Z]", name):
                    dashed.add(name)
                if "/specs/" in path and "-" in name:
                    words.add(name)
                if "/specs/" in path and name[0].islower() and "record" not in m.group(2):
                    defined.add(snake(name))
    return camel, dashed, defined, every, words


# The names that a file takes from the kit's library: they are not ours.
def of_kit(lines):
    kept = set()
    for line in lines:
        m = re.match(r"\s*use ([A-Za-z]+)\.([A-Za-z_]+)\S*\{(.*)\}", line)
        if m and not (m.group(1) == "Rattle" and os.path.isdir(os.path.join(CRATES, m.group(2)))):
            kept.update(x.strip() for x in m.group(3).split(","))
    return kept


# The new name of a lemma: the longest names of definitions are found from the left.
def lemma(name, defined):
    if name.endswith("-spec"):
        return name.replace("-", "_")
    words = name.replace("_", "-").split("-")
    out, i = "", 0
    while i < len(words):
        for j in range(len(words), i, -1):
            joined = "_".join(words[i:j])
            if j == i + 1 or joined in defined:
                break
        out += ("" if i == 0 else "-" if joined in defined and i > 0 else "_") + joined
        i = j
    return out


def main():
    camel, dashed, defined, every, words = declared()
    new = {n: snake(n) for n in camel}
    for n in sorted(dashed):
        new[n] = n.replace("-", "_") if n in words else lemma(n, defined)
    new = {a: b for a, b in new.items() if a != b}
    taken = {}
    for n in sorted(every):
        to = new.get(n, n)
        if to in taken:
            word, other = sorted((n, taken[to]), key=lambda x: (x not in camel, x in dashed))
            print(f"fall together: {word} and {other}: {other} is {to}_lem")
            new[other] = to + "_lem"
        taken[to] = n

    def one(text, kept, in_code):
        def word(m):
            w = m.group(0)
            if w in kept:
                return w
            before = text[max(0, m.start() - 9) : m.start()]
            if before.endswith("examples/"):
                return w
            if before.endswith("«"):
                return w
            if w in FACTS and not in_code:
                return w if before.endswith(".") else FACTS[w]
            if w in FIELDS and not in_code:
                return w.replace("-", "_")
            if w not in new:
                return w
            if w in dashed and (before.endswith(".") and not before.endswith(("..", "decided.")) or in_code):
                return w
            return new[w]

        return WORD.sub(word, text)

    def quoted(text, kept=frozenset()):
        return re.sub(r"`[^`\n]*`", lambda m: one(m.group(0), kept, False), text)

    for path in antt_files():
        with open(path, encoding="utf-8") as f:
            lines = f.read().split("\n")
        kept = of_kit(lines)
        out = []
        for line in lines:
            at = line.find("-- ")
            if line.lstrip().startswith("--"):
                out.append(quoted(line, kept))
            elif at > 0:
                out.append(one(line[:at], kept, False) + quoted(line[at:], kept))
            else:
                out.append(one(line, kept, False))
        with open(path, "w", encoding="utf-8") as f:
            f.write("\n".join(out))
    for folder, dirs, files in os.walk(CRATES):
        dirs[:] = sorted(d for d in dirs if d != "out")
        for name in sorted(files):
            path = os.path.join(folder, name)
            if not name.endswith((".rt", ".edit")):
                continue
            with open(path, encoding="utf-8") as f:
                text = f.read()
            out, ours, antt = [], False, False
            for line in text.split("\n"):
                if name.endswith(".edit"):
                    if line.startswith("file:"):
                        antt = ".antt" in line
                    if line.startswith("#"):
                        out.append(quoted(line))
                    elif line.startswith(("old:", "new:")):
                        out.append(line[:4] + one(line[4:], frozenset(), not antt and "ghost use" not in line and "{ " not in line))
                    else:
                        out.append(line)
                    continue
                s = line.lstrip()
                if s.startswith("//"):
                    out.append(quoted(line))
                elif s.startswith(("ghost use", "requires", "ensures")) or ours:
                    out.append(one(line, frozenset(), False))
                    ours = s.startswith(("requires", "ensures")) and line.count("{") > line.count("}") or ours and line.count("}") <= line.count("{")
                else:
                    out.append(line)
            with open(path, "w", encoding="utf-8") as f:
                f.write("\n".join(out))
    for folder, dirs, files in os.walk(TOP):
        dirs[:] = sorted(d for d in dirs if d not in ("crates", "examples", ".git", "out", "wip"))
        for name in sorted(files):
            if name.endswith(".md"):
                path = os.path.join(folder, name)
                with open(path, encoding="utf-8") as f:
                    text = f.read()
                with open(path, "w", encoding="utf-8") as f:
                    f.write(quoted(text))
    print(f"{len(camel)} words in camel case, {len([n for n in dashed if n in new])} names of lemmas, {len(FACTS)} facts")


main()
