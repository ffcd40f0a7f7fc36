#!/usr/bin/env python3
"""Brings the repository's own names in antt to one spelling, after port.py ran.

usage: python3 tools/respell_names.py        at the top of the repository; run once

Words are in snake case: `readsAtTop` becomes `reads_at_top`; types and modules keep their camel case. A dash joins two
names, and a plain word hangs on by `_`: a field or a definition has no dash, and a lemma keeps one only before a word
that is itself the name of something. Names of functions, fields and constants of the code keep their spelling. Names
that would fall together are left as they are, and printed.
"""

import collections
import os
import re
import subprocess
import sys
import tempfile

TOKEN = re.compile(r"[A-Za-zα-ωℓ_][\w'′]*(?:-[\w'′]+)*")
DECLARED = re.compile(
    r"^(?P<indent>\s*)(?:(?:unfoldable|abbrev|pub|pattern|axiom)\s+)*(?:record\s+|data\s+)?"
    r"(?P<name>[A-Za-zα-ωℓ_][\w'′]*(?:-[\w'′]+)*)(?:\s*\{[^}]*\})*(?:\s*\([^)]*\))*\s*:(?:\s|$)"
)
LITERAL = re.compile(r"""(b?'(?:\\.|[^'\\\n])'(?!\w)|b?"(?:\\.|[^"\\])*")""")
QUOTED = re.compile(r"""("(?:\\.|[^"\\\n])*")""")
CAMEL = re.compile(r"[a-z0-9][A-Z]")
# The library beside the page that `rt doc` names.
KIT = os.path.join(os.path.dirname(subprocess.run(["rt", "doc"], capture_output=True, text=True).stdout.strip()), "rattle")
KITS = ("mathlib", "native", "lib", "Prim", "borrow")
# Looked at by hand: two names that fall together here stand in different records or crates, or one is a local's.
TOGETHER = set(
    "endBefore endsLent entriesFit entry-count firstRead isRight l_DNA l_DNA_raw l-header l_N l-read lastDigits leftIn "
    "lettersLent n-count nList n-reads name-ends nameEnds nameEndsLent namesLent names-stored noLength noZero oneMore "
    "positionIn rowFrom storedBytes withByte withN writtenAs".split()
)
# A definition that would have the name of a parameter beside which it is cited, which would hide it.
OTHER = {"pairTable": "pair_words"}
# Lemmas that would have the name of the function that they are about.
LEMMAS = set("first_read left_in no_length one_more position_in row_from stored_bytes with_byte written_as".split())


def files(ending):
    for folder, dirs, names in os.walk("crates"):
        dirs[:] = sorted(d for d in dirs if d not in ("out", "data", "must-fail", "edits"))
        for n in sorted(names):
            if n.endswith(ending):
                yield os.path.join(folder, n)


def read(path):
    with open(path, encoding="utf-8") as f:
        return f.read()


def is_function_proof(path):
    """A file in the folder of a function's proof, whose names Rattle makes."""
    return "/proofs/" in path and os.path.basename(path) in ("Proof.antt", "Answers.antt", "Invariants.antt")


def snake(word):
    """One part of a name, in snake case; a type keeps its capital."""
    if word in OTHER:
        return OTHER[word]
    if not word or not (word[0].islower() or word[0] == "_"):
        return word
    word = re.sub(r"\bgetD\b", "get_or", word)
    word = re.sub(r"([a-z0-9])([A-Z])", r"\1_\2", word)
    return re.sub(r"([A-Z])([A-Z][a-z])", r"\1_\2", word).lower()


def main():
    own = set(os.listdir("crates"))
    seen, declared, in_specs, made = collections.Counter(), set(), set(), set()
    in_antt, of_kit = set(), set()
    known = set()
    for path in files(".antt"):
        text = read(path)
        seen.update(TOKEN.findall(text))
        for module, names in re.findall(r"(?m)^use ([\w.'+]+)\.\{([^}]*)\}", text):
            words = module.split(".")
            if words[0] in KITS or words[0] == "Rattle" and words[1] not in own:
                of_kit.update(n.strip() for n in names.split(",") if "-" in n)
        if not is_function_proof(path):
            in_antt.update(TOKEN.findall(re.sub(r"--.*", "", re.sub(r"(?m)^use .*", "", text))))
        for line in text.splitlines():
            m = DECLARED.match(line)
            if not m:
                continue
            name = m.group("name")
            if is_function_proof(path):
                made.add(name)
            else:
                declared.add(name)
                if "/specs/" in path or m.group("indent"):
                    in_specs.add(name)
    for path in files(".rt"):
        text = read(path)
        seen.update(TOKEN.findall(text))
        known.update(re.findall(r"\bfn\s+(\w+)", text))
    # What a dash may stand before: a definition or a field here, a word of the library.
    known.update(snake(n) for n in declared if "-" not in n)
    for top in ("std/specs", "core/specs"):
        for folder, _, names in os.walk(os.path.join(KIT, top)):
            for n in sorted(names):
                if n.endswith(".antt"):
                    for line in read(os.path.join(folder, n)).splitlines():
                        m = DECLARED.match(line)
                        if m and "-" not in m.group("name"):
                            known.add(m.group("name"))
    known.update("zero suc add sub mul div mod le lt eq eqb leb ltb cons nil append snoc map take drop length".split())

    def respelled(name):
        parts = name.split("-")
        turned = [snake(p) for p in parts]
        if len(turned) == 1:
            return turned[0]
        if name in of_kit:
            return name
        if name in made or name not in declared:
            return "-".join(turned) if any(CAMEL.search(p) for p in parts) else name
        if name in in_specs:
            return "_".join(turned) if turned[0][0].islower() else "-".join(turned)
        out = turned[0]
        for before, part in zip(turned, turned[1:]):
            joins = part in known or before[:1].isupper() or part[:1].isupper()
            out += ("-" if joins else "_") + part
        return out

    turn, back = {}, collections.defaultdict(set)
    for name in sorted(seen):
        back[respelled(name)].add(name)
    for new, olds in sorted(back.items()):
        changed = sorted(o for o in olds if o != new)
        if not changed:
            continue
        for o in set(changed) & TOGETHER:
            turn[o] = new
            changed.remove(o)
        if not changed:
            continue
        if new in olds and new in in_antt:
            print(f"left: {' '.join(changed)}: would fall together with {new}")
            continue
        # A definition may bear the name of a function of the code, as it does in the library; of two names in antt
        # that would fall together the one with a dash keeps it.
        words = [o for o in changed if "-" not in o] or changed[:1]
        if len(words) > 1:
            print(f"left: {' '.join(words)}: would fall together as {new}")
        elif words:
            turn[words[0]] = new
    paths = list(files(".antt")) + list(files(".rt"))
    for top in ("README.md", "docs"):
        if os.path.isfile(top):
            paths.append(top)
        for folder, _, names in os.walk(top):
            paths += [os.path.join(folder, n) for n in sorted(names) if n.endswith(".md")]
    changed = 0
    for path in paths:
        before = text = read(path)
        if path.endswith(".md"):
            new = re.sub(
                r"`[^`\n]+`",
                lambda m: TOKEN.sub(lambda t: turn.get(t.group(), t.group()), m.group()),
                text,
            )
        else:
            if "/proofs/" in path:
                text = re.sub(
                    r"(?<![\w.:'′-])(" + "|".join(sorted(LEMMAS)) + r")(?![\w'′-]| =)", r"\1_lem", text
                )
            parts = (LITERAL if path.endswith(".rt") else QUOTED).split(text)
            for i in range(0, len(parts), 2):
                parts[i] = TOKEN.sub(lambda t: turn.get(t.group(), t.group()), parts[i])
            new = "".join(parts)
        if new != before:
            with open(path, "w", encoding="utf-8") as f:
                f.write(new)
            changed += 1
    table = os.path.join(tempfile.gettempdir(), "respelled.tsv")
    with open(table, "w", encoding="utf-8") as f:
        f.writelines(f"{o}\t{n}\n" for o, n in sorted(turn.items()))
    print(f"{len(turn)} names respelled in {changed} files; they stand in {table}")
    return 0


if __name__ == "__main__":
    sys.exit(main())
