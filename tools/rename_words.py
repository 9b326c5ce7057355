#!/usr/bin/env python3
"""Spells the words that this repository declares in its .antt files as Rattle's library spells its own.

usage: python3 tools/rename_words.py          at the top of the repository, once, right after the kit's port.py
       python3 tools/rename_words.py --list   prints the renamings, and names that would fall together, and writes nothing

A word with dashes becomes snake case (`cut-part`: `cut_part`), a type or a fact upper camel case (`Handles-keep-bytes`:
`HandlesKeepBytes`). Only words that a file of specs/ or proofs/ declares are touched: definitions, lemmas, records, their
fields, constructors, helpers, and names that a file binds for itself. Names of goals and of steps, which Rattle makes, stay.
"""

import os
import re
import sys

WORD = re.compile(r"[^\s(){}\[\],;\"`:]+")
PART = re.compile(r"[^\s(){}\[\],;\"`:.]+")
DASHED = re.compile(r"^[^\W\d][\w']*(-[\w']+)+$")
DECLARED = re.compile(r"^(?:(?:abbrev|unfoldable)\s+)?(?:(pub)\s+)?(?:(?:record|data)\s+)?([^\s(){}:]+)(?:\s*:(?!:)|\s+\()")
FIELD = re.compile(r"^\s+(?:pub\s+)?([^\s(){}:]+)\s*:(?!:)")
RECORD_TYPE = re.compile(r"record \{([^}]*)\}")
# A name that stood under another already: what it is called in place of its plain spelling.
OTHERWISE = {}
# The records of steps and facts that Rattle hands to an answer.
ROOTS = {"c", "l", "w", "g", "e", "u", "v", "goal"}


def files(root):
    top = os.path.join(root, "crates")
    for folder, dirs, names in os.walk(top):
        crate = os.path.dirname(folder) == top
        dirs[:] = sorted(d for d in dirs if not (crate and d in ("out", "must-fail", "data")))
        for name in sorted(names):
            if name.endswith((".rt", ".antt")):
                yield os.path.join(folder, name)


def is_answer(path):
    return os.path.basename(path) in ("Answers.antt", "Invariants.antt", "Proof.antt")


def spelled(word):
    if word in OTHERWISE:
        return OTHERWISE[word]
    if word[0].isupper():
        return "".join(p[:1].upper() + p[1:] for p in word.split("-"))
    return word.replace("-", "_")


def declared(path, text):
    """The words that a file of specs/ or proofs/ declares, without the goals that Rattle names."""
    found = set()
    inside = False
    for line in text.split("\n"):
        if line.startswith("--"):
            continue
        top = DECLARED.match(line)
        if top and not line.startswith((" ", "use ")):
            goal = is_answer(path) and re.search(r":\s*goal\.", line)
            if not goal:
                found.add(top.group(2))
            inside = bool(re.match(r"^(?:abbrev |unfoldable )?(?:pub )?(?:record|data)\b", line))
        elif inside:
            field = FIELD.match(line)
            if field:
                found.add(field.group(1))
    for body in RECORD_TYPE.findall(text):
        for part in body.split(";"):
            label = re.match(r"\s*([^\s(){}:=]+)\s*:(?!:)", part)
            if label:
                found.add(label.group(1))
    return {w for w in found if DASHED.match(w)}


def imported(text, crates):
    """The words that a file takes from a lemma file or a file of specs/ of this repository, some of which stand in modules there."""
    found = set()
    for module, names in re.findall(r"^(?:ghost )?use ([^\s{}]+)\.\{([^}]*)\}", text, re.M):
        if any(re.match(rf"Rattle\.{c}\.(specs|proofs)\.[A-Z]\w*(\.|$)", module) for c in crates) and not module.endswith((".Goals", ".Given")):
            found |= {n.split(" as ")[0].strip() for n in names.split(",")}
    return {w for w in found if DASHED.match(w)}


def borrowed(text, crates):
    """The words that a file takes from elsewhere than this repository's crates."""
    found = set()
    for module, names in re.findall(r"^(?:ghost )?use ([^\s{}]+)\.\{([^}]*)\}", text, re.M):
        own = any(module.startswith(f"Rattle.{c}.") for c in crates)
        if not own or module.endswith((".Goals", ".Given")):
            found |= {n.split(" as ")[0].strip() for n in names.split(",")}
    return found


def bound(path, text):
    """The dashed names that a file binds for itself: helpers below a `where`, names of a `let`, variables, other names of modules."""
    found = set()
    for line in text.split("\n"):
        if line.strip().startswith("--"):
            continue
        if is_answer(path):
            found |= set(re.findall(r"\blet ([^\s(){}:]+)", line))
            helper = re.match(r"^\s+([^\s(){}:]+) :(?!:)", line)
            if helper:
                found.add(helper.group(1))
        elif path.endswith(".antt"):
            found |= {w.split(".")[0] for w in WORD.findall(line)}
    return {w for w in found if DASHED.match(w)}


def turned(path, text, table, crates):
    """The text with each word of the table in its new spelling; a field of a record of Rattle's own stays."""
    answers = is_answer(path)
    others = borrowed(text, crates)
    table = {w: n for w, n in table.items() if w not in others}
    own = {w: spelled(w) for w in bound(path, text) - others}

    def word(match):
        parts = re.split(r"(\.)", match.group(0))
        out = []
        for i, part in enumerate(parts):
            before = parts[i - 2] if i >= 2 else None
            if i == 0 and part in own:
                part = own[part]
            elif part in table and not (answers and before in ROOTS):
                part = table[part]
            out.append(part)
        return "".join(out)

    def turn(line):
        if line.strip().startswith(("--", "//")):
            return line
        # (every second piece is a string)
        return "".join(p if i % 2 else WORD.sub(word, p) for i, p in enumerate(re.split(r'("[^"]*")', line)))

    return "\n".join(turn(line) for line in text.split("\n"))


def main():
    root = os.getcwd()
    if not os.path.isdir(os.path.join(root, "crates")):
        print("rename_words: run me at the top of the repository", file=sys.stderr)
        return 2
    crates = sorted(os.listdir(os.path.join(root, "crates")))
    texts = {}
    for path in files(root):
        with open(path, encoding="utf-8") as f:
            texts[path] = f.read()
    words = set()
    for path, text in texts.items():
        if path.endswith(".antt"):
            words |= declared(path, text)
        words |= imported(text, crates)
    table = {w: spelled(w) for w in sorted(words)}
    taken = set()
    for text in texts.values():
        for m in PART.finditer(text):
            taken.add(m.group(0))
    clash = sorted(w for w in table if table[w] in taken)
    twice = {}
    for w, n in table.items():
        twice.setdefault(n, []).append(w)
    for w in clash:
        where = sorted({os.path.relpath(p, root) for p, t in texts.items() if re.search(r"(?<![\w-])" + re.escape(table[w]) + r"(?![\w-])", t)})
        print(f"taken: {w} -> {table[w]} stands in {', '.join(where[:6])}{' ..' if len(where) > 6 else ''}")
    for n, ws in sorted(twice.items()):
        if len(ws) > 1:
            print(f"falls together: {n} from {', '.join(ws)}")
    if "--list" in sys.argv:
        for w in sorted(table):
            print(f"{w} -> {table[w]}")
        return 0
    changed = 0
    for path, text in texts.items():
        new = turned(path, text, table, crates)
        if new != text:
            changed += 1
            with open(path, "w", encoding="utf-8") as f:
                f.write(new)
    print(f"rename_words: {len(table)} words, {changed} files")
    return 0


if __name__ == "__main__":
    sys.exit(main())
