#!/usr/bin/env python3
"""Respells this repository's own definitions and lemmas: words in snake case, types and facts in camel case.

usage: tools/snake_names.py [--check | --names] [FOLDER]

FOLDER is the top of a checkout (this one, if none is given) that /opt/rattle/port/port.py has turned just before.
A name that the repository's antt files declare with a dash, as frame-bits or Goes-round, becomes frame_bits or GoesRound,
wherever it is cited: in specs/, proofs/, clauses, must-fail edits, comments and, between backquotes, in README.md and docs/.
Names that Rattle makes (goals, steps and their fields), Rust's names and texts in quotes stay.
Where two names fall together in one file, it says so; the Rust function beside a definition of its own name is no clash, since no clause can name it.
--check writes nothing, and its exit status is 1 where two names fall together. --names writes nothing and prints each name that it turns, old and new;
port.py has then turned some already, those that a library of the kit has too, each by the same rule.
"""

import os
import re
import sys

NAME = r'[^\s(){}.;,:@"«»`\[\]]+'
# A name that stands alone or behind a dot, as antt cuts words.
WORD = re.compile(rf"(?<![^\s(){{}}.;,:@\"«»`\[\]])({NAME})")
DECLARED = re.compile(r"(?m)^ *(?:(?:abbrev|unfoldable|pub|record|data|module|let) +)*([A-Za-z][^\s(){}.;,:@\"]*)(?: +[({][^\n]*?[)}])* *:(?= |$)")
MADE = ("Answers.antt", "Invariants.antt", "Choices.antt", "Proof.antt")
# Names with a dash that a clause of a definition or a lemma binds, and no declaration.
BOUND = ("help-text", "to-come", "made-as-told")
QUOTED = re.compile(r'("(?:\\.|[^"\\\n])*")')


def respelt(name):
    if name[0].isupper():
        head, *rest = name.split("-")
        return head + "".join(w[:1].upper() + w[1:] for w in rest)
    name = name.replace("getD", "get_or")
    return name.replace("-", "_")


def files(top):
    for folder, dirs, names in os.walk(os.path.join(top, "crates")):
        dirs[:] = sorted(d for d in dirs if d not in ("out", ".git"))
        for name in sorted(names):
            if name.endswith((".rt", ".antt", ".edit")):
                yield os.path.join(folder, name)


def read(path):
    with open(path, encoding="utf-8") as f:
        return f.read()


def is_of_function(path):
    """Whether the file answers one function's goals, so that it cites names that Rattle makes."""
    return os.sep + "proofs" + os.sep in path and os.path.basename(path) in MADE


def table(top):
    """The names with a dash that the antt files declare, but for the goals that Rattle names."""
    found = declared(top)
    return {name: respelt(name) for name in found.union(BOUND) if "-" in name}


def declared(top):
    found = set()
    for path in files(top):
        if path.endswith(".antt"):
            text = read(path)
            goals = set(re.findall(rf"\bgoal\.({NAME})", text)) if is_of_function(path) else set()
            found.update(m[1] for m in DECLARED.finditer(text) if m[1] not in goals)
    return found


def older(top, names):
    """The names as pages may still have them: port.py respells some in the code, and turns no page."""
    return {name.replace("_", "-"): name for name in declared(top) if "_" in name} | names


def is_made(text, start, name, path):
    """Whether the word at start is one that Rattle makes, in a proof file of a function."""
    if not is_of_function(path):
        return False
    if re.search(rf"\bgoal\.{re.escape(name)}(?![^\s(){{}}.;,])", text):
        return True
    if text[start - 1 : start] != ".":
        return False
    path_before = re.search(r"[^\s(){};,]*$", text[:start])[0]
    return not path_before.startswith(("Rattle.", "package."))


def turned(text, path, names):
    out, at, changed = [], 0, set()
    for m in WORD.finditer(text):
        name = m[1]
        if name not in names or is_made(text, m.start(), name, path):
            continue
        out += [text[at : m.start()], names[name]]
        at = m.end()
        changed.add(name)
    return "".join(out) + text[at:], changed


def outside_quotes(text, path, names):
    if path.endswith(".antt"):
        return turned(text, path, names)
    parts, changed = QUOTED.split(text), set()
    for i in range(0, len(parts), 2):
        parts[i], some = turned(parts[i], path, names)
        changed |= some
    return "".join(parts), changed


def clashes(text, path, names, changed):
    """The new spellings that another word of this file has already, or that two of its words would have."""
    # a Rust function may have the name of the definition that it meets: so may the folder of its proof in a path
    words = {m[1] for m in WORD.finditer(re.sub(r"(?m)^use [^\s{]+", "", text))}
    words -= set(re.findall(r"\bfn (\w+)", text)) if path.endswith(".rt") else set()
    for old in sorted(changed):
        for other in sorted(words - {old}):
            if names.get(other, other) == names[old]:
                yield f"{path}: {old} and {other} would both be {names[old]}"


def pages(top):
    yield os.path.join(top, "README.md")
    docs = os.path.join(top, "docs")
    for name in sorted(os.listdir(docs)):
        if name.endswith(".md") and not name.startswith("PORT"):
            yield os.path.join(docs, name)


def page_turned(text, path, names):
    spans = re.split(r"(`[^`\n]*`)", text)
    for i in range(1, len(spans), 2):
        spans[i] = turned(spans[i], path, names)[0]
    return "".join(spans)


def main(words):
    checking = "--check" in words
    listing = "--names" in words
    words = [w for w in words if w not in ("--check", "--names")]
    if len(words) > 1 or any(w.startswith("-") for w in words):
        print(__doc__)
        return 2
    top = words[0] if words else os.path.dirname(os.path.dirname(os.path.abspath(__file__)))
    names = table(top)
    if listing:
        print("\n".join(f"{old} {names[old]}" for old in sorted(names)))
        return 0
    new, said = {}, []
    for path in files(top):
        text = read(path)
        after, changed = outside_quotes(text, path, names)
        said += clashes(text, os.path.relpath(path, top), names, changed)
        if after != text:
            new[path] = after
    known = older(top, names)
    for path in pages(top):
        text = read(path)
        after = page_turned(text, path, known)
        if after != text:
            new[path] = after
    for line in said:
        print("clash: " + line)
    print(f"{len(names)} names, {len(new)} files")
    if checking:
        return bool(said)
    for path, text in new.items():
        with open(path, "w", encoding="utf-8") as f:
            f.write(text)
    return 0


if __name__ == "__main__":
    raise SystemExit(main(sys.argv[1:]))
