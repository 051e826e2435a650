#!/usr/bin/env python3
"""Counts the places in src/ where an older form may stand. docs/DESIGN-PASS.md says what each count means.

    tools/places.py           every point, with its total
    tools/places.py 3         the places of point 3, each with file, line and text
    tools/places.py 2 FOLDER  the same in another checkout

It reads text and knows no types, so it shows some places where the form is right. Tests count like other code."""
import re
import sys
from collections import defaultdict
from difflib import SequenceMatcher
from pathlib import Path

NUMBER = r"(?:u8|u16|u32|u64|usize)"
WORD = re.compile(r"[A-Za-z_]\w*|\d\w*|\S")
KEPT = set("if else match for in while loop return break continue let mut ref move as true false Ok Err Some None self".split())


class Function:
    def __init__(self, path, line, name, head, body):
        self.path, self.line, self.name, self.head, self.body = path, line, name, head, body

    def clauses(self):
        return [text for text in self.head if re.match(r"\s*(requires|ensures)\b", text)]


def without_comment(text):
    return re.sub(r"//.*", "", text)


def functions(path):
    lines = path.read_text().split("\n")
    found = []
    for at, text in enumerate(lines):
        start = re.match(r"(\s*)(?:pub(?:\(crate\))? )?(?:extern \"C\" )?fn (\w+)", text)
        if not start:
            continue
        end = at
        if not text.rstrip().endswith((";", "{}")):
            while end + 1 < len(lines) and lines[end] not in (start[1] + "}", start[1] + "{}"):
                if lines[end].rstrip().endswith(";") and all("{" not in t or "ensures" in t or "requires" in t for t in lines[at : end + 1]):
                    break
                end += 1
        whole = [without_comment(t) for t in lines[at : end + 1]]
        opening = next((k for k, t in enumerate(whole) if t == start[1] + "{"), None)
        if opening is None:
            opening = next((k for k, t in enumerate(whole) if t.rstrip().endswith("{") and not re.match(r"\s*(requires|ensures)", t)), 0)
        found.append(Function(path, at + 1, start[2], whole[: opening + 1], whole[opening + 1 : -1]))
    return found


def shape(function):
    words = WORD.findall(" ".join(function.body))
    return [w if w in KEPT or not re.match(r"[A-Za-z_\d]", w) else "x" for w in words]


def lines_like(files, pattern):
    for path in files:
        for number, text in enumerate(path.read_text().split("\n"), 1):
            if re.search(pattern, without_comment(text)):
                yield path, number, text.strip()


def in_bodies(all_functions, pattern):
    for f in all_functions:
        body = " ".join(t.strip() for t in f.body)
        if re.search(pattern, body):
            yield f.path, f.line, f"fn {f.name}"


def structs(files, kind):
    for path in files:
        lines = path.read_text().split("\n")
        for at, text in enumerate(lines):
            if re.match(rf"(pub(\(crate\))? )?{kind} \w+.*\{{$", text):
                end = next(k for k in range(at, len(lines)) if lines[k] == "}")
                yield path, at + 1, text, [without_comment(t).strip() for t in lines[at + 1 : end] if without_comment(t).strip()]


# 1: numbers as errors; matches that pack a Result or an Option again; numbers that answer yes or no; a flag with a value beside it; enums of
# at most three variants of which one holds a value
def point_1(files, fs):
    yield from lines_like(files, rf"Result<[^;]*, {NUMBER}>")
    yield from in_bodies(fs, r"\b(Ok|Some)\((\w*|\(\))\) => (return )?(Ok|Some)\(\2\)")
    yield from in_bodies(fs, r"\bErr\(\w+\) => (return )?(Err\(|\w+::\w+,)")
    for f in fs:
        if re.search(rf"-> {NUMBER}\b", " ".join(f.head)):
            body = " ".join(t.strip() for t in f.body)
            if re.search(r"\{ [01] \} else \{ [01] \}|^u8::from\(\w+\(\w+\)\)$", body) or re.search(r"=> [01],.*=> [01],", body):
                yield f.path, f.line, f"fn {f.name}"
    for path, line, head, fields in structs(files, "struct"):
        kept = [t for t in fields if not t.startswith("ghost")]
        for k, t in enumerate(kept[:-1]):
            if re.match(r"(pub(\(crate\))? )?\w+: bool,", t):
                yield path, line + 1 + k, t
    for path, line, head, variants in structs(files, "enum"):
        if len(variants) <= 3 and any("(" in t for t in variants):
            yield path, line, head


# 2: functions of like shape (85 in a hundred of their words, names and numbers aside); and a function that only calls one of the repository
def point_2(files, fs):
    shaped = [(f, shape(f)) for f in fs]
    shaped = [(f, s) for f, s in shaped if len(s) >= 16]
    for k, (f, s) in enumerate(shaped):
        for g, t in shaped[:k]:
            least = 2 * min(len(s), len(t)) / (len(s) + len(t))
            if least < 0.85:
                continue
            match = SequenceMatcher(None, s, t, autojunk=False)
            if match.quick_ratio() >= 0.85 and match.ratio() >= 0.85:
                yield f.path, f.line, f"fn {f.name} ~ {g.path.relative_to(ROOT).parts[1]} fn {g.name}, line {g.line}"
                break
    by_file = defaultdict(dict)
    for f in fs:
        by_file[f.path][f.name] = f
    for f in fs:
        only = re.fullmatch(r"(?:[\w:]*::|self\.)?(\w+)\(([^()]*(?:\(\))?[^()]*)\)", " ".join(t.strip() for t in f.body))
        if only and only[1] not in (f.name, "from") and only[1] in {n for g in by_file.values() for n in g} and f.clauses():
            yield f.path, f.line, f"fn {f.name} only calls {only[1]}"


# 3: `while`; loops over numbers that index with them; counters in a loop
def point_3(files, fs):
    yield from lines_like(files, r"\bwhile\b")
    for f in fs:
        for k, text in enumerate(f.body):
            loop = re.match(r"(\s*)for (\w+) in .*\.\.", text)
            if loop and loop[2] != "_":
                inside = []
                for t in f.body[k + 1 :]:
                    if t == loop[1] + "}":
                        break
                    inside.append(t)
                if re.search(rf"\[[^\]]*\b{loop[2]}\b|\b\w+\(\w+, {loop[2]}\)|\b{loop[2]} [%/]|_at\(.*\b{loop[2]}\b", " ".join(inside)):
                    yield f.path, f.line + len(f.head) + k, text.strip()
        if any(re.match(r"\s*for ", t) for t in f.body):
            for k, text in enumerate(f.body):
                if re.search(r"\b([\w.]+) = \1\.saturating_add\(1\);|\b\w+ \+= (1|\w+\(.*\));", text):
                    yield f.path, f.line + len(f.head) + k, text.strip()


# 4: words for the variants of an enum, 1 and 0 for a bool, bit by bit or field by field comparison, zeros for a new value, conversion by a function
def point_4(files, fs):
    yield from in_bodies([f for f in fs if f.name != "fmt"], r"(=> \"[^\"]*\",.*){2}")
    yield from in_bodies(fs, r"\{ '?1'? \} else \{ '?0'? \}")
    yield from in_bodies(fs, r"=> e?println!.*=> e?println!")
    yield from in_bodies(fs, r"\.(\w+) != \w+\.\1 \|\||\((Ok|Err)\(\w\), (Ok|Err)\(\w\)\) =>")
    yield from in_bodies(fs, r"^\w+ \{( \w+: 0,)+ \}$")
    yield from in_bodies(fs, r"char::from\(\w+ \+|- 48|\w < 10 \{")
    yield from in_bodies(fs, r"\w > 32 &&")
    for f in fs:
        head = " ".join(t.strip() for t in f.head)
        if f.path.name != "tests.rt" and re.search(r"fn \w+\((word|words|text): &[^,)]*\) -> (Result<)?[A-Z]\w*(, Fault>)? ", head):
            yield f.path, f.line, f"fn {f.name}"


# 5: a definition of what a value means, in the contracts of three functions or more; five parameters or more
def point_5(files, fs):
    uses = defaultdict(list)
    for f in fs:
        seen = set()
        for clause in f.clauses():
            for word in re.findall(r"(?<![\w.])([a-z]\w*(?:\.[A-Z]\w*\.\w+)?) \(?(?:self|result|line|self\.\w+)\.?(?:old|new|now)?\b", clause):
                seen.add(word)
        crate = f.path.relative_to(ROOT).parts[1]
        for word in seen:
            uses[(crate, word)].append(f)
    for (crate, word), group in sorted(uses.items(), key=lambda item: item[0]):
        if len(group) >= 3 and word not in ("length", "string_bytes", "vec_items"):
            yield group[0].path, group[0].line, f"{word} in the contracts of {len(group)} functions"
    for f in fs:
        head = " ".join(t.strip() for t in f.head)
        inside = re.search(r"fn \w+(?:<.*?>)?\((.*?)\)(?: ->| requires| ensures| \{|$)", head)
        if inside and len([p for p in inside[1].split(", ") if ":" in p]) >= 5:
            yield f.path, f.line, f"fn {f.name} has five parameters or more"


# 6: arrays with a length beside them, two slices side by side
def point_6(files, fs):
    yield from lines_like(files, r"^    (count|length|len|used): usize,$")
    for f in fs:
        head = " ".join(t.strip() for t in f.head)
        if f.name != "differences" and len(re.findall(r": &(?:'\w+ )?(?:mut )?\[", head)) >= 2:
            yield f.path, f.line, f"fn {f.name} has two slices or more"


# 7: matches on an enum of the repository that names what to do next
def point_7(files, fs):
    yield from lines_like(files, r"\bmatch (way|name|command|act|step|kind|\*?self\.step)\b")
    yield from lines_like(files, r"\[fn\(|: fn\(")


POINTS = {1: point_1, 2: point_2, 3: point_3, 4: point_4, 5: point_5, 6: point_6, 7: point_7}


def places(point, files, fs):
    seen, found = set(), []
    for path, line, text in point(files, fs):
        if (path, line) not in seen:
            seen.add((path, line))
            found.append((path, line, text))
    return found


def main():
    global ROOT
    words = sys.argv[1:]
    ROOT = Path(words.pop()) if len(words) > 1 or (words and not words[0].isdigit()) else Path(__file__).resolve().parent.parent
    files = sorted(ROOT.glob("crates/*/src/**/*.rt"))
    if not files:
        sys.exit(f"places.py: {ROOT} has no crates/*/src/*.rt")
    fs = [f for path in files for f in functions(path)]
    if words:
        if int(words[0]) not in POINTS:
            sys.exit(f"places.py: there is no point {words[0]}: name one of 1 to 7")
        found = places(POINTS[int(words[0])], files, fs)
        for path, line, text in found:
            print(f"{path.relative_to(ROOT)}:{line}: {text}")
        print(f"point {words[0]}: {len(found)} places")
        return
    for number, point in POINTS.items():
        print(f"point {number}: {len(places(point, files, fs))} places")
    answers = sorted(ROOT.glob("crates/*/proofs/**/*.antt"))
    print(f"point 8: {sum(len(p.read_text().split(chr(10))) - 1 for p in answers)} lines in {len(answers)} files of proofs/")


main()
