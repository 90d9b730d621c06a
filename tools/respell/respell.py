#!/usr/bin/env python3
"""Spells the repository's own definitions and lemmas in today's style.

Words of specs/ and proofs/ go to snake case, types and facts that have a dash to upper camel case.
Names that the check makes (goals, steps) and names from src/ stay. Run at the top, once.
With --list it prints the table and changes nothing.
"""
import glob
import re
import sys

DECL = re.compile(
    r"^(\s*)((?:(?:abbrev|unfoldable|pub|record|data)\s+)*)([^\s:{}()\[\]→λ,;.|]+)(\s.*?)?\s?:\s", re.M)
# Names that fall together with another one when they are respelled, and what they are called instead.
CHOSEN = {
    "anyLong": "has_long_code", "code-size": "code_size_cases", "codeSize": "size_of_code",
    "countMarks": "marks_count", "faultAt": "fault_at", "fault-at": "fault_at_lem",
    "fitsAt": "fits_at", "fits-at": "fits_at_lem", "headBytes": "bytes_of_head",
    "in-service": "in_service", "is-over": "is_over", "keyIn": "key_under",
    "link-count": "link_count", "unit-count": "unit_count", "link-size": "link_size_lem",
    "merge-found": "merge_found", "oneSide": "is_one_side", "outliveAt": "outlive_at",
    "outlive-at": "outlive_at_lem", "three-by-three": "three_by_three",
}
KEEP_FIRST = ("returns", "loop", "invariant", "decreases", "overflow", "then", "else", "in_ok", "in_err")


def files():
    found = []
    for part in ("specs", "proofs"):
        found += glob.glob(f"crates/*/{part}/**/*.antt", recursive=True)
    return sorted(found)


def generated(text_of):
    """Names that the check makes: those asked of a module of goals."""
    names = set()
    for path, text in text_of.items():
        names |= set(re.findall(r"\bgoals?\.([^\s(){};,]+)", text))
        for block in re.findall(r"(?:Goals|Given|Tie)\.\{([^}]*)\}", text):
            names |= {n.strip().split(" as ")[0] for n in block.split(",")}
    return names


def from_libraries(text):
    """Names that a file takes from the libraries of the kit."""
    names = set()
    for where, block in re.findall(r"\buse ([\w.]+)\.\{([^}]*)\}", text):
        if where.startswith("Rattle.std.") or not where.startswith("Rattle."):
            names |= {n.strip().split(" as ")[0] for n in block.split(",")}
    return names


def snake(name):
    out = re.sub(r"(?<=[a-z0-9])([A-Z])", lambda m: "_" + m.group(1).lower(), name)
    return out.replace("-", "_")


def camel(name):
    return "".join(p[:1].upper() + p[1:] for p in re.split(r"[-_]", name))


def table(text_of):
    made = generated(text_of)
    fixed, fields, seen = {}, set(), set()
    for path, text in text_of.items():
        for m in DECL.finditer(text):
            name = m.group(3)
            seen.add(name)
            if not re.fullmatch(r"[A-Za-z][A-Za-z0-9_'\-]*", name):
                continue
            if name in made or name.startswith(KEEP_FIRST) and "-" in name and name in made:
                continue
            if "-" not in name and not re.search(r"[a-z][A-Z]", name):
                continue
            if "-" not in name and name[0].isupper():
                continue
            if m.group(1):
                fields.add(name)
            fixed[name] = camel(name) if name[0].isupper() else snake(name)
    return fixed, fields, seen


def main():
    text_of = {p: open(p, encoding="utf-8").read() for p in files()}
    fixed, fields, seen = table(text_of)
    words = set()
    for t in text_of.values():
        words |= set(re.findall(r"[A-Za-z][A-Za-z0-9_'\-]*", t))
    for path in glob.glob("crates/*/src/**/*.rt", recursive=True):
        words |= set(re.findall(r"[A-Za-z][A-Za-z0-9_']*", open(path, encoding="utf-8").read()))
    targets = {}
    for old in sorted(fixed):
        new = fixed[old]
        if old in CHOSEN:
            fixed[old] = CHOSEN[old]
            targets[CHOSEN[old]] = old
            continue
        if new in targets or new in words:
            new = new + "_lem" if old[0].islower() else new + "Lem"
            print("falls together:", old, "->", new)
        fixed[old] = new
        targets[new] = old
    if "--list" in sys.argv:
        for old in sorted(fixed):
            print(old, fixed[old])
        return
    token = re.compile(r"(?<![\w'\-→◌ℕ])[A-Za-z][A-Za-z0-9_'\-]*(?![\w'→◌])")

    def change(code, foreign=frozenset()):
        def one(m):
            name = m.group(0)
            if name not in fixed or name in foreign:
                return name
            before = code[:m.start()]
            if before.endswith(".") and not before.endswith("..") and name not in fields:
                return name
            return fixed[name]
        return token.sub(one, code)

    for path in sorted(text_of) + sorted(glob.glob("crates/*/src/**/*.rt", recursive=True)) + sorted(
            glob.glob("crates/*/must-fail/*.edit")):
        text = open(path, encoding="utf-8").read()
        comment = "--" if path.endswith(".antt") else "//"
        foreign = from_libraries(text)
        lines = []
        for line in text.split("\n"):
            at = -1
            if path.endswith(".antt"):
                m = re.search(r"(?:^|\s)--(?:\s|$)", line)
                at = m.start() if m else -1
            else:
                at = line.find(comment)
            code, rest = (line, "") if at < 0 else (line[:at], line[at:])
            rest = re.sub(r"`([^`]*)`", lambda m: "`" + change(m.group(1), foreign) + "`", rest)
            lines.append(change(code, foreign) + rest)
        new = "\n".join(lines)
        if new != text:
            open(path, "w", encoding="utf-8").write(new)


main()
