#!/usr/bin/env python3
"""Spells the repository's own definitions and lemmas as today's Rattle does: words in snake case, types in camel case.

usage: tools/snake_names.py [--check] [TOP]

Run once, right after the kit's port.py. It collects the names with a dash that specs/ and proofs/ declare, and writes each
anew wherever it stands alone: `late-by` becomes `late_by`, `Well-before` becomes `WellBefore`. Names that Rattle makes (the
goals in Answers and Invariants, what stands behind c. g. l. w. and goal.) and names that some file imports from a library
stay. Functions of src/, strings and must-fail edits are not touched; in comments and pages a name turns between backticks.
A line that begins `clash:` names a spelling that a file had already.
"""

import os
import re
import sys

NAME = r"[^\s(){}.;,@\"«»`\[\]∷λ]+"
DECLARED = re.compile(r"(?m)^ *(?:(?:pub|abbrev|unfoldable|let|in|record|data|where) +)*(?:\( *)?(" + NAME + r")(?: \{[^{}\n]*\})* :")
RECORD = re.compile(r"(?m)^ *(?:pub +)?(?:record|data) +(" + NAME + ")")
OF_GOAL = re.compile(r"(?m)^ *(?:(?:pub|abbrev) +)*(" + NAME + r") : goal\.")
LET = re.compile(r"\blet (" + NAME + r")\b")
USE = re.compile(r"\buse (Rattle\.(\w+)[^\s;{]*)(?:\.?\{([^;}]*)\})?", re.M)
WORD = re.compile(r"(?<![\w'◌.-])([A-Za-zℕ][\w'ℕ]*(?:-[\w'ℕ]+)+)(?![\w'-])")
BEHIND = re.compile(r"\.([A-Za-zℕ][\w'ℕ]*(?:-[\w'ℕ]+)+)(?![\w'-])")
HEADS = re.compile(r"(?:^|[^\w'.-])(?:c|g|l|w|goal)(?:\.[^\s(){};,]*)?$")
MARKDOWN = re.compile(r"`[^`\n]+`")
RUST = re.compile(r"//[^\n]*|\"(?:\\.|[^\"\\])*\"|'(?:\\.|[^'\\])'")


def files(top):
    for folder, dirs, names in os.walk(top):
        made = ("out", "must-fail") if os.path.basename(os.path.dirname(folder)) == "crates" else ("target", ".git")
        dirs[:] = sorted(d for d in dirs if d not in made)
        for name in sorted(names):
            path = os.path.join(folder, name)
            if name.endswith((".rt", ".antt", ".md")) and name != "PORT.md" and not os.path.islink(path):
                yield path


# Names that would fall together with another.
SPECIAL = {"Bad-store": "IsBadStore"}


def spelled(name):
    if name in SPECIAL:
        return SPECIAL[name]
    parts = name.split("-")
    if name[0].isupper():
        return parts[0] + "".join(p[:1].upper() + p[1:] for p in parts[1:])
    return "_".join(parts)


def read(path):
    with open(path, encoding="utf-8") as f:
        return f.read()


def table(top):
    crates = set(os.listdir(os.path.join(top, "crates")))
    own, made, theirs = set(), set(), set()
    for path in files(top):
        text = read(path)
        if path.endswith(".md"):
            continue
        for _, crate, names in USE.findall(text):
            if crate not in crates:
                theirs.update(re.findall(NAME, names or ""))
        if path.endswith(".antt"):
            here = set(OF_GOAL.findall(text))
            made |= here
            own |= set(DECLARED.findall(text)) - here
            own |= set(RECORD.findall(text)) | set(LET.findall(text))
    own = {n for n in own if WORD.fullmatch(n)}
    for n in sorted(own & theirs):
        print(f"stays: {n}, which a library has too")
    for n in sorted(own & made):
        print(f"stays: {n}, which Rattle makes too")
    return {n: spelled(n) for n in own - theirs - made}


def turn_code(text, names, is_proof):
    def alone(m):
        return names.get(m.group(1), m.group(1))

    def behind(m):
        head = text_now[: m.start()]
        line = head[head.rfind("\n") + 1 :]
        if is_proof and HEADS.search(line):
            return m.group(0)
        return "." + names.get(m.group(1), m.group(1))

    text = WORD.sub(alone, text)
    text_now = text
    return BEHIND.sub(behind, text)


def turn_spans(text, names):
    return MARKDOWN.sub(lambda m: turn_code(m.group(0), names, False), text)


def turn_rust(text, names):
    out, at = [], 0
    for m in RUST.finditer(text):
        out.append(turn_code(text[at : m.start()], names, False))
        out.append(turn_spans(m.group(0), names) if m.group(0).startswith("//") else m.group(0))
        at = m.end()
    return "".join(out) + turn_code(text[at:], names, False)


def turn_antt(text, names, is_proof):
    lines = []
    for line in text.split("\n"):
        code, dash, said = (line, "", "") if not re.search(r"(^|\s)-- ", line) else line.partition("-- ")
        lines.append(turn_code(code, names, is_proof) + dash + turn_spans(said, names))
    return "\n".join(lines)


def main():
    words = [w for w in sys.argv[1:] if w != "--check"]
    top = words[0] if words else "."
    names = table(top)
    fell = {}
    for old, new in names.items():
        fell.setdefault(new, []).append(old)
    for new, olds in sorted(fell.items()):
        if len(olds) > 1:
            print(f"clash: {' and '.join(sorted(olds))} are both {new}")
    for path in files(top):
        text = read(path)
        if path.endswith(".md"):
            new = turn_spans(text, names)
        elif path.endswith(".rt"):
            new = turn_rust(text, names)
        else:
            new = turn_antt(text, names, "/proofs/" in path and os.path.basename(path) in ("Answers.antt", "Invariants.antt", "Proof.antt"))
        if not path.endswith(".md"):
            code = RUST.sub(" ", text) if path.endswith(".rt") else re.sub(r"(?m)(^|\s)-- .*$", " ", text)
            had = set(re.findall(r"(?<![\w'.-])[A-Za-z][\w']*(?![\w'-])", code))
            for old in sorted(set(WORD.findall(code)) & set(names)):
                if names[old] in had:
                    print(f"clash: {os.path.relpath(path, top)}: {old} is now {names[old]}, which stands there already")
        if new != text and "--check" not in sys.argv:
            with open(path, "w", encoding="utf-8") as f:
                f.write(new)
    print(f"{len(names)} names")


if __name__ == "__main__":
    main()
