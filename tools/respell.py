#!/usr/bin/env python3
"""Spells the repository's own definitions and lemmas as the toolchain's style has it.

usage: python3 tools/respell.py [--list]      at the top of the repository

A definition whose value is a type, and a record or a data type, is written in upper camel case, everything else
in snake case, with no dash. Only names that the repository's own .antt files declare are changed: definitions, lemmas,
fields, constructors, and helpers below a `where`. Names that the checker makes (the goals of a function and what they
cite), names of its library, names of src/, comments, strings, inputs and outputs keep their spelling; a name between
backticks in a comment follows its definition. `--list` only prints the names, old and new.
"""
import os
import re
import sys

ID = r"[^\s(){}\[\].,;:@\"`⌜⌝λ]"
DECL = re.compile(r"^((?:(?:abbrev|unfoldable|pub|ruleset) )*)((?:%s+ )+): (.*)$" % ID)
KIND = re.compile(r"^(?:pub )?(record|data) (%s+)" % ID)
INNER = re.compile(r"^ +(?:\| )?(?:pub )?((?:%s+ )+): " % ID)
GOAL = re.compile(r"^(?:goal|Goals|Given)\.")
WORD = re.compile(r"(?<!%s)(%s+)" % (ID, ID))


def texts(ends):
    for folder, dirs, files in os.walk("crates"):
        dirs[:] = sorted(d for d in dirs if d != "out")
        for f in sorted(files):
            if f.endswith(ends):
                yield os.path.join(folder, f)


def is_type(lines, i, rest):
    """Whether the signature that begins on line i ends in a Type."""
    text = rest
    for line in lines[i + 1:]:
        if not line.startswith("    "):
            break
        text += " " + line.strip()
    return re.search(r"(?:^|→ |→)\s*\(?Type \d\)?\s*$", text) is not None


def camel(name):
    return "".join(part[:1].upper() + part[1:] for part in re.split(r"[-_]", name))


# Words of the library that a name is made of, as the library now spells them.
WORDS = {"getD": "get_or", "putMid": "put_mid"}


def snake(name):
    parts = [WORDS.get(part, part) for part in re.split(r"[-_]", name)]
    return "_".join(parts) if "-" in name or any(w in name for w in WORDS) else name


def declared():
    """Every declared name, with its new spelling."""
    new = {}
    for path in texts(".antt"):
        with open(path, encoding="utf-8") as f:
            lines = f.read().split("\n")
        for i, line in enumerate(lines):
            k = KIND.match(line)
            if k:
                new.setdefault(k.group(2), camel(k.group(2)))
                continue
            d = DECL.match(line)
            if d:
                if GOAL.match(d.group(3)):
                    continue
                typed = is_type(lines, i, d.group(3))
                for name in d.group(2).split():
                    if name == "|":
                        continue
                    new.setdefault(name, camel(name) if typed or (name[:1].isupper() and "-" in name) else snake(name))
                continue
            n = INNER.match(line)
            if n and not line.lstrip().startswith(("--", "let ", "λ")):
                for name in n.group(1).split():
                    if re.fullmatch(r"[A-Za-z][\w'₀-₉-]*", name) and "-" in name:
                        new.setdefault(name, camel(name) if name[:1].isupper() else snake(name))
    return {a: b for a, b in new.items() if a != b and re.fullmatch(r"[A-Za-z][\w'₀-₉-]*", a)}


def turn(text, new, comment, strings):
    """The text with each declared name respelt; in comments only between backticks, in strings never."""
    out = []
    for line in text.split("\n"):
        code, note = line, ""
        at = line.find(comment)
        if comment and at >= 0 and (at == 0 or line[at - 1] in " \t"):
            code, note = line[:at], line[at:]
        if strings:
            parts = re.split(r'("(?:[^"\\]|\\.)*")', code)
            code = "".join(p if p.startswith('"') else WORD.sub(lambda m: new.get(m.group(1), m.group(1)), p) for p in parts)
        else:
            code = WORD.sub(lambda m: new.get(m.group(1), m.group(1)), code)
        note = re.sub(r"`[^`]*`", lambda m: WORD.sub(lambda w: new.get(w.group(1), w.group(1)), m.group(0)), note)
        out.append(code + note)
    return "\n".join(out)


def clashes(new):
    """Names that fall together with another once respelt."""
    seen = {}
    for a, b in new.items():
        seen.setdefault(b, set()).add(a)
    words = set()
    for path in texts((".antt", ".rt")):
        with open(path, encoding="utf-8") as f:
            words.update(WORD.findall(f.read()))
    return [(b, sorted(a | ({b} if b in words else set()))) for b, a in sorted(seen.items()) if len(a) > 1 or b in words]


def main():
    new = declared()
    if "--list" in sys.argv:
        for a, b in sorted(new.items()):
            print(a, b)
        print("-- fall together:")
        for b, a in clashes(new):
            print(b, a)
        return
    for path in texts((".antt", ".rt", ".edit")):
        with open(path, encoding="utf-8") as f:
            text = f.read()
        to = turn(text, new, "--" if path.endswith(".antt") else "//", not path.endswith(".antt"))
        if to != text:
            with open(path, "w", encoding="utf-8") as f:
                f.write(to)


main()
