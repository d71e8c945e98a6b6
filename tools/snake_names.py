#!/usr/bin/env python3
"""Brings the repository's own definitions, lemmas and fields to snake case, once, after port.py.

usage: tools/snake_names.py [--dry]      at the top of the repository

Respelled are: every identifier in camel case (headerLen: header_len) of .antt files and of the ghost lines and
clauses of .rt files, and every name with a dash that a file of specs/ or proofs/ declares (level-skip: level_skip).
Names of goals and steps, which the toolchain makes from the code, names of src/ and strings stay. It prints what it
renamed, and with 'look:' each new name that stood somewhere already.
"""
import os
import re
import sys

CAMEL = re.compile(r"(?<![\w'-])[a-z][a-z0-9]*(?:[A-Z][a-z0-9]*)+(?![\w'-])")
DECLARED = re.compile(r"^(\s*)((?:(?:abbrev|unfoldable|pub|ruleset) )*)([^\s:(){}λ]+) :(?:\s|$)(.*)")
WORD = r"[\w'\u2080-\u2089-]"


def files(root):
    for folder, dirs, names in os.walk(os.path.join(root, "crates")):
        dirs[:] = sorted(d for d in dirs if d not in ("out", "target"))
        for f in sorted(names):
            if f.endswith((".antt", ".rt")):
                yield os.path.join(folder, f)


def snake(name):
    name = re.sub(r"(?<=[a-z0-9])([A-Z])", lambda m: "_" + m.group(1).lower(), name)
    return name.replace("-", "_")


def declared(texts):
    """Names with a dash that we declare: at the left margin and not as a goal, or as a field or local definition."""
    lemmas, inner = set(), set()
    for path, text in texts.items():
        if not path.endswith(".antt"):
            continue
        goals = set(re.findall(r"^(?:abbrev )?(?:pub )?(\S+) : (?:goal|[\w.+]*Goals|[\w.+]*Given)\.", text, re.M))
        for line in text.split("\n"):
            m = DECLARED.match(line)
            if not m or m.group(3) in goals or "-" not in m.group(3):
                continue
            if not re.fullmatch(r"[a-z][a-z0-9_]*(?:-[a-z0-9_]+)+'?", m.group(3)):
                continue
            (inner if m.group(1) else lemmas).add(m.group(3))
    return lemmas, inner


def ghost_spans(text):
    """The parts of a .rt file that are read as antt: ghost lines, and what stands in braces behind requires, ensures and ghost members."""
    for m in re.finditer(r"ghost use [^;]*;|(?:\bghost \w+\s*[:=]\s*|\b(?:requires|ensures)\*?(?: \w+)? )\{", text):
        end = m.end()
        if text[m.end() - 1] == "{":
            depth = 1
            while depth and end < len(text):
                depth += {"{": 1, "}": -1}.get(text[end], 0)
                end += 1
        yield m.start(), end


def main():
    dry = "--dry" in sys.argv[1:]
    texts = {p: open(p, encoding="utf-8").read() for p in files(".")}
    lemmas, fields = declared(texts)
    renamed = {n: snake(n) for n in lemmas | fields}
    for path, text in texts.items():
        parts = [text] if path.endswith(".antt") else [text[a:b] for a, b in ghost_spans(text)]
        for part in parts:
            renamed.update({n: snake(n) for n in CAMEL.findall(part)})
    everywhere = set()
    for path, text in texts.items():
        everywhere |= set(re.findall(r"[\w'-]+", text))
    clash = sorted((n, s) for n, s in renamed.items() if s in everywhere or list(renamed.values()).count(s) > 1)
    for n, s in clash:
        where = sorted(p for p, t in texts.items() if re.search(r"(?<!" + WORD + ")" + re.escape(s) + r"(?!" + WORD + ")", t))
        print(f"look: {n} becomes {s}, which stands already in {' '.join(where[:6])}")
    renamed["end-to-end"] = "end_to_end"  # port.py turned the field, and not this name of it
    fields.add("end-to-end")
    pattern = re.compile(r'"(?:[^"\\\n]|\\.)*"|' + r"(?<!" + WORD + r")(?:" + "|".join(sorted(map(re.escape, renamed), key=len, reverse=True)) + r")(?!" + WORD + ")")

    def turn(m):
        name, before = m.group(0), m.string[max(0, m.start() - 1):m.start()]
        if name.startswith('"'):
            return name
        # behind a point stands a field or a step: of those with a dash only our own fields are ours
        if before == "." and "-" in name and name not in fields:
            return name
        return renamed[name]

    for path, text in texts.items():
        if path.endswith(".antt"):
            new = pattern.sub(turn, text)
        else:
            new, at = "", 0
            for a, b in ghost_spans(text):
                if a >= at:
                    new += text[at:a] + pattern.sub(turn, text[a:b])
                    at = b
            new += text[at:]
        if new != text and not dry:
            with open(path, "w", encoding="utf-8") as f:
                f.write(new)
    for n in sorted(renamed):
        print(f"{n} -> {renamed[n]}")


main()
