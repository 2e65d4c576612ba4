#!/usr/bin/env python3
"""Spells the names that this repository's specs/ and proofs/ declare in snake case: camel case and dashes go.

usage: tools/respell.py [--check]     at the top of the repository, once, after the kit's port.py; --check writes nothing

What turns is each name that a file of specs/ or proofs/ declares (definitions, lemmas, fields, constructors) and that has a dash or a
capital behind a small letter: in .antt files, in the clauses and `ghost use` items of .rt files, in must-fail edits, and in the code
spans of docs. A name that a file imports from the kit stays in that file, and so do the names that Rattle makes, behind `c.`, `goal.`,
`tie.` and the like. Where two names of one file would fall together, MEETS below says what one of them becomes instead.
"""

import collections
import os
import re
import sys

WORD = re.compile(r'[^\s(){}.;,@"«»]+')
QUIET = re.compile(r'"(?:[^"\\\n]|\\.)*"|(?<![^\s(){}.;,@"«»])--[^\n]*|\{-.*?-\}', re.S)
USE = re.compile(r"\buse ([^\s;{]+)(\{[^;]*?\}(?=;|[ \t]*$))?(?: as ([^\s;]+))?", re.M)
DECLARED = re.compile(r"^( *)((?:abbrev |unfoldable |pub |data |record )*)([^\s(){}.;,@\"«»:]+)((?:\s*(?:\{[^{}]*\}|\([^()]*\)))*)\s*:(?!\S)", re.M)
CLAUSE = re.compile(r"(?:requires|ensures)\s*\*?\s*(?:\w+\s*)?\{|ghost\s*(?:\w+\s*(?::\s*(?:(?:owns|lends)\s*)?|=\s*))?\{")
GHOST_USE = re.compile(r"ghost\s+use\b[^;]*;")
SPAN = re.compile(r"`[^`\n]+`")
# Heads of dotted names behind which stand names that Rattle makes.
MADE = re.compile(r"(?<![^\s(){};,@«»])(?:c|g|goal|tie|code|κs)\d*(?:\.[^\s(){}.;,@\"«»]+)+")
# Names that are declared several at a time, which DECLARED does not find.
MORE = "outOfTurn whileRemoving atValidity atSplit carriedOut nextNext nextNextNext".split()
# Fields of specs/ that would fall together with a definition, and what they become.
MEETS = {"other-bits": "other_bits_same", "cut-from": "is_cut_from", "at-start": "stands_at_start", "POINT-BYTES": "WHOLE_POINT"}
# Lemmas in snake case already that would fall together with a definition of their file: they get `_lem`, there alone.
HERE = {
    "crates/rows/proofs/Homes.antt": ["is_open"],
    "crates/turned/proofs/Converting.antt": ["first_one"],
    "crates/turns/proofs/Decisions.antt": ["small_at", "at_validity", "at_split"],
    "crates/turns/proofs/decide/decide_due/Proof.antt": ["at_validity", "at_split"],
    "crates/turns/proofs/decide/small_at/Proof.antt": ["small_at"],
    "crates/outline/proofs/Numbers.antt": ["as_written"],
    "crates/outline/proofs/outline_write/Proof.antt": ["as_written"],
    "crates/mending/proofs/FirstFive.antt": ["any_below"],
    "crates/opening/proofs/Growing.antt": ["any_below"],
    "crates/lone/proofs/Bench.antt": ["same_sign", "toward_zero"],
}


# Fields of this repository's records that have a dash: they turn behind a made head too.
FIELDS = set()


def respelled(name):
    if name in MEETS:
        return MEETS[name]
    words = re.sub(r"(?<=[a-z0-9])[A-Z]", lambda m: "_" + m[0].lower(), name)
    return words.replace("-", "_")


def turns(name):
    if re.fullmatch(r"[A-Z]+(-[A-Z]+)+", name):
        return True
    return bool(re.match(r"[a-z]", name)) and "◌" not in name and not re.match(r"(invariant|decreases|ghost)-", name) and respelled(name) != name


def files(*ends):
    for folder, dirs, names in os.walk("crates"):
        dirs[:] = sorted(d for d in dirs if d != "out")
        for f in sorted(names):
            if f.endswith(ends):
                yield os.path.join(folder, f)


def read(path):
    with open(path, encoding="utf-8") as f:
        return f.read()


def from_kit(code, ours):
    """The names that a file imports from the kit's libraries."""
    out = set()
    for path, items, alias in USE.findall(code):
        steps = path.strip(".").split(".")
        if steps[0] == "Rattle" and len(steps) > 1 and steps[1] in ours and "declared" not in steps and "contracts" not in steps:
            continue
        for item in re.findall(r"([^\s{},]+)(?: as ([^\s{},]+))?", items or ""):
            out.add(item[1] or item[0])
    return out


def turn_code(text, table, stay, made=True):
    """Code: in the proof of a function, names with a dash behind a made head stay, unless they are fields of ours."""

    def word(m):
        return table.get(m[0], m[0]) if m[0] not in stay else m[0]

    out, at = [], 0
    for m in MADE.finditer(text) if made else []:
        out.append(WORD.sub(word, text[at : m.start()]))
        out.append(".".join(table.get(p, p) if p not in stay and ("-" not in p or p in FIELDS) else p for p in m[0].split(".")))
        at = m.end()
    out.append(WORD.sub(word, text[at:]))
    return "".join(out)


def turn_span(span, table, stay):
    return WORD.sub(lambda m: re.sub(r"[^`\[\]|/:\\*…⟨⟩#]+", lambda p: table.get(p[0], p[0]) if p[0] not in stay else p[0], m[0]), span)


def turn_antt(text, table, stay, made):
    out, at = [], 0
    for m in QUIET.finditer(text):
        out.append(turn_code(text[at : m.start()], table, stay, made))
        out.append(SPAN.sub(lambda s: turn_span(s[0], table, stay), m[0]) if m[0][0] != '"' else m[0])
        at = m.end()
    out.append(turn_code(text[at:], table, stay, made))
    return "".join(out)


def braces(text, at):
    """The end of the block whose brace stands just before `at`."""
    depth = 1
    while at < len(text) and depth:
        depth += {"{": 1, "}": -1}.get(text[at], 0)
        at += 1
    return at


def turn_rt(text, table, stay):
    out, at = [], 0
    while True:
        found = [m for m in (CLAUSE.search(text, at), GHOST_USE.search(text, at)) if m]
        if not found:
            break
        m = min(found, key=lambda m: m.start())
        end = m.end() if m.re is GHOST_USE else braces(text, m.end())
        out.append(outside(text[at : m.start()], table, stay))
        out.append(turn_code(text[m.start() : end], table, stay))
        at = end
    out.append(outside(text[at:], table, stay))
    return "".join(out)


def outside(text, table, stay):
    return re.sub(r"//[^\n]*", lambda m: SPAN.sub(lambda s: turn_span(s[0], table, stay), m[0]), text)


def main(check):
    ours = set(os.listdir("crates"))
    table = {name: respelled(name) for name in MORE}
    for path, lemmas in HERE.items() if not check else []:
        text = read(path)
        for name in lemmas:
            text = re.sub(rf"(?<![\w.'-]){name}(?![\w.'-])", name + "_lem", text)
        with open(path, "w", encoding="utf-8") as f:
            f.write(text)
    for path in files(".antt"):
        code = QUIET.sub(" ", read(path))
        for m in DECLARED.finditer(code):
            if m[1] and turns(m[3]) and not path.endswith("/Proof.antt"):
                FIELDS.add(m[3])
            if turns(m[3]):
                table[m[3]] = respelled(m[3])
    # A lemma with a dash that would fall together with another name of a file gets `_lem`, everywhere.
    for path in files(".antt"):
        code = QUIET.sub(" ", read(path))
        stay = from_kit(code, ours)
        words = set(re.findall(r'(?<![^\s(){};,@«»])[^\s(){}.;,@"«»]+', code))
        spelled = collections.Counter(table[w] if w in table and w not in stay else w for w in words)
        for w in words - stay:
            if "-" in w and w in table and w not in MEETS and spelled[table[w]] > 1:
                table[w] = respelled(w) + "_lem"
    bad = 0
    for path in files(".antt", ".rt"):
        text = read(path)
        code = QUIET.sub(" ", text) if path.endswith(".antt") else re.sub(r"//[^\n]*", " ", text)
        stay = from_kit(code, ours)
        words = set(re.findall(r'(?<![^\s(){};,@«»])[^\s(){}.;,@"«»]+', code))
        if path.endswith(".rt"):
            clauses = " ".join(code[m.start() : braces(code, m.end())] for m in CLAUSE.finditer(code)) + " ".join(GHOST_USE.findall(code))
            words = set(re.findall(r'(?<![^\s(){};,@«»])[^\s(){}.;,@"«»]+', clauses)) | set(re.findall(r"\b(?:let|mut|const|static)\s+(\w+)|\b(\w+):(?!:)", code)[0:0])
            words |= {a or b for a, b in re.findall(r"\b(?:const|static)\s+(\w+)|\b(\w+)\s*:(?!:)", code)}
        turned = collections.defaultdict(set)
        for w in words:
            turned[table[w] if w in table and w not in stay else w].add(w)
        for new, olds in turned.items():
            if len(olds) > 1:
                bad += 1
                print(f"meets: {path}: {', '.join(sorted(olds))} -> {new}")
        if check:
            continue
        new = turn_antt(text, table, stay, path.endswith("/Proof.antt")) if path.endswith(".antt") else turn_rt(text, table, stay)
        if new != text:
            with open(path, "w", encoding="utf-8") as f:
                f.write(new)
    if not check:
        for path in files(".edit"):
            text = read(path)
            new = "\n".join(turn_code(l, table, set()) if re.match(r"(old|new):", l) else l for l in text.split("\n"))
            if new != text:
                with open(path, "w", encoding="utf-8") as f:
                    f.write(new)
        pages = [os.path.join("docs", f) for f in sorted(os.listdir("docs")) if f.endswith(".md")] + ["README.md"]
        for path in pages:
            text = read(path)
            new = SPAN.sub(lambda s: turn_span(s[0], table, set()), text)
            if new != text:
                with open(path, "w", encoding="utf-8") as f:
                    f.write(new)
    print(f"respell: {len(table)} names; {bad} would fall together")
    return 1 if bad else 0


sys.exit(main("--check" in sys.argv))
