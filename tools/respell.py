#!/usr/bin/env python3
"""Brings the repository's own definitions and lemmas to today's spelling: words in snake case, a dash only between two names.

usage: tools/respell.py        at the top of the repository, right after port.py, once

A definition in camel case becomes snake case (`wordEnd`, `word_end`). In a lemma's name a dash stays between two names of definitions
(`length-arc_bytes`); any other becomes `_` (`on_bytes`). Types, modules, variants, functions of src/, exported names, strings and the names of goals keep
their spelling. A name that would fall together with another of the same file gets `_lem` (a lemma) or `_of` (a definition). Which names were turned is kept
in tools/respelled.tsv; where that file stands, its names are taken as they are. The module `rules.specs.Contracts` becomes `Promises`, since Rattle makes a
module `contracts`.
"""

import collections
import os
import re
import sys

WORD = re.compile(r"[^\s(){}\[\],.;:`\"]+")
SIG = re.compile(r"^(\s*)((?:(?:abbrev|unfoldable|pub|package)\s+)*)(data|record)?\s*([^\s:(){};,]+)\s*(?:\{[^}]*\}\s*)?:(?:\s+(.*))?$")
# Words of std and of the logic that a lemma's name is made of.
STD = set("length take drop append set get_or map reverse replicate cons nil eqb leb min max pick or and not mul add sub div mod pow digits".split())


def texts(root, ends):
    for folder, dirs, files in os.walk(root):
        dirs[:] = sorted(d for d in dirs if d not in ("out", ".git", "target"))
        for f in sorted(files):
            if f.endswith(ends):
                yield os.path.join(folder, f)


def read(p):
    with open(p, encoding="utf-8") as f:
        return f.read()


def snake(name):
    s = re.sub(r"([a-z0-9])([A-Z])", r"\1_\2", name)
    return s.lower()


def is_camel(name):
    return re.match(r"^[a-z][A-Za-z0-9_']*$", name) and re.search("[A-Z]", name)


def ghost_parts(text):
    """The parts of a .rt file that are antt: ghost lines and clauses, as (start, end)."""
    parts = []
    for m in re.finditer(r"^\s*ghost use [^;]*;", text, re.M):
        parts.append(m.span())
    for m in re.finditer(r"^\s*(?:requires|ensures|ghost(?! use))\b[^{;\n]*\{", text, re.M):
        depth, i = 0, m.end() - 1
        while i < len(text):
            if text[i] == "{":
                depth += 1
            elif text[i] == "}":
                depth -= 1
                if depth == 0:
                    break
            i += 1
        parts.append((m.start(), i + 1))
    return sorted(parts)


def own_words(text):
    """The words of a text; behind a dot, where functions, steps and fields stand, only those in camel case."""
    found = set()
    for m in WORD.finditer(text):
        if m.start() == 0 or text[m.start() - 1] != "." or is_camel(m.group(0)):
            found.add(m.group(0))
    return found


def kept():
    if not os.path.exists("tools/respelled.tsv"):
        return None
    with open("tools/respelled.tsv", encoding="utf-8") as f:
        return dict(line.rstrip("\n").split("\t") for line in f)


def rename_module():
    old, new = "crates/rules/specs/Contracts.antt", "crates/rules/specs/Promises.antt"
    if not os.path.exists(old):
        return
    os.rename(old, new)
    for p in texts("crates", (".antt", ".rt", ".edit")):
        t = read(p)
        u = t.replace("Rattle.rules.specs.Contracts", "Rattle.rules.specs.Promises")
        if p == "crates/rules/specs/Lib.antt":
            u = u.replace("pub mod Contracts", "pub mod Promises")
        if "rules/specs/Contracts.antt" in u:
            u = u.replace("specs/Contracts.antt", "specs/Promises.antt")
        write(p, t, u)


def main():
    rename_module()
    files = list(texts("crates", (".antt",)))
    sources = list(texts("crates", (".rt",)))
    edits = list(texts("crates", (".edit",)))
    pages = ["README.md"] + [p for p in texts("docs", (".md",))]
    text = {p: read(p) for p in files + sources + edits + pages if os.path.exists(p)}
    walks = {p for p in files if os.path.basename(p) == "Proof.antt"}

    # what is defined here, what is imported from the kit, what is a goal's name
    defined, spec_names, fields, goals = set(), set(), set(), collections.defaultdict(set)
    kit = set()
    for p in files:
        for line in text[p].split("\n"):
            if line.lstrip().startswith("--"):
                continue
            m = SIG.match(line)
            if not m:
                continue
            name, rest = m.group(4), m.group(5) or ""
            if p in walks and "tie.Need" in rest:
                goals[p].add(name)
                continue
            if name.startswith("-") or name.endswith("-"):
                continue
            defined.add(name)
            if "/specs/" in p and (m.group(3) or re.search("abbrev|unfoldable", m.group(2) or "")):
                spec_names.add(name)
            if m.group(1) and "pub" in (m.group(2) or "") :
                fields.add(name)
    for p in files + sources:
        for m in re.finditer(r"use ((?!Rattle\.(?!std\b))[\w.]+)\.\{([^}]*)\}", text[p]):
            kit |= {w.split(" as ")[0].strip() for w in m.group(2).split(",")}
            kit |= {w.split(" as ")[1].strip() for w in m.group(2).split(",") if " as " in w}

    names = {snake(n) if is_camel(n) else n for n in spec_names} | STD | {n for n in kit if re.match(r"^[a-z_]+$", n)}

    def dashed(name):
        parts = [snake(x) if is_camel(x) else x for x in name.split("-")]
        out = parts[0]
        for a, b in zip(parts, parts[1:]):
            out += ("-" if a in names and b in names else "_") + b
        return out

    new = {}
    for n in sorted(defined - kit):
        if is_camel(n):
            new[n] = snake(n)
        elif "-" in n and re.match(r"^[\w'′-]+$", n):
            new[n] = dashed(n)
    new = {a: b for a, b in new.items() if a != b}
    as_kept = kept()
    if as_kept is not None:
        new = as_kept

    # names that would fall together: in one file, or with a definition anywhere
    params = {}
    for p in sources:
        params[p] = set(re.findall(r"\b(?:mut )?([a-z_][a-z0-9_]*): ", text[p]))

    def words_of(p):
        t = text[p]
        if p in params:
            found = set()
            for a, b in ghost_parts(t):
                found |= own_words(t[a:b])
            return found | params[p]
        return own_words(re.sub(r"--.*", "", t))

    seen = {p: words_of(p) for p in files + sources}
    for _ in range(4):
        groups = collections.defaultdict(set)
        for ws in list(seen.values()) + [defined]:
            to = collections.defaultdict(set)
            for w in ws:
                to[new.get(w, w)].add(w)
            for b, froms in to.items():
                if len(froms) > 1:
                    groups[b] |= froms
        if not groups or as_kept is not None:
            break
        for b, froms in sorted(groups.items()):
            turned = sorted(a for a in froms if a in new)
            lemmas = [a for a in turned if "-" in a]
            # a definition keeps the plain name where only lemmas would share it
            apart = lemmas if lemmas and len(lemmas) < len(froms) else turned[1:] if len(turned) == len(froms) else turned
            for a in apart:
                new[a] += "_lem" if "-" in a else "_it" if new[a].endswith("_of") else "_of"
            print(f"apart: {b}: " + ", ".join(f"{a} {new.get(a, a)}" for a in sorted(froms)))
    else:
        sys.exit("names fall together: " + " ".join(sorted(groups)))
    if as_kept is not None and groups:
        print("look: " + " ".join(sorted(groups)))

    def turn_antt(p, t):
        keep = goals.get(p, set())
        out, last = [], 0
        for m in WORD.finditer(t):
            w = m.group(0)
            if w in new and w not in keep:
                before = t[m.start() - 1] if m.start() else " "
                if before == "." and p in walks and "-" in w and w not in fields:
                    continue
                out.append(t[last:m.start()])
                out.append(new[w])
                last = m.end()
        return "".join(out) + t[last:]

    def turn_words(t, only=None):
        return WORD.sub(lambda m: new.get(m.group(0), m.group(0)) if only is None or only(m.group(0)) else m.group(0), t)

    changed = 0
    for p in files:
        t = turn_antt(p, text[p])
        if p in walks:
            f = os.path.basename(os.path.dirname(p))
            t = t.replace(f.replace("_", "-") + "-spec", f + "_spec")
        changed += t != text[p]
        write(p, text[p], t)
    for p in sources:
        t, out, last = text[p], [], 0
        for a, b in ghost_parts(t):
            out += [turn_words(t[last:a], only_comment_free), turn_words(t[a:b])]
            last = b
        t = "".join(out) + t[last:]
        changed += t != text[p]
        write(p, text[p], t)
    for p in edits:
        write(p, text[p], turn_words(text[p]))
    for p in pages:
        if p in text:
            write(p, text[p], re.sub(r"`[^`\n]*`", lambda m: turn_words(m.group(0)), text[p]))
    with open("tools/respelled.tsv", "w", encoding="utf-8") as f:
        f.writelines(f"{a}\t{b}\n" for a, b in sorted(new.items()))
    print(f"{len(new)} names, {changed} files")


def only_comment_free(word):
    return False


def write(p, old, new):
    if old != new:
        with open(p, "w", encoding="utf-8") as f:
            f.write(new)


if __name__ == "__main__":
    main()
