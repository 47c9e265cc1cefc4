#!/usr/bin/env python3
"""Brings this repository's own names to today's spelling, after the kit's port.py: words in snake case (readingsFor -> readings_for), fields and
constructors with no dash (met-only -> met_only), and of a lemma's name only the dashes that join two names (sum_to-suc stays, two-in-a-row becomes
two_in_a_row).

usage: tools/respell.py        once, at the top of a checkout in which port.py has run; it rewrites crates/ and the pages in place

It goes by text: it gathers what the files of specs/ and proofs/ declare, and renames each such word where it stands for that name: not where a
file takes the word from a library, nor behind a library's module. In README.md and docs/ it turns names in back quotes alone; docs/changes stays.
In the proofs of functions (proofs/F/Proof.antt) what they cite is turned; the names that they declare for what is asked of them stay."""

import os
import re
import sys
from collections import Counter, defaultdict

W = r"[^\s(){}.;,@\"«»\[\]\\:=]+"
OWN_WORDS = set("zero suc pos negsuc true false append cons nil".split())


def files(root, ends):
    for folder, dirs, names in os.walk(root):
        dirs[:] = sorted(d for d in dirs if d not in ("out", ".git", "target", "build"))
        for name in sorted(names):
            if name.endswith(ends):
                yield os.path.join(folder, name)


def read(path):
    with open(path, encoding="utf-8") as f:
        return f.read()


def declared(root):
    """What the files declare: fields and constructors, names at the margin, and names of a where or a module section."""
    parts, tops, inner = Counter(), Counter(), Counter()
    for path in files(root, ".antt"):
        of_a_function = os.path.basename(path) == "Proof.antt"
        within = None
        for line in read(path).split("\n"):
            if not line.strip() or line.lstrip().startswith("--"):
                continue
            deep = len(line) - len(line.lstrip())
            m = re.match(rf"\s*(?:abbrev |unfoldable |pub )*(record|data)\s+({W})", line)
            if m:
                within = deep
                tops[m.group(2)] += 1
                continue
            if within is not None and deep <= within:
                within = None
            m = re.match(rf"\s*(?:abbrev |unfoldable |pub )*({W}(?:\s+{W})*)\s+:(?:\s|$)", line)
            if m:
                if of_a_function and re.search(r"\btie\.|statement M", line):
                    continue
                for name in m.group(1).split():
                    if within is not None:
                        parts[name] += 1
                    elif deep == 0:
                        tops[name] += 1
                    else:
                        inner[name] += 1
            m = re.match(rf"\s*(?:pub )?ruleset ({W})", line)
            if m:
                tops[m.group(1)] += 1
    return parts, tops, inner


def words_imported(root):
    """The undashed names that the files take from a library: what a dash may join, beside the repository's own definitions."""
    found = set()
    own = {d for d in os.listdir(root) if os.path.isdir(os.path.join(root, d, "src"))}
    for path in files(root, ".antt"):
        found |= {it for it in taken_from_library(read(path), own) if "-" not in it and len(it) > 2}
    return found


def defined(root):
    """The names of the definitions in specs/."""
    found = set()
    for path in files(root, ".antt"):
        if "/specs/" in path:
            for m in re.finditer(rf"^(?:abbrev |unfoldable |pub )*({W})\s+:\s", read(path), re.M):
                if "-" not in m.group(1) and len(m.group(1)) > 2:
                    found.add(snake(m.group(1)))
    return found


def snake(word):
    """readingsFor -> readings_for, eqbB -> eqb_b, machF -> mach_f; a word that begins with a capital is a type and stays."""
    def one(m):
        run = m.group(0)
        if not re.match(r"[a-z]", run) or not re.search(r"[A-Z]", run):
            return run
        run = re.sub(r"(?<=[a-z0-9])(?=[A-Z])", "_", run)
        return re.sub(r"[A-Z]+", lambda k: k.group(0).lower(), run)
    word = re.sub(r"[A-Za-z0-9_]+", one, word)
    return re.sub(r"(?<=[a-z0-9])(?=ℤ)", "_", word)


def table(root):
    parts, tops, inner = declared(root)
    names = defined(root) | words_imported(root) | OWN_WORDS
    every = {**parts, **tops, **inner}
    new = {}
    for name in every:
        turned = snake(name)
        if "-" in turned.strip("-"):
            bits = turned.split("-")
            if name in parts:
                turned = "_".join(bits) if all(bits) else turned
            else:
                joined = bits[0]
                for left, right in zip(bits, bits[1:]):
                    plain = re.fullmatch(r"[a-z0-9_]+", left) and re.fullmatch(r"[a-z0-9_]+", right)
                    joined += ("_" if plain and not (left in names and right in names) else "-") + right
                turned = joined
        new[name] = turned
    # Names that would fall together: the definition, which had capitals within, gets the plain spelling, else the one that had it; the others are laws
    # of it, and get _lem.
    groups = defaultdict(list)
    for name in sorted(every):
        groups[new[name]].append(name)
    for turned, members in groups.items():
        if len(members) > 1:
            first = [n for n in members if re.search(r"[a-z0-9][A-Z]", n)] or [n for n in members if n == turned] or members
            print(f"falls together as {turned}: {', '.join(members)}; {first[0]} gets it")
            for name in members:
                if name != first[0]:
                    new[name] = turned + "_lem"
    for name, turned in list(new.items()):
        if turned in RESERVED:
            print(f"reserved: {name} -> {turned}")
            new[name] = name
    return {name: turned for name, turned in new.items() if name != turned}


RESERVED = set("as in data record deriving module where use mod pub package open unfoldable abbrev axiom unfold unfolding ruleset mutual infix elim let do result now old new ground assumption search".split())


def alias_modules(text, own):
    """The names by which a file calls modules of a library."""
    found = set()
    for m in re.finditer(rf"^(?:pub |ghost )?use ([^\s{{;]+?)(?: as ({W}))?;?$", text, re.M):
        path, name = m.group(1), m.group(2)
        if not re.match(r"Rattle\.(\w+)", path) or re.match(r"Rattle\.(\w+)", path).group(1) not in own:
            found.add(name or path.split(".")[-1])
    return found


def taken_from_library(text, own):
    found = set()
    for m in re.finditer(r"^\s*(?:pub |ghost )?use ([^\s{;]+)\.\{([^}]*)\}", text, re.M):
        crate = re.match(r"Rattle\.(\w+)", m.group(1))
        if not crate or crate.group(1) not in own:
            found |= {it.strip().split(" as ")[0] for it in m.group(2).split(",")}
    return found


TOKEN = re.compile(r"(--[^\n]*|//[^\n]*)|(\"(?:[^\"\\\n]|\\.)*\")|([^\s(){}.;,@\"«»\[\]\\]+)")


def turned(text, new, own, is_proof, is_source):
    skip = taken_from_library(text, own)
    away = alias_modules(text, own)

    def one(m):
        if m.group(1):
            return re.sub(rf"(?<![\w-])[a-z][\w-]*[A-Z-]\w[\w-]*(?![\w-])", lambda k: new.get(k.group(0), k.group(0)) if camel(k.group(0)) else k.group(0), m.group(1))
        if m.group(2):
            return m.group(0)
        word = m.group(3)
        if word in skip or word not in new:
            return word
        before = text[: m.start()]
        # A name that falls together with another is also that of a function or a module of src/, which stays.
        if plain(word) and (is_source or before.endswith(".") and word not in FIELDS or text[m.end() :].startswith(".")):
            return word
        if before.endswith("."):
            head = re.search(rf"({W}|\))\.$", before)
            if head and head.group(1) in away | {"tie", "goal"}:
                return word
            if is_proof and word not in FIELDS:
                return word
        return new[word]

    return TOKEN.sub(one, text)


def plain(word):
    return re.fullmatch(r"[a-z0-9_]+", word)


def camel(word):
    return re.search(r"[a-z0-9][A-Z]", word)


FIELDS = set()


def main():
    root = "crates"
    own = {d for d in os.listdir(root) if os.path.isdir(os.path.join(root, d, "src"))}
    new = table(root)
    parts, _, _ = declared(root)
    FIELDS.update(parts)
    made = 0
    for path in list(files(root, (".antt", ".rt"))):
        text = read(path)
        out = turned(text, new, own, path.endswith("Proof.antt"), path.endswith(".rt"))
        if out != text:
            with open(path, "w", encoding="utf-8") as f:
                f.write(out)
            made += 1
    pages = ["README.md"] + [p for p in files("docs", ".md") if not p.startswith("docs/changes")]
    for path in pages:
        text = read(path)
        out = re.sub(r"`[^`\n]+`", lambda m: re.sub(r"[^\s(){}.;,@\"«»\[\]\\`:=]+", lambda k: new.get(k.group(0), k.group(0)), m.group(0)), text)
        if out != text:
            with open(path, "w", encoding="utf-8") as f:
                f.write(out)
            made += 1
    print(f"respell: {len(new)} names, {made} files")
    if len(sys.argv) > 1:
        with open(sys.argv[1], "w", encoding="utf-8") as f:
            for name in sorted(new):
                f.write(f"{name}\t{new[name]}\n")


if __name__ == "__main__":
    main()
