#!/usr/bin/env python3
"""Brings the repository's own definitions and lemmas to today's spelling: words in snake case.

usage: python3 tools/respell.py [--list]      at the top of the repository, once, after the toolchain's port.py

    isBadRecord -> is_bad_record, cover-next -> cover_next, getD-sets-in -> get_or-sets_in

A name is one that a file of crates/NAME/specs or crates/NAME/proofs declares. Types, facts and modules keep their capitals, and what a
proof file calls a goal keeps the name that the check gives it. Where the new name would fall together with another one, a dash
stays or the name is that of KEPT. Names are turned in .antt files, in clauses and `ghost use` lines of .rt files, in must-fail edits,
and between backticks in README.md and docs/. --list prints the names and what they fall together with, and writes nothing.
"""

import collections
import os
import re
import sys

TOKEN = re.compile(r"[^\s(){}\[\].,;«»\"`\\@]+")
SIGNATURE = re.compile(r"^([ ]*)(?:(?:abbrev|unfoldable|inline|private)\s+)*(?:pub\s+)?(?:(?:abbrev|unfoldable|inline)\s+)*((?:[^\s(){}\[\].,;«»\"]+ )*[^\s(){}\[\].,;«»\"]+)[ ]*:(?=\s)(.*)$", re.M)
# Names that would fall together with others, and what they are called. An entry with a path is for the files below it alone.
KEPT = {"hasData": "has_data_stage", "oddFrame": "odd_frame_bit"}
LOCAL = {
    "by_bytes": ("by_bytes_lem", ("crates/port/proofs/Laws",)),
    "not_good": ("not_good_lem", ("crates/port/proofs/Laws",)),
    "one_less": ("one_less_lem", ("crates/plan/proofs/Laws",)),
    "one_more": ("one_more_lem", ("crates/laws/proofs/Calls", "crates/session/proofs/settle/settle_packets")),
    "open_by": ("open_by_lem", ("crates/port/proofs/Laws",)),
}


def files(root):
    for top in ("specs", "proofs"):
        for crate in sorted(os.listdir(os.path.join(root, "crates"))):
            for folder, dirs, names in os.walk(os.path.join(root, "crates", crate, top)):
                for it in sorted(names):
                    if it.endswith(".antt"):
                        yield os.path.join(folder, it)


def sources(root):
    for crate in sorted(os.listdir(os.path.join(root, "crates"))):
        for folder, dirs, names in os.walk(os.path.join(root, "crates", crate, "src")):
            for it in sorted(names):
                if it.endswith(".rt"):
                    yield os.path.join(folder, it)


def edits(root):
    for folder, dirs, names in os.walk(os.path.join(root, "crates")):
        dirs[:] = [d for d in dirs if d != "out"]
        if os.path.basename(folder) == "must-fail":
            for it in sorted(names):
                if it.endswith(".edit"):
                    yield os.path.join(folder, it)


def pages(root):
    yield os.path.join(root, "README.md")
    for it in sorted(os.listdir(os.path.join(root, "docs"))):
        if it.endswith(".md"):
            yield os.path.join(root, "docs", it)


def read(path):
    with open(path, encoding="utf-8") as f:
        return f.read()


def is_goal(name, rest):
    """A name that the check asks for: the type that follows says so."""
    rest = rest.strip()
    return rest.startswith(("tie.", "goal.", "{M : Type 1} → statement")) or "-lts.Need" in rest or name.endswith(("-spec", "_spec"))


def declared(root):
    """The names that files declare, and where; and per file the names of goals in it."""
    own, goals = collections.defaultdict(set), collections.defaultdict(set)
    for path in files(root):
        text = re.sub(r"--[^\n]*", "", read(path))
        for m in SIGNATURE.finditer(text):
            for name in m.group(2).split():
                if name in ("use", "let", "in", "module", "record", "data", "where", "open", "λ", "mod", "pub", "abbrev", "unfoldable", "unfolding") or name.startswith(("(", "λ")):
                    continue
                rest = m.group(3)
                if not rest.strip():
                    rest = text[m.end():m.end() + 200]
                if is_goal(name, rest):
                    goals[path].add(name)
                else:
                    own[name].add(path)
    return own, goals


def snake(word):
    word = re.sub(r"(?<=[a-z0-9])([A-Z])", lambda m: "_" + m.group(1).lower(), word)
    return word


def spelled(name):
    if not re.match(r"^[a-z][A-Za-z0-9_'′-]*$", name):
        return name
    parts = name.replace("′", "'").split("-")
    if any(not p or re.match(r"^[A-Z]", p) for p in parts):
        return name.replace("′", "'")
    parts = [re.sub(r"^getD$", "get_or", p) for p in parts]
    mixed = [re.search(r"[A-Z]", p) is not None or p == "get_or" for p in parts]
    out = snake(parts[0])
    for i in range(1, len(parts)):
        joined = mixed[i - 1] or mixed[i]
        out += ("-" if joined else "_") + snake(parts[i])
    return out


BARE = re.compile(r"(?<![^\s(){}\[\],;])[^\s(){}\[\].,;«»\"`\\@]+(?!\.[^\s])")


def tokens(text):
    """The names that stand alone in a text, without the steps of paths."""
    return set(BARE.findall(re.sub(r"^\s*(?:pub )?use [^{\n]*$", "", text, flags=re.M)))


def plan(root):
    """Old name to new name; and the new names that fall together with others, which KEPT must settle."""
    own, goals = declared(root)
    used = collections.defaultdict(set)
    for path in files(root):
        for it in tokens(re.sub(r"--[^\n]*", "", read(path))):
            if it not in goals[path]:
                used[it].add(path)
    back = collections.defaultdict(set)
    for name in own:
        new = KEPT.get(name) or spelled(name)
        if new != name:
            back[new].add(name)
    turn, clash = {}, {}
    for new, olds in back.items():
        first = sorted(olds, key=lambda it: ("-" in it, it))
        if new in LOCAL or (new not in used and new not in own):
            turn[first[0]] = new
            first = first[1:]
        for old in first:
            other = old if old in KEPT else new + "_lem"
            if "-" in old and other not in used and other not in own and other not in turn.values() and len(first) == 1:
                turn[old] = other
                clash[other] = [old]
            else:
                clash[new] = sorted(olds)
    return own, goals, turn, clash, used


def turned(text, names):
    return TOKEN.sub(lambda m: names.get(m.group(0), m.group(0)), text)


def turned_clauses(text, names):
    """In a .rt file: `ghost use` lines, the braces of clauses, and comments."""
    out = []
    depth = 0
    for line in text.split("\n"):
        starts = re.match(r"^\s*(ghost use |requires|ensures|ghost )", line)
        if starts or depth > 0 or re.match(r"^\s*//", line):
            if not re.match(r"^\s*//", line):
                depth += line.count("{") - line.count("}")
            line = turned(line, names)
        out.append(line)
    return "\n".join(out)


def turned_page(text, names, own):
    """A page may still have the name that a declaration had before port.py turned it."""

    def word(m):
        it = m.group(0)
        snaked = snake(it).replace("-", "_")
        if it in names:
            return names[it]
        return snaked if it not in own and snaked in own and re.match(r"^[a-z]", it) else it

    def one(m):
        return TOKEN.sub(word, m.group(0))

    return re.sub(r"`[^`\n]*`", one, text)


def turned_edit(text, names):
    out = []
    for line in text.split("\n"):
        out.append(turned(line, names) if line.startswith(("old:", "new:")) else line)
    return "\n".join(out)


def write(path, text):
    if text != read(path):
        with open(path, "w", encoding="utf-8") as f:
            f.write(text)


def apply(root, own, goals, turn):
    def here(path):
        names = dict(turn)
        rel = os.path.relpath(path, root)
        for it in goals.get(path, ()):
            names.pop(it, None)
        for it, (new, folders) in LOCAL.items():
            if rel.startswith(folders):
                names[it] = new
        return names

    for path in list(files(root)):
        write(path, turned(read(path), here(path)))
    for path in sources(root):
        write(path, turned_clauses(read(path), turn))
    for path in edits(root):
        write(path, turned_edit(read(path), turn))
    for path in pages(root):
        write(path, turned_page(read(path), turn, set(own) | set(turn.values())))


def main():
    root = os.getcwd()
    own, goals, turn, clash, used = plan(root)
    if "--list" in sys.argv:
        print(len(own), "names,", len(turn), "to turn,", len(clash), "fall together")
        for new, olds in sorted(clash.items()):
            print(new, olds, [os.path.relpath(p, root) for o in olds for p in sorted(own[o])][:3], [os.path.relpath(p, root) for p in sorted(used.get(new, []))[:3]])
        return
    apply(root, own, goals, turn)


if __name__ == "__main__":
    main()
