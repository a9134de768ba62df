#!/usr/bin/env python3
"""Lists the places in crates/*/src that docs/DESIGN-PASS.md counts, point by point.

usage: python3 tools/places.py [COMMIT] [--list POINT]    at the top of the repository; without COMMIT, the files as they stand

A place is a line that one of the patterns below finds; a twin is a function whose text is another's but for names and numbers; a fact
that is repeated is one clause in the contracts of three functions or more. What the patterns find is read by a person: the page says which
of them are places and which are not.
"""

import collections
import re
import subprocess
import sys

PATTERNS = [
    ("1a", "own enum", r"^(pub(\(crate\))? )?enum "),
    ("1b", "a flag or a number that says whether the values beside it mean anything", r"^    pub (bad|answer|first|has_data|reported|refusal|completed): "),
    ("1c", "a refusal by its number", r"\b(Refused|Refuse|Spend)\((u16|u32|number|refusal|[0-9]+)\)|refused\((1[0-9]|[1-9])\b|\b(refused|spent|refusal) (!=|==) 0|fn \w*(refusal|number)\w*\(.*-> u16$"),
    ("1d", "a magic number for none", r"(packets|quiet|upper) (<|==) (256|2|1|0)\b|return (256|2);|^        256$|^    256$"),
    ("1e", "a kind or a field as a number", r"^(pub(\(crate\))? )?const [A-Z_0-9]+: (u8|u32|usize) = [0-9]+;|\b(kind|tag) == [A-Z0-9]"),
    ("3", "a loop that counts by hand", r"^ *(while|loop)\b"),
    ("4a", "a test of a variant by match", r"=> (true|false),$"),
    ("4b", "a conversion by hand", r"fn (wide|flag|at_least_one|one_less|rest|[a-z_]+_number|[a-z]+_tag|[a-z]+_tagged|(speed|direction|mode|status|fault|role|outcome|fatal|kind|request_type|recipient)_of)\("),
    ("6a", "an array beside a count, or handed by value with from and to", r"^ +(pub )?[a-z_]+: \[[A-Za-z0-9]+; [0-9]+\],|\((mut )?[a-z]+: \[[A-Z][A-Za-z]+; [0-9]+\]"),
    ("6b", "from and to", r"\bfrom: (u16|u32|usize), to: (u16|u32|usize)|^ +to: (u16|u32|usize),"),
    ("6c", "a table copied out of the session", r"let (requests|plans) = self\."),
    ("7", "a switch on which step to run", r"if (act\.)?kind == [A-Z_]+|match (act|step|way|kind)\b"),
]


def tree(commit):
    """The source files by their path."""
    if commit is None:
        names = subprocess.run(["git", "ls-files", "crates/*/src/*.rt"], capture_output=True, text=True, check=True).stdout.split()
        return {name: open(name, encoding="utf-8").read() for name in names}
    names = subprocess.run(["git", "ls-tree", "-r", "--name-only", commit, "crates"], capture_output=True, text=True, check=True).stdout.split()
    names = [name for name in names if "/src/" in name and name.endswith(".rt")]
    return {name: subprocess.run(["git", "show", f"{commit}:{name}"], capture_output=True, text=True, check=True).stdout for name in names}


def functions(text):
    """Each function: its line, name, contract and body."""
    for found in re.finditer(r"^( *)(?:#\[[^\n]*\]\n *)*(?:pub(?:\(crate\))? )?(?:extern \"C\" )?fn (\w+)", text, re.M):
        end = re.compile(r"^%s\}" % found.group(1), re.M).search(text, found.end())
        if end:
            whole = text[found.start():end.end()]
            brace = re.search(r"^%s\{|\{$" % found.group(1), whole, re.M)
            contract, body = (whole[:brace.start()], whole[brace.start():]) if brace else (whole, "")
            yield text.count("\n", 0, found.start()) + 1, found.group(2), contract, body


def shape(body):
    """A body without its names and numbers. Words of the language stay."""
    kept = {"let", "mut", "if", "else", "while", "for", "in", "match", "return", "as", "self", "loop", "true", "false"}
    words = re.sub(r"//[^\n]*", "", body)
    words = re.sub(r"\b[A-Za-z_]\w*(::\w+)*", lambda m: m.group(0) if m.group(0) in kept else "n", words)
    return re.sub(r"\b[0-9][0-9a-fx_]*\b", "0", re.sub(r"\s+", " ", words))


def facts(contract):
    """The facts that a contract requires, each by itself."""
    for clause in re.findall(r"requires(?: \w+)? \{ (.*?) \}(?=\n|$)", contract, re.S):
        for fact in re.split(r"×", clause):
            fact = re.sub(r"\s+", " ", fact).strip()
            while fact.startswith("(") and fact.endswith(")"):
                fact = fact[1:-1].strip()
            yield re.sub(r"\.(old|now)\b", "", fact)


def places(files):
    found = collections.defaultdict(list)
    shapes, repeated = collections.defaultdict(list), collections.defaultdict(set)
    for name, text in sorted(files.items()):
        for number, line in enumerate(text.splitlines(), 1):
            if not line.lstrip().startswith("//"):
                for point, _, pattern in PATTERNS:
                    if re.search(pattern, line):
                        found[point].append((f"{name}:{number}", line.strip()))
        for number, function, contract, body in functions(text):
            if body.count("\n") > 3 and "port_c" not in name:
                shapes[shape(body)].append((f"{name}:{number}", function))
            for fact in facts(contract):
                repeated[fact].add(f"{name}:{number} {function}")
    for group in shapes.values():
        if len(group) > 1:
            found["2"].append((group[0][0], " ".join(f"{function} ({place})" for place, function in group)))
    for fact, users in sorted(repeated.items()):
        if len(users) > 2:
            found["5"].append((f"{len(users)} functions", fact))
    return found


def main(arguments):
    wanted = arguments[arguments.index("--list") + 1] if "--list" in arguments else None
    rest = [it for it in arguments if it != "--list" and it != wanted]
    found = places(tree(rest[0] if rest else None))
    names = {point: about for point, about, _ in PATTERNS}
    names.update({"2": "functions of one shape", "5": "a fact in the contracts of three functions or more"})
    for point in sorted(names):
        print(f"{point:3} {len(found[point]):4}  {names[point]}")
        if wanted and point.startswith(wanted):
            for where, what in found[point]:
                print(f"          {where}: {what}")


if __name__ == "__main__":
    main(sys.argv[1:])
