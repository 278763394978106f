#!/usr/bin/env python3
"""respell.py [TREE]: the repository's own definitions and lemmas in today's spelling, in TREE (this one, if none is named).

A word of a definition or lemma is in snake case: `readPacket` becomes `read_packet`. A dash stays only where it joins two names; before a plain
word it becomes `_`: `contains-in` becomes `contains_in`, `pairs-clearedAt` becomes `pairs-cleared_at`. A name that would fall together with
another keeps its dashes, or takes the name that stands in BY_HAND. Names of functions, fields, types and modules of src/ stay as they are, and so
do the names that Rattle makes. Run once, after port.py.
"""
import glob
import os
import re
import sys

# Names that would fall together with a field, a parameter or another definition.
BY_HAND = {
    "actionKind": "kind_of_action",
    "actionNumber": "number_of_action",
    "actionOf": "action_of_word",
    "allWords": "every_word",
    "bothWays": "for_both_ways",
    "digitsOf": "last_digits",
    "directionFrom": "direction_of_number",
    "fromSa": "comes_from_sa",
    "hasPorts": "carries_ports",
    "liveAt": "is_live_at",
    "localPort": "local_port_of",
    "moreFragments": "more_fragments_of",
    "rangesIn": "ranges_in_fields",
    "remotePort": "remote_port_of",
    "rowMade": "row_made_of",
    "rowsCut": "are_rows_cut",
    "rowsOn": "rows_on_side",
    "sameBytes": "are_same_bytes",
    "selectorsOf": "selectors_in",
    "spiIn": "inbound_spi",
    "spiOut": "outbound_spi",
}

# Definitions whose names are plain words too.
PLAIN = {"at", "in", "of", "one", "none", "same", "first", "last", "all", "held", "nothing", "start", "more", "from", "any", "add", "sub", "not", "and", "or", "set"}

SEPARATORS = set(" \t\n(){}[],;.|`\"«»")
STD = {
    "length", "take", "drop", "get_or", "slice_index", "slice_index_or", "map", "reverse", "append", "cons", "nil", "set", "eqb", "leb", "ltb", "cond",
    "min", "max", "number", "zero", "suc", "replicate", "sum", "div", "mod", "mul", "add", "sub", "pow", "not", "and", "or",
}
DECLARED = re.compile(
    r"^[ \t]*((?:abbrev|unfoldable|pub)[ \t]+)*(?:(?:data|record)[ \t]+)?([^\s:(){}.,;|]+)[ \t]+(?:(?:\([^()]*(?:\([^()]*\)[^()]*)*\)|\{[^{}]*\})\s*)*:\s"
)
MEMBER = re.compile(r"^[ \t]*(?:pub[ \t]+)?([a-z][^\s:(){}.,;|]*)[ \t]+:\s")


def files(tree, pattern):
    return sorted(glob.glob(os.path.join(tree, pattern), recursive=True))


def declared_names(tree):
    names, words = set(), set()
    for path in files(tree, "crates/*/specs/**/*.antt") + files(tree, "crates/*/proofs/**/*.antt"):
        inside = os.path.relpath(path, tree).split(os.sep)
        if inside[2] == "proofs" and inside[-1] in ("Proof.antt", "Answers.antt", "Invariants.antt"):
            continue
        for line in open(path, encoding="utf-8"):
            line = re.sub(r"^module _ ", "", line)
            found = DECLARED.match(line)
            if found:
                names.add(found.group(2))
                if re.match(r"\s*(pub )?(abbrev|unfoldable)", line):
                    words.add(found.group(2))
    plain = ("_", "→", "module", "use", "let", "where", "in")
    return {n for n in names if n not in plain}, words


# Names that a definition must not have: fields, constants and parameters of src/, and what the .antt files bind or declare.
def taken_names(tree):
    taken = set()
    for path in files(tree, "crates/*/src/**/*.rt"):
        text = open(path, encoding="utf-8").read()
        taken |= set(re.findall(r"\b(?:mut )?([a-z_0-9]+): ", text)) | set(re.findall(r"\bconst ([A-Z_0-9]+)", text))
    for path in files(tree, "crates/*/**/*.antt"):
        for line in open(path, encoding="utf-8"):
            if line.startswith(("use ", "pub use ")):
                line = line[line.find("{"):] if "{" in line else ""
            before = ""
            for t in tokens(line):
                if t not in SEPARATORS and before != ".":
                    taken.add(t)
                before = t
    return taken


def tokens(text):
    out, word = [], ""
    for char in text:
        if char in SEPARATORS:
            if word:
                out.append(word)
                word = ""
            out.append(char)
        else:
            word += char
    if word:
        out.append(word)
    return out


def snake(word):
    if not word or not word[0].islower():
        return word
    word = re.sub(r"([a-z0-9'])([A-Z])", lambda m: m.group(1) + "_" + m.group(2).lower(), word)
    return re.sub(r"([A-Z])", lambda m: m.group(1).lower(), word) if word[0].islower() and not re.search(r"[^\x00-\x7f]", word) else word


def respelt(name, definitions):
    parts = [snake(p) for p in name.split("-")]
    if len(parts) == 1:
        return parts[0]
    out, i = "", 0
    while i < len(parts):
        size = next((k for k in (3, 2) if "_".join(parts[i:i + k]) in definitions and i + k <= len(parts)), 1)
        part = "_".join(parts[i:i + size])
        names = part in definitions or not re.match(r"^[a-z]", part) or not re.match(r"^[a-z]", parts[i - 1])
        out += ("" if i == 0 else "-" if names else "_") + part
        i += size
    return out


def changes(tree):
    names, words = declared_names(tree)
    definitions = ({snake(n) for n in words if "-" not in n} | STD) - PLAIN
    taken = taken_names(tree)
    plan, back = {}, {}
    for name in sorted(names, key=lambda n: ("-" in n, n)):
        new = BY_HAND.get(name) or respelt(name, definitions)
        if new == name:
            continue
        if new in taken or new in back:
            other = "-".join(snake(p) for p in name.split("-"))
            if "-" not in name or (other != name and (other in taken or other in back)):
                print("falls together:", name, "->", new, file=sys.stderr)
                continue
            if other == name:
                continue
            new = other
        plan[name] = new
        back[new] = name
    return plan


def turned(text, plan):
    return "".join(plan.get(t, t) for t in tokens(text))


def main():
    tree = sys.argv[1] if len(sys.argv) > 1 else os.path.join(os.path.dirname(os.path.abspath(__file__)), "..")
    plan = changes(tree)
    if "--plan" in sys.argv:
        for old, new in sorted(plan.items()):
            print(old, new)
        return
    for path in files(tree, "crates/*/**/*.antt") + files(tree, "crates/*/src/**/*.rt"):
        text = open(path, encoding="utf-8").read()
        new = turned(text, plan)
        if new != text:
            open(path, "w", encoding="utf-8").write(new)
    print(len(plan), "names respelt")


main()
