#!/usr/bin/env python3
"""places.py [TREE]: counts, in the Rattle sources of a tree, the places that docs/DESIGN-PASS.md is about, and lists them.

1 own enums (with their variants), flags in structs, numbers with a name; 2 functions whose texts are the same but for names and numbers;
3 `while`, `loop`, and `for` over numbers; 4 functions that compare, convert or print by hand; 5 facts that stand in the contracts of three or more functions;
6 arrays, by the functions and structs that name them; 7 functions passed or kept; 8 answers in proofs. What a place is to be, a reader says.
"""
import collections
import glob
import os
import re
import sys

TREE = sys.argv[1] if len(sys.argv) > 1 else "."
SOURCES = sorted(glob.glob(f"{TREE}/crates/*/src/*.rt"))


def text_of(path):
    return "\n".join(re.sub(r"//.*", "", line) for line in open(path, encoding="utf-8").read().split("\n"))


def where(path):
    return os.path.relpath(path, f"{TREE}/crates").replace("/src/", "/").replace(".rt", "")


def items(word):
    """Each item that begins with the word, with its text up to the brace that closes it."""
    for path in SOURCES:
        lines = text_of(path).split("\n")
        for start, line in enumerate(lines):
            found = re.match(rf"( *)(?:pub(?:\(crate\))? )?(?:unsafe )?(?:final )?(?:extern \"C\" )?{word} (\w+)", line)
            if not found:
                continue
            end = start
            while end + 1 < len(lines) and not re.match(rf"{found.group(1)}[}}]", lines[end]) and not lines[end].rstrip().endswith(";"):
                end += 1
            yield where(path), found.group(2), "\n".join(lines[start:end + 1])


def body_of(function):
    opened = re.search(r"^ *\{$|\{$", function, re.M)
    return function[opened.end():] if opened else ""


def shape(function):
    """A function's body with names and numbers blotted out; what is called by the same word stays apart from what is not."""
    return re.sub(r"\b\w+\b", "n", body_of(function)).replace("n :: n", "n").replace("n::n", "n")


def facts(function):
    found = set()
    for clause in re.findall(r"(?:requires|ensures)\s*\w*\s*\{(.*)\}", function):
        for fact in re.split(r"×", clause):
            fact = re.sub(r"\.(?:now|old|new|items)\b", "", fact)
            fact = re.sub(r"\s+", " ", fact.replace("(", " ").replace(")", " ")).strip()
            if re.search(r"[<≤]", fact) and "→" not in fact and len(fact) < 60:
                found.add(fact)
    return found


def main():
    def head(point, what, count):
        print(f"\n{point}. {what}: {count}")

    enums = [(place, name, re.findall(r"^ +(\w+)(\([^)]*\)|\s*\{[^}]*\})?,", text, re.M)) for place, name, text in items("enum")]
    head(1, "own enums", len(enums))
    for place, name, variants in enums:
        print(f"   {place} {name}: " + ", ".join(variant + payload for variant, payload in variants))
    flags = [(place, name, flag) for place, name, text in items("struct") for flag in re.findall(r"^ +(?:pub(?:\(crate\))? )?(\w+): bool,", text, re.M)]
    head(1, "flags in structs", len(flags))
    for flag in flags:
        print("   " + " ".join(flag))
    codes = [(where(path), name) for path in SOURCES for name in re.findall(r"^(?:pub )?const (\w+): u(?:8|16|32|64) = \d+;", text_of(path), re.M)]
    head(1, "numbers with a name", len(codes))
    for code in codes:
        print("   " + " ".join(code))

    groups = collections.defaultdict(list)
    functions = list(items("fn"))
    for place, name, text in functions:
        if len(body_of(text).strip()) > 60:
            groups[shape(text)].append(f"{place}::{name}")
    twins = [group for group in groups.values() if len(group) > 1]
    head(2, "groups of functions of one shape", f"{len(twins)}, with {sum(map(len, twins))} functions of {len(functions)}")
    for group in twins:
        print("   " + ", ".join(group))

    loops = [(where(path), line.strip()) for path in SOURCES for line in text_of(path).split("\n") if re.match(r" *(while|loop)\b", line)]
    head(3, "while and loop", len(loops))
    for loop in loops:
        print("   " + ": ".join(loop))
    indexed = [(where(path), line.strip()) for path in SOURCES for line in text_of(path).split("\n") if re.match(r" *for \w+ in [^ ]*\.\.", line)]
    head(3, "for over a range of numbers", len(indexed))
    for loop in indexed:
        print("   " + ": ".join(loop))

    by_hand = [f"{place}::{name}" for place, name, _ in functions if re.match(r"(same|less|is_same|eq|show|say|\w+_number|\w+_carries|direction_of|action_of|\w+_from|to_\w+)(_|$)", name)]
    head(4, "functions that compare, convert or print by their names", len(by_hand))
    print("   " + ", ".join(by_hand))

    count = collections.Counter()
    for place, name, text in functions:
        for fact in facts(text):
            count[(place.split("/")[0], fact)] += 1
    often = [(times, crate, fact) for (crate, fact), times in count.items() if times >= 3]
    head(5, "facts in the contracts of three or more functions of a crate", f"{len(often)}, in {sum(times for times, _, _ in often)} contracts")
    for times, crate, fact in sorted(often, reverse=True):
        print(f"   {crate}: {fact}: {times}")

    arrays = [f"{place}::{name}" for place, name, text in functions if re.search(r"\[u(8|16|32|64); ", text)]
    head(6, "functions that name an array", len(arrays))
    print("   " + ", ".join(arrays))

    passed = [f"{place}::{name}" for place, name, text in functions if re.search(r"\bFn(Mut|Once)?\(|\bdyn\b|: fn\(", text)]
    head(7, "functions that are passed a function", len(passed))
    print("   " + ", ".join(passed))

    answers = sum(len(re.findall(r"^pub ", open(path, encoding="utf-8").read(), re.M)) for path in glob.glob(f"{TREE}/crates/*/proofs/**/Answers.antt", recursive=True))
    invariants = sum(len(re.findall(r"^abbrev pub ", open(path, encoding="utf-8").read(), re.M)) for path in glob.glob(f"{TREE}/crates/*/proofs/**/Invariants.antt", recursive=True))
    head(8, "answers, and invariants and measures", f"{answers}, {invariants}")


main()
