#!/usr/bin/env python3
"""move-laws.py [TREE]: theorems that rest on definitions which a must-fail edit changes, from specs/ to proofs/.

rt counts an edit of a definition only where what breaks stands in proofs/. So in each crate that has such an edit, the files of laws move there,
statements unchanged, and every `use` of them names the new place. Run once, after respell.py.
"""
import glob
import os
import re
import sys

CRATES = [
    "acceptance", "answer_rules", "normal_form", "policy", "policy_round_trip", "policy_text", "same_policy", "selectors", "sequences", "spd",
    "spd_cache",
]
# Decided equality, which definitions use.
STAY = {("normal_form", "SameLaws"), ("policy", "ActionLaws")}
OTHERS = {"Demand1", "Demand1Complete", "Demand1Unchanged", "Demand2", "Example", "Examples", "ExampleCases"}


def main():
    tree = sys.argv[1] if len(sys.argv) > 1 else os.path.join(os.path.dirname(os.path.abspath(__file__)), "..")
    moved = []
    for crate in CRATES:
        specs, proofs = (os.path.join(tree, "crates", crate, part) for part in ("specs", "proofs"))
        names = []
        for path in sorted(glob.glob(specs + "/*.antt")):
            name = os.path.basename(path)[:-5]
            if (crate, name) not in STAY and (name.endswith("Laws") or name in OTHERS):
                os.makedirs(proofs, exist_ok=True)
                os.rename(path, os.path.join(proofs, name + ".antt"))
                names.append(name)
        for name in names:
            moved.append((crate, name))
        lib = os.path.join(specs, "Lib.antt")
        lines = open(lib, encoding="utf-8").read().split("\n")
        order = [m.group(1) for m in (re.match(r"pub mod (\w+)$", line) for line in lines) if m and m.group(1) in names]
        open(lib, "w", encoding="utf-8").write("\n".join(line for line in lines if line not in {f"pub mod {n}" for n in names}))
        plib = os.path.join(proofs, "Lib.antt")
        old = open(plib, encoding="utf-8").read() if os.path.exists(plib) else ""
        open(plib, "w", encoding="utf-8").write("".join(f"pub mod {n}\n" for n in order) + old)
    places = {f"Rattle.{c}.specs.{n}": f"Rattle.{c}.proofs.{n}" for c, n in moved}
    pattern = re.compile(r"Rattle\.\w+\.specs\.\w+")
    for path in glob.glob(os.path.join(tree, "crates/*/**/*"), recursive=True):
        if path.endswith((".antt", ".rt", ".antt.old")) and "/out/" not in path:
            text = open(path, encoding="utf-8").read()
            new = pattern.sub(lambda m: places.get(m.group(0), m.group(0)), text)
            if new != text:
                open(path, "w", encoding="utf-8").write(new)
    print(len(moved), "files of laws moved")


main()
