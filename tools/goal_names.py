#!/usr/bin/env python3
"""Respells, in the proofs of functions, the names that Rattle makes: a name from the code keeps its underscores, as in loop-my_var-preserved.

usage: python3 tools/goal_names.py CRATE..     at the top of the repository
"""

import os
import re
import sys

WORD = re.compile(r"[A-Za-z_0-9ℕ'₀-₉+\-]+")
FIXED = [("invariant-of-", "invariant_of-"), ("well-formed", "well_formed"), ("type-inv", "type_inv"), ("in-ok", "in_ok"), ("in-err", "in_err"), ("in-default", "in_default"), ("overflow-add", "overflow_add"), ("overflow-sub", "overflow_sub"), ("overflow-mul", "overflow_mul"), ("overflow-cast", "overflow_cast"), ("overflow-step", "overflow_step"), ("slice-bounds", "slice_bounds"), ("from-residual", "from_residual")]


def main():
    for c in sys.argv[1:]:
        top = os.path.join("crates", c)
        ids = set()
        for folder, _, names in os.walk(os.path.join(top, "src")):
            for f in names:
                ids |= {w for w in re.findall(r"\b[a-z][a-z0-9]*(?:_[a-z0-9]+)+\b", open(os.path.join(folder, f), encoding="utf-8").read())}
        ways = sorted(((i.replace("_", "-"), i) for i in ids), key=lambda p: -len(p[0]))
        for folder, _, names in os.walk(os.path.join(top, "proofs")):
            if folder == os.path.join(top, "proofs"):
                continue
            for f in names:
                p = os.path.join(folder, f)
                old = open(p, encoding="utf-8").read()

                def turn(m):
                    w = m.group(0)
                    if "-" not in w or w.startswith("--"):
                        return w
                    for a, b in FIXED + ways:
                        w = re.sub(r"(?<![a-zA-Z0-9_])" + re.escape(a) + (r"" if a.endswith("-") else r"(?![a-zA-Z0-9_])"), b, w)
                    return w

                lines = []
                for line in old.split("\n"):
                    if re.match(r"use (Rattle\.std|mathlib|borrow|denote|prog|native|Prim|lib)\b", line) or line.lstrip().startswith("--"):
                        lines.append(line)
                    else:
                        lines.append(WORD.sub(turn, line))
                new = "\n".join(lines)
                if new != old:
                    open(p, "w", encoding="utf-8").write(new)
                    print(p)


main()
