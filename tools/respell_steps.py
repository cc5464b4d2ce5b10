#!/usr/bin/env python3
"""Respells what proof files say of the steps of the code: a name of the source keeps its spelling.

usage: python3 tools/respell_steps.py     at the top of the repository, once

A step is named by names of the source and words of the prover, joined by hyphens. Names of the source
had their underscores turned to hyphens (`push-back`), and now keep them (`push_back`); words of the
prover of more than one part have underscores now (`in-ok-x`: `in_ok-x`). Rewrites Answers.antt,
Invariants.antt and Choices.antt below proofs/ in place.
"""
import re

from respell_names import files, read

STD = "split_at saturating_sub saturating_add split_first split_last from_residual to_vec into_buffer copy_from_slice".split()
WORDS = "in_ok in_err in_default invariant_of from_residual overflow_add type_inv".split()


def main():
    own = set(STD + WORDS)
    for path in files("crates", ".rt"):
        own.update(re.findall(r"\b[A-Za-z][A-Za-z0-9]*(?:_[A-Za-z0-9]+)+\b", re.sub(r"//.*", "", read(path))))
    old = sorted((n.replace("_", "-") for n in own), key=len, reverse=True)
    part = re.compile(r"(?<![A-Za-z0-9_'])(?:" + "|".join(map(re.escape, old)) + r")(?![A-Za-z0-9_'])")
    name = re.compile(r"[A-Za-z_][\w']*(?:-[\w']+)+")
    for path in files("crates", ("Answers.antt", "Invariants.antt", "Choices.antt")):
        text = read(path)
        lib = set()
        for m in re.finditer(r"(?m)^use (Rattle\.std|borrow|lib|mathlib|native)[\w.]*\.\{([^}]*)\}", text):
            lib.update(re.split(r"[,\s]+", m.group(2)))
        new = name.sub(lambda m: m.group(0) if m.group(0) in lib else part.sub(lambda k: k.group(0).replace("-", "_"), m.group(0)), text)
        if new != text:
            with open(path, "w", encoding="utf-8") as f:
                f.write(new)


main()
