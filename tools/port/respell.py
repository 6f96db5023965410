#!/usr/bin/env python3
"""Brings the names of this repository's own definitions and lemmas to Rattle's spelling.

usage: tools/port/respell.py [--show]     at the top of the repository, once, after the kit's own script

Functions, fields, constructors and lemmas are in snake case with plain underscores, as the kit's script spells those of
them that it turns; types are in upper camel case. Names that Rattle makes of the source, which answers give, stay as
they are, and so do Rust's own names, comments and all text in quotes.
"""
import collections
import glob
import re
import sys

DECLARED = re.compile(r"^(\s*)((?:abbrev |unfoldable |pub |data |record |mutual )*)((?:[^\s:(){}]+ )+)(?:[({][^:]*: .*?[)}] )*: ")
# names that would meet another one
APART = {
    "by-order": "by_order_lem",
    "half-unit": "half_unit_lem",
    "halfUnit": "half_of_unit",
    "in-powers": "in_powers_lem",
    "minus-zero": "gives_minus_zero",
    "plain-zero": "plain_zero_lem",
    "atZero": "figure_at_zero",
    "restRow": "row_of_rest",
    "wholeRow": "row_of_whole",
    "timesPower": "times_power_value",
    "expM1": "table_exp_m1",
    "expM2": "table_exp_m2",
    "exp2fTable": "table_exp2f",
    "exp2Mid": "table_exp2_mid",
    "exp2Small": "exp2_small_value",
    "exp2Table": "exp2_table_value",
    "exp10Small": "exp10_small_value",
    "exp10Table": "exp10_table_value",
    "expm1Small": "expm1_small_value",
    "expm1Tables": "expm1_tables_value",
    "expTables": "exp_tables_value",
    "exp2-wide": "exp2_wide_lem",
    "power-of": "power_of_lem",
    "whole-power": "power_of_whole",
    "scaled-row": "scaled_row_lem",
    "powerBits": "bits_of_power",
    "arithmeticWord": "word_of_arithmetic",
    "curveWord": "word_of_curve",
    "fourBytes": "bytes_of_four",
}
TOKEN = re.compile(r"[^\s(){}\[\];,.:\"`|]+")


def files(kind):
    return sorted(glob.glob(f"crates/*/{kind}/**/*.antt", recursive=True))


def read(path):
    with open(path, encoding="utf-8") as f:
        return f.read()


def declared():
    """Each name that a file of specs/ or proofs/ declares, but for the goals that answers give."""
    found = set()
    for path in files("specs") + files("proofs"):
        for line in read(path).split("\n"):
            hit = DECLARED.match(line)
            if not hit or line.lstrip().startswith(("--", "let ", "|", "λ", "use ", "infix")):
                continue
            if not line[hit.end():].startswith(("goal.", "given.", "need.")):
                found.update(hit.group(3).split())
    return found


def snake(name):
    return re.sub(r"(?<=[a-z0-9])[A-Z]", lambda m: "_" + m[0].lower(), name)


def functions():
    """The names of the functions of src/: a lemma of the same name gets _lem."""
    found = set()
    for path in glob.glob("crates/*/src/**/*.rt", recursive=True):
        found.update(re.findall(r"\bfn (\w+)", read(path)))
    return found


def respelled(name):
    if name in APART:
        return APART[name]
    if not re.fullmatch(r"[\w'-]+", name) or name.startswith("-"):
        return name
    if re.match(r"[A-Z]\w", name) and "-" in name:
        return "".join(p[:1].upper() + p[1:] for p in name.split("-"))
    return (name if re.match(r"[A-Z]", name) else snake(name)).replace("-", "_")


def main():
    names = declared()
    of_rust = functions()
    table = {n: respelled(n) for n in names}
    table = {n: m + "_lem" if m in of_rust and "-" in n else m for n, m in table.items()}
    table = {n: m for n, m in table.items() if n != m}
    taken = collections.defaultdict(set)
    for n in names:
        taken[table.get(n, n)].add(n)
    for new, olds in sorted(taken.items()):
        if len(olds) > 1:
            print("meet:", new, *sorted(olds))
    if "--show" in sys.argv:
        for n in sorted(table):
            print(n, table[n])
        return
    crates = {path.split("/")[1] for path in glob.glob("crates/*/src")}
    # behind a dot an answer names what Rattle made of a call, and not the lemma of that name
    turn = lambda m: m[0] if m.string[m.start() - 1 : m.start()] == "." and table.get(m[0], "").endswith("_lem") else table.get(m[0], m[0])
    for path in files("specs") + files("proofs") + sorted(glob.glob("crates/*/src/**/*.rt", recursive=True)) + sorted(glob.glob("crates/*/must-fail/*.edit")):
        old = read(path)
        comment = "(?m)^ *--.*" if path.endswith(".antt") else "(?m)^ *//.*"
        theirs = set()
        for of, items in re.findall(r"\buse ([^\s{;]+)\.\{([^}]*)\}", old):
            steps = of.split(".")
            if not (steps[0] == "Rattle" and steps[1] in crates):
                theirs.update(TOKEN.findall(items))
        new = re.sub(comment + r'|"[^"\n]*"|' + TOKEN.pattern, lambda m: m[0] if re.match(r'"| *--|.*//', m[0]) or m[0] in theirs else turn(m), old)
        if new != old:
            with open(path, "w", encoding="utf-8") as f:
                f.write(new)


main()
