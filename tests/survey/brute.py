#!/usr/bin/env python3
"""What `survey` must print, by brute force: a unit can be read back exactly if its vector over the record units is in the
span of the good units' vectors. Shares nothing with the elimination over groups. Not part of the gate:

    python3 tests/survey/brute.py < crates/survey/stdin | diff - crates/survey/stdout
"""
import sys
from itertools import combinations


def table_of(words):
    """(v, n, k, grade, blocks) of the bytes, or None; enough of the format for the lines of the survey."""
    if not all(word.isdigit() for word in words):
        return None
    b = [int(word) for word in words]
    if len(b) < 4 or len(b) != 7 + b[2] * b[3]:
        return None
    v, n, k = b[1:4]
    points = b[5:5 + n * k]
    return v, n, k, b[-1], [points[d * k:(d + 1) * k] for d in range(n)]


def vectors(v, n, blocks):
    """For each unit the record units that are summed into its cell, as bits."""
    return [1 << d for d in range(n)] + [sum(1 << d for d in range(n) if p in blocks[d]) for p in range(v)]


def basis_of(vs):
    basis = {}
    for x in vs:
        while x and x.bit_length() in basis:
            x ^= basis[x.bit_length()]
        if x:
            basis[x.bit_length()] = x
    return basis


def in_span(basis, x):
    while x and x.bit_length() in basis:
        x ^= basis[x.bit_length()]
    return x == 0


def survey(v, n, blocks):
    """The lines of a table, its number of missing sets, and how many answers are asked for."""
    vec, units, lines, all_sets = vectors(v, n, blocks), n + v, [], 0
    for size in range(min(5, units) + 1):
        sets = recipes = losses = unreadable = harmful = 0
        for missing in combinations(range(units), size):
            basis = basis_of(vec[u] for u in range(units) if u not in missing)
            lost = [u for u in missing if not in_span(basis, vec[u])]
            records = sum(u < n for u in lost)
            sets += 1
            recipes += size - len(lost)
            losses += len(lost)
            unreadable += records
            harmful += records > 0
        lines.append(f"{size:>9} {sets:>8} {recipes:>8} {losses:>8} {unreadable:>19} {harmful:>8}")
        all_sets += sets
    # Of each set: every unit, three numbers that are no unit, the relations, and the lost record units.
    return lines, all_sets, all_sets * (units + 5)


def main():
    answers = 0
    for line in sys.stdin:
        name, _, words = line.rstrip("\n").partition(":")
        table = table_of(words.split())
        if table is None:
            print(f"{name}: no table")
            continue
        v, n, k, grade, blocks = table
        lines, sets, asked = survey(v, n, blocks)
        print(f"{name}: v {v}, n {n}, k {k}, grade {grade}, {n + v} units")
        print("  missing     sets  recipes   losses  unreadable records  in sets")
        print("\n".join(lines))
        print(f"  relations: right and enough for {sets} of {sets} missing sets")
        answers += asked
    print(f"{answers} answers checked, 0 wrong")


main()
