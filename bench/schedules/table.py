#!/usr/bin/env python3
"""table.py <LINES: of the lines that the bench `schedules` prints, its table in docs/SCALING.md."""
import sys

NAMES = {"tree": "a tree of 1,000", "one": "one"}
print("| Lost, damaged, late, twice | Coordinators | Rounds | Answers sent | States sent | MB moved | to the first "
      "| Groups merged | by the first | Seconds |")
print("|---|---|---|---|---|---|---|---|---|---|")
for line in sys.stdin:
    kind, name, *numbers = line.split()
    if kind == "end":
        rate, rounds, answers, states, moved, to_first, first, merged, microseconds = map(int, numbers)
        print(f"| {rate} of 100 each | {NAMES[name]} | {rounds} | {answers:,} | {states:,} | {moved / 1e6:.1f} "
              f"| {to_first / 1e6:.1f} | {merged:,} | {first:,} | {microseconds / 1e6:.2f} |")
