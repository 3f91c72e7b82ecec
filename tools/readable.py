#!/usr/bin/env python3
"""Says where lines of code, definitions and proofs are too long to read.

usage: python3 tools/readable.py [ROOT] [--all]      (ROOT: the repository, default the folder above this file's)

For each crate: lines of proof, lines over 200 characters in proofs/ and elsewhere. Then the longest (--all: every one). Exit status 1 where a
line of proofs/ is over 200 characters."""
import pathlib
import sys

LONGEST = 200  # characters of a line


def row_of(crate, places):
    """lines of proof, long lines of proofs/ and of the rest; their places are added to `places`"""
    row = [0, 0, 0]
    for path in sorted([*crate.glob("proofs/**/*.antt"), *crate.glob("specs/**/*.antt"), *crate.glob("src/**/*.rt")]):
        proof = "proofs" in path.relative_to(crate).parts
        lines = path.read_text().splitlines()
        row[0] += len(lines) if proof else 0
        for number, line in enumerate(lines, 1):
            if len(line) > LONGEST:
                row[1 if proof else 2] += 1
                places.append((len(line), f"{path}:{number}: {len(line)} characters"))
    return row


def main(words):
    names = [word for word in words if not word.startswith("--")]
    root = pathlib.Path(names[0]) if names else pathlib.Path(__file__).resolve().parent.parent
    places, total = [], [0, 0, 0]
    print(f"{'crate':16s} proof lines  lines > {LONGEST} in proofs/  elsewhere")
    for crate in sorted((root / "crates").glob("*")):
        row = row_of(crate, places)
        total = [a + b for a, b in zip(total, row)]
        print(f"{crate.name:16s} {row[0]:11d} {row[1]:23d} {row[2]:10d}")
    print(f"{'all':16s} {total[0]:11d} {total[1]:23d} {total[2]:10d}")
    for _, place in sorted(places, reverse=True)[: None if "--all" in words else 12]:
        print(" ", place)
    return 1 if total[1] else 0


if __name__ == "__main__":
    sys.exit(main(sys.argv[1:]))
