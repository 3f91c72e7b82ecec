#!/usr/bin/env python3
"""Checks docs/READING-ORDER.md: every file of definitions that it lists is there and needs only what stands before it or stands apart,
under "Needn't be believed", no definition rests on a proof, and no name is defined in two of them (fields go by their record).

usage: python3 tools/check_order.py [ROOT]      (ROOT: the repository, default the folder above this file's)

A file needs what its `use` lines name. Types that the code declares (`specs.declared`) stand in src/ and are left out. Files of specs/ that
stand apart, or that the page doesn't list, may need whatever they like but proofs/; how many lines each kind has is said at the end."""
import pathlib
import re
import sys

APART = "## Needn't be believed"
ROW = re.compile(r"^\| (\w+/specs/[^|]+?) \|", re.M)
NAME = re.compile(r"^ *(?:(?:abbrev|unfoldable) pub|pub (?:data|record)) ([^\s:]+)", re.M)
NEED = re.compile(r"^use Rattle\.(\w+)\.(specs|proofs)\.(\w+)", re.M)


def listed(page):
    """crate/File of each row, in order; a row may list several: `a/specs/B, C, d/specs/E`"""
    found = []
    for row in ROW.findall(page):
        crate = ""
        for name in re.split(r",\s*", row):
            if "/specs/" in name:
                crate, name = name.split("/specs/")
            found.append(f"{crate}/{name.strip()}")
    return found


def needs(path):
    """(kind, crate/File) of each module that a file of definitions uses"""
    for crate, kind, module in NEED.findall(path.read_text()):
        if module != "declared" and crate != "std":
            yield kind, f"{crate}/{module}"


def meanings(root, names):
    """the files among those named that define each name"""
    homes = {}
    for name in names:
        path = root / "crates/{}/specs/{}.antt".format(*name.split("/"))
        for defined in set(NAME.findall(path.read_text())) if path.exists() else ():
            homes.setdefault(defined, []).append(name)
    return homes


def main(words):
    root = pathlib.Path(words[0]) if words else pathlib.Path(__file__).resolve().parent.parent
    page = (root / "docs/READING-ORDER.md").read_text()
    order, apart = (listed(part) for part in page.split(APART))
    faults, lines = [], {"believed": 0, "apart": 0, "other": 0}
    for path in sorted(root.glob("crates/*/specs/*.antt")):
        name = f"{path.parts[-3]}/{path.stem}"
        lines["believed" if name in order else "apart" if name in apart else "other"] += path.read_text().count("\n")
        for kind, need in needs(path):
            if kind == "proofs":
                faults.append(f"{name} rests on a proof, {need}")
            elif name in order and need not in order[: order.index(name)] + apart:
                faults.append(f"{name} needs {need}, which {'stands later' if need in order else 'is not listed'}")
    for name, homes in sorted(meanings(root, order + apart).items()):
        if len(homes) > 1:
            faults.append(f"{name} is defined in {' and in '.join(homes)}")
    for name in order + apart:
        crate, module = name.split("/")
        if not (root / f"crates/{crate}/specs/{module}.antt").exists():
            faults.append(f"there is no {name}")
    for fault in faults:
        print(fault)
    print(f"{len(order)} files in order, {lines['believed']} lines; {len(apart)} apart, {lines['apart']}; {lines['other']} lines of others; {len(faults)} faults")
    return 1 if faults else 0


if __name__ == "__main__":
    sys.exit(main(sys.argv[1:]))
