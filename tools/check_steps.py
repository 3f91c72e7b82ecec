#!/usr/bin/env python3
"""Checks that no step to the next slot around a node or to the next corner of a polygon holds a division or a remainder (document 02, W3), in the
source and in the compiled libraries. Run by hand; it is no part of the gate.

usage: python3 tools/check_steps.py [LIBRARY.a ..]      (default: makes liboverlay_c.a and libgeometry_c.a by `rt lib` and looks at both)

Source: the steps and the functions that take one have neither `/` nor `%`, and nothing in the library takes a remainder by anything but a literal (a
constant's, by its name, too) or a power of two that is shifted there. Compiled: most of those functions are inlined, so every function of a library is
disassembled. One that has a `div` or `idiv` must be one from which no call leads to a step; who makes an iterator calls its `next`, whatever walks it.
Exit status 1 where there is a fault, 2 where nothing can be looked at."""
import pathlib
import re
import subprocess
import sys

ROOT = pathlib.Path(__file__).resolve().parent.parent
STEPS = {("corners", "after"), ("corners", "previous"), ("corners", "next_corner"), ("dart_walk", "first_open"), ("dart_walk", "next_open")}
FUNCTION = re.compile(r'^( *)(?:pub(?:\(crate\))? )?(?:extern "C" )?fn (\w+)')
CALL = re.compile(r"((?:\w+::)*)(\w+)\(")
WHOLE_DIVISION = re.compile(r"i?div[bwlq]?$")  # not divsd, divpd: a division of floats
ITERATOR = re.compile(r"^impl(?:<[^>]*>)? Iterator for (\w+)", re.M)
NUMBER = re.compile(r"^(?:pub(?:\(crate\))? )?const (\w+): \w+ = (\d[\w.]*);", re.M)
OTHER_REMAINDER = re.compile(r"%\s*(?!\(1u\d+ << \w+\)(?!\s*\.))[^\s\d]")


def functions_of(path):
    """(name, what it gives, body) of each function of a source file, without comments and contracts"""
    lines = [re.sub(r"//.*", "", line).rstrip() for line in path.read_text().splitlines()]
    for start, line in enumerate(lines):
        found = FUNCTION.match(line)
        if not found:
            continue
        indent = found.group(1)
        opening = next(at for at in range(start, len(lines)) if lines[at] == indent + "{" or re.match(rf"{indent}\S.*\)(?: -> .+)? {{$", lines[at]))
        closing = next(at for at in range(opening, len(lines)) if lines[at] == indent + "}")
        gives = re.search(r"-> (.+?)(?: {)?$", "\n".join(line for line in lines[start:opening + 1] if not re.match(r" *(?:requires|ensures)\b", line)), re.M)
        yield found.group(2), gives.group(1) if gives else "", "\n".join(lines[opening + 1:closing])


def read_source():
    """the bodies of all functions by (crate, name), and what each of them calls"""
    bodies, named, imports, made, iterators = {}, {}, {}, {}, {}
    for path in sorted(ROOT.glob("crates/*/src/**/*.rt")):
        crate = path.relative_to(ROOT).parts[1]
        numbers = dict(NUMBER.findall(path.read_text()))
        iterators.setdefault(crate, set()).update(ITERATOR.findall(path.read_text()))
        brought = {name: way.split("::")[0] for way, names in re.findall(r"^use ([\w:]+)::(\w+|\{[\w\s,]*\});", path.read_text(), re.M) for name in re.findall(r"\w+", names)}
        for name, gives, body in functions_of(path):
            body = re.sub(r"\b\w+\b(?!\s*\.)", lambda word: numbers.get(word.group(), word.group()), body)
            bodies[crate, name] = bodies.get((crate, name), "") + body
            made.setdefault((crate, name), set()).update(re.findall(r"\w+", gives), re.findall(r"(\w+) {", body))
            named.setdefault(name, set()).add((crate, name))
            imports.setdefault((crate, name), {}).update(brought)
    calls = {}
    for (crate, name), body in bodies.items():
        calls[crate, name] = set()
        for way, callee in CALL.findall(body):
            owner = way.split("::")[0] if way else imports[crate, name].get(callee, crate)
            calls[crate, name] |= {(owner, callee)} & bodies.keys() or named.get(callee, set())
        if made[crate, name] & iterators[crate]:
            calls[crate, name].add((crate, "next"))
    return bodies, calls


def reached(start, calls):
    """the functions that calls lead to, those they start from included"""
    seen, left = set(), list(start)
    while left:
        one = left.pop()
        if one not in seen:
            seen.add(one)
            left += calls.get(one, ())
    return seen


def compiled(library):
    """for each function of a static library how many instructions it has, and how many of them divide whole numbers"""
    text = subprocess.run(["objdump", "-d", "--no-show-raw-insn", str(library)], capture_output=True, text=True, check=True).stdout
    counts, name = {}, None
    for line in text.splitlines():
        head = re.match(r"[0-9a-f]+ <(.*)>:$", line)
        code = re.match(r"\s+[0-9a-f]+:\t(\S+)", line)
        if head:
            name = head.group(1)
            counts[name] = [0, 0]
        elif code and name:
            counts[name][0] += 1
            counts[name][1] += bool(WHOLE_DIVISION.match(code.group(1)))
    return counts


def sources(symbol, bodies):
    """the functions of the source that a symbol can be: `crate::module::name`, or the bare name of an exported one"""
    *way, name = symbol.split("::")
    return {one for one in bodies if one[1] == name and way[:1] in ([], [one[0]])}


def check_source(bodies, calls):
    faults = [f"{crate}::{name}: no such function" for crate, name in sorted(STEPS - bodies.keys())]
    takers = {one for one in bodies if one in STEPS or calls[one] & STEPS}
    faults += [f"{crate}::{name}: a division or a remainder in the source" for crate, name in sorted(takers) if re.search(r"[/%]", bodies[crate, name])]
    faults += [f"{crate}::{name}: a remainder by what is no literal" for crate, name in sorted(bodies) if OTHER_REMAINDER.search(bodies[crate, name])]
    print(f"source: {len(STEPS)} steps, {len(takers - STEPS)} functions that take one: " + ", ".join(f"{c}::{n}" for c, n in sorted(takers - STEPS)))
    return faults


def check_library(library, bodies, calls):
    counts = compiled(library)
    holding = sorted(one for one in counts if reached(sources(one, bodies), calls) & STEPS)
    print(f"{library.name}: {len(counts)} functions, {sum(n for n, _ in counts.values()):,} instructions; calls lead to a step from " + ", ".join(holding))
    faults = [] if holding else [f"{library.name}: no function takes a step"]
    for one, (_, divisions) in sorted(counts.items()):
        if divisions and one in holding:
            faults.append(f"{library.name}: {one} has {divisions} whole divisions, and calls lead from it to a step")
        elif divisions:
            print(f"  {one}: {divisions} whole divisions; no call leads from it to a step")
    return faults


def libraries(words):
    if words:
        return [pathlib.Path(word) for word in words]
    for crate in ("overlay_c", "geometry_c"):
        subprocess.run(["rt", "lib"], cwd=ROOT / "crates" / crate, check=True, stdout=subprocess.DEVNULL)
    return [ROOT / f"crates/{crate}/out/lib{crate}.a" for crate in ("overlay_c", "geometry_c")]


def main():
    bodies, calls = read_source()
    faults = check_source(bodies, calls)
    try:
        for library in libraries(sys.argv[1:]):
            faults += check_library(library, bodies, calls)
    except (OSError, subprocess.CalledProcessError) as error:
        print(f"check_steps: {error}\n{getattr(error, 'stderr', None) or ''}", file=sys.stderr)
        return 2
    print("\n".join(faults) if faults else "no step holds a division or a remainder")
    return 1 if faults else 0


sys.exit(main())
