#!/usr/bin/env python3
"""Checks docs/RULES-ANSWERED.md: what stands on the left of its tables is the text of documents 01 and 02, in its order and without a gap, and every
name on the right stands in the file or folder given behind it.

usage: python3 tools/check_names.py [ROOT]      (ROOT: the repository, default the folder above this file's)
"""
import pathlib
import re
import sys

root = pathlib.Path(sys.argv[1]) if len(sys.argv) > 1 else pathlib.Path(__file__).resolve().parent.parent
page = (root / "docs/RULES-ANSWERED.md").read_text()
documents = {"Document 01": "docs/01-scope.md", "Document 02": "docs/02-change-requests.md"}
faults = []


def declared(name, path):
    """Whether the file declares the name, the folder has an edit of that name, or the page of that path has the text."""
    place = root / "crates" / path
    if place.is_dir():
        return (place / f"{name}.edit").exists()
    if not place.exists():
        return False
    text = place.read_text()
    if place.suffix == ".antt":
        return re.search(rf"^ *(?:(?:pub|abbrev|unfoldable|record|data) )*{re.escape(name)}(?: |$)", text, re.M) is not None
    if place.suffix == ".rt":
        return re.search(rf"\b(?:fn|struct|enum) {re.escape(name)}\b", text) is not None
    return name in text


# ---- the left: the documents, sentence by sentence


class Document:
    def __init__(self, name, path):
        self.name = name
        self.text = " ".join(re.sub(r"^#.*", "", (root / path).read_text(), flags=re.M).split())
        self.covered = [False] * len(self.text)
        self.at = 0

    def quoted(self, text):
        for part in text.split(" … "):
            part = " ".join(part.replace("\\|", "|").split())
            found = self.text.find(part, self.at)
            if found < 0:
                faults.append(f"not in {self.name} {'(or out of order) ' if part in self.text else ''}: {part}")
                continue
            self.covered[found:found + len(part)] = [True] * len(part)
            self.at = found + len(part)

    def unanswered(self):
        gap = "".join(" " if c else r for r, c in zip(self.text, self.covered))
        return [t.strip() for t in re.split(r" {2,}", gap) if re.search(r"[A-Za-z]{4}", t)]


texts = {name: Document(name, path) for name, path in documents.items()}
document = texts["Document 01"]
rights = []
for line in page.splitlines():
    if line.startswith("# Document"):
        document = texts[line[2:13]]
    if line.startswith("Asks for nothing: "):
        for text in re.findall("“([^”]*)”", line):
            document.quoted(text)
    cells = [c.strip() for c in re.split(r"(?<!\\)\|", line)][1:-1] if line.startswith("|") else []
    if len(cells) == 2 and cells[0] not in documents and not set(cells[0]) <= set("-:"):
        document.quoted(cells[0])
        rights.append(cells[1])

for document in texts.values():
    faults += [f"not answered: {text}" for text in document.unanswered()]

# ---- the right: names and places

names = 0
for right in rights:
    for group, path in re.findall(r"((?:`[^`]+`(?:, | and )?)+) \(([\w./-]+)\)", right):
        for name in re.findall("`([^`]+)`", group):
            names += 1
            if not declared(name, path):
                faults.append(f"no such name: {name} in {path}")
    rest = re.sub(r"((?:`[^`]+`(?:, | and )?)+) \(([\w./-]+)\)", "", right)
    faults += [f"no place given: {name}" for name in re.findall("`([^`]+)`", rest)]
    for doc, heading in re.findall(r'([A-Z][A-Z-]+), "([^"]+)"', right):
        source = root / "docs" / f"{doc}.md"
        names += 1
        if not source.exists() or heading not in source.read_text():
            faults.append(f"no such paragraph: {doc}, {heading}")

for fault in faults:
    print(fault)
print(f"{len(rights)} rows, {names} names, {len(faults)} faults")
sys.exit(1 if faults else 0)
