#!/usr/bin/env python3
"""check_formats.py: says whether each example of docs/FORMATS.md stands in a stored run or an example.

An example is a line of a block ```json. It must be equal, as a document, to a line of a stored run
(crates/*/stdin, crates/*/stdout) or of examples/, to a part of one, or to a text in one that is JSON.
Prints `ok` with their number, or each line that was not found, and then exits with 1.
"""
import glob
import json
import os
import sys

TOP = os.path.dirname(os.path.dirname(os.path.abspath(__file__)))


def examples():
    inside = False
    with open(os.path.join(TOP, "docs", "FORMATS.md"), encoding="utf-8") as page:
        for number, line in enumerate(page, 1):
            if line.startswith("```"):
                inside = line.strip() == "```json"
            elif inside:
                yield number, line


def parts(value):
    """The text of a document, of all its parts, and of the documents that stand in it as texts."""
    yield json.dumps(value, sort_keys=True)
    if isinstance(value, dict):
        for part in value.values():
            yield from parts(part)
    elif isinstance(value, list):
        for part in value:
            yield from parts(part)
    elif isinstance(value, str) and value[:1] == "{":
        try:
            yield json.dumps(json.loads(value), sort_keys=True)
        except ValueError:
            pass


def document_text(line):
    """One text for all lines that are of one document; a line that is of none is its own."""
    try:
        return json.dumps(json.loads(line), sort_keys=True)
    except ValueError:
        return line


def stored():
    """The text of each document of the stored runs and examples, and of their parts."""
    names = glob.glob(os.path.join(TOP, "crates", "*", "std[io]*"))
    for name in names + glob.glob(os.path.join(TOP, "examples", "*.jsonl")) + glob.glob(os.path.join(TOP, "examples", "*.answers")):
        with open(name, encoding="utf-8", errors="replace") as lines:
            for line in lines:
                try:
                    yield from parts(json.loads(line))
                except ValueError:
                    pass


def missing(lines):
    """Of lines, each with its page and number, the page and number of those that no stored run has."""
    wanted = {}
    for page, number, line in lines:
        wanted.setdefault(document_text(line), (page, number))
    for text in stored():
        wanted.pop(text, None)
    return sorted(wanted.values())


def main():
    lines = [("docs/FORMATS.md", number, line) for number, line in examples()]
    found = missing(lines)
    for page, number in found:
        print(f"{page}:{number}: in no stored run")
    if not lines or found:
        sys.exit(1)
    print(f"ok: {len(lines)} examples")


if __name__ == "__main__":
    main()
