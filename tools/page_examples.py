#!/usr/bin/env python3
"""page_examples.py PAGE FOLDER: writes the call scripts that a page shows, and what it says that they print, as 1.calls, 1.out, and so on."""
import pathlib
import sys


def blocks(text):
    """The indented blocks of a page, without their indentation; a blank line between two indented ones belongs to them."""
    block = []
    for line in text.splitlines() + ["end"]:
        if line.startswith("    ") or (block and not line.strip()):
            block.append(line[4:])
        elif block:
            yield "\n".join(block).rstrip() + "\n"
            block = []


def is_script(block):
    return any(line.startswith("bed ") for line in block.splitlines())


def is_printed(block):
    return any(line.startswith("= ") for line in block.splitlines())


def main(page, folder):
    script, number = None, 0
    for block in blocks(pathlib.Path(page).read_text(encoding="utf-8")):
        if is_script(block):
            script = block
        elif script and is_printed(block):
            number += 1
            pathlib.Path(folder, f"{number}.calls").write_text(script, encoding="utf-8")
            pathlib.Path(folder, f"{number}.out").write_text(block, encoding="utf-8")
            script = None
    if not number or script:
        sys.exit(f"{page}: no script with what it prints, or a script without")


main(*sys.argv[1:])
