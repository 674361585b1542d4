#!/usr/bin/env python3
"""Runs the commands that a page shows, and writes what they print into it.

    python3 tools/transcripts.py            writes the outputs anew
    python3 tools/transcripts.py --check    only says whether they are as written

The pages are docs/guide.md and those of crates/yatesorrel/cases. A block that
begins with a line `$ yatesorrel ..` is such a command (in a case also `$ grep
..`); it is run in a copy of examples/, so that files which a command writes are
there for the next ones. A line `...` in a block stands for lines that are left
out: what is above it and what is below it are kept in number. In a case the last
line is the status, and blocks `bytes NAME` and `file NAME` are written there as
files before anything is run; of a line of bytes `x N` at its end makes N of them.
It needs crates/yatesorrel/out/yatesorrel, which `rt run` in crates/yatesorrel
builds.
"""
import re
import shlex
import shutil
import subprocess
import sys
import tempfile
from pathlib import Path

TOP = Path(__file__).resolve().parent.parent
GUIDE = TOP / "docs" / "guide.md"
CASES = TOP / "crates" / "yatesorrel" / "cases"
PROGRAM = TOP / "crates" / "yatesorrel" / "out" / "yatesorrel"


def printed(command, folder, is_case):
    words = shlex.split(command)
    if words[0] == "yatesorrel":
        words[0] = str(PROGRAM)
    run = subprocess.run(words, cwd=folder, capture_output=True, text=True)
    status = [f"status {run.returncode}"] if is_case else []
    return (run.stdout + run.stderr).splitlines() + status


def shortened(lines, before):
    """The lines, cut where the block that stood there was cut."""
    if "..." not in before:
        return lines
    at = before.index("...")
    behind = len(before) - at - 1
    if len(lines) <= at + behind:
        return lines
    return lines[:at] + ["..."] + (lines[-behind:] if behind else [])


def bytes_of(lines):
    made = b""
    for line in lines:
        numbers, _, times = line.partition("x")
        made += bytes.fromhex(numbers) * int(times or "1")
    return made


def write_files(page, folder):
    for kind, name, text in re.findall(r"```(bytes|file) (\S+)\n(.*?)```", page, flags=re.S):
        file = folder / name
        file.parent.mkdir(exist_ok=True)
        file.write_bytes(bytes_of(text.splitlines()) if kind == "bytes" else text.encode())


def filled(page, folder, is_case):
    def block(found):
        lines = found.group(1).splitlines()
        if not lines or not re.match(r"\$ (yatesorrel|grep)\b", lines[0]):
            return found.group(0)
        output = shortened(printed(lines[0][2:], folder, is_case), lines[1:])
        return "```text\n" + "\n".join([lines[0]] + output) + "\n```"

    return re.sub(r"```text\n(.*?)\n```", block, page, flags=re.S)


def renewed(path):
    """What is written on a page, and what should be."""
    is_case = path != GUIDE
    with tempfile.TemporaryDirectory() as work:
        folder = Path(work) / "examples"
        shutil.copytree(TOP / "examples", folder)
        before = path.read_text()
        if is_case:
            write_files(before, folder)
        return before, filled(before, folder, is_case)


def main():
    status = 0
    for path in [GUIDE] + sorted(CASES.glob("*.md")):
        before, after = renewed(path)
        if "--check" not in sys.argv[1:]:
            path.write_text(after)
        elif before != after:
            print(f"{path.relative_to(TOP)} does not show what the program prints", file=sys.stderr)
            status = 1
    return status


if __name__ == "__main__":
    sys.exit(main())
