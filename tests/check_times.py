"""Writes the tables of docs/CHECKING.md from what the gate printed.

    bash .ci/run 2>&1 | tee gate.log
    python3 tests/check_times.py gate.log      prints seconds by crate and by must-fail edit, as two tables

It reads what the gate printed under the older kit (docs/CHECKING.md): today's kit prints no seconds.
"""
import re
import sys


def table(head, rows):
    print("| %s | seconds |\n|---|---|" % head)
    for name, seconds in rows:
        print("| %s | %d |" % (name, seconds))
    print("| **all** | **%d** |\n" % sum(seconds for _, seconds in rows))


def main(path):
    with open(path, encoding="utf-8") as file:
        text = file.read()
    crates = [(name, int(s)) for name, s in re.findall(r"^rt: (\w+) proved \((\d+) s\)", text, re.M)]
    edits = [(name, int(s)) for name, s in re.findall(r"^rt: must-fail (\S+): refused, .*?(\d+) s\)$", text, re.M)]
    table("crate", [("`%s`" % name, s) for name, s in crates])
    table("edit", [("`%s`" % name, s) for name, s in edits])


if __name__ == "__main__":
    if len(sys.argv) != 2:
        sys.exit(__doc__)
    main(sys.argv[1])
