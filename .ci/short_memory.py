#!/usr/bin/env python3
"""Makes each allocation of crates/short_memory fail in turn, and checks what became of its dialogues.

The program makes as many allocations first as its input says. The same allocation fails in each run, and the input counts
down from it, so that it is each of a dialogue's in one of the runs.
"""
import collections
import pathlib
import re
import subprocess
import sys
import tempfile

CRATE = pathlib.Path(__file__).resolve().parent.parent / "crates" / "short_memory"

# More than the program makes by itself.
FAILS = 500

GONE = "memory was short, and the call was gone"
ALLOWED = {"as written", "memory was short", "memory was short, and the call stayed parked", GONE}


def outcomes(folder):
    """What each run printed, by how many allocations it made first."""
    for before in range(FAILS + 1):
        (folder / f"{before}").write_text(f"{before}\n", encoding="ascii")
    words = ["rt", "try", "--fail-alloc", f"{FAILS}", "--steps", "1", "--cases", f"{folder}"]
    ran = subprocess.run(words, cwd=CRATE, capture_output=True, text=True, check=False)
    if ran.returncode != 0:
        sys.exit(f"short_memory: rt try ended with status {ran.returncode}\n{ran.stderr[-2000:]}")
    printed = re.findall(r"^== (\d+)\n(.*)$", ran.stdout + ran.stderr, re.MULTILINE)
    return {int(before): line for before, line in printed}


def main():
    with tempfile.TemporaryDirectory() as folder:
        seen = outcomes(pathlib.Path(folder))
    counts = collections.Counter(seen.values())
    for line, count in sorted(counts.items()):
        print(f"short_memory: {count} runs: {line}")
    if len(seen) != FAILS + 1 or not counts.keys() <= ALLOWED:
        sys.exit("short_memory: a run has no outcome, or a wrong one")
    if seen[0] != "as written":
        sys.exit(f"short_memory: the program makes {FAILS} allocations or more")
    if counts[GONE] == 0:
        sys.exit("short_memory: no run found memory short as a call ended")


if __name__ == "__main__":
    main()
