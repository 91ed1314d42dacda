#!/usr/bin/env python3
"""Plants bugs in a copy of the repository, one at a time, and says whether the prover refuses each.

    python3 tools/plant.py            all crates that have a folder under tools/planted/
    python3 tools/plant.py take skip  these

The bugs are edits in the form of the must-fail edits: a file, a text that stands once in it, and another text.
"""

import pathlib
import re
import shutil
import subprocess
import sys
import tempfile

TOP = pathlib.Path(__file__).resolve().parent.parent
PLANTED = TOP / "tools" / "planted"


def copy_repository(to):
    files = subprocess.run(
        ["git", "ls-files", "-co", "--exclude-standard"], cwd=TOP, check=True, capture_output=True, text=True
    ).stdout.split("\n")
    for name in files:
        if name and (TOP / name).is_file():
            (to / name).parent.mkdir(parents=True, exist_ok=True)
            shutil.copyfile(TOP / name, to / name)


def plant(copy, crate):
    """Tries the crate's planted bugs, and gives the outcome of each with the prover's first words."""
    for edits in (copy / "crates").glob("*/must-fail"):
        shutil.rmtree(edits)
    edits = copy / "crates" / crate / "must-fail"
    edits.mkdir()
    for bug in sorted((PLANTED / crate).glob("*.edit")):
        shutil.copyfile(bug, edits / bug.name)
    folder = copy / "crates" / crate
    subprocess.run(["rt", "check"], cwd=folder, capture_output=True)
    run = subprocess.run(["rt", "must-fail"], cwd=folder, capture_output=True, text=True)
    said = run.stdout + run.stderr
    for bug in sorted((PLANTED / crate).glob("*.edit")):
        line = re.search(rf"must-fail {crate}/{re.escape(bug.name)}: (.*)", said)
        words = line.group(1) if line else "no answer"
        if "only because a proof file names" in words:
            outcome = "TELLS NOTHING"
        elif words.startswith("refused, as it must be"):
            outcome = "refused"
        else:
            outcome = "SURVIVED OR BAD"
        yield bug.stem, outcome, words


def main():
    crates = sys.argv[1:] or sorted(folder.name for folder in PLANTED.iterdir() if folder.is_dir())
    wrong = 0
    with tempfile.TemporaryDirectory() as scratch:
        copy = pathlib.Path(scratch)
        copy_repository(copy)
        for crate in crates:
            for name, outcome, words in plant(copy, crate):
                wrong += outcome != "refused"
                goal = re.search(r"\((`[^`]*`)\)|error: (`[^`]*`)", words)
                print(f"{crate}/{name}: {outcome} {goal.group(1) or goal.group(2) if goal else words[:200]}", flush=True)
    print(f"{wrong} not refused")
    return 1 if wrong else 0


if __name__ == "__main__":
    sys.exit(main())
