#!/usr/bin/env python3
"""Plants bugs, one at a time, to see whether the check notices.

    tools/plant.py [WORD ...]     after 'rt all check'; only the bugs whose name holds a WORD, where any is given

tools/planted.txt has the bugs: edits of one line of src/, of which each turns the meaning of the code. An edit is made in a
copy of the repository and its crate is checked; where it still proves, every crate is checked. A bug is refused where a fact
no longer holds, and its line says at which line of the code or of a proof. One that survives shows a contract that is too
weak, unless planted.txt says in a sentence why the edit means the same program.
"""
import re
import shutil
import subprocess
import sys
import tempfile
from concurrent.futures import ThreadPoolExecutor
from pathlib import Path
from queue import Queue

ROOT = Path(__file__).resolve().parent.parent
WORKERS = 2


class Bug:
    def __init__(self, crate, file, name):
        self.crate, self.file, self.name = crate, file, name
        self.old = self.new = self.same = ""


def bugs():
    out = []
    for line in (ROOT / "tools" / "planted.txt").read_text().split("\n"):
        if line.startswith("- "):
            out[-1].old = line[2:]
        elif line.startswith("+ "):
            out[-1].new = line[2:]
        elif line.startswith("= "):
            out[-1].same = line[2:]
        elif line and not line.startswith("#"):
            out.append(Bug(*line.split()))
    return out


def edited(text, bug):
    assert text.count(bug.old) == 1, f"{bug.crate}/{bug.name}: its old text stands {text.count(bug.old)} times in {bug.file}"
    return text.replace(bug.old, bug.new)


def first_error(log, crate):
    """Where the first error stands, and its first words."""
    found = re.search(r"^(\S+): error(?:\[[^\]]*\])?:? ?(.*)$", log, re.M) or re.search(r"^note: (\S+:\d+:\d+): ?(.*)$", log, re.M)
    if not found:
        return "nowhere"
    return re.sub(rf"^.*/crates/{crate}/", "", found[1])


def try_bug(bug, folder):
    """One of: refused (where), refused above (by which crate), same, SURVIVED, BAD EDIT."""
    path = folder / "crates" / bug.crate / bug.file
    text = path.read_text()
    path.write_text(edited(text, bug))
    try:
        own = subprocess.run(["rt", "check"], cwd=folder / "crates" / bug.crate, stdout=subprocess.PIPE, stderr=subprocess.STDOUT, text=True)
        (folder / "logs" / f"{bug.crate}.{bug.name}").write_text(own.stdout)
        if own.returncode == 1 and "\nlogic=not-proved" in own.stdout:
            return "refused", first_error(own.stdout, bug.crate)
        if own.returncode != 0:
            return "BAD EDIT", own.stdout[-300:]
        above = subprocess.run(["rt", "all", "check"], cwd=folder, stdout=subprocess.PIPE, stderr=subprocess.STDOUT, text=True)
        (folder / "logs" / f"{bug.crate}.{bug.name}.above").write_text(above.stdout)
        if above.returncode != 0:
            failed = re.findall(r"^fn (\w+)::\S+: not proved", above.stdout, re.M)
            return "refused above", f"in {failed[0]}" if failed else "somewhere"
        return ("same", bug.same) if bug.same else ("SURVIVED", "")
    finally:
        path.write_text(text)


def main():
    chosen = [b for b in bugs() if not sys.argv[1:] or any(word in f"{b.crate}/{b.name}" for word in sys.argv[1:])]
    for bug in chosen:
        edited((ROOT / "crates" / bug.crate / bug.file).read_text(), bug)
    counts, folders = {}, Queue()
    with tempfile.TemporaryDirectory() as place:
        for worker in range(WORKERS):
            folder = Path(place, str(worker))
            (folder / "logs").mkdir(parents=True)
            shutil.copy(ROOT / "crates.txt", folder)
            shutil.copytree(ROOT / "crates", folder / "crates")
            folders.put(folder)

        def one(bug):
            folder = folders.get()
            try:
                return bug, try_bug(bug, folder)
            finally:
                folders.put(folder)

        with ThreadPoolExecutor(WORKERS) as pool:
            for bug, (verdict, said) in pool.map(one, chosen):
                print(f"{bug.crate}/{bug.name}: {verdict} {said}".rstrip(), flush=True)
                counts.setdefault(bug.crate, {}).setdefault(verdict, 0)
                counts[bug.crate][verdict] += 1
        kept = Path(tempfile.gettempdir(), "planted")
        shutil.rmtree(kept, ignore_errors=True)
        kept.mkdir(parents=True)
        for worker in range(WORKERS):
            for log in Path(place, str(worker), "logs").iterdir():
                shutil.copy(log, kept)
    for crate, verdicts in counts.items():
        print(f"  {crate}: " + ", ".join(f"{n} {verdict}" for verdict, n in verdicts.items()))
    total = {}
    for verdicts in counts.values():
        for verdict, n in verdicts.items():
            total[verdict] = total.get(verdict, 0) + n
    print(f"{len(chosen)} planted: " + ", ".join(f"{n} {verdict}" for verdict, n in total.items()) + f"; the logs are in {kept}")
    sys.exit(1 if "SURVIVED" in total or "BAD EDIT" in total else 0)


if __name__ == "__main__":
    main()
