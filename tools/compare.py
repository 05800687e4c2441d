#!/usr/bin/env python3
"""Holds the programs against the second engine, which was written from docs/ alone, and counts what was met.

    tools/compare.py [CASES [SCRIPTS [SEED]]]      after 'rt run' in crates/waterbook; 300, 0 and 1 where no number is given

A case is a card and a feed for waterbook; a script is one for a program `calls`, which is not written yet. Both are generated
(tools/engine/cases.rs, scripts.rs), and the second engine (engine.rs, script.rs) says what has to be printed. rustc builds it.
"""
import subprocess
import sys
import tempfile
from collections import Counter
from concurrent.futures import ThreadPoolExecutor
from pathlib import Path

ROOT = Path(__file__).resolve().parent.parent
AT_ONCE = 400  # cases that stand on the disk together


def build(folder, name):
    subprocess.run(["rustc", "-O", "-o", str(folder / name), str(ROOT / "tools" / "engine" / f"{name}.rs")], check=True)
    return str(folder / name)


def printed(program, folder, feed):
    ended = subprocess.run([program], cwd=folder, input=feed, stdout=subprocess.PIPE, stderr=subprocess.PIPE)
    return ended.stdout if ended.returncode == 0 and not ended.stderr else b"status %d, %s" % (ended.returncode, ended.stderr)


class Comparison:
    """Two programs, case by case."""

    def __init__(self, what, first, second):
        self.what, self.first, self.second = what, first, second
        self.cases, self.differing, self.lines, self.refusals = 0, [], 0, Counter()

    def case(self, name, folder, feed):
        first, second = printed(self.first, folder, feed), printed(self.second, folder, feed)
        return name, first == second, first

    def count(self, name, same, text):
        self.cases += 1
        self.lines += text.count(b"\n")
        self.refusals.update(int(line.split()[1]) for line in text.split(b"\n") if line.startswith(b"X "))
        if not same:
            self.differing.append(name)

    def run(self, generator, count, seed, folder, inputs):
        """Cases of one seed after the other, AT_ONCE of each."""
        made = 0
        while made < count:
            batch = min(AT_ONCE, count - made)
            with tempfile.TemporaryDirectory(dir=folder) as place, ThreadPoolExecutor(2) as pool:
                subprocess.run([generator, str(seed), str(batch), place], check=True)
                for result in pool.map(lambda item: self.case(f"seed {seed}, {item[0]}", *item[1:]), inputs(Path(place))):
                    self.count(*result)
            made, seed = made + batch, seed + 1

    def tell(self):
        print(f"{self.cases} {self.what}, {self.lines} lines, {len(self.differing)} differ")
        print("  refusals met: " + ", ".join(f"{number} ({times})" for number, times in sorted(self.refusals.items())))
        for name in self.differing[:20]:
            print(f"  {name} differs")


def cards_and_feeds(place):
    for case in sorted(place.iterdir()):
        yield case.name, case, (case / "feed.bin").read_bytes()


def scripts(place):
    for script in sorted(place.iterdir()):
        yield script.name, place, script.read_bytes()


def main():
    cases, calls, seed = (int(n) for n in (sys.argv[1:] + ["300", "0", "1"][len(sys.argv) - 1:]))
    with tempfile.TemporaryDirectory() as place:
        folder = Path(place)
        engine, script = build(folder, "engine"), build(folder, "script")
        for program in (engine, script):
            subprocess.run([program, "--selftest"], check=True, stdout=subprocess.DEVNULL)
        first = Comparison("cards and feeds", str(ROOT / "crates" / "waterbook" / "out" / "waterbook"), engine)
        first.run(build(folder, "cases"), cases, seed, folder, cards_and_feeds)
        second = Comparison("scripts of calls", str(ROOT / "crates" / "calls" / "out" / "calls"), script)
        if calls > 0:
            second.run(build(folder, "scripts"), calls, seed, folder, scripts)
    first.tell()
    if calls > 0:
        second.tell()
    met = set(first.refusals) | set(second.refusals)
    print(f"{first.cases + second.cases} cases, {first.lines + second.lines} lines, {len(first.differing) + len(second.differing)} differ; {len(met)} of 22 refusals met")
    sys.exit(1 if first.differing or second.differing else 0)


if __name__ == "__main__":
    main()
