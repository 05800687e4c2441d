#!/usr/bin/env python3
"""Gives waterbook bad input, much of it, and says how much was tried.

    tools/bad_input.py [SEED [ROUNDS]]      after 'rt run' in crates/waterbook; 400 rounds of random input where no number is given

Whatever it is given, waterbook either prints the lines that the second engine (tools/engine, built here by rustc) prints,
and ends with status 0, or it says on standard error why it could not read or write, and ends with another status. It is
never ended by a signal, and never takes longer than it should.
"""
import os
import random
import subprocess
import sys
import tempfile
from pathlib import Path

ROOT = Path(__file__).resolve().parent.parent
WATERBOOK = str(ROOT / "crates" / "waterbook" / "out" / "waterbook")
GOOD_CARD = (ROOT / "crates" / "waterbook" / "data" / "card.dat").read_bytes()
GOOD_FEED = (ROOT / "crates" / "waterbook" / "stdin").read_bytes()
SECONDS = 20

tried, failures = {}, []


def count(kind, good, said=""):
    tried[kind] = tried.get(kind, 0) + 1
    if not good:
        failures.append(f"{kind}: {said}")


def run(program, folder, feed):
    return subprocess.run([program], cwd=folder, input=feed, stdout=subprocess.PIPE, stderr=subprocess.PIPE, timeout=SECONDS)


def put_card(folder, card):
    (folder / "card.dat").unlink(missing_ok=True)
    if card is not None:
        (folder / "card.dat").write_bytes(card)


def same_lines(kind, folder, engine, card, feed):
    """Both engines, on the same card and feed."""
    put_card(folder, card)
    first, second = run(WATERBOOK, folder, feed), run(engine, folder, feed)
    good = first.returncode == 0 and first.stderr == b"" and first.stdout == second.stdout
    count(kind, good, f"status {first.returncode}, {first.stderr!r}, card {card!r}, feed {feed[:64]!r}")


def ends_with_an_error(kind, folder, how, shell):
    """A shell line in which waterbook cannot do its work: it must end with status 1 and a message."""
    ended = subprocess.run(["bash", "-c", shell], cwd=folder, stdout=subprocess.PIPE, stderr=subprocess.PIPE, timeout=SECONDS)
    said = ended.stdout.decode().strip().split("\n")[-1]
    good = said in how and ended.stderr != b""
    count(kind, good, f"{shell}: status {said}, {ended.stderr!r}")


def random_card(chance):
    kind = chance.randrange(6)
    if kind == 0:
        return bytes(chance.randrange(256) for _ in range(chance.choice([0, 1, 20, 279, 280, 281, 560])))
    if kind == 1:
        return GOOD_CARD[: chance.randrange(281)]
    card = bytearray(GOOD_CARD)
    if kind == 2:
        records = [card[at:at + 20] for at in range(0, 280, 20)]
        chance.shuffle(records)
        card = bytearray(b"".join(records))
    for _ in range(chance.choice([0, 1, 1, 2, 5])):
        card[chance.randrange(280)] = chance.choice([0, 9, 10, 13, 32, 32, 43, 45, 48, 57, 65, 127, 128, 255])
    return bytes(card) + chance.choice([b"", b"", b"", b"\n", b"\r\n"])


def random_feed(chance):
    kind = chance.randrange(5)
    size = chance.choice([0, 1, 15, 16, 17, 31, 160, 1_000, 16_384, 16_385, 40_000])
    if kind == 0:
        return chance.randbytes(size)
    if kind == 1:
        return bytes(chance.choice(b"RTC\0\n\xff") for _ in range(size))
    if kind == 2:
        return GOOD_FEED[: chance.randrange(len(GOOD_FEED))]
    feed = bytearray(GOOD_FEED[: 16 * chance.randrange(1, 500)])
    for _ in range(chance.randrange(1, 40)):
        feed[chance.randrange(len(feed))] = chance.choice([0, 1, 2, 10, 67, 82, 84, 255])
    return bytes(feed)


def known_cards(folder, engine):
    for card in [None, b"", b"\n" * 280, b"\0" * 280, b"\xff" * 280, b" " * 280, GOOD_CARD + b"\n", GOOD_CARD[:-1],
                 GOOD_CARD * 2, GOOD_CARD.lower(), GOOD_CARD.replace(b" ", b"\t"), GOOD_CARD[20:] + GOOD_CARD[20:40],
                 b"\xef\xbb\xbf" + GOOD_CARD[3:], b"AREA" * 70, GOOD_CARD * 100_000]:
        same_lines("cards that are none", folder, engine, card, GOOD_FEED)
    put_card(folder, None)
    for make in ["mkdir card.dat", "ln -s nowhere card.dat", "ln -s /dev/zero card.dat", "ln -s card.dat card.dat", "ln -s /dev/null card.dat"]:
        subprocess.run(["bash", "-c", make], cwd=folder, check=True)
        ended = run(WATERBOOK, folder, GOOD_FEED)
        count("cards that are no file", ended.returncode == 0 and ended.stdout == b"X 1 2 0\n", f"{make}: {ended}")
        subprocess.run(["bash", "-c", "rmdir card.dat 2>/dev/null || rm card.dat"], cwd=folder, check=True)


def known_feeds(folder, engine):
    for size in range(0, 40):
        same_lines("feeds cut short", folder, engine, GOOD_CARD, GOOD_FEED[:size])
    for feed in [b"R" * 100_000, b"\n" * 280, b"R\0\0\0" * 4_001, GOOD_FEED + b"C", b"".join(bytes([b]) * 16 for b in range(256))]:
        same_lines("feeds of one byte", folder, engine, GOOD_CARD, feed)


def streams(folder):
    """Input and output that fail; the last line of each shell line is the status of waterbook."""
    put_card(folder, GOOD_CARD)
    (folder / "feed").write_bytes(GOOD_FEED * 40)
    w = WATERBOOK
    ends_with_an_error("input that fails", folder, ["1"], f"{w} < . > /dev/null; echo $?")
    ends_with_an_error("input that fails", folder, ["1"], f"{w} <&- > /dev/null; echo $?")
    ends_with_an_error("output that fails", folder, ["1"], f"{w} < feed > /dev/full; echo $?")
    ends_with_an_error("output that fails", folder, ["1"], f"{w} < feed >&-; echo $?")
    ends_with_an_error("output that fails", folder, ["1"], f"ulimit -f 8; trap '' XFSZ; {w} < feed > small; echo $?")
    ends_with_an_error("output that fails", folder, ["1"], f"rm card.dat; {w} < feed > /dev/full; echo $?")
    put_card(folder, GOOD_CARD)
    ends_with_an_error("pipes that close", folder, ["1"], f"{w} < feed | head -n 1 > /dev/null; echo ${{PIPESTATUS[0]}}")
    ends_with_an_error("pipes that close", folder, ["1"], f"trap '' PIPE; {w} < feed | head -n 1 > /dev/null; echo ${{PIPESTATUS[0]}}")
    ends_with_an_error("endless feeds", folder, ["1"], f"cat /dev/zero | {w} | head -c 100000 > /dev/null; echo ${{PIPESTATUS[1]}}")
    ends_with_an_error("endless feeds", folder, ["1"], f"yes | tr -d '\\n' | {w} | head -c 100000 > /dev/null; echo ${{PIPESTATUS[2]}}")
    # neither a long feed nor a slow one needs more memory, and a slow one loses nothing
    ended = subprocess.run(["bash", "-c", f"ulimit -v 16384; head -c 80000000 /dev/zero | {w} | wc -l"], cwd=folder, stdout=subprocess.PIPE, timeout=SECONDS)
    count("long and slow feeds", ended.stdout == b"5000000\n", f"{ended}")
    slow = f"(head -c 7 feed; sleep 0.2; tail -c +8 feed | head -c 16380; sleep 0.2; tail -c +16388 feed) | {w} | cmp - <({w} < feed) && echo same"
    ended = subprocess.run(["bash", "-c", slow], cwd=folder, stdout=subprocess.PIPE, timeout=SECONDS)
    count("long and slow feeds", ended.stdout == b"same\n", f"{ended}")


def main():
    seed = int(sys.argv[1]) if len(sys.argv) > 1 else 1
    rounds = int(sys.argv[2]) if len(sys.argv) > 2 else 400
    chance = random.Random(seed)
    with tempfile.TemporaryDirectory() as place:
        folder, engine = Path(place, "run"), str(Path(place, "engine"))
        folder.mkdir()
        subprocess.run(["rustc", "-O", "-o", engine, str(ROOT / "tools" / "engine" / "engine.rs")], check=True)
        known_cards(folder, engine)
        known_feeds(folder, engine)
        streams(folder)
        for _ in range(rounds):
            same_lines("random cards", folder, engine, random_card(chance), GOOD_FEED[: 16 * chance.randrange(50)])
            same_lines("random feeds", folder, engine, GOOD_CARD, random_feed(chance))
    for kind, times in tried.items():
        print(f"{times:6} {kind}")
    for failure in failures:
        print(failure[:400])
    print(f"{sum(tried.values())} tried, {len(failures)} wrong")
    sys.exit(1 if failures else 0)


if __name__ == "__main__":
    os.environ["LC_ALL"] = "C"
    main()
