#!/usr/bin/env python3
"""Packs generated cases, with the lines that the second engine gives for them, into crates/cases/data/cases.dat.

    tools/engine/pack.py ENGINE CASES

ENGINE and CASES are the built programs engine.rs and cases.rs. Of the cases of two seeds those with short feeds are
taken, and one that fills a book. A packed case is three lengths (four bytes each, the least first), then the card, the
feed and the lines.
"""
import struct
import subprocess
import sys
import tempfile
from pathlib import Path

engine, cases = (str(Path(p).resolve()) for p in sys.argv[1:3])
out = Path(__file__).resolve().parents[2] / "crates" / "cases" / "data" / "cases.dat"
packed, taken, long_taken = b"", 0, False
with tempfile.TemporaryDirectory() as folder:
    for seed in ("11", "12"):
        subprocess.run([cases, seed, "300", f"{folder}/{seed}"], check=True)
        for case in sorted(Path(folder, seed).iterdir()):
            feed = (case / "feed.bin").read_bytes()
            card = (case / "card.dat").read_bytes() if (case / "card.dat").exists() else b""
            lines = subprocess.run([engine], cwd=case, input=feed, stdout=subprocess.PIPE, check=True).stdout
            fills_a_book = not long_taken and b"\nX 19 5 0\n" in lines
            if len(feed) > 2400 and not fills_a_book:
                continue
            long_taken = long_taken or fills_a_book
            packed += struct.pack("<III", len(card), len(feed), len(lines)) + card + feed + lines
            taken += 1
out.write_bytes(packed)
print(f"{taken} cases, {len(packed)} bytes")
