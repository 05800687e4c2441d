#!/usr/bin/env python3
"""Makes the card and the feed that crates/waterbook is run on.

The card is after the Napa River at St. Helena, as one plot of 166 acres. The feed is January and February 1960, hour by
hour: the months' rain as it was measured there, 6.79 and 11.61 inches, in storms of the shape that a recorder caught on
4 October 1949, and the potential evapotranspiration of each half month. A month ends with a closing.

    tools/example.py          writes crates/waterbook/data/card.dat and crates/waterbook/stdin
"""
import struct
from pathlib import Path

FIGURES = [("AREA", 166), ("IMPV", 31457), ("CEPSC", 150000), ("UZSN", 800000), ("LZSN", 13500000), ("INFILT", 18750),
           ("INTFW", 150), ("LZETP", 112347), ("DEEPFR", 0), ("AGWETP", 0), ("OVK", 100000), ("IFWK", 22082),
           ("GWK", 1106), ("CHK", 157286)]
STORM = [1, 0, 0, 0, 11, 5, 2, 21, 16, 23, 22, 11, 15, 5, 1, 1, 1, 1, 1, 1, 1, 7, 5, 9]  # hundredths of an inch
# days, rain in microinches, days on which it storms, and inches a day that the air takes up in each half
MONTHS = [(31, 6_790_000, [4, 9, 11, 18, 23, 26], (0.032, 0.026)),
          (29, 11_610_000, [1, 5, 7, 8, 12, 17, 24, 28], (0.035, 0.032))]


def spread(total, weights):
    """A total over weights, by cumulative quotients, so that it adds up exactly."""
    out, done, so_far = [], 0, 0
    for w in weights:
        so_far += w
        out.append(total * so_far // sum(weights) - done)
        done += out[-1]
    return out


def rain(depth, demand):
    return b"R" + bytes(3) + struct.pack("<II", depth, demand) + bytes(4)


def bare(letter):
    return letter + bytes(15)


root = Path(__file__).resolve().parent.parent / "crates" / "waterbook"
card = b"".join(name.ljust(8).encode() + str(figure).rjust(12).encode() for name, figure in FIGURES)
feed = b""
for days, total, storms, halves in MONTHS:
    storm_rain = iter(spread(total, [1] * len(storms)))
    for day in range(1, days + 1):
        depths = spread(next(storm_rain), STORM) if day in storms else [0] * 24
        demand = round(halves[0 if day <= 15 else 1] * 0.95 / 24 * 1_000_000)
        for depth in depths:
            feed += rain(depth, demand) + bare(b"T")
    feed += bare(b"C")
(root / "data").mkdir(exist_ok=True)
(root / "data" / "card.dat").write_bytes(card)
(root / "stdin").write_bytes(feed)
