#!/usr/bin/env python3
"""What crates/irrigation must print, worked out from the rules in docs/MODEL.md and not from the program.

    tools/irrigation.py > crates/irrigation/stdout
"""
N = 1 << 20
STORM = [0.01, 0, 0, 0, 0.11, 0.05, 0.02, 0.21, 0.16, 0.23, 0.22, 0.11,
         0.15, 0.05, 0.01, 0.01, 0.01, 0.01, 0.01, 0.01, 0.01, 0.07, 0.05, 0.09]
DEMAND = 4908  # 0.124 inches a day in early October, times 0.95, over 24 hours
AREAS = [166, 120]
RATES = [22082, 104858]
CHANNEL = 157286

plots = [0, 0]  # depths held, in microinches
pocket = channel = 0
book = dict(opening=0, rain=0, streamflow=0, evaporated=0, deep=0, drawn=0, poured=0)
both = dict(book)


def enter(name, amount):
    book[name] += amount
    both[name] += amount


def held():
    return sum(a * c for a, c in zip(AREAS, plots)) + pocket + channel


def rain(plot, depth):
    global pocket
    print(f"rain of {depth} microinches on plot {plot}")
    if plot >= len(plots):
        print(f"  refused by rule 14, found in layer 4, at {plot}")
        return
    full = plots[plot] + depth
    evaporated = min(DEMAND, full)
    released = RATES[plot] * (full - evaporated) // N
    plots[plot] = full - evaporated - released
    area = AREAS[plot]
    print(f"  ran off {released * area}, evaporated {evaporated * area}, lost deep 0")
    pocket += released * area
    enter("rain", depth * area)
    enter("evaporated", evaporated * area)


def turn():
    global pocket, channel
    full = channel + pocket
    flow = CHANNEL * full // N
    channel, pocket = full - flow, 0
    print(f"turn: {flow} flowed out, 0 went deep")
    enter("streamflow", flow)


def day(depths):
    for depth in depths:
        rain(0, depth)
        rain(1, depth)
        turn()


def draw(amount):
    global channel
    print(f"the pump asks for {amount}")
    if amount > channel:
        print("  refused by rule 20, found in layer 3, at 0")
        return False
    channel -= amount
    enter("drawn", amount)
    return True


def closing():
    print("closing            book       tally")
    water = held()
    for name in ["opening", "rain", "streamflow", "evaporated", "deep", "drawn", "poured"]:
        print(f"  {name:<11}{book[name]:>12}{book[name]:>12}")
    came = book["opening"] + book["rain"] + book["poured"]
    went = book["streamflow"] + book["evaporated"] + book["deep"] + book["drawn"]
    assert came - went == water, "the book does not close"
    print(f"  {'held':<11}{water:>12}{came - went:>12}")
    for name in book:
        book[name] = 0
    book["opening"] = water


day([round(x * 1_000_000) for x in STORM])
if draw(2_500_000):
    print("  2500000 booked out to the fields")
if draw(1_000_000):
    pocket += 1_000_000
    enter("poured", 1_000_000)
    print("  1000000 poured back")
draw(1_000_000_000_000)
rain(2, 10_000)
closing()
day([0] * 24)
print(f"asked: {held()} still held")
closing()
print(f"both days: rain {both['rain']}, poured {both['poured']}")
print(f"  streamflow {both['streamflow']}, evaporated {both['evaporated']}, deep {both['deep']}, drawn {both['drawn']}")
