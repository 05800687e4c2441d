#!/usr/bin/env python3
"""What crates/channels must print, worked out from the rules in docs/ and from nothing of the Rattle code.

    tools/channels.py > crates/channels/stdout
"""

WHOLE = 1_048_576


class Recession:
    def __init__(self, rate, ceiling):
        self.rate, self.ceiling, self.content = rate, ceiling, 0

    def step(self, inflow, demand):
        full = self.content + inflow
        evaporated = min(demand, full)
        release = self.rate * (full - evaporated) // WHOLE
        self.content = full - evaporated - release
        return release, evaporated, 0

    def draw(self, amount):
        self.content -= amount


class Delay:
    def __init__(self, weights, ceiling):
        assert sum(weights) == WHOLE
        self.weights, self.ceiling, self.hours = weights, ceiling, [0] * 24

    @property
    def content(self):
        return sum(self.hours)

    def step(self, inflow, demand):
        for hour in range(len(self.weights)):
            upto = sum(self.weights[:hour])
            past = sum(self.weights[: hour + 1])
            self.hours[hour] += inflow * past // WHOLE - inflow * upto // WHOLE
        release = self.hours.pop(0)
        self.hours.append(0)
        return release, 0, 0

    def draw(self, amount):
        for hour in range(24):
            taken = min(amount, self.hours[hour])
            self.hours[hour] -= taken
            amount -= taken


class Chain:
    def __init__(self, above, below):
        self.above, self.below = above, below
        self.ceiling = min(above.ceiling, below.ceiling)

    @property
    def content(self):
        return self.above.content + self.below.content

    def step(self, inflow, demand):
        passed, evaporated, deep = self.above.step(inflow, demand)
        release, more, deeper = self.below.step(passed, demand - evaporated)
        return release, evaporated + more, deep + deeper

    def draw(self, amount):
        lower = min(amount, self.below.content)
        self.below.draw(lower)
        self.above.draw(amount - lower)


class Leak:
    def __init__(self, loss, below):
        self.loss, self.below, self.ceiling = loss, below, below.ceiling

    @property
    def content(self):
        return self.below.content

    def step(self, inflow, demand):
        lost = self.loss * inflow // WHOLE
        release, evaporated, deep = self.below.step(inflow - lost, demand)
        return release, evaporated, deep + lost

    def draw(self, amount):
        self.below.draw(amount)


def main():
    ceiling = 8 * 10**12
    weights = [104_858, 157_286, 262_144, 262_144, 157_286, 104_858]
    reaches = Chain(Recession(157_286, ceiling), Recession(524_288, ceiling))
    river = Leak(10_486, Chain(reaches, Delay(weights, ceiling)))
    acres = 166
    rain = "1 0 0 0 11 5 2 21 16 23 22 11 15 5 1 1 1 1 1 1 1 7 5 9"
    held = 0
    for hour, hundredths in enumerate(rain.split(), start=1):
        inflow = int(hundredths) * 10_000 * acres
        release, evaporated, deep = river.step(inflow, 0)
        drawn = min(20_000_000 if hour % 4 == 0 else 0, river.content)
        river.draw(drawn)
        held += inflow - release - evaporated - deep - drawn
        assert held == river.content
        line = f"hour {hour}: {inflow} flow in, {release} flow out, {deep} go deep"
        if drawn > 0:
            line += f", {drawn} are drawn"
        print(f"{line}, {held} are held")


main()
