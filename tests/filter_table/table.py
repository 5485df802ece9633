#!/usr/bin/env python3
"""200 steps of the arrival filter and the overuse detector, by exact integers from the rules: two runs of 100,
each with a new filter and a new detector. In run 0 the detector is given the filter's means, in run 1 a walk
that leaps.

It shares nothing with the crates. Its output is kept beside it as table.txt, and the same rows stand in the
tests of `arrival_filter` and `overuse`. Run it as

    table.py            the table: one line a step, the columns named in its first line
    table.py filter     the rows of the test of `arrival_filter`
    table.py detector   the rows of the test of `overuse`
"""
import sys
from math import isqrt

Q16, Q30 = 65536, 1 << 30


def power(factor, n):
    """factor^n in Q30 by halving, each product rounded down."""
    if n == 0:
        return Q30
    if n % 2 == 1:
        return power(factor, n - 1) * factor // Q30
    half = power(factor, n // 2)
    return half * half // Q30


def cut(z, low, high):
    return max(low, min(high, z))


class Filter:
    def __init__(self):
        self.m, self.e, self.var, self.kept = 0, 6553, 65536, []

    def step(self, d, send_gap):
        self.kept = (self.kept + [min(10000, send_gap // 1000)])[-5:]
        alpha = power(1073418129, min(self.kept))
        b = 3 * isqrt(65536 * self.var)
        c = cut(d - self.m, -b, b)
        self.var = max(65536, (alpha * self.var + (Q30 - alpha) * (c * c // Q16)) // Q30)
        noisy = self.e + 65
        k = Q16 * noisy // (self.var + noisy)
        self.m += c * k // Q16
        self.e = (Q16 - k) * noisy // Q16


class Detector:
    def __init__(self):
        self.th, self.time, self.before = 819200, 0, 0

    def step(self, m, send_gap, arrival_gap):
        self.time = self.time + send_gap if m > self.th else 0
        signal = "Normal"
        if m > self.th and self.time >= 10000 and m >= self.before:
            signal, self.time = "Over", 0
        elif m < -self.th:
            signal = "Under"
        self.before = m
        if abs(m) - self.th <= 983040:
            dt = cut(arrival_gap, 0, 400)
            k = 18 if abs(m) < self.th else 1000
            self.th = cut(self.th + dt * k * (abs(m) - self.th) // 400000, 393216, 39321600)
        return signal


def words(seed):
    """Whole numbers below 2^32 of a linear congruence."""
    while True:
        seed = (seed * 1664525 + 1013904223) % (1 << 32)
        yield seed


def gaps(run, noise):
    """The gaps of 100 samples: quiet, a queue that builds up (run 0) or drains (run 1), and gaps at the edges."""
    for n in range(100):
        w = next(noise) >> 8
        if n < 5:
            yield 15000 + w % 10000, 60 + w % 41
        elif n < 88 and run == 0:
            yield 4500 + w % 1500, 420 + w % 300
        elif n < 88:
            yield (w % 900, 0) if n % 5 == 0 else (30000 + w % 9000, 20 + w % 30)
        else:
            yield [(w % 1000, w % 7), (11000000 + w, 60000 + w % 8), (w % 90000, -100000), (20000, 80)][n % 4]


def given_means(noise):
    """What the detector of run 1 is given: a walk that rises, falls and leaps."""
    m = 0
    for n in range(100):
        w = next(noise) >> 8
        m += w % 400001 - (120000 if n < 25 else 260000)
        yield m if n % 9 else 4 * m


def rows():
    for run in range(2):
        noise = words(7 + run)
        filtered, detector, given = Filter(), Detector(), given_means(words(9))
        for send_gap, arrival_gap in gaps(run, noise):
            d = cut(16384 * arrival_gap - 65536 * send_gap // 1000, -655360000, 655360000)
            filtered.step(d, send_gap)
            m = filtered.m if run == 0 else next(given)
            signal = detector.step(m, send_gap, arrival_gap)
            yield d, send_gap, arrival_gap, filtered.m, filtered.var, filtered.e, m, signal, detector.th


def main(part):
    if part == "filter":
        for d, send_gap, _, mean, var, e, _, _, _ in rows():
            print(f"    ({d}, {send_gap}, {mean}, {var}, {e}),")
    elif part == "detector":
        for _, send_gap, arrival_gap, _, _, _, m, signal, th in rows():
            print(f"    ({m}, {send_gap}, {arrival_gap}, {signal}, {th}),")
    else:
        print("d send_gap arrival_gap mean variance error m signal threshold")
        for row in rows():
            print(*row)


main(*(sys.argv[1:] or [""]))
