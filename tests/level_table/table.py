#!/usr/bin/env python3
"""300 reports to the level control, by exact integers from its rules: two runs of 150, each with a new control.

It shares nothing with the crate: it keeps the whole lists (all delays, the reports of a window, the falls of a drain)
where the crate keeps running numbers. Its output is kept beside it as table.txt, and the same rows stand in the test
of `level_control`. Run it as

    table.py               the table: one line a report, the columns named in its first line
    table.py rows          the rows of the test of `level_control`
    table.py vectors DIR   the vectors of `gcc_live level`: NAME.reports is what it reads, NAME.rates what it must write
"""
import sys
from math import isqrt

NONE = None
SPELL, MILLE = 15_000_000, 1000


class Control:
    """The rules, on the lists of all that was given."""

    def __init__(self, start):
        self.r, self.capacity, self.drain, self.row = start, NONE, NONE, 0
        self.delays = []          # (moment, delay) of the reports that credited something
        self.first = 0            # from which of them on the base is their least
        self.tried, self.tolerated = NONE, 0
        self.window, self.since = [], NONE
        self.probed = NONE

    # -- losses

    def losses(self, x):
        if self.since is NONE:
            self.since = x["now"]
        if x["now"] < self.since:
            return False
        self.window.append((x["got"], x["lost"]))
        got, lost = (sum(column) for column in zip(*self.window))
        n = got + lost
        if x["now"] - self.since < 1_000_000 or n < 20:
            return False
        share, lossy = MILLE * lost // n, False
        if self.tried is not NONE:
            self.tolerated = share if 2 * share > self.tried else 0
            self.tried = NONE
        elif share > self.tolerated + 20:
            if self.drain is NONE and x["delay"] is not NONE:
                lossy, self.tried = True, share
        else:
            self.tolerated = min(self.tolerated, share)
        if not lossy and share > 100:
            self.r = self.r * (2 * n - lost) // (2 * n)
            self.capacity = self.r
        self.window, self.since = [], x["now"] + (x["rtt"] if lossy else 0)
        return lossy

    # -- level

    def base(self):
        return min(d for _, d in self.delays[self.first:])

    def floor(self, now):
        spell = now // SPELL
        return min(d for moment, d in self.delays if spell - moment // SPELL in (0, 1))

    def level(self, now):
        c = 0
        for (_, e), (_, d) in zip(self.delays, self.delays[1:]):
            c = c + min(400, abs(d - e)) - c // 16
        own = max(100, 4 * c // 16)
        if self.row < 2:
            return own
        # A base below the floor counts as a queue of none.
        return min(own + max(0, self.base() - self.floor(now)) // 2, max(own, 400))

    # -- cuts, growth, drains

    def cut(self, x, q):
        most = self.r if x["acked"] is NONE else x["acked"]
        least = min(self.r, most)
        before = self.r if self.drain is NONE else self.drain["before"]
        self.capacity = least if self.drain is NONE else min(self.capacity, most)
        self.r = max(50, 85 - q // 80) * least // 100
        self.drain = {"cut": len(self.delays) - 1, "until": x["now"] + x["rtt"], "before": before}

    def far(self):
        return self.capacity is NONE or 100 * self.r > 105 * self.capacity

    def increase(self, x, dt):
        r = self.r
        n = r + 8 * r * dt // 100_000_000 if self.far() else r + 60 * isqrt(r) * dt // 1_000_000
        self.r = n if x["acked"] is NONE else max(r, min(n, 150 * x["acked"] // 100))

    def falls(self):
        """The moment of the last fall of the drain: its end of blindness where there is none yet."""
        seen, until = self.delays[self.drain["cut"]:], self.drain["until"]
        mark = max([seen[0][1]] + [d for moment, d in seen[1:] if moment < until])
        fell = until
        for moment, d in seen[1:]:
            if moment >= until and d <= mark - 8:
                mark, fell = d, moment
        return fell

    def deepest(self, q_of):
        cut, until = self.drain["cut"], self.drain["until"]
        later = [q for (moment, _), q in zip(self.delays[cut + 1:], q_of[cut + 1:]) if moment < until]
        return max([q_of[cut]] + later)

    def drained(self, x, q, level):
        if x["acked"] is not NONE:
            self.capacity = max(self.capacity, min(x["acked"], self.drain["before"]))
        if x["now"] >= self.drain["until"] and q > self.deepest(self.heights) + level:
            self.cut(x, q)
            return True
        if x["now"] >= self.falls() + 200_000 + 96_000_000_000 // self.r:
            low, base = min(d for _, d in self.delays[self.drain["cut"]:]), self.base()
            if 100 * (low - base) > 25 * self.deepest(self.heights):
                self.row = min(2, self.row + 1)
                self.r = max(self.r, self.capacity)
            else:
                self.row = 0
                self.r = max(self.r, 92 * self.capacity // 100)
            self.first, self.drain = self.drain["cut"], NONE
        return False

    # -- a report

    heights = []

    def report(self, x, results, waits, low, high):
        lossy, cut, now = self.losses(x), False, x["now"]
        if x["delay"] is not NONE:
            dt = min(1_000_000, now - self.delays[-1][0]) if self.delays else 0
            self.delays.append((now, x["delay"]))
            q, level = x["delay"] - self.base(), self.level(now)
            self.heights = self.heights + [q]
            if self.drain is not NONE:
                cut = self.drained(x, q, level)
            elif q > level or lossy:
                cut = True
                self.cut(x, q)
            else:
                self.increase(x, dt)
        self.r = max(low, min(high, self.r))
        self.signal = "Over" if cut else "Normal" if self.drain is NONE else "Under"
        return self.r, self.signal, self.probe(now, results, waits, low, high)

    def probe(self, now, results, waits, low, high):
        rate = NONE
        self.probed = now if self.probed is NONE else self.probed
        if self.drain is NONE:
            for planned, result in results:
                self.r = max(low, min(high, max(self.r, result)))
                if 100 * result >= 70 * planned:
                    rate = 2 * result
        pause = 1_000_000 if self.capacity is NONE else 5_000_000
        if rate is NONE and self.far() and now >= self.probed + pause:
            rate = 2 * self.r
        if rate is NONE:
            return NONE
        rate = min(rate, high, 10**10)
        if self.drain is not NONE or waits or 10 * rate <= 11 * self.r:
            return NONE
        self.probed = now
        return rate

    def start(self, rate, low, high):
        self.r, self.capacity, self.drain, self.row = max(low, min(high, rate)), NONE, NONE, 0


def words(seed):
    """Whole numbers below 2^24 of a linear congruence."""
    while True:
        seed = (seed * 1664525 + 1013904223) % (1 << 32)
        yield seed >> 8


def rows():
    """A link of some rate with a queue: what is sent above it is delay. Others may hold a part of the queue."""
    for run, (start, link, low, high) in enumerate([(300_000, 1_500_000, 30_000, 10_000_000), (2_000_000, 700_000, 50_000, 1_500_000)]):
        noise, control = words(29 + run), Control(start)
        now, queue, offset, cluster = 5_000_000 * run, 0, -4000 + 9000 * run, NONE
        for n in range(150):
            w, v = next(noise), next(noise)
            dt = 50_000 + w % 60_000 + (1_900_000 if n % 40 == 39 else 0)
            now += dt
            # 0.25 ms of queue is link / 4000 bits
            queue = max(0, min(1200, queue + (control.r - link) * min(dt, 100_000) * 4 // (link * 1000)))
            others = 7 * (n - 30) if run == 1 and 30 <= n < 110 else 0
            route = (350 if n >= 110 else 0) + (320 if n >= 31 else 0) if run == 0 else 0
            packets = 4 + w % 40
            lost = packets // 12 if run == 0 and 52 <= n < 95 else packets // 4 if run == 1 and 118 <= n < 128 else 0
            x = {
                "delay": NONE if n % 23 == 22 else offset + queue + others + route + v % (40 if n % 7 else 90),
                "got": 0 if n % 23 == 22 else packets - lost,
                "lost": lost,
                "acked": NONE if n < 3 else min(control.r, link) * (95 + v % 8) // 100,
                "rtt": 40_000 + 250 * queue,
                "now": now,
            }
            results = [(cluster, min(cluster, link + w % 90_000))] if cluster and n % 2 else []
            waits = n % 11 == 5
            rate, signal, asked = control.report(x, results, waits, low, high)
            rate = control.r
            yield run, x, results, waits, rate, signal, asked
            if results:
                cluster = NONE
            cluster = asked if asked is not NONE else cluster


# start, link, least and greatest rate, seed, loss of every so many packets in some reports, others, jitter
LINKS = {
    "constant-300k": (300_000, 300_000, 30_000, 10_000_000, 1, 0, 0, 40),
    "constant-3m": (300_000, 3_000_000, 30_000, 10_000_000, 2, 0, 0, 20),
    "constant-50m": (1_000_000, 50_000_000, 100_000, 100_000_000, 3, 0, 0, 12),
    "greatest-rate": (9_000_000_000, 20_000_000_000, 1_000, 10_000_000_000, 4, 0, 0, 30),
    "least-rate": (2_000, 1_500, 1_000, 50_000, 5, 0, 0, 900),
    "loss-of-2-percent": (500_000, 2_000_000, 30_000, 10_000_000, 6, 50, 0, 40),
    "loss-of-10-percent": (500_000, 2_000_000, 30_000, 10_000_000, 7, 10, 0, 40),
    "loss-of-a-third": (800_000, 900_000, 30_000, 10_000_000, 8, 3, 0, 40),
    "queue-of-others": (1_000_000, 1_000_000, 30_000, 10_000_000, 9, 0, 11, 60),
    "jitter-of-60-ms": (700_000, 2_000_000, 30_000, 10_000_000, 10, 0, 0, 240),
    "few-reports": (700_000, 2_000_000, 30_000, 10_000_000, 11, 0, 0, 40),
}


def link_reports(name):
    """400 reports over a link that halves after a third and comes back after two, with probes of what is asked for."""
    start, link, low, high, seed, loss, others, jitter = LINKS[name]
    noise, control = words(seed), Control(start)
    now, queue, pending, whole = 10_000_000, 0, [], link
    for n in range(400):
        w, v = next(noise), next(noise)
        dt = 20_000 + w % (400_000 if name == "few-reports" else 80_000) + (6_000_000 if n % 97 == 96 else 0)
        now, link = now + dt, whole // 2 if 133 <= n < 266 else whole
        queue = max(0, min(2000, queue + (control.r - link) * min(dt, 100_000) * 4 // (link * 1000)))
        packets, none = 1 + w % 60, n % 19 == 18
        lost = (packets + v % loss) // loss if loss and n % 5 != 4 else 0
        held = others * (n % 150) if others and n >= 50 else 0
        x = {
            "delay": NONE if none else -70_000 + queue + held + v % jitter + 2 * n,
            "got": 0 if none else max(0, packets - lost),
            "lost": lost,
            "acked": NONE if n < 2 or n % 31 == 30 else min(10**10, min(control.r, link) * (93 + v % 10) // 100),
            "rtt": min(10_000_000, 30_000 + 250 * queue),
            "now": now,
        }
        results = [(rate, min(rate, link * (80 + w % 41) // 100)) for rate in pending] if n % 3 else []
        waits = n % 13 == 7
        asked = control.report(x, results, waits, low, high)[2]
        yield x, results, waits, control.r, control.signal, asked
        pending = ([] if results else pending) + ([asked] if asked is not NONE else [])
        # Clusters that somebody else planned have results too.
        pending += [min(10**10, control.r // 2 + w)] if n % 41 == 7 else []


def dashed(value):
    return "-" if value is NONE else str(value)


def write_vectors(folder):
    for name, (start, _, low, high, *_) in LINKS.items():
        with open(f"{folder}/{name}.reports", "w") as reports, open(f"{folder}/{name}.rates", "w") as rates:
            print("gcc-level 1", start, low, high, file=reports)
            for x, results, waits, rate, signal, asked in link_reports(name):
                fields = [x["now"], dashed(x["delay"]), x["got"], x["lost"], dashed(x["acked"]), x["rtt"], int(waits)]
                print(*fields, *[number for pair in results for number in pair], file=reports)
                print(rate, signal, dashed(asked), file=rates)


def option(value):
    return "None" if value is NONE else f"Some({value})"


def main(part):
    if part != "rows":
        print("run delay received missing acked rtt now planned result waits rate signal cluster")
    for run, x, results, waits, rate, signal, asked in rows():
        planned, result = results[0] if results else (0, 0)
        if part == "rows":
            print(f"    Row({option(x['delay'])}, {x['got']}, {x['lost']}, {option(x['acked'])}, {x['rtt']}, {x['now']}, "
                  f"{planned}, {result}, {str(waits).lower()}, {rate}, {signal}, {option(asked)}),")
        else:
            dash = [("-" if value is NONE else value) for value in (x["delay"], x["got"], x["lost"], x["acked"])]
            print(run, *dash, x["rtt"], x["now"], planned, result, int(waits), rate, signal, "-" if asked is NONE else asked)


if sys.argv[1:2] == ["vectors"]:
    write_vectors(sys.argv[2])
else:
    main(*(sys.argv[1:] or [""]))
