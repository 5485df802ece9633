#!/usr/bin/env python3
"""Three histories of a sender, and what the calls of `send_laws` answer on them: the spans of media and of
padding over twenty pairs of entries each, the probe clusters 0 to 3 and the balance of packets.

It has a model of the sender of its own, by exact integers from the rules, and shares nothing with the crates.
The histories keep within what the model knows: no report gives a third group of packets, nor arrivals half a
second apart, so the delay estimate moves by changes and probes alone. Its output is kept beside it as table.txt,
and the same calls and rows stand in a test of `send_laws`. Run it as

    table.py             what `replay` must print for each history, and its rows
    table.py trace N     the trace of history N, from 1 on, for `replay`
    table.py text N      what `replay` must print for it
    table.py calls N     the calls of history N as the test has them
    table.py rows N      the rows of history N as the test has them
"""
import sys
from fractions import Fraction
from math import ceil

GREATEST_MOMENT, GREATEST_RATE = 1 << 50, 10**10
BYTE = 8_000_000
VIDEO = bytes.fromhex("9060000100000000000000aabede000131000000")
AUDIO = bytes.fromhex("906f000100000000000000bbbede000131000000")
RANK = {"a": 0, "r": 1, "v": 2, "f": 2}

# ---- the histories: packets, paces, reports and changes


def packet(at, kind, size):
    return ("E", at, kind, size)


def pace(*moments):
    return [("P", at) for at in moments]


def report(at, base, reference, *statuses):
    """Each status is None, or the delta of a packet that was received."""
    return ("R", at, base, reference, statuses)


def change(at, **settings):
    return ("C", at, settings)


MEDIA = [
    *pace(0),
    packet(100, "v", 1200),
    *pace(100, 1600, 1601),
    change(2000, window=20000, pacing_percent=200),
    packet(1900, "v", 1000),
    packet(2100, "r", 400),
    packet(2100, "f", 700),
    packet(2300, "a", 100),
    packet(2300, "v", 1500),
    *pace(2300, 9000, 8000, 21000),
    change(21000, max=60000),
    *pace(21000, 60000),
    packet(60001, "v", 11),
    packet(60002, "v", 1501),
    packet(60003, "r", 19),
    change(60004, window=500001),
    ("P", GREATEST_MOMENT + 1),
    *pace(190000),
    change(200000, paced_audio=True, pacing_percent=100),
    packet(200000, "a", 300),
    packet(200500, "a", 20),
    packet(201000, "v", 1200),
    packet(201000, "v", 1200),
    packet(202000, "r", 640),
    *pace(202000, 250000, 300000, 400000),
    change(400000, window=1000),
    *pace(1400000, 2150000, 2195000, 2199000, 2230000, 2230600),
    change(2300000, min=500000, max=700000, window=500000),
    *pace(2300000),
    *[packet(2310000, "v", 1500)] * 6,
    *pace(2310000, 2400000, 2500000),
    change(2500000, min=900000),
    change(2500500, min=30000, pacing_percent=1000, window=5000),
    *pace(2500500, 2600000),
]

PROBES = [
    *pace(0),
    change(1000, start=400000),
    *pace(1000, 2706, 2707),
    packet(3000, "v", 900),
    packet(3000, "a", 80),
    *pace(3000, 4500, 10500, 11200, 11300),
    packet(11300, "v", 1200),
    packet(11300, "r", 1100),
    packet(11300, "v", 1000),
    packet(11300, "v", 400),
    *pace(12000, 15000, 14000, 19000),
    change(19500, probe=500000, padding_rate=200000, window=50000),
    *pace(23000, 24000, 26000, 30000),
    packet(30000, "v", 700),
    packet(30100, "v", 20),
    *pace(31000, 35000),
    change(35000, padding_rate=1500000),
    *pace(36000, 40000, 45000),
    packet(45000, "v", 1400),
    *pace(46000, 47000, 49000, 52000, 60000),
    change(60000, probe=10000000001),
    change(60500, padding_rate=0),
    *pace(61000, 70000),
    change(70000, padding_rate=90000, window=500000, pacing_percent=100),
    *pace(110000, 130000, 500000),
    packet(500000, "f", 1500),
    *pace(500001, 520000),
    change(520000, probe=2000, max=250000),
    packet(520001, "a", 60),
    *pace(515000),
]

REPORTS = [
    *[packet(0, "a", 200)] * 3,
    *pace(1000),
    report(40000, 0, 1, 4, 8, None, 0),
    packet(40000, "v", 600),
    packet(40500, "v", 400),
    *pace(41000, 41500),
    report(45000, 0, 1, 0, None, 200, 1),
    report(45001, 2, 1, None, 300, 250),
    change(46000, probe=600000, window=10000, padding_rate=300000),
    *pace(46000),
    packet(46000, "v", 700),
    packet(46100, "r", 300),
    *pace(49414),
    packet(51000, "f", 300),
    packet(51000, "a", 220),
    *pace(51333, 51334, 55333, 55334, 58747, 62160),
    report(90000, 4, 2, 30, 13, None, 7, 0, 15, 13, 13, -1),
    *pace(90000, 90010, 95000),
    ("R", 95000, None),
    *[packet(96000, "a", 90)] * 14,
    *pace(97000),
    report(120000, 5, 2, None, 40),
    report(150000, 10, 1, *[None] * 14),
    report(160000, 18, 1, *[None] * 3, 300, -1),
    packet(170000, "v", 1300),
    *pace(170000, 180000),
    report(1039999, 65535, 0, None, None),
    *pace(1040000),
    report(1040000, 600, 0, None),
    packet(1050000, "v", 1000),
    *pace(1050000, 1090000, 1089000),
]

HISTORIES = [MEDIA, PROBES, REPORTS]

# ---- the bytes of packets and reports


def wire(kind, size):
    head = AUDIO if kind == "a" else VIDEO
    return (head + bytes(max(0, size - len(head))))[:size]


def wire_fault(size):
    """The fault of such a packet, by its size; None where it has none."""
    return 1 if size < 12 else 2 if size > 1500 else 4 if size < 20 else None


def symbol(delta):
    return 0 if delta is None else 1 if 0 <= delta <= 255 else 2


def chunks(symbols):
    while symbols:
        run = 1
        while run < len(symbols) and symbols[run] == symbols[0]:
            run += 1
        if run >= 7 or run == len(symbols):
            yield symbols[0] << 13 | run
            symbols = symbols[run:]
        elif max(symbols[:14]) < 2:
            yield 1 << 15 | sum(s << 13 - k for k, s in enumerate(symbols[:14]))
            symbols = symbols[14:]
        else:
            yield 3 << 14 | sum(s << 12 - 2 * k for k, s in enumerate(symbols[:7]))
            symbols = symbols[7:]


def spelled(base, reference, statuses):
    symbols = [symbol(d) for d in statuses]
    body = b"".join(c.to_bytes(2, "big") for c in chunks(symbols))
    for delta in statuses:
        if delta is not None:
            body += delta.to_bytes(symbol(delta), "big", signed=symbol(delta) == 2)
    body += bytes(-len(body) % 4)
    head = bytes.fromhex("8fcd") + (4 + len(body) // 4).to_bytes(2, "big") + bytes.fromhex("0000000100000002")
    fields = base.to_bytes(2, "big") + len(statuses).to_bytes(2, "big") + reference.to_bytes(3, "big", signed=True)
    return head + fields + b"\0" + body


def report_bytes(step):
    """A report of no base is cut off."""
    return bytes.fromhex("8fcd00020000000100000002") if step[2] is None else spelled(*step[2:])


# ---- the model


class Cluster:
    def __init__(self, rate):
        self.rate, self.sends, self.credits, self.is_taken = rate, [], [], False

    def bytes(self):
        return sum(size for _, size in self.sends)

    def waits(self):
        return len(self.sends) < 5 or BYTE * self.bytes() < 15000 * self.rate

    def is_due(self, now):
        return not self.sends or BYTE * self.bytes() <= self.rate * (now - self.sends[0][0])

    def is_ready(self):
        credited = sum(c["size"] for c in self.credits)
        enough = 5 * len(self.credits) >= 4 * len(self.sends) and 5 * credited >= 4 * self.bytes()
        return not self.waits() and not self.is_taken and enough

    def result(self):
        moments = [c["at"] for c in self.credits]
        arrivals = [c["arrival"] for c in self.credits]
        spread, delay = max(moments) - min(moments), 250 * (max(arrivals) - min(arrivals))
        if not (0 < spread <= 10**6 and 0 < delay <= 10**6):
            return None
        credited = sum(c["size"] for c in self.credits)
        last = max(self.credits, key=lambda c: c["number"])
        first = min(self.credits, key=lambda c: (c["arrival"], c["number"]))
        sent = BYTE * (credited - last["size"]) // spread
        received = BYTE * (credited - first["size"]) // delay
        if received > 2 * sent:
            return None
        rate = 95 * received // 100 if 100 * received < 90 * sent else min(sent, received)
        return max(1000, min(GREATEST_RATE, rate))


class Sender:
    def __init__(self):
        self.now, self.accepted, self.waiting, self.sent = 0, 0, [], []
        self.min, self.max, self.percent, self.window = 30000, 10000000, 250, 5000
        self.padding_rate, self.paced_audio = 0, False
        self.delay, self.loss, self.is_started, self.clusters = 300000, 300000, False, []
        self.media, self.padding = 0, 0
        self.credited, self.missed, self.reference = set(), set(), 0
        self.groups, self.first, self.last = 0, None, None
        self.arrivals, self.gathered, self.judged_at = [], [0, 0], None
        self.rate = self.in_force()

    # -- rates

    def target(self):
        return min(self.delay, self.loss)

    def pacing(self):
        return min(GREATEST_RATE, self.target() * self.percent // 100)

    def drain(self):
        if not self.waiting:
            return 0
        waited = sum(self.now - p["accepted"] for p in self.waiting) // len(self.waiting)
        size = sum(p["size"] for p in self.waiting)
        return ceil(Fraction(BYTE * size, max(1000, 2000000 - waited)))

    def in_force(self):
        return min(GREATEST_RATE, max(self.pacing(), self.drain()))

    def in_bounds(self, rate):
        return max(self.min, min(self.max, rate))

    # -- a call

    def serve(self, call):
        """The line of the reply, and the records of what was sent."""
        now = self.now if call[1] > GREATEST_MOMENT else max(self.now, call[1])
        gap, self.now = now - self.now, now
        self.media = min(self.media + self.rate * gap, self.rate * self.window)
        self.padding = min(self.padding + self.padding_rate * gap, self.padding_rate * self.window)
        sends = len(self.sent)
        if call[1] > GREATEST_MOMENT:
            line = f"refused {now} moment"
        else:
            verb = {"E": self.enqueue, "P": self.pace, "R": self.report, "C": self.configure}[call[0]]
            line = verb(call)
        self.rate = self.in_force()
        return line, self.sent[sends:]

    def enqueue(self, call):
        _, _, kind, size = call
        fault = wire_fault(size)
        if fault:
            return f"refused {self.now} wire {fault}"
        packet = {"rank": RANK[kind], "index": self.accepted, "size": size, "accepted": self.now, "kind": kind}
        self.accepted += 1
        self.waiting.append(packet)
        return f"accepted {self.now} {packet['index']}"

    # -- a pace

    def pace(self, _):
        records = []
        while len(records) < 64:
            record = self.next_record()
            if record is None:
                break
            records.append(record)
        told = "".join(f" {r['number']}:{r['kind']}:{r['index']}:{r['size']}" for r in records)
        return f"paced {self.now} {len(records)}{told}"

    def next_record(self):
        head = min(self.waiting, key=lambda p: (p["rank"], p["index"]), default=None)
        current = next((n for n, c in enumerate(self.clusters) if c.waits()), None)
        if head and head["kind"] == "a" and not self.paced_audio:
            return self.send("a", head)
        if current is not None and self.clusters[current].is_due(self.now):
            record = self.send(f"x{current}", head, current)
            self.media -= BYTE * record["size"]
            self.clusters[current].sends.append((self.now, record["size"]))
            return record
        if head and self.media > 0:
            spent = BYTE * head["size"]
            self.media -= spent
            self.padding -= min(spent, max(0, self.padding + self.padding_rate * self.window))
            return self.send("m", head)
        if not head and self.padding > 0 and any(r["kind"] == "m" for r in self.sent):
            self.padding -= BYTE * 256
            return self.send("p", None)
        return None

    def send(self, kind, head, cluster=None):
        if head:
            self.waiting.remove(head)
        index, size = (head["index"], head["size"]) if head else ("-", 256)
        record = {"number": len(self.sent), "kind": kind, "index": index, "size": size, "at": self.now,
                  "cluster": cluster}
        self.sent.append(record)
        return record

    # -- a change

    def configure(self, call):
        change = call[2]
        fault = self.fault_of(change)
        if fault:
            return f"refused {self.now} config {fault}"
        self.min, self.max = change.get("min", self.min), change.get("max", self.max)
        self.percent, self.window = change.get("pacing_percent", self.percent), change.get("window", self.window)
        self.padding_rate = change.get("padding_rate", self.padding_rate)
        self.paced_audio = change.get("paced_audio", self.paced_audio)
        self.delay = self.in_bounds(change.get("start", self.delay))
        self.loss = self.in_bounds(change.get("start", self.loss))
        if "start" in change and not self.is_started:
            self.is_started = True
            self.clusters += [Cluster(min(GREATEST_RATE, n * change["start"])) for n in (3, 6)]
        if "probe" in change:
            self.clusters.append(Cluster(change["probe"]))
        return f"configured {self.now} {self.rates()} shares -"

    def fault_of(self, change):
        rates = [change[key] for key in ("start", "min", "max", "probe") if key in change]
        if not all(1000 <= r <= GREATEST_RATE for r in rates) or change.get("padding_rate", 0) > GREATEST_RATE:
            return 1
        if change.get("min", self.min) > change.get("max", self.max):
            return 2
        if not (100 <= change.get("pacing_percent", 100) <= 1000 and 1000 <= change.get("window", 1000) <= 500000):
            return 3
        return None

    def rates(self):
        return f"rates {self.delay} {self.loss} {self.target()} {self.pacing()}"

    # -- a report

    def report(self, call):
        _, _, base, *rest = call
        if base is None:
            return f"refused {self.now} report 1"
        received, counts = self.judge(base, *rest)
        for credit in received:
            self.take(credit)
        assert not self.arrivals or max(self.arrivals) - min(self.arrivals) < 2000
        self.step_loss(len(received), counts["missing"])
        for cluster in self.clusters:
            if cluster.is_ready():
                cluster.is_taken = True
                self.take_probe(cluster.result())
        told = " ".join(f"{c['number']}@{c['arrival']}" for c in received) or "-"
        lost = " ".join(f"{key} {counts[word]}" for key, word in
                        (("lost", "missing"), ("unknown", "unknown"), ("repeated", "repeated")))
        return (f"credited {self.now} got {len(received)} {lost} signal normal m 0 acked - {self.rates()} "
                f"shares - credits {told}")

    def judge(self, base, reference, statuses):
        self.reference += (reference - self.reference + (1 << 23)) % (1 << 24) - (1 << 23)
        arrival, received, counts = 256 * self.reference, [], dict(missing=0, unknown=0, repeated=0)
        for k, delta in enumerate(statuses):
            arrival += delta or 0
            number = self.named((base + k) % 65536)
            if number is None or number < len(self.sent) - 32768:
                counts["unknown"] += 1
            elif number not in self.credited and delta is not None:
                self.credited.add(number)
                received.append({**self.sent[number], "arrival": arrival})
            elif number not in self.credited and number not in self.missed:
                self.missed.add(number)
                counts["missing"] += 1
            else:
                counts["repeated"] += 1
        return received, counts

    def named(self, low):
        """The greatest number below `sent` that equals `low` modulo 65,536."""
        last = len(self.sent) - 1
        number = last - (last - low) % 65536
        return number if number >= 0 else None

    def take(self, credit):
        """A credit for the groups, the window of arrivals and its cluster."""
        self.arrivals.append(credit["arrival"])
        if credit["cluster"] is not None:
            self.clusters[credit["cluster"]].credits.append(credit)
        if self.last and credit["at"] < self.last["at"]:
            return
        if not self.last or not self.joins(credit):
            self.groups, self.first = self.groups + 1, credit
        self.last = credit
        assert self.groups <= 2

    def joins(self, credit):
        arrival, departure = credit["arrival"] - self.last["arrival"], credit["at"] - self.last["at"]
        return credit["at"] - self.first["at"] <= 5000 or (arrival < 20 and 250 * arrival - departure < 0)

    def step_loss(self, received, missing):
        self.gathered = [self.gathered[0] + received, self.gathered[1] + missing]
        if self.judged_at is None:
            self.judged_at = self.now
        lost, count = self.gathered[1], sum(self.gathered)
        if self.now - self.judged_at >= 1000000 and count >= 20:
            if 10 * lost > count:
                self.loss = self.loss * (2 * count - lost) // (2 * count)
            elif 50 * lost < count:
                self.loss = 105 * self.loss // 100
            self.gathered, self.judged_at = [0, 0], self.now
        self.loss = self.in_bounds(self.loss)

    def take_probe(self, rate):
        if rate is not None:
            self.delay = self.in_bounds(max(self.delay, rate))
            self.loss = self.in_bounds(max(self.loss, rate))


# ---- what the laws count


class Journal:
    """A history that was served: the lines of its replies, and for each entry its records, its moment and the
    rates and the window that it left (those of a new sender first)."""

    def __init__(self, calls):
        assert len(calls) <= 60
        sender = self.sender = Sender()
        self.lines, self.records, self.moments = [], [], []
        self.left = [(sender.rate, sender.padding_rate, sender.window)]
        for call in calls:
            line, records = sender.serve(call)
            self.lines.append(line)
            self.records.append(records)
            self.moments.append(sender.now)
            self.left.append((sender.rate, sender.padding_rate, sender.window))

    def span(self, kind, i, j):
        """Bytes, integral, window and last size, of media (`m`) or padding (`p`). The bytes of media are with
        those of the probes before the last of it."""
        which = "mp".index(kind)
        records = [r for records in self.records[i:j + 1] for r in records]
        places = [k for k, r in enumerate(records) if r["kind"] == kind]
        counted = records[:places[-1] + 1] if places else []
        size = sum(r["size"] for r in counted if r["kind"] == kind or (kind == "m" and r["cluster"] is not None))
        integral = sum(self.left[e + 1][which] * (self.moments[e + 1] - self.moments[e]) for e in range(i, j))
        window = self.left[i][which] * self.left[i][2]
        last = counted[-1]["size"] if counted else 0
        assert BYTE * size <= integral + window + BYTE * last
        return size, integral, window, last

    def cluster(self, n):
        """Bytes before the last packet, rate and time; None where nothing was sent."""
        sends = [r for records in self.records for r in records if r["cluster"] == n]
        if not sends:
            return None
        rate = self.sender.clusters[n].rate
        before_last, time = sum(r["size"] for r in sends[:-1]), sends[-1]["at"] - sends[0]["at"]
        assert BYTE * before_last <= rate * time
        return before_last, rate, time

    def balance(self):
        """Sent, credited, outstanding and expired."""
        sent, credited = len(self.sender.sent), self.sender.credited
        expired = sum(1 for n in range(sent - 32768) if n not in credited)
        return sent, len(credited), sent - len(credited) - expired, expired


def pairs(count):
    """Both ends alone, the whole, and seventeen drawn spans."""
    yield from [(0, 0), (count - 1, count - 1), (0, count - 1)]
    word = count
    for _ in range(17):
        drawn = []
        for _ in range(2):
            word = (word * 1664525 + 1013904223) % (1 << 32)
            drawn.append((word >> 8) % count)
        yield min(drawn), max(drawn)


# ---- what is printed


def change_text(settings):
    def told(value):
        return str(value).lower()
    return "{" + ",".join(f'"{key}":{told(settings[key])}' for key in sorted(settings)) + "}"


def trace_line(call):
    if call[0] == "E":
        return f"E 0 {call[1]} {call[2]} {wire(*call[2:]).hex()}"
    if call[0] == "R":
        return f"R 0 {call[1]} {report_bytes(call).hex()}"
    return f"C 0 {call[1]} {change_text(call[2])}" if call[0] == "C" else f"P 0 {call[1]}"


def trace(calls, _):
    return ["gcc-trace 1 1", *map(trace_line, calls), "end"]


def text(calls, journal):
    tail = f"end {len(calls)} {len(journal.sender.sent)} {journal.sender.target()}"
    return ["gcc-history 1", *(f"0 {line}" for line in journal.lines), tail]


def table(calls, journal):
    for i, j in pairs(len(calls)):
        media, padding = journal.span("m", i, j), journal.span("p", i, j)
        yield " ".join(map(str, ["entries", i, j, "media", *media, "padding", *padding]))
    for n in range(4):
        yield " ".join(map(str, ["cluster", n, *(journal.cluster(n) or ["none"])]))
    yield " ".join(map(str, ["balance", *journal.balance()]))


def call_line(call):
    """A call as the test has it: of a packet its class and size, of a report its bytes, of a change its keys."""
    fields = call[:2]
    if call[0] == "E":
        fields = call
    if call[0] == "R":
        fields = *fields, *report_bytes(call)
    if call[0] == "C":
        fields = *fields, *(word for key, value in call[2].items() for word in (key, int(value)))
    return " ".join(map(str, fields))


def call_lines(calls, _):
    return map(call_line, calls)


def main(part=None, number=None):
    for n, calls in enumerate(HISTORIES, 1):
        journal = Journal(calls)
        if part is None:
            print(f"---- history {n}", *text(calls, journal), *table(calls, journal), sep="\n")
        elif int(number) == n:
            parts = {"trace": trace, "text": text, "calls": call_lines, "rows": table}
            print(*parts[part](calls, journal), sep="\n")


main(*sys.argv[1:])
