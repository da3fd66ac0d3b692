"""The release list of a stream, written a second time from docs/ alone.

Slow and plain on purpose: it shares no line with the crates, so where both print the same list, the
crates say what docs/ says.
"""

LAST_TICK = 281_474_976_710_655
LONGEST = 65_536
MOST = 1_000_000
OPERANDS = {1: (1, 2, 4), 2: (), 3: (8, 1, 2, 4), 4: (8,), 5: (8, 1, 2, 4), 6: (1, 4, 4), 7: (), 8: ()}


class Refusal(Exception):
    """A refusal by number, from a layer."""

    def __init__(self, number, layer):
        super().__init__(number, layer)
        self.number, self.layer = number, layer


class Groups:
    """The grouped queue of docs/QUEUES.md: a free cell is None, and stands after every record."""

    def __init__(self, groups, size, key):
        self.cells = [[None] * size for _ in range(groups)]
        self.capacity, self.key = groups * size, key

    def rank(self, x):
        return (1,) if x is None else (0, self.key(x))

    def held(self):
        return sum(x is not None for group in self.cells for x in group)

    def first(self):
        return self.cells[0][0]

    def settle(self, groups):
        self.cells = [sorted(group, key=self.rank) for group in groups]

    def put(self, x):
        old, out = self.cells, self.cells[-1][-1]
        self.settle([[x if i == 0 else old[i - 1][-1]] + group[:-1] for i, group in enumerate(old)])
        return out

    def after(self, i):
        return self.cells[i + 1][0] if i + 1 < len(self.cells) else None

    def take(self):
        out = self.first()
        if out is None:
            raise Refusal(8, "Q")
        self.settle([group[1:] + [self.after(i)] for i, group in enumerate(self.cells)])
        return out

    def exchange(self, x):
        old, out = self.cells, self.first()
        if out is None:
            raise Refusal(8, "Q")
        self.settle([
            [x if i == 0 else max(old[i - 1][-1], group[0], key=self.rank)]
            + group[1:-1]
            + [min(group[-1], self.after(i), key=self.rank)]
            for i, group in enumerate(old)])
        return out


class SideCell:
    """One record or none beside a queue."""

    def __init__(self, below):
        self.cell, self.below, self.capacity = None, below, below.capacity + 1
        self.rank = below.rank

    def held(self):
        return (self.cell is not None) + self.below.held()

    def first(self):
        return min(self.cell, self.below.first(), key=self.rank)

    def put(self, x):
        if self.cell is None:
            self.cell = x
            return None
        stays, goes = (self.cell, x) if self.rank(self.cell) <= self.rank(x) else (x, self.cell)
        self.cell = stays
        return self.below.put(goes)

    def here(self):
        return self.cell is not None and self.rank(self.cell) <= self.rank(self.below.first())

    def take(self):
        if self.here():
            out, self.cell = self.cell, None
            return out
        return self.below.take()

    def exchange(self, x):
        if self.here():
            out, self.cell = self.cell, x
            return out
        return self.below.exchange(x)


class Show:
    """A show with its stages; a telegram is (release, number, row, length, handle)."""

    def __init__(self):
        self.stage, self.rows = "rigged", {}
        self.queue = SideCell(Groups(8, 4, lambda t: t))
        self.clock = self.accepted = self.departed = self.displaced = 0

    def set_row(self, row, pace, burst):
        if row > 63:
            raise Refusal(2, "U")
        if not (1 <= pace <= 1000 and burst <= 1_000_000):
            raise Refusal(10, "U")
        self.rows[row] = [pace, burst, 0]
        return []

    def start(self):
        self.stage = "running"
        return []

    def test_time(self, now):
        if now < self.clock or now > LAST_TICK:
            raise Refusal(1, "U")

    def test_entry(self, now, row, length):
        self.test_time(now)
        if row not in self.rows:
            raise Refusal(2, "U")
        if not 64 <= length <= 1518:
            raise Refusal(3, "U")
        if self.accepted >= MOST:
            raise Refusal(4, "U")
        pace, burst, time = self.rows[row]
        if max(time, now) + length * pace > LAST_TICK:
            raise Refusal(5, "U")
        h, c = self.queue.held(), self.queue.capacity
        red, green = 3 * h >= 2 * c, 3 * h < c
        if not red and not green and time > now + burst:
            raise Refusal(6, "U")
        if red and time > now:
            raise Refusal(7, "U")

    def test_exit(self, now):
        first = self.queue.first()
        if first is None:
            raise Refusal(8, "Q")
        if first[0] > now:
            raise Refusal(9, "U")

    def stamp(self, now, row, length, handle):
        card = self.rows[row]
        telegram = (max(card[2], now), self.accepted, row, length, handle)
        card[2] = telegram[0] + length * card[0]
        self.clock, self.accepted = now, self.accepted + 1
        return telegram

    def admit(self, now, row, length, handle):
        self.test_entry(now, row, length)
        t = self.stamp(now, row, length, handle)
        out = self.queue.put(t)
        lines = [f"A {t[1]} {row} {t[0]}"]
        if out is not None:
            self.displaced = min(self.displaced + 1, MOST)
            lines.append(f"X {out[1]} {out[2]}")
        return lines

    def release(self, now):
        self.test_time(now)
        self.test_exit(now)
        t = self.queue.take()
        self.clock, self.departed = now, min(self.departed + 1, MOST)
        return [f"D {t[1]} {t[2]} {now}"]

    def exchange(self, now, row, length, handle):
        self.test_entry(now, row, length)
        self.test_exit(now)
        t = self.stamp(now, row, length, handle)
        out = self.queue.exchange(t)
        self.departed = min(self.departed + 1, MOST)
        return [f"D {out[1]} {out[2]} {now}", f"A {t[1]} {row} {t[0]}"]

    def close(self):
        self.stage = "closed"
        return [f"T {self.accepted} {self.departed} {self.displaced} {self.queue.held()}"]


class Panel:
    """A panel; a reading is (row, position, target), the largest distance first."""

    def __init__(self):
        self.queue = Groups(4, 2, lambda r: (-abs(r[1] - r[2]),) + r)

    def offer(self, row, position, target):
        signed = [n - (1 << 32) if n >> 31 else n for n in (position, target)]
        if row > 63 or any(abs(n) > 20_000 for n in signed):
            raise Refusal(16, "P")
        self.queue.put((row, signed[0], signed[1]))
        return []

    def figure(self):
        return [f"P {self.queue.take()[1]}"]


def lines_of(stream):
    """The lines of the list of a stream."""
    lines = ["hall list 1"]
    if len(stream) > LONGEST:
        return lines + [f"R 18 S {LONGEST}"]
    show, panel, place = Show(), Panel(), 0
    calls = {1: ("rigged", show.set_row), 2: ("rigged", show.start), 3: ("running", show.admit),
             4: ("running", show.release), 5: ("running", show.exchange), 6: (None, panel.offer),
             7: (None, panel.figure), 8: ("running", show.close)}
    while place < len(stream):
        if stream[place] not in OPERANDS:
            return lines + [f"R 14 S {place}"]
        widths = OPERANDS[stream[place]]
        if place + 1 + sum(widths) > len(stream):
            return lines + [f"R 15 S {place}"]
        operands, at = [], place + 1
        for width in widths:
            operands.append(int.from_bytes(stream[at:at + width], "big"))
            at += width
        stage, call = calls[stream[place]]
        try:
            if stage is not None and stage != show.stage:
                raise Refusal(13, "S")
            lines += call(*operands)
        except Refusal as refusal:
            lines.append(f"R {refusal.number} {refusal.layer} {place}")
        place = at
    return lines


def list_of(stream):
    """The text of the list of a stream."""
    return "".join(line + "\n" for line in lines_of(stream)).encode()
