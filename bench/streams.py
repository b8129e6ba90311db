"""The streams that bench/run measures with. All are fixed: the same bytes at every run."""

import struct


def frame(body):
    return struct.pack(">BH", 1, len(body)) + body


def opening(sites, first=1, floor=0):
    return frame(struct.pack(">BI", 0, first) + struct.pack(">I", floor) * sites)


def begin(sites):
    return frame(bytes([1, sites]))


def ticket(n, site, k):
    return frame(struct.pack(">BIBI", 2, n, site, k))


def prepared(n, site):
    return frame(struct.pack(">BIB", 3, n, site))


def abort(n):
    return frame(struct.pack(">BI", 4, n))


def decide(n):
    return frame(struct.pack(">BI", 5, n))


def forget(n):
    return frame(struct.pack(">BI", 6, n))


SWEEP = frame(b"\x07")
ORDER = frame(b"\x09")


def propose(numbers):
    return frame(b"\x08" + b"".join(struct.pack(">I", n) for n in numbers))


class Job:
    """A stream in the making: it counts numbers as the table does, and tickets as the sites do."""

    def __init__(self, sites):
        self.out = [opening(sites)]
        self.sites = sites
        self.last = 0
        self.counter = [0] * sites
        self.kept = []

    def say(self, *messages):
        self.out.extend(messages)

    def begin(self, sites):
        self.last += 1
        self.say(begin(sum(1 << s for s in sites)))
        return self.last

    def draw(self, n, site):
        self.counter[site] += 1
        self.say(ticket(n, site, self.counter[site]))

    def run(self, sites):
        """One transaction from its begin up to all its sites prepared."""
        n = self.begin(sites)
        for s in sites:
            self.draw(n, s)
        for s in sites:
            self.say(prepared(n, s))
        return n

    def commit(self, sites):
        n = self.run(sites)
        self.say(decide(n))
        self.kept.append(n)

    def crossed(self, sites):
        """Two at once that the first two of the sites put in opposite sequence: one commits, the other is a cycle."""
        x, y = self.begin(sites), self.begin(sites)
        for place, s in enumerate(sites):
            for n in (x, y) if place == 0 else (y, x):
                self.draw(n, s)
        for n in (x, y):
            for s in sites:
                self.say(prepared(n, s))
        self.say(decide(x), decide(y))
        self.kept.append(x)

    def sweep_all(self):
        self.say(SWEEP)
        self.kept.clear()

    def forget_first(self):
        self.say(forget(self.kept.pop(0)))


def light(messages):
    """A few overlapping transactions on two sites, now and then crossed, and a sweep behind each few."""
    job = Job(2)
    while len(job.out) < messages:
        for _ in range(4):
            held = [job.begin((0, 1)) for _ in range(3)]
            for n in held:
                job.draw(n, 0)
                job.draw(n, 1)
            for n in held:
                job.say(prepared(n, 0), prepared(n, 1))
            for n in held:
                job.say(decide(n))
        job.crossed((0, 1))
        job.say(ORDER)
        job.sweep_all()
    return job.out


def heavy(messages):
    """24 to 31 kept rows on eight sites, four sites each: decides that commit and that make a cycle, forgets, sweeps
    that find everything held back, orders, proposals. Now and then the table is swept empty and filled again."""
    job = Job(8)
    turn = 0

    def sites():
        nonlocal turn
        turn += 1
        return sorted((turn + k) % 8 for k in (0, 1, 3, 6))

    def asked():
        job.say(ORDER, propose(job.kept), propose(job.kept[1:] + job.kept[:1]))

    while len(job.out) < messages:
        holder = job.begin((0, 4))
        while len(job.kept) < 24:
            job.commit(sites())
        while len(job.kept) < 30:
            job.crossed(sites())
            job.say(SWEEP, forget(job.kept[0]), SWEEP)
            asked()
        job.say(abort(holder))
        for _ in range(8):
            while len(job.kept) > 24:
                job.forget_first()
                job.say(ORDER)
            while len(job.kept) < 30:
                job.crossed(sites())
                asked()
            job.commit(sites())
        job.sweep_all()
    return job.out


def hostile(messages):
    """Ordinary work on four sites with as many messages that are refused, of every refusal that reading goes on after."""
    job = Job(4)
    turn = 0

    def wrong(n, older):
        nonlocal turn
        turn += 1
        return [
            opening(4), begin(0), begin(255), ticket(n + 99, 0, 9), ticket(n, 7, 9), ticket(n, 200, 9), ticket(n, 0, 7),
            prepared(n + 99, 1), prepared(n, 6), abort(0), decide(n + 50), forget(n), forget(n + 70), decide(n),
            frame(b""), frame(b"\x63"), frame(b"\x01"), frame(b"\x07\x00"), frame(b"\x02" + bytes(8)), frame(b"\x08" + bytes(159)),
            abort(older), decide(older),
        ][turn % 22]

    while len(job.out) < messages:
        before = []
        for _ in range(6):
            n = job.begin((0, 1, 2, 3))
            older = before[-1] if before else 0
            job.say(ticket(n, 1, 0), wrong(n, older))
            for s in range(4):
                job.draw(n, s)
                job.say(ticket(n, s, job.counter[s]) if s % 2 else wrong(n, older))
            for s in range(4):
                job.say(prepared(n, s), prepared(n, s) if s % 2 else ticket(n, s, 5))
            job.say(decide(n), decide(n))
            before.append(n)
        job.say(forget(before[-1]), SWEEP)
    return job.out


WORKLOADS = {"light": light, "heavy": heavy, "hostile": hostile}

ALL = tuple(range(8))


def chain(count):
    """`count` transactions at all eight sites, one behind the other everywhere, all prepared."""
    job = Job(8)
    numbers = [job.run(ALL) for _ in range(count)]
    return job.out, numbers


def calls():
    """For each call: its name, a stream, what comes behind it, and over how many calls the difference is to be shared."""
    start = [opening(8)]
    numbers = range(1, 33)
    begins = [begin(255)] * 32
    tickets = [ticket(n, s, n) for n in numbers for s in ALL]
    prepares = [prepared(n, s) for n in numbers for s in ALL]
    decides = [decide(n) for n in numbers]
    ready = start + begins + tickets + prepares
    full = ready + decides
    good = propose(list(numbers))
    none = propose(list(numbers)[1:] + [1])
    return [
        ("open", [], start, 1),
        ("open, refused", start, start * 100, 100),
        ("begin", start, begins, 32),
        ("ticket", start + begins, tickets, 256),
        ("prepared", start + begins + tickets, prepares, 256),
        ("abort", start + begins, [abort(n) for n in numbers], 32),
        ("decide", ready, decides, 32),
        ("forget", full, [forget(n) for n in numbers], 32),
        ("forget, refused", full, [forget(32)] * 100, 100),
        ("sweep, none kept", start, [SWEEP] * 100, 100),
        ("sweep, 32 go", full, [SWEEP], 1),
        ("propose, good", full, [good] * 100, 100),
        ("propose, bad", full, [none] * 100, 100),
        ("order", full, [ORDER] * 100, 100),
        ("order, none kept", start, [ORDER] * 100, 100),
        ("unknown kind", start, [frame(b"\x63")] * 100, 100),
    ]


def growth(kept):
    """With so many kept: one decide; sweeps that find all held back by one who is active; a sweep that frees all."""
    out, numbers = chain(kept + 1)
    committed = out + [decide(n) for n in numbers[:-1]]
    held, free = Job(8), Job(8)
    held.begin((0,))
    for job in (held, free):
        for _ in range(kept):
            job.commit(ALL)
    return [
        ("decide", committed, [decide(numbers[-1])], 1),
        ("sweep, all held", held.out, [SWEEP] * 20, 20),
        ("sweep, all go", free.out, [SWEEP], 1),
    ]
