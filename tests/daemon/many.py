"""200 clients at once. Each sees its own answers; put in the sequence of the journal, they are those of a plain replay."""

import random
import selectors
import socket
import time
from collections import Counter

import held
from held import Call, Forked, hold, plain, test

CLIENTS = 200
SITES = 4


class Sites:
    """The databases: counters of tickets that all planners share."""

    def __init__(self):
        self.next = [0] * SITES

    def draw(self, site):
        self.next[site] += 1
        return self.next[site]


def planner(dice, sites):
    """A client's work: yields messages, is sent their answers, for ever. Now and then it asks out of turn, or for nonsense."""
    while True:
        mine = dice.sample(range(SITES), dice.randint(1, 3))
        line = yield Call("begin", sites=tuple(mine)).message()
        if not line.startswith("begin "):
            yield Call("sweep").message() if dice.random() < 0.5 else Call("order").message()
            continue
        n = int(line[6:])
        if dice.random() < 0.2:
            yield Call("decide", n).message()  # refused with 4
        for s in mine:
            yield Call("ticket", n, s, sites.draw(s)).message()
        if dice.random() < 0.1:
            yield Call("propose", numbers=(n,)).message()
        for s in mine:
            yield Call("prepared", n, s).message()
        if dice.random() < 0.1:
            yield Call("abort", n).message()
        else:
            yield Call("decide", n).message()
            yield Call("forget", n).message()
        if dice.random() < 0.2:
            yield b"\x01\x00\x02\x07\x00"  # refused with 10


class Client:
    def __init__(self, path, work):
        self.sock = socket.socket(socket.AF_UNIX)
        self.sock.settimeout(20)
        self.sock.connect(path)
        self.work, self.held, self.seen = work, b"", []
        self.message = next(work)
        self.sock.send(self.message)

    def read(self):
        """Takes its answer, and asks on."""
        self.held += self.sock.recv(65536)
        if not self.held.endswith(b"\n"):
            return False
        line, self.held = self.held[:-1].decode(), b""
        self.seen.append((self.message, line))
        self.message = self.work.send(line)
        self.sock.send(self.message)
        return True


@test
def two_hundred_clients():
    count = 400_000 if held.FULL else 100_000
    daemon = Forked(options=["--connections", str(CLIENTS + 1)])
    daemon.up()
    with daemon.client() as c:
        c.open(1, [0] * SITES)
    dice, sites = random.Random(3), Sites()
    clients = [Client(daemon.socket, planner(random.Random(dice.random()), sites)) for _ in range(CLIENTS)]
    select = selectors.DefaultSelector()
    for client in clients:
        select.register(client.sock, selectors.EVENT_READ, client)
    done, began = 0, time.monotonic()
    while done < count:
        for key, _ in select.select(20):
            done += key.data.read()
    took = time.monotonic() - began
    select.close()
    for client in clients:
        client.sock.close()  # each with a message on its way
    hold("told to stop, it ends", daemon.end() == 0)
    pairs = daemon.messages()
    lines = plain(m for m, _ in pairs)
    hold(f"{count} messages of {CLIENTS} clients: the journal's answers are those of a plain replay", [line for _, line in pairs] == lines, took)
    changing = [p for client in clients for p in client.seen if p[0][3:4] not in (b"\x08", b"\x09")]
    hold("every answer that a client saw is the one in the journal", not Counter(changing) - Counter(pairs), len(changing))
    rest = Counter(pairs) - Counter(changing) - Counter([(Call("open", 1, numbers=(0,) * SITES).message(), "ok")])
    hold("and the journal has no others, but for one last message of each and the aborts of what nobody was told",
         sum(rest.values()) <= 2 * CLIENTS and all(m[3:4] != b"\0" for m, _ in rest), sum(rest.values()))
    place = {pair: i for i, pair in enumerate(pairs) if pair[1].startswith(("begin", "commit", "cycle")) or pair[0][3] == 2}
    good = True
    for client in clients:
        places = [place[p] for p in client.seen if p in place]
        good = good and places == sorted(places)
    hold("each client's calls stand in the journal in its own sequence", good)
    words = Counter(line.split()[0] for _, line in pairs)
    hold("commits and cycles among them, and refusals", min(words["commit"], words["cycle"], words["refused"]) > 20, words)
    if "--times" in held.sys.argv:
        print(f"         {done / took:,.0f} messages a second, {words}")
