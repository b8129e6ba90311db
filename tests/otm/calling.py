"""The Python client: values, refusals as exceptions, and what is not sent at all."""

import threading
from pathlib import Path

import held
from held import Call, Coordinator, Refused, ServiceEnded, frames, hold, read_body, test


@test
def client():
    with Coordinator(held.SERVICE) as c:
        try:
            c.sweep()
            hold("a call before the opening raises", False)
        except Refused as e:
            hold("a refusal has its number, meaning and advice", e.number == 1 and "before the table was opened" in e.meaning and e.advice, e)
        hold("open gives nothing", c.open(first=7, floors=[0, 0]) is None)
        a, b = c.begin([0, 1]), c.begin({1, 0})
        hold("begin gives the number", (a, b) == (7, 8))
        for n, first, second in ((a, 1, 2), (b, 2, 1)):
            c.ticket(n, site=0, ticket=first)
            c.ticket(n, site=1, ticket=second)
            c.prepared(n, site=0)
            c.prepared(n, site=1)
        hold("decide gives True and False", c.decide(a) is True and c.decide(b) is False)
        hold("order gives a list", c.order() == [7])
        hold("propose gives True and False", c.propose([7]) is True and c.propose([]) is False)
        for what, call, number in [
            ("forget of an aborted one", lambda: c.forget(b), 2),
            ("abort of a committed one", lambda: c.abort(a), 4),
            ("second opening", lambda: c.open(1, [0]), 4),
            ("begin without sites", lambda: c.begin([]), 3),
        ]:
            try:
                call()
                hold(f"{what} raises", False)
            except Refused as e:
                hold(f"{what} is {number}", e.number == number and str(e).startswith(f"refused {number}: "), e)
        for what, call in [
            ("a number too large", lambda: c.abort(2**32)),
            ("a ticket below 0", lambda: c.ticket(1, 0, -1)),
            ("a site that a byte does not take", lambda: c.prepared(1, 256)),
            ("a site that a list does not take", lambda: c.begin([8])),
            ("40 numbers", lambda: c.propose(range(1, 41))),
            ("39 floors", lambda: c.open(1, [0] * 39)),
        ]:
            try:
                call()
                hold(f"{what} is not sent", False)
            except ValueError:
                hold(f"{what} is not sent", True)
        hold("and the table is as before", c.order() == [7] and c.sweep() == 1 and c.order() == [])
        third = c.begin([0])
        hold("forget, abort give nothing", c.abort(third) is None)
        numbers, lock = [], threading.Lock()

        def begin():
            for _ in range(4):
                n = c.begin([0])
                with lock:
                    numbers.append(n)

        threads = [threading.Thread(target=begin) for _ in range(8)]
        for t in threads:
            t.start()
        for t in threads:
            t.join()
        hold("eight threads get 32 numbers, each once", sorted(numbers) == list(range(10, 42)), sorted(numbers))
    hold("it ends with status 0", c.close() == 0)
    try:
        c.order()
        hold("a call after the end raises", False)
    except ServiceEnded:
        hold("a call after the end raises", True)
    with Coordinator([held.SERVICE]) as c:
        hold("bytes as they are", c.send(b"\x01\x00\x00") == "refused 10" and c.send(b"\x09") == "refused 11")
        try:
            c.order()
            hold("a call after an 11 raises", False)
        except ServiceEnded:
            hold("a call after an 11 raises", True)
    with Coordinator(Path(held.SERVICE)) as c:
        hold("finish gives the lines that are left", c.finish(bytes.fromhex("01000107 01000107 01")) == ["refused 1", "refused 1", "refused 11"])
    wrong = Coordinator(["/bin/sh", "-c", "while true; do echo begin 1; done"])
    try:
        wrong.sweep()
        hold("an answer that is none raises", False)
    except ServiceEnded as e:
        hold("an answer that is none raises", "'begin 1' is no answer to sweep" in str(e), e)
    wrong._link.process.kill()
    wrong.close()


@test
def calls_and_bodies():
    """Every body up to 11 bytes of a few values: read_body refuses exactly what RULES, Messages does not list."""
    lengths = {0: {5, 9}, 1: {2}, 2: {10}, 3: {6}, 4: {5}, 5: {5}, 6: {5}, 7: {1}, 8: {1, 5, 9}, 9: {1}}
    good = True
    for kind in range(256):
        for length in range(1, 12):
            body = bytes([kind]) + bytes(range(1, length))
            call = read_body(body)
            good = good and (call is not None) == (length in lengths.get(kind, ())) and (call is None or call.body() == body)
    hold("read_body and body agree with the table of kinds", good and read_body(b"") is None)
    hold("frames of nothing", list(frames(b"")) == [] and Call("sweep").message() == b"\x01\x00\x01\x07")
