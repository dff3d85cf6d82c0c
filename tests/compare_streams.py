"""Compares what a stream connection does with a reference client, over random walks.

    python3 tests/compare_streams.py REFERENCE_FOLDER PROGRAM [COUNT [SEED]]

REFERENCE_FOLDER has the package `plain`; without it nothing is compared, and that is said. PROGRAM is the built
`tool_transports`, and COUNT the number of walks, 2000 if it is left out. A walk asks, also for transfers, writes, cuts
frames into pieces, answers rightly and wrongly, tells faults, gives requests up and lets time pass. Outs, results in
order, timers with their numbers, and whether the connection is closed are compared after each line.
"""

import random
import subprocess
import sys

from reference import wire_of

FAULTS = ("refused", "reset", "unreachable", "in-use", "broken", "other")
EVENT_HEADS = ("wrote", "write-failed", "bytes", "read-failed", "ended", "opened", "open-failed", "send-failed",
               "short-send", "datagram", "recv-failed", "tick")


def question(rng):
    labels = rng.choice(((b"example", b"com"), (b"a", b"b"), (b"WWW", b"example", b"com")))
    name = b"".join(bytes([len(label)]) + label for label in labels) + b"\0"
    return name + bytes([0, rng.choice((1, 28, 16))]) + b"\0\1"


def base(rng):
    """A base message: a question, now and then more or less than that, or a large record."""
    shape = rng.random()
    if shape < 0.03:
        return b"\0\0" + bytes([rng.choice((0, 8, 40))]) + b"\0" + bytes(8)
    if shape < 0.06:
        data = bytes(rng.choice((100, 40000, 65535)))
        record = b"\0\xff\0\0\1\0\0\0\0" + len(data).to_bytes(2, "big") + data
        return b"\0\0\1\0\0\1" + bytes([0, rng.choice((1, 2))]) + bytes(4) + question(rng) + record * 2
    return b"\0\0\1\0\0\1" + bytes(6) + question(rng)


def zone_base(rng):
    """A base message that asks for a zone or its changes, now and then with more than that."""
    asked = question(rng)[:-3] + bytes([rng.choice((252, 252, 251))]) + b"\0\1"
    shape = rng.random()
    if shape < 0.03:
        return b"\0\0\1\0\0\2" + bytes(6) + asked * 2
    if shape < 0.06:
        return b"\0\0\1\0\0\1\0\1" + bytes(4) + asked
    if shape < 0.09:
        record = b"\0\xff\0\0\1\0\0\0\0" + (40000).to_bytes(2, "big") + bytes(40000)
        return b"\0\0\1\0\0\1" + bytes([0, 0, 0, 2, 0, 0]) + asked + record * 2
    return b"\0\0\1\0\0\1" + bytes(6) + asked


def zone_record(rng, serials):
    """A record of a zone: an SOA, an address, one whose data can't be read, or one of a type of its own."""
    kind = rng.random()
    if kind < 0.45:
        data = b"\0\0" + bytes(3) + bytes([rng.choice(serials)]) + bytes(16)
        return b"\0\0\6\0\1\0\0\0\0" + len(data).to_bytes(2, "big") + data
    if kind < 0.95:
        return b"\0\0\1\0\1\0\0\0\0\0\4\xc0\0\2\1"
    if kind < 0.97:
        return b"\0\0\1\0\1\0\0\0\0\0\3\xc0\0\2"
    return b"\0\xff\0\0\1\0\0\0\0\0\1\1"


def opt_words(rng):
    """A recorded OPT record, or none."""
    shape = rng.random()
    if shape < 0.8:
        return None
    options = b""
    if shape < 0.85:
        options = b"\0\3" + (65527).to_bytes(2, "big") + bytes(65527)
    elif shape < 0.9:
        options = b"\0\x0a\0\2hi"
    return b"\0\0\x29\4\xd0\0\0\0\0" + len(options).to_bytes(2, "big") + options


def keepalive(rng, zero):
    """An OPT record with options, among them edns-tcp-keepalive of several lengths."""
    options = b""
    for _ in range(rng.choice((1, 1, 2, 3))):
        data = rng.choice((b"", b"\0", zero, b"\0\5", b"\1\0", b"\0\1\2"))
        options += rng.choice((b"\0\x0b", b"\0\x0b", b"\0\x0a")) + len(data).to_bytes(2, "big") + data
    return b"\0\0\x29\4\xd0\0\0\0\0" + len(options).to_bytes(2, "big") + options


class Walker:
    def __init__(self, modules, seed):
        self.m = modules
        self.rng = random.Random(seed)
        rng = self.rng
        config = modules.settings.StreamConfig()
        response = rng.choice((19000000, 19000000, 1000, 5000000))
        idle = rng.choice((10000000, 10000000, 10000000, 0, 1000000))
        streaming = rng.choice((response, 19000000, 7000000, 1000))
        config.set("response_timeout", response)
        config.set("streaming_response_timeout", streaming)
        config.set("idle_timeout", idle)
        self.lines = ["walk %d %d %d" % (response, streaming, idle)]
        self.expected = []
        self.connection = modules.stream.StreamConnection(0, config)
        self.cx = modules.machine.Cx(modules.machine.ListWords())
        self.cx.place = 1
        self.pieces = b""       # octets that the server wrote and that did not come yet
        self.asked = 0
        self.zones = rng.choice((0, 0.05, 0.12, 0.25))     # how often what is asked is a transfer
        self.hurry = rng.choice((0, 0, 0.01, 0.06))
        self.rude = rng.choice((0, 0, 0.3, 1))     # how often what ends a connection comes

    def state(self):
        due = self.cx.timers.next_due()
        closed = "true" if self.connection.is_closed() else "false"
        if due is None:
            return "no timer " + closed
        return "timer %d due %d %s" % (due[1], due[0], closed)

    def fire(self):
        while True:
            timer = self.cx.timers.fire(self.cx.now)
            if timer is None:
                return
            self.connection.step(self.cx, ("due", timer))

    def event(self, what):
        cx = self.cx
        self.fire()
        cx.outs = cx.outs if cx.outs else []
        if what[0] == "ask":
            cx.request = cx.ticket
            self.connection.get_request(cx, what[1])
            self.asked += 1
        else:
            cx.more = False
            self.connection.step(cx, ("told", what))
            while cx.more:
                cx.more = False
                self.connection.step(cx, ("more", what[1]))
        self.tell(self.m.script.event_line((cx.now, what)), what)

    def tell(self, line, what):
        """A line, and the row of an event that is printed for it. The end of a transfer is told as `AlreadyDone`."""
        cx = self.cx
        for ticket, result in self.connection.take_results():
            cx.outs.append(("reply", ticket, self.m.request.err("AlreadyDone") if result is None else result))
        event = (cx.now, what)
        self.lines.append(line)
        text = self.m.script.trace_text([(event, cx.outs)]).decode()
        self.expected.append(text + self.state() + "\n")
        cx.outs = []

    def transfer(self, octets):
        cx = self.cx
        self.fire()
        cx.request = cx.ticket
        self.connection.get_streaming_request(cx, self.m.request.RequestMessageMulti(octets))
        self.asked += 1
        self.tell("transfer %d %s" % (cx.now, octets.hex()), ("tick",))

    def cancel(self, ticket):
        self.connection.cancel(self.cx, ticket)
        self.lines.append("cancel %d" % ticket)
        self.expected.append(self.state() + "\n")

    def answer(self):
        """A frame of the server: an answer to a request that holds an id, or nearly so."""
        rng = self.rng
        held = sorted(self.connection.queries.items)
        ident = rng.choice(held) if held and rng.random() < 0.9 else rng.choice((0, 1, 2, 7, 65535))
        asked = b"\0\1" + bytes(6) + question(rng)
        r = self.connection.queries.items.get(ident)
        if r is not None and rng.random() < 0.85:
            octets = r.request.base.msg.octets
            asked = octets[4:12] + octets[12:]
            if len(asked) > 200:
                asked = bytes(8)
        flags = bytes([rng.choice((0x81, 0x81, 0x81, 0x81, 1)), rng.choice((0x80, 0x80, 0x80, 0x82))])
        if r is not None and r.multi:
            asked = self.zone_part(r, asked)
        message = bytearray(ident.to_bytes(2, "big") + flags + asked)
        if rng.random() < 0.3:
            message[11:12] = b"\1"
            message += keepalive(rng, b"\0\0" if rng.random() < self.rude else b"\1\1")
        if rng.random() < 0.04 * self.rude:
            message = message[:rng.randrange(12)]
        return len(message).to_bytes(2, "big") + bytes(message)

    def zone_part(self, r, asked):
        """Counts, question and records of a message for a transfer, with or without the question."""
        rng = self.rng
        begins = r.state[0] in ("AxfrInit", "IxfrInit")
        records = [zone_record(rng, (7, 7, 8)) for _ in range(rng.choice((0, 1, 1, 2, 3)))]
        if begins and rng.random() < 0.8:
            records.insert(0, b"\0\0\6\0\1\0\0\0\0\0\x16" + bytes(5) + b"\7" + bytes(16))
        count = len(records) + (rng.random() < 0.02)
        if rng.random() < (0.2 if begins else 0.6):
            return bytes([0, 0, 0, count, 0, 0, 0, 0]) + b"".join(records)
        return asked[:2] + bytes([0, count, 0, 0, 0, 0]) + asked[8:] + b"".join(records)

    def step(self):
        rng, cx = self.rng, self.cx
        due = cx.timers.next_due()
        if due is not None and rng.random() < self.hurry:
            cx.now = max(cx.now, due[0] - rng.choice((0, 1, 0)))
        else:
            cx.now += rng.choice((0, 0, 1, 10, 1000, 100000))
        kind = rng.random()
        if 0.85 <= kind < 0.88 and rng.random() >= self.rude:
            kind = 0.3
        writing = self.connection.writing
        if kind < self.zones:
            return self.transfer(zone_base(rng))
        if kind < 0.25:
            opt = opt_words(rng)
            record = self.m.wire.OptRecord.from_octets(opt) if opt is not None else None
            octets = base(rng)
            try:
                request = self.m.request.RequestMessage(octets, octets[:4], record)
            except self.m.request.FormError:
                return self.event(("tick",))
            return self.event(("ask", request))
        if kind < 0.5 and writing is not None:
            count = rng.choice((len(writing), len(writing), len(writing), 1, len(writing) // 2 + 1, len(writing) + 9))
            return self.event(("wrote", 0, count))
        if kind < 0.75:
            if rng.random() < 0.8:
                for _ in range(rng.choice((1, 1, 1, 2, 3))):
                    self.pieces += self.answer()
            size = len(self.pieces) if rng.random() < 0.6 else rng.randrange(len(self.pieces) + 1)
            piece, self.pieces = self.pieces[:size], self.pieces[size:]
            return self.event(("bytes", 0, piece))
        if kind < 0.83 and self.asked:
            return self.cancel(rng.randrange(self.asked))
        if kind < 0.85:
            return self.event(("wrote", rng.choice((0, 1, 1)), rng.choice((0, 1, 5) if self.rude else (1, 5))))
        if kind < 0.87:
            return self.event((rng.choice(("read-failed", "write-failed")), rng.choice((0, 1)), rng.choice(FAULTS)))
        if kind < 0.88:
            return self.event(("ended", rng.choice((0, 0, 1))))
        if kind < 0.9:
            return self.event(rng.choice((("opened", 0), ("open-failed", 0, "refused"), ("send-failed", 0, "reset"),
                                          ("short-send", 0), ("datagram", 0, b"\0\1"), ("bytes", 1, b"\0\0"))))
        return self.event(("tick",))


def modules_of(folder):
    wire_of(folder)
    from plain import machine, request, script, settings, stream, wire

    class Modules:
        pass

    modules = Modules()
    for module in (machine, request, script, settings, stream, wire):
        setattr(modules, module.__name__.split(".")[-1], module)
    return modules


def first_difference(got, wanted):
    """The first line that differs, with the two before it."""
    for i, line in enumerate(wanted):
        if i >= len(got) or got[i] != line:
            return "after %r wanted %r got %r" % (wanted[max(0, i - 2):i], line[:300], got[i:i + 1])
    return "no line differs"


def main():
    modules = modules_of(sys.argv[1])
    program = sys.argv[2].split()
    count = int(sys.argv[3]) if len(sys.argv) > 3 else 2000
    first = int(sys.argv[4]) if len(sys.argv) > 4 else 1
    walkers, heads = [], {}
    for seed in range(first, first + count):
        walkers.append(Walker(modules, seed))
        for _ in range(walkers[-1].rng.choice((5, 20, 60, 150))):
            walkers[-1].step()
    asked = "".join("streams stream %s\n" % line for walker in walkers for line in walker.lines)
    ran = subprocess.run(program, input=asked.encode(), capture_output=True, timeout=600)
    got, at, failed = ran.stdout.decode().split("\n"), 0, 0
    for walker in walkers:
        wanted = "".join(walker.expected).split("\n")[:-1]
        for word in " ".join(wanted).split():
            heads[word] = heads.get(word, 0) + 1
        if got[at:at + len(wanted)] != wanted:
            failed += 1
            print("seed %d:" % (first + walkers.index(walker)), first_difference(got[at:], wanted))
        at += len(wanted)
    lines = sum(len(walker.lines) for walker in walkers)
    errors = {word: n for word, n in heads.items() if word in modules.request.DISPLAY or word in ("write", "resume", "close", "ok")}
    print("%d walks of %d lines: %d passed, %d failed; %s" % (count, lines, count - failed, failed, errors))
    return 1 if failed else 0


if __name__ == "__main__":
    sys.exit(main())
