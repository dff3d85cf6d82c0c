"""Wrong traces: a trace's text with one thing changed, or two, by a seeded choice."""

MOMENTS = (1, 1000, 999999, 1000000, 4999999, 5000000, 5000001, 10000000, 19000001, 29999999, 30000000, 60000000)
ERRORS = ("TimedOut", "NoTransportAvailable", "WrongReplyForQuery", "StreamReadTimeout", "MessageParseError",
          "MessageBuilderPushError", "ConnectionClosed", "Dgram Timeout expired", "Dgram Send short-send",
          "Dgram Connect refused", "Dgram Send reset", "Dgram Receive reset", "StreamReadError reset")
# the word of each kind of out that is its place, its request, its server, its id and its octets
PLACE = {"open-dgram": 1, "open-stream": 1, "send": 1, "write": 1, "resume": 1, "close": 1}
REQUEST = {"start": 1, "send": 2, "write": 2, "reply": 1}
SERVER = {"start": 2, "open-dgram": 2, "open-stream": 2}
ID = {"send": 3, "write": 3}
OCTETS = {"send": 4, "write": 4, "resume": 2, "datagram": 4, "bytes": 4}


GREATEST_MOMENT = 2**64 - 1


def moved(word, by):
    """A moment that is later by so much."""
    return str(max(0, min(GREATEST_MOMENT, int(word) + by)))


class Text:
    """The rows of a trace as words: those of the event, and those of each out."""

    def __init__(self, text):
        self.rows = []
        for line in text.decode().split("\n")[1:]:
            words = line.split(" ")
            if words[0] == "at":
                self.rows.append((words, []))
            elif words[0] == ">":
                self.rows[-1][1].append(words[1:])

    def text(self):
        lines = ["trace 2" if self.outs(("stale",)) else "trace 1"]
        for event, outs in self.rows:
            lines.append(" ".join(event))
            lines += ["> " + " ".join(out) for out in outs]
        return ("\n".join(lines + ["end"]) + "\n").encode()

    def outs(self, kinds=None):
        """Row and place of each out of these kinds."""
        return [(i, n) for i, (_, outs) in enumerate(self.rows) for n, out in enumerate(outs)
                if kinds is None or out[0] in kinds]

    def greatest(self, table):
        return max((int(out[table[out[0]]]) for _, outs in self.rows for out in outs if out[0] in table), default=0)


def some_out(random, trace, kinds=None):
    found = trace.outs(kinds)
    if not found:
        return None
    i, n = random.choice(found)
    return i, n, trace.rows[i][1]


def drop(random, trace, kinds=None):
    found = some_out(random, trace, kinds)
    return found and found[2].pop(found[1])


def drop_close(random, trace):
    return drop(random, trace, ("close",))


def drop_reply(random, trace):
    return drop(random, trace, ("reply",))


def duplicate(random, trace):
    found = some_out(random, trace)
    if found:
        i, n, outs = found
        others = trace.rows[random.randrange(i, len(trace.rows))][1] if random.random() < 0.5 else outs
        others.insert(random.randint(0, len(others)), list(outs[n]))
    return found


def swap(random, trace):
    rows = [outs for _, outs in trace.rows if len(outs) > 1]
    if not rows:
        return None
    outs = random.choice(rows)
    a, b = random.sample(range(len(outs)), 2)
    outs[a], outs[b] = outs[b], outs[a]
    return True


def move(random, trace):
    """An out stands in a row before or behind its own."""
    found = some_out(random, trace)
    if found:
        i, n, outs = found
        j = max(0, min(len(trace.rows) - 1, i + random.choice((-2, -1, 1, 1, 2, 3))))
        others = trace.rows[j][1]
        out = outs.pop(n)
        others.insert(random.randint(0, len(others)), out)
    return found


def renumber(random, trace, table):
    found = some_out(random, trace, table)
    if found:
        _, n, outs = found
        at, most = table[outs[n][0]], trace.greatest(table)
        old = int(outs[n][at])
        choices = [x for x in (old - 1, old + 1, random.randint(0, most), random.randint(0, most), most + 1) if x >= 0]
        outs[n][at] = str(min(65535, random.choice(choices)))
    return found


def change_place(random, trace):
    return renumber(random, trace, PLACE)


def change_request(random, trace):
    return renumber(random, trace, REQUEST)


def change_server(random, trace):
    return renumber(random, trace, SERVER)


def change_id(random, trace):
    return renumber(random, trace, ID)


def change_via(random, trace):
    found = some_out(random, trace, ("start", "open-dgram", "open-stream"))
    if found:
        _, n, outs = found
        out = outs[n]
        if out[0] == "start":
            out[3] = "stream" if out[3] == "dgram" else "dgram"
        else:
            out[0] = "open-stream" if out[0] == "open-dgram" else "open-dgram"
    return found


def changed(random, word):
    """Octets with one changed; now and then with fewer, or the case of a letter."""
    octets = bytearray(bytes.fromhex("" if word == "-" else word))
    way = random.random()
    if not octets:
        octets = bytearray(1)
    elif way < 0.15 and len(octets) > 12:
        octets = octets[:random.randint(12, len(octets) - 1)]
    elif way < 0.25:
        octets += bytes(random.randint(1, 3))
    elif way < 0.4 and [i for i, x in enumerate(octets) if i > 11 and chr(x).isalpha() and x < 128]:
        octets[random.choice([i for i, x in enumerate(octets) if i > 11 and chr(x).isalpha() and x < 128])] ^= 0x20
    elif way < 0.7:
        octets[random.randrange(min(14, len(octets)))] ^= 1 << random.randrange(8)
    else:
        octets[random.randrange(len(octets))] ^= 1 << random.randrange(8)
    return octets.hex()


def change_octets(random, trace):
    found = some_out(random, trace, ("send", "write", "resume"))
    if found:
        _, n, outs = found
        at = OCTETS[outs[n][0]]
        outs[n][at] = changed(random, outs[n][at])
    return found


def messages_of(trace):
    """What came or was given in a trace, as far as it is a message."""
    found = [out[3] for _, outs in trace.rows for out in outs if out[0] == "reply" and out[2] == "ok"]
    found += [event[4] for event, _ in trace.rows if event[2] == "datagram" and 24 <= len(event[4]) <= 4000]
    return found + [event[4][4:] for event, _ in trace.rows if event[2] == "bytes" and len(event[4]) >= 28]


def change_reply(random, trace):
    """Another message or another error."""
    found = some_out(random, trace, ("reply",))
    if not found:
        return None
    out, way, others = found[2][found[1]], random.random(), messages_of(trace)
    if out[2] == "ok" and way < 0.5:
        out[3:] = [changed(random, out[3])]
    elif way < 0.75 and others:
        out[2:] = ["ok", random.choice(others)]
    else:
        errors = [out_of[3:] for _, outs in trace.rows for out_of in outs if out_of[0] == "reply" and out_of[2] == "err"]
        words = random.choice(ERRORS).split(" ")
        out[2:] = ["err"] + (random.choice(errors) if errors and random.random() < 0.5 else words)
    return True


def change_moment(random, trace):
    event = random.choice(trace.rows)[0]
    event[1] = moved(event[1], random.choice(MOMENTS) * random.choice((1, 1, -1)))
    return True


def shift_moments(random, trace):
    """All rows from one on are later, or earlier."""
    first, by = random.randrange(len(trace.rows)), random.choice(MOMENTS) * random.choice((1, 1, 1, -1))
    for event, _ in trace.rows[first:]:
        event[1] = moved(event[1], by)
    return True


def add_close(random, trace):
    opened = [out[1] for i, n in trace.outs(("open-dgram", "open-stream")) for out in [trace.rows[i][1][n]]]
    if not opened:
        return None
    place = random.choice(opened[-8:] if random.random() < 0.5 else opened)
    rows = [outs for event, outs in trace.rows if len(event) > 3 and event[3] == place]
    outs = random.choice(rows) if rows and random.random() < 0.6 else random.choice(trace.rows)[1]
    outs.insert(random.randint(0, len(outs)), ["close", place])
    return True


def add_reply(random, trace):
    asked = sum(event[2] == "ask" for event, _ in trace.rows)
    outs, others = random.choice(trace.rows)[1], messages_of(trace)
    result = ["ok", random.choice(others)] if others and random.random() < 0.4 else ["err"] + random.choice(ERRORS).split(" ")
    outs.insert(random.randint(0, len(outs)), ["reply", str(random.randint(0, asked))] + result)
    return True


def change_event(random, trace):
    """What came is changed, or nothing happened."""
    event = random.choice(trace.rows)[0]
    if event[2] in ("datagram", "bytes") and random.random() < 0.6:
        event[4] = changed(random, event[4])
    elif event[2] == "ask":
        return None
    elif event[2] == "wrote" and random.random() < 0.5:
        event[4] = str(random.choice((0, 1, 5, 65537)))
    else:
        event[2:] = ["tick"]
    return True


def drop_stale(random, trace):
    """A stale reply has no mark."""
    return drop(random, trace, ("stale",))


def add_stale(random, trace):
    """A reply is marked that is not stale."""
    found = some_out(random, trace, ("reply",))
    if not found:
        return None
    _, n, outs = found
    outs.insert(n, ["stale", outs[n][1]])
    return True


def drop_row(random, trace):
    rows = [i for i, (event, _) in enumerate(trace.rows) if event[2] != "ask"]
    return rows and trace.rows.pop(random.choice(rows))


WAYS = (drop, drop_close, drop_reply, duplicate, swap, move, move, change_place, change_request, change_server, change_id,
        change_via, change_octets, change_octets, change_reply, change_reply, change_reply, change_moment, change_moment,
        shift_moments, add_close, add_close, add_reply, change_event, drop_row,
        drop_stale, add_stale)


def mutated(random, text):
    """The changed text, and the names of what was done."""
    trace, done = Text(text), []
    count = 1 if random.random() < 0.8 else 2
    while len(done) < count:
        way = random.choice(WAYS)
        if trace.rows and way(random, trace):
            done.append(way.__name__)
    return trace.text(), "+".join(done)
