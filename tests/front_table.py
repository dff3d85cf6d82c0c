"""Writes the end of the stored run of `tool_lookups`: queries of DNS clients as they come, odd ones among them, and what becomes of each;
and scenes of a forwarder. They stand behind its line of which this begins with MARK.

usage: python3 tests/front_table.py [--check]

What the program must print is made here, message by message, and not by the program. With --check nothing is written, and
the status is 1 where the stored files are others.
"""

import pathlib
import struct
import sys

FOLDER = pathlib.Path(__file__).resolve().parent.parent / "crates" / "tool_lookups"
MARK = "# Queries of DNS clients"
NAME = "h20.example.com"


def name(text):
    return b"".join(bytes([len(label)]) + label.encode() for label in text.split(".") if label) + b"\0"


def head(flags, questions=0, answer=0, authority=0, additional=0, number=0x4242):
    return struct.pack(">HHHHHH", number, flags, questions, answer, authority, additional)


def question(text=NAME, rtype=1, rclass=1):
    return name(text) + struct.pack(">HH", rtype, rclass)


def opt(high=0, version=0, flags=0, options=b"", size=1232, owner=b"\0"):
    return owner + struct.pack(">HHBBHH", 41, size, high, version, flags, len(options)) + options


def record(rtype, data, owner=b"\xc0\x0c", rclass=1, ttl=100):
    return owner + struct.pack(">HHIH", rtype, rclass, ttl, len(data)) + data


COOKIE = struct.pack(">HH", 10, 8) + b"12345678"
A = record(1, b"\xc0\0\2\1")
SPELLED_A = record(1, b"\1\2\3\4", name("x.example.com"))
TSIG = record(250, name("hmac-sha256") + bytes(16), name("key"), 255, 0)
TEXT = record(16, (b"\xc8" + b"x" * 200) * 3)
LONG_TEXT = record(16, (b"\xc8" + b"x" * 200) * 7)
lines, answers = [], []


def says(query, *what):
    """A query, and what is printed for it."""
    lines.append("front " + query.hex())
    answers.extend((*what, "end"))


def replied(query, reply, *what):
    """The same with the reply to its request, or none."""
    lines.append("front " + query.hex() + " " + (reply.hex() if reply else "-"))
    answers.extend((*what, "end"))


def asks(flags=0x0100, number=0x4242, dnssec=False, **asked):
    message = head(flags, 1, 0, 0, int(dnssec), number) + question(**asked)
    return "asks " + (message + (opt(flags=0x8000) if dnssec else b"")).hex()


def refused(flags, number=0x4242, behind=b""):
    return "refused " + (head(flags, 0, 0, 0, 1 if behind else 0, number) + behind).hex()


def both(datagram, frame=None):
    frame = frame or datagram
    return "datagram " + datagram.hex(), "frame " + (struct.pack(">H", len(frame)) + frame).hex()


def plain(number=0x4242):
    return head(0x0100, 1, number=number) + question()


def odd():
    """What is no plain query, each before a plain one of the same name, which is asked as ever."""
    formerr = refused(0x8101)
    rows = [
        (head(0x0100, 1, 1) + question() + SPELLED_A, formerr),
        (head(0x0100, 1, 0, 1) + question() + SPELLED_A, formerr),
        (head(0x0100, 1, 0, 0, 1) + question() + SPELLED_A, formerr),
        (head(0x0100, 1, 0, 0, 1) + question() + TSIG, formerr),
        (head(0x0100, 1, 0, 0, 2) + question() + opt() + opt(), formerr),
        (head(0x0100, 1, 0, 0, 1) + question() + opt(owner=name("a")), formerr),
        (head(0x0100, 1, 0, 0, 1) + question() + opt(options=b"\0\1\0\5a"), formerr),
        (head(0x0100, 1, 0, 0, 1) + question(), formerr),
        (head(0x0100, 2) + question(), formerr),
        (head(0x0100), formerr),
        (head(0x0100, 1) + name(NAME), formerr),
        (head(0x0100, 1, 0, 0, 1) + question() + opt(version=1), refused(0x8100, behind=opt(1))),
        (head(0x0100, 1, 0, 0, 1) + question() + opt(version=9, flags=0x8000), refused(0x8100, behind=opt(1, flags=0x8000))),
        (head(0x0100, 1) + question(rtype=252), refused(0x8105)),
        (head(0x0100, 1, 0, 1) + question(rtype=251) + SPELLED_A, refused(0x8105)),
        (head(0x2400, 1) + question(rtype=6), refused(0xA004)),
        (head(0x2800, number=1), refused(0xA804, number=1)),
        (head(0x8100, 1) + question(), "ignored"),
        (head(0x0100)[:11], "ignored"),
        (head(0x0105, 1) + question(), asks()),
        (head(0x0300, 1) + question(), asks()),
        (head(0x0540, 1) + question(), asks()),
        (head(0x0000, 1) + question(), asks(0x0000)),
        (head(0x0130, 1) + question(), asks(0x0130)),
        (head(0x0100, 1) + question() + b"junk", asks()),
        (head(0x0100, 1, 0, 0, 1) + question() + opt(options=COOKIE), asks()),
        (head(0x0100, 1, 0, 0, 1) + question() + opt(size=0), asks()),
        (head(0x0100, 1, 0, 0, 1) + question() + opt(size=65535, flags=0xFFFF, options=COOKIE), asks(dnssec=True)),
        (head(0x0100, 1) + question(rtype=255), asks(rtype=255)),
        (head(0x0100, 1) + question(rclass=3), asks(rclass=3)),
        (head(0x0100, 1) + question(text="H20.eXample.com"), asks(text="H20.eXample.com")),
        (head(0x0100, 1, number=0) + b"\xc0\0\0\1\0\1", asks(text="", number=0)),
    ]
    rows += [(head(0x0100, 1) + question(rtype=rtype), formerr) for rtype in (41, 249, 250, 253, 254)]
    for query, what in rows:
        says(query, what)
        says(plain(), asks())


def answered():
    """Replies, and what clients get of them: under their ids, by their spelling, with the OPT record that they may have."""
    reply = head(0x8180, 1, 1, number=0x1234) + question() + A
    mine = head(0x8180, 1, 1) + question() + A
    replied(plain(), reply, asks(), *both(mine))
    replied(plain(0xBEEF), reply, asks(number=0xBEEF), *both(head(0x8180, 1, 1, number=0xBEEF) + question() + A))
    replied(plain(), None, asks(), *both(head(0x8102, 1) + question()))
    odd_name = "h20.EXAMPLE.com"
    replied(head(0x0100, 1) + question(odd_name), reply, asks(text=odd_name), *both(head(0x8180, 1, 1) + question(odd_name) + A))
    with_opt = head(0x8180, 1, 1, 0, 1, 0x1234) + question() + A + opt(options=COOKIE, size=4096)
    replied(plain(), with_opt, asks(), *both(mine))
    extended = head(0x0100, 1, 0, 0, 1) + question()
    replied(extended + opt(options=COOKIE), with_opt, asks(), *both(head(0x8180, 1, 1, 0, 1) + question() + A + opt()))
    replied(extended + opt(flags=0x8000), with_opt, asks(dnssec=True), *both(head(0x8180, 1, 1, 0, 1) + question() + A + opt(flags=0x8000)))
    replied(extended + opt(flags=0x8000), None, asks(dnssec=True), *both(head(0x8102, 1, 0, 0, 1) + question() + opt(flags=0x8000)))
    beyond = head(0x8180, 1, 0, 0, 1, 0x1234) + question() + opt(high=1)
    replied(plain(), beyond, asks(), *both(head(0x8102, 1) + question()))
    replied(extended + opt(), beyond, asks(), *both(head(0x8180, 1, 0, 0, 1) + question() + opt(high=1)))
    cut_short = head(0x8180, 1, 1, number=0x1234) + question()
    replied(plain(), cut_short, asks(), *both(head(0x8102, 1) + question()))
    replied(plain(), head(0x8185, number=0x1234), asks(), *both(head(0x8185)))
    text = head(0x8180, 1, 1, number=0x1234) + question(rtype=16) + TEXT
    asked = question(rtype=16)
    short = head(0x8380, 1) + asked
    replied(head(0x0100, 1) + asked, text, asks(rtype=16), *both(short, head(0x8180, 1, 1) + asked + TEXT))
    wide = head(0x0100, 1, 0, 0, 1) + asked
    whole = head(0x8180, 1, 1, 0, 1) + asked + TEXT + opt()
    replied(wide + opt(), text, asks(rtype=16), *both(whole))
    replied(wide + opt(size=100), text, asks(rtype=16), *both(head(0x8380, 1, 0, 0, 1) + asked + opt(), whole))
    long = head(0x8180, 1, 1, number=0x1234) + asked + LONG_TEXT
    replied(wide + opt(size=4096), long, asks(rtype=16), *both(head(0x8380, 1, 0, 0, 1) + asked + opt(), head(0x8180, 1, 1, 0, 1) + asked + LONG_TEXT + opt()))


def alike():
    """Replies whose records all belong to the question's name, which are answered as they stand, and replies that are nearly so."""
    six = record(28, bytes(range(16)))
    sent = question() + A + record(1, b"\1\2\3\4", ttl=0) + record(16, b"\0") + six
    extended = head(0x0100, 1, 0, 0, 1) + question() + opt(flags=0x8000)
    for flags in (0x8180, 0x85B0, 0x8183):
        reply = head(flags, 1, 2, 1, 2, 0x1234) + sent + opt(version=3, flags=0x1234, size=512)
        replied(plain(), reply, asks(), *both(head(flags, 1, 2, 1, 1) + sent))
        replied(extended, reply, asks(dnssec=True), *both(head(flags, 1, 2, 1, 2) + sent + opt(flags=0x8000)))
    # without an OPT record, with octets behind the last record, and without records
    reply = head(0x8180, 1, 2, 1, 1, 0x1234) + sent
    for more in (b"", b"junk"):
        replied(plain(), reply + more, asks(), *both(head(0x8180, 1, 2, 1, 1) + sent))
        replied(extended, reply + more, asks(dnssec=True), *both(head(0x8180, 1, 2, 1, 2) + sent + opt(flags=0x8000)))
    replied(extended, head(0x8180, 1, number=0x1234) + question() + b"junk", asks(dnssec=True), *both(head(0x8180, 1, 0, 0, 1) + question() + opt(flags=0x8000)))
    # an OPT record that is not the last, that belongs to the question's name, or that stands in another section
    early = head(0x8180, 1, 1, 0, 2, 0x1234) + question() + A + opt() + six
    replied(extended, early, asks(dnssec=True), *both(head(0x8180, 1, 1, 0, 2) + question() + A + six + opt(flags=0x8000)))
    named = head(0x8180, 1, 1, 0, 1, 0x1234) + question() + A + opt(owner=b"\xc0\x0c")
    replied(plain(), named, asks(), *both(head(0x8180, 1, 1) + question() + A))
    answer = head(0x8180, 1, 2, number=0x1234) + question() + A + opt(owner=b"\xc0\x0c")
    replied(plain(), answer, asks(), *both(head(0x8180, 1, 2) + question() + A + opt(owner=b"\xc0\x0c")))
    twice = head(0x8180, 1, 1, 0, 2, 0x1234) + question() + A + opt() + opt(options=COOKIE)
    replied(plain(), twice, asks(), *both(head(0x8180, 1, 1) + question() + A))
    # owners that are written anew: spelled out, of other case, a suffix of the question's name, and another name
    spelled = head(0x8180, 1, 1, number=0x1234) + question() + record(1, b"\xc0\0\2\1", name("H20.example.COM"))
    replied(plain(), spelled, asks(), *both(head(0x8180, 1, 1) + question() + A))
    above = record(1, b"\xc0\0\2\1", b"\xc0\x10")
    replied(plain(), head(0x8180, 1, 1, number=0x1234) + question() + above, asks(), *both(head(0x8180, 1, 1) + question() + above))
    twice = record(1, b"\xc0\0\2\1", b"\3www\xc0\x0c") + record(1, b"\xc0\0\2\2", b"\3www\xc0\x0c")
    replied(plain(), head(0x8180, 1, 2, number=0x1234) + question() + twice, asks(), *both(head(0x8180, 1, 2) + question() + record(1, b"\xc0\0\2\1", b"\3www\xc0\x0c") + record(1, b"\xc0\0\2\2", b"\xc0\x21")))
    # data with names in it, which are written anew
    alias = head(0x8180, 1, 1, number=0x1234) + question() + record(5, name("www.example.com"))
    replied(plain(), alias, asks(), *both(head(0x8180, 1, 1) + question() + record(5, b"\3www\xc0\x10")))
    target = struct.pack(">HHH", 0, 5, 5060) + b"\xc0\x10"
    service = head(0x8180, 1, 1, number=0x1234) + question(rtype=33) + record(33, target)
    replied(head(0x0100, 1) + question(rtype=33), service, asks(rtype=33), *both(head(0x8180, 1, 1) + question(rtype=33) + record(33, target[:6] + name("example.com"))))
    # data of an address that has another length is copied all the same, and the root has no place to point to
    short = record(1, b"\1\2\3") + record(28, b"") + record(16, b"\5x")
    replied(plain(), head(0x8180, 1, 3, number=0x1234) + question() + short, asks(), *both(head(0x8180, 1, 3) + question() + short))
    root = question("") + record(16, b"\1x")
    replied(head(0x0100, 1) + question(""), head(0x8180, 1, 1, number=0x1234) + root, asks(text=""), *both(head(0x8180, 1, 1) + question("") + record(16, b"\1x", b"\0")))
    # what ends before its records do
    whole = head(0x8180, 1, 2, 1, 2, 0x1234) + sent + opt()
    for cut in (1, 11, 12, 20, len(whole) - 40):
        replied(plain(), whole[:-cut], asks(), *both(head(0x8102, 1) + question()))
    # 1232 octets, as many as a datagram may have, and one more
    for count in (1176, 1177):
        raw = question() + record(65280, bytes(count))
        whole = head(0x8180, 1, 1, 0, 1) + raw + opt()
        datagram = whole if count == 1176 else head(0x8380, 1, 0, 0, 1) + question() + opt()
        replied(head(0x0100, 1, 0, 0, 1) + question() + opt(size=4096), head(0x8180, 1, 1, number=0x1234) + raw, asks(), *both(datagram, whole))


STREAM = 1 << 62


def asked(number, rclass=1):
    return head(0x0100, 1, number=number) + question("h.example", rclass=rclass)


def scene(test, about, quiet, told, *steps, serves="asks", puts="reply"):
    """A forwarder whose client puts something out after so many events. A step has what happens, and what is put out for it; the client was told
    `told` events in the end."""
    lines.extend((f"# front {test}: {about}", f"front scene {quiet} {serves} {puts}"))
    answers.append("end")
    for count, (what, *outs) in enumerate(steps, told - len(steps) + 1):
        lines.append("front tells " + what)
        answers.extend((*outs, f"told {count}", "end"))


def by(word, peer, octets=b""):
    return f"{word} {peer} {octets.hex() or '-'}"


def gets(peer, octets):
    return f"answer {peer} {octets.hex()}"


def scenes():
    """What a forwarder does with queries that wait, and with streams."""
    never = 2 ** 64 - 1

    def reply(number):
        return head(0x8183, 1, number=number) + question("h.example")

    def frame(message):
        return struct.pack(">H", len(message)) + message

    whole = frame(asked(5))
    first, tick, close = by("accepted", STREAM), "tick -", "close 1"
    scene("events_and_outs_are_copied", "a tick, of which a close comes, and an octet of a stream", 0, 2, (tick, close), (by("bytes", 7, b"\3"),), puts="close")
    scene("the_quietest_of_100_streams_is_dropped", "the first one gave an octet", never, 102,
          ("streams 100",), (by("bytes", STREAM, b"\0"),), (by("accepted", STREAM + 100), f"drop {STREAM + 1}"))
    scene("another_opcode_is_refused", "and time goes on for the client", 9, 1, (by("datagram", 7, head(0x2800, number=1)), gets(7, head(0xA804, number=1))))
    scene("equal_questions_are_asked_once", "each gets the reply under its own id", 2, 3,
          (by("datagram", 7, asked(7)),), (by("datagram", 8, asked(3)),), (tick, gets(7, reply(7)), gets(8, reply(3))))
    scene("a_query_that_comes_in_pieces_is_answered", "by a stream, in two pieces", 2, 3,
          (first,), (by("bytes", STREAM, whole[:6]),), (by("bytes", STREAM, whole[6:]), gets(STREAM, frame(reply(5)))))
    scene("a_stream_that_is_gone_is_not_answered", "it goes before its reply", 3, 4,
          (first,), (by("bytes", STREAM, whole),), (by("gone", STREAM),), (tick,))
    scene("what_is_no_query_drops_its_stream", "and what comes behind it counts for nothing", 9, 3,
          (first,), (by("bytes", STREAM, b"\0\1\x09\0\1\x09"), f"drop {STREAM}"), (by("bytes", STREAM, b"\0\1\x09"),))
    scene("an_event_of_the_other_kind_counts_as_time", "numbers of streams are none of datagrams", 0, 3,
          (by("datagram", STREAM, asked(1)),), (by("accepted", 7),), (by("bytes", 7, frame(asked(1))),))
    scene("too_many_queries_are_turned_away", "10000 wait: one more, and one that asks the same as one that waits, get a header alone", never, 10002,
          ("crowd 10000",), (by("datagram", 70000, asked(5, 10000)), gets(70000, head(0x8102, number=5))),
          (by("datagram", 80000, asked(6)), gets(80000, head(0x8102, number=6))))
    scene("a_crowd_keeps_no_hit_away", "what the client serves at once is asked all the same", never, 10001,
          ("crowd 10000",), (by("datagram", 10000, asked(1, 10000)),), serves="serves")


def before(texts):
    """What stands before the lines of here, and what is printed for it: each line that isn't silent prints `end` behind what it shows."""
    rows = texts["stdin"].splitlines()
    rows = rows[: next((at for at, row in enumerate(rows) if row.startswith(MARK)), len(rows))]
    count = sum(1 for row in rows if row and not row.startswith("#"))
    printed = texts["stdout"].splitlines()
    ends = [at for at, row in enumerate(printed, 1) if row == "end"]
    return {"stdin": rows, "stdout": printed[: ends[count - 1]]}


def main():
    odd()
    answered()
    alike()
    scenes()
    texts = {file: (FOLDER / file).read_text(encoding="utf-8") for file in ("stdin", "stdout")}
    rows = {"stdin": [MARK + ", and scenes of a forwarder, as tests/front_table.py has them.", *lines], "stdout": answers}
    bad = 0
    for file, kept in before(texts).items():
        text = "".join(row + "\n" for row in kept + rows[file])
        if "--check" not in sys.argv[1:]:
            (FOLDER / file).write_text(text, encoding="utf-8")
        elif texts[file] != text:
            print(f"another text: {file}")
            bad = 1
    return bad


sys.exit(main())
