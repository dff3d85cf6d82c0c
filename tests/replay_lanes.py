"""Runs `dnsq many` on random scripts with lanes, and looks at what it writes.

usage: python3 tests/replay_lanes.py PROGRAM [--runs N] [--lanes N] [--events N] [--busy N] [--seed N] [--short]

PROGRAM is the built dnsq. First six inputs whose end is stored are read, and two lanes of three questions, as what a run makes. Then each run makes a script of so many lanes (4) with so many events each (100), by datagrams or by
stream, with names that come again, so that the cache answers some. Of what is written, each lane's events must stand in
their order, each once, and nothing else; and without its lanes it must be what `dnsq replay` writes for its own events. A run
may take a minute. With `--short` names are of one letter and half of the events are ticks, so that a script of 400000 events is no longer
than `many` reads; half of the answers then are valid for no time, so that the cache answers some questions and servers are asked the others. So many processes (0) keep the processors busy beside it. The first run that is otherwise ends all with
status 1; its script lies in the file that is named.
"""

import argparse
import random
import subprocess
import sys
import tempfile

MOMENT = 10_000

# One lane, in which a server fails once its answer has expired, and what it comes to.
ALONE = """conf nameserver 192.0.2.53
set stale-for 3600
lane
at 0 ask 000001000001000000000000076578616d706c6503636f6d0000010001 00000100 -
at 10 opened 0
at 20 datagram 0 000081800001000100000000076578616d706c6503636f6d0000010001c00c00010001000000640004c0000201
at 200000000 ask 000001000001000000000000076578616d706c6503636f6d0000010001 00000100 -
at 200000010 open-failed 1 refused
"""
SERVED = """many 2
lane 0 at 0 ask 000001000001000000000000076578616d706c6503636f6d0000010001 00000100 -
> start 0 0 dgram
> open-dgram 0 0
lane 0 at 10 opened 0
> send 0 0 0 000001000001000000000001076578616d706c6503636f6d000001000100002904d0000000000000
lane 0 at 20 datagram 0 000081800001000100000000076578616d706c6503636f6d0000010001c00c00010001000000640004c0000201
> close 0
> reply 0 ok 000081800001000100000000076578616d706c6503636f6d0000010001c00c00010001000000640004c0000201
lane 0 at 200000000 ask 000001000001000000000000076578616d706c6503636f6d0000010001 00000100 -
> start 1 0 dgram
> open-dgram 1 0
lane 0 at 200000010 open-failed 1 refused
> stale 1
> reply 1 ok 000081800001000100000000076578616d706c6503636f6d0000010001c00c000100010000001e0004c0000201
end
"""
USAGE = "usage: dnsq replay|conf|gen N|many|query NAME TYPE [--port P]\n"
# Words, what is read, the status, and what is written, where that does not depend on who comes first.
ENDS = [
    (["many"], "", 1, "line 1 refused\n"),
    (["many"], "x\nlane\n", 1, "line 1 refused\n"),
    (["many"], "lane\n", 0, "many 1\nend\n"),
    (["many"], ALONE, 0, SERVED),
    (["many", "many"], "lane\n", 2, USAGE),
    (["replay"], "", 0, "trace 1\nend\n"),
]

# Two lanes of three questions each.
SIX = ["conf nameserver 192.0.2.53", "words 4660 4661 4662 4663 4664 4665"], [
    ["at %d ask 0000010000010000000000000%s 00000100 -" % (moment, name) for moment, name in lane]
    for lane in (
        [(0, "76578616d706c6503636f6d0000010001"), (10, "76578616d706c6503636f6d00001c0001"), (20, "3777777076578616d706c6503636f6d0000010001")],
        [(5, "46d61696c076578616d706c6503636f6d0000010001"), (15, "46d61696c076578616d706c6503636f6d00001c0001"), (25, "36e7331076578616d706c6503636f6d0000010001")],
    )
]


def name_of(labels):
    return b"".join(bytes([len(label)]) + label for label in labels) + b"\0"


def question(number):
    """Of one of 50 names, A or AAAA."""
    name = name_of([b"h%d" % (number % 25), b"example", b"com"])
    return name + (b"\0\1" if number % 50 < 25 else b"\0\x1c") + b"\0\1"


def query(number):
    return b"\0\0\1\0\0\1\0\0\0\0\0\0" + question(number)


def answer(number, ident):
    """One record of five minutes, of no octets of data but four."""
    rtype = question(number)[-4:-2]
    data = b"\xc0\0\2\1" if rtype == b"\0\1" else b"\x20\1" + b"\0" * 14
    head = ident.to_bytes(2, "big") + b"\x81\x80\0\1\0\1\0\0\0\0"
    record = b"\xc0\x0c" + rtype + b"\0\1" + (300).to_bytes(4, "big") + len(data).to_bytes(2, "big") + data
    return head + question(number) + record


def event(pick, streams):
    """An event that may concern what the client does: places and ids are small numbers."""
    place = pick.randrange(6) if streams else pick.randrange(40)
    number = pick.randrange(50)
    kind = pick.random()
    if kind < 0.35:
        return "ask %s 00000100 -" % query(number).hex()
    if kind < 0.60:
        return "opened %d" % place
    if kind < 0.90:
        octets = answer(number, pick.randrange(8) if streams else 0)
        if streams:
            return "bytes %d %s" % (place, (len(octets).to_bytes(2, "big") + octets).hex())
        return "datagram %d %s" % (place, octets.hex())
    if kind < 0.95:
        return "ended %d" % place if streams else "recv-failed %d reset" % place
    return "tick"


def short_question(number):
    """Of one of 25 names, A or AAAA."""
    return b"\1" + bytes([97 + number % 25]) + b"\0" + (b"\0\1" if number < 25 else b"\0\x1c") + b"\0\1"


def short_answer(number, ident):
    """One record: of a day, or of a name that is valid for no time."""
    question = short_question(number)
    ttl = 86400 if number % 2 else 0
    data = b"\xc0\0\2\1" if number < 25 else b"\x20\1" + b"\0" * 14
    record = b"\xc0\x0c" + question[-4:] + ttl.to_bytes(4, "big") + len(data).to_bytes(2, "big") + data
    return ident.to_bytes(2, "big") + b"\x81\x80\0\1\0\1\0\0\0\0" + question + record


def short_event(pick, streams, done):
    """An event of a long lane, of which so much is done. Places are about as many as were opened by then, of which nothing is known."""
    number, kind = pick.randrange(50), pick.random()
    place = pick.randrange(6) if streams else max(0, int(done) + pick.randrange(-40, 40))
    if kind < 0.20:
        return "ask %s 00000100 -" % (query(0)[:12] + short_question(number)).hex()
    if kind < 0.40:
        return "opened %d" % place
    if kind < 0.53:
        octets = short_answer(number, pick.randrange(8) if streams else 0)
        if streams:
            return "bytes %d %s" % (place, (len(octets).to_bytes(2, "big") + octets).hex())
        return "datagram %d %s" % (place, octets.hex())
    if kind < 0.54:
        return "ended %d" % place if streams else "recv-failed %d reset" % place
    return "tick"


def short_script_of(pick, lanes, events):
    streams = pick.random() < 0.5
    head = ["conf nameserver 192.0.2.53"] + (["conf options use-vc"] if streams else [])
    return head, [["at %d %s" % (i, short_event(pick, streams, i * lanes * 0.1)) for i in range(events)] for _ in range(lanes)]


def script_of(pick, lanes, events):
    """The lines before the lanes, and the events of each lane. Without words each id of a datagram is 0."""
    streams = pick.random() < 0.5
    head = ["conf nameserver 192.0.2.53"] + (["conf options use-vc"] if streams else [])
    return head, [["at %d %s" % (MOMENT * i, event(pick, streams)) for i in range(events)] for _ in range(lanes)]


def run(program, words, text):
    ran = subprocess.run([program, *words], input=text.encode(), capture_output=True, timeout=600, check=False)
    return ran.returncode, ran.stdout.decode()


def text_of(head, lanes):
    return "\n".join(head + [line for lane in lanes for line in ["lane"] + lane]) + "\n"


def difference(program, head, lanes, status, text):
    """What is not as it should be, or None."""
    lines = text.splitlines()
    if status != 0 or lines[:1] not in (["many 1"], ["many 2"]) or lines[-1:] != ["end"]:
        return "status %d" % status
    version = lines[0].removeprefix("many ")
    made = [[] for _ in lanes]
    events, rows = [], []
    for line in lines[1:-1]:
        if line.startswith("lane "):
            _, lane, line = line.split(" ", 2)
            made[int(lane)].append(line)
            events.append(line)
        rows.append(line)
    if made != lanes:
        return "the events of a lane are others"
    replayed = run(program, ["replay"], "\n".join(head + events) + "\n")
    if replayed != (0, "\n".join(["trace " + version] + rows + ["end"]) + "\n"):
        return "the replay of its events is another"
    return None


def main():
    words = argparse.ArgumentParser(usage=__doc__)
    words.add_argument("program")
    for name, value in (("runs", 20), ("lanes", 4), ("events", 100), ("busy", 0), ("seed", 1)):
        words.add_argument("--" + name, type=int, default=value)
    words.add_argument("--short", action="store_true")
    asked = words.parse_args()
    busy = [subprocess.Popen([sys.executable, "-c", "while True: pass"]) for _ in range(asked.busy)]
    try:
        for told in ENDS:
            ended = run(asked.program, told[0], told[1])
            if ended != told[2:]:
                sys.exit("%s of %r ended with %r" % (" ".join(told[0]), told[1], ended))
        wrong = difference(asked.program, *SIX, *run(asked.program, ["many"], text_of(*SIX)))
        if wrong:
            sys.exit("two lanes of three questions: " + wrong)
        pick = random.Random(asked.seed)
        orders = set()
        for number in range(asked.runs):
            made = short_script_of if asked.short else script_of
            head, lanes = made(pick, asked.lanes, asked.events)
            text = text_of(head, lanes)
            status, written = run(asked.program, ["many"], text)
            wrong = difference(asked.program, head, lanes, status, written)
            if wrong:
                with tempfile.NamedTemporaryFile("w", suffix=".script", delete=False) as file:
                    file.write(text)
                sys.exit("run %d: %s: %s" % (number, wrong, file.name))
            turns = [line.split(" ", 2)[1] for line in written.splitlines() if line.startswith("lane ")]
            orders.add(sum(a != b for a, b in zip(turns, turns[1:])))
        print("%d runs; the lanes took turns %d to %d times" % (asked.runs, min(orders), max(orders)))
    finally:
        for process in busy:
            process.kill()


if __name__ == "__main__":
    main()
