#!/usr/bin/env python3
"""Judges the worked traces that the definitions refuse, and those that they take, as texts.

    python3 tests/judge_refusals.py PROGRAM

PROGRAM is the built trace_audit. Each trace is one that `proof_right` proves to be wrong (its crate's `refusals.rt`, where it has the
same name), with a message, octets and a fault where any would do. Wanted is the clause and the row that the definition names which is
proved to fail; the definitions of this folder must say the same. Ends with status 1 where a verdict differs.
"""

import os
import subprocess
import sys
import tempfile

from definitions import texts
from definitions.right import verdict

NAME = "076578616d706c6503636f6d00"
CONF = ["conf nameserver 192.0.2.53"]
STREAMS = [*CONF, "conf options use-vc"]
TWO = [*CONF, "conf nameserver 192.0.2.54", "set defer-transport-error on", "set defer-servfail on"]
STALE = [*CONF, "set stale-for 3600"]


def question(rtype="0001"):
    return NAME + rtype + "0001"


def ask(moment, flags="00", rtype="0001"):
    return "at %d ask 000001000001000000000000%s 000001%s -" % (moment, question(rtype), flags)


def datagram(ident="0007", rtype="0001"):
    return "%s01000001000000000001%s00002904d0000000000000" % (ident, question(rtype))


def frame(ident="0007", length=None):
    octets = "%s01000001000000000001%s0000290000000000000004000b0000" % (ident, question())
    return "%04x%s" % (len(octets) // 2 if length is None else length, octets)


def answer(ident="0007", ttl=100, flags="8180", name=NAME):
    return "%s%s0001000100000000%s00010001c00c00010001000000%02x0004c0000201" % (ident, flags, name, ttl)


def named(owner, ttl, rdata):
    """An answer to a question of AFSDB."""
    return "123481800001000100000000%s%s00120001000000%02x%04x%s" % (question("0012"), owner, ttl, len(rdata) // 2, rdata)


POINTING = named(NAME, 100, "0001046d61696cc025")
WRITTEN_OUT = named("c00c", 70, "0001046d61696c03636f6d00")
POINTER_COPIED = named("c00c", 70, "0001046d61696cc025")

OTHER = answer(name="076578616d706c65036f726700")
CUT = "000783800001000000000000" + question()
FAILING, ABSENT = "000081820000000000000000", "000081830000000000000000"
PIECE = "%04x%s" % (len(answer()) // 2, answer())
BAD = "0005" + "0102030405"


def asked(*rows):
    return [ask(0), "> start 0 0 dgram", "> open-dgram 0 0", *rows]


def sent(*rows):
    return asked("at 0 opened 0", "> send 0 0 7 " + datagram(), *rows)


def asked_by_stream(*rows):
    return [ask(0), "> start 0 0 stream", "> open-stream 0 0", *rows]


def written(*rows, octets=None):
    return asked_by_stream("at 0 opened 0", "> write 0 0 7 " + (octets or frame()), *rows)


def taken(moment, message):
    return sent("at %d datagram 0 %s" % (moment, message), "> close 0", "> reply 0 ok " + message)


def frame_taken(moment, piece, message):
    return written("at %d bytes 0 %s" % (moment, piece), "> reply 0 ok " + message)


def given(*rows, message=answer("1234"), rtype="0001"):
    """The answer of 100 seconds came at 0."""
    return [ask(0, rtype=rtype), "> start 0 0 dgram", "> open-dgram 0 0", "at 0 opened 0", "> send 0 0 4660 " + datagram("1234", rtype),
            "at 0 datagram 0 " + message, "> close 0", "> reply 0 ok " + message, *rows]


def named_given(message):
    """The answer with a compressed name in its data came at 0, and this is given half a minute later."""
    return given(ask(30000000, rtype="0012"), "> reply 1 ok " + message, message=POINTING, rtype="0012")


def refused(*rows):
    return [ask(0), "> start 0 0 dgram", "> open-dgram 0 0", "at 0 open-failed 0 refused", "> reply 0 err Dgram Connect refused", *rows]


def expired(*outs):
    return given(ask(200000000), "> start 1 0 dgram", "> open-dgram 1 0", "at 200000100 open-failed 1 refused", *outs)


def heard(message, *outs):
    """That answer has expired, and this message came."""
    return given(ask(200000000), "> start 1 0 dgram", "> open-dgram 1 0", "at 200000100 opened 1", "> send 1 1 0 " + datagram("0000"),
                 "at 200000200 datagram 1 " + message, *outs)


FIVE = "at 5000000 tick"
LATER = ["> close 0", "> open-dgram 1 0"]
KEPT = "> reply %d err Dgram Connect refused"
OLD = ["> close 1", "> stale 1", "> reply 1 ok " + answer("1234", 30)]

# name, lines of the configuration, rows, what is said
REFUSED = [
    ("two_replies", CONF, [ask(0), "> start 0 0 dgram", "> open-dgram 0 0", *["> reply 0 err TimedOut"] * 2], "H2 row 0"),
    ("nothing_sent", CONF, asked("at 0 opened 0"), "H4 row 1"),
    ("no_answer", CONF, taken(0, OTHER), "H1 row 2"),
    ("cut_answer", CONF, taken(0, CUT), "H1 row 2"),
    ("past_its_time", CONF, taken(5000000, answer()), "H1 row 2"),
    ("closed_place", CONF, sent(FIVE, *LATER, "at 5000001 datagram 0 " + answer(), "> reply 0 ok " + answer(), "> close 1"), "H1 row 3"),
    ("early_timeout", CONF, sent("at 10 tick", "> close 0", "> reply 0 err TimedOut"), "H3 row 2"),
    ("passed_over", CONF, sent("at 0 datagram 0 " + answer()), "H4 row 2"),
    ("closed_for_nothing", CONF, sent("at 1 tick", *LATER), "H4 row 2"),
    ("too_soon", CONF, [ask(0), "> start 0 0 dgram", "> open-dgram 0 0", "> send 0 0 7 " + datagram()], "H4 row 0"),
    ("nowhere", CONF, asked("at 0 opened 0", "> send 5 0 7 " + datagram()), "H4 row 1"),
    ("six_at_once", CONF, asked("at 0 opened 0", *["> send 0 0 7 " + datagram()] * 6), "H4 row 1"),
    ("elsewhere", TWO[:2], [ask(0), "> start 0 0 dgram", "> open-dgram 0 1", "at 0 opened 0", "> send 0 0 7 " + datagram()], "H4 row 0"),
    ("unsent", CONF, asked("at 0 opened 0", "at 0 recv-failed 0 reset", "> close 0", "> reply 0 err Dgram Receive reset"), "H4 row 1"),
    ("blamed_when_closed", CONF, sent(FIVE, *LATER, "at 5000001 recv-failed 0 reset", "> reply 0 err Dgram Receive reset", "> close 1"), "H3 row 3"),
    ("before_its_write", STREAMS, asked_by_stream("at 0 opened 0", "at 1 bytes 0 " + PIECE, "> reply 0 ok " + answer()), "H4 row 1"),
    ("after_a_bad_frame", STREAMS, frame_taken(1, BAD + PIECE, answer()), "H1 row 2"),
    ("another_id", STREAMS, frame_taken(1, "%04x%s" % (len(answer()) // 2, answer("0008")), answer("0008")), "H1 row 2"),
    ("past_its_time_by_stream", STREAMS, frame_taken(30000000, PIECE, answer()), "H1 row 2"),
    ("no_answer_by_stream", STREAMS, frame_taken(1, "%04x%s" % (len(OTHER) // 2, OTHER), OTHER), "H1 row 2"),
    ("frame_passed_over", STREAMS, written("at 1 bytes 0 " + PIECE), "H5 row 2"),
    ("second_while_opening", STREAMS, [ask(0), "> start 0 0 stream", "> open-stream 0 0", "> open-stream 1 0"], "H4 row 0"),
    ("second_while_open", STREAMS, written("at 1 tick", "> open-stream 1 0"), "H4 row 2"),
    ("stream_closed_for_nothing", STREAMS, written("at 1 tick", "> close 0"), "H4 row 2"),
    ("wrong_length", STREAMS, written(octets=frame(length=9)), "H4 row 1"),
    ("nothing_written", STREAMS, asked_by_stream("at 0 opened 0"), "H4 row 1"),
    ("wrong_without_frame", STREAMS, written("at 1 tick", "> reply 0 err WrongReplyForQuery"), "H3 row 2"),
    ("opened_twice", CONF, [ask(0), "> start 0 0 dgram", "> open-dgram 0 0", "> open-dgram 0 0"], "H4 row 0"),
    ("closed_twice", CONF, sent(FIVE, "> close 0", *LATER), "H4 row 2"),
    ("closed_again", CONF, sent(FIVE, *LATER, "at 5000001 tick", "> close 0"), "H4 row 3"),
    ("closed_unopened", CONF, ["at 0 tick", "> close 0"], "H4 row 0"),
    ("started_unasked", CONF, [ask(0), "> start 1 0 dgram"], "H4 row 0"),
    ("invented", CONF, [ask(0), "> reply 0 ok " + answer("0000")], "H1 row 0"),
    ("first_ttls", CONF, given(ask(30000000), "> reply 1 ok " + answer("1234")), "H1 row 3"),
    ("bit_z", CONF, given(ask(30000000), "> reply 1 ok " + answer("1234", 70, "81c0")), "H1 row 3"),
    ("past_validity", CONF, given(ask(101000000), "> reply 1 ok " + answer("1234", 0)), "H1 row 3"),
    ("other_flags", CONF, given(ask(30000000, "20"), "> reply 1 ok " + answer("1234", 70)), "H1 row 3"),
    ("copied_pointers", CONF, named_given(POINTER_COPIED), "H1 row 3"),
    ("error_past_its_time", CONF, refused(ask(30000001), KEPT % 1), "H3 row 2"),
    ("error_from_its_repeat", CONF, refused(ask(30000000), KEPT % 1, ask(31000000), KEPT % 2), "H3 row 3"),
    ("before_all_failed", TWO, [ask(0), "> start 0 1 dgram", "> open-dgram 0 1", "at 0 opened 0", "> send 0 0 0 " + datagram("0000"),
                                "at 10000 datagram 0 " + FAILING, "> close 0", "> reply 0 ok " + FAILING], "H1 row 2"),
    ("stale_at_once", STALE, given(ask(200000000), "> stale 1", "> reply 1 ok " + answer("1234", 30)), "H1 row 3"),
    ("without_mark", STALE, expired("> reply 1 ok " + answer("1234", 30)), "H1 row 4"),
    ("alone", STALE, expired("> stale 1"), "H4 row 4"),
    ("for_none", CONF, heard(FAILING, *OLD), "H1 row 5"),
    ("for_absent", STALE, heard(ABSENT, *OLD), "H1 row 5"),
    ("before_all", [*TWO, *STALE[1:]], heard(FAILING, *OLD), "H1 row 5"),
]

# the same with what is owed
TAKEN = [
    ("answered", CONF, taken(0, answer())),
    ("answered_by_stream", STREAMS, frame_taken(1, PIECE, answer())),
    ("view", CONF, given(ask(30000000), "> reply 1 ok " + answer("1234", 70))),
    ("view_of_names", CONF, named_given(WRITTEN_OUT)),
    ("kept_error", CONF, refused(ask(30000000), KEPT % 1)),
    ("stale", STALE, expired("> stale 1", "> reply 1 ok " + answer("1234", 30))),
    ("stale_for_failing", STALE, heard(FAILING, *OLD)),
    ("given_itself", STALE, heard(FAILING, "> close 1", "> reply 1 ok " + FAILING)),
]


def judged(program, folder, conf, rows):
    """What the program and the definitions say."""
    script = "\n".join([*conf, *(row for row in rows if row.startswith("at "))]) + "\n"
    version = 2 if any(row.startswith("> stale") for row in rows) else 1
    trace = "\n".join(["trace %d" % version, *rows, "end"]) + "\n"
    names = [os.path.join(folder, name) for name in ("script", "trace")]
    for name, text in zip(names, (script, trace)):
        with open(name, "w") as file:
            file.write(text)
    ended = subprocess.run([program, *names], capture_output=True, timeout=60)
    script, trace = script.encode(), trace.encode()
    wanted = verdict(texts.read_script(script), texts.read_events(script), texts.read_trace(trace))
    return ended.stdout.decode().strip(), wanted


def main():
    if len(sys.argv) != 2:
        sys.exit(__doc__)
    program, differ = os.path.abspath(sys.argv[1]), 0
    cases = [(name, conf, rows, "wrong " + said) for name, conf, rows, said in REFUSED]
    cases += [(name, conf, rows, "right") for name, conf, rows in TAKEN]
    with tempfile.TemporaryDirectory() as folder:
        for name, conf, rows, wanted in cases:
            said, defined = judged(program, folder, conf, rows)
            if not wanted == said == defined:
                differ += 1
                print("%s: wanted %r, said %r, by the definitions %r" % (name, wanted, said, defined))
    print("%d traces; %d differ" % (len(cases), differ))
    return 1 if differ else 0


if __name__ == "__main__":
    sys.exit(main())
