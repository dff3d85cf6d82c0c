"""Makes the tables of scripts that the program tool_replays replays in the gate, and what it must write for them.

usage: python3 tests/replay_tables.py REFERENCE_FOLDER [--check]

REFERENCE_FOLDER holds the package `plain`, a reference client: what is to be written comes from it alone. The tables are
written into crates/tool_replays/stdin and stdout; with --check they are compared with what stands there. The scripts behind the
first line `# ..`, with traces that are judged, stay as they are.

Three worked scripts are taken: one question by a datagram; one whose answer is truncated, so that it goes on by a stream; and
two questions that share a stream. Of each there is a script for each fault, at each place and before each event, and at the
end. Of the last there is one whose octets come one by one, and one for each place at which they can be cut in two. Then come
a moment past which there is no other, moments that go back, events for a place that is not there, writes that take nothing, a
thousand answers under other ids before the true one, and worked scripts of answers that are errors, of streams that end, of
 several servers, of what a cache gives, and of what serves once it expired. Of what a cache gives there is for each request
 by its type, its flags and DO which others its answer serves (that the reference serves just those is checked by the rule,
 written again here), how an answer ages, and what is not kept.
"""

import subprocess
import sys
from pathlib import Path

ROOT = Path(__file__).resolve().parent.parent
TABLES = ROOT / "crates" / "tool_replays"

NAME = "076578616d706c6503636f6d00"
ASK = "ask 000001000001000000000000%s00010001 00000100 -" % NAME
ASK_MORE = "ask 000001000001000000000000%s001c0001 00000100 -" % NAME
ADDRESS = "c00c00010001000000640004c0000201"
JUDGED = "script judged by an end\n"
FAULTS = ("open-failed %d refused", "send-failed %d refused", "short-send %d", "recv-failed %d reset", "wrote %d 0",
          "write-failed %d reset", "read-failed %d broken", "ended %d")


def answer(ident):
    return "%s81800001000100000000%s00010001%s" % (ident, NAME, ADDRESS)


FRAME = "002d" + answer("0000")
FRAME_MORE = "001d000181800001000000000000%s001c0001" % NAME

DATAGRAM = (["conf nameserver 192.0.2.53", "words 4660"],
            ["at 0 " + ASK, "at 10 opened 0", "at 20000 datagram 0 " + answer("1234")])
TRUNCATED = (["conf nameserver 192.0.2.53", "words 4660"],
             ["at 0 " + ASK, "at 10 opened 0", "at 20000 datagram 0 123483800001000000000000%s00010001" % NAME,
              "at 20001 datagram 0 " + answer("1234"), "at 20002 opened 1", "at 20003 wrote 1 46",
              "at 20004 bytes 1 " + FRAME])
SHARED = (["conf nameserver 192.0.2.53", "conf options use-vc"],
          ["at 0 " + ASK, "at 0 " + ASK_MORE, "at 0 opened 0", "at 0 wrote 0 46", "at 0 wrote 0 20", "at 0 wrote 0 11",
           "at 0 bytes 0 " + FRAME + FRAME_MORE])


def moment_of(event):
    return event.split()[1]


def with_faults(name, script, places):
    """The script with one fault more, at each place and before each event, and at the end."""
    head, events = script
    for at in range(len(events) + 1):
        moment = moment_of(events[min(at, len(events) - 1)])
        for place in places:
            for fault in FAULTS:
                event = "at %s %s" % (moment, fault % place)
                yield "%s, before event %d: %s" % (name, at, fault % place), head + events[:at] + [event] + events[at:]


def cut():
    head, events = SHARED
    octets = FRAME + FRAME_MORE
    pieces = [octets[at:at + 2] for at in range(0, len(octets), 2)]
    yield "a stream, octet by octet", head + events[:-1] + ["at 0 bytes 0 " + piece for piece in pieces]
    for at in range(2, len(octets), 2):
        yield "a stream, cut behind %d octets" % (at // 2), head + events[:-1] + [
            "at 0 bytes 0 " + octets[:at], "at 0 bytes 0 " + octets[at:]]


def others():
    head, events = DATAGRAM
    later = "at 18446744073709551615 tick"
    yield "the last moment", head + ["conf options timeout:10", "at 0 " + ASK, "at 0 opened 0", later, "at 0 " + ASK]
    yield "moments that go back", head + ["at 10 tick", "at 5 tick", "at 5 " + ASK, "at 5 opened 0", "at 5000009 tick",
                                          "at 5000010 tick"]
    yield "a place that is not there", head + ["at 0 " + (fault % 9) for fault in FAULTS] + [
        "at 0 datagram 9 00", "at 0 bytes 9 00", "at 0 opened 9"] + events
    wrong = ["at 20 datagram 0 %04x81820000000000000000" % ident for ident in range(1000)]
    yield "a thousand answers under other ids", head + events[:2] + wrong + events[2:]
    head, events = SHARED
    yield "a write that takes nothing", head + events[:4] + ["at 0 wrote 0 0"] + events[4:]
    yield "a write of more than there is", head + events[:3] + ["at 0 wrote 0 18446744073709551615"] + events[4:]


def of_one_server():
    head, events = DATAGRAM
    begun = head + events[:2]
    yield "an answer under another id, and then its own", begun + ["at 15000 datagram 0 " + answer("1235"), events[2]]
    yield "an error alone", begun + ["at 20000 datagram 0 123481820000000000000000"]
    yield "an error with a record", begun + ["at 20000 datagram 0 123481820000000000000001"]
    yield "the deadline", head + ["at 0 " + ASK, "at 0 opened 0", "at 5000000 tick"]
    yield "a second try", ["conf nameserver 192.0.2.53", "conf options timeout:10", "words 4660", "at 0 " + ASK, "at 0 opened 0",
                           "at 12000000 tick"]
    yield "no server", ["at 0 " + ASK]
    head, events = SHARED
    written = head + [events[0], events[2], events[3]]
    yield "a message that is too short", written + ["at 100 bytes 0 00050102030405", "at 101 tick"]
    wrong = "001d000081800001000000000000" + "076578616d706c65036f726700" + "00010001"
    yield "the answer to another question", written + ["at 100 bytes 0 " + wrong, "at 101 bytes 0 " + FRAME]
    yield "a stream that does not open", head + [events[0], "at 0 open-failed 0 refused", "at 1 tick"]


def of_two_servers():
    head = ["conf nameserver 192.0.2.53", "conf nameserver 192.0.2.54"]
    yield "a server that is silent", head + ["at 0 " + ASK, "at 300000 tick", "at 300000 opened 1",
                                             "at 320000 datagram 1 " + answer("0000")]
    yield "a failure that is put off", head + ["set defer-servfail on", "set defer-transport-error on", "at 0 " + ASK,
                                               "at 0 opened 0", "at 10000 datagram 0 000081820000000000000000",
                                               "at 20000 open-failed 1 refused"]


def of_a_cache():
    head, events = DATAGRAM
    came = ["at 0 " + ASK, "at 0 opened 0", "at 0 datagram 0 " + answer("1234")]
    yield "an answer as it ages", head + came + ["at %d %s" % (moment, ASK) for moment in (30000000, 100000000, 101000000)]
    yield "an answer that is kept for a minute", [head[0], "set max-validity 1", head[1]] + came + [
        "at 60000000 " + ASK, "at 60000001 " + ASK]
    yield "an error that is kept", head[:1] + ["at 0 " + ASK, "at 0 open-failed 0 refused", "at 30000000 " + ASK,
                                               "at 30000001 " + ASK]
    plain, do = ASK[:-10], ASK[:-1] + "0000290000000080000000"
    signed = "000081a00001000200000000%s00010001%sc00c002e0001000000320003010203" % (NAME, ADDRESS)
    yield "an answer that is signed", head[:1] + ["at 0 " + do, "at 0 opened 0", "at 0 datagram 0 " + signed] + [
        "at 60000000 " + asked for asked in (plain + "00000120 -", ASK, plain + "00000110 -", do)]


DO = "0000290000000080000000"
LOOKUPS = [(kind, rd, cd) for kind in ("do", "ad", "none") for rd in (0, 1) for cd in (0, 1)]


def asked(name, rtype, lookup, qclass=1):
    """A request with these flags, as an event; in `name` in hexadecimal digits."""
    kind, rd, cd = lookup
    flags = "%02x%02x" % (rd, 0x20 * (kind == "ad") | 0x10 * cd)
    base = "0000%s00010000000000" % flags + "00%s%04x%04x" % (name, rtype, qclass)
    return "ask %s 0000%s %s" % (base, flags, DO if kind == "do" else "-")


def answered(name, rtype, flags, records, count, qclass=1):
    return "0000%s0001%04x00000000%s%04x%04x%s" % (flags, count, name, rtype, qclass, records)


def serves(first, second, rtype):
    """Whether an answer to the first request serves the second (RFC 4035 4.6, RFC 6840 5.7)."""
    has_flags = first[0] == second[0] or (first[0] == "do" and rtype != 46) or (first[0], second[0]) == ("ad", "none")
    return has_flags and first[2] == second[2] and (first[1] or not second[1])


def of_lookups():
    """For each request twelve names are asked for so and answered, and then each of them by another request."""
    for rtype in (1, 46):
        record = "c00c%04x00010000003c00040a000001" % rtype
        names = ["02%02x%02x" % (97 + k // 4, 97 + k % 4) + NAME for k in range(len(LOOKUPS))]
        for first in LOOKUPS:
            events = []
            for k, name in enumerate(names):
                events += [asked(name, rtype, first), "opened %d" % k,
                           "datagram %d %s" % (k, answered(name, rtype, "8180", record, 1))]
            events += [asked(name, rtype, second) for name, second in zip(names, LOOKUPS)]
            yield looked_up(rtype, first), ["conf nameserver 192.0.2.53"] + ["at 0 " + event for event in events]


def looked_up(rtype, first):
    return "what an answer serves: type %d, %s, rd %d, cd %d" % ((rtype,) + first)


def are_served(due, rtype, first):
    """Whether in a trace the last twelve requests are answered at once just where the first serves them."""
    rows = due.split("\nat ")[-len(LOOKUPS):]
    return all(("\n> reply" in row) == bool(serves(first, second, rtype)) for row, second in zip(rows, LOOKUPS))


def of_kept_answers():
    plain, do, ad, no_rd = ("none", 1, 0), ("do", 1, 0), ("ad", 1, 0), ("none", 0, 0)
    minute = "c00c000100010000003c00040a000001"
    signature = "c00c002e00010000003c000401020304"

    def come(place, records, count, qclass=1, name=NAME):
        return ["at 0 opened %d" % place,
                "at 0 datagram %d %s" % (place, answered(name, 1, "85a0", records, count, qclass))]

    def at(moment, lookup, qclass=1, name=NAME):
        return ["at %d %s" % (moment, asked(name, 1, lookup, qclass))]

    head = ["conf nameserver 192.0.2.53"]
    yield "an answer that serves to its last microsecond", head + at(0, plain) + come(0, minute, 1) + at(30500000, plain) + at(
        60000000, plain) + at(60000001, plain)
    yield "views that age from the first answer", head + at(0, do) + come(0, minute + signature, 2) + at(10000000, no_rd) + at(
        20000000, plain) + at(20000000, no_rd) + at(60000001, no_rd)
    yield "an error that is kept from when it came", head + at(0, plain) + ["at 0 open-failed 0 refused"] + at(
        30000000, plain) + at(30000001, plain)
    yield "what was not used for longest", head + ["set max-cache-entries 2"] + at(0, plain) + come(0, minute, 1) + at(
        0, ad) + come(1, minute, 1) + at(0, plain) + at(0, do) + come(2, minute, 1) + at(0, plain)
    yield "an answer that can't be read", head + at(0, plain) + come(0, "", 1) + at(0, plain)
    yield "another class", head + at(0, plain, 3) + come(0, "", 1, 3) + at(0, plain, 3)
    yield "an answer for no time", head + at(0, plain) + come(0, "", 0) + at(0, plain)
    loud = "074558414d504c4503434f4d00"
    yield "a name in upper case", head + at(0, plain) + come(0, minute, 1) + at(0, plain, 1, loud)


def of_what_expired():
    head, events = DATAGRAM
    served = [head[0], "set stale-for 3600", head[1]]
    later = "at 200000000 " + ASK
    fails = "at 200000100 open-failed 1 refused"
    yield "an answer that expired, where the server fails", served + events + [later, fails]
    yield "an answer that expired, where none may serve", head + events + [later, fails]
    yield "an answer that expired, at the deadline", served + events + [later, "at 205000000 tick"]
    yield "an answer that expired, at the last moment", served + events + [
        "at 3700020000 " + ASK, "at 3700020000 open-failed 1 refused", "at 3700020000 " + ASK, "at 3700020001 open-failed 2 refused"]
    yield "no such name, and no SOA", head + events[:2] + [
        "at 20000 datagram 0 123481830001000000000000%s00010001" % NAME, "at 1000000 " + ASK]
    failure = "000081820001000000000000%s00010001" % NAME
    yield "a server's own failure, and then none that answers", served + events + [
        later, "at 200000100 opened 1", "at 200000200 datagram 1 " + failure, "at 240000000 " + ASK, "at 240000100 open-failed 2 refused"]
    do = ASK[:-1] + "0000290000000080000000"
    unread = "000081a00001000100000000%s00010001c00c00010001000000640003c00002" % NAME
    yield "an answer with three octets for an address", served[:2] + [
        "at 0 " + do, "at 0 opened 0", "at 0 datagram 0 " + unread, "at 1000000 " + ASK, "at 1000100 open-failed 1 refused", "at 1000200 " + do]


def scripts():
    yield "a datagram", sum(DATAGRAM, [])
    yield "truncated", sum(TRUNCATED, [])
    yield "a stream for two", sum(SHARED, [])
    yield from with_faults("a datagram", DATAGRAM, (0,))
    yield from with_faults("truncated", TRUNCATED, (0, 1))
    yield from with_faults("a stream for two", SHARED, (0,))
    yield from cut()
    yield from others()
    yield from of_one_server()
    yield from of_two_servers()
    yield from of_a_cache()
    yield from of_lookups()
    yield from of_kept_answers()
    yield from of_what_expired()


def replayed(folder, lines):
    ran = subprocess.run([sys.executable, "-m", "plain.dnsq", "--stage", "17", "--compress", "replay"], cwd=folder, capture_output=True,
                         input="\n".join(lines).encode() + b"\n")
    return ran.stdout.decode() + "status %d\n" % ran.returncode


def main():
    if len(sys.argv) < 2:
        sys.exit(__doc__)
    told, due = [], []
    for name, lines in scripts():
        told.append("script %s\n%s\n" % (name, "\n".join(lines)))
        due.append("script %s\n%s" % (name, replayed(sys.argv[1], lines)))
    traces = dict(zip((name for name, _ in scripts()), due))
    for rtype, first in ((rtype, first) for rtype in (1, 46) for first in LOOKUPS):
        if not are_served(traces[looked_up(rtype, first)], rtype, first):
            sys.exit("%s: the reference client serves others" % looked_up(rtype, first))
    for file, text, judged in (("stdin", "".join(told), "# "), ("stdout", "".join(due), JUDGED)):
        stands = (TABLES / file).read_text()
        behind = stands.index("\n" + judged) + 1
        if "--check" not in sys.argv:
            (TABLES / file).write_text(text + stands[behind:])
        elif stands[:behind] != text:
            sys.exit("%s is not what the reference client gives" % file)
    print("%d scripts" % len(told))


if __name__ == "__main__":
    main()
