"""Times what a peer may send to cost its receiver as much as it can: each shape with a bound.

usage: python3 bench/hostile.py PROGRAM LOOKUPS [SHARE]

PROGRAM is the built dnsq, LOOKUPS the built lookup_read. A program of before can be given in the place of either. SHARE is
how much of each size is taken, from 0 to 1, for a program that is built without optimization; the bounds hold for 1.

What is written: an answer is kept, and is the reply to one request after another, with its names compressed anew. At most
50 ns of a processor may go for an octet of the message with its names written out. What is looked up: the aliases of an answer are
followed, at most 200 ns for such an octet. The time is that of many such replies or answers, less that of none, and the
least of three runs counts; so many are taken that it is 0.2 s at least, or else one alone.

Of a connection by stream the events are timed, in the same way. Their bound is measured in the same run: four times what
an event takes where 100 requests are in flight and each is answered, as `bench/replay.py` has it. So it is one on every
machine, and is passed by what grows with the requests that wait, with the ids that are held or with the octets so far.

Prints for each shape its octets or events, the time, the nanoseconds for one, the bound, and `ok` or `over`. Ends with status 1
where one is over.
"""

import random
import resource
import subprocess
import sys
import tempfile

from replay import QUESTION, ask, by_stream, opened, text_of, wrote

RUNS = 3
LEAST = 0.2
FOR_WRITTEN = 50
FOR_LOOKED_UP = 200
FOR_EVENTS = 4
HONEST_EVENTS = 20_000
SIZES = (7_785, 63_978)
LONGEST = 65_535
A, CNAME, UNKNOWN = 1, 5, 65_280
DIGITS = b"abcdefghijklmnopqrstuvwxyz0123456789"
POINTERS = 115
IDS = 32_770
BACKING_OFF = 24_000
ROUNDS = 4
FRAME = 65_535


def label(number, width):
    """A label of so many octets, another one for each number."""
    octets = bytearray()
    for _ in range(width):
        number, digit = divmod(number, len(DIGITS))
        octets.append(DIGITS[digit])
    return bytes(octets)


def spelled(labels):
    return b"".join(bytes([len(one)]) + one for one in labels) + b"\0"


class Answer:
    """An answer to the question for the root's addresses, or for those of a name. It counts the octets that it has with its
    names written out."""

    def __init__(self, asked=()):
        self.octets = bytearray(bytes.fromhex("000081800001000000000000") + spelled(asked) + bytes.fromhex("00010001"))
        self.written_out = len(self.octets)
        self.count = 0

    def record(self, owner, rtype, data, names):
        """A record, its names written as they are told, and the labels that these stand for."""
        self.octets += owner + rtype.to_bytes(2, "big") + bytes.fromhex("000100015180") + len(data).to_bytes(2, "big") + data
        self.written_out += 10 + sum(len(spelled(name)) for name in names) + (0 if rtype == CNAME else len(data))
        self.count += 1

    def fill(self, size):
        """A record that is not looked into, so that the message has so many octets."""
        self.record(b"\0", UNKNOWN, bytes(size - len(self.octets) - 11), [()])
        return self

    def has_room(self, octets):
        return len(self.octets) + octets + 11 <= LONGEST

    def finished(self):
        self.octets[6:8] = self.count.to_bytes(2, "big")
        return self.octets.hex()


def pointer(place):
    return (0xC000 | place).to_bytes(2, "big")


def of_names(size, name_of):
    """Addresses of names that are written out, one after another, in a message of so many octets."""
    answer = Answer()
    while True:
        labels = name_of(answer.count)
        if len(answer.octets) + len(spelled(labels)) + 14 + 11 > size:
            return answer.fill(size)
        answer.record(spelled(labels), A, b"\xc0\0\2\1", [labels])


def no_label_twice(number):
    """Labels that stand nowhere else, as far as names can be long."""
    return [label(number * 64 + at, 3) for at in range(63)]


def equal_beginnings(number):
    return [b"a"] * 124 + [label(number, 3)]


def equal_ends(number):
    return [label(number, 3)] + [b"a"] * 124


def anagrams(number):
    """The same labels in another order: what adds the labels up, or their octets, finds them equal."""
    labels = [label(at, 1) for at in range(36)] * 3
    random.Random(number).shuffle(labels)
    return labels


def many_under_one(size):
    """As many names right under one as there is room for."""
    answer = Answer()
    answer.record(spelled([b"a"]), A, b"\xc0\0\2\1", [[b"a"]])
    under = len(answer.octets) - 17
    while len(answer.octets) + 20 + 11 <= size:
        one = label(answer.count, 3)
        answer.record(b"\3" + one + pointer(under), A, b"\xc0\0\2\1", [[one, b"a"]])
    return answer.fill(size)


def with_chain(asked=()):
    """An answer with a name of so many labels, each behind a pointer; and the place where it begins."""
    answer = Answer(asked)
    place = len(answer.octets) + 11
    chain = bytearray(b"\1a\0")
    for _ in range(POINTERS - 2):
        before, place = place, len(answer.octets) + 11 + len(chain)
        chain += b"\1a" + pointer(before)
    answer.record(b"\0", UNKNOWN, bytes(chain), [()])
    return answer, place, [b"a"] * (POINTERS - 1)


def through_pointers(size):
    answer, place, labels = with_chain()
    while len(answer.octets) + 19 + 11 <= size:
        one = label(answer.count, 2)
        answer.record(b"\2" + one + pointer(place), A, b"\xc0\0\2\1", [[one] + labels])
    return answer.fill(size)


def two_names_each(records):
    """An address, and aliases of names right under the root, none of which is met twice."""
    answer = Answer()
    answer.record(b"\0", A, b"\xc0\0\2\1", [()])
    for number in range(records):
        owner, target = label(2 * number, 3), label(2 * number + 1, 3)
        answer.record(spelled([owner]), CNAME, spelled([target]), [[owner], [target]])
    return answer


def chain_of_aliases(size, order):
    """Aliases of one name after another in an order of their numbers; and the name that they lead to. The names of even
    numbers stand where they are owners, and the others where they are targets, each with a pointer in its other place."""
    asked = [label(0, 3), b"a"]
    answer = Answer(asked)
    count = (size - len(answer.octets)) // 22
    for number in order(list(range(count))):
        names = [[label(number + at, 3), b"a"] for at in (0, 1)]
        owner, target = (b"\3" + name[0] + pointer(12 + 4) for name in names)
        answer.record(owner, CNAME, target, names)
    return answer, "%s.a" % label(count, 3).decode()


def chain_through_pointers(size):
    """The same in reverse order, each name through so many pointers."""
    answer, place, labels = with_chain([label(0, 3)] + [b"a"] * (POINTERS - 1))
    count = (size - len(answer.octets)) // 22
    for number in reversed(range(count)):
        names = [[label(number + at, 3)] + labels for at in (0, 1)]
        owner, target = (b"\3" + name[0] + pointer(place) for name in names)
        answer.record(owner, CNAME, target, names)
    return answer, label(count, 3).decode() + ".a" * (POINTERS - 1)


def one_owner(size):
    """So many aliases of one name, of which the first alone counts."""
    asked = [b"aaa", b"a"]
    answer = Answer(asked)
    while len(answer.octets) + 18 <= size:
        target = [label(1 + answer.count, 3), b"a"]
        answer.record(pointer(12), CNAME, b"\3" + target[0] + pointer(16), [asked, target])
    return answer, "%s.a" % label(1, 3).decode()


def shuffled(numbers):
    random.Random(1).shuffle(numbers)
    return numbers


def on_processor():
    """The seconds that the programs which ended so far had a processor."""
    used = resource.getrusage(resource.RUSAGE_CHILDREN)
    return used.ru_utime + used.ru_stime


def run(command, text):
    """The seconds that a program has a processor for a text, the least of some runs, and what it writes."""
    least = None
    with tempfile.TemporaryFile() as given:
        given.write(text.encode())
        for _ in range(RUNS):
            given.seek(0)
            before = on_processor()
            told = subprocess.run(command, stdin=given, stdout=subprocess.PIPE, check=True).stdout
            took = on_processor() - before
            least = took if least is None else min(least, took)
            if took > 2:
                break
    return least, told


def seconds_each(command, text_for, count_told):
    """The seconds that each of some equal things takes: as many as it needs to be timed."""
    without, _ = run(command, text_for(0))
    times = 1
    while True:
        took, told = run(command, text_for(times))
        if count_told(told) != times:
            sys.exit("%d of %d were answered" % (count_told(told), times))
        if took - without >= LEAST or times >= 4096:
            return (took - without) / times
        times *= 4


class Table:
    """The rows that are printed, and whether one was over its bound."""

    def __init__(self):
        self.is_over = False
        print("%-58s %10s %12s %10s %8s" % ("shape", "octets", "time", "ns each", "bound"))

    def row(self, shape, size, seconds, bound):
        each = seconds / size * 1e9
        is_over = each > bound
        self.is_over = self.is_over or is_over
        print("%-58s %10d %9.3f ms %10.1f %8.0f %s" % (shape, size, seconds * 1e3, each, bound, "over" if is_over else "ok"), flush=True)


def kept(answer, hits):
    """An answer comes by stream, where it may be long, and then so many requests are answered by it."""
    lines = [ask(1), opened(2, 0), wrote(2, 34), "at 3 bytes 0 %04x%s" % (len(answer) // 2, answer)]
    return text_of(lines + [ask(4 + moment) for moment in range(hits)], ["conf options use-vc"])


def time_written(table, program, share):
    shapes = [("%s, kept: %d octets" % (name, size), of_names(int(size * share), names))
              for name, names in (("no label twice", no_label_twice), ("equal beginnings", equal_beginnings),
                                  ("equal ends", equal_ends), ("anagrams", anagrams)) for size in SIZES]
    shapes += [("many names under one, kept", many_under_one(int(SIZES[1] * share))),
               ("%d pointers each, kept" % POINTERS, through_pointers(int(SIZES[1] * share))),
               ("3000 records with two names each, kept", two_names_each(int(3_000 * share)))]
    for name, answer in shapes:
        text = answer.finished()
        took = seconds_each([program, "replay"], lambda hits: kept(text, hits), lambda told: replies(told) - 1)
        table.row(name, answer.written_out, took, FOR_WRITTEN)


def replies(told):
    return sum(line.startswith(b"> reply ") and b" ok " in line for line in told.splitlines())


def time_looked_up(table, program, share):
    shapes = [("aliases %s: %d octets" % (name, size), chain_of_aliases(int(size * share), order))
              for name, order in (("in order", list), ("in reverse order", lambda numbers: numbers[::-1]), ("in no order", shuffled))
              for size in (28_000, LONGEST)]
    shapes += [("aliases in reverse order, %d pointers each" % POINTERS, chain_through_pointers(int(LONGEST * share))),
               ("aliases of one owner", one_owner(int(LONGEST * share)))]
    for name, (answer, target) in shapes:
        line = "host - %s\n" % answer.finished()
        found = (" %s " % target).encode()
        took = seconds_each([program], lambda times: line * times,
                            lambda told: sum(one.startswith(b"host ") and found in one for one in told.splitlines()))
        table.row(name, answer.written_out, took, FOR_LOOKED_UP)


def holding_ids(count):
    """So many requests are in flight on one connection, every other one is answered, and as many are asked again."""
    lines = [ask(1), "at 1 opened 0", wrote(1, 34)]
    for _ in range(count - 1):
        lines += [ask(1), wrote(1, 19)]
    lines += ["at 2 bytes 0 0011%04x81800001000000000000%s" % (ident, QUESTION) for ident in range(0, count, 2)]
    for _ in range(count // 2):
        lines += [ask(3), wrote(3, 19)]
    return lines


def backing_off(count):
    """So many requests wait for a connection that is refused, again and again."""
    lines = [ask(1) for _ in range(count)]
    for place in range(ROUNDS):
        lines += ["at %d open-failed %d refused" % (2 + 2 * place, place), "at %d tick" % (3 + 2 * place)]
    return lines


def octet_by_octet(count):
    """A frame of so many octets, one by one."""
    frame = bytes.fromhex("%04x" % count + "ffff8180") + bytes(count - 4)
    return [ask(1), "at 1 opened 0", wrote(1, 34)] + ["at 2 bytes 0 %02x" % octet for octet in frame]


def time_events(table, program, share):
    def time_of(lines):
        text = text_of(lines, ["conf options use-vc"])
        return run([program, "replay"], text)[0]

    without = time_of([])
    honest, _ = run([program, "replay"], by_stream(int(HONEST_EVENTS * share)))
    bound = FOR_EVENTS * (honest - without) / int(HONEST_EVENTS * share) * 1e9
    ids, requests, frame = (int(count * share) for count in (IDS, BACKING_OFF, FRAME))
    for name, lines, events in (("%d ids on a stream connection" % ids, holding_ids(ids), None),
                                ("%d requests back off %d times" % (requests, ROUNDS), backing_off(requests), requests * ROUNDS),
                                ("a frame of %d octets, octet by octet" % frame, octet_by_octet(frame), None)):
        table.row(name, events or len(lines), time_of(lines) - without, bound)


def main():
    if len(sys.argv) not in (3, 4):
        sys.exit(__doc__)
    share = float(sys.argv[3]) if len(sys.argv) == 4 else 1
    table = Table()
    time_written(table, sys.argv[1], share)
    time_looked_up(table, sys.argv[2], share)
    time_events(table, sys.argv[1], share)
    sys.exit(1 if table.is_over else 0)


if __name__ == "__main__":
    main()
