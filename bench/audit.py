"""Times the judge of traces: honest traces as they grow ten times as long, and traces that are made to cost it much.

usage: python3 bench/audit.py AUDIT DNSQ [SHARE]
       python3 bench/audit.py --long BENCH_AUDIT DNSQ [SHARE]

AUDIT is the built trace_audit, DNSQ the built dnsq, which replays the scripts. SHARE is how much of each size is taken, from 0 to 1.

Honest: up to ten questions at a time by datagrams, ten in flight on one connection by stream, and one question of which the answer is
kept. A row may take 10 microseconds of a processor, reading included, and ten times as many rows 12 times as long. The time is the
least of three runs, and the most memory that it held is told.

Then what may cost much in a row, each of two sizes of which one is ten times the other: questions at a time by datagrams, over as many
rows; requests that wait, as many rows long; frames that come at once, each of which is the reply to a request; and fresh replies to one
question, behind which views of the oldest are given. Of these it is told how many times as long ten times as much takes, and `grows` where that is above 14 times: these have no bound
yet, and docs/MEASURED.md says what is known of them.

With --long the judge alone is timed, by BENCH_AUDIT, which `bench/build --proved bench_audit` makes, over texts that no script of the
programs may be long enough for: 100,000 and 1,000,000 rows, up to ten questions at a time by datagrams, and one question of which the
answer is kept. A replay is repeated with later moments and higher numbers; nothing is open where it ends. It is judged three times and
not at all, in turn, and a third of the difference counts. The same bounds hold.

Ends with status 1 where a bound of the honest ones is passed, or a trace is not judged right.
"""

import os
import resource
import subprocess
import sys
import tempfile

import replay
from replay import QUESTION, ask, by_datagrams, by_stream, from_cache, opened, text_of, ticked, wrote

RUNS = 3
SIZES = (15_000, 150_000)
MOST_FOR_A_ROW = 10
MOST_FOR_TEN_TIMES = 12
GROWS = 14
AT_A_TIME = (10, 100)
WAITING = (300, 3_000)
FRAMES = (300, 3_000)
FRESH = (100, 1_000)
VIEWS = 2_000
LONG = (100_000, 1_000_000)
REPEATED = 3_000
TIMES = 3


def many_frames(count):
    """So many requests wait on one connection, and all answers come at once."""
    lines = [ask(1), "at 1 opened 0", wrote(1, 34)]
    for _ in range(count - 1):
        lines += [ask(1), wrote(1, 19)]
    frames = "".join("0011%04x81800001000000000000%s" % (ident, QUESTION) for ident in range(count))
    return text_of(lines + ["at 2 bytes 0 " + frames], ["conf options use-vc"])


def address(place):
    return "000001000100015180" + "0004%08x" % place


def many_fresh(count):
    """So many requests for one name are asked at once, and each has another answer; then it is asked again and again."""
    lines = [ask(1) for _ in range(count)]
    places = min(count, 100)
    for first in range(0, count, places):
        for place in range(first, min(first + places, count)):
            lines += [opened(2, place), "at 2 datagram %d 000081800001000100000000%s%s" % (place, QUESTION, address(place))]
    return text_of(lines + [ask(3) for _ in range(VIEWS)])


def of_the_oldest(trace):
    """A trace in which each view is one of the first reply's answer."""
    rows, replies = trace.split(b"\n"), 0
    asked = 0
    for n, row in enumerate(rows):
        asked += b" ask " in row
        if row.startswith(b"> reply ") and rows[n - 1].startswith(b"at 3 ask"):
            rows[n] = row[:-8] + b"%08x" % 0
            replies += 1
    if replies != VIEWS:
        sys.exit("%d views" % replies)
    return b"\n".join(rows)


def timed(command):
    before = resource.getrusage(resource.RUSAGE_CHILDREN)
    ended = subprocess.run(command, stdout=subprocess.PIPE)
    after = resource.getrusage(resource.RUSAGE_CHILDREN)
    if ended.stdout != b"right\n":
        sys.exit("not right: %r" % ended.stdout)
    return after.ru_utime + after.ru_stime - before.ru_utime - before.ru_stime


def memory(command, room):
    """The most memory that the command held, in MB."""
    path = os.path.join(room, "held")
    subprocess.run(["/usr/bin/time", "-f", "%M", "-o", path, *command], stdout=subprocess.DEVNULL)
    with open(path) as file:
        return int(file.read().split()[-1]) / 1024


class Judging:
    def __init__(self, audit, dnsq, room):
        self.audit, self.dnsq, self.room = audit, dnsq, room

    def command(self, script, change):
        names = [os.path.join(self.room, name) for name in ("script", "trace")]
        made = subprocess.run([self.dnsq, "replay"], input=script.encode(), stdout=subprocess.PIPE, check=True).stdout
        for name, text in zip(names, (script.encode(), change(made))):
            with open(name, "wb") as file:
                file.write(text)
        return [self.audit, *names], made.count(b"\nat ")

    def seconds(self, script, change=lambda trace: trace):
        command, rows = self.command(script, change)
        return min(timed(command) for _ in range(RUNS)), rows, memory(command, self.room)


def at_a_time(count, rows):
    """So many questions at a time by datagrams."""
    replay.AT_A_TIME = count
    return by_datagrams(rows)


def honest(judging, share):
    replay.AT_A_TIME = AT_A_TIME[0]
    is_over = False
    for name, script in (("by datagrams", by_datagrams), ("by stream", by_stream), ("from the cache", from_cache)):
        found = [judging.seconds(script(int(size * share))) for size in SIZES]
        for took, rows, held in found:
            over = took / rows * 1e6 > MOST_FOR_A_ROW
            is_over |= over
            print("%s: %d rows: %.3f s, %.2f us a row, %.0f MB%s" % (name, rows, took, took / rows * 1e6, held, ", over" if over else ""))
        times = found[1][0] / found[0][0]
        is_over |= times > MOST_FOR_TEN_TIMES
        print("  ten times as many rows take %.1f times as long%s" % (times, ", over" if times > MOST_FOR_TEN_TIMES else ""))
    return is_over


def dear(judging, share):
    rows = int(SIZES[0] * share)
    shapes = (("questions at a time, over %d rows" % rows, AT_A_TIME, lambda count: at_a_time(count, rows), lambda trace: trace),
              ("requests that wait", WAITING, ticked, lambda trace: trace), ("frames at once", FRAMES, many_frames, lambda trace: trace),
              ("fresh replies before %d views" % VIEWS, FRESH, many_fresh, of_the_oldest))
    for name, sizes, script, change in shapes:
        counts = sizes if sizes is AT_A_TIME else [max(10, int(size * share)) for size in sizes]
        found = [judging.seconds(script(count), change) for count in counts]
        times = found[1][0] / found[0][0]
        print("%s: %s: %s s, %.1f times as long%s" % (name, ", ".join(map(str, counts)), ", ".join("%.3f" % one[0] for one in found),
                                                      times, ", grows" if times > GROWS else ""))


class Block:
    """Rows of a script and its trace that are repeated: their moments, requests and places go on where the last ones ended."""

    PLACE_FIRST = {b"opened", b"datagram", b"open-dgram", b"send", b"close"}

    def __init__(self, lines):
        self.lines = [line.split(b" ") for line in lines]
        self.requests = sum(b"ask" in line[2:3] for line in self.lines)
        self.places = sum(line[1] == b"open-dgram" for line in self.lines)
        moments = [int(line[1]) for line in self.lines if line[0] == b"at"]
        self.first, self.length = moments[0], moments[-1] - moments[0] + 1

    def later(self, line, n):
        """A line, as it is n times later."""
        line, head = list(line), 1
        if line[0] == b"at":
            line[1] = b"%d" % (int(line[1]) + n * self.length)
            head = 2
        word = line[head]
        if word in self.PLACE_FIRST:
            line[head + 1] = b"%d" % (int(line[head + 1]) + n * self.places)
        if word in (b"start", b"reply"):
            line[head + 1] = b"%d" % (int(line[head + 1]) + n * self.requests)
        if word == b"send":
            line[head + 2] = b"%d" % (int(line[head + 2]) + n * self.requests)
        return b" ".join(line)

    def write(self, script, trace, times):
        for n in range(times):
            for line in self.lines:
                text = self.later(line, n) + b"\n"
                trace.write(text)
                if line[0] == b"at":
                    script.write(text)


def parted(trace, rows):
    """The lines of the first rows of a trace, and the others."""
    lines = trace.splitlines()[1:-1]
    starts = [n for n, line in enumerate(lines) if line.startswith(b"at ")] + [len(lines)]
    return lines[: starts[rows]], lines[starts[rows] :]


def write_long(room, dnsq, script, head_rows, rows):
    """Writes a script and its trace of about so many rows."""
    trace = subprocess.run([dnsq, "replay"], input=script.encode(), stdout=subprocess.PIPE, check=True).stdout
    head, body = parted(trace, head_rows)
    block = Block(body)
    each = sum(line[0] == b"at" for line in block.lines)
    names = [os.path.join(room, name) for name in ("script", "trace")]
    with open(names[0], "wb") as one, open(names[1], "wb") as other:
        one.write(b"".join(line.encode() + b"\n" for line in script.splitlines() if not line.startswith("at ")))
        one.write(b"".join(line + b"\n" for line in head if line.startswith(b"at ")))
        other.write(b"trace 1\n" + b"".join(line + b"\n" for line in head))
        block.write(one, other, rows // each)
        other.write(b"end\n")
    return names, rows // each * each + head_rows


def seconds_of_judging(command, names, times):
    before = resource.getrusage(resource.RUSAGE_CHILDREN)
    ended = subprocess.run([command, str(times), *names], stdout=subprocess.PIPE, check=True)
    after = resource.getrusage(resource.RUSAGE_CHILDREN)
    if ended.stdout != b"right\n" * times:
        sys.exit("not right: %r" % ended.stdout)
    return after.ru_utime + after.ru_stime - before.ru_utime - before.ru_stime


def long_ones(command, dnsq, share):
    replay.AT_A_TIME = AT_A_TIME[0]
    is_over = False
    for name, script, head_rows in (("by datagrams", by_datagrams(REPEATED), 0), ("from the cache", from_cache(REPEATED), 3)):
        found = []
        for size in LONG:
            with tempfile.TemporaryDirectory() as room:
                names, rows = write_long(room, dnsq, script, head_rows, int(size * share))
                took = (seconds_of_judging(command, names, TIMES) - seconds_of_judging(command, names, 0)) / TIMES
                held = memory([command, "1", *names], room)
            found.append(took)
            over = took / rows * 1e6 > MOST_FOR_A_ROW
            is_over |= over
            print("%s: %d rows: %.3f s, %.2f us a row, %.0f MB%s" % (name, rows, took, took / rows * 1e6, held, ", over" if over else ""))
        times = found[1] / found[0]
        is_over |= times > MOST_FOR_TEN_TIMES
        print("  ten times as many rows take %.1f times as long%s" % (times, ", over" if times > MOST_FOR_TEN_TIMES else ""))
    return is_over


def main():
    if len(sys.argv) > 1 and sys.argv[1] == "--long":
        if len(sys.argv) not in (4, 5):
            sys.exit(__doc__)
        sys.exit(1 if long_ones(*map(os.path.abspath, sys.argv[2:4]), float(sys.argv[4]) if len(sys.argv) == 5 else 1) else 0)
    if len(sys.argv) not in (3, 4):
        sys.exit(__doc__)
    share = float(sys.argv[3]) if len(sys.argv) == 4 else 1
    with tempfile.TemporaryDirectory() as room:
        judging = Judging(os.path.abspath(sys.argv[1]), os.path.abspath(sys.argv[2]), room)
        is_over = honest(judging, share)
        dear(judging, share)
    sys.exit(1 if is_over else 0)


if __name__ == "__main__":
    main()
