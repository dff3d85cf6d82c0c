"""Times the reading and writing of messages: against two other libraries, and as a message grows.

usage: python3 bench/messages.py PROGRAM [PEER]

PROGRAM is the built tool_texts. 100 messages of 65535 octets with 4000 records are read and printed, and 100 of
half the octets with half the records; the least of five runs of each and their ratio are told. Then a line `time`
reads an answer of 45 octets and writes it again, in turn with libknot (where a C compiler and libknot's headers are
there: the few lines of C below are built in a temporary folder) and with PEER, a program whose first line of output
tells as `N ns each` how long another library takes for the same. The least times of five rounds and their ratios are
told: below 1 ours is faster.
"""

import os
import re
import subprocess
import sys
import tempfile
import time

MESSAGES = 100
ANSWERS = 1_000_000
RUNS = 5
QUESTION = "076578616d706c6503636f6d0000010001"
ADDRESS = "c00c00010001000000640004c0000201"
ANSWER = "123481800001000100000000" + QUESTION + ADDRESS

KNOT = r"""
#include <libknot/libknot.h>
#include <stdio.h>
#include <string.h>
#include <time.h>

static const uint8_t answer[] = { %s };

/* Copies the question and the answer section of a message that was read. */
static size_t copied(knot_pkt_t *read, uint8_t *octets, size_t limit)
{
    knot_pkt_t *written = knot_pkt_new(octets, limit, NULL);
    memcpy(written->wire, read->wire, 4);
    knot_pkt_put_question(written, knot_pkt_qname(read), knot_pkt_qclass(read), knot_pkt_qtype(read));
    knot_pkt_begin(written, KNOT_ANSWER);
    const knot_pktsection_t *section = knot_pkt_section(read, KNOT_ANSWER);
    for (uint16_t i = 0; i < section->count; i++)
        knot_pkt_put(written, KNOT_COMPR_HINT_NONE, knot_pkt_rr(section, i), 0);
    size_t size = written->size;
    knot_pkt_free(written);
    return size;
}

int main(void)
{
    struct timespec begin, end;
    size_t sum = 0;
    clock_gettime(CLOCK_MONOTONIC, &begin);
    for (int i = 0; i < %d; i++) {
        uint8_t in[sizeof answer], out[512];
        memcpy(in, answer, sizeof answer);
        knot_pkt_t *read = knot_pkt_new(in, sizeof in, NULL);
        if (knot_pkt_parse(read, 0) != KNOT_EOK)
            return 1;
        sum += copied(read, out, sizeof out);
        knot_pkt_free(read);
    }
    clock_gettime(CLOCK_MONOTONIC, &end);
    if (sum != sizeof answer * %d)
        return 1;
    printf("%%.0f ns each\n", ((end.tv_sec - begin.tv_sec) * 1e9 + (end.tv_nsec - begin.tv_nsec)) / %d);
    return 0;
}
"""


def message(octets, records):
    """A response of so many octets and records: addresses, and a record of an unknown type that fills the rest."""
    text = "000081800001%04x00000000%s%s" % (records, QUESTION, ADDRESS * (records - 1))
    text += "c00cff00000100000064"
    rest = octets - len(text) // 2 - 2
    return text + "%04x" % rest + "00" * rest


def reading_seconds(program, octets, records):
    lines = ("message " + message(octets, records) + "\n") * MESSAGES
    began = time.perf_counter()
    printed = subprocess.run([program], input=lines.encode(), stdout=subprocess.PIPE, check=True).stdout
    took = time.perf_counter() - began
    if printed.count(b"\nanswer ") != MESSAGES * records:
        sys.exit("the messages were not read")
    return took


def knot_program(folder):
    """The program that times libknot, or nothing where it can't be built."""
    source = os.path.join(folder, "knot.c")
    program = os.path.join(folder, "knot")
    octets = ", ".join("0x" + ANSWER[i:i + 2] for i in range(0, len(ANSWER), 2))
    with open(source, "w") as file:
        file.write(KNOT % (octets, ANSWERS, ANSWERS, ANSWERS))
    try:
        built = subprocess.run(["cc", "-O2", "-o", program, source, "-lknot"], stderr=subprocess.DEVNULL)
    except FileNotFoundError:
        return None
    return program if built.returncode == 0 else None


def nanoseconds(program, form, line=""):
    printed = subprocess.run([program], input=line, stdout=subprocess.PIPE, check=True, text=True).stdout
    return int(re.search(form, printed).group(1))


def compare(program, peers):
    """Runs all in turn, so that each meets the same other load."""
    rounds = []
    for _ in range(RUNS):
        times = [nanoseconds(program, r"^(\d+)$", "time %d\n" % ANSWERS)]
        rounds.append(times + [nanoseconds(peer, r"^.*?(\d+) ns each") for _, peer in peers])
    ours, *others = (min(times) for times in zip(*rounds))
    print("an answer read and written: %d ns" % ours)
    for (name, _), theirs in zip(peers, others):
        print("by %s: %d ns; ours takes %.2f times as long" % (name, theirs, ours / theirs))


def main():
    if len(sys.argv) < 2:
        sys.exit(__doc__)
    program = sys.argv[1]
    whole = min(reading_seconds(program, 65535, 4000) for _ in range(RUNS))
    half = min(reading_seconds(program, 32767, 2000) for _ in range(RUNS))
    print("65535 octets, 4000 records: %.2f ms; half of both: %.2f ms" % (whole * 1000 / MESSAGES, half * 1000 / MESSAGES))
    print("twice the octets take %.2f times as long" % (whole / half))
    with tempfile.TemporaryDirectory() as folder:
        knot = knot_program(folder)
        if knot is None:
            print("libknot is not measured: it can't be built here")
        peers = [("libknot", knot)] if knot else []
        compare(program, peers + [("the peer", peer) for peer in sys.argv[2:3]])


if __name__ == "__main__":
    main()
