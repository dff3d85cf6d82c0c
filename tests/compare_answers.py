"""Compares the traces of the built program dnsq with a reference client where the datagrams are answers of other servers.

usage: python3 tests/compare_answers.py REFERENCE_FOLDER MESSAGES PROGRAM [--scripts N] [--first SEED]

REFERENCE_FOLDER holds the package `plain`; MESSAGES is a JSON file with a list of messages, each with its octets in `hex`;
PROGRAM is the built dnsq. Without the folder nothing is compared, and that is said. Of each script five messages are asked
for, four times each, with names in other case, other flags, with and without DO, and up to an hour apart, so that many
requests are answered from the cache. What is asked of the server is answered by the message. `check_trace` then compares the
trace with the reference client step by step.
"""

import argparse
import json
import os
import random
import subprocess
import sys
import tempfile

STAGE = 16
DO = "0000290000000080000000"
FLAGS = ("0100", "0100", "0000", "0120", "0110")
PAUSES = (1000, 900_000, 1_000_000, 30_000_000, 3_600_000_000)


def question_in(message):
    """The one question of class IN that a message has, in octets, unless that is for a whole zone or a datagram can't bring it."""
    if len(message) < 17 or len(message) > 1900 or message[4:6] != b"\0\1":
        return None
    at = 12
    while message[at]:
        at += 1 + message[at]
    if message[at + 1:at + 3] in (b"\0\xfb", b"\0\xfc") or message[at + 3:at + 5] != b"\0\1":
        return None
    return message[12:at + 5]


def spelled(question, chance):
    """The question with some letters of its name in the other case."""
    octets, at = bytearray(question), 0
    while octets[at]:
        for place in range(at + 1, at + 1 + octets[at]):
            if 65 <= octets[place] & 0xDF <= 90 and chance.random() < 0.3:
                octets[place] ^= 0x20
        at += 1 + octets[at]
    return octets.hex()


def replay(program, lines):
    ran = subprocess.run([program, "replay"], input=("\n".join(lines) + "\n").encode(), capture_output=True, timeout=120)
    return ran.returncode, ran.stdout.decode()


def outs_of_last(trace):
    """The outs of the last row, in words."""
    lines = trace.split("\n")
    last = max(place for place, line in enumerate(lines) if line.startswith("at "))
    return [line.split() for line in lines[last + 1:] if line.startswith("> ")]


def script_of(program, messages, seed):
    chance = random.Random(f"answers {seed}")
    words = " ".join(str(4660 + count) for count in range(200))
    lines = ["conf nameserver 192.0.2.53", f"set max-cache-entries {chance.choice([3, 8, 1000])}", f"words {words}"]
    now = 0
    for _ in range(5):
        message, question = chance.choice(messages)
        for count in range(4):
            now += chance.choice(PAUSES) if count else 5000
            flags = chance.choice(FLAGS)
            opt = DO if chance.random() < 0.5 else "-"
            lines.append(f"at {now} ask 0000{flags}0001000000000000{spelled(question, chance)} 0000{flags} {opt}")
            opened = [out[2] for out in outs_of_last(replay(program, lines)[1]) if out[1] == "open-dgram"]
            if not opened:
                continue
            now += 10
            lines.append(f"at {now} opened {opened[0]}")
            sent = [int(out[4]) for out in outs_of_last(replay(program, lines)[1]) if out[1] == "send"]
            if sent:
                now += 20
                lines.append(f"at {now} datagram {opened[0]} {sent[0]:04x}{message.hex()[4:]}")
    return lines


def compare(folder, program, messages, seed, room):
    lines = script_of(program, messages, seed)
    status, trace = replay(program, lines)
    names = [os.path.join(room, name) for name in ("script", "trace")]
    for name, text in zip(names, ("\n".join(lines) + "\n", trace)):
        with open(name, "w", encoding="utf-8") as it:
            it.write(text)
    judged = subprocess.run([sys.executable, "-m", "plain.check_trace", "--stage", str(STAGE), *names], cwd=folder, capture_output=True)
    good = status == 0 and judged.returncode == 0
    if not good:
        print(f"script {seed}: status {status}, judged:", (judged.stdout + judged.stderr).decode()[:600])
    return good


def main():
    parser = argparse.ArgumentParser()
    parser.add_argument("reference")
    parser.add_argument("messages")
    parser.add_argument("program")
    parser.add_argument("--scripts", type=int, default=100)
    parser.add_argument("--first", type=int, default=1)
    options = parser.parse_args()
    if not os.path.isdir(options.reference):
        print("skipped: no reference client at", options.reference)
        return 0
    program = os.path.abspath(options.program)
    with open(options.messages, encoding="utf-8") as it:
        read = [bytes.fromhex(entry["hex"]) for entry in json.load(it)]
    messages = [(message, question_in(message)) for message in read if question_in(message)]
    with tempfile.TemporaryDirectory() as room:
        seeds = range(options.first, options.first + options.scripts)
        good = sum(compare(options.reference, program, messages, seed, room) for seed in seeds)
    print(f"{good} passed, {options.scripts - good} failed")
    return 0 if good == options.scripts else 1


if __name__ == "__main__":
    sys.exit(main())
