"""Refuses each allocation of the built program dnsq in turn, and says what came out.

usage: python3 tests/refuse_memory.py PROGRAM [SCRIPT..]

PROGRAM is the built dnsq. Each SCRIPT (those of examples/ and examples/lanes/ where none is given) is replayed, or run by `many`
where it has lanes, as often as that asks the C library for memory, and each time another one of these calls is refused: malloc,
calloc, realloc or aligned_alloc. Status 6 and no output are wanted; or status 0 and all that is due, where the library itself was
refused and went on without: the whole trace, or for lanes what is the replay of its own events. Anything else ends with status 1.
A small library in C that is loaded before the program does the refusing; it is made anew by `cc`.
"""

import os
import subprocess
import sys
import tempfile
from concurrent.futures import ThreadPoolExecutor
from pathlib import Path

from replay_lanes import difference

ROOT = Path(__file__).resolve().parent.parent
REFUSING = r"""
#define _GNU_SOURCE
#include <dlfcn.h>
#include <errno.h>
#include <stdio.h>
#include <stdlib.h>
#include <string.h>
#include <sys/syscall.h>
#include <unistd.h>

static long refused = -1, calls = 0, is_counting = 0;
static char early[65536];
static size_t used = 0;
static void *(*real_malloc)(size_t), *(*real_calloc)(size_t, size_t), *(*real_realloc)(void *, size_t);
static void *(*real_aligned)(size_t, size_t);
static int (*real_memalign)(void **, size_t, size_t);
static void (*real_free)(void *);

static void find(void) {
    static int is_found = 0;
    if (is_found) return;
    is_found = 1;
    real_malloc = dlsym(RTLD_NEXT, "malloc");
    real_calloc = dlsym(RTLD_NEXT, "calloc");
    real_realloc = dlsym(RTLD_NEXT, "realloc");
    real_aligned = dlsym(RTLD_NEXT, "aligned_alloc");
    real_memalign = dlsym(RTLD_NEXT, "posix_memalign");
    real_free = dlsym(RTLD_NEXT, "free");
}
static int refuse(void) {
    if (!is_counting) return 0;
    if (__sync_add_and_fetch(&calls, 1) != refused) return 0;
    errno = ENOMEM;
    return 1;
}
static void *from_early(size_t size) {
    void *at = early + used;
    used += (size + 15) & ~(size_t)15;
    return used <= sizeof early ? at : NULL;
}
void *malloc(size_t size) { find(); return refuse() ? NULL : real_malloc ? real_malloc(size) : from_early(size); }
void *calloc(size_t count, size_t size) {
    find();
    return refuse() ? NULL : real_calloc ? real_calloc(count, size) : from_early(count * size);
}
void *realloc(void *at, size_t size) { find(); return refuse() ? NULL : real_realloc(at, size); }
void *aligned_alloc(size_t to, size_t size) { find(); return refuse() ? NULL : real_aligned(to, size); }
int posix_memalign(void **at, size_t to, size_t size) { find(); return refuse() ? ENOMEM : real_memalign(at, to, size); }
void free(void *at) {
    find();
    if ((char *)at >= early && (char *)at < early + sizeof early) return;
    real_free(at);
}
__attribute__((constructor)) static void begin(void) {
    find();
    if (getenv("REFUSED_CALL")) refused = atol(getenv("REFUSED_CALL"));
    is_counting = 1;
}
__attribute__((destructor)) static void end(void) {
    is_counting = 0;
    const char *path = getenv("CALLS_FILE");
    FILE *file = path ? fopen(path, "w") : NULL;
    if (!file) return;
    fprintf(file, "%ld", calls);
    fclose(file);
}
/* A program that may start threads ends so, and then no destructor is run. */
void _exit(int status) {
    end();
    for (;;) syscall(SYS_exit_group, status);
}
"""


def made(room):
    source, library = os.path.join(room, "refusing.c"), os.path.join(room, "refusing.so")
    with open(source, "w") as file:
        file.write(REFUSING)
    subprocess.run(["cc", "-O1", "-shared", "-fPIC", "-o", library, source, "-ldl"], check=True)
    return library


def parts_of(script):
    """The lines before the lanes, and those of each lane; no lanes where the script has none."""
    head, *lanes = [part.splitlines() for part in ("\n" + Path(script).read_text()).split("\nlane\n")]
    return head[1:], lanes


def run(program, library, script, **more):
    with open(script, "rb") as text:
        return subprocess.run([program, "many" if parts_of(script)[1] else "replay"], stdin=text, capture_output=True, timeout=60,
                              env={**os.environ, "LD_PRELOAD": library, **more})


def is_whole(program, script, ran, trace):
    head, lanes = parts_of(script)
    if lanes:
        return difference(program, head, lanes, ran.returncode, ran.stdout.decode()) is None
    return ran.returncode == 0 and ran.stdout == trace


def outcome(program, script, ran, trace):
    if ran.returncode == 6 and ran.stdout == b"":
        return "6"
    return "0" if is_whole(program, script, ran, trace) else "%d, %d octets" % (ran.returncode, len(ran.stdout))


def refuse_each(program, library, script, room):
    counted = os.path.join(room, "calls")
    whole = run(program, library, script, CALLS_FILE=counted)
    calls = int(Path(counted).read_text())
    with ThreadPoolExecutor(os.cpu_count()) as pool:
        ends = list(pool.map(lambda call: outcome(program, script, run(program, library, script, REFUSED_CALL=str(call)), whole.stdout),
                             range(1, calls + 1)))
    bad = ["call %d: status %s" % (1 + at, end) for at, end in enumerate(ends) if end not in ("0", "6")]
    print("%s: %d calls: status 6 at %d, 0 at %d" % (Path(script).name, calls, ends.count("6"), ends.count("0")))
    for line in bad[:10]:
        print(" ", line)
    return whole.returncode == 0 and calls > 0 and ends.count("6") > 0 and not bad


def main():
    if len(sys.argv) < 2:
        sys.exit(__doc__)
    scripts = sys.argv[2:] or sorted(str(path) for folder in ("examples", "examples/lanes") for path in (ROOT / folder).glob("*.script"))
    with tempfile.TemporaryDirectory() as room:
        library = made(room)
        good = [refuse_each(os.path.abspath(sys.argv[1]), library, script, room) for script in scripts]
    if not all(good):
        sys.exit(1)


if __name__ == "__main__":
    main()
