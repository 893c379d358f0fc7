"""What benches/hostile does with --memory: it refuses each request for memory in turn, alone and with all that come after it, to
the command lines of a house and to the tests of memory."""

import concurrent.futures
import itertools
import os
import subprocess
import sys
import tempfile

from hostile_judge import ENDED_EARLY, is_answer

# Refuses one request for memory, or each from it on, and tells how many there were.
SHIM = r"""
#include <errno.h>
#include <fcntl.h>
#include <stdlib.h>
#include <stdatomic.h>
#include <sys/mman.h>
#include <unistd.h>
extern void *__libc_malloc(size_t), *__libc_calloc(size_t, size_t), *__libc_realloc(void *, size_t), *__libc_memalign(size_t, size_t);
static atomic_long own, *count = &own;
static long refused = -1, on;
__attribute__((constructor)) static void begin(void) {
    const char *word = getenv("REFUSED"), *path = getenv("REQUESTS");
    int file = path ? open(path, O_RDWR | O_CREAT, 0600) : -1;
    if (file >= 0 && ftruncate(file, sizeof own) == 0) {
        void *place = mmap(NULL, sizeof own, PROT_READ | PROT_WRITE, MAP_SHARED, file, 0);
        if (place != MAP_FAILED) count = place;
    }
    on = getenv("REFUSED_ON") != NULL;
    atomic_store(count, 0);
    if (word) refused = atol(word);
}
static int is_refused(void) {
    long now = atomic_fetch_add(count, 1) + 1;
    if (refused < 0 || !(now == refused || (on && now > refused))) return 0;
    errno = ENOMEM;
    return 1;
}
void *malloc(size_t n) { return is_refused() ? NULL : __libc_malloc(n); }
void *calloc(size_t n, size_t m) { return is_refused() ? NULL : __libc_calloc(n, m); }
void *realloc(void *p, size_t n) { return is_refused() ? NULL : __libc_realloc(p, n); }
void *memalign(size_t a, size_t n) { return is_refused() ? NULL : __libc_memalign(a, n); }
void *aligned_alloc(size_t a, size_t n) { return is_refused() ? NULL : __libc_memalign(a, n); }
int posix_memalign(void **p, size_t a, size_t n) {
    if (is_refused()) return ENOMEM;
    return (*p = __libc_memalign(a, n)) ? 0 : ENOMEM;
}
"""


class Shim:
    """The library that refuses memory, in a folder of its own with the count of requests."""

    def __init__(self, library):
        self.folder = tempfile.TemporaryDirectory(prefix="hostile")
        self.words = {"LD_PRELOAD": library, "REQUESTS": f"{self.folder.name}/requests"}

    def requests(self):
        """How many requests for memory the last program made."""
        with open(self.words["REQUESTS"], "rb") as file:
            return int.from_bytes(file.read(8), sys.byteorder)


def library_in(folder):
    """Makes the library that refuses memory."""
    with open(f"{folder}/shim.c", "w") as file:
        file.write(SHIM)
    subprocess.run(["cc", "-O1", "-shared", "-fPIC", "-o", f"{folder}/shim.so", f"{folder}/shim.c"], check=True)
    return f"{folder}/shim.so"


def is_starved(words, status, lines, whole):
    """Whether the program said that it got no memory, and nothing else that is untrue."""
    if status != 3 or not lines:
        return False
    if words[0] == "run" and lines[0] in ENDED_EARLY:
        return is_answer(words, lines)
    return lines[-1] in ("no memory", "cannot start 1") and lines[:-1] == whole[: len(lines) - 1]


class House:
    """The worked house in a folder of its own, over which memory is refused."""

    def __init__(self, run, program, library, files):
        self.run, self.program, self.shim = run, program, Shim(library)
        self.folder = self.shim.folder.name
        for name, data in files.items():
            with open(f"{self.folder}/{name}", "wb") as file:
                file.write(data)

    def call(self, words, **more):
        return self.run(self.program, self.folder, words, {**self.shim.words, **more})

    def starve(self, words):
        """Refuses each request of a command line: what is wrong, or how many requests there were and how often it got none."""
        status, whole, told = self.call(words)
        requests, starved = self.shim.requests(), 0
        if not requests:
            return "no request for memory was seen; without proofs a program has an allocator of its own", 0, 0
        for refused, on in itertools.product(range(1, requests + 1), ({}, {"REFUSED_ON": "1"})):
            found, lines, said = self.call(words, REFUSED=str(refused), **on)
            is_whole = lines == whole or (words[0] == "run" and is_answer(words, lines))
            if said == told and is_starved(words, found, lines, whole):
                starved += 1
            elif not (found == status and said == told and is_whole):
                how = " and all after it" if on else ""
                return (
                    f"request {refused} refused{how}: status {found} with {lines[-2:]}, {said[:3]}",
                    requests,
                    starved,
                )
        return None, requests, starved


def starve_tests(run, program, library):
    """Refuses each request for memory of each test of memory in turn. Each test has a process of its own."""
    shim = Shim(library)
    listed = run(program, shim.folder.name, ["--list"])[1]
    tests = [line.removesuffix(": test") for line in listed if line.startswith("memory::")]
    if not tests:
        sys.exit(f"benches/hostile: {program} has no test in a module `memory`")
    for test in tests:
        for refused in itertools.count(1):
            status, _, told = run(program, shim.folder.name, [test], {**shim.words, "REFUSED": str(refused)})
            if status != 0:
                sys.exit(f"{program} {test}: request {refused} refused: status {status}, {told[:3]}")
            if shim.requests() < refused:
                break
        print(f"{os.path.basename(program)} {test}: {refused - 1} requests, each refused", flush=True)


def starve_all(run, program, here, files, calls):
    """Refuses memory to all these command lines, side by side, and to the tests of memory that are built."""
    with tempfile.TemporaryDirectory() as folder, concurrent.futures.ThreadPoolExecutor(os.cpu_count()) as pool:
        library = library_in(folder)
        begun = [(words, pool.submit(House(run, program, library, files).starve, words)) for words in calls]
        for words, one in begun:
            fault, requests, starved = one.result()
            if fault:
                pool.shutdown(cancel_futures=True)
                sys.exit(f"{' '.join(words)}: {fault}")
            print(
                f"{' '.join(words)}: {requests} requests, each refused; {starved} of {2 * requests} runs got no memory"
            )
        for name in ("planttests", "threadtests"):
            tests = f"{here}/crates/{name}/out/{name}_tests"
            if os.path.exists(tests):
                starve_tests(run, tests, library)
            else:
                print(f"{name}: left out, since its tests are not built")
