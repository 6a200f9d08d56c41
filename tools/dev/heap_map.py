#!/usr/bin/env python3
"""Where a run's memory lies when its heap is largest: the functions that asked for lists of at least
200,000 bytes, and the gaps between these.

    tools/dev/heap_map.py PROGRAM [WORD ..]

A small library stands before malloc and tells what is asked for and given back; gcc compiles it, and
nm tells the functions. Linux alone.
"""
import bisect
import collections
import os
import subprocess
import sys
import tempfile

# Where a program lies whose addresses are not drawn.
BASE = 0x555555554000
# Above the heap: lists that have pages of their own.
MAPPED = 0x700000000000
SOURCE = r"""
#define _GNU_SOURCE
#include <dlfcn.h>
#include <execinfo.h>
#include <malloc.h>
#include <stdio.h>
#include <stdlib.h>
#include <unistd.h>
enum { LEAST = 200000, TOLD = 3 };
static void *(*next_malloc)(size_t), (*next_free)(void *), *(*next_realloc)(void *, size_t);
static int telling;
__attribute__((constructor)) static void find(void) {
    next_malloc = dlsym(RTLD_NEXT, "malloc");
    next_free = dlsym(RTLD_NEXT, "free");
    next_realloc = dlsym(RTLD_NEXT, "realloc");
}
static void tell(void *old, void *new, size_t size) {
    if (telling) return;
    telling = 1;
    void *frames[4] = {0};
    backtrace(frames, 4);
    dprintf(TOLD, "%zu %zu %zu %zu\n", (size_t)old, (size_t)new, size, (size_t)frames[3]);
    telling = 0;
}
void *malloc(size_t size) {
    if (!next_malloc) find();
    void *new = next_malloc(size);
    if (size >= LEAST) tell(0, new, size);
    return new;
}
void free(void *old) {
    if (!next_free) find();
    if (old && malloc_usable_size(old) >= LEAST) tell(old, 0, 0);
    next_free(old);
}
void *realloc(void *old, size_t size) {
    if (!next_realloc) find();
    size_t held = old ? malloc_usable_size(old) : 0;
    void *new = next_realloc(old, size);
    if (size >= LEAST || held >= LEAST) tell(old, new, size);
    return new;
}
"""


def told_by(words):
    """What a run of these words asks for and gives back, in turn."""
    with tempfile.TemporaryDirectory() as folder:
        source, library, told = (os.path.join(folder, name) for name in ("m.c", "m.so", "told"))
        with open(source, "w") as file:
            file.write(SOURCE)
        subprocess.run(["gcc", "-O1", "-shared", "-fPIC", "-o", library, source, "-ldl"], check=True)
        line = f'LD_PRELOAD="{library}" exec setarch -R "$@" 3>"{told}" >/dev/null'
        subprocess.run(["sh", "-c", line, "sh", *words], check=True)
        with open(told) as file:
            return [tuple(map(int, line.split())) for line in file]


def largest(events):
    """The lists that stand in the heap when it ends highest, by address: their size and caller."""
    held, highest, lists = {}, 0, {}
    for old, new, size, caller in events:
        held.pop(old, None)
        if new:
            held[new] = size, caller
        if new < MAPPED and new + size > highest:
            highest = new + size
            lists = {at: one for at, one in held.items() if at < MAPPED}
    return lists


def functions(program):
    """The function at each address of a program."""
    lines = subprocess.run(["nm", program], capture_output=True, text=True, check=True).stdout
    rows = (line.split(None, 2) for line in lines.splitlines())
    known = sorted((int(row[0], 16), row[2]) for row in rows if len(row) == 3 and row[1] in "tT")
    starts = [start for start, _ in known]
    return lambda address: known[bisect.bisect(starts, address - BASE) - 1][1]


words = sys.argv[1:]
lists = largest(told_by(words))
name = functions(words[0])
sums = collections.defaultdict(lambda: [0, 0])
gaps, end = [0, 0], min(lists)
for at, (size, caller) in sorted(lists.items()):
    one = sums[name(caller)]
    one[0] += 1
    one[1] += size
    gaps[0] += at > end + 64
    gaps[1] += at - end
    end = at + size
print(f"{end - min(lists):>12,} bytes from the first list to the end of the last")
for function, (count, size) in sorted(sums.items(), key=lambda one: -one[1][1]):
    print(f"{size:>12,} {count:>5}  {function}")
print(f"{gaps[1]:>12,} {gaps[0]:>5}  gaps")
