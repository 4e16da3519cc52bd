#!/usr/bin/env python3
"""Times the library of this crate: measure.py [WORKLOAD ..] [--reps N] [--config NAME] [--synchronous] [--memory]

`rt lib` makes the library first. Each workload is timed in processor time, as the difference of two calls: its set-up
alone, and its set-up with the timed part. Printed are the median and the least nanoseconds an operation, and the counts;
with --synchronous the same of the synchronous cache, in turn with the engine, and the median of the ratios. The
configurations: `lru`; `lfu`, the policy TinyLFU; and LRU with an hour to live (`ttl`) or to idle (`tti`), SipHash (`sip`),
a listener (`listener`), weights from 1 to 16 (`weights`).
"""
import argparse
import array
import bisect
import ctypes
import itertools
import os
import statistics
import struct
import subprocess
import sys
import tempfile
import time

HERE = os.path.dirname(os.path.abspath(__file__))
NONE = 2**64 - 1
GET, PUT, READ_THROUGH, PUT_VALUES, RUN, GETS_AND_RUNS, PUTS_AND_RUNS = 1, 2, 3, 4, 5, 7, 8
BATCH = 384
HOUR = 3600 * 10**9
# The words that a configuration sets, by their index, and those of a workload.
CAPACITY, LIVE, IDLE, POLICY, EXPIRY, AUTOMATIC = range(6)
HASHER, TEXTS, STEP, CACHE, LISTENER, WEIGHER = range(7, 13)
CONFIGS = {"lru": {}, "lfu": {POLICY: 0}, "ttl": {LIVE: HOUR}, "tti": {IDLE: HOUR}, "sip": {HASHER: 1},
           "listener": {LISTENER: 1}, "weights": {WEIGHER: 1}}
# What an entry weighs on average with weights, rounded up.
MEAN_WEIGHT = 9


def load(folder):
    """The exported function, linked into a shared library in this folder."""
    page = subprocess.run(["rt", "doc"], capture_output=True, text=True, check=True).stdout.split("\n")[0]
    shared = os.path.join(folder, "moka_bench.so")
    subprocess.run(["cc", "-shared", "-o", shared, "-Wl,--whole-archive", os.path.join(HERE, "out/libmoka_bench.a"),
                    "-Wl,--no-whole-archive", os.path.join(os.path.dirname(page), "c/liblibc_c.a")], check=True)
    run = ctypes.CDLL(shared).moka_bench_run
    run.restype = ctypes.c_uint64
    run.argtypes = [ctypes.c_char_p, ctypes.c_size_t] * 3
    return run


def random(seed):
    """Endless numbers of 64 bits (splitmix64)."""
    while True:
        seed = (seed + 0x9E3779B97F4A7C15) % 2**64
        z = (seed ^ seed >> 30) * 0xBF58476D1CE4E5B9 % 2**64
        z = (z ^ z >> 27) * 0x94D049BB133111EB % 2**64
        yield z ^ z >> 31


def zipf(keys, exponent, count, seed):
    """So many keys below `keys`, the ranks scattered over them."""
    ranks = list(itertools.accumulate((rank + 1) ** -exponent for rank in range(keys)))
    for z in itertools.islice(random(seed), count):
        rank = bisect.bisect(ranks, z / 2**64 * ranks[-1])
        yield rank * 0x9E3779B1 % keys


def phase(operation, words, argument=0):
    words = array.array("Q", words)
    return struct.pack("<4Q", operation, len(words), argument, 0) + words.tobytes()


def workload(name):
    """Answers the words that it sets, set-up, timed part and how many operations the timed part has."""
    kind, size = name.split("-")
    n = int(size[:-1]) * {"k": 1000, "m": 1000000}[size[-1]]
    full = phase(PUT, range(n)) + phase(RUN, [], BATCH)
    bound = {CAPACITY: n}
    if kind == "hit":
        return bound, full, phase(GET, zipf(n, 0.99, 1000000, 1)), 1000000
    if kind == "text":
        return {**bound, TEXTS: n}, full, phase(GET, zipf(n, 0.99, 1000000, 1)), 1000000
    if kind == "mix":
        warm = phase(READ_THROUGH, zipf(1000000, 0.9, 1000000, 2))
        return bound, warm, phase(READ_THROUGH, zipf(1000000, 0.9, 1000000, 3)), 1000000
    if kind == "churn":
        return bound, full, phase(PUT, range(n, n + 1000000)), 1000000
    if kind == "expiry":
        # a millisecond between two inserts, and some n of them until an entry expires
        lasting = ((n // 2 + z % n) * 10**6 for z in random(6))
        warm, timed = (itertools.chain.from_iterable(zip(keys, lasting)) for keys in (range(2 * n), range(2 * n, 3 * n)))
        return {EXPIRY: 1, STEP: 10**6}, phase(PUT_VALUES, warm), phase(PUT_VALUES, timed), n
    if kind == "run_reads":
        return {**bound, AUTOMATIC: 0}, full, phase(GETS_AND_RUNS, zipf(n, 0.99, 960000, 4), BATCH), 960000
    if kind == "run_writes":
        return {**bound, AUTOMATIC: 0}, full, phase(PUTS_AND_RUNS, zipf(n, 0.99, 960000, 5), BATCH), 960000
    sys.exit("there is no workload " + name)


def call(run, words, stream, cache=0, config="lru"):
    """Processor seconds and counts of one call."""
    set_words = {CAPACITY: NONE, LIVE: NONE, IDLE: NONE, POLICY: 1, AUTOMATIC: 1, CACHE: cache, **CONFIGS[config], **words}
    if config == "weights":
        set_words[CAPACITY] *= MEAN_WEIGHT
    config = struct.pack("<16Q", *(set_words.get(it, 0) for it in range(16)))
    counts = ctypes.create_string_buffer(64)
    begun = time.process_time()
    answer = run(config, len(config), stream, len(stream), counts, 64)
    spent = time.process_time() - begun
    if answer:
        sys.exit("the library answered %d" % answer)
    return spent, struct.unpack("<8Q", counts.raw)[:5]


def times(run, name, reps, caches, config):
    words, setup, timed, operations = workload(name)
    each, found = [[] for _ in caches], [None for _ in caches]
    for _ in range(reps):
        for cache in caches:
            before, _ = call(run, words, setup, cache, config)
            both, found[cache] = call(run, words, setup + timed, cache, config)
            each[cache].append((both - before) / operations * 1e9)
    for cache in caches:
        counts = "hits %d, misses %d, inserts %d, sum %d, entries %d" % found[cache]
        spent = "%8.1f [%.1f] ns" % (statistics.median(each[cache]), min(each[cache]))
        print("%-16s %-11s %s   %s" % (name, ("engine", "synchronous")[cache], spent, counts), flush=True)
    if len(caches) > 1:
        ratio = statistics.median(one / other for other, one in zip(*each))
        print("%-16s %.2f times the engine's, %.2f of the least" % ("", ratio, min(each[1]) / min(each[0])), flush=True)


def resident(which):
    """Kilobytes of resident memory: VmRSS now, VmHWM at the peak."""
    with open("/proc/self/status") as status:
        return next(int(line.split()[1]) for line in status if line.startswith(which))


def memory(run, config):
    """Prints the bytes of resident memory an entry, at the peak."""
    entries = 1000000
    stream = phase(PUT, range(entries)) + phase(RUN, [], BATCH)
    before = resident("VmRSS")
    call(run, {CAPACITY: entries}, stream, 0, config)
    print("%d bytes an entry" % ((resident("VmHWM") - before) * 1024 / entries))


def main():
    ask = argparse.ArgumentParser(description=__doc__, formatter_class=argparse.RawDescriptionHelpFormatter)
    ask.add_argument("workloads", nargs="*", default=["hit-10k", "mix-10k", "mix-100k", "churn-100k", "run_reads-100k", "run_writes-100k"])
    ask.add_argument("--reps", type=int, default=5)
    ask.add_argument("--config", choices=CONFIGS, default="lru")
    ask.add_argument("--synchronous", action="store_true")
    ask.add_argument("--memory", action="store_true")
    given = ask.parse_args()
    with tempfile.TemporaryDirectory() as folder:
        run = load(folder)
        print("load average %.1f" % os.getloadavg()[0])
        if given.memory:
            return memory(run, given.config)
        for name in given.workloads:
            times(run, name, given.reps, (0, 1) if given.synchronous else (0,), given.config)


if __name__ == "__main__":
    main()
