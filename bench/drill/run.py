#!/usr/bin/env python3
"""run.py [PROGRAM]: times `drill 7 64 57500` on one processor and on four, or on as many as there are.

PROGRAM is a built historian (crates/historian/out/historian, after `rt run` there). The drill makes 3.68 million takes in memory: 57,500
events for each of 64 tags, which have a collector each. 62,500 events are refused (`fault: limit copies`): a group may copy 2,097,152
records of its tags, and 2,269,568 would be kept.

It prints medians of three runs: seconds, million takes a second, and MB of memory at the peak. Then it prints how many times as fast
four processors are as one. Every run has to print the same bytes, and 57,500 takes for each tag. It runs by hand, never as a test, on a
machine with four processors and nothing else at work."""
import os
import statistics
import subprocess
import sys
import time

ROOT = os.path.dirname(os.path.dirname(os.path.dirname(os.path.abspath(__file__))))
RUNS, TAGS, EVENTS = 3, 64, 57_500
WORDS = ["drill", "7", str(TAGS), str(EVENTS)]


def timed(program, processors):
    """Runs the drill on these processors: its seconds, what it printed, and its peak memory in MB."""
    start = time.perf_counter()
    child = subprocess.Popen([program] + WORDS, stdout=subprocess.PIPE,
                             preexec_fn=lambda: os.sched_setaffinity(0, processors))
    text = child.stdout.read()
    _, status, used = os.wait4(child.pid, 0)
    took = time.perf_counter() - start
    if status != 0:
        sys.exit("it ended in %d: %s" % (os.waitstatus_to_exitcode(status), text.decode()[:400]))
    return took, text, used.ru_maxrss / 1024


def main():
    program = os.path.abspath(sys.argv[1]) if len(sys.argv) > 1 else os.path.join(ROOT, "crates", "historian", "out", "historian")
    every = sorted(os.sched_getaffinity(0))
    texts, medians = set(), {}
    for many in (1, min(4, len(every))):
        runs = [timed(program, set(every[:many])) for _ in range(RUNS)]
        texts |= {text for _, text, _ in runs}
        took = medians[many] = statistics.median(seconds for seconds, _, _ in runs)
        memory = statistics.median(size for _, _, size in runs)
        print("%d processors: %.2f s, %.2f million takes a second, %.0f MB" % (many, took, TAGS * EVENTS / took / 1e6, memory))
    if len(texts) != 1:
        sys.exit("the runs did not print the same bytes")
    lines = texts.pop().decode().splitlines()
    if sum(" taken=%d " % EVENTS in line for line in lines) != TAGS:
        sys.exit("not each tag has taken %d values: %s" % (EVENTS, lines[:2]))
    one, more = medians[1], medians[max(medians)]
    print("%.2f times as fast on %d processors" % (one / more, max(medians)))


if __name__ == "__main__":
    main()
