"""Times the driver at each load, and prints nanoseconds a step, memory a step and what idle workers take.

    bench/drive/table.py PROGRAM [DFS_RUN]

A run is a process of its own: its processor time and its memory are those that the system counts. With the program of
the service its hosts and servers are timed, too, over a generated script and over one host's 10,000 lines.
"""
import os
import subprocess
import sys
import time

sys.path.insert(0, os.path.dirname(os.path.abspath(__file__)) + "/..")
import scripts                                                                      # noqa: E402

PROGRAM = sys.argv[1]
RUNS = 5
STEPS = 1_000_000


def run(load):
    """The steps, nanoseconds, processor seconds and kilobytes of a run, which must make all its steps."""
    process = subprocess.Popen([PROGRAM], stdin=subprocess.PIPE, stdout=subprocess.PIPE, text=True)
    process.stdin.write(" ".join(map(str, load)) + "\n")
    process.stdin.close()
    answer = process.stdout.read().split()
    _, status, used = os.wait4(process.pid, 0)
    workers, hosts, turns, steps, looks = load
    if status or len(answer) != 2 or int(answer[0]) != max(hosts, 1) * turns * steps:
        sys.exit("the driver lost steps: %s: %s" % (load, answer))
    return int(answer[0]), int(answer[1]), used.ru_utime + used.ru_stime, used.ru_maxrss


def best(load):
    return min((run(load) for _ in range(RUNS)), key=lambda r: r[1])


print("Workers  hosts  steps a turn  ns a step  steps a second")
for workers in 1, 2, 4:
    for hosts in 1, 16:
        for each in 1, 16:
            steps, nanos, _, _ = best((workers, hosts, STEPS // hosts // each, each, 0))
            print("%7d %6d %13d %10.1f %15d" % (workers, hosts, each, nanos / steps, steps * 10**9 // nanos))

few, many = run((1, 16, STEPS // 160, 1, 0)), run((1, 16, STEPS // 16, 1, 0))
print("memory a step: %.2f KB" % ((many[3] - few[3]) / (many[0] - few[0])))

print("Workers, one of them at work  ms a turn  processor of an idle worker")
for workers in 2, 4:
    for turns, looks in (100, 10_000_000), (1_000, 1_000_000), (10_000, 100_000), (100_000, 10_000):
        _, nanos, used, _ = run((workers, 0, turns, 1, looks))
        idle = (used - nanos / 1e9) / (nanos / 1e9) / (workers - 1)
        print("%28d %10.3f %26.2f %%" % (workers, nanos / 1e6 / turns, 100 * idle))


def served(words, text):
    """The milliseconds, processor milliseconds and megabytes of a run of the service, the best of some."""
    found = []
    for _ in range(RUNS):
        began = time.perf_counter()
        process = subprocess.Popen([sys.argv[2], *words], stdin=subprocess.PIPE, stdout=subprocess.DEVNULL)
        process.stdin.write(text)
        process.stdin.close()
        _, status, used = os.wait4(process.pid, 0)
        if status:
            sys.exit("the service ended with %d" % status)
        found.append((1000 * (time.perf_counter() - began), 1000 * (used.ru_utime + used.ru_stime),
                      used.ru_maxrss / 1024))
    return min(found)


if len(sys.argv) > 2:
    lines = b"".join(scripts.writes_and_reads(10_000))
    print("Workers, input            ms  processor  MB")
    for workers in 1, 2, 4:
        for name, words, text in ("gen 7 16 400", ("gen", "7", "16", "400"), b""), ("one host", ("run",), lines):
            print("%7d, %-12s %7.1f %10.1f %3d" % (workers, name, *served((*words, "--workers", str(workers)), text)))
