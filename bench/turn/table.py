"""Times both programs at each load, and prints the best of nine runs of each in nanoseconds a turn."""
import subprocess
import sys

CELL, MUTEX = sys.argv[1:]
LOADS = [(1, 1_000_000), (2, 100_000), (4, 100_000)]
RUNS = 9


def nanos(answer, workers, turns):
    """The nanoseconds a turn, of a program's answer `E entries, N ns`."""
    words = answer.split()
    if int(words[0]) != workers * turns:
        sys.exit("a program lost entries: " + answer)
    return int(words[2]) / (workers * turns)


def cell(workers, turns):
    rows = "cell %d %d\n" % (workers, turns)
    ran = subprocess.run([CELL, "times"], input=rows, capture_output=True, text=True, check=True)
    return nanos(ran.stdout, workers, turns)


def mutex(workers, turns):
    words = [MUTEX, str(workers), str(turns)]
    return nanos(subprocess.run(words, capture_output=True, text=True, check=True).stdout, workers, turns)


print("| Workers, turns each | `TurnCell`, ns a turn | `std::sync::Mutex`, ns a turn | Ratio |")
print("|---|---|---|---|")
for workers, turns in LOADS:
    pairs = [(cell(workers, turns), mutex(workers, turns)) for _ in range(RUNS)]
    ours = min(pair[0] for pair in pairs)
    theirs = min(pair[1] for pair in pairs)
    print("| %d, %d | %.0f | %.0f | %.1f |" % (workers, turns, ours, theirs, ours / theirs), flush=True)
