"""Times the network and the hub at each load, and prints the best of five runs of each in nanoseconds."""
import subprocess
import sys

PROGRAM = sys.argv[1]
LOADS = [10_000, 100_000, 1_000_000]
RUNS = 5


def times(count):
    """The nanoseconds of a message, of a look in vain and of a turn."""
    ran = subprocess.run([PROGRAM, "times"], input="hub %d\n" % count, capture_output=True, text=True, check=True)
    return [int(word) for word in ran.stdout.split("\n")[1].split()]


best = {}
for _ in range(RUNS):
    for count in LOADS:
        row = times(count)
        best[count] = [min(pair) for pair in zip(row, best.get(count, row))]

print("| Messages, looks and turns | A message sent and taken | A look in vain | A turn, of 20 nodes |")
print("|---|---|---|---|")
for count in LOADS:
    print("| {:,} | {:,} | {:,} | {:,} |".format(count, *best[count]))
