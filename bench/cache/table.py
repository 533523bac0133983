"""Times both programs at each load, and prints the best of 25 runs of each in nanoseconds a call."""
import subprocess
import sys

CACHE, MAP = sys.argv[1:]
LOADS = [12, 256, 2_560]
RUNS = 25


def cache(tokens):
    """The nanoseconds of a covered read, a look at what is covered, a token added and dropped, tokens
    used, and tokens used with a look for the oldest."""
    ran = subprocess.run([CACHE, "times"], input="cache %d\n" % tokens, capture_output=True, text=True, check=True)
    lines = ran.stdout.split("\n")
    return [float(word) for word in lines[1].split() + lines[3].split()]


def plain(tokens):
    """The nanoseconds of a look-up and a copy."""
    ran = subprocess.run([MAP, str(tokens)], capture_output=True, text=True, check=True)
    return [float(ran.stdout.split()[1])]


print("| Tokens | `HashMap` and copy | `covers` and `bytes_into` | `covers` ", end="")
print("| `add` and `drop_id` | `used` | `used` and `oldest` |")
print("|---|---|---|---|---|---|---|")
for tokens in LOADS:
    both = [cache(tokens) + plain(tokens) for _ in range(RUNS)]
    read, covers, add, used, oldest, plain_read = [min(row) for row in zip(*both)]
    row = (tokens, plain_read, read, covers, add, used, oldest)
    print("| %d | %.0f | %.0f | %.0f | %.0f | %.0f | %.0f |" % row, flush=True)
