"""What acts of a token table and a token manager on one file take: instructions, which are the same on a busy
machine. Each number is the difference of two runs, of which the second makes more rounds."""
import re
import subprocess
import sys

PROGRAM = sys.argv[1]
LOADS = [(1, 1_562)]
ACTS = ["grant", "none", "few", "all", "covers", "ask"]
FEWER, MORE = 100, 200


def instructions(act, files, tokens, rounds):
    """Those of a whole run."""
    row = "tokens %s %d %d %d\n" % (act, files, tokens, rounds)
    words = ["valgrind", "--tool=callgrind", "--callgrind-out-file=/dev/null", PROGRAM]
    told = subprocess.run(words, input=row, capture_output=True, text=True, check=True).stderr
    return int(re.search(r"Collected : ([0-9]+)", told).group(1))


print("| Files, tokens | `grant` and `drop_id` | `conflicting`, none in the way | two | all | `covers` on `of_file` | "
      "`ask` and `returned` |")
print("|---|---|---|---|---|---|---|")
for files, tokens in LOADS:
    taken = [(instructions(act, files, tokens, MORE) - instructions(act, files, tokens, FEWER)) // (MORE - FEWER)
             for act in ACTS]
    print("| %d, %d | %d | %d | %d | %d | %d | %d |" % (files, tokens, *taken), flush=True)
