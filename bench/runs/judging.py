"""Runs of scripts by the built program, each judged by the rules and the laws of runs."""
import json
import subprocess
import traceback
from collections import namedtuple

import rules
import scenarios
import tree as trees
import words as w
from laws import Laws

# What is wrong with a run, [(where, name, why)], its steps, the last tree, and what the program wrote.
Ran = namedtuple("Ran", "faults steps tree output")


def journal_of(lines):
    head = json.loads(lines[0])
    script = w.from_json(head["script"])
    steps = [w.from_json(json.loads(line)) for line in lines[1:]]
    return w.Journal(script, trees.tree_from_json(head["start"], script.roster), head["epochs"], steps)


def judge(lines, body, before=None, deep=True):
    """What is wrong with the run of a journal, how many steps it has, and the last tree. `body` is what the run
    printed, if that is to be judged; `before` is the tree that it has to start from."""
    journal = journal_of(lines)
    c = rules.Checker(journal.script, journal.start, journal.epochs)
    laws = Laws(c, deep)
    faults = [("start", rule, why) for rule, why in c.begin_faults()]
    for i, s in enumerate(journal.steps, 1):
        faults += [("%s, step %d" % (rules.half(rule), i), rule, why) for rule, why in c.step(s)]
        faults += [("law, step %d" % i, law, why) for law, why in laws.step()]
        if len(faults) > 20:
            return faults, len(journal.steps), None
    faults += [("end", rule, why) for rule, why in c.ended()]
    if body is not None and scenarios.printed(journal, laws.tree, laws.losses) != body:
        faults.append(("printed", "other than the rules say", body[:600]))
    for server in range(1, len(journal.script.roster.capacity) + 1) if before else ():
        if trees.kept_part(journal.start, server) != trees.kept_part(before, server):
            faults.append(("start", "server %d keeps other filesets than were left" % server, ""))
    return faults, len(journal.steps), laws.tree


def ran(program, text, words=("run",), folder=".", before=None, deep=True, seconds=300):
    """A run of a script by the program with these words, in a folder."""
    try:
        done = subprocess.run([program, *words], input=text.encode("latin-1"), stdout=subprocess.PIPE,
                              stderr=subprocess.PIPE, timeout=seconds, cwd=folder)
    except subprocess.TimeoutExpired as late:
        return Ran([("end", "no end in time", "")], 0, None, late.stdout or b"")
    # a line of its own: rights of an access list may end in dashes, too
    body, _, lines = (b"\n" + done.stdout).partition(b"\n----\n")
    body = body[1:] + b"\n" if body else b""
    if done.returncode or not lines:
        return Ran([("program", "status %d" % done.returncode, (body + done.stderr)[-600:])], 0, None, done.stdout)
    plain = None if words[0] == "gen" else body
    try:
        faults, steps, tree = judge(lines.decode("latin-1").rstrip("\n").split("\n"), plain, before, deep)
    except Exception:
        faults, steps, tree = [("judge", "failed", traceback.format_exc())], 0, None
    return Ran(faults, steps, tree, done.stdout)
