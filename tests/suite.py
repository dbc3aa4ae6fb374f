"""What the suites of tests/ share: the programs that they are given, which rows are run, and how each row ended.

A suite asks `chosen` of a row's words before it runs the row, then says `passed`, `failed` or `skipped`, and at its
last `end`s. ONLY in the environment is what tests/run --only sets: the rows are run alone whose words have that text.
ROWS names a file that gets a line of JSON a row, for tests/run, and UPDATE one that gets a patch of expected texts.
"""
import difflib
import json
import os
import re
import signal
import subprocess
import sys
import time

# No suite leaves anything beside the scripts.
sys.dont_write_bytecode = True
TOP = os.path.dirname(os.path.dirname(os.path.abspath(__file__)))
NAME = os.path.basename(sys.argv[0])
ONLY = os.environ.get("ONLY", "")
ROWS = os.environ.get("ROWS")
UPDATE = os.environ.get("UPDATE")
COUNTS = {"passed": 0, "failed": 0, "skipped": 0}
# The rows that were passed over, by what stands in their way.
OVER = {}
# The status of a suite that has no row with the text of --only.
NO_ROW = 5
# What stands between the words of a text, and is no part of its values.
LAYOUT = re.compile(r"[\s:;,|()]+")
last = time.monotonic()


def hear_signals():
    """Suites end programs by signals, which nohup, or a shell that runs a suite beside itself, has them ignore:
    programs would inherit that."""
    for number in signal.valid_signals() - {signal.SIGPIPE, signal.SIGXFSZ}:
        if signal.getsignal(number) == signal.SIG_IGN:
            signal.signal(number, signal.default_int_handler if number == signal.SIGINT else signal.SIG_DFL)
    signal.pthread_sigmask(signal.SIG_SETMASK, [])


hear_signals()


def built(*names):
    """The paths of programs, each where it was built last."""
    found = subprocess.run([f"{TOP}/tests/which", *names], stdout=subprocess.PIPE, text=True, check=False)
    return found.stdout.splitlines() if found.returncode == 0 else sys.exit(1)


def programs(*names, given=None):
    """The paths of programs by their names: those of a suite's words, in order, or each where it was built last."""
    given = sys.argv[1:] if given is None else given
    if len(given) not in (0, len(names)) or any(it.startswith("-") for it in given):
        sys.exit(sys.modules["__main__"].__doc__)
    return dict(zip(names, map(os.path.abspath, given or built(*names))))


def chosen(row):
    """Whether a row of these words is to be run."""
    return ONLY in row


def note(how, row, why=""):
    """Counts a row, and hands it to tests/run."""
    global last
    now = time.monotonic()
    COUNTS[how] += 1
    if ROWS:
        with open(ROWS, "a", encoding="utf-8") as file:
            file.write(json.dumps({"row": row, "how": how, "why": why, "seconds": round(now - last, 3)}) + "\n")
    last = now


def passed(row):
    note("passed", row)


def failed(row, why=""):
    print(f"{NAME}: FAILED: {row[:300]}", *filter(None, [why]), sep="\n  ", flush=True)
    note("failed", row, why)


def skipped(row, why):
    """A row that can't be run here: no suite passes one over without saying so."""
    OVER.setdefault(why, []).append(row)
    note("skipped", row, why)


def check(row, good, said=""):
    """A row ended as it should, or didn't, which is shown."""
    passed(row) if good else failed(row, str(said))


def judge(row, faults):
    """A row has these faults, or none."""
    check(row, not faults, "\n  ".join(faults))


def is_layout(old, new):
    """Two texts have the same words in the same order, and differ in what stands between them."""
    return old != new and [it for it in LAYOUT.split(old) if it] == [it for it in LAYOUT.split(new) if it]


def patch(path, text):
    """Adds to the patch what makes a file of the repository this text."""
    with open(path, encoding="utf-8") as file:
        old = file.read()
    name = os.path.relpath(path, TOP)
    shown = difflib.unified_diff(old.splitlines(True), text.splitlines(True), f"a/{name}", f"b/{name}")
    with open(UPDATE, "a", encoding="utf-8") as file:
        file.writelines(shown)


def end(said=""):
    """Ends the suite: with a line that says how many rows there were, or that none has the text of --only."""
    for why, rows in OVER.items():
        print(f"{NAME}: passed over: {rows[0]}{f' and {len(rows) - 1} more' if rows[1:] else ''}: {why}")
    if not any(COUNTS.values()):
        print(f"{NAME}: no row has {ONLY!r} in its words" if ONLY else f"{NAME}: there are no rows")
        sys.exit(NO_ROW if ONLY else 1)
    every = COUNTS["passed"] + COUNTS["failed"]
    over = f", {COUNTS['skipped']} passed over" if COUNTS["skipped"] else ""
    ended = f"FAILED, {COUNTS['failed']} of {every} rows" if COUNTS["failed"] else f"{every} rows as expected"
    print(f"{NAME}: {ended}{over}{said and f': {said}'}")
    sys.exit(bool(COUNTS["failed"]))
