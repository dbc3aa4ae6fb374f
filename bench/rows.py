#!/usr/bin/env python3
"""What the scripts of bench/ share: the programs that are measured, and the form of what they print, a line a row:

    NAME TAB VALUE TAB UNIT

STRACE_CLI, GUEST_HOST and STRACE_SWEEP in the environment name programs; else they are those that make build leaves.
Run as a script, it reads what a program of a folder prints, `NAME N ns` or `NAME: N in N us` under heads such as `N
pages`, and prints it in this form: bench/rows.py [PREFIX].
"""
import os
import re
import sys

TOP = os.path.dirname(os.path.dirname(os.path.abspath(__file__)))


def program(name):
    """The path of a program."""
    return os.path.abspath(os.environ.get(name.upper()) or f"{TOP}/crates/{name}/out/{name}")


def row(name, value, unit):
    """Prints a row."""
    if isinstance(value, float):
        value = f"{value:.0f}" if abs(value) >= 1000 else f"{value:.4g}"
    print(f"{name}\t{value}\t{unit}", flush=True)


def main():
    prefix, head = "".join(f"{it}: " for it in sys.argv[1:]), ""
    for line in sys.stdin:
        line = line.rstrip("\n")
        if found := re.match(r"\s*(.+?)\s+([\d.]+) ns\b", line):
            row(prefix + head + " ".join(found[1].split()), found[2], "ns")
        elif found := re.match(r"(.+): (\d+) in (\d+) us$", line):
            row(prefix + head + found[1], f"{int(found[3]) * 1000 / max(int(found[2]), 1):.4g}", "ns")
        elif found := re.match(r"(?:== )?([\w ]+?)(?:, plain C)?$", line):
            head = f"{found[1]}, "
        elif not re.match(r"\s*\(.*\)$", line):
            sys.exit(f"bench/rows.py: what is this? {line}")


if __name__ == "__main__":
    main()
