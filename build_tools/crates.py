#!/usr/bin/env python3
"""The crates of crates.txt: what each uses, how long each takes, and what it is made from. build_tools/crates.py NAME
prints the crates that a crate stands on and itself, the lowest first."""

import os
import sys

ROOT = os.path.dirname(os.path.dirname(os.path.realpath(__file__)))
UNKNOWN = 60  # seconds of a crate that no file tells


def read_plain(path):
    """The lines of a file, without '#' and what follows it."""
    with open(path, encoding="utf-8") as lines:
        return [line.partition("#")[0].strip() for line in lines]


def read_lines():
    """The line of each crate, in the order of crates.txt, where each stands behind all that it uses."""
    return {line.split(":")[0].split()[0]: line for line in read_plain(f"{ROOT}/crates.txt") if ":" in line}


def read_uses(top=None):
    """The crates that top stands on, and top, or all, each with those that it uses, the lowest first."""
    lines = read_lines()
    uses = {name: [it for it in line.partition(":")[2].split() if it in lines] for name, line in lines.items()}
    wanted = below(uses, top) | {top} if top else uses
    return {name: uses[name] for name in uses if name in wanted}


def below(uses, name):
    """The crates that a crate stands on, itself or through others."""
    found, left = set(), {name}
    while left:
        left = {it for user in left for it in uses[user]} - found
        found |= left
    return found


def read_rows(path):
    """The rows of a file of seconds: a crate's name and its further words."""
    return {row[0]: row[1:] for row in map(str.split, read_plain(path)) if len(row) > 1}


def chains(uses, seconds):
    """For each crate the seconds of the longest chain from it up, of crates of which each uses the one before."""
    found = {name: seconds[name] for name in uses}
    for name in reversed(uses):
        for it in uses[name]:
            found[it] = max(found[it], seconds[it] + found[name])
    return found


def time_of(path):
    """When a file was last changed; -1 where it is missing."""
    return os.stat(path).st_mtime_ns if os.path.exists(path) else -1


def is_old(file, names):
    """Whether a file is missing or older than what these crates are made from."""
    folders = [f"{ROOT}/crates/{name}/{part}" for name in names for part in ("src", "specs", "proofs")]
    sources = [f"{at}/{it}" for folder in folders for at, _, files in os.walk(folder) for it in (".", *files)]
    return time_of(file) < max(os.stat(it).st_mtime_ns for it in [f"{ROOT}/crates.txt", *sources])


if __name__ == "__main__":
    if len(sys.argv) != 2 or sys.argv[1] not in read_uses():
        sys.exit("usage: build_tools/crates.py NAME, a crate of crates.txt")
    print(*read_uses(sys.argv[1]), sep="\n")
