#!/usr/bin/env python3
"""Replays a season log, written a second time from docs/RULES.md and sharing
nothing with the proved code: trees are nested tuples, copies are dictionaries.

    tools/replay.py < LOG              the answers, to compare with the program's
    tools/replay.py --random SEED N    a random log of N lines
"""
import sys

sys.dont_write_bytecode = True
from replaying.lines import replay
from replaying.random_logs import random_log

if __name__ == "__main__":
    if sys.argv[1:2] == ["--random"]:
        for line in random_log(int(sys.argv[2]), int(sys.argv[3])):
            print(line)
    else:
        sys.exit(replay(sys.stdin, sys.stdout))
