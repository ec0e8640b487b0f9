#!/usr/bin/env python3
"""The program once more, for small graphs, by trying all sides: for trying what checks the program.

    tools/plain_mincut.py JOB [U V] [--workers N] [--least W] < GRAPH
    tools/check canonical --program tools/plain_mincut.py --count 300
"""
import sys

from checks.plain_mincut import main

if __name__ == '__main__':
    sys.exit(main(sys.argv[1:]))
