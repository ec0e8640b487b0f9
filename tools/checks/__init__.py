"""What checks a built program against plain programs; `tools/check JOB` runs it.

The parts that all checks share: `graphs` makes graphs, `families` large ones whose cuts a formula gives; `metis` reads and writes the
text of a graph, `cactuses` that of a cactus; `cuts_by_hand`, `canonical_by_hand` and `answers_by_hand` find the right answers by trying
all cuts, and `plain_mincut` is a program made of these; `running` runs a program with limits of time and memory. `jobs` has a module for
each check. Nothing here uses the program to find a right answer, but where a module says so.

The benchmarks and the tests of the Python package use it too: the files `checks.py` in bench/ and python/tests/ name its folder.
"""
