"""`python3 -m mincut_graph` is the command `mincut-graph`."""
import sys

from .command import main

if __name__ == '__main__':
    sys.exit(main())
