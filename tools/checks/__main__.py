"""`python3 -m checks`, which is `tools/check`."""
import sys

from .command import main

if __name__ == '__main__':
    sys.exit(main())
