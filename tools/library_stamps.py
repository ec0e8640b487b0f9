#!/usr/bin/env python3
"""Has the toolchain's `rt lib` take the libraries that its gate left in a copy of the crates.

usage: library_stamps.py KIT COPY

`rt lib` proves a library again unless a stamp beside it says which files it was made of. The gate writes none, since its libraries fit only
those that they were made over. Where it passed over the whole copy and nothing was changed since, all of them fit, so each gets the stamp
that the toolchain's own module makes of its files. The status is 0 where `rt lib` takes them all; another kit may have no such module.
"""
import functools
import importlib.util
import os
import sys


def module_of(kit):
    """The toolchain's module; nothing is written beside it."""
    sys.dont_write_bytecode = True
    spec = importlib.util.spec_from_file_location('rtlib', f'{kit}/bin/rtlib.py')
    module = importlib.util.module_from_spec(spec)
    spec.loader.exec_module(module)
    return module


def main():
    kit, copy = sys.argv[1:]
    rtlib = module_of(kit)
    # it asks all libraries below for theirs, each of which would ask again
    rtlib.Crate.stamp = functools.lru_cache(maxsize=None)(rtlib.Crate.stamp)
    libraries = [crate for crate in rtlib.crates_below(copy) if crate.makes_rlib()]
    for crate in libraries:
        with open(f'{os.path.dirname(crate.rlib)}/stamp', 'w', encoding='utf-8') as file:
            file.write(crate.stamp())
    return 0 if all(crate.is_built() for crate in libraries) else 1


if __name__ == '__main__':
    sys.exit(main())
