"""Where the program and the library are found."""
from __future__ import annotations

import os
import shutil
from pathlib import Path
from typing import Optional

HERE = Path(__file__).resolve().parent


def checkout() -> Optional[Path]:
    """The folder of the repository: the one that the package lies in, or the one that it was installed from, where that is still there."""
    folders = [HERE.parent.parent]
    remembered = HERE / 'checkout.txt'
    if remembered.is_file():
        folders.append(Path(remembered.read_text('utf-8').strip()))
    return next((folder for folder in folders if (folder / 'mincut').is_file() and (folder / 'crates.txt').is_file()), None)


def own(name: str) -> Optional[str]:
    """The path of a file that the wheel of a release has inside; None where the package was installed from elsewhere."""
    path = HERE / name
    return str(path) if path.is_file() else None


def find_program(named: Optional[str] = None) -> Optional[str]:
    """The path of the program: the one that is named, or that of the environment's MINCUT, or the one that the wheel of a release has
    inside, or `mincut` of the repository, or the one on the path; None where there is none."""
    if named or os.environ.get('MINCUT'):
        return named or os.environ['MINCUT']
    folder = checkout()
    return own('bin/mincut') or (str(folder / 'mincut') if folder else shutil.which('mincut'))


def find_library(named: Optional[str] = None) -> Optional[str]:
    """The path of the shared library: the one that is named, or that of the environment's MINCUT_LIBRARY, or the one that the wheel of a
    release has inside, or out/libmincut.so of the repository where that is built; None where there is none."""
    if named or os.environ.get('MINCUT_LIBRARY'):
        return named or os.environ['MINCUT_LIBRARY']
    folder = checkout()
    built = folder / 'out' / 'libmincut.so' if folder else None
    return own('lib/libmincut.so') or (str(built) if built and built.is_file() else None)


def builds_itself(program: str) -> bool:
    """Whether this is the `mincut` of the repository, which proves and builds the program where that was not done."""
    folder = checkout()
    return folder is not None and os.path.realpath(program) == os.path.realpath(folder / 'mincut')
