"""The bytes of a file: unpacked, told where they are no text, and decoded."""
from __future__ import annotations

import codecs
import gzip
import io
import sys
import zlib
from dataclasses import dataclass
from pathlib import Path
from typing import TextIO

from ..errors import BadInput
from .options import UTF_8

GZIP = b'\x1f\x8b'
MARKS = [(codecs.BOM_UTF32_LE, 'utf-32'), (codecs.BOM_UTF32_BE, 'utf-32'), (codecs.BOM_UTF16_LE, 'utf-16'), (codecs.BOM_UTF16_BE, 'utf-16')]
OLD_OFFICE = b'\xd0\xcf\x11\xe0'
PACKED = [(b'BZh', 'bzip2'), (b'\xfd7zXZ\x00', 'xz'), (b'\x28\xb5\x2f\xfd', 'zstd'), (b'7z\xbc\xaf', '7-Zip'), (b'Rar!', 'RAR')]
IN_ZIP = [(b'xl/', 'is an Excel workbook; save its sheet as CSV'), (b'visio/', 'is a Visio drawing; export its connections as CSV'),
          (b'word/', 'is a Word document; save its table as CSV'), (b'opendocument.spreadsheet', 'is an OpenDocument sheet; save it as CSV'),
          (b'.npy', 'is a file of numpy; name it .npz if it is a sparse array that scipy saved')]
NO_TEXT = [(b'%PDF', 'is a PDF; export the links as CSV'), (b'\x89PNG', 'is a picture; export the links as CSV'),
           (b'PAR1', 'is Parquet; save it as CSV'), (b'SQLite format 3', 'is a database of SQLite; export its table of links as CSV'),
           (b'\x93NUMPY', 'is an array of numpy; load it and give it to MinimumCuts')]
LOOK = 4096


@dataclass
class Content:
    """The bytes of a text and its encoding. `origin` is what errors call the file."""
    raw: bytes
    encoding: str = UTF_8
    origin: str = ''

    def text(self) -> str:
        """The whole text. Raises BadInput where it is none in this encoding."""
        try:
            return self.raw.decode(self.encoding)
        except UnicodeDecodeError:
            raise no_text(self.encoding) from None

    def lines(self) -> TextIO:
        """The lines, decoded as they are gone through; they end at a line feed, a carriage return or both. Raises UnicodeDecodeError."""
        return io.TextIOWrapper(io.BytesIO(self.raw), self.encoding)

    def beginning(self) -> str:
        return self.raw[:LOOK].decode(self.encoding, 'ignore').lstrip('\ufeff \t\r\n').lower()


def no_text(encoding: str) -> BadInput:
    if encoding == UTF_8:
        return BadInput('is no UTF-8 text; name its encoding, as --encoding latin-1')
    return BadInput(f'is no text in the encoding {encoding}; name another by --encoding')


def content_of(path: str, encoding: str) -> Content:
    """What is in a file, or on standard input for '-'; gzip is unpacked. Raises BadInput for what is no text."""
    try:
        raw = sys.stdin.buffer.read() if path == '-' else Path(path).read_bytes()
    except OSError as fault:
        raise BadInput(f'cannot be read ({fault.strerror})') from None
    if raw.startswith(GZIP):
        raw = unpacked(raw)
    elif path.lower().endswith('.gz'):
        raise BadInput('is no gzip, whatever its name says; take .gz off its name')
    refuse_other_kinds(raw)
    encoding = encoding_of(raw, encoding)
    if not raw.strip():
        raise BadInput('is empty; it has to have a graph with two vertices or more')
    return Content(raw, encoding, 'standard input' if path == '-' else path)


def unpacked(raw: bytes) -> bytes:
    try:
        return gzip.decompress(raw)
    except (OSError, EOFError, zlib.error):
        raise BadInput('is gzip that is cut off or damaged; fetch it again') from None


def refuse_other_kinds(raw: bytes) -> None:
    """Raises BadInput, with what to do, for what is no text by its first bytes."""
    kind = next((name for start, name in PACKED if raw.startswith(start)), None)
    if kind is not None:
        raise BadInput(f'is packed by {kind}; unpack it first (gzip alone is read as it is)')
    if raw.startswith(b'PK\x03\x04'):
        raise BadInput(next((words for mark, words in IN_ZIP if mark in raw), 'is a zip file; unpack it first'))
    if raw.startswith(OLD_OFFICE):
        raise BadInput('is an old Excel, Word or Visio file; save its table as CSV')
    for start, words in NO_TEXT:
        if raw.startswith(start):
            raise BadInput(words)


def is_text(raw: bytes, encoding: str) -> bool:
    """Whether this is text in an encoding, and as much of it plain letters as of most tables."""
    text = raw.decode(encoding, 'ignore')
    return ''.join(text.split()).isprintable() and 2 * sum(letter.isascii() for letter in text) > len(text)


def encoding_of(raw: bytes, asked: str) -> str:
    """The encoding that is asked for, or the one that the first bytes tell."""
    try:
        name = codecs.lookup(asked).name
    except LookupError:
        raise BadInput(f'there is no encoding {asked!r}') from None
    if name in ('utf-8', 'utf-8-sig'):
        marked = next((encoding for mark, encoding in MARKS if raw.startswith(mark)), None)
        if marked is None and b'\0' in raw[:LOOK]:
            wide = next((wide for wide in ('utf-16-le', 'utf-16-be') if is_text(raw[:LOOK], wide)), None)
            raise BadInput(f'is UTF-16 without a mark, as it seems: say --encoding {wide}' if wide else 'is no text')
        return marked or UTF_8
    if b'\0' in raw[:LOOK] and not name.startswith(('utf-16', 'utf-32')):
        raise BadInput('is no text')
    return asked
