"""The records of a drive's memory module, read by the proved calls of the shared library libdrivelog.

    import drivelog

    for record in drivelog.records("copies/north.log"):
        print(record.lsn, record.kind, record.text)
    drivelog.why("copies/north.log", 7)     # 'listed', 'released', 'below', 'end', 'damaged 5 check' or 'toomany'
    drivelog.check("copies/north.log").well

A path may be given, or the bytes of an image. The library is the one that DRIVELOG_LIBRARY names, else the one that was installed with this
file or built in its repository, else the system's. The calls answer for all bytes; this module is Python, tested and not proved.
"""

from __future__ import annotations

import ctypes
import errno
import fcntl
import os
from dataclasses import dataclass
from typing import Iterator, List, Optional, Tuple, Union

__all__ = ["Check", "Damaged", "Record", "Refused", "check", "records", "why"]

Source = Union[str, "os.PathLike[str]", bytes, bytearray, memoryview]

MAX_IMAGE = 65536  # bytes
SUPERLINE_WORDS = 24
REPLACEMENT = 600  # the kind whose first 8 bytes name an inspection
IMAGE_SIZE, SUPERLINE, DAMAGED, TOO_MANY = 1, 4, 12, 13
COMMITTED, RELEASED = 1, 2
TESTS = ("", "mark", "kind", "length", "fit", "LSN", "check", "epoch")
_REASONS = {IMAGE_SIZE: "not the size of an image", SUPERLINE: "no log begins here", DAMAGED: "a record is damaged", TOO_MANY: "too many records"}


class Refused(Exception):
    """The log refuses: `number` is the refusal's (1: the size of the image, 4: no log begins here)."""

    def __init__(self, number: int, words: str = "") -> None:
        super().__init__(f"refused {number}: {words or _REASONS.get(number, 'by the log')}")
        self.number = number


class Damaged(Refused):
    """Reading stops before the log's end: at `lsn` a record fails `test` (12), or is one too many (13, no test)."""

    def __init__(self, number: int, lsn: int, test: str) -> None:
        super().__init__(number, f"record {lsn} is damaged: {test}" if number == DAMAGED else f"record {lsn} is one too many")
        self.lsn = lsn
        self.test = test


@dataclass(frozen=True)
class Record:
    """One record. `epoch` says between which restarts of the drive it was written."""

    lsn: int
    kind: int
    epoch: int
    data: bytes
    released: bool = False

    @property
    def text(self) -> Optional[str]:
        """The payload as text, or None if it is no UTF-8."""
        try:
            return self.data.decode()
        except UnicodeDecodeError:
            return None


@dataclass(frozen=True)
class Check:
    """What `check` found. `what` is 'end', 'damaged', 'toomany' or 'refused'; `lsn` is where the log ends or is stopped."""

    what: str
    words: str
    lsn: int = 0
    epoch: int = 0
    listed: int = 0
    released: int = 0
    after_end: Tuple[int, ...] = ()  # LSNs of whole records after the end, the first with its mark not set
    orphans: Tuple[int, ...] = ()  # LSNs of replacements that name an inspection which no earlier listed record has

    @property
    def well(self) -> bool:
        """Whether the log reaches its end, with no whole record after it and no orphan."""
        return self.what == "end" and not self.after_end and not self.orphans


# ---------------------------------------------------------------- the library


def _library() -> ctypes.CDLL:
    here = os.path.dirname(os.path.abspath(__file__))
    named = os.environ.get("DRIVELOG_LIBRARY")
    places = [named] if named else [os.path.join(here, "../../../lib/libdrivelog.so.0"), os.path.join(here, "../target/install/libdrivelog.so"), "libdrivelog.so.0"]
    errors: List[str] = []
    for place in places:
        try:
            return ctypes.CDLL(place)
        except OSError as error:
            errors.append(str(error))
    raise ImportError("libdrivelog is not found: " + "; ".join(errors))


_lib = _library()
_words = ctypes.POINTER(ctypes.c_uint64)
_size = ctypes.c_size_t
_lib.drivelog_open.argtypes = [_words, _size, _words, _size, _words, _size]
_lib.drivelog_next.argtypes = [_words, _size, _words, _size, _words, _size, _words, _size]
_lib.drivelog_fetch.argtypes = [_words, _size, ctypes.c_uint64, ctypes.c_uint64, ctypes.c_char_p, _size, _words, _size]
for _call in (_lib.drivelog_open, _lib.drivelog_next, _lib.drivelog_fetch):
    _call.restype = ctypes.c_int64


class _Reader:
    """An image in words, a cursor, and the record that was read last: position, LSN, kind, length, mark, epoch."""

    def __init__(self, data: bytes) -> None:
        self.count = len(data) // 8 if len(data) % 8 == 0 else 0
        self.image = (ctypes.c_uint64 * max(self.count, 1)).from_buffer_copy(data[: 8 * self.count].ljust(8, b"\0"))
        self.cursor = (ctypes.c_uint64 * 6)()
        self.record = (ctypes.c_uint64 * 6)()
        self.reply = (ctypes.c_uint64 * 4)()
        if _lib.drivelog_open(self.image, self.count, self.cursor, 6, self.reply, 4) < 0:
            raise Refused(self.reply[0])
        self.head_lsn = self.cursor[1]

    def next(self) -> bool:
        """Whether there is a record; False at the end."""
        found = _lib.drivelog_next(self.image, self.count, self.cursor, 6, self.record, 6, self.reply, 4)
        if found < 0:
            raise Damaged(self.reply[0], self.reply[1], TESTS[self.reply[3]] if self.reply[0] == DAMAGED else "")
        return bool(found)

    def payload(self) -> bytes:
        length = self.record[3]
        room = ctypes.create_string_buffer(max(length, 1))
        _lib.drivelog_fetch(self.image, self.count, self.record[0], length, room, length, self.reply, 4)
        return room.raw[:length]

    def found(self) -> Record:
        _, lsn, kind, _, mark, epoch = self.record
        return Record(lsn, kind, epoch, self.payload(), mark == RELEASED)

    def after_end(self) -> List[int]:
        """Whole records from the end on: each is read as if its mark were set."""
        lsns: List[int] = []
        while True:
            first = SUPERLINE_WORDS + self.cursor[0]
            if self.image[first] >> 48 == 0:
                self.image[first] |= COMMITTED << 48
            try:
                self.next()
            except Damaged:
                return lsns
            lsns.append(self.record[1])


def _bytes(source: Source) -> bytes:
    """The bytes of an image; of a file, no more than show that it is too long. A file that a process writes raises BlockingIOError."""
    if isinstance(source, (bytes, bytearray, memoryview)):
        return bytes(source)
    if not os.path.isfile(source) and os.path.exists(source):
        raise OSError(errno.ENODEV, "a log is in a regular file", str(source))
    with open(source, "rb") as file:
        fcntl.flock(file, fcntl.LOCK_SH | fcntl.LOCK_NB)
        return file.read(MAX_IMAGE + 8)


# ---------------------------------------------------------------- the calls


def records(source: Source, released: bool = False) -> Iterator[Record]:
    """The records of a log, oldest first; those that were released too, if that is asked for.

    Raises Refused at once if it is no log, and Damaged after the records before the damage; OSError if the file cannot be had."""
    return _all(_Reader(_bytes(source)), released)


def _all(reader: _Reader, released: bool) -> Iterator[Record]:
    while reader.next():
        record = reader.found()
        if released or not record.released:
            yield record


def why(source: Source, lsn: int) -> str:
    """Why a record is listed or not, in logwhy's words. Damage is an answer; raises Refused if it is no log."""
    reader = _Reader(_bytes(source))
    if lsn < reader.head_lsn:
        return "below"
    try:
        while reader.next():
            if reader.record[1] == lsn:
                return "released" if reader.record[4] == RELEASED else "listed"
    except Damaged as error:
        return f"damaged {error.lsn} {error.test}" if error.number == DAMAGED else "toomany"
    return "end"


def check(source: Source) -> Check:
    """Whether all is well with a log, and what is not. Raises OSError if the file cannot be had."""
    listed: List[int] = []
    orphans: List[int] = []
    released = 0
    try:
        reader = _Reader(_bytes(source))
    except Refused as error:
        return Check("refused", str(error))
    try:
        while reader.next():
            record = reader.found()
            if record.released:
                released += 1
                continue
            named = int.from_bytes(record.data[:8], "little") if record.kind == REPLACEMENT and len(record.data) >= 8 else 0
            if named != 0 and named not in listed:
                orphans.append(record.lsn)
            listed.append(record.lsn)
    except Damaged as error:
        what = "damaged" if error.number == DAMAGED else "toomany"
        return Check(what, str(error), error.lsn, reader.cursor[5], len(listed), released, (), tuple(orphans))
    end, epoch = reader.cursor[1], reader.cursor[5]
    after = reader.after_end()
    words = f"whole: the next record gets LSN {end}"
    if after:
        words += f"; LSN {after[0]} stands after the end: never forced, or its mark was lost"
    return Check("end", words, end, epoch, len(listed), released, tuple(after), tuple(orphans))
