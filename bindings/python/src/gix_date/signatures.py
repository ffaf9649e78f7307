"""Signature lines of commits and tags, and identity lines as Git itself shows, judges and writes them.

`Signature` takes only lines that Git writes. Histories have others: `parse_ident` answers what `git log` shows of any, and `fsck` what
`git fsck` says of it. `write_ident` cleans a name and an email as `git commit` does, and `write_ident_as_is` takes them as they are. Their
texts may be any bytes.
"""

from __future__ import annotations

from dataclasses import dataclass
from enum import Enum
from typing import Optional

from . import _library
from ._library import parse_header, write_ident, write_ident_as_is, write_signature
from .errors import Text
from .times import Time


@dataclass(frozen=True)
class Signature:
    """The parts of a signature line, `A U Thor <author@example.com> 1660797906 +0800`. `str` of it is the line.

    - name: what stands before ` <`, which may be empty
    - email: what stands between the brackets, which may be empty
    - time: what stands after `> `; `read_time` reads it
    """

    name: str
    email: str
    time: str

    @classmethod
    def from_line(cls, line: Text) -> Signature:
        """Cuts a line, without its newline, into its parts. Refuses by `NotText` and `NoSignature`."""
        return cls(*_library.cut_signature(line))

    def read_time(self) -> Time:
        """The time, read as `parse_header` does. Refuses by `InvalidTime`."""
        return parse_header(self.time)

    def __str__(self) -> str:
        return f"{self.name} <{self.email}> {self.time}"


@dataclass(frozen=True)
class GitTime:
    """A time as Git keeps it of an identity line. `str` of it is its text in a line, `5 +0530`.

    - seconds: seconds since 1970, of a line from 0
    - offset: one decimal number, hours before the last two digits, minutes in them: `+0530` is 530
    - minus_zero: whether a minus stands before an offset of 0, as in `-0000`; beside another offset it means nothing

    `git.show_git_time` shows it.
    """

    seconds: int
    offset: int
    minus_zero: bool = False

    def to_time(self) -> Time:
        """The time of these: `+0060` is an hour. Refuses by `OffsetTooWide` an offset of more than 35791394 minutes."""
        return _library.ident_time(self.seconds, self.offset)

    def __str__(self) -> str:
        return _library.git_time_text(self)


@dataclass(frozen=True)
class IdentDate:
    """The date of an identity line.

    - seconds: one or more digits, as they are written
    - offset: a sign, and one or more digits, as they are written
    - shown: what Git shows of these; from 2^63 seconds on, both are 0
    """

    seconds: bytes
    offset: bytes
    shown: GitTime


@dataclass(frozen=True)
class IdentPlaces:
    """Where the parts of an identity line stand, as indices into the bytes or the str that was read. The name stands at 0.

    - email: after the first `<`
    - rest: after the email and its `>`
    - seconds: after the last `>` and blanks; without a date they would stand there
    - offset: after the digits of the seconds and blanks; without a date it would stand there
    - end: where the line ends, before its newline or NUL
    """

    email: int
    rest: int
    seconds: int
    offset: int
    end: int


@dataclass(frozen=True)
class Ident:
    """What Git shows of an identity line.

    - name: what stands before the first `<`, without the blanks at its end; it may be empty
    - email: what stands between the first `<` and the next `>`, which may be empty
    - rest: what follows the email and its `>`, to the line's end
    - date: the date after the last `>`, or None where Git shows none
    - comes_back: whether `write_ident_as_is` of the name, the email and the time that is shown writes the same line; False without a date
    - places: where these stand
    """

    name: bytes
    email: bytes
    rest: bytes
    date: Optional[IdentDate]
    comes_back: bool
    places: IdentPlaces


def parse_ident(line: Text) -> Ident:
    """What Git shows of an identity line, which ends before its first newline or NUL.

    Refuses by `NoIdentity` a line without `<`, or without `>` after the first.
    """
    name, email, rest, seconds, offset, shown, comes_back, places = _library.cut_ident(line)
    date = IdentDate(seconds, offset, GitTime(*shown)) if shown else None
    return Ident(name, email, rest, date, comes_back, IdentPlaces(*places))


class FsckId(Enum):
    """A message of `git fsck`, whose value is its ID in Git. They are in the order in which Git looks for them.

    - NUL_IN_HEADER: the line holds NUL
    - MISSING_NAME_BEFORE_EMAIL: the line begins with `<`
    - BAD_NAME: the first bracket is `>`
    - MISSING_EMAIL: there is no bracket
    - MISSING_SPACE_BEFORE_EMAIL: no space stands directly before the first `<`
    - BAD_EMAIL: the bracket after the first `<` is not `>`, or there is none
    - MISSING_SPACE_BEFORE_DATE: no space stands directly after that `>`
    - ZERO_PADDED_DATE: after that space stands `0`, and no space after it
    - BAD_DATE_OVERFLOW: the number there is 2^63 or more, or it is negative
    - BAD_DATE: no number stands there, or no space after it
    - BAD_TIMEZONE: what follows is not a sign and four digits up to the line's end
    """

    NUL_IN_HEADER = "nulInHeader"
    MISSING_NAME_BEFORE_EMAIL = "missingNameBeforeEmail"
    BAD_NAME = "badName"
    MISSING_EMAIL = "missingEmail"
    MISSING_SPACE_BEFORE_EMAIL = "missingSpaceBeforeEmail"
    BAD_EMAIL = "badEmail"
    MISSING_SPACE_BEFORE_DATE = "missingSpaceBeforeDate"
    ZERO_PADDED_DATE = "zeroPaddedDate"
    BAD_DATE_OVERFLOW = "badDateOverflow"
    BAD_DATE = "badDate"
    BAD_TIMEZONE = "badTimezone"


_MESSAGES = tuple(FsckId)


@dataclass(frozen=True)
class FsckFault:
    """What `git fsck` says of an identity line.

    - id: the message
    - place: the index into the line of what is wrong: the NUL, the bracket, the line's end, the date or the offset
    """

    id: FsckId
    place: int


def fsck(line: Text) -> Optional[FsckFault]:
    """What `git fsck` says of an identity line, which ends before its first newline: its first message that applies, or None."""
    message, place = _library.fsck_number(line)
    return None if place is None else FsckFault(_MESSAGES[message - 1], place)


__all__ = [
    "FsckFault", "FsckId", "GitTime", "Ident", "IdentDate", "IdentPlaces", "Signature", "fsck", "parse_ident", "write_ident",
    "write_ident_as_is", "write_signature",
]  # fmt: skip
