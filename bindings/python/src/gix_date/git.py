"""Dates as Git 2.39.5 itself reads and shows them.

- `parse_date`: exact dates, as in `GIT_COMMITTER_DATE`, in mails, and nearly all of `git commit --date`
- `approxidate`: dates as people write them, as Git reads `--since` and `REF@{..}`
- `parse_date_lines`, `approxidate_lines`: both of many lines; `parse_date_lines_into`, `approxidate_lines_into`: into two outputs
- `expiry_date`: what expires, as in `gc.pruneExpire`
- `show_date`: a date as `git log --date=MODE` shows it, also by `format:%Y-%m-%d`
- `show_git_time`: the date of an identity line so, with the offset that the line writes
- `parse_offset`, `offset_text`: an offset alone, as `+0530`; `offset_from_decimal`, `offset_to_decimal`: as Git's own code has it, as 530

Each call has a moment, an aware datetime or a `Moment`, in whose zone a text without an offset is read. docs/GIT_DATES.md has the rules.
All refuse the moment by `NaiveDatetime`, `InvalidInstant` and `InvalidZone`. A text may be any bytes, as in Git, and ends before its first
NUL.
"""

from __future__ import annotations

from dataclasses import dataclass
from enum import Enum
from typing import Dict, Optional, Type

from . import _library
from ._library import (
    approxidate,
    expiry_date,
    offset_from_decimal,
    offset_text,
    offset_to_decimal,
    parse_date,
    parse_offset,
    show_date,
    show_git_time,
)
from .errors import REFUSALS, GixDateError, Text, named
from .lines import approxidate_lines, approxidate_lines_into, parse_date_lines, parse_date_lines_into
from .moments import Now
from .times import Time


class Unreadable(GixDateError):
    """Git reads no date either: the text says no year, month or time of day, or none that Git knows."""

    status = 18


class NumberTooLarge(GixDateError):
    """The digits at `place` say more than 2147483647, and are neither an epoch nor a fraction."""

    status = 19


class BackTooFar(GixDateError):
    """The date leads back beyond what Git can say, by the word or number at `place`."""

    status = 20


class YearRefused(GixDateError):
    """The date at `place` begins with a year that Git refuses."""

    status = 21


class Range(GixDateError):
    """The date is before 1970, or leads to an instant that cannot be computed with.

    When shown: Git cannot show it, as an age at a moment before 1970, or it is beyond what is shown here: an offset of 100
    hours, or after 9999.
    """

    status = 22


class FlagRefused(GixDateError):
    """The directive at `place` of a format has flags or a width, where Git says another offset, or begins again."""

    status = 24


class UnknownDirective(GixDateError):
    """The directive at `place` of a format is none that all C libraries show alike, or the end cuts it off."""

    status = 25


class WidthTooLarge(GixDateError):
    """The directive at `place` of a format has a width above 255."""

    status = 26


class UnknownMode(GixDateError):
    """No mode has this name. Git's `auto:` is not offered, and `format:` names no `DateMode`: `show_date` takes it."""

    own_message = 'not a way to show a date; expected one such as "iso8601-strict" or "human-local"'


ALL_REFUSALS: Dict[int, Type[GixDateError]] = {
    **REFUSALS,
    **named(Unreadable, NumberTooLarge, BackTooFar, YearRefused, Range, FlagRefused, UnknownDirective, WidthTooLarge),
}
ALL_REFUSALS[2] = UnknownMode  # the library tells an unknown mode by its status for options


@dataclass(frozen=True)
class ExactDate:
    """What `parse_date` reads.

    - time: its offset has whole minutes
    - has_offset: whether the text names its offset, as `+0200`, `Z` or `EST`, so that each zone gives the same date
    - ignored: the index into the text of the first word, number or sign of an offset that no rule used, or else of a NUL; or None
    """

    time: Time
    has_offset: bool
    ignored: Optional[int]


@dataclass(frozen=True)
class Approximate:
    """What `approxidate` makes of a text.

    - time: its offset is the zone's, or the one that an exact date says
    - understood: whether anything was understood. If not, the time is the moment, if the zone's clock
      finds it again.
    - ignored: as in `ExactDate`
    """

    time: Time
    understood: bool
    ignored: Optional[int]


class AgeUnit(Enum):
    """The unit of an age."""

    SECONDS = 0
    MINUTES = 1
    HOURS = 2
    DAYS = 3
    WEEKS = 4
    MONTHS = 5
    YEARS = 6


@dataclass(frozen=True)
class Age:
    """How long ago a time was, in the unit that Git chooses: `Age(AgeUnit.YEARS, 1, 2)` is `1 year, 2 months ago`.

    - months: those beyond years, and 0 with other units
    """

    unit: AgeUnit
    count: int
    months: int = 0


def age_at(time: Time, now: Now) -> Optional[Age]:
    """How long before a moment a time was, as `DateKind.RELATIVE` shows it: for a program that says it in another language.

    None is a time after the moment. Refuses by `Range` a time or a moment before 1970.
    """
    unit, count, months = _library.age_of(time, now)
    return Age(AgeUnit(unit), count, months) if unit <= AgeUnit.YEARS.value else None


class Expires(Enum):
    """What expires without a date.

    - NEVER: nothing
    - ALL: all, however new it is
    """

    NEVER = 0
    ALL = 1


class DateKind(Enum):
    """What of a date is shown. The examples show 1251660000 +0000 two hours later.

    - RELATIVE: `2 hours ago`
    - ISO8601_STRICT: `2009-08-30T19:20:00+00:00`
    - ISO8601: `2009-08-30 19:20:00 +0000`
    - RFC2822: `Sun, 30 Aug 2009 19:20:00 +0000`
    - SHORT: `2009-08-30`
    - DEFAULT: `Sun Aug 30 19:20:00 2009 +0000`
    - HUMAN: as much as tells the date from now: `2 hours ago`, or days later `Sun Aug 30 19:20`
    - RAW: `1251660000 +0000`
    - UNIX: `1251660000`
    """

    RELATIVE = 0
    ISO8601_STRICT = 1
    ISO8601 = 2
    RFC2822 = 3
    SHORT = 4
    DEFAULT = 5
    HUMAN = 6
    RAW = 7
    UNIX = 8


@dataclass(frozen=True)
class DateMode:
    """How a date is shown, as Git's option `--date` says it. `str` of it is Git's name.

    - kind: what is shown
    - local: whether the clock is that of the moment's zone. Else it is the time's own.
    """

    kind: DateKind = DateKind.DEFAULT
    local: bool = False

    def __post_init__(self) -> None:
        if type(self.kind) is not DateKind:
            raise TypeError(f"the option has to be a DateKind, not {self.kind!r}")

    @classmethod
    def of_name(cls, name: Text) -> DateMode:
        """The mode of one of Git's names, in its letter case: `iso8601-strict-local`. Refuses by `UnknownMode` and `NotText`."""
        return cls(*_library.mode_named(name))

    def __str__(self) -> str:
        return self.kind.name.lower().replace("_", "-") + ("-local" if self.local else "")


__all__ = [
    "Age", "AgeUnit", "Approximate", "BackTooFar", "DateKind", "DateMode", "ExactDate", "Expires", "FlagRefused", "NumberTooLarge", "Range",
    "UnknownDirective", "UnknownMode", "Unreadable", "WidthTooLarge", "YearRefused", "age_at", "approxidate", "approxidate_lines",
    "approxidate_lines_into", "expiry_date", "offset_from_decimal", "offset_text", "offset_to_decimal", "parse_date", "parse_date_lines",
    "parse_date_lines_into", "parse_offset", "show_date", "show_git_time",
]  # fmt: skip
