"""Times: seconds since 1970 and an offset."""

from __future__ import annotations

from dataclasses import dataclass
from datetime import datetime, timedelta, timezone
from typing import Callable, Tuple, Type

from ._library import Time as Time
from ._library import parts_of
from .errors import BeyondDatetime

_EPOCH = datetime(1970, 1, 1)
_TIMESPECS = {
    "auto": "%H:%M:%S",
    "hours": "%H",
    "minutes": "%H:%M",
    "seconds": "%H:%M:%S",
    "milliseconds": "%H:%M:%S.000",
    "microseconds": "%H:%M:%S.000000",
}


def isoformat(self: Time, sep: str = "T", timespec: str = "auto") -> str:
    """The clock and the offset as `datetime.isoformat` shows them: `2022-08-18T12:45:06+08:00`. Refuses by `Conversion`."""
    if not isinstance(sep, str) or len(sep) != 1:
        raise TypeError("the separator has to be one character")
    if timespec not in _TIMESPECS:
        raise ValueError(f"the timespec has to be one of {', '.join(_TIMESPECS)}")
    between = "%%" if sep == "%" else sep
    return self.format(f"%Y-%m-%d{between}{_TIMESPECS[timespec]}%:z")


def from_datetime(cls: Type[Time], at: datetime) -> Time:
    """The time of an aware datetime, without its part of a second.

    Refuses by `NaiveDatetime`, and an offset with parts of a second by `InvalidZone`.
    """
    seconds, _, offset = parts_of(at)
    return cls(seconds, offset)


def to_datetime(self: Time) -> datetime:
    """The aware datetime of this time, with a fixed offset.

    Refuses by `BeyondDatetime` a clock outside the years 1 to 9999, and an offset of a day or more.
    """
    try:
        zone = timezone(timedelta(seconds=self.offset))
        return (_EPOCH + timedelta(seconds=self.seconds + self.offset)).replace(tzinfo=zone)
    except (OverflowError, ValueError):
        raise BeyondDatetime from None


def round_trips(self: Time) -> bool:
    """Whether the time can be computed with, its own clock shows a year from 1000 to 9999, and its offset is whole minutes
    within 23:59.

    If so, `parse` reads this time back from each named format with a clock and an offset.
    """
    return (
        self.seconds <= 253402207200
        and -30610224000 <= self.seconds + self.offset
        and self.offset % 60 == 0
        and abs(self.offset) <= 86340
    )


def __format__(self: Time, pattern: str) -> str:
    """What `format` prints by a pattern, as in `f"{time:%H:%M}"`; `str` without one."""
    return self.format(pattern) if pattern else str(self)


def __reduce__(self: Time) -> Tuple[Type[Time], Tuple[int, int]]:
    """For pickle and copy."""
    return type(self), (self.seconds, self.offset)


def _complete() -> None:
    """Gives the class of the extension these methods, and what a frozen dataclass has."""
    setattr(Time, "__annotations__", {"seconds": int, "offset": int})
    dataclass(frozen=True, init=False, repr=False, eq=False)(Time)
    methods: Tuple[Callable[..., object], ...] = (isoformat, from_datetime, to_datetime, round_trips, __format__, __reduce__)
    for method in methods:
        method.__qualname__ = f"Time.{method.__name__}"
        setattr(Time, method.__name__, classmethod(method) if method is from_datetime else method)


_complete()
