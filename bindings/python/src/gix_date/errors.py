"""Why a call refuses: a class for each refusal, below `GixDateError`."""

from __future__ import annotations

from typing import ClassVar, Dict, Optional, Type, Union

from . import _library

Text = Union[str, bytes]


class GixDateError(ValueError):
    """Why a call refuses.

    `text` is the refused text, or None if there is none. `place` is the index into it from which on it is refused, or None.
    `status` is the number of the refusal in the library for C, whose message it has, or None if the package alone refuses.
    """

    status: ClassVar[Optional[int]] = None
    own_message: ClassVar[str] = "the call refuses"
    text: Optional[Text]
    place: Optional[int]

    def __init__(self, text: Optional[Text] = None, place: Optional[int] = None) -> None:
        super().__init__(text, place)
        self.text = text
        self.place = place

    @classmethod
    def message(cls) -> str:
        """What the refusal means, in English."""
        return cls.own_message if cls.status is None else _library.status_text(cls.status)

    def __str__(self) -> str:
        return self.message() if self.place is None else f"{self.message()}, at index {self.place}"


class NotText(GixDateError):
    """The bytes are not UTF-8, or the str has half of a surrogate pair."""

    status = 1


class InvalidTime(GixDateError):
    """The text is no time of a header."""

    status = 4


class UnknownFormat(GixDateError):
    """The text has no known form of a date, or its offset is above 23:59."""

    status = 5


class DateConversion(GixDateError):
    """The day's midnight in UTC is after the last instant, 253402207200."""

    status = 6


class MissingNow(GixDateError):
    """The text is relative to a moment or a date in its zone, and none was given."""

    status = 7


class Range(GixDateError):
    """The date leads to an instant that cannot be computed with."""

    status = 8


class InvalidInstant(GixDateError):
    """The moment is before -377705023201 or after 253402207200, or its nanoseconds are outside -999999999 to 999999999."""

    status = 9


class InvalidZone(GixDateError):
    """The zone of the moment cannot be read, or its offset is beyond 25:59:59 or has parts of a second."""

    status = 10


class ZoneCountsLeapSeconds(InvalidZone):
    """The file of the zone counts leap seconds, as those in /usr/share/zoneinfo/right. No time of Git does."""

    status = 32


class Conversion(GixDateError):
    """The seconds are outside -377705023201 to 253402207200, or the offset is beyond 25:59:59."""

    status = 11


class OffsetTooWide(GixDateError):
    """The offset is 100 hours or more, or more than 35791394 minutes in an identity line."""

    status = 12


class Pattern(GixDateError):
    """The pattern cannot be printed."""

    status: ClassVar[Optional[int]] = 13


class NoSignature(GixDateError):
    """The line is no signature line."""

    status = 15


class BadPart(GixDateError):
    """The name or the email holds `<`, `>`, a newline or NUL."""

    status = 16


class Unclear(GixDateError):
    """The text is not careful. `place` is the first character that does not fit, or the length if the end is missing."""

    status = 17


class AfterYear9999(GixDateError):
    """A number of seconds above 253402300799 without `@`: perhaps milliseconds, or a date and a clock in digits alone."""

    status = 23


class NoIdentity(GixDateError):
    """Git finds no identity in the line: no `<`, or no `>` after the first."""

    status = 27


class NulInPart(GixDateError):
    """The name or the email of an identity line to write holds NUL."""

    status = 28


class EmptyName(GixDateError):
    """The name has no bytes."""

    status = 29


class OnlyCrud(GixDateError):
    """The name holds only bytes that Git cuts off its ends."""

    status = 30


class BeforeEpoch(GixDateError):
    """The time is before 1970, so Git cannot write it. When shown: that of an identity line is, or is by its own clock."""

    status = 31


class NoDirective(Pattern):
    """The pattern is the name of a form, such as `iso`, and has no directive, so that it would print itself."""

    status: ClassVar[Optional[int]] = None
    own_message = 'a pattern without a directive prints itself; expected a Format, or directives such as "%Y-%m-%d"'


class NaiveDatetime(GixDateError):
    """The datetime has no zone."""

    own_message = "the datetime is naive: a moment needs a zone, such as timezone.utc"


class BeyondDatetime(GixDateError):
    """A datetime cannot hold the time: its year is outside 1 to 9999, or its offset is a day or more."""

    own_message = "a datetime holds years from 1 to 9999 and offsets below a day"


def named(*classes: Type[GixDateError]) -> Dict[int, Type[GixDateError]]:
    """These classes by their statuses."""
    return {error.status: error for error in classes if error.status is not None}


REFUSALS = named(
    NotText, InvalidTime, UnknownFormat, DateConversion, MissingNow, Range, InvalidInstant, InvalidZone, Conversion,
    OffsetTooWide, Pattern, NoSignature, BadPart, Unclear, AfterYear9999,
    NoIdentity, NulInPart, EmptyName, OnlyCrud, BeforeEpoch, ZoneCountsLeapSeconds,
)  # fmt: skip


__all__ = [
    "GixDateError", "NotText", "InvalidTime", "UnknownFormat", "DateConversion", "MissingNow", "Range",
    "InvalidInstant", "InvalidZone", "Conversion", "OffsetTooWide", "Pattern", "NoSignature", "BadPart", "Unclear",
    "AfterYear9999", "NoIdentity", "NulInPart", "EmptyName", "OnlyCrud", "BeforeEpoch", "NoDirective", "NaiveDatetime",
    "BeyondDatetime", "ZoneCountsLeapSeconds",
]  # fmt: skip
