"""The options of the calls. Each has the number of the library's headers, which is its place among those of its kind."""

from __future__ import annotations

from enum import Enum

class RawOffsets(Enum):
    """Which offsets a raw text (`1660797906 +0800`) may have.

    - QUARTERS: quarters of an hour up to 14:45
    - WHOLE_MINUTES: whole minutes up to 23:59
    """

    QUARTERS = 0
    WHOLE_MINUTES = 1


class WithoutOffset(Enum):
    """What a date means in which no offset is written, such as `2024-01-05 10:00`.

    - UTC: a time in UTC, as for `parse`
    - MOMENTS_ZONE: a time in the moment's zone. Of two it is the earlier one, and one that the clock skips is moved later.
    """

    UTC = 0
    MOMENTS_ZONE = 1


class Texts(Enum):
    """Which texts are read.

    - CAREFUL: those of which each character says something that is used
    - ALL: all that `parse` reads
    """

    CAREFUL = 0
    ALL = 1


class Format(Enum):
    # Made by scripts/formats.
    """What a time is printed as:

    - UNIX: `123456789`
    - RAW: `1660874655 +0800`
    - SHORT: `2018-12-24`
    - RFC2822: `Mon, 08 Aug 2022 12:45:06 +0800`
    - GIT_RFC2822: `Mon, 8 Aug 2022 12:45:06 +0800`
    - ISO8601: `2022-08-17 22:04:58 +0200`
    - ISO8601_STRICT: `2022-08-17T21:43:13+08:00`
    - GITOXIDE: `Sun Sep 04 2022 10:45:06 -0400`
    - DEFAULT: `Sun Sep 4 10:45:06 2022 -0400`
    """

    UNIX = 0
    RAW = 1
    SHORT = 2
    RFC2822 = 3
    GIT_RFC2822 = 4
    ISO8601 = 5
    ISO8601_STRICT = 6
    GITOXIDE = 7
    DEFAULT = 8
    # Made until here.
