"""Git's times, read and written by the proved library gix_date.

Names are those of the library for C. Seconds count from 1970-01-01 00:00:00 UTC, and an offset is seconds east of UTC. A text is a str
or bytes. A moment is an aware datetime, or a `Moment`. A refusal is a class below `GixDateError`, such as
`gix_date.UnknownFormat`; help(gix_date.errors) lists them. Refused memory is MemoryError. Nothing prints, and only `now` reads the clock
and the machine's zone. Many threads may call at once.

The module `gix_date.git` reads and shows dates as Git itself does. The wheel of an archive has pages and examples in the folder `pages`
beside this file.

>>> from gix_date import ISO8601, parse, parse_header
>>> time = parse_header("1660797906 +0800")
>>> time.format(ISO8601)
'2022-08-18 12:45:06 +0800'
>>> parse("2022-08-18 12:45:06 +0800") == time
True
"""

from __future__ import annotations

from . import _library, git, moments
from .errors import AfterYear9999 as AfterYear9999
from .errors import BadPart as BadPart
from .errors import BeforeEpoch as BeforeEpoch
from .errors import BeyondDatetime as BeyondDatetime
from .errors import Conversion as Conversion
from .errors import DateConversion as DateConversion
from .errors import EmptyName as EmptyName
from .errors import GixDateError as GixDateError
from .errors import InvalidInstant as InvalidInstant
from .errors import InvalidTime as InvalidTime
from .errors import InvalidZone as InvalidZone
from .errors import MissingNow as MissingNow
from .errors import NaiveDatetime as NaiveDatetime
from .errors import NoDirective as NoDirective
from .errors import NoIdentity as NoIdentity
from .errors import NoSignature as NoSignature
from .errors import NotText as NotText
from .errors import NulInPart as NulInPart
from .errors import OffsetTooWide as OffsetTooWide
from .errors import OnlyCrud as OnlyCrud
from .errors import Pattern as Pattern
from .errors import Range as Range
from .errors import Unclear as Unclear
from .errors import UnknownFormat as UnknownFormat
from .errors import ZoneCountsLeapSeconds as ZoneCountsLeapSeconds
from .lines import Refused, parse_headers_into, parse_idents_into, parse_lines, parse_lines_into, parse_signatures_into
from .moments import Moment, now
from .options import Format, RawOffsets, Texts, WithoutOffset
from .reading import is_canonical_header, parse, parse_carefully, parse_header
from .signatures import FsckFault, FsckId, GitTime, Ident, IdentDate, IdentPlaces, Signature
from .signatures import fsck, parse_ident, write_ident, write_ident_as_is, write_signature
from .times import Time

# Made by scripts/formats.
UNIX, RAW, SHORT, RFC2822, GIT_RFC2822, ISO8601, ISO8601_STRICT, GITOXIDE, DEFAULT = (
    Format.UNIX, Format.RAW, Format.SHORT, Format.RFC2822, Format.GIT_RFC2822, Format.ISO8601, Format.ISO8601_STRICT, Format.GITOXIDE,
    Format.DEFAULT,
)  # fmt: skip
# Made until here.

_library.connect(
    moment=Moment,
    read_date=git.ExactDate,
    approximate=git.Approximate,
    date_mode=git.DateMode,
    git_time=GitTime,
    expires=tuple(git.Expires),
    raw_offsets=tuple(RawOffsets),
    without_offset=tuple(WithoutOffset),
    texts=tuple(Texts),
    formats=tuple(Format),
    kinds=tuple(git.DateKind),
    refusals=git.ALL_REFUSALS,
    no_directive=NoDirective,
    naive=NaiveDatetime,
    parts_in_zone=moments.parts_in_zone,
    read_zone=moments.read_zone,
    named_zone=moments.named_zone,
)


def _version(number: int) -> str:
    return f"{number // 10000}.{number // 100 % 100}.{number % 100}"


__version__, PORTED_VERSION = (_version(number) for number in _library.versions())

__all__ = [
    "DEFAULT", "Format", "FsckFault", "FsckId", "GITOXIDE", "GIT_RFC2822", "GitTime", "GixDateError", "ISO8601", "ISO8601_STRICT", "Ident",
    "IdentDate", "IdentPlaces", "Moment", "PORTED_VERSION", "RAW", "RFC2822", "RawOffsets", "Refused", "SHORT", "Signature", "Texts",
    "Time", "UNIX", "WithoutOffset", "fsck", "git", "is_canonical_header", "now", "parse", "parse_carefully", "parse_header",
    "parse_headers_into", "parse_ident", "parse_idents_into", "parse_lines", "parse_lines_into", "parse_signatures_into", "write_ident",
    "write_ident_as_is", "write_signature",
]  # fmt: skip
