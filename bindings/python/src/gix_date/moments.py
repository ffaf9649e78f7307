"""Moments: an instant in a zone, to which dates are relative."""

from __future__ import annotations

import os
import time
import zoneinfo
from datetime import datetime, tzinfo
from functools import lru_cache
from importlib import resources
from typing import NamedTuple, Optional, Sequence, Tuple, Union

from . import _library
from ._library import parts_of
from .errors import REFUSALS, InvalidZone

Zone = Union[int, str, bytes]
Parts = Tuple[int, int, Zone]

MACHINE_ZONE = b"/etc/localtime"
"""What `TZ` means where it is not set. Where there is no such file, it is UTC."""


class ZoneFile(bytes):
    """The bytes of a TZif file, with the name by which it was found."""

    name: str

    def __new__(cls, data: bytes, name: str) -> ZoneFile:
        file = super().__new__(cls, data)
        file.name = name
        return file

    def __getnewargs__(self) -> Tuple[bytes, str]:  # type: ignore[override]
        return bytes(self), self.name


class Moment(NamedTuple):
    """An instant in a zone, for what a datetime cannot hold, and for many calls at one moment.

    - seconds: since 1970-01-01 00:00:00 UTC
    - nanoseconds: added to them, from -999999999 to 999999999
    - zone: an offset in seconds east of UTC, `UTC`, a POSIX rule such as `EST5EDT,M3.2.0,M11.1.0`, the bytes of a TZif file, or the
      key of one that `zoneinfo` finds, such as `Europe/Berlin`

    Calls refuse by `InvalidInstant` and `InvalidZone` what they cannot compute with.
    """

    seconds: int
    nanoseconds: int = 0
    zone: Zone = 0

    @classmethod
    def from_datetime(cls, at: datetime) -> Moment:
        """The moment of an aware datetime.

        A `ZoneInfo` gives the file of its key, which is looked for as `zoneinfo` does; without one, and for every other zone, the
        offset at that moment holds always. Refuses by `NaiveDatetime`, and an offset with parts of a second by `InvalidZone`.
        """
        return cls(*parts_in_zone(at))

    def __repr__(self) -> str:
        """The parts; of a file its name, if that is known, and its length."""
        return f"{type(self).__name__}(seconds={self.seconds!r}, nanoseconds={self.nanoseconds!r}, zone={shown(self.zone)})"


def shown(zone: Zone) -> str:
    """A zone in one line: of a file its name, if that is known, and its length."""
    if not isinstance(zone, bytes):
        return repr(zone)
    return f"<{zone.name}, {len(zone)} bytes>" if isinstance(zone, ZoneFile) else f"<{len(zone)} bytes>"


Now = Union[datetime, Moment]
"""A moment: an aware datetime, or a Moment."""


def parts_in_zone(at: datetime) -> Parts:
    """The parts of an aware datetime's moment."""
    if not isinstance(at, datetime):
        raise TypeError(f"a moment has to be an aware datetime or a Moment, not {type(at).__name__}")
    seconds, microseconds, offset = parts_of(at)
    return seconds, microseconds * 1000, file_of(at.tzinfo) or offset


@lru_cache(maxsize=64)
def zone_file(zone: zoneinfo.ZoneInfo) -> bytes:
    """The bytes of a zone's file, kept with the zone, which keeps its own data too; none if it has no file."""
    return b"" if zone.key is None else tzif_of(zone.key, zoneinfo.TZPATH)


def file_of(zone: Optional[tzinfo]) -> bytes:
    """The bytes of a zone's file; none if it has no file."""
    return zone_file(zone) if isinstance(zone, zoneinfo.ZoneInfo) else b""


def is_inside(key: str) -> bool:
    """Whether a zone's key is a path that stays below the folder of zones."""
    return bool(key) and "\0" not in key and not os.path.isabs(key) and os.path.normpath(key) == key and not key.startswith("..")


@lru_cache(maxsize=64)
def tzif_of(key: str, folders: Sequence[str]) -> bytes:
    """The bytes of a zone's TZif file in the folders, or in the package tzdata; none if no such file may be read."""
    if not is_inside(key):
        return b""
    for path in (os.path.join(folder, key) for folder in folders):
        if os.path.isfile(path):
            return ZoneFile(_library.zone_file(os.fsencode(path)) or b"", key)
    *packages, name = key.split("/")
    try:
        return ZoneFile(resources.files(".".join(["tzdata.zoneinfo", *packages])).joinpath(name).read_bytes(), key)
    except (ImportError, OSError, UnicodeError):
        return b""


@lru_cache(maxsize=64)
def read_zone(zone: Union[str, bytes]) -> _library.Zone:
    """The zone of a rule or a file, read once for many calls."""
    return _library.Zone(zone)


def named_zone(name: str) -> _library.Zone:
    """The zone of a rule with its dates, of a file by its key, or of another rule; for any other str a zone that calls refuse."""
    may_be_key = _library.zone_path(name.encode(errors="replace"), b"")
    return read_zone((may_be_key and tzif_of(name, zoneinfo.TZPATH)) or name)


def state_of(path: bytes) -> Tuple[int, ...]:
    """What differs when a file is another one; nothing if there is none."""
    try:
        file = os.stat(path)
    except OSError:
        return ()
    return file.st_dev, file.st_ino, file.st_size, file.st_mtime_ns


@lru_cache(maxsize=64)
def zone_found(tz: bytes, path: bytes, _state: Tuple[int, ...]) -> Zone:
    """The zone that a `TZ` means: that of the file at a path, or else of its text. It is kept for a state of the file."""
    name = tz.removeprefix(b":")
    data = _library.zone_file(path)
    if data is None:
        raise InvalidZone(tz)
    if not data and name in (b"", MACHINE_ZONE):
        return 0
    zone: Union[str, bytes] = ZoneFile(data, os.fsdecode(name)) if data else os.fsdecode(name)
    status = read_zone(zone).status
    if status:
        raise REFUSALS[status](tz)
    return zone


def now() -> Moment:
    """The moment now in the machine's zone, which the C library finds by `TZ` and `TZDIR`, or in `/etc/localtime`.

    Refuses by `InvalidZone` what the C library takes for UTC in silence, and by `ZoneCountsLeapSeconds` a file that counts them. The zone
    is kept while `TZ` and `TZDIR` stay as they are, and the device, inode, length and time of change of its file. Else it is found anew.
    Only this call reads the clock, the environment and the machine's zone.
    """
    seconds, nanoseconds = divmod(time.time_ns(), 1_000_000_000)
    tz, tzdir = os.environb.get(b"TZ", MACHINE_ZONE), os.environb.get(b"TZDIR", b"")
    path = _library.zone_path(tz, tzdir)
    return Moment(seconds, nanoseconds, zone_found(tz, path, state_of(path)))
