"""Which files are zones: those of keys, and that of the machine, which is found anew when it changes."""

from __future__ import annotations

import copy
import os
import pickle
import zoneinfo
from datetime import datetime
from functools import partial
from itertools import product
from pathlib import Path
from typing import Callable, List

import pytest

import gix_date
from gix_date import InvalidZone, Moment, ZoneCountsLeapSeconds, git, moments, parse, parse_lines
from gix_date.moments import tzif_of

from rows import file_of_utc

TOKYO, KATHMANDU = ((Path(zoneinfo.TZPATH[0]) / name).read_bytes() for name in ("Asia/Tokyo", "Asia/Kathmandu"))
LEAPS = file_of_utc(1)


def filled(path: Path, length: int, data: bytes = TOKYO, changed: int = 0) -> Path:
    """A file of a zone that zeros fill up to a length, as if it was changed at a time."""
    path.write_bytes(data)
    os.truncate(path, length)
    os.utime(path, (changed, changed))
    return path


def test_keys_are_those_of_files_that_may_be_read(tmp_path: Path) -> None:
    os.mkfifo(tmp_path / "pipe")
    (tmp_path / "empty").touch()
    (tmp_path / "to-kernel").symlink_to("/proc/kmsg")
    filled(tmp_path / "above", (1 << 20) + 1)
    for name in ("pipe", "empty", "to-kernel", "above", "."):
        assert not tzif_of(name, (str(tmp_path),))
    assert len(tzif_of(filled(tmp_path / "full", 1 << 20).name, (str(tmp_path),))) == 1 << 20


def test_the_zone_of_the_machine_is_kept_until_it_changes(tmp_path: Path, monkeypatch: pytest.MonkeyPatch) -> None:
    def refuses() -> None:
        with pytest.raises(InvalidZone):
            gix_date.now()

    def is_at(offset: int) -> None:
        assert gix_date.now().zone is gix_date.now().zone and parse("1 second ago", gix_date.now()).offset == offset

    path = tmp_path / "zone"
    monkeypatch.setenv("TZDIR", str(tmp_path))
    monkeypatch.setenv("TZ", "zone")
    refuses()
    for data, length, changed in ((TOKYO, 400, 1), (KATHMANDU, 400, 2), (TOKYO, 401, 2)):
        filled(path, length, data, changed)
        is_at(32400 if data == TOKYO else 20700)
    filled(tmp_path / "other", 401, KATHMANDU, 2).replace(path)
    is_at(20700)
    monkeypatch.setenv("TZ", "JST-9")
    is_at(32400)
    monkeypatch.setenv("TZ", "zone")
    monkeypatch.setenv("TZDIR", "")
    refuses()
    monkeypatch.setattr(moments, "MACHINE_ZONE", bytes(path))
    monkeypatch.delenv("TZ")
    is_at(20700)
    path.unlink()
    is_at(0)


def test_leap_seconds_are_refused_by_name(tmp_path: Path, monkeypatch: pytest.MonkeyPatch) -> None:
    (tmp_path / "leaps").write_bytes(LEAPS)
    monkeypatch.setenv("TZ", str(tmp_path / "leaps"))
    with pytest.raises(ZoneCountsLeapSeconds, match="^the file of the zone counts leap seconds$") as caught:
        gix_date.now()
    assert caught.value.text == bytes(tmp_path / "leaps")
    zoneinfo.reset_tzpath((str(tmp_path),))
    try:
        nows: List[moments.Now] = [datetime(2024, 1, 5, tzinfo=zoneinfo.ZoneInfo("leaps")), Moment(0, 0, "leaps"), Moment(0, 0, LEAPS)]
        calls: List[Callable[[moments.Now], object]] = [partial(parse, "@5"), partial(parse_lines, b"@5"), partial(git.approxidate, "noon")]
        for now, call in product(nows, calls):
            with pytest.raises(ZoneCountsLeapSeconds):
                call(now)
    finally:
        zoneinfo.reset_tzpath()


def test_a_moment_is_shown_in_one_line(tmp_path: Path, monkeypatch: pytest.MonkeyPatch) -> None:
    berlin = (Path(zoneinfo.TZPATH[0]) / "Europe/Berlin").read_bytes()
    at = datetime(2023, 10, 27, 12, tzinfo=zoneinfo.ZoneInfo("Europe/Berlin"))
    shown = f"Moment(seconds=1698400800, nanoseconds=0, zone=<Europe/Berlin, {len(berlin)} bytes>)"
    moment = Moment.from_datetime(at)
    for again in (moment, copy.copy(moment), copy.deepcopy(moment), pickle.loads(pickle.dumps(moment)), moment._replace()):
        assert repr(again) == shown and again == moment == (1698400800, 0, berlin) and hash(again) == hash((1698400800, 0, berlin))
    assert repr(Moment(5, 6, berlin)) == f"Moment(seconds=5, nanoseconds=6, zone=<{len(berlin)} bytes>)"
    assert repr(Moment(5, 6, "Europe/Berlin")) == "Moment(seconds=5, nanoseconds=6, zone='Europe/Berlin')"
    assert repr(Moment(5)) == "Moment(seconds=5, nanoseconds=0, zone=0)"
    monkeypatch.setenv("TZDIR", zoneinfo.TZPATH[0])
    monkeypatch.setenv("TZ", ":Europe/Berlin")
    assert repr(gix_date.now()).endswith(f", zone=<Europe/Berlin, {len(berlin)} bytes>)")
    monkeypatch.delenv("TZ")
    monkeypatch.setattr(moments, "MACHINE_ZONE", bytes(filled(tmp_path / "zone", 4096)))
    now = gix_date.now()
    assert repr(now).endswith(f", zone=<{tmp_path / 'zone'}, 4096 bytes>)") and repr(pickle.loads(pickle.dumps(now))) == repr(now)
