"""Moments in each zone that is here, by their datetimes: what is relative to them is what datetime and zoneinfo compute."""

from __future__ import annotations

import random
import zoneinfo
from datetime import datetime, timedelta, timezone
from typing import List, Optional
from zoneinfo import ZoneInfo

import pytest

from gix_date import InvalidInstant, Moment, Time, WithoutOffset, git, parse, parse_carefully

EPOCH = datetime(1970, 1, 1, tzinfo=timezone.utc)
FIRST, LAST = datetime(1, 1, 3, tzinfo=timezone.utc), datetime(9999, 12, 28, tzinfo=timezone.utc)
ZONES = sorted(zoneinfo.available_timezones())
SECOND = timedelta(seconds=1)
SECONDS = {"second": 1, "minute": 60, "hour": 3600, "day": 86400, "week": 604800}
MOMENTS_ZONE = WithoutOffset.MOMENTS_ZONE


def time_at(instant: timedelta, zone: ZoneInfo) -> Optional[Time]:
    """The time of an instant since 1970, cut towards it, by the clock of a zone; None if a datetime cannot hold it."""
    try:
        offset = (EPOCH + instant).astimezone(zone).utcoffset()
    except OverflowError:
        return None
    assert offset is not None
    whole = abs(instant) // SECOND
    return Time(-whole if instant < timedelta() else whole, offset // SECOND)


def instant_of(clock: datetime, zone: ZoneInfo) -> timedelta:
    """The instant of a clock: of two the earlier one, and a skipped one as much later."""
    offset = clock.replace(tzinfo=zone, fold=0).utcoffset()
    assert offset is not None
    return clock.replace(tzinfo=timezone.utc) - EPOCH - offset


def clock_at(instant: timedelta, zone: ZoneInfo) -> datetime:
    return (EPOCH + instant).astimezone(zone).replace(tzinfo=None)


def clock_before(clock: datetime, months: int) -> Optional[datetime]:
    """The clock so many months before, or as much later as that month is too short; None before the year 1."""
    year, month = divmod(clock.year * 12 + clock.month - 1 - months, 12)
    return None if year < 1 else clock.replace(year=year, month=month + 1, day=1) + timedelta(days=clock.day - 1)


def time_before(at: datetime, zone: ZoneInfo, count: int, unit: str) -> Optional[Time]:
    """The time before, as gix-date has it: by instants that the clock names, of two the earlier one. None before the year 1."""
    now = at.replace(tzinfo=None)
    try:
        if unit in SECONDS:
            clock: Optional[datetime] = clock_at(instant_of(now, zone) - count * SECONDS[unit] * SECOND, zone)
        else:
            clock = clock_before(now, count * (12 if unit == "year" else 1))
        return None if clock is None else time_at(instant_of(clock, zone), zone)
    except OverflowError:
        return None


def change(zone: ZoneInfo, source: random.Random) -> Optional[timedelta]:
    """The first second after a change of the clock, if there is one in the half year after a random day."""
    first = timedelta(days=source.randrange(-43000, 47000))
    last = first + timedelta(days=180)
    before = time_at(first, zone)
    while before is not None and last - first > SECOND:
        middle = first + (last - first) // SECOND // 2 * SECOND
        here = time_at(middle, zone)
        if here is not None and here.offset == before.offset:
            first = middle
        else:
            last = middle
    after = time_at(last, zone)
    return last if before and after and before.offset != after.offset else None


def moments(zone: ZoneInfo, source: random.Random, count: int) -> List[datetime]:
    """Random moments of all years, and as many near changes of the clock, with both folds."""
    made = []
    for _ in range(count):
        at = FIRST + timedelta(microseconds=source.randrange((LAST - FIRST) // timedelta(microseconds=1)))
        made.append(at.astimezone(zone))
        changed = change(zone, source)
        if changed is not None:
            near = EPOCH + changed + SECOND * source.choice([-86400, -3600, -1, 0, 1, 1800, 86400])
            made.append(near.astimezone(zone))
    return made


@pytest.mark.parametrize("name", ZONES)
def test_what_is_relative_is_what_zoneinfo_computes(name: str) -> None:
    zone, source = ZoneInfo(name), random.Random(name)
    for at in moments(zone, source, 4):
        moment = Moment.from_datetime(at)
        own = time_at(moment.seconds * SECOND, zone)
        assert own == Time.from_datetime(at) and own is not None
        assert own.to_datetime() == at.replace(microsecond=0).astimezone(timezone.utc)
        for unit in ("second", "minute", "hour", "day", "week", "month", "year"):
            count = source.choice([1, 2, 30, source.randrange(1, 3000)])
            due = time_before(at, zone, count, unit)
            if due is not None:
                assert parse(f"{count} {unit}s ago", at) == parse(f"{count} {unit}s ago", moment) == due, (at, count, unit)


@pytest.mark.parametrize("name", ZONES)
def test_clocks_of_the_zone_are_what_zoneinfo_computes(name: str) -> None:
    zone, source = ZoneInfo(name), random.Random(name)
    for at in moments(zone, source, 4):
        clock = at.replace(tzinfo=None, microsecond=0)
        for near in (clock, clock + timedelta(hours=1), clock - timedelta(minutes=30)):
            assert parse_carefully(f"{near}", at, without_offset=MOMENTS_ZONE) == time_at(instant_of(near, zone), zone)
        time = Time.from_datetime(at.astimezone(timezone.utc))
        # Git has the offset 0 after 2099
        if 1970 < at.year < 2100 and time_at(at - EPOCH, zone).offset % 60 == 0:  # type: ignore[union-attr]
            assert git.show_date(time, "iso-local", at) == f"{clock} {at:%z}"


def test_the_ends_of_datetimes() -> None:
    for zone in (timezone.utc, timezone(timedelta(hours=23, minutes=59, seconds=59)), ZoneInfo("Asia/Tokyo"), ZoneInfo("America/New_York")):
        first, last = datetime(1, 1, 1, tzinfo=zone), datetime(9999, 12, 31, 23, 59, 59, 999999, zone)
        for at in (first, last):
            time = Time.from_datetime(at)
            assert time.to_datetime().replace(tzinfo=None) == at.replace(tzinfo=None, microsecond=0)
            assert time.to_datetime().utcoffset() == at.utcoffset()
        assert parse("1 second ago", first) == Time(Time.from_datetime(first).seconds - 1, Time.from_datetime(first).offset)
        with pytest.raises(InvalidInstant):
            parse("1 second ago", last)
