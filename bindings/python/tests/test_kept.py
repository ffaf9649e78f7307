"""Zones that are read once for many calls: which are read, who shares them, when they go, and what is refused as a zone."""

from __future__ import annotations

import copy
import gc
import pickle
import sys
import weakref
import zoneinfo
from concurrent.futures import ThreadPoolExecutor
from datetime import datetime, timedelta, timezone
from pathlib import Path
from typing import Callable, Iterator, List, Optional, Tuple, Union
from zoneinfo import ZoneInfo

import pytest

from gix_date import GitTime, GixDateError, InvalidInstant, InvalidZone, Moment, Time, WithoutOffset, _library, git
from gix_date import parse, parse_carefully, parse_lines
from gix_date.moments import parts_in_zone, read_zone

from rows import FOLDER, file_of_utc

RULE, FILE = "EST5EDT,M3.2.0,M11.1.0", (FOLDER / "new_york_2023.tzif").read_bytes()
NEW_YORK = ZoneInfo("America/New_York")
AFTER_SUMMER = datetime(2023, 11, 20, 12, tzinfo=NEW_YORK)
MONTH_AGO = Time.from_datetime(datetime(2023, 10, 20, 12, tzinfo=NEW_YORK))
SECONDS = 1700499600  # of AFTER_SUMMER
CALLS: List[Callable[[Moment], object]] = [
    lambda now: parse("1 month ago", now),
    lambda now: parse_carefully("2023-07-01 10:00", now, without_offset=WithoutOffset.MOMENTS_ZONE),
    lambda now: list(parse_lines(b"1 month ago\n@5\n2 days ago", now)),
    lambda now: git.parse_date("2023-07-01 10:00", now),
    lambda now: git.approxidate("last friday at noon", now),
    lambda now: git.expiry_date("2 weeks ago", now),
    lambda now: git.show_date(Time(1660797906, 28800), "iso-local", now),
    lambda now: git.show_git_time(GitTime(1660797906, 60), "iso-local", now),
]


def told(call: Callable[[Moment], object], now: Moment) -> object:
    """What a call answers, or the class of its refusal."""
    try:
        return call(now)
    except GixDateError as error:
        return type(error)


@pytest.fixture(autouse=True)
def nothing_kept() -> Iterator[None]:
    read_zone.cache_clear()
    yield


def zones_read(work: Callable[[], object]) -> int:
    """How many zones are read for some work."""
    before = read_zone.cache_info().misses
    work()
    return read_zone.cache_info().misses - before


def test_a_zone_is_read_once_for_many_calls() -> None:
    in_rule, in_file = Moment(SECONDS, 0, RULE), Moment(SECONDS, 0, FILE)
    for now in (AFTER_SUMMER, in_rule, in_file):
        assert zones_read(lambda: [parse("1 month ago", now) for _ in range(100)]) == 1
        assert zones_read(lambda: [git.approxidate("noon", now), list(parse_lines(b"noon\n1 hour ago", now))]) == 0
        assert parse("1 month ago", now) == MONTH_AGO
    for offset in (AFTER_SUMMER.astimezone(timezone(timedelta(hours=2))), Moment(SECONDS), Moment(SECONDS, 0, True)):
        assert zones_read(lambda: parse("1 month ago", offset)) == 0


def test_moments_share_a_zone() -> None:
    files = [(Path(zoneinfo.TZPATH[0]) / "America/New_York").read_bytes() for _ in range(2)]
    moments = [AFTER_SUMMER, AFTER_SUMMER - timedelta(days=400), *(Moment(SECONDS, 0, file) for file in files)]
    assert zones_read(lambda: [parse("1 month ago", now) for now in moments]) == 1
    kept = {read_zone(now.zone if isinstance(now, Moment) else parts_in_zone(now)[2]) for now in moments}  # type: ignore[arg-type]
    assert len(kept) == 1
    assert parse("1 month ago", Moment(SECONDS, 0, RULE)) == parse("1 month ago", moments[2]) == MONTH_AGO
    assert read_zone(RULE) not in kept


def test_a_call_leaves_the_zone_as_it_was() -> None:
    for zone in (RULE, FILE):
        for seconds in (SECONDS, 0, 2**62):  # the last is refused
            now = Moment(seconds, 0, zone)
            read_zone.cache_clear()
            again = [[told(call, now) for call in CALLS] for _ in range(3)]
            assert zones_read(lambda: [told(call, now) for call in CALLS]) == 0
            for answers in again:
                for call, answer in zip(CALLS, answers):
                    read_zone.cache_clear()
                    assert told(call, now) == answer


def test_moments_stay_values() -> None:
    for zone in (7200, RULE, FILE):
        moment, other = Moment(SECONDS, 0, zone), Moment(SECONDS, 0, zone)
        before = (hash(moment), repr(moment), pickle.dumps(moment), tuple(moment))
        parse("1 month ago", moment)
        assert (hash(moment), repr(moment), pickle.dumps(moment), tuple(moment)) == before
        for again in (pickle.loads(pickle.dumps(moment)), copy.copy(moment), copy.deepcopy(moment), moment._replace()):
            assert type(again) is Moment and again == moment == other
            assert parse("1 month ago", again) == parse("1 month ago", other)


def test_threads_share_a_zone() -> None:
    lines = b"1 month ago\n" * 500
    berlin = AFTER_SUMMER.astimezone(ZoneInfo("Europe/Berlin"))
    due_there = Time.from_datetime(berlin.replace(month=10))

    def work(number: int) -> None:
        for turn in range(60):
            assert parse("1 month ago", AFTER_SUMMER) == MONTH_AGO
            assert parse("1 month ago", berlin) == due_there
            assert git.show_date(MONTH_AGO, "iso-local", AFTER_SUMMER) == "2023-10-20 12:00:00 -0400"
            assert list(parse_lines(lines, AFTER_SUMMER)) == [MONTH_AGO] * 500  # without the GIL
            if (turn + number) % 5 == 0:
                read_zone.cache_clear()  # so that zones go while others have them

    with ThreadPoolExecutor(8) as threads:
        list(threads.map(work, range(8)))


def test_a_zone_goes_when_none_has_it() -> None:
    lines = parse_lines(b"1 month ago\n@5", Moment(SECONDS, 0, FILE))
    read_zone.cache_clear()
    gc.collect()
    assert list(lines) == [MONTH_AGO, Time(5, 0)]
    rules = [f"EST5EDT,M3.2.0,M{month}.1.{day}" for month in (9, 10, 11, 12) for day in range(7)]
    moments = [Moment(SECONDS, 0, f"{rule}/{hour}") for rule in rules for hour in range(8)]
    parse("1 month ago", AFTER_SUMMER)
    first = [parse("1 month ago", now) for now in moments]
    assert read_zone.cache_info().currsize == read_zone.cache_info().maxsize < len(moments)
    assert [parse("1 month ago", now) for now in moments] == first
    assert parse("1 month ago", AFTER_SUMMER) == MONTH_AGO


def test_zones_keep_no_references() -> None:
    class Rule(str):
        """A str of which it is seen when it goes."""

    rule = Rule(RULE)
    goes = weakref.ref(rule)
    assert _library.Zone(rule).status == 0
    del rule
    gc.collect()
    assert goes() is None  # since a zone was read, and has no text
    before = sys.getrefcount(_library.Zone), sys.getrefcount(FILE)
    for _ in range(1000):
        _library.Zone(FILE)
        _library.Zone(b"no file")
    assert (sys.getrefcount(_library.Zone), sys.getrefcount(FILE)) == before


WRONG: List[Union[str, bytes]] = [
    "", "no rule", "EST5EDT,M3", "+0200", "-03:30", "+02", "-00", "+9999", "+0200EST", "TZif", "TZif2" + "\0" * 39, "\ud800", "\0",
    b"", b"TZi", b"TZif", b"tzif", FILE[:-60], b" " + FILE, RULE.encode(), b"+0200", b"+02", b"\xff",
]  # fmt: skip
WHOLE_IN_ASCII = file_of_utc(0)


@pytest.mark.parametrize("zone", [*WRONG, WHOLE_IN_ASCII.decode()])
def test_what_is_no_zone_is_refused(zone: Union[str, bytes]) -> None:
    now = Moment(SECONDS, 0, zone)
    calls: List[Tuple[Callable[[str], object], Optional[str]]] = [
        (lambda text: parse(text, now), "@5"),
        (lambda text: parse_carefully(text, now, without_offset=WithoutOffset.MOMENTS_ZONE), "@5"),
        (lambda text: git.parse_date(text, now), "@5"),
        (lambda text: git.approxidate(text, now), "noon"),
        (lambda text: git.expiry_date(text, now), "never"),
        (lambda text: git.show_date(Time(0, 0), text, now), None),
        (lambda text: parse_lines(text.encode(), now), None),
    ]
    for call, text in calls:
        with pytest.raises(InvalidZone) as caught:
            call(text or "iso-local")
        assert caught.value.text == text
    for broken in (b"\xff", "\ud800"):
        with pytest.raises(InvalidZone):
            parse(broken, now)
    with pytest.raises(InvalidZone):
        parse("@5", now._replace(seconds=2**62))
    with pytest.raises(TypeError, match="^a text has to be"):
        parse(5, now)  # type: ignore[arg-type]
    assert parse("1 month ago", Moment(SECONDS, 0, FILE)) == MONTH_AGO


def test_a_file_may_be_all_ascii() -> None:
    assert parse("1 hour ago", Moment(SECONDS, 0, WHOLE_IN_ASCII)) == Time(SECONDS - 3600, 0)
    assert parse("1 hour ago", Moment(SECONDS, 0, "<+02>-2")).offset == 7200


def test_zones_of_the_extension() -> None:
    wrong: List[Callable[[], object]] = [
        lambda: _library.Zone(),  # type: ignore[call-arg]
        lambda: _library.Zone(RULE, FILE),  # type: ignore[call-arg]
        lambda: _library.Zone(zone=RULE),  # type: ignore[call-arg]
        lambda: type("Below", (_library.Zone,), {}),
        lambda: pickle.dumps(_library.Zone(RULE)),
        lambda: copy.copy(_library.Zone(RULE)),
        lambda: _library.zone_path(b""),  # type: ignore[call-arg]
        lambda: _library.zone_path("UTC", b""),  # type: ignore[arg-type]
        lambda: _library.zone_file("/etc/localtime"),  # type: ignore[arg-type]
    ]
    for call in wrong:
        with pytest.raises(TypeError):
            call()
    others: List[object] = [None, 1.5, bytearray(FILE), [RULE], object(), _library.Zone]
    for other in others:
        with pytest.raises(TypeError, match="^a zone has to be an int, a str or bytes$"):
            _library.Zone(other)  # type: ignore[arg-type]
        with pytest.raises(TypeError, match="^a zone has to be an int, a str or bytes$"):
            parse("@5", Moment(SECONDS, 0, other))  # type: ignore[arg-type]
    with pytest.raises(TypeError, match="^a zone has to be an int, a str or bytes$"):
        parse("@5", Moment(SECONDS, 0, _library.Zone(RULE)))  # type: ignore[arg-type]
    assert [_library.Zone(zone).status for zone in (RULE, FILE, "no rule", b"no file")] == [0, 0, 10, 10]


def test_other_refusals_stay() -> None:
    for zone in (RULE, FILE):
        with pytest.raises(InvalidInstant):
            parse("@5", Moment(2**62, 0, zone))
        with pytest.raises(GixDateError) as caught:
            parse("banana", Moment(SECONDS, 0, zone))
        assert type(caught.value).__name__ == "UnknownFormat"
