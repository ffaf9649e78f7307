"""Times, their datetimes and their texts."""

from __future__ import annotations

import copy
import dataclasses
import inspect
import operator
import pickle
import random
import weakref
from datetime import datetime, timedelta, timezone
from typing import Any, Callable, List, Tuple, Union
from zoneinfo import ZoneInfo

import pytest

from gix_date import (
    ISO8601,
    RFC2822,
    SHORT,
    BeyondDatetime,
    Conversion,
    Format,
    GixDateError,
    InvalidZone,
    Moment,
    NaiveDatetime,
    NoDirective,
    NotText,
    OffsetTooWide,
    Pattern,
    Time,
    git,
    parse,
    write_signature,
)

TIME = Time(1660797906, 28800)


def test_a_time_is_a_value() -> None:
    assert TIME == Time(1660797906, 28800) != Time(1660797906, 28801)
    assert len({TIME, Time(1660797906, 28800)}) == 1
    assert sorted([Time(5, 0), Time(4, 60), Time(4, -60)]) == [Time(4, -60), Time(4, 60), Time(5, 0)]
    assert repr(TIME) == "Time(seconds=1660797906, offset=28800)"
    assert TIME.__eq__((1660797906, 28800)) is NotImplemented


def test_a_time_is_matched_by_its_fields() -> None:
    found = []
    for time in (TIME, Time(5, 0)):
        match time:
            case Time(1660797906, offset):
                found.append(("first", offset))
            case Time(seconds=seconds, offset=0):
                found.append(("second", seconds))
            case _:
                found.append(("none", 0))
    assert found == [("first", 28800), ("second", 5)]


def test_a_time_does_not_change() -> None:
    with pytest.raises(AttributeError):
        TIME.seconds = 5  # type: ignore[misc]
    with pytest.raises((AttributeError, TypeError)):
        TIME.zone = "UTC"  # type: ignore[attr-defined]
    assert not hasattr(TIME, "__dict__")


NUMBERS = [(5, 0), (5, 1), (4, 2), (-1, 0), (0, -1), (2**63 - 1, 2**31 - 1), (-(2**63), -(2**31)), (2**32, 0), (0, 0)]


@pytest.mark.parametrize("one", NUMBERS)
def test_times_compare_as_pairs_of_their_numbers(one: Tuple[int, int]) -> None:
    for other in NUMBERS:
        for compare in (operator.eq, operator.ne, operator.lt, operator.le, operator.gt, operator.ge):
            assert compare(Time(*one), Time(*other)) is compare(one, other)
    assert hash(Time(*one)) == hash(one)
    assert (Time(*one).seconds, Time(*one).offset) == dataclasses.astuple(Time(*one)) == one
    assert repr(Time(*one)) == f"Time(seconds={one[0]}, offset={one[1]})"


def test_times_compare_with_times_alone() -> None:
    others: List[Any] = [(5, 0), 5, None, Named(5, 0), datetime(2022, 8, 18)]
    for other in others:
        assert Time(5, 0) != other and not Time(5, 0) == other
        for compare in (operator.lt, operator.le, operator.gt, operator.ge):
            with pytest.raises(TypeError):
                compare(Time(5, 0), other)
    assert Named(5, 0) == Named(5, 0) != Named(5, 1) and hash(Named(5, 0)) == hash(Time(5, 0))
    assert Named(5, 0) < Named(6, 0)


def test_a_time_is_a_dataclass() -> None:
    assert [field.name for field in dataclasses.fields(Time)] == ["seconds", "offset"]
    assert dataclasses.is_dataclass(TIME) and dataclasses.asdict(TIME) == {"seconds": 1660797906, "offset": 28800}
    assert Time.__match_args__ == ("seconds", "offset")
    assert dataclasses.replace(TIME, seconds=5) == Time(5, 28800)
    assert Time(seconds=5, offset=60) == Time(5, offset=60) == Time(5, 60)
    assert list(inspect.signature(Time).parameters) == ["seconds", "offset"]
    for name in ("seconds", "offset"):
        with pytest.raises(dataclasses.FrozenInstanceError):
            setattr(TIME, name, 5)
        with pytest.raises(dataclasses.FrozenInstanceError):
            delattr(TIME, name)
    for wrong in ((), (1,), (1, 2, 3)):
        with pytest.raises(TypeError):
            Time(*wrong)
    with pytest.raises(TypeError):
        Time(1, seconds=1)  # type: ignore[misc, call-arg]
    with pytest.raises(TypeError):
        Time(1, zone=1)  # type: ignore[call-arg]


@dataclasses.dataclass(frozen=True)
class Commit(Time):
    """A dataclass of a caller below Time."""

    author: str = "A"


class Zoned(Time):
    """A time of a caller that is made otherwise, and has more."""

    def __init__(self, seconds: int) -> None:
        super().__init__(seconds, 3600)
        object.__setattr__(self, "zone", "CET")


def test_dataclasses_below_time() -> None:
    commit = Commit(5, 60, "B")
    assert repr(commit) == "Commit(seconds=5, offset=60, author='B')"
    assert commit == Commit(5, 60, "B") != Commit(5, 60, "C") and commit != Time(5, 60)
    assert dataclasses.replace(commit, seconds=6) == Commit(6, 60, "B")
    assert commit.format("%s %z") == "5 +0001" and str(commit) == commit.to_header() == "5 +0001"
    for wrong in ((2**63, 0), (0, 2**31), (0, -(2**31) - 1), (0, 2**63)):
        with pytest.raises(OverflowError):
            Commit(*wrong)
    for other in ((1.5, 0), (0, "1")):
        with pytest.raises(TypeError):
            Commit(*other)  # type: ignore[arg-type]
    zoned = Zoned(5)
    assert (zoned.seconds, zoned.offset, vars(zoned)) == (5, 3600, {"zone": "CET"}) and repr(zoned) == "Zoned(seconds=5, offset=3600)"
    assert weakref.ref(zoned)() is zoned


class Neither:
    """What is neither true nor false."""

    def __bool__(self) -> bool:
        raise ZeroDivisionError


class Silent(Time):
    """A time of a caller that compares to no answer."""

    def __eq__(self, other: object) -> bool:
        return Neither()  # type: ignore[return-value]


class Unsure(Time):
    """A time of a caller that cannot be compared."""

    def __eq__(self, other: object) -> bool:
        raise ZeroDivisionError

    __hash__ = Time.__hash__


def test_classes_below_may_compare_otherwise() -> None:
    for compare in (operator.eq, operator.ne):
        with pytest.raises(ZeroDivisionError):
            compare(Unsure(5, 0), Unsure(5, 0))
    with pytest.raises(ZeroDivisionError):
        Silent(5, 0) != Silent(5, 0)
    assert Unsure(5, 0) < Unsure(6, 0) and hash(Unsure(5, 0)) == hash(Time(5, 0))


def test_an_offset_that_is_set_too_wide_is_refused() -> None:
    time = Time(5, 60)
    object.__setattr__(time, "offset", 2**31)
    calls: List[Callable[[], object]] = [
        lambda: str(time),
        time.to_header,
        lambda: time.format(ISO8601),
        lambda: time.format_or_unix("%H"),
        lambda: write_signature("A", "a", time),
        lambda: git.show_date(time, "iso", Moment(0)),
    ]
    for call in calls:
        with pytest.raises(OverflowError, match="32 bits"):
            call()
    for wrong in (2**63, 1.5, None):
        with pytest.raises((OverflowError, TypeError)):
            object.__setattr__(time, "offset", wrong)


@pytest.mark.parametrize("protocol", range(pickle.HIGHEST_PROTOCOL + 1))
def test_times_pickle(protocol: int) -> None:
    assert pickle.loads(pickle.dumps(TIME, protocol)) == TIME


def test_any_two_numbers_of_64_and_32_bits_are_a_time() -> None:
    assert str(Time(-(2**63), -359999)) == "-9223372036854775808 -9959"
    assert Time(2**63 - 1, 2**31 - 1).offset == 2147483647
    for seconds, offset in [(2**63, 0), (-(2**63) - 1, 0), (0, 2**31), (0, -(2**31) - 1)]:
        with pytest.raises(OverflowError):
            Time(seconds, offset)
    for wrong in [(1.5, 0), (0, 1.5), ("1", 0), (0, None)]:
        with pytest.raises(TypeError):
            Time(*wrong)  # type: ignore[arg-type]


def test_its_text_is_that_of_the_header() -> None:
    assert str(TIME) == TIME.to_header() == "1660797906 +0800"
    assert str(Time(5, 360000)) == "5"
    with pytest.raises(OffsetTooWide):
        Time(5, 360000).to_header()


def test_formats_and_patterns() -> None:
    assert TIME.format(SHORT) == "2022-08-18"
    assert TIME.format("%H:%M") == TIME.format(b"%H:%M") == "12:45"
    assert TIME.format("%H" * 1000) == "12" * 1000
    assert TIME.format("é\0") == "é\0"
    assert TIME.format(RFC2822) == "Thu, 18 Aug 2022 12:45:06 +0800"
    with pytest.raises(Pattern) as caught:
        TIME.format("%")
    assert caught.value.text == "%"
    with pytest.raises(Conversion):
        Time(2**63 - 1, 0).format(ISO8601)
    assert Time(2**63 - 1, 0).format_or_unix(ISO8601) == "9223372036854775807"
    broken_patterns: List[Union[str, bytes]] = [b"\xff", "\ud800"]
    for broken in broken_patterns:
        for call in (TIME.format, TIME.format_or_unix):
            with pytest.raises(NotText):
                call(broken)


def test_the_name_of_a_form_is_no_pattern() -> None:
    names = ["iso", "iso8601", "iso-strict", "rfc2822", "short", "default", "unix", "raw", "relative", "human", "iso-local", "local"]
    for name in names:
        texts: List[Union[str, bytes]] = [name, name.encode()]
        for text in texts:
            for call in (TIME.format, TIME.format_or_unix):
                with pytest.raises(NoDirective, match="a pattern without a directive") as caught:
                    call(text)
                assert isinstance(caught.value, Pattern) and caught.value.text == text and caught.value.place is None
        with pytest.raises(NoDirective):
            format(TIME, name)
    for text in ("", "Iso", "iso ", "is", "noon", "%%", "iso%%"):
        assert TIME.format(text) == text.replace("%%", "%")


def test_isoformat_is_that_of_datetime() -> None:
    source = random.Random(7)
    times = [Time(source.randrange(-62 * 10**9, 253 * 10**9), source.choice([0, 3600, -12345, 86399, -60, 59])) for _ in range(500)]
    for time in [TIME, Time(0, 0), *times]:
        at = time.to_datetime()
        assert time.isoformat() == at.isoformat()
        for timespec in ("auto", "hours", "minutes", "seconds", "milliseconds", "microseconds"):
            for sep in ("T", " ", "%", "é", "H"):
                assert time.isoformat(sep, timespec) == at.isoformat(sep, timespec) == time.isoformat(sep=sep, timespec=timespec)
    for wrong in ("", "TT", 5, None):
        with pytest.raises(TypeError):
            TIME.isoformat(wrong)  # type: ignore[arg-type]
    for spec in ("", "nanoseconds", "second"):
        with pytest.raises(ValueError):
            TIME.isoformat("T", spec)
    with pytest.raises(Conversion):
        Time(2**62, 0).isoformat()


def test_format_strings_print_by_patterns() -> None:
    assert f"{TIME:%Y-%m-%d %H:%M}" == "2022-08-18 12:45" == format(TIME, "%Y-%m-%d %H:%M")
    assert f"{TIME}" == format(TIME, "") == str(TIME)
    with pytest.raises(Pattern):
        format(TIME, "%")


class Shifted(datetime):
    """A datetime that subtracts and replaces by rules of its own."""

    def __sub__(self, other: object) -> timedelta:  # type: ignore[override]
        return timedelta(5)

    def replace(self, *fields: object, **named: object) -> datetime:  # type: ignore[override]
        return datetime(1, 1, 1)


def test_classes_below_datetime_count_as_they_show() -> None:
    at = Shifted(1969, 12, 31, 23, 59, 59, 500000, timezone(timedelta(hours=1)))
    assert Time.from_datetime(at) == Time(-3601, 3600)


class Named(Time):
    """A time of a caller."""

    __slots__ = ()


def test_classes_below_time_stay() -> None:
    time = Named(5, 60)
    for again in (copy.copy(time), copy.deepcopy(time), pickle.loads(pickle.dumps(time)), Named.from_datetime(time.to_datetime())):
        assert type(again) is Named and again == time
    assert dataclasses.replace(TIME, offset=0) == Time(1660797906, 0)


def test_of_datetimes() -> None:
    assert Time.from_datetime(datetime(2022, 8, 18, 12, 45, 6, 999999, timezone(timedelta(hours=8)))) == TIME
    assert Time.from_datetime(datetime(1969, 12, 31, 23, 59, 59, 500000, timezone.utc)) == Time(-1, 0)
    assert Time.from_datetime(datetime(1, 1, 1, tzinfo=timezone.utc)).seconds == -62135596800
    folded = datetime(2023, 11, 5, 1, 30, tzinfo=ZoneInfo("America/New_York"))
    assert Time.from_datetime(folded) == Time(1699162200, -14400)
    assert Time.from_datetime(folded.replace(fold=1)) == Time(1699165800, -18000)
    with pytest.raises(NaiveDatetime, match="naive"):
        Time.from_datetime(datetime(2022, 8, 18))
    with pytest.raises(InvalidZone):
        Time.from_datetime(datetime(2022, 8, 18, tzinfo=timezone(timedelta(microseconds=1))))


def test_to_datetimes() -> None:
    at = TIME.to_datetime()
    assert at == datetime(2022, 8, 18, 12, 45, 6, tzinfo=timezone(timedelta(hours=8)))
    assert at.utcoffset() == timedelta(hours=8)
    first, last = Time(-62135596800 - 3600, 3600), Time(253402300799 + 3600, -3600)
    assert first.to_datetime().replace(tzinfo=None) == datetime(1, 1, 1)
    assert last.to_datetime().replace(tzinfo=None) == datetime(9999, 12, 31, 23, 59, 59)
    assert Time(0, 86399).to_datetime().utcoffset() == timedelta(seconds=86399)
    beyond = [Time(first.seconds - 1, 3600), Time(last.seconds + 1, -3600), Time(2**63 - 1, 0), Time(0, 86400), Time(0, -86400)]
    for time in beyond:
        with pytest.raises(BeyondDatetime) as caught:
            time.to_datetime()
        assert isinstance(caught.value, GixDateError)


FORMS = [Format.RFC2822, Format.GIT_RFC2822, Format.ISO8601, Format.ISO8601_STRICT, Format.GITOXIDE, Format.DEFAULT]
LAST_SECOND = 253402207200


def should_round_trip(time: Time) -> bool:
    """The same by datetime: a year of four digits, an offset of whole minutes, and no instant after the library's last."""
    try:
        return time.to_datetime().year >= 1000 and time.offset % 60 == 0 and time.seconds <= LAST_SECOND
    except BeyondDatetime:
        return False


def test_times_that_round_trip_are_read_back() -> None:
    source = random.Random(7)
    offsets = [0, 60, -60, 86340, -86340, 86341, 86399, 86400, -86400, 1, -59, 30, 93540]
    edges = [-377705023201, LAST_SECOND, 0, 2**63 - 1, -(2**63)]
    edges += [edge - offset for edge in (-30610224000, 253402300800) for offset in offsets]
    near = {min(max(edge + step, -(2**63)), 2**63 - 1) for edge in edges for step in (-1, 0, 1)}
    times = [Time(second, offset) for second in near for offset in offsets]
    times += [Time(source.randrange(-31 * 10**9, 254 * 10**9), 60 * source.randrange(-1500, 1500)) for _ in range(2000)]
    assert [time.round_trips() for time in times] == [should_round_trip(time) for time in times]
    kept = [time for time in times if time.round_trips()]
    assert len(kept) > 1000
    for time in kept:
        assert [parse(time.format(form)) for form in FORMS] == [time] * len(FORMS)
