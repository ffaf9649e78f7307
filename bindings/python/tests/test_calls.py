"""The calls that read: texts, moments, refusals, lines and signatures."""

from __future__ import annotations

import copy
import dataclasses
import io
import mmap
import os
import pickle
import re
import sys
import time
import zoneinfo
from array import array
from datetime import datetime, timedelta, timezone, tzinfo
from pathlib import Path
from typing import Callable, Iterator, List, Optional, Tuple, Type, Union
from zoneinfo import ZoneInfo

import pytest

import gix_date
from gix_date import (
    AfterYear9999,
    BadPart,
    BeforeEpoch,
    BeyondDatetime,
    EmptyName,
    Format,
    FsckFault,
    FsckId,
    GitTime,
    GixDateError,
    Ident,
    IdentDate,
    IdentPlaces,
    InvalidInstant,
    InvalidTime,
    InvalidZone,
    MissingNow,
    Moment,
    NaiveDatetime,
    NoDirective,
    NoIdentity,
    NoSignature,
    NotText,
    NulInPart,
    OffsetTooWide,
    OnlyCrud,
    Pattern,
    RawOffsets,
    Signature,
    Texts,
    Time,
    Unclear,
    UnknownFormat,
    WithoutOffset,
    fsck,
    parse,
    parse_carefully,
    parse_header,
    parse_ident,
    parse_lines,
    parse_lines_into,
    write_ident,
    write_ident_as_is,
    write_signature,
)
from gix_date.moments import tzif_of

Text = Union[str, bytes]
BROKEN: List[Text] = [b"\xff", "\ud800", "@5\udcff"]
NEW_YORK = ZoneInfo("America/New_York")
AFTER_SUMMER = datetime(2023, 11, 20, 12, tzinfo=NEW_YORK)


def test_texts_are_str_or_bytes() -> None:
    assert parse("@5") == parse(b"@5") == Time(5, 0)
    for other in (bytearray(b"@5"), 5, None):
        with pytest.raises(TypeError):
            parse(other)  # type: ignore[arg-type]
    for broken in BROKEN:
        with pytest.raises(NotText):
            parse(broken)


def test_refusals_have_text_and_message() -> None:
    with pytest.raises(UnknownFormat, match="^no known date format$") as caught:
        parse("banana")
    assert (caught.value.text, caught.value.place) == ("banana", None)
    assert isinstance(caught.value, ValueError)
    with pytest.raises(Unclear) as unclear:
        parse_carefully("30 min ago", AFTER_SUMMER)
    assert unclear.value.text == "30 min ago" and unclear.value.place == 3
    assert str(unclear.value).endswith(", at index 3")
    with pytest.raises(AfterYear9999, match="perhaps milliseconds") as late:
        parse_carefully("1704450600000")
    assert (late.value.text, late.value.place) == ("1704450600000", None)
    assert parse_carefully("@1704450600000").seconds == 1704450600000
    with pytest.raises(MissingNow):
        parse("2 days ago")


def test_a_place_is_an_index_into_the_text() -> None:
    now = Moment(1698400800)
    texts: List[Text] = ["2 days é ago", "2 days é ago".encode()]
    for text in texts:
        with pytest.raises(Unclear) as caught:
            parse_carefully(text, now)
        assert caught.value.text == text
    with pytest.raises(Unclear) as in_str:
        parse_carefully("2\u2003weeks ago \u2003x", now)
    with pytest.raises(Unclear) as in_bytes:
        parse_carefully("2\u2003weeks ago \u2003x".encode(), now)
    assert in_str.value.place is not None and in_bytes.value.place is not None
    assert isinstance(in_bytes.value.text, bytes) and isinstance(in_str.value.text, str)
    assert in_bytes.value.text[: in_bytes.value.place].decode() == in_str.value.text[: in_str.value.place]


def test_a_refusal_has_the_refused_text() -> None:
    git, now = gix_date.git, Moment(1698400800)
    calls: List[Tuple[Callable[[Text], object], str, Type[GixDateError], Optional[int]]] = [
        (parse, "banana", UnknownFormat, None),
        (parse_header, "1:2", InvalidTime, None),
        (Signature.from_line, "A", NoSignature, None),
        (lambda text: parse_carefully(text, now), "30 min ago", Unclear, 3),
        (lambda text: git.parse_date(text, now), "1900-02-03 10:00 2009 +0000", git.YearRefused, 0),
        (lambda text: git.parse_date(text, now), "2008-02-14", git.Unreadable, None),
        (lambda text: git.approxidate(text, now), "200 years ago", git.BackTooFar, 0),
        (lambda text: git.expiry_date(text, now), "friday", git.Unreadable, None),
        (git.DateMode.of_name, "format:%Y", git.UnknownMode, None),
        (lambda text: git.show_date(Time(0, 0), text, now), "banana", git.UnknownMode, None),
        (lambda text: git.show_date(Time(0, 0), text, now), "format", git.UnknownMode, None),
        (lambda text: git.show_date(Time(0, 0), text, now), "format:%Y \u00e9%-s", git.FlagRefused, 11),
        (lambda text: git.show_date(Time(0, 0), text, now), "format-local:%q%-s", git.UnknownDirective, 13),
        (lambda text: git.show_date(Time(0, 0), text, now), "format:%%%256d", git.WidthTooLarge, 9),
        (Time(0, 0).format, "%", Pattern, None),
    ]
    for call, text, kind, place in calls:
        both: List[Text] = [text, text.encode()]
        for given in both:
            with pytest.raises(GixDateError) as caught:
                call(given)
            error = caught.value
            at = place if place is None or isinstance(given, str) else len(text[:place].encode())
            assert (type(error), error.text, error.place) == (kind, given, at)
            assert type(error.text) is type(given)
        if kind in (git.YearRefused, git.Unreadable, git.BackTooFar):
            continue  # any bytes are read
        for broken in BROKEN:
            with pytest.raises(NotText) as not_text:
                call(broken)
            assert (not_text.value.text, not_text.value.place) == (broken, None)


def test_refusals_pickle() -> None:
    for error in (Unclear("text", 3), NaiveDatetime(), gix_date.git.UnknownMode("x"), gix_date.git.Range()):
        for again in (pickle.loads(pickle.dumps(error)), copy.copy(error)):
            assert type(again) is type(error)
            assert (again.text, again.place, str(again), repr(again)) == (error.text, error.place, str(error), repr(error))
    assert repr(Unclear("text", 3)) == "Unclear('text', 3)"


def all_refusals(below: Type[GixDateError]) -> Iterator[Type[GixDateError]]:
    for error in below.__subclasses__():
        yield error
        yield from all_refusals(error)


def test_each_refusal_has_its_own_status_and_message() -> None:
    errors = [error for error in all_refusals(GixDateError) if error.__module__ in ("gix_date.errors", "gix_date.git")]
    assert sorted(error.status for error in errors if error.status is not None) == [1, *range(4, 14), *range(15, 33)]
    assert {error for error in errors if error.status is None} == {NaiveDatetime, BeyondDatetime, NoDirective, gix_date.git.UnknownMode}
    messages = {str(error()) for error in errors}
    assert len(messages) == len(errors)
    assert not messages & {"unknown status", str(GixDateError())}


class OwnError(GixDateError):
    """A refusal of a caller."""


def test_callers_may_have_refusals_of_their_own() -> None:
    assert str(OwnError("text", 3)) == f"{GixDateError.message()}, at index 3"
    assert isinstance(OwnError(), ValueError)


def test_a_naive_moment_is_refused() -> None:
    git = gix_date.git
    calls: List[Callable[[bytes, datetime], object]] = [parse, parse_carefully, git.parse_date, git.approxidate, parse_lines]
    for call in calls:
        with pytest.raises(NaiveDatetime):
            call(b"2 days ago", datetime(2023, 10, 27))
    for other in (1698400800, (1698400800, 0, 0), datetime(2023, 10, 27).date()):
        with pytest.raises(TypeError, match="^a moment has to be an aware datetime or a Moment, not "):
            parse("2 days ago", other)  # type: ignore[arg-type]


class Odd(tzinfo):
    """A zone of no known kind, with what it answers."""

    def __init__(self, answer: Callable[[datetime], Optional[timedelta]]) -> None:
        self.answer = answer

    def utcoffset(self, at: Optional[datetime]) -> Optional[timedelta]:
        return None if at is None else self.answer(at)

    def dst(self, at: Optional[datetime]) -> timedelta:
        return timedelta(0)

    def tzname(self, at: Optional[datetime]) -> str:
        return "odd"


def test_zones_may_refuse() -> None:
    for call in (Moment.from_datetime, Time.from_datetime):
        with pytest.raises(NaiveDatetime):
            call(AFTER_SUMMER.replace(tzinfo=Odd(lambda at: None)))
        with pytest.raises(ZeroDivisionError):
            call(AFTER_SUMMER.replace(tzinfo=Odd(lambda at: timedelta(1 // 0))))
        with pytest.raises(InvalidZone):
            call(AFTER_SUMMER.replace(tzinfo=Odd(lambda at: timedelta(microseconds=-1))))


def test_a_zone_is_used_by_its_own_data() -> None:
    # a month ago at the same clock there was summer time
    assert parse("1 month ago", AFTER_SUMMER).to_datetime() == datetime(2023, 10, 20, 12, tzinfo=NEW_YORK)
    assert parse("1 month ago", AFTER_SUMMER).offset == -14400
    assert Moment.from_datetime(AFTER_SUMMER).seconds == 1700499600
    before_1970 = datetime(1969, 12, 31, 23, 59, 59, 999995, timezone.utc)
    assert Moment.from_datetime(before_1970) == (-1, 999995000, 0)
    fixed = AFTER_SUMMER.astimezone(timezone(timedelta(hours=-5)))
    assert parse("1 month ago", fixed) == Time(1697821200, -18000)
    local = parse_carefully("2023-07-01 10:00", AFTER_SUMMER, without_offset=WithoutOffset.MOMENTS_ZONE)
    assert local == Time.from_datetime(datetime(2023, 7, 1, 10, tzinfo=NEW_YORK))


def test_other_zones_have_the_offset_at_the_moment() -> None:
    odd = Odd(lambda at: timedelta(hours=-4 if at.month < 11 else -5))
    assert parse("1 month ago", AFTER_SUMMER.replace(tzinfo=odd)) == Time(1697821200, -18000)
    with (Path(zoneinfo.TZPATH[0]) / "America/New_York").open("rb") as file:
        keyless = ZoneInfo.from_file(file)
        file.seek(0)
        outside = ZoneInfo.from_file(file, key="../../etc/hostname")
    for zone in (keyless, outside):
        assert parse("1 month ago", AFTER_SUMMER.replace(tzinfo=zone)) == Time(1697821200, -18000)


def test_a_file_may_be_in_the_package_tzdata(tmp_path: Path, monkeypatch: pytest.MonkeyPatch) -> None:
    folder = tmp_path / "tzdata/zoneinfo/Nowhere"
    folder.mkdir(parents=True)
    for package in (folder, folder.parent, folder.parent.parent):
        (package / "__init__.py").touch()
    (folder / "City").write_bytes(b"bytes")
    monkeypatch.syspath_prepend(tmp_path)
    assert tzif_of("Nowhere/City", ("/nowhere",)) == b"bytes"
    assert not tzif_of("Nowhere/Else", ("/nowhere",))
    assert not tzif_of("Nothing/City", ("/nowhere",))
    for outside in ("../City", "/etc/hostname", "", ".", "Nowhere/../City", "Ci\0ty", "Nowhere/Ci\0ty"):
        assert not tzif_of(outside, (str(folder),))


def test_files_are_looked_for_as_zoneinfo_does(tmp_path: Path) -> None:
    for name in ("first", "second"):
        (tmp_path / name).mkdir()
        (tmp_path / name / "Both").write_bytes(name.encode())
    (tmp_path / "second/One").write_bytes((Path(zoneinfo.TZPATH[0]) / "Asia/Tokyo").read_bytes())
    (tmp_path / "first/One").mkdir()
    folders = (str(tmp_path / "first"), str(tmp_path / "second"))
    assert tzif_of("Both", folders) == b"first"
    zoneinfo.reset_tzpath(folders)
    try:
        assert parse("1 hour ago", datetime(2024, 1, 5, tzinfo=ZoneInfo("One"))) == Time(1704376800, 32400)
        assert Moment.from_datetime(datetime(2024, 1, 5, tzinfo=ZoneInfo("One"))).zone == (tmp_path / "second/One").read_bytes()
    finally:
        zoneinfo.reset_tzpath()


class East(int):
    """An offset of a caller."""


def test_moments_beyond_datetimes() -> None:
    assert parse("1 hour ago", Moment(0, 0, East(3600))) == Time(-3600, 3600)
    assert parse("1 hour ago", Moment(0, 0, "JST-9")) == Time(-3600, 32400)
    assert parse("yesterday", Moment(1698400800, 0, 93599)).offset == 93599
    with pytest.raises(InvalidZone):
        parse("yesterday", Moment(0, 0, 93600))
    with pytest.raises(InvalidZone):
        parse("yesterday", Moment(0, 0, b"no file"))
    first, last = -377705023201, 253402207200
    for instant in (Moment(first), Moment(first, 999999999), Moment(last, -999999999), Moment(last, 999999999)):
        assert parse("@5", instant) == Time(5, 0)
    beyond = [(first - 1, 0), (last + 1, 0), (last + 1, -1), (first, -1), (0, 10**9), (0, -(10**9))]
    for seconds, nanoseconds in beyond:
        with pytest.raises(InvalidInstant):
            parse("@5", Moment(seconds, nanoseconds))
    with pytest.raises(OverflowError):
        parse("yesterday", Moment(2**63))
    with pytest.raises(OverflowError):
        parse("yesterday", Moment(0, 0, 2**31))
    with pytest.raises(TypeError):
        parse("yesterday", Moment(0, 0, None))  # type: ignore[arg-type]


def test_options_are_those_of_the_library() -> None:
    assert parse("1 +0007", raw_offsets=RawOffsets.WHOLE_MINUTES) == Time(1, 420)
    with pytest.raises(UnknownFormat):
        parse("1 +0007")
    lines = b"1 +0007"
    assert [type(answer) for answer in parse_lines(lines)] == [UnknownFormat] == [
        type(answer) for answer in parse_lines_into((array("q"), array("i")), lines).values()
    ]
    with pytest.raises(GixDateError):
        parse_carefully("1660797906 +0007")
    assert parse_carefully("1660797906 +0007", raw_offsets=RawOffsets.WHOLE_MINUTES) == Time(1660797906, 420)
    assert parse_carefully("2024-01-05 10:00", Moment(0, 0, 3600)) == Time(1704448800, 0)
    usual = {"raw_offsets": RawOffsets.QUARTERS, "without_offset": WithoutOffset.UTC, "texts": Texts.CAREFUL}
    for text in ("1660797906 +0045", "2024-01-05 10:00"):
        for options in (usual, dict.fromkeys(usual)):
            assert parse_carefully(text, **options) == parse_carefully(text)  # type: ignore[arg-type]


def test_options_of_other_kinds_are_refused() -> None:
    git, arrays = gix_date.git, (array("q"), array("i"))
    calls: List[Callable[[], object]] = [
        lambda: parse("1 +0007", raw_offsets=Texts.ALL),  # type: ignore[arg-type]
        lambda: parse("1 +0007", raw_offsets=1),  # type: ignore[arg-type]
        lambda: parse_carefully("1 +0007", raw_offsets=Format.RFC2822),  # type: ignore[arg-type]
        lambda: parse_carefully("@5", without_offset=RawOffsets.QUARTERS),  # type: ignore[arg-type]
        lambda: parse_carefully("@5", texts=True),  # type: ignore[arg-type]
        lambda: parse_lines(b"@5", raw_offsets=Texts.ALL),  # type: ignore[arg-type]
        lambda: parse_lines_into(arrays, b"@5", raw_offsets=Texts.ALL),  # type: ignore[arg-type]
        lambda: Time(5, 0).format(git.DateKind.ISO8601),  # type: ignore[arg-type]
        lambda: Time(5, 0).format_or_unix(3),  # type: ignore[arg-type]
        lambda: git.DateMode(Format.ISO8601),  # type: ignore[arg-type]
        lambda: git.show_date(Time(5, 0), Format.ISO8601, Moment(0)),  # type: ignore[arg-type]
    ]
    for call in calls:
        with pytest.raises(TypeError, match="has to be a (RawOffsets|WithoutOffset|Texts|Format|DateKind), not "):
            call()


def test_now_is_the_clock_of_the_machine(monkeypatch: pytest.MonkeyPatch) -> None:
    monkeypatch.setattr(time, "time_ns", lambda: 1698400800_987654321)
    assert gix_date.now()[:2] == (1698400800, 987654321)
    monkeypatch.setattr(time, "time_ns", lambda: -1)
    assert gix_date.now()[:2] == (-1, 999999999)


def test_now_is_in_the_zone_of_tz(monkeypatch: pytest.MonkeyPatch) -> None:
    monkeypatch.setenv("TZDIR", "/nowhere")
    for name, zone in [("JST-9", "JST-9"), (":utc", "utc"), ("", 0), (":", 0)]:
        monkeypatch.setenv("TZ", name)
        now = gix_date.now()
        assert now.zone == zone
        assert abs(Time.from_datetime(datetime.now(timezone.utc)).seconds - now.seconds) < 60
    for name in ("Mars", ":/nowhere", "\udcff", "a" * 256, "/" + "a" * 256, "a/" * 3000):
        monkeypatch.setenv("TZ", name)
        with pytest.raises(InvalidZone) as caught:
            gix_date.now()
        assert caught.value.text == os.fsencode(name)
    monkeypatch.delenv("TZ")
    local = Path("/etc/localtime")
    assert gix_date.now().zone == (local.read_bytes() if local.is_file() else 0)


def test_headers() -> None:
    assert parse_header(b"12abc") == Time(12, 0)
    assert gix_date.is_canonical_header("1660797906 +0800")
    assert not gix_date.is_canonical_header(b"\xff")
    with pytest.raises(InvalidTime):
        parse_header("1:2")


def test_signatures() -> None:
    line = "A U Thor <author@example.com> 1660797906 +0800"
    parts = Signature.from_line(line)
    assert (parts.name, parts.email, parts.time) == ("A U Thor", "author@example.com", "1660797906 +0800")
    assert Signature.from_line(line.encode()) == parts
    assert str(parts) == write_signature(parts.name, parts.email, parts.read_time()) == line
    with pytest.raises(InvalidTime):
        Signature("A", "a", "\x1c5 +0000").read_time()  # which Rust holds for no white space, and Python does
    with pytest.raises(NoSignature):
        Signature.from_line("A U Thor")
    with pytest.raises(NotText):
        Signature.from_line(b"Ren\xe9 <rene@example.com> 1660797906 +0800")
    for name, email, wide, kind in [("A\n", "a", 0, BadPart), (b"\xff", "a", 0, NotText), ("A", "a", 360000, OffsetTooWide)]:
        with pytest.raises(kind) as caught:
            write_signature(name, email, Time(0, wide))  # type: ignore[arg-type]
        assert caught.value.text is None
    long = "é" * 1000
    assert write_signature(long, "a", Time(0, 0)) == f"{long} <a> 0 +0000"


def test_identities() -> None:
    line = b"  J\xf6rg\t <j@e> <b>\t05+0530 x\nA <a> 5 +0000"
    date, places = IdentDate(b"05", b"+0530", GitTime(5, 530)), IdentPlaces(9, 13, 18, 20, 27)
    assert parse_ident(line) == Ident(b"  J\xf6rg", b"j@e", b" <b>\t05+0530 x", date, False, places)
    assert GitTime(5, 530).to_time() == Time(5, 19800)
    text = "J\u00f6rg <\udcff> 5"
    undated = text.encode(errors="surrogatepass")
    due = Ident(undated[:5], undated[7:10], b" 5", None, False, IdentPlaces(6, 8, 9, 10, 10))
    assert parse_ident(text) == due
    assert parse_ident(undated) == dataclasses.replace(due, places=IdentPlaces(7, 11, 12, 13, 13))
    wide = parse_ident(b"A <a> 9223372036854775808 -0130").date
    assert wide == IdentDate(b"9223372036854775808", b"-0130", GitTime(0, 0))
    with pytest.raises(NoIdentity, match="^no identity: expected ") as refused:
        parse_ident("A a> 5 +0000")
    assert refused.value.text == "A a> 5 +0000"
    with pytest.raises(OffsetTooWide):
        GitTime(5, -59652315).to_time()
    for seconds, offset in ((1 << 63, 0), (0, 1 << 31)):
        with pytest.raises(OverflowError):
            GitTime(seconds, offset).to_time()


def test_times_of_lines_have_texts() -> None:
    times = [GitTime(5, 530), GitTime(5, -60), GitTime(0, 0), GitTime(0, 0, True), GitTime(5, 60, True), GitTime(5, 51800)]
    assert [str(time) for time in times] == ["5 +0530", "5 -0060", "0 +0000", "0 -0000", "5 +0060", "5 +51800"]
    assert str(GitTime(-(1 << 63), -(1 << 31))) == "-9223372036854775808 -2147483648"
    for seconds, offset in ((1 << 63, 0), (0, 1 << 31)):
        with pytest.raises(OverflowError):
            str(GitTime(seconds, offset))


def test_lines_come_back() -> None:
    lines = [b"J\xf6rg <j@e> 5 -0000", b" <> 0 +0060", b"J\xf6rg <j@e> 5 +51800\n<"]
    others = [b"A  <a@b> 5 +0000", b"A <a@b> 05 +0000", b"A <a@b> 5 +0000 ", b"A <a@b> 5 --700", b"A <a@b> 5"]
    for line in lines + others:
        ident = parse_ident(line)
        assert ident.comes_back is (line in lines)
        again = ident.date and write_ident_as_is(ident.name, ident.email, ident.date.shown)
        assert (again == line[: ident.places.end]) is ident.comes_back


def test_parts_are_written_as_they_are() -> None:
    assert write_ident_as_is(b". J\xf6rg ", "\u00e9", GitTime(0, 0, True)) == b". J\xf6rg  <\xc3\xa9> 0 -0000"
    assert write_ident_as_is("A" * 1000, "", GitTime(-5, 51800)) == b"A" * 1000 + b" <> -5 +51800"
    cases: List[Tuple[Text, Text]] = [("A<", "a"), (b"A", b"a>"), ("A\n", b"a"), (b"A", "\0")]
    for name, email in cases:
        with pytest.raises(BadPart) as refused:
            write_ident_as_is(name, email, GitTime(5, 60))
        assert refused.value.text is None


def test_messages_of_fsck() -> None:
    header = (Path(__file__).parents[3] / "include/gix_date.h").read_text()
    numbered = re.findall(r"GIX_DATE_FSCK_([A-Z_]+) = ([0-9]+)", header)
    assert numbered == [("PASSES", "0")] + [(id.name, str(number)) for number, id in enumerate(FsckId, 1)]
    assert all(f'return "{id.value}";' in header for id in FsckId)
    assert fsck("\u00e9 <\u00e9> +5 +0060\n<") is None
    assert fsck("\u00e9 <\u00e9> 05 +0000") == FsckFault(FsckId.ZERO_PADDED_DATE, 6)
    assert fsck("\u00e9 <\u00e9> 05 +0000".encode()) == FsckFault(FsckId.ZERO_PADDED_DATE, 8)
    assert fsck(b"A <a> \n5 +0000") == FsckFault(FsckId.BAD_DATE, 6)


def test_identities_are_cleaned() -> None:
    assert write_ident(b". J\xf6rg\n", "<j>@e", Time(5, 3600)) == b"J\xf6rg <j@e> 5 +0100"
    assert write_ident("A" * 1000, "...", Time(5, 3600)) == b"A" * 1000 + b" <> 5 +0100"
    before, wide = Time(-1, 360000), Time(0, 360000)
    cases: List[Tuple[Text, Text, Time, Type[GixDateError]]] = [
        ("", "\0", before, NulInPart),
        (b"", b"a", before, EmptyName),
        (" .", b"a", before, OnlyCrud),
        ("A", "a", before, BeforeEpoch),
        ("A", "a", wide, OffsetTooWide),
    ]
    for name, email, time, kind in cases:
        with pytest.raises(kind) as refused:
            write_ident(name, email, time)
        assert refused.value.text is None


def test_answers_are_values() -> None:
    git, time = gix_date.git, Time(5, 0)
    ident = parse_ident("A <a> 5 +0000")
    values = [
        Signature("A", "a", "5"), GitTime(5, 0, True), ident, ident.places, FsckFault(FsckId.BAD_DATE, 5),
        git.ExactDate(time, True, None), git.Approximate(time, True, 3), git.DateMode(),
    ]  # fmt: skip
    for value in values:
        (first, *_) = dataclasses.fields(value)
        with pytest.raises(dataclasses.FrozenInstanceError):
            setattr(value, first.name, None)
        for again in (copy.deepcopy(value), pickle.loads(pickle.dumps(value))):
            assert again == value and hash(again) == hash(value) and repr(again) == repr(value)


LINES = b"@5\nbanana\n1 +0100\n\n2 hours ago"


def test_lines_are_times_or_refusals() -> None:
    now = Moment(1698400800, 0, 3600)
    answers = list(parse_lines(LINES, now))
    assert [answers[0], answers[2], answers[4]] == [Time(5, 0), Time(1, 3600), Time(1698393600, 3600)]
    assert isinstance(answers[1], UnknownFormat) and answers[1].text == b"banana"
    assert isinstance(answers[3], GixDateError) and answers[3].text == b""
    refused = list(parse_lines(LINES))[4]
    assert isinstance(refused, MissingNow)
    texts = [b"a\rb", b"c\x0cd\x1ce\xe2\x80\xa8", b"f\r", b"\0"]
    assert [getattr(answer, "text") for answer in parse_lines(b"\n".join(texts))] == texts
    assert list(parse_lines(b"")) == []
    with pytest.raises(InvalidInstant):
        parse_lines(b"@5", Moment(2**62))


def test_lines_fill_arrays() -> None:
    seconds, offsets = array("q", [7]), array("i", [7])
    refused = parse_lines_into((seconds, offsets), LINES)
    assert list(seconds) == [7, 5, 0, 1, 0, 0]
    assert list(offsets) == [7, 0, 0, 3600, 0, 0]
    assert {at: type(error).__name__ for at, error in refused.items()} == {2: "UnknownFormat", 4: "UnknownFormat", 5: "MissingNow"}
    for file in (io.BytesIO(LINES), Dripping(LINES)):
        some = array("q", [7]), array("i", [7])
        again = parse_lines_into(some, file)  # type: ignore[arg-type]
        assert some == (seconds, offsets)
        assert {at: (type(error), error.text) for at, error in again.items()} == {
            at: (type(error), error.text) for at, error in refused.items()
        }
    for wrong in [(array("q"), array("q")), (array("i"), array("i")), (array("Q"), array("i")), (array("d"), array("i")), (array("q"), 5)]:
        with pytest.raises(TypeError):
            parse_lines_into(wrong, LINES)
    with pytest.raises(ValueError):
        parse_lines_into((array("q", [1]), array("i")), LINES)


def test_arrays_in_use_stay_of_one_length() -> None:
    for used in (0, 1):
        filled = array("q", [7]), array("i", [7])
        with memoryview(filled[used]), pytest.raises(BufferError):
            parse_lines_into(filled, LINES)
        assert filled == (array("q", [7]), array("i", [7]))


def test_the_moment_and_the_rule_are_those_of_all_lines() -> None:
    filled = array("q"), array("i")
    lines, minutes = b"1 +0007\n2 hours ago\n", RawOffsets.WHOLE_MINUTES
    now = datetime(2023, 10, 27, 11, tzinfo=timezone(timedelta(hours=1)))
    assert parse_lines_into(filled, lines, now, raw_offsets=minutes) == {}
    assert list(zip(*filled)) == [(1, 420), (1698393600, 3600)]
    assert list(parse_lines(lines, now, raw_offsets=minutes)) == [Time(1, 420), Time(1698393600, 3600)]
    refusals = [(NaiveDatetime, datetime(2023, 10, 27)), (InvalidInstant, Moment(2**62)), (InvalidZone, Moment(0, 0, "Mars"))]
    for refusal, wrong in refusals:
        for source in (b"@5", b"", io.BytesIO(b"@5")):
            with pytest.raises(refusal):
                parse_lines(source, wrong)  # type: ignore[arg-type]
            with pytest.raises(refusal):
                parse_lines_into(filled, source, wrong)  # type: ignore[arg-type]
    assert len(filled[0]) == len(filled[1]) == 2


class Slow(io.RawIOBase):
    """A file that has no bytes yet."""

    def read(self, size: int = -1) -> None:
        return None


def test_a_source_is_bytes_or_gives_bytes(tmp_path: Path) -> None:
    path = tmp_path / "lines"
    path.write_bytes(LINES)
    with path.open() as text:
        for wrong in ("@5", bytearray(b"@5"), memoryview(b"@5"), [b"@5"], path, None, 5, text, io.StringIO("@5")):
            with pytest.raises(TypeError, match="^the source has to be bytes"):
                parse_lines(wrong)  # type: ignore[arg-type]
            with pytest.raises(TypeError, match="^the source has to be bytes"):
                parse_lines_into((array("q"), array("i")), wrong)  # type: ignore[arg-type]
    with pytest.raises(TypeError, match="^the source has to be bytes"):
        list(parse_lines(Slow()))  # type: ignore[arg-type]
    with path.open("rb") as file, mmap.mmap(file.fileno(), 0, access=mmap.ACCESS_READ) as mapped:
        assert len(list(parse_lines(file))) == len(list(parse_lines(mapped))) == 5  # type: ignore[arg-type]
        assert not file.closed


class Dripping(io.RawIOBase):
    """A file that gives a few bytes at a time, and has to be asked for a megabyte."""

    def __init__(self, data: bytes) -> None:
        self.rest = data

    def read(self, size: int = -1) -> bytes:
        assert size == 1 << 20
        piece, self.rest = self.rest[:3], self.rest[3:]
        return piece


class Breaking(io.RawIOBase):
    """A file that breaks after two lines."""

    def __init__(self) -> None:
        self.left = [b"@1\n@2\n@"]

    def read(self, size: int = -1) -> bytes:
        if not self.left:
            raise OSError("broken")
        return self.left.pop()


def test_a_file_may_break_and_lines_be_left() -> None:
    lines = parse_lines(Breaking())  # type: ignore[arg-type]
    assert [next(lines), next(lines)] == [Time(1, 0), Time(2, 0)]
    with pytest.raises(OSError, match="broken"):
        next(lines)
    filled = array("q"), array("i")
    with pytest.raises(OSError, match="broken"):
        parse_lines_into(filled, Breaking())  # type: ignore[arg-type]
    assert filled == (array("q", [1, 2]), array("i", [0, 0]))
    file = io.BytesIO(LINES)
    left = parse_lines(file)
    assert next(left) == Time(5, 0)
    left.close()  # type: ignore[attr-defined]
    assert not file.closed and list(left) == []


@pytest.mark.parametrize("data", [LINES, LINES + b"\n", b"", b"\n", b"@1\n@2", b"@1" * 9])
def test_files_have_the_lines_of_their_bytes(data: bytes) -> None:
    whole = [str(answer) for answer in parse_lines(data)]
    assert [str(answer) for answer in parse_lines(io.BytesIO(data))] == whole
    assert [str(answer) for answer in parse_lines(Dripping(data))] == whole  # type: ignore[arg-type]
    assert len(whole) == len(data.split(b"\n")) - (not data or data.endswith(b"\n"))


def test_versions() -> None:
    headers = (Path(__file__).parents[3] / "include/gix_date.h").read_text()
    assert f'#define GIX_DATE_VERSION "{gix_date.__version__}"\n' in headers
    assert f'#define GIX_DATE_PORTED_VERSION "{gix_date.PORTED_VERSION}"\n' in headers


def test_nothing_is_exported_but_what_is_there() -> None:
    for module in (gix_date, gix_date.git):
        assert all(hasattr(module, name) and getattr(module, name).__doc__ for name in module.__all__)
    assert "dateutil" not in sys.modules
