"""Git's dates."""

from __future__ import annotations

from datetime import datetime, timezone
from typing import List, Tuple, Type, Union
from zoneinfo import ZoneInfo

import pytest

from gix_date import BeforeEpoch, GitTime, GixDateError, InvalidInstant, InvalidZone, Moment, NotText, OffsetTooWide, Time, git
from gix_date.git import Age, AgeUnit, Approximate, DateKind, DateMode, Expires, ExactDate, UnknownMode

NOW = datetime(2009, 8, 30, 19, 20, tzinfo=timezone.utc)


def test_exact_dates() -> None:
    assert git.parse_date("2008-02-14 20:30:45 EST", NOW) == ExactDate(Time(1203039045, -18000), True, None)
    assert git.parse_date("2008-02-14 20:30:45 IST", NOW) == ExactDate(Time(1203021045, 0), False, 20)
    with pytest.raises(git.Unreadable):
        git.parse_date("2008-02-14", NOW)
    with pytest.raises(git.YearRefused) as caught:
        git.parse_date("1900-02-03 10:00 2009 +0000", NOW)
    assert caught.value.place == 0
    berlin = NOW.astimezone(ZoneInfo("Europe/Berlin"))
    assert git.parse_date("2009-01-30 19:20", berlin).time == Time(1233339600, 3600)


def test_approximate_dates() -> None:
    text = "5 mins ago"
    date = git.approxidate(text, NOW)
    assert date == Approximate(Time(1249500000, 0), True, 2)
    assert text[date.ignored or 0 :] == "mins ago"
    assert git.approxidate("é 5 mins ago", NOW).ignored == 4
    assert git.approxidate("é 5 mins ago".encode(), NOW).ignored == 5
    assert not git.approxidate("friday", NOW).understood
    with pytest.raises(git.BackTooFar):
        git.approxidate("200 years ago", NOW)


def test_expiry() -> None:
    assert git.expiry_date("never", NOW) is Expires.NEVER
    assert git.expiry_date(b"all", NOW) is Expires.ALL
    assert git.expiry_date("2.weeks.ago", NOW) == Approximate(Time(1250450400, 0), True, None)
    texts: List[Union[str, bytes]] = ["é 5 mins ago", "é 5 mins ago".encode()]
    assert [git.expiry_date(text, NOW) for text in texts] == [git.approxidate(text, NOW) for text in texts]
    with pytest.raises(git.Unreadable):
        git.expiry_date("friday", NOW)


def test_any_bytes_are_read() -> None:
    mail = "Mon, 4 Mar 2019 10:00:00 +0100 (Mitteleurop\xe4ische Zeit)"
    mails: List[Union[str, bytes]] = [mail, mail.encode(), mail.encode("latin-1")]
    for text in mails:
        assert git.parse_date(text, NOW).time == Time(1551690000, 3600)
    broken = "\ud800 5 mins ago"
    both: List[Union[str, bytes]] = [broken, broken.encode("utf-8", "surrogatepass")]
    for given in both:
        date = git.approxidate(given, NOW)
        assert date.time == Time(1249500000, 0)
        assert date.ignored is not None and len(given[date.ignored :]) == len("mins ago")
    assert git.expiry_date(b"noon\xffyesterday", NOW) == git.approxidate("noon yesterday", NOW)


def test_a_nul_ends_a_text() -> None:
    text = "Thu, 14 Feb 2008 20:30:45 +0000\0 +0500"
    texts: List[Union[str, bytes]] = [text, text.encode()]
    for given in texts:
        assert git.parse_date(given, NOW) == ExactDate(Time(1203021045, 0), True, 31)
    assert git.approxidate("yesterday\0 noon", NOW) == Approximate(Time(1251573600, 0), True, 9)
    assert git.expiry_date("never\0x", NOW) is Expires.NEVER


def test_shown_dates() -> None:
    time = Time(1251300000, 7200)
    assert git.show_date(time, DateKind.ISO8601, NOW) == "2009-08-26 17:20:00 +0200"
    assert git.show_date(time, DateMode(DateKind.ISO8601, True), NOW) == "2009-08-26 15:20:00 +0000"
    assert git.show_date(time, "relative", NOW) == git.show_date(time, b"relative", NOW) == "4 days ago"
    with pytest.raises(git.Range):
        git.show_date(Time(-1, 0), DateKind.ISO8601, NOW)
    with pytest.raises(UnknownMode, match="human-local"):
        git.show_date(time, "Format:%Y", NOW)


def test_dates_of_lines_keep_their_offsets() -> None:
    time = GitTime(1251300000, 60)
    assert git.show_git_time(time, DateKind.ISO8601, NOW) == "2009-08-26 16:20:00 +0060"
    assert git.show_git_time(time, DateMode(DateKind.ISO8601, True), NOW) == "2009-08-26 15:20:00 +0000"
    assert git.show_git_time(time, "iso-strict", NOW) == git.show_git_time(time, b"iso-strict", NOW) == "2009-08-26T16:20:00+00:60"
    assert git.show_git_time(GitTime(5, 51800), "default", NOW) == "Thu Jan 22 14:00:05 1970 +51800"
    assert git.show_git_time(GitTime(5, 0, True), "raw", NOW) == "5 +0000"
    refusals: List[Tuple[GitTime, Type[GixDateError]]] = [
        (GitTime(0, -100), BeforeEpoch), (GitTime(0, 59652315), OffsetTooWide), (GitTime((1 << 63) - 1, 0), git.Range),
    ]  # fmt: skip
    for refused, error in refusals:
        with pytest.raises(error):
            git.show_git_time(refused, "iso", NOW)
    for mode in ("Format:%Y", "format:%Y"):
        with pytest.raises(UnknownMode, match="human-local"):
            git.show_git_time(time, mode, NOW)
    with pytest.raises(InvalidZone):
        git.show_git_time(time, "iso", Moment(0, 0, b""))


def test_ages() -> None:
    assert git.age_at(Time(1214160000, 3600), NOW) == Age(AgeUnit.YEARS, 1, 2)
    assert git.age_at(Time(1251659880, 0), NOW) == Age(AgeUnit.MINUTES, 2)
    assert git.age_at(Time(1251660001, 0), NOW) is None
    for time, now in [(Time(-1, 0), NOW), (Time(5, 0), Moment(-1))]:
        with pytest.raises(git.Range):
            git.age_at(time, now)


def test_offsets() -> None:
    for text, offset, decimal in [("+0000", 0, 0), ("-0130", -5400, -130), ("+0530", 19800, 530)]:
        assert git.parse_offset(text) == git.parse_offset(text.encode()) == offset == git.offset_from_decimal(decimal)
        assert git.offset_text(offset) == text and git.offset_to_decimal(offset) == decimal
    assert git.parse_offset("-03:30") == -12600 and git.parse_offset("+02") == 7200
    assert git.offset_text(-(1 << 31)) == "-59652314" and git.offset_from_decimal(-(1 << 31)) == 1 - (1 << 31)
    for text in ("", "0200", "+2600", "+0260", "Z", "+02 "):
        with pytest.raises(InvalidZone) as refused:
            git.parse_offset(text)
        assert refused.value.text == text
    for call in (git.offset_text, git.offset_from_decimal, git.offset_to_decimal):
        with pytest.raises(OverflowError):
            call(1 << 31)


def test_dates_by_formats() -> None:
    time = Time(1251300000, 7200)
    assert git.show_date(time, "format:%a %-d %B %Y, %H:%M %z", NOW) == "Wed 26 August 2009, 17:20 +0200"
    assert git.show_date(time, b"format-local:%F %R %z %Z", NOW) == "2009-08-26 15:20 +0000 UTC"
    assert git.show_date(time, "format:", NOW) == ""
    assert git.show_date(time, "format-local:local", NOW) == "local"
    assert git.show_date(time, "format:\u00e9%n%t%%", NOW) == "\u00e9\n\t%"
    assert git.show_date(time, "format:" + "%0255d" * 1000, NOW) == "26".zfill(255) * 1000
    with pytest.raises(git.Range):
        git.show_date(Time(-1, 0), "format:%Y", NOW)
    with pytest.raises(git.Range):
        git.show_date(Time(4102444800, 0), "format:%s", NOW)
    with pytest.raises(git.FlagRefused, match="no flags and no width, at index 7"):
        git.show_date(Time(-1, 0), "format:%-s", NOW)
    with pytest.raises(NotText):
        git.show_date(time, b"format:\xff", NOW)
    with pytest.raises(InvalidZone):
        git.show_date(time, "format:%Y", Moment(0, 0, b""))


def test_modes() -> None:
    assert str(DateMode.of_name("iso-strict-local")) == "iso8601-strict-local"
    assert str(DateMode.of_name(b"local")) == "default-local"
    assert [str(DateMode.of_name(str(DateMode(kind)))) for kind in DateKind] == [str(DateMode(kind)) for kind in DateKind]
    with pytest.raises(NotText):
        DateMode.of_name(b"\xff")


def test_moments_are_refused() -> None:
    for call in (git.parse_date, git.approxidate, git.expiry_date):
        with pytest.raises(InvalidInstant):
            call("yesterday", Moment(2**62))
        with pytest.raises(InvalidZone):
            call("yesterday", Moment(0, 0, b""))
        with pytest.raises(TypeError):
            call("yesterday", None)  # type: ignore[arg-type]
