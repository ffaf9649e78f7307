"""How calls take arguments, and what the extension needs of the package."""

from __future__ import annotations

import gc
import importlib.machinery
import importlib.util
import inspect
import subprocess
import sys
from datetime import datetime, timedelta, timezone
from types import ModuleType
from typing import Any, Callable, Dict, List, Tuple

import pytest

import gix_date
from gix_date import Format, GitTime, InvalidZone, Moment, RawOffsets, Signature, Texts, Time, WithoutOffset, _library, git
from gix_date import is_canonical_header, parse, parse_carefully, parse_header, parse_lines
from gix_date import write_ident, write_ident_as_is, write_signature

NOW, TIME = Moment(1698400800, 0, 3600), Time(5, 0)
MINUTES, ZONE, ALL = RawOffsets.WHOLE_MINUTES, WithoutOffset.MOMENTS_ZONE, Texts.ALL
IDENTS = ("outputs", "begin", "so_far", "front", "data", "first", "end")
CALLS: List[Tuple[Callable[..., object], Tuple[str, ...], Tuple[object, ...], int]] = [
    (parse_header, ("text",), ("5 +0100",), 1),
    (is_canonical_header, ("text",), ("5 +0100",), 1),
    (parse, ("text", "now", "raw_offsets"), ("1 +0007", NOW, MINUTES), 2),
    (parse_carefully, ("text", "now", "raw_offsets", "without_offset", "texts"), ("2 days ago", NOW, MINUTES, ZONE, ALL), 2),
    (write_signature, ("name", "email", "time"), ("A", "a", TIME), 3),
    (write_ident, ("name", "email", "time"), ("A", "a", TIME), 3),
    (write_ident_as_is, ("name", "email", "time"), ("A", "a", GitTime(5, 60)), 3),
    (git.parse_date, ("text", "now"), ("2008-02-14 20:30", NOW), 2),
    (git.approxidate, ("text", "now"), ("noon", NOW), 2),
    (git.expiry_date, ("text", "now"), ("noon", NOW), 2),
    (git.show_date, ("time", "mode", "now"), (TIME, "raw", NOW), 3),
    (git.show_git_time, ("time", "mode", "now"), (GitTime(5, 60), "raw", NOW), 3),
    (_library.age_of, ("time", "now"), (TIME, NOW), 2),
    (git.parse_offset, ("text",), ("-03:30",), 1),
    (git.offset_text, ("offset",), (-12600,), 1),
    (git.offset_from_decimal, ("decimal",), (-330,), 1),
    (git.offset_to_decimal, ("offset",), (-12600,), 1),
    (TIME.format, ("format",), (Format.RAW,), 1),
    (TIME.format_or_unix, ("format",), (Format.RAW,), 1),
    (TIME.to_header, (), (), 0),
    (_library.cut_signature, ("line",), ("A <a> 5",), 1),
    (_library.cut_ident, ("line",), ("A <a> 5 +0100",), 1),
    (_library.ident_time, ("seconds", "offset"), (5, 60), 2),
    (_library.git_time_text, ("time",), (GitTime(5, 60),), 1),
    (_library.fsck_number, ("line",), ("A <a> 05 +0100",), 1),
    (_library.parts_of, ("at",), (datetime(2023, 10, 27, tzinfo=timezone.utc),), 1),
    (_library.mode_named, ("name",), ("iso",), 1),
    (_library.times_of_lines, ("reader", "data", "begin", "end", "now", "raw_offsets"), (0, b"@5", 0, 2, NOW, MINUTES), 6),
    (_library.add_idents, IDENTS, ((None,) * 10, 0, gix_date.Refused(), 0, b"", 0, 0), 7),
]
needed = {parse: 1, parse_carefully: 1}


@pytest.mark.parametrize("call, names, values, by_position", CALLS)
def test_arguments_may_be_named(
    call: Callable[..., object], names: Tuple[str, ...], values: Tuple[object, ...], by_position: int
) -> None:
    due = call(*values[:by_position], **dict(zip(names[by_position:], values[by_position:])))
    for first in range(by_position + 1):
        named = list(zip(names[first:], values[first:]))
        assert call(*values[:first], **dict(named)) == call(*values[:first], **dict(reversed(named))) == due
    for missing in range(needed.get(call, by_position)):
        with pytest.raises(TypeError, match=f"missing a required argument: '{names[missing]}'"):
            call(**{name: value for name, value in zip(names, values) if name != names[missing]})
    with pytest.raises(TypeError, match=f"takes at most {by_position} positional arguments but {by_position + 1} were given"):
        call(*values[:by_position], None)
    with pytest.raises(TypeError, match="got an unexpected keyword argument 'nam\u00e9'"):
        call(*values[:by_position], **{"nam\u00e9": None})
    if names and by_position:
        with pytest.raises(TypeError, match=f"got multiple values for argument '{names[0]}'"):
            call(*values[:by_position], **{names[0]: values[0]})
    signature = inspect.signature(call)
    assert tuple(signature.parameters) == names
    assert signature.bind(*values[:by_position], **dict(zip(names[by_position:], values[by_position:])))


def test_options_change_what_is_read() -> None:
    assert parse("1 +0007", raw_offsets=MINUTES) == Time(1, 420)
    assert parse_carefully("2024-01-05 10:00", NOW, without_offset=ZONE).offset == 3600
    assert parse_carefully("2 days é ago", NOW, texts=ALL) == parse("2 days é ago", NOW)
    with pytest.raises(gix_date.Unclear):
        parse_carefully("2 days é ago", NOW)


class Index:
    """A number of a caller, as those of numpy."""

    def __init__(self, value: int) -> None:
        self.value = value

    def __index__(self) -> int:
        return self.value


class Fields(datetime):
    """A datetime of a caller, whose named field is no number."""

    broken = ""

    def __getattribute__(self, name: str) -> Any:
        return None if name == type(self).broken else super().__getattribute__(name)


def test_the_fields_of_a_datetime_have_to_be_numbers() -> None:
    at = Fields(1969, 12, 31, 23, 59, 58, 999999, timezone(timedelta(hours=-1, seconds=1)))
    assert _library.parts_of(at) == (3597, 999999, -3599)
    for name in ("hour", "minute", "second", "microsecond", "utcoffset", "toordinal"):
        Fields.broken = name
        with pytest.raises(TypeError):
            _library.parts_of(at)
    Fields.broken = ""
    for other in (5, None, "2023-10-27"):
        with pytest.raises(AttributeError):
            _library.parts_of(other)  # type: ignore[arg-type]


class Broken:
    """What gives no number."""

    def __index__(self) -> int:
        raise ZeroDivisionError


def test_numbers_are_taken_by_their_index() -> None:
    assert Time(Index(1660797906), Index(28800)) == Time(1660797906, 28800)  # type: ignore[arg-type]
    assert type(Time(Index(5), True).seconds) is type(Time(Index(5), True).offset) is int  # type: ignore[arg-type]
    assert parse("1 hour ago", Moment(Index(7200), Index(0), Index(3600))) == Time(3600, 3600)  # type: ignore[arg-type]
    for wrong in (Broken(), 1.5, "1", None):
        calls: List[Callable[[], object]] = [
            lambda: Time(wrong, 0),  # type: ignore[arg-type]
            lambda: Time(0, wrong),  # type: ignore[arg-type]
            lambda: parse("@5", Moment(wrong)),  # type: ignore[arg-type]
            lambda: parse("@5", Moment(0, wrong)),  # type: ignore[arg-type]
        ]
        for call in calls:
            with pytest.raises(ZeroDivisionError if isinstance(wrong, Broken) else TypeError):
                call()
    with pytest.raises(ZeroDivisionError):
        parse("@5", Moment(0, 0, Broken()))  # type: ignore[arg-type]
    for large in (2**63, -(2**63) - 1):
        with pytest.raises(OverflowError):
            parse("@5", Moment(large))
    for large in (2**31, -(2**31) - 1):
        with pytest.raises(OverflowError):
            parse("@5", Moment(0, large))
        with pytest.raises(OverflowError):
            parse("@5", Moment(0, 0, large))


def test_numbers_of_numpy_are_taken() -> None:
    numpy = pytest.importorskip("numpy")
    for kind in (numpy.int64, numpy.int32, numpy.uint64):
        assert Time(kind(5), kind(60)) == Time(5, 60)
        assert parse("1 second ago", Moment(kind(5), kind(0), kind(60))) == Time(4, 60)
    with pytest.raises(OverflowError):
        Time(numpy.uint64(2**63), 0)
    with pytest.raises(TypeError):
        Time(numpy.float64(5), 0)


class Neither:
    """What is neither true nor false."""

    def __bool__(self) -> bool:
        raise ZeroDivisionError


class Bare(git.DateMode):
    """A mode of a caller without its fields."""

    def __getattribute__(self, name: str) -> Any:
        raise TypeError


def test_times_and_modes_are_those_of_the_package() -> None:
    others: List[Any] = [(5, 0), 5, None, "5 +0000", NOW]
    for other in [*others, TIME]:
        with pytest.raises(TypeError, match="^the time of a line has to be a GitTime, not "):
            git.show_git_time(other, "raw", NOW)
        with pytest.raises(TypeError, match="^the time of a line has to be a GitTime, not "):
            write_ident_as_is("A", "a", other)
        with pytest.raises(TypeError, match="^the time of a line has to be a GitTime, not "):
            _library.git_time_text(other)
    for other in [*others, GitTime(5, 60)]:
        with pytest.raises(TypeError, match="^a time has to be a Time, not "):
            git.show_date(other, "raw", NOW)
        with pytest.raises(TypeError, match="^a time has to be a Time, not "):
            write_signature("A", "a", other)
        with pytest.raises(TypeError, match="^a time has to be a Time, not "):
            write_ident("A", "a", other)
    for wrong in (5, None, TIME, Format.RAW):
        with pytest.raises(TypeError, match="^the option has to be a DateKind, not "):
            git.show_date(TIME, wrong, NOW)  # type: ignore[arg-type]
        with pytest.raises(TypeError, match="^the option has to be a DateKind, not "):
            git.show_git_time(GitTime(5, 60), wrong, NOW)  # type: ignore[arg-type]
        with pytest.raises(TypeError, match="^the option has to be a Format, not " if wrong is not Format.RAW else None):
            TIME.format(wrong if wrong is not Format.RAW else git.DateKind.RAW)  # type: ignore[arg-type]
    broken = git.DateMode()
    object.__setattr__(broken, "kind", Format.RAW)
    with pytest.raises(TypeError, match="^the option has to be a DateKind, not "):
        git.show_date(TIME, broken, NOW)
    object.__setattr__(broken, "kind", git.DateKind.RAW)
    object.__setattr__(broken, "local", Neither())
    with pytest.raises(ZeroDivisionError):
        git.show_date(TIME, broken, NOW)
    with pytest.raises(TypeError):
        git.show_date(TIME, Bare(), NOW)
    for time in (GitTime(1 << 63, 60), GitTime(5, 1 << 31)):
        with pytest.raises(OverflowError):
            git.show_git_time(time, "raw", NOW)
    with pytest.raises(TypeError):
        git.show_git_time(GitTime("5", 60), "raw", NOW)  # type: ignore[arg-type]
    with pytest.raises(ZeroDivisionError):
        git.show_git_time(GitTime(5, 0, Neither()), "raw", NOW)  # type: ignore[arg-type]
    for text in (bytearray(b"A"), 5, None):
        calls: List[Callable[[], object]] = [
            lambda: write_signature(text, "a", TIME),  # type: ignore[arg-type]
            lambda: write_signature("A", text, TIME),  # type: ignore[arg-type]
            lambda: Signature.from_line(text),  # type: ignore[arg-type]
            lambda: gix_date.parse_ident(text),  # type: ignore[arg-type]
            lambda: gix_date.fsck(text),  # type: ignore[arg-type]
            lambda: write_ident(text, "a", TIME),  # type: ignore[arg-type]
            lambda: write_ident("A", text, TIME),  # type: ignore[arg-type]
            lambda: write_ident_as_is(text, "a", GitTime(5, 60)),  # type: ignore[arg-type]
            lambda: write_ident_as_is("A", text, GitTime(5, 60)),  # type: ignore[arg-type]
        ]
        for call in calls:
            with pytest.raises(TypeError, match="^a text has to be a str or bytes"):
                call()


def alone() -> ModuleType:
    """The extension once more, which no package has connected."""
    loader = importlib.machinery.ExtensionFileLoader("gix_date._library", _library.__file__ or "")
    spec = importlib.util.spec_from_loader("gix_date._library", loader)
    assert spec
    module = importlib.util.module_from_spec(spec)
    loader.exec_module(module)
    return module


CONNECTED: Dict[str, object] = {
    "moment": Moment, "read_date": git.ExactDate, "approximate": git.Approximate, "date_mode": git.DateMode,
    "git_time": GitTime, "expires": tuple(git.Expires), "raw_offsets": tuple(RawOffsets), "without_offset": tuple(WithoutOffset), "texts": tuple(Texts),
    "formats": tuple(Format), "kinds": tuple(git.DateKind), "refusals": git.ALL_REFUSALS, "no_directive": gix_date.NoDirective,
    "naive": gix_date.NaiveDatetime,
    "parts_in_zone": gix_date.moments.parts_in_zone, "read_zone": gix_date.moments.read_zone, "named_zone": gix_date.moments.named_zone,
}  # fmt: skip


def test_an_extension_alone_calls_nothing() -> None:
    module = alone()
    assert module is not _library and module.Time is not _library.Time
    base = module.Time(5, 60)
    calls: List[Callable[[], object]] = [
        lambda: module.parse_header("5"),
        lambda: module.parse("@5"),
        lambda: module.parse_carefully("@5"),
        lambda: module.cut_signature("A <a> 5"),
        lambda: module.cut_ident("A <a> 5"),
        lambda: module.ident_time(5, 60),
        lambda: module.git_time_text(GitTime(5, 60)),
        lambda: module.write_ident("A", "a", base),
        lambda: module.write_ident_as_is("A", "a", GitTime(5, 60)),
        lambda: module.parts_of(datetime(2023, 10, 27)),
        lambda: module.write_signature("A", "a", base),
        lambda: module.parse_date("noon", NOW),
        lambda: module.approxidate("noon", NOW),
        lambda: module.expiry_date("noon", NOW),
        lambda: module.mode_named("iso"),
        lambda: module.show_date(base, "iso", NOW),
        lambda: module.show_git_time(GitTime(5, 60), "iso", NOW),
        lambda: module.times_of_lines(0, b"@5", 0, 2, None, None),
        lambda: module.add_lines(([], []), 0, gix_date.Refused(), 0, b"@5", 0, 2, None, None),
        lambda: module.add_idents((None,) * 10, 0, gix_date.Refused(), 0, b"A", 0, 1),
        lambda: module.zone_path(b"", b""),
        lambda: base.format(Format.RAW),
        lambda: base.to_header(),
        lambda: base.format_or_unix("%H"),
    ]
    for call in calls:
        with pytest.raises(RuntimeError, match="has not connected"):
            call()
    assert str(base) == "5 +0001" and repr(base) == "Time(seconds=5, offset=60)" and base == module.Time(5, 60)
    assert module.fsck_number("A <a> 5 +0000") == (0, None)
    assert module.is_canonical_header("5 +0000") and module.Zone("JST-9").status == 0 and module.status_text(0) == "done"


def test_what_is_connected_has_to_fit() -> None:
    module, right = alone(), CONNECTED
    wrong = [("moment", list), ("moment", 5), ("read_date", 5), ("approximate", 5), ("date_mode", 5)]
    wrong += [(name, value) for name in ("expires", "raw_offsets", "without_offset", "texts", "formats", "kinds") for value in ((), [1])]
    for name, value in wrong:
        with pytest.raises(TypeError, match="connects what is of other types"):
            module.connect(**{**right, name: value})
        with pytest.raises(RuntimeError):
            module.parse("@5")
    for name in right:
        with pytest.raises(TypeError, match=f"missing a required argument: '{name}'"):
            module.connect(**{key: value for key, value in right.items() if key != name})
    for _ in range(3):
        module.connect(**right)
        assert type(module.parse("@5")) is module.Time and module.parse("@5").seconds == 5
    module.connect(**{**right, "read_zone": lambda zone: 5, "parts_in_zone": lambda at: [0, 0, 0], "refusals": {}})
    with pytest.raises(TypeError, match="the package makes another type"):
        module.parse("@5", Moment(0, 0, "JST-9"))
    with pytest.raises(TypeError, match="the package makes another type"):
        module.parse("@5", 5)
    with pytest.raises(KeyError):
        module.parse("banana")
    module.connect(**{**right, "read_zone": _library.Zone, "parts_in_zone": lambda at: (0, 0)})
    for now in (5, Moment(0, 0, "JST-9")):
        with pytest.raises(TypeError):
            module.parse("@5", now)


def test_modules_go_when_none_has_them() -> None:
    def load() -> None:
        module = alone()
        module.connect(**CONNECTED)
        module.connect(**CONNECTED)
        assert module.parse("@5").seconds == 5

    for _ in range(5):
        load()
    gc.collect()
    before = [sys.getrefcount(each) for each in CONNECTED.values()]
    blocks = sys.getallocatedblocks()
    for _ in range(50):
        load()
    gc.collect()
    assert [sys.getrefcount(each) for each in CONNECTED.values()] == before
    assert sys.getallocatedblocks() - blocks < 1000


IN_ANOTHER = """
import _xxsubinterpreters as interpreters
import gix_date
code = '''
import gix_date
from gix_date import Moment, Time, git, parse
assert parse("2 days ago", Moment(1698400800, 0, "EST5EDT,M3.2.0,M11.1.0")) == Time(1698228000, -14400)
assert git.approxidate("noon", Moment(1698400800)).understood
try:
    parse("banana")
except gix_date.UnknownFormat as error:
    assert error.text == "banana"
'''
for _ in range(3):
    one, other = interpreters.create(), interpreters.create()
    interpreters.run_string(one, code)
    interpreters.run_string(other, code)
    interpreters.destroy(one)
    interpreters.run_string(other, code)
    exec(code)
    interpreters.destroy(other)
    exec(code)
print("alike")
"""


def test_each_interpreter_has_its_own() -> None:
    pytest.importorskip("_xxsubinterpreters")
    run = subprocess.run([sys.executable, "-c", IN_ANOTHER], capture_output=True, text=True)
    assert (run.returncode, run.stdout, run.stderr) == (0, "alike\n", "")


def test_a_moment_finds_its_zone_by_name() -> None:
    texts = [("EST5EDT,M3.2.0,M11.1.0", -14400), ("CET-1CEST", 7200), ("utc", 0), ("GMT", 0)]
    for zone, offset in [("Europe/Berlin", 7200), ("America/New_York", -14400), ("Asia/Tokyo", 32400), *texts]:
        now = Moment(1698400800, 0, zone)
        assert parse("1 second ago", now) == Time(1698400799, offset) == list(parse_lines(b"1 second ago", now))[0]
        assert git.approxidate("now", now).time.offset == offset
    for wrong in ("Europe/Nowhere", "../Berlin", "/usr/share/zoneinfo/Europe/Berlin", "a" * 300, "a/" * 3000, "\ud800/x", "a\0b"):
        with pytest.raises(InvalidZone):
            parse("@5", Moment(0, 0, wrong))
