"""Many calls: their references, and threads."""

from __future__ import annotations

import copy
import io
import sys
import time
from array import array
from concurrent.futures import ThreadPoolExecutor
from datetime import datetime, timezone
from typing import Callable, List, Tuple
from zoneinfo import TZPATH

import pytest

from gix_date import ISO8601, Moment, RawOffsets, Refused, Signature, Texts, Time, UnknownFormat, _library, git, now
from gix_date import is_canonical_header, parse, parse_carefully, parse_header, parse_headers_into, parse_lines, parse_lines_into
from gix_date import GitTime, fsck, parse_ident, parse_idents_into, parse_signatures_into
from gix_date import write_ident, write_ident_as_is, write_signature
from gix_date.moments import read_zone, tzif_of

from rows import FOLDER, file_of_utc

class Index:
    """A number of a caller, which makes a new int each time."""

    def __index__(self) -> int:
        return int("1000000")


def after_lines() -> Refused:
    """The refusals so far after some lines, of which none is refused."""
    refused = Refused()
    refused.lines = int("1000")
    return refused


QS, IS = array("q", [0] * 3), array("i", [0] * 3)
NO_OUTPUT = (None,) * 9
MODE = git.DateMode(git.DateKind.ISO8601, True)
TIME, NOW = Time(1660797906, 28800), Moment(1698400800, 0, 7200)
IN_RULE = Moment(1698400800, 0, "EST5EDT,M3.2.0,M11.1.0")
IN_FILE = Moment(1698400800, 0, (FOLDER / "new_york_2023.tzif").read_bytes())
IN_LEAPS = Moment(1698400800, 0, file_of_utc(1))
IN_NAMED, DAY = Moment(1698400800, 0, "Europe/Berlin"), datetime(2023, 10, 27, 12, tzinfo=timezone.utc)
KEYS = [IN_RULE.zone, IN_FILE.zone, "Europe/Berlin", tzif_of("Europe/Berlin", TZPATH)]
TEXT, BYTES = "5 +0100", b"5 +0100"
NAMES = [sys.intern("__qualname__"), sys.intern("__name__"), Time.__qualname__, RawOffsets.__name__]
SHARED = [
    None, True, False, Time, UnknownFormat, git.YearRefused, RawOffsets, *NAMES, DAY, git.DateKind.ISO8601, MODE, RawOffsets.WHOLE_MINUTES,
    TIME, NOW, IN_FILE.zone, IN_RULE.zone, TEXT, BYTES,
]  # fmt: skip
CALLS: List[Callable[[], object]] = [
    lambda: parse_header(BYTES),
    lambda: parse_header(TEXT),
    lambda: parse_header("1:2"),
    lambda: is_canonical_header(BYTES),
    lambda: is_canonical_header("\ud800"),
    lambda: parse("@5"),
    lambda: parse("\ud800"),
    lambda: parse("2 days ago", NOW),
    lambda: parse("2 days ago", IN_RULE),
    lambda: parse("2 days ago", IN_FILE),
    lambda: parse("banana", IN_FILE),
    lambda: parse("2 days ago", IN_NAMED),
    lambda: parse("2 days ago", IN_LEAPS),
    lambda: _library.zone_path(b"Europe/Berlin", b""),
    lambda: _library.zone_path(b"\xff", b""),
    lambda: _library.zone_file(bytes(FOLDER / "new_york_2023.tzif")),
    lambda: _library.zone_file(b"\0"),
    lambda: parse("2 days ago", DAY),
    lambda: parse("2 days ago", DAY.replace(microsecond=123456)),
    lambda: parse("2 days ago", DAY.replace(tzinfo=None)),
    lambda: parse_carefully("2 days ago", IN_NAMED),
    lambda: git.parse_date("2005-04-07 22:13:13", IN_NAMED),
    lambda: list(git.approxidate_lines(b"noon\n200 years ago", IN_NAMED)),
    lambda: git.parse_date_lines_into(([], []), b"2005-04-07 22:13:13\nno", IN_RULE),
    lambda: parse_headers_into(([], []), b"5 +0100\nno"),
    lambda: parse_signatures_into(([], []), b"A <a> 5 +0100\nno"),
    lambda: parse_carefully("30 min ago", NOW),
    lambda: TIME.format(ISO8601),
    lambda: TIME.format("%H" * 200),
    lambda: TIME.format("%"),
    lambda: TIME.format("iso"),
    lambda: TIME.isoformat(),
    lambda: (hash(TIME), repr(TIME), TIME == Time(5, 0), TIME != Time(5, 0), TIME < Time(5, 0), copy.copy(TIME)),
    lambda: (Time(5, 0) == TEXT, f"{TIME:%H}"),
    lambda: Time(TEXT, 0),  # type: ignore[arg-type]
    lambda: Time(0, 2**40),
    lambda: Time(Index(), Index()),  # type: ignore[arg-type]
    lambda: parse("@5", Moment(Index(), Index(), -5)),  # type: ignore[arg-type]
    lambda: parse(text=TEXT, now=IN_RULE, raw_offsets=RawOffsets.WHOLE_MINUTES),
    lambda: parse(TEXT, None, None),  # type: ignore[call-arg, arg-type]
    lambda: parse(TEXT, text=TEXT),  # type: ignore[misc]
    lambda: parse(TEXT, zone=None),  # type: ignore[call-arg]
    lambda: parse(TEXT, raw_offsets=TEXT),  # type: ignore[arg-type]
    lambda: parse("2 days é ago \ud800", NOW),
    lambda: parse_carefully("2 days é ago", NOW, texts=Texts.ALL),
    lambda: parse_carefully("2 days é ago", NOW),
    lambda: parse_lines_into((array("q"), array("i")), b"@5\nbanana\n2 days ago", IN_FILE),
    lambda: parse_lines_into(([], []), io.BytesIO(b"@5\nbanana\n2 days ago")),
    lambda: parse_lines_into((memoryview(QS), memoryview(IS)), b"@5\nbanana\n@1660797906"),
    lambda: parse_lines_into((memoryview(QS), memoryview(IS)), b"@5\nbanana\n@1660797906\n@1"),
    lambda: parse_lines_into(([], IS), b"@5"),
    lambda: parse_idents_into(b"A <a> 5 +0100\nno", seconds=array("q"), messages=[], email_starts=[]),
    lambda: parse_idents_into(b"A <a> 1660797906 +0100\nno", starts=memoryview(QS), offsets=memoryview(IS)),
    lambda: parse_idents_into(b"A <a>\nno\n" * 2, date_ends=memoryview(QS), statuses=memoryview(IS)),
    lambda: parse_idents_into(b"A <a>", seconds=[], offsets=IS),
    lambda: _library.add_idents((*NO_OUTPUT, []), -1000, after_lines(), Index(), b"A <a>", 0, 5),  # type: ignore[arg-type]
    lambda: _library.add_lines(([], []), -1000, after_lines(), 0, b"@5", 0, 2, None, None),
    lambda: str(TIME),
    lambda: list(parse_lines(b"@5\nbanana\n2 days ago", IN_RULE)),
    lambda: Signature.from_line("A U Thor <a> 0 +0000"),
    lambda: Signature.from_line(b"A"),
    lambda: write_signature(b"A" * 200, "a" * 200, TIME),
    lambda: write_signature("A\n", "a", TIME),
    lambda: write_signature("\ud800", "a", TIME),
    lambda: write_signature("A", "\ud800", TIME),
    lambda: write_signature("A", "a", TEXT),  # type: ignore[arg-type]
    lambda: parse_ident("A <a> 5 +0100"),
    lambda: parse_ident("A" * 1000 + " <a> 5"),
    lambda: parse_ident(b"\xff"),
    lambda: fsck("\ud800 <a> 05 +0100"),
    lambda: fsck("A <a> 5 +0100"),
    lambda: GitTime(5, 60).to_time(),
    lambda: GitTime(5, 1 << 31).to_time(),
    lambda: GitTime(5, 59652315).to_time(),
    lambda: str(GitTime(0, 0, True)),
    lambda: str(GitTime(5, 1 << 31)),
    lambda: write_ident(b"A" * 200, "\ud800" * 200, TIME),
    lambda: write_ident("...", "a", TIME),
    lambda: write_ident("A", "a", TEXT),  # type: ignore[arg-type]
    lambda: write_ident_as_is(b"A" * 200, "\ud800" * 200, GitTime(5, 51800)),
    lambda: write_ident_as_is("A\n", "a", GitTime(5, 60)),
    lambda: write_ident_as_is("A", "a", TEXT),  # type: ignore[arg-type]
    lambda: git.parse_offset("-03:30"),
    lambda: git.parse_offset("\ud800"),
    lambda: git.offset_text(-12600),
    lambda: git.offset_text(1 << 31),
    lambda: git.offset_from_decimal(-330),
    lambda: git.offset_to_decimal(TEXT),  # type: ignore[arg-type]
    lambda: git.parse_date("2005-04-07 22:13:13", IN_RULE),
    lambda: git.parse_date("1900-02-03 10:00", NOW),
    lambda: git.approxidate("5 mins ago", IN_FILE),
    lambda: git.expiry_date("never", NOW),
    lambda: git.expiry_date("friday", IN_RULE),
    lambda: git.show_date(TIME, "iso-local", IN_FILE),
    lambda: git.show_date(Time(-1, 0), "iso", NOW),
    lambda: git.show_date(TIME, MODE, NOW),
    lambda: git.show_date(TIME, git.DateKind.HUMAN, NOW),
    lambda: git.show_date(TIME, TIME, NOW),  # type: ignore[arg-type]
    lambda: git.show_date(TEXT, MODE, NOW),  # type: ignore[arg-type]
    lambda: git.show_git_time(GitTime(1660797906, 60), "iso", IN_FILE),
    lambda: git.show_git_time(GitTime(0, -100), MODE, NOW),
    lambda: git.show_git_time(GitTime(5, 1 << 31), MODE, NOW),
    lambda: git.show_git_time(TIME, MODE, NOW),  # type: ignore[arg-type]
    lambda: git.parse_date("é 2005-04-07 22:13:13 é", NOW),
    lambda: git.DateMode.of_name("iso-local"),
    lambda: git.DateMode.of_name("format:%Y"),
    lambda: parse("@5", (1, 2)),  # type: ignore[arg-type]
    lambda: parse(5, NOW),  # type: ignore[arg-type]
    lambda: parse("2 days ago", Moment(2**63)),
]


def outcome(call: Callable[[], object]) -> str:
    """What a call answers, or the name of what it raises."""
    try:
        return repr(call())
    except (ValueError, TypeError, OverflowError) as error:
        return repr(error)


@pytest.mark.parametrize("call", CALLS)
def test_many_calls_keep_no_memory(call: Callable[[], object]) -> None:
    def repeat() -> None:
        for _ in range(36000):
            try:
                call()
            except (ValueError, TypeError, OverflowError):
                pass

    for _ in range(100):
        outcome(call)
    shared = [*SHARED, *(read_zone(key) for key in KEYS)]  # type: ignore[arg-type]
    blocks, references = sys.getallocatedblocks(), [sys.getrefcount(each) for each in shared]
    repeat()
    assert sys.getallocatedblocks() - blocks < 1000
    assert all(abs(sys.getrefcount(each) - before) < 1000 for each, before in zip(shared, references))


def test_sixteen_threads_have_the_same_answers() -> None:
    def work(shift: int) -> List[str]:
        order = CALLS[shift:] + CALLS[:shift]
        answers = [[outcome(call) for call in order] for _ in range(100)]
        assert all(answer == answers[0] for answer in answers)
        return answers[0][len(CALLS) - shift :] + answers[0][: len(CALLS) - shift]

    due = [outcome(call) for call in CALLS]
    with ThreadPoolExecutor(16) as threads:
        assert list(threads.map(work, range(16))) == [due] * 16


def test_nothing_is_printed_or_opened(capfd: pytest.CaptureFixture[str], monkeypatch: pytest.MonkeyPatch) -> None:
    opened: List[str] = []
    is_watched = True

    def watch(event: str, arguments: Tuple[object, ...]) -> None:
        if is_watched and event in ("open", "os.listdir", "subprocess.Popen", "socket.connect", "import"):
            opened.append(event)

    def refuse() -> int:
        raise AssertionError("the clock is read")

    monkeypatch.setattr(time, "time_ns", refuse)
    sys.addaudithook(watch)
    for call in CALLS:
        outcome(call)
    is_watched = False
    assert not opened
    assert capfd.readouterr() == ("", "")
    with pytest.raises(AssertionError):
        now()
