"""Refuses each request for memory of each call in its turn: it has to answer MemoryError, keep no memory, and answer as ever then.

It runs with refuse.c loaded before others, and with PYTHONMALLOC=malloc, so that all requests go there.
"""

from __future__ import annotations

import ctypes
from array import array
from typing import Callable, Dict, List, Optional, Tuple, Union

from gix_date import ISO8601, Moment, Refused, Time, _library, git, is_canonical_header, parse, parse_carefully, parse_header
from gix_date import GitTime, fsck, parse_ident, write_ident, write_ident_as_is, write_signature

from rows import FOLDER

PROCESS = ctypes.CDLL(None)
PROCESS.refuse.restype = None
PROCESS.refuse.argtypes = [ctypes.c_long]
PROCESS.none_refused.restype = ctypes.c_int
PROCESS.count_from_now.restype = None
PROCESS.more_held.restype = ctypes.c_long

Output = Union["array[int]", List[int]]
TIME = Time(1660797906, 28800)
RULE, FILE = "EST5EDT,M3.2.0,M11.1.0", (FOLDER / "new_york_2023.tzif").read_bytes()
NOWS = [Moment(1698400800, 0, zone) for zone in (7200, RULE, FILE)]
MODE = git.DateMode(git.DateKind.ISO8601, True)
LINES = b"1660797906 +0800\n" * 60
DATES = b"2005-04-07 22:13:13\n" * 100
IDENTS = b"A <a> 1660797906 +0800\nB\n" * 30
for now in NOWS:
    parse("@5", now)  # so that zones are kept


def in_new_zone(zone: Union[str, bytes]) -> bool:
    """Whether a zone can be read that is made for this call alone."""
    return _library.Zone(zone).status == 0


def of_new_text(text: bytes) -> bool:
    """Whether a text is canonical that is made for this call alone, and has no UTF-8 yet."""
    return is_canonical_header(text.decode())


class Filled:
    """Outputs, into which the lines are put after one number."""

    def __init__(self, *outputs: Output) -> None:
        self.outputs, self.refused = outputs, Refused()

    def clear(self) -> None:
        for output in self.outputs:
            del output[1:]
        self.refused.clear()
        self.refused.lines = 0

    def __call__(self, now: Optional[Moment]) -> int:
        return _library.add_lines(self.outputs, 1, self.refused, 0, LINES, 0, len(LINES), now, None)

    def is_whole(self) -> bool:
        """Whether all lines are there, or none, and as many in each."""
        return {len(output) for output in self.outputs} == {1 + self.refused.lines}


class FilledByIdents(Filled):
    """The same of identity lines, of which each second is refused."""

    def __call__(self) -> int:  # type: ignore[override]
        return _library.add_idents(self.outputs, 1, self.refused, 0, IDENTS, 0, len(IDENTS))

    def is_whole(self) -> bool:
        return super().is_whole() and list(self.refused) == list(range(2, 1 + self.refused.lines, 2))


CODES = "qiiiqqqqqq"
IDENTS_FILLED = [FilledByIdents(*(array(code, [7]) for code in CODES)), FilledByIdents(*([7] for _ in CODES))]
FILLED = [Filled(array("q", [7]), array("i", [7])), Filled([7], [7]), *IDENTS_FILLED]
VIEWS, VIEWED = tuple(memoryview(array(code, [7] * 60)) for code in CODES), Refused()


def into_views(now: Optional[Moment]) -> int:
    VIEWED.lines = 0
    return _library.add_lines(VIEWS[:2], 0, VIEWED, 0, LINES, 0, len(LINES), now, None)


def idents_into_views() -> int:
    VIEWED.lines = 0
    return _library.add_idents(VIEWS, 0, VIEWED, 0, IDENTS, 0, len(IDENTS))


CALLS: List[Tuple[str, Callable[..., object], Tuple[object, ...]]] = [
    ("Time", Time, (1660797906, 28800)),
    ("hash", hash, (TIME,)),
    ("repr", repr, (TIME,)),
    ("str", str, (TIME,)),
    ("to_header", TIME.to_header, ()),
    ("format", TIME.format, (ISO8601,)),
    ("format", TIME.format, ("%H" * 200,)),
    ("format_or_unix", TIME.format_or_unix, ("%H" * 200,)),
    ("parse_header", parse_header, ("5 +0100",)),
    ("is_canonical_header", is_canonical_header, ("5 +0100",)),
    ("is_canonical_header", is_canonical_header, ("\ud800",)),
    ("is_canonical_header", of_new_text, ("\u00e9".encode(),)),
    ("parse", parse, ("@5",)),
    ("parse_carefully", parse_carefully, ("@5",)),
    ("cut_signature", _library.cut_signature, ("A <a> 0 +0000",)),
    ("write_signature", write_signature, ("A" * 1000, "a", TIME)),
    ("parse_ident", parse_ident, ("A <a> 5 +0000",)),
    ("parse_ident", parse_ident, ("A" * 1000 + " <a> 5",)),
    ("fsck", fsck, ("A <a> 05 +0000",)),
    ("write_ident", write_ident, ("A" * 1000, "a", TIME)),
    ("write_ident_as_is", write_ident_as_is, ("A" * 1000, "a", GitTime(5, 60))),
    ("git_time_text", str, (GitTime(5, 60),)),
    ("to_time", GitTime(5, 60).to_time, ()),
    ("mode_named", _library.mode_named, ("iso",)),
    ("parse_offset", git.parse_offset, ("-03:30",)),
    ("offset_text", git.offset_text, (-12600,)),
    ("offset_from_decimal", git.offset_from_decimal, (-330,)),
    ("offset_to_decimal", git.offset_to_decimal, (-12600,)),
    ("zone_path", _library.zone_path, (b"Europe/Berlin", b"")),
    ("zone_file", _library.zone_file, (bytes(FOLDER / "new_york_2023.tzif"),)),
    *(("Zone", in_new_zone, (zone,)) for zone in (RULE, FILE, "no rule", b"no file", b"TZif")),
    *(("parse", parse, ("2 days ago", now)) for now in NOWS),
    *(("parse_carefully", parse_carefully, ("2 days ago", now)) for now in NOWS),
    *(("times_of_lines", _library.times_of_lines, (0, b"@5\n" * 100, 0, 300, now, None)) for now in [None, *NOWS]),
    *(("add_lines", add, (now,)) for now in [None, *NOWS] for add in [*FILLED[:2], into_views]),
    *(("add_idents", add, ()) for add in [*IDENTS_FILLED, idents_into_views]),
    *(("times_of_lines", _library.times_of_lines, (5, DATES, 0, len(DATES), now, None)) for now in NOWS),
    *(("parse_date", git.parse_date, ("2005-04-07 22:13:13", now)) for now in NOWS),
    *(("approxidate", git.approxidate, ("2 days ago", now)) for now in NOWS),
    *(("expiry_date", git.expiry_date, ("2 days ago", now)) for now in NOWS),
    *(("show_date", git.show_date, (TIME, MODE, now)) for now in NOWS),
    *(("show_git_time", git.show_git_time, (GitTime(5, 60), MODE, now)) for now in NOWS),
    *(("age_of", _library.age_of, (TIME, now)) for now in NOWS),
    *(("show_date", git.show_date, (TIME, "iso-local", now)) for now in NOWS),
    *(("show_date", git.show_date, (TIME, "format-local:%F %255d%255d", now)) for now in NOWS),
]


def refused(call: Callable[..., object], arguments: Tuple[object, ...], number: int) -> bool:
    """Whether a request of this number was refused. If so, the call has to tell it."""
    answer: object = None
    for filled in FILLED:
        filled.clear()
    PROCESS.count_from_now()
    PROCESS.refuse(number)
    try:
        answer = call(*arguments)
    except MemoryError:
        PROCESS.none_refused()
        return True
    assert PROCESS.none_refused(), f"{call} answers {answer} though memory is refused"
    return False


NO_REQUEST = 1 << 30


def keeps(call: Callable[..., object], arguments: Tuple[object, ...], number: int) -> bool:
    """Whether each of some calls keeps memory, of which this request is refused. The first may: Python keeps some blocks for later."""
    more: List[int] = []
    for _ in range(5):
        refused(call, arguments, number)
        more.append(PROCESS.more_held())
    return min(more) > 0


def main() -> None:
    requests: Dict[str, int] = {}
    for name, call, arguments in CALLS:
        for filled in FILLED:
            filled.clear()
        due, number = call(*arguments), 1
        while refused(call, arguments, number):
            for filled in FILLED:
                assert filled.is_whole()
                filled.clear()
            assert call(*arguments) == due
            assert not keeps(call, arguments, number), f"{call} keeps memory if request {number} is refused"
            number += 1
        assert isinstance(call, Filled) or not keeps(call, arguments, NO_REQUEST), f"{call} keeps memory"
        requests[name] = requests.get(name, 0) + number - 1
    assert len(requests) == 36 and all(requests[name] > 0 for name in requests if name not in ("mode_named", "age_of")), requests
    print(f"each of {sum(requests.values())} requests for memory is refused: MemoryError, and none is kept")


if __name__ == "__main__":
    main()
