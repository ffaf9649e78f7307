"""Many lines put into outputs: which outputs there may be, what is there after an exception, and that signals are heard."""

from __future__ import annotations

import io
import threading
import time
from array import array
from datetime import datetime
from itertools import product
from typing import Any, Callable, List, Tuple, Type
from zoneinfo import ZoneInfo

import pytest

from gix_date import GixDateError, InvalidInstant, InvalidTime, InvalidZone, Moment, NoSignature, NotText, RawOffsets, Refused, Time
from gix_date import UnknownFormat, _library, git, parse_headers_into, parse_lines, parse_lines_into, parse_signatures_into
from gix_date.moments import read_zone

from failing import Breaking, Grudging, Heard, Meddling
from rows import FOLDER

LINES = b"@5\nbanana\n1 +0100\n\n2 hours ago"
NOW = Moment(1698400800, 0, 3600)
SECONDS, OFFSETS = [5, 0, 1, 0, 1698393600], [0, 0, 3600, 0, 3600]
FILE = (FOLDER / "new_york_2023.tzif").read_bytes()
Outputs = Tuple["array[int] | List[int]", "array[int] | List[int]"]


def arrays() -> Outputs:
    return array("q", [7]), array("i", [7])


def lists() -> Outputs:
    return [7], [7]


def buffers() -> List[Callable[[int], object]]:
    """What makes writable memory for so many int64, and for so many int32."""
    return [
        lambda count: (memoryview(bytearray(8 * count)).cast("q"), memoryview(bytearray(4 * count)).cast("i")),
        lambda count: (memoryview(bytearray(8 * count)).cast("l"), memoryview(bytearray(4 * count)).cast("i")),
        lambda count: (memoryview(array("q", [0] * count)), memoryview(array("i", [0] * count))),
        lambda count: (memoryview(array("q", [0] * 2 * count))[::2], memoryview(array("i", [0] * 3 * count))[::3]),
    ]


def test_lines_are_appended_to_arrays_and_lists() -> None:
    outputs: List[Outputs] = [arrays(), lists(), (array("l", [7]), array("i", [7])), ([7], array("i", [7])), (array("q", [7]), [7])]
    for seconds, offsets in outputs:
        refused = parse_lines_into((seconds, offsets), LINES, NOW)
        assert (list(seconds), list(offsets)) == ([7, *SECONDS], [7, *OFFSETS])
        assert sorted(refused) == [2, 4] and refused.lines == 5
        assert [(type(error), error.text) for error in refused.values()] == [(UnknownFormat, b"banana"), (UnknownFormat, b"")]
        again = parse_lines_into((seconds, offsets), io.BytesIO(b"@8\nno\n"))
        assert (list(seconds)[6:], list(offsets)[6:], list(again), again.lines) == ([8, 0], [0, 0], [7], 2)


@pytest.mark.parametrize("make", buffers())
def test_lines_fill_buffers_from_the_front(make: Callable[[int], Tuple[memoryview, memoryview]]) -> None:
    for room in (5, 8):
        seconds, offsets = make(room)
        refused = parse_lines_into((seconds, offsets), LINES, NOW)
        assert (seconds.tolist(), offsets.tolist()) == (SECONDS + [0] * (room - 5), OFFSETS + [0] * (room - 5))
        assert sorted(refused) == [1, 3] and refused.lines == 5
    seconds, offsets = make(4)
    with pytest.raises(ValueError, match="no room") as caught:
        parse_lines_into((seconds, offsets), LINES, NOW)
    assert caught.value.lines == 4  # type: ignore[attr-defined]
    assert (seconds.tolist(), offsets.tolist()) == (SECONDS[:4], OFFSETS[:4])


def test_numpy_arrays_are_filled() -> None:
    numpy = pytest.importorskip("numpy")
    seconds, offsets = numpy.zeros(6, "int64"), numpy.full(6, 9, "int32")
    refused = parse_lines_into((seconds, offsets), LINES, NOW)
    assert seconds.tolist() == [*SECONDS, 0] and offsets.tolist() == [*OFFSETS, 9] and refused.lines == 5
    for wrong in (numpy.zeros(6, "uint64"), numpy.zeros(6, "float64"), numpy.zeros((6, 1), "int64"), numpy.zeros(6, ">i8")):
        with pytest.raises(TypeError, match="^the outputs have to be"):
            parse_lines_into((wrong, offsets), LINES)
    seconds.flags.writeable = False
    with pytest.raises(TypeError, match="^the outputs have to be"):
        parse_lines_into((seconds, offsets), LINES)


def test_other_outputs_are_refused() -> None:
    one = [7]
    wrong: List[Tuple[object, object]] = [(one, one), ([], [7]), (array("q"), [7]), ([], memoryview(array("i")))]
    for outputs in wrong:
        with pytest.raises(ValueError, match="^the outputs have to be different ones of one length"):
            parse_lines_into(outputs, LINES)
    for other in (b"12345678", 5, None, (), bytearray(8), memoryview(b"12345678").cast("q"), array("f")):
        with pytest.raises(TypeError):
            parse_lines_into((other, array("i")), LINES)
        with pytest.raises(TypeError):
            parse_lines_into((array("q"), other), LINES)


def test_headers_and_signatures_of_many_lines() -> None:
    headers, signatures = b"5 +0100\n12abc\n1:2\n7 -0730", b"A <a> 5 +0100\nB <> 12abc\nC\nD <d> 1:2\n\xff <> 5\n <> 7 -0730"
    for make in (arrays, lists):
        outputs = make()
        refused = parse_headers_into(outputs, headers)
        assert [list(output) for output in outputs] == [[7, 5, 12, 0, 7], [7, 3600, 0, 0, -27000]]
        assert {at: type(error) for at, error in refused.items()} == {3: InvalidTime} and refused.lines == 4
        refused = parse_signatures_into(outputs, io.BytesIO(signatures))
        assert [list(output)[5:] for output in outputs] == [[5, 12, 0, 0, 0, 7], [3600, 0, 0, 0, 0, -27000]]
        assert {at: type(error) for at, error in refused.items()} == {7: NoSignature, 8: InvalidTime, 9: NotText}
        assert [error.text for error in refused.values()] == signatures.split(b"\n")[2:5] and refused.lines == 6
    for into in (parse_headers_into, parse_signatures_into):
        with pytest.raises(TypeError, match="^the source has to be bytes"):
            into(([], []), "5")  # type: ignore[arg-type]
        with pytest.raises(TypeError):
            into(([], []), b"5", NOW)  # type: ignore[call-arg]


GIT_LINES = [b"2 weeks ago", b"200 years ago", b"5 mins ago", b"", b"noon\xff", b"99999999999 days", b"2024-01-05 10:00", b"1900-02-03"]
GIT_CALLS = [
    (git.approxidate, git.approxidate_lines, git.approxidate_lines_into),
    (git.parse_date, git.parse_date_lines, git.parse_date_lines_into),
]


@pytest.mark.parametrize("zone", [3600, "EST5EDT,M3.2.0,M11.1.0", FILE, "Europe/Berlin"])
@pytest.mark.parametrize("source", [lambda: b"\n".join(GIT_LINES), lambda: io.BytesIO(b"\n".join(GIT_LINES) + b"\n")])
@pytest.mark.parametrize("one, each, into", GIT_CALLS)
def test_git_dates_of_many_lines(one: Any, each: Any, into: Any, source: Any, zone: Any) -> None:
    now, outputs = Moment(1700499600, 0, zone), arrays()
    answers, refused = list(each(source(), now)), into(outputs, source(), now)
    assert refused.lines == len(answers) == len(GIT_LINES) and [len(output) for output in outputs] == [9, 9]
    for at, (line, answer) in enumerate(zip(GIT_LINES, answers), 1):
        put = Time(outputs[0][at], outputs[1][at])
        if isinstance(answer, GixDateError):
            with pytest.raises(type(answer)):
                one(line, now)
            assert (answer.text, answer.place, put) == (line, None, Time(0, 0)) and repr(refused[at]) == repr(answer)
        else:
            assert answer == one(line, now).time == put and at not in refused


def test_git_dates_of_many_lines_have_a_moment() -> None:
    at = datetime(2023, 11, 20, 12, tzinfo=ZoneInfo("America/New_York"))
    assert [str(time) for time in git.approxidate_lines(b"1 month ago\nnow", at)] == ["1697821200 -0400", "1700499600 -0500"]
    assert [str(time) for time in git.parse_date_lines(b"2023-10-20 12:00\n@5 +0100", at)] == ["1697817600 -0400", "5 +0100"]
    wrong: List[Tuple[Type[Exception], Any]] = [
        (TypeError, None), (TypeError, 5), (InvalidInstant, Moment(2**62)), (InvalidZone, Moment(0, 0, "Mars"))
    ]  # fmt: skip
    for (kind, moment), (_, each, into) in product(wrong, GIT_CALLS):
        with pytest.raises(kind):
            each(b"noon", moment)
        with pytest.raises(kind):
            into(([], []), b"noon", moment)


@pytest.mark.parametrize("error", [OSError("broken"), KeyboardInterrupt(), ZeroDivisionError()])
def test_what_was_read_is_there_when_a_file_breaks(error: BaseException) -> None:
    for make in (arrays, lists):
        outputs = make()
        with pytest.raises(type(error)) as caught:
            parse_lines_into(outputs, Breaking(b"@1\nbanana\n@2\n@", error))  # type: ignore[arg-type]
        assert caught.value is error
        assert [list(output) for output in outputs] == [[7, 1, 0, 2], [7, 0, 0, 0]]
        assert error.lines == 3 and error.refused.lines == 3  # type: ignore[attr-defined]
        assert {at: refusal.text for at, refusal in error.refused.items()} == {2: b"banana"}  # type: ignore[attr-defined]
        assert parse_lines_into(outputs, b"@9").lines == 1


class Closed(Exception):
    """An exception that takes no attributes."""

    def __setattr__(self, name: str, value: object) -> None:
        raise AttributeError


def test_an_exception_that_takes_no_attributes_is_raised() -> None:
    outputs = lists()
    with pytest.raises(Closed):
        parse_lines_into(outputs, Breaking(b"@1\n@", Closed()))  # type: ignore[arg-type]
    assert [list(output) for output in outputs] == [[7, 1], [7, 0]]


def test_outputs_in_use_stay_of_one_length() -> None:
    for used in (0, 1):
        outputs = arrays()
        with memoryview(outputs[used]), pytest.raises(BufferError) as caught:  # type: ignore[arg-type]
            parse_lines_into(outputs, LINES)
        assert [list(output) for output in outputs] == [[7], [7]] and caught.value.lines == 0  # type: ignore[attr-defined]


def test_outputs_that_fail_stay_of_one_length() -> None:
    for outputs in [(Grudging("q", [7]), array("i", [7])), (array("q", [7]), Grudging("i", [7])), ([7], Grudging("i", [7]))]:
        with pytest.raises(ZeroDivisionError) as caught:
            parse_lines_into(outputs, LINES)
        assert [list(output) for output in outputs] == [[7], [7]] and caught.value.lines == 0  # type: ignore[attr-defined]


def test_outputs_that_change_meanwhile_are_refused() -> None:
    for changed in (0, 1):
        outputs: Tuple[List[int], List[int]] = ([7], [7])
        with pytest.raises(ValueError, match="has changed its length") as caught:
            parse_lines_into(outputs, Meddling(outputs[changed], [b"@1\n", b"@2\n"]))  # type: ignore[arg-type]
        assert outputs[changed] == [7, [1, 0][changed], 9] and outputs[1 - changed] == [7, [1, 0][1 - changed]]
        assert caught.value.lines == 1  # type: ignore[attr-defined]


def test_outputs_are_of_one_length_when_a_signal_raises(alarms: Callable[[float], None]) -> None:
    data = b"@5\nbanana\n1 +0100\n" * 20000
    heard = 0
    for turn in range(150):
        outputs: Outputs = arrays() if turn % 2 else lists()
        try:
            try:
                alarms(0.0002 + turn * 0.00005)
                parse_lines_into(outputs, io.BytesIO(data) if turn % 3 else data)
            finally:
                alarms(0)
        except Heard as error:
            heard += 1
            lines = getattr(error, "lines", 0)
            refused = getattr(error, "refused", Refused())
            assert len(outputs[0]) == len(outputs[1]) == 1 + lines
            assert list(outputs[0][1:7]) == [5, 0, 1, 5, 0, 1][:lines]
            assert list(refused) == list(range(2, 1 + lines, 3))
        assert parse_lines_into(outputs, b"@9").lines == 1
    assert heard > 20


def test_a_signal_is_heard_between_some_thousand_lines(alarms: Callable[[float], None]) -> None:
    data = b"1 month ago\n" * 3000000
    sources: List[Callable[[], object]] = [
        lambda: parse_lines_into(([], []), data, Moment(1700499600, 0, FILE)),
        lambda: parse_lines_into((array("q"), array("i")), io.BytesIO(data), Moment(1700499600, 0, FILE)),
        lambda: sum(1 for _ in parse_lines(data, Moment(1700499600, 0, FILE))),
    ]
    for work in sources:
        read_zone.cache_clear()
        begun = time.perf_counter()
        with pytest.raises(Heard) as caught:
            alarms(0.03)
            work()
        assert time.perf_counter() - begun < 1
        assert getattr(caught.value, "lines", 1) < 1500000
        assert read_zone.cache_info().misses == 1


def seconds_for(length: int) -> float:
    """How long a file takes whose one line has so many bytes: the least of three times."""
    data, taken = b"x" * length + b"@5\n@6", []
    for _ in range(3):
        outputs = arrays()
        begun = time.process_time()
        assert list(parse_lines_into(outputs, io.BytesIO(data))) == [1]
        taken.append(time.process_time() - begun)
        assert list(outputs[0]) == [7, 0, 6]
    return min(taken)


def test_a_long_line_takes_time_by_its_length() -> None:
    assert seconds_for(48 << 20) < 12 * seconds_for(6 << 20) + 0.05


def test_other_threads_go_on_meanwhile() -> None:
    data = b"x" * (64 << 20)
    works = threading.Thread(target=lambda: parse_lines_into(([], []), data))
    works.start()
    ticks = 0
    while works.is_alive():
        time.sleep(0.001)
        ticks += 1
    works.join()
    assert ticks > 5


def test_pieces_have_the_lines_of_the_whole() -> None:
    for width in (1, 7, 65535, 65536, 65537, 200000):
        lines = [b"@%d" % i for i in range(5)] + [b"x" * width, b"@9", b"y" * width, b""] * 3
        data = b"\n".join(lines)
        outputs: Tuple[List[int], List[int]] = ([], [])
        refused = parse_lines_into(outputs, data)
        assert outputs[0] == [0, 1, 2, 3, 4] + ([0, 9, 0, 0] * 3)[:-1]
        assert refused.lines == len(lines) - 1 == len(list(parse_lines(data)))
        assert [error.text for error in refused.values()] == [line for line in lines[:-1] if not line.startswith(b"@")]


def test_parts_of_lines_are_those_between_two_indices() -> None:
    data = b"@1\n@2\n@3"
    assert _library.times_of_lines(0, data, 3, 6, None, None) == [Time(2, 0)]
    assert _library.times_of_lines(0, data, 0, 8, None, None) == [Time(1, 0), Time(2, 0), Time(3, 0)]
    assert _library.times_of_lines(0, data, 3, 3, None, RawOffsets.QUARTERS) == []
    for begin, end in [(-1, 3), (3, 2), (0, 9), (9, 9)]:
        with pytest.raises(IndexError):
            _library.times_of_lines(0, data, begin, end, None, None)
    for reader in (-1, 6):
        with pytest.raises(ValueError, match="no such reader"):
            _library.times_of_lines(reader, data, 0, 8, None, None)
    wrong: List[Callable[[], object]] = [
        lambda: _library.times_of_lines(4, data, 0, 8, None, None),
        lambda: _library.times_of_lines(5, data, 0, 8, None, None),
        lambda: _library.times_of_lines("0", data, 0, 8, None, None),  # type: ignore[arg-type]
        lambda: _library.times_of_lines(0, "@1", 0, 2, None, None),  # type: ignore[arg-type]
        lambda: _library.add_lines(([], []), 0, {}, 0, data, 0, 8, None, None),  # type: ignore[arg-type]
        lambda: _library.add_lines(([], []), 0, None, 0, data, 0, 8, None, None),  # type: ignore[arg-type]
        lambda: _library.add_lines([[], []], 0, Refused(), 0, data, 0, 8, None, None),  # type: ignore[arg-type]
        lambda: _library.add_lines(([], [], []), 0, Refused(), 0, data, 0, 8, None, None),  # type: ignore[arg-type]
        lambda: _library.add_lines(([], 5), 0, Refused(), 0, data, 0, 8, None, None),
        lambda: _library.add_lines((5, []), 0, Refused(), 0, data, 0, 8, None, None),
        lambda: _library.add_lines(([], {}), 0, Refused(), 0, data, 0, 8, None, None),
    ]
    for call in wrong:
        with pytest.raises((TypeError, AttributeError)):
            call()


def test_a_refused_line_has_its_text_and_number() -> None:
    data = b"".join(b"@%d\nbad %d\n" % (i, i) for i in range(20000))
    for answer, i in zip(parse_lines(data), range(40000)):
        if i % 2:
            assert isinstance(answer, GixDateError) and answer.text == b"bad %d" % (i // 2)
        else:
            assert answer == Time(i // 2, 0)
    outputs: Tuple[List[int], List[int]] = ([], [])
    refused = parse_lines_into(outputs, data)
    assert outputs[0] == [0 if i % 2 else i // 2 for i in range(40000)]
    assert {i: error.text for i, error in refused.items()} == {2 * i + 1: b"bad %d" % i for i in range(20000)}
