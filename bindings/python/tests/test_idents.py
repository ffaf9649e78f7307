"""Identity lines of many commits: what is put into which outputs, by the rows of Git's answers, and what is there after an exception."""

from __future__ import annotations

import io
import threading
import time
from array import array
from itertools import combinations
from typing import IO, Any, Callable, Dict, Iterator, List, Tuple, Type, Union

import pytest

from gix_date import FsckId, GixDateError, NoIdentity, Refused, _library, fsck, parse_ident, parse_idents_into

from failing import Breaking, Grudging, Heard, Meddling
import rows
from rows import COLUMNS, Found, columns_of, idents_of, message_of

LINES = [
    b"A U Thor <author@example.com> 1660874655 +0800",
    b"J\xf6rg <j@x> 5 -0130",
    b"A <a@b>",
    b"no identity",
    b"",
    b" <> 0 -0000\0x",
    b"A  <a>\t05+0060 x",
]
DATA = b"\n".join(LINES)
DUE = {
    "seconds": [1660874655, 5, 0, 0, 0, 0, 5],
    "offsets": [800, -130, 0, 0, 0, 0, 60],
    "statuses": [0, 0, 0, 27, 27, 0, 0],
    "messages": [0, 0, 7, 4, 4, 1, 7],
    "starts": [0, 47, 66, 74, 86, 87, 101],
    "name_ends": [8, 51, 67, 0, 0, 87, 102],
    "email_starts": [10, 53, 69, 0, 0, 89, 105],
    "email_ends": [28, 56, 72, 0, 0, 89, 106],
    "date_starts": [30, 58, 73, 0, 0, 91, 108],
    "date_ends": [46, 65, 73, 0, 0, 98, 115],
}
WIDE = {name for name in COLUMNS if name not in ("offsets", "statuses", "messages")}


def arrays(names: Tuple[str, ...] = COLUMNS) -> Dict[str, Any]:
    return {name: array("q" if name in WIDE else "i", [7]) for name in names}


def lists(names: Tuple[str, ...] = COLUMNS) -> Dict[str, Any]:
    return {name: [7] for name in names}


def views(room: int) -> Dict[str, memoryview]:
    """Writable memory for so many lines, of which every second number is used."""
    return {name: memoryview(array("q" if name in WIDE else "i", [9] * 2 * room))[::2] for name in COLUMNS}


def sources(data: bytes) -> List[Union[bytes, IO[bytes]]]:
    return [data, io.BytesIO(data)]


def added(outputs: Dict[str, Any]) -> Dict[str, List[int]]:
    """What stands behind the first number of each output."""
    assert all(output[0] == 7 for output in outputs.values())
    return {name: list(output[1:]) for name, output in outputs.items()}


def test_all_is_told_of_each_line() -> None:
    for outputs in (arrays(), lists(), {**arrays(), **lists(COLUMNS[::3])}):
        for source in sources(DATA + b"\n"):
            refused = parse_idents_into(source, **outputs)
            assert [repr(error) for error in refused.values()] == ["NoIdentity(b'no identity', None)", "NoIdentity(b'', None)"]
            assert added(outputs) == DUE and sorted(refused) == [4, 5] and refused.lines == len(LINES)
            for output in outputs.values():
                del output[1:]


def test_places_are_those_of_the_source() -> None:
    columns, _ = columns_of(DATA)
    parts = [("starts", "name_ends"), ("email_starts", "email_ends"), ("date_starts", "date_ends")]
    told = [[DATA[begin:end] for begin, end in zip(columns[first], columns[last])] for first, last in parts]
    assert told[0] == [b"A U Thor", b"J\xf6rg", b"A", b"", b"", b"", b"A"]
    assert told[1] == [b"author@example.com", b"j@x", b"a@b", b"", b"", b"", b"a"]
    assert told[2] == [b"1660874655 +0800", b"5 -0130", b"", b"", b"", b"0 -0000", b"05+0060"]


def test_any_output_may_be_left_out() -> None:
    for names in [*combinations(COLUMNS, 1), *combinations(COLUMNS, 2), ("seconds", "offsets", "messages"), COLUMNS[4:]]:
        for make in (arrays, lists):
            outputs = make(names)
            assert list(parse_idents_into(DATA, **outputs)) == [4, 5]
            assert added(outputs) == {name: DUE[name] for name in names}
    for nothing in (parse_idents_into(DATA), parse_idents_into(DATA, **dict.fromkeys(COLUMNS))):
        assert list(nothing) == [3, 4] and nothing.lines == len(LINES)
    assert parse_idents_into(b"").lines == parse_idents_into(b"", seconds=[]).lines == 0


def test_buffers_are_filled_from_the_front() -> None:
    for room in (len(LINES), 9):
        outputs = views(room)
        assert list(parse_idents_into(DATA, **outputs)) == [3, 4]
        assert {name: output.tolist() for name, output in outputs.items()} == {name: due + [9] * (room - 7) for name, due in DUE.items()}
    for short in COLUMNS:
        outputs = {**views(7), short: views(6)[short]}
        with pytest.raises(ValueError, match="no room") as caught:
            parse_idents_into(DATA + b"\n", **outputs)
        assert caught.value.lines == 0 and all(set(output.tolist()) == {9} for output in outputs.values())  # type: ignore[attr-defined]


def test_numpy_arrays_are_filled() -> None:
    numpy = pytest.importorskip("numpy")
    outputs = {name: numpy.zeros(8, "int64" if name in WIDE else "int32") for name in COLUMNS}
    assert list(parse_idents_into(DATA, **outputs)) == [3, 4]
    assert {name: output.tolist() for name, output in outputs.items()} == {name: [*due, 0] for name, due in DUE.items()}
    dated = outputs["date_ends"] > outputs["date_starts"]
    assert dated.tolist() == [True, True, False, False, False, True, True, False]


def test_other_outputs_are_refused() -> None:
    for name in COLUMNS:
        narrow = array("i" if name in WIDE else "q")
        for wrong in (b"12345678", 5, (), "", bytearray(8), memoryview(b"12345678"), array("f"), narrow, memoryview(narrow), array("Q")):
            with pytest.raises(TypeError):
                parse_idents_into(DATA, **{name: wrong})
    one: List[int] = []
    for name, other in combinations(COLUMNS, 2):
        for outputs in ((one, one), ([], [7]), (views(9)[name], [])):
            with pytest.raises(ValueError, match="^the outputs have to be different ones of one length"):
                parse_idents_into(DATA, **dict(zip((name, other), outputs)))
    assert one == []
    for source in ("A <a> 5 +0000", None, 5, io.StringIO("A <a> 5 +0000"), bytearray(DATA)):
        with pytest.raises(TypeError, match="^the source has to be bytes"):
            parse_idents_into(source, seconds=[])  # type: ignore[arg-type]
    with pytest.raises(TypeError):
        parse_idents_into(DATA, [])  # type: ignore[misc]
    with pytest.raises(TypeError):
        parse_idents_into(DATA, names=[])  # type: ignore[call-arg]


SHOWN: Dict[str, Callable[[Found], str]] = {
    "ident": rows.shown_ident, "ident_label": rows.shown_label, "ident_offset": rows.shown_offset, "git_time": rows.shown_git_time_of,
    "ident_time": rows.shown_time,
}  # fmt: skip
FILES = ("idents.rows", "ident_faults.rows")


def lines_of_rows() -> Iterator[Tuple[str, bytes, str]]:
    """The call, the line and what is due of each row that is told of many lines, of a line alone."""
    for row in (row for name in FILES for _, row in rows.rows_of(name)):
        call, line, *_, due = row.split(b"\t")
        text = rows.unescaped(line)
        if b"\n" not in text and call.decode() in (*SHOWN, "fsck_of"):
            yield call.decode(), text, due.decode() if due.startswith(b"!") else rows.readable(rows.unescaped(due))


def answer_of(call: str, told: Union[Found, GixDateError], message: int) -> str:
    """What is told of a line, as a row of this call says it."""
    if call == "fsck_of":
        return message_of(message)
    if isinstance(told, GixDateError):
        return f"!{type(told).__name__}"
    found = told
    return rows.told(lambda: SHOWN[call](found))


@pytest.mark.parametrize("as_file", [False, True])
def test_all_rows_agree_in_one_block(as_file: bool) -> None:
    all_rows = list(lines_of_rows())
    block = b"".join(line + b"\n" for _, line, _ in all_rows)
    columns, refused = columns_of(io.BytesIO(block) if as_file else block)
    found = list(idents_of(block, columns, refused))
    assert len(found) == len(all_rows) == refused.lines > 850
    for (call, line, due), one, message in zip(all_rows, found, columns["messages"]):
        assert answer_of(call, one, message) == due, (call, line)


def test_many_lines_agree_with_one_each() -> None:
    texts = [line for _, line, _ in lines_of_rows()]
    columns, refused = columns_of(b"\n".join(texts))
    starts, emails, dates, messages = (columns[name] for name in ("starts", "email_starts", "date_starts", "messages"))
    for at, (text, start, email, date, message) in enumerate(zip(texts, starts, emails, dates, messages)):
        fault = fsck(text)
        assert (fault.id if fault else None) == (list(FsckId)[message - 1] if message else None)
        if at not in refused:
            places = parse_ident(text).places
            assert (email - start, date - start) == (places.email, places.seconds)


@pytest.mark.parametrize("error", [OSError("broken"), KeyboardInterrupt(), ZeroDivisionError()])
def test_what_was_read_is_there_when_a_file_breaks(error: BaseException) -> None:
    for make in (arrays, lists):
        outputs = make()
        with pytest.raises(type(error)) as caught:
            parse_idents_into(Breaking(DATA + b"\nA <a", error), **outputs)  # type: ignore[arg-type]
        assert caught.value is error and error.lines == error.refused.lines == 7  # type: ignore[attr-defined]
        assert added(outputs) == DUE and list(error.refused) == [4, 5]  # type: ignore[attr-defined]
        assert parse_idents_into(b"A <a> 9 +0000", **outputs).lines == 1


@pytest.mark.parametrize("failing", COLUMNS)
def test_outputs_that_fail_stay_of_one_length(failing: str) -> None:
    for make in (arrays, lists):
        outputs: Dict[str, Any] = {**make(), failing: Grudging("q" if failing in WIDE else "i", [7])}
        with pytest.raises(ZeroDivisionError) as caught:
            parse_idents_into(DATA, **outputs)
        assert added(outputs) == dict.fromkeys(COLUMNS, []) and caught.value.lines == 0  # type: ignore[attr-defined]


@pytest.mark.parametrize("used", COLUMNS)
def test_outputs_in_use_stay_of_one_length(used: str) -> None:
    outputs = arrays()
    with memoryview(outputs[used]), pytest.raises(BufferError) as caught:
        parse_idents_into(DATA, **outputs)
    assert added(outputs) == dict.fromkeys(COLUMNS, []) and caught.value.lines == 0  # type: ignore[attr-defined]


@pytest.mark.parametrize("changed", COLUMNS)
def test_outputs_that_change_meanwhile_are_refused(changed: str) -> None:
    outputs: Dict[str, List[int]] = {name: [] for name in COLUMNS}
    source = Meddling(outputs[changed], [b"A <a> 1 +0000\n", b"A <a> 2 +0000\n"])
    with pytest.raises(ValueError, match="has changed its length") as caught:
        parse_idents_into(source, **outputs)  # type: ignore[arg-type]
    assert caught.value.lines == 1 and outputs["seconds"][:1] == [1]  # type: ignore[attr-defined]
    assert {name: len(output) for name, output in outputs.items()} == {**dict.fromkeys(COLUMNS, 1), changed: 2}


def test_outputs_are_of_one_length_when_a_signal_raises(alarms: Callable[[float], None]) -> None:
    data = b"A <a> 5 +0100\nbanana\nB <b>\n" * 20000
    heard = 0
    for turn in range(100):
        outputs = arrays() if turn % 2 else lists()
        try:
            try:
                alarms(0.0002 + turn * 0.00005)
                parse_idents_into(io.BytesIO(data) if turn % 3 else data, **outputs)
            finally:
                alarms(0)
        except Heard as error:
            heard += 1
            lines = getattr(error, "lines", 0)
            assert {len(output) for output in outputs.values()} == {1 + lines}
            assert list(outputs["seconds"][1:7]) == [5, 0, 0, 5, 0, 0][:lines]
            assert list(getattr(error, "refused", Refused())) == list(range(2, 1 + lines, 3))
    assert heard > 20


def test_a_signal_is_heard_between_some_thousand_lines(alarms: Callable[[float], None]) -> None:
    data = (LINES[0] + b"\n") * 2000000
    for source in sources(data):
        begun = time.perf_counter()
        with pytest.raises(Heard) as caught:
            alarms(0.03)
            parse_idents_into(source, **arrays())
        assert time.perf_counter() - begun < 1
        assert 0 < getattr(caught.value, "lines") < 1500000


def test_other_threads_go_on_meanwhile() -> None:
    data = b"A <" + b"x" * (64 << 20) + b"> 5 +0000"
    works = threading.Thread(target=lambda: parse_idents_into(data, **arrays()))
    works.start()
    ticks = 0
    while works.is_alive():
        time.sleep(0.001)
        ticks += 1
    works.join()
    assert ticks > 5


def test_pieces_have_the_lines_of_the_whole() -> None:
    for width in (1, 7, 65535, 65536, 65537, 1 << 20):
        lines = [b"A <%d> %d +0100" % (i, i) for i in range(5)] + [b"x" * width, b"B" * width + b" <b> 9 -0000", b"", b"C <c>"] * 3
        data = b"\n".join(lines)
        for source in sources(data):
            columns, refused = columns_of(source)
            assert columns["seconds"] == [0, 1, 2, 3, 4] + [0, 9, 0, 0] * 3 and refused.lines == len(lines)
            ends = [*columns["starts"][1:], len(data) + 1]
            assert [data[begin : end - 1] for begin, end in zip(columns["starts"], ends)] == lines
            told = [data[begin:end] for begin, end in zip(columns["email_starts"], columns["email_ends"])]
            assert told == [b"%d" % i for i in range(5)] + [b"", b"b", b"", b"c"] * 3
            assert [error.text for error in refused.values()] == [b"x" * width, b""] * 3


def test_places_count_from_where_a_file_is_read_first() -> None:
    file = io.BytesIO(b"12345\n" + DATA)
    file.seek(6)
    columns, _ = columns_of(file)
    assert columns == DUE


def test_the_extension_takes_what_the_package_gives() -> None:
    nothing = (None,) * 10
    wrong: List[Tuple[Type[Exception], Callable[[], object]]] = [
        (TypeError, lambda: _library.add_idents((), 0, Refused(), 0, DATA, 0, 5)),
        (TypeError, lambda: _library.add_idents(nothing[1:], 0, Refused(), 0, DATA, 0, 5)),
        (TypeError, lambda: _library.add_idents([*nothing], 0, Refused(), 0, DATA, 0, 5)),  # type: ignore[arg-type]
        (TypeError, lambda: _library.add_idents((5, *nothing[1:]), 0, Refused(), 0, DATA, 0, 5)),
        (AttributeError, lambda: _library.add_idents((*nothing[1:], {}), 0, Refused(), 0, DATA, 0, 5)),
        (TypeError, lambda: _library.add_idents(nothing, 0, None, 0, DATA, 0, 5)),  # type: ignore[arg-type]
        (AttributeError, lambda: _library.add_idents(nothing, 0, {}, 0, DATA, 0, 5)),  # type: ignore[arg-type]
        (TypeError, lambda: _library.add_idents(nothing, 0, Refused(), "", DATA, 0, 5)),  # type: ignore[arg-type]
        (TypeError, lambda: _library.add_idents(nothing, 0, Refused(), 0, "A", 0, 1)),  # type: ignore[arg-type]
        (IndexError, lambda: _library.add_idents(nothing, 0, Refused(), 0, DATA, -1, 5)),
        (IndexError, lambda: _library.add_idents(nothing, 0, Refused(), 0, DATA, 5, 4)),
        (IndexError, lambda: _library.add_idents(nothing, 0, Refused(), 0, DATA, 0, len(DATA) + 1)),
    ]
    for kind, call in wrong:
        with pytest.raises(kind):
            call()
    so_far, starts = Refused(), [7]
    assert _library.add_idents((*nothing[:4], starts, *nothing[5:]), 1, so_far, 100, DATA, 47, 66) == so_far.lines == 1
    assert starts == [7, 147]


def test_the_status_of_a_refused_line_is_that_of_its_refusal() -> None:
    assert DUE["statuses"][3] == NoIdentity.status and message_of(DUE["messages"][3]) == "missingEmail"
