"""Dates of many lines."""

from __future__ import annotations

from array import array
from contextlib import suppress
from io import TextIOBase
from typing import IO, Callable, Dict, Iterator, List, Optional, Sequence, Tuple, Union

from . import _library
from .errors import GixDateError
from .moments import Moment, Now, parts_in_zone
from .options import RawOffsets
from .times import Time

_CHUNK = 1 << 20
_PIECE = 1 << 16
_Source = Union[bytes, IO[bytes]]
_Output = Union["array[int]", memoryview, List[int]]


class Refused(Dict[int, GixDateError]):
    """The refusals of lines, by the indices into the outputs.

    - lines: how many lines were read, with those that are refused
    """

    def __init__(self) -> None:
        super().__init__()
        self.lines = 0


def _wrong_source() -> TypeError:
    return TypeError("the source has to be bytes, or a file opened for bytes that waits for them")


def _chunks(source: _Source) -> Iterator[bytes]:
    """Parts of whole lines. The last may lack its newline."""
    if isinstance(source, bytes):
        yield source
        return
    # joined once a line ends, so that a long line is not copied with each part that is read
    rest: List[bytes] = []
    while True:
        more = source.read(_CHUNK)
        if not isinstance(more, bytes):
            # None of a file that does not wait is no end
            raise _wrong_source()
        if not more:
            break
        end = more.rfind(b"\n") + 1
        if end:
            yield b"".join((*rest, more[:end]))
            rest.clear()
        rest.append(more[end:])
    last = b"".join(rest)
    if last:
        yield last


def _ends(chunk: bytes) -> Iterator[int]:
    """Where pieces of whole lines end, each of some thousand lines: between them signals are heard."""
    end = 0
    while end < len(chunk):
        begin = end
        end = chunk.rfind(b"\n", begin, begin + _PIECE) + 1 or chunk.find(b"\n", begin + _PIECE) + 1 or len(chunk)
        yield end


# the readers of the library, and those of Git's dates
_DATES, _HEADERS, _SIGNATURES, _APPROXIMATE, _EXACT = 0, 2, 3, 4, 5


def _check_source(source: _Source) -> None:
    if not isinstance(source, bytes) and (isinstance(source, TextIOBase) or not hasattr(source, "read")):
        raise _wrong_source()


def _check(source: _Source, now: Optional[Now], raw_offsets: Optional[RawOffsets]) -> Optional[Moment]:
    """The moment. Refuses what no line could be read of or at."""
    _check_source(source)
    try:
        _library.parse("@0", now, raw_offsets=raw_offsets)
    except GixDateError as error:
        raise type(error)() from None
    return now if now is None or isinstance(now, Moment) else Moment(*parts_in_zone(now))


def _check_with_moment(source: _Source, now: Now) -> Moment:
    """The moment, without which no line could be read."""
    moment = _check(source, now, None)
    if moment is None:
        raise TypeError("a moment has to be an aware datetime or a Moment, not NoneType")
    return moment


def parse_lines(
    source: _Source, now: Optional[Now] = None, *, raw_offsets: Optional[RawOffsets] = None
) -> Iterator[Union[Time, GixDateError]]:
    """The time of each line as `parse` reads it, or its refusal, which is given and not raised.

    The source is bytes, or a file opened for bytes, which is read in pieces of a megabyte. A line ends at a newline, which the last
    may lack. A moment is refused by `NaiveDatetime`, `InvalidInstant` and `InvalidZone`.
    """
    return _times(_DATES, source, _check(source, now, raw_offsets), raw_offsets)


def parse_date_lines(source: _Source, now: Now) -> Iterator[Union[Time, GixDateError]]:
    """The time of each line as `parse_date` reads it, or its refusal without a place. All else is as for `gix_date.parse_lines`."""
    return _times(_EXACT, source, _check_with_moment(source, now), None)


def approxidate_lines(source: _Source, now: Now) -> Iterator[Union[Time, GixDateError]]:
    """The time of each line as `approxidate` reads it, or its refusal without a place. All else is as for `gix_date.parse_lines`.

    A line of which nothing is understood is the moment.
    """
    return _times(_APPROXIMATE, source, _check_with_moment(source, now), None)


def _times(
    reader: int, source: _Source, now: Optional[Moment], raw_offsets: Optional[RawOffsets]
) -> Iterator[Union[Time, GixDateError]]:
    for chunk in _chunks(source):
        begin = 0
        for end in _ends(chunk):
            yield from _library.times_of_lines(reader, chunk, begin, end, now, raw_offsets)
            begin = end


# what buffers have as their format, by the bytes of a number
_FORMATS = {8: ("q", "l"), 4: ("i", "l")}


def _output(output: object, size: int) -> _Output:
    """An output for numbers of so many bytes."""
    if isinstance(output, list):
        return output
    if isinstance(output, array):
        if output.typecode in _FORMATS[size] and output.itemsize == size:
            return output
    else:
        view = memoryview(output)  # type: ignore[arg-type]
        if not view.readonly and view.ndim == 1 and view.format in _FORMATS[size] and view.itemsize == size:
            return view
    raise TypeError("the outputs have to be lists, or arrays or writable buffers of int64 and int32")


def _begin(given: Sequence[object], outputs: Sequence[_Output]) -> int:
    """How many lines are in the outputs that were given. Those that are filled from their front have none."""
    lengths = {-1 if isinstance(output, memoryview) else len(output) for output in outputs}
    if len(lengths) > 1 or len({id(output) for output in given}) < len(outputs):
        raise ValueError("the outputs have to be different ones of one length")
    return max([0, *lengths])


def _into(source: _Source, add: Callable[[Refused, int, bytes, int, int], object]) -> Refused:
    """Adds the lines of a source, in pieces: of data that stand at an index of the source, what stands from an index to another."""
    refused, front = Refused(), 0
    try:
        for chunk in _chunks(source):
            first = 0
            for end in _ends(chunk):
                add(refused, front, chunk, first, end)
                first = end
            front += len(chunk)
    except BaseException as error:
        # one that takes no attributes is raised as it is
        with suppress(AttributeError, TypeError):
            error.lines, error.refused = refused.lines, refused  # type: ignore[attr-defined]
        raise
    return refused


def _times_into(
    reader: int, outputs: Tuple[object, object], source: _Source, now: Optional[Moment], raw_offsets: Optional[RawOffsets]
) -> Refused:
    both = _output(outputs[0], 8), _output(outputs[1], 4)
    begin = _begin(outputs, both)

    def add(refused: Refused, front: int, data: bytes, first: int, end: int) -> None:
        _library.add_lines(both, begin, refused, reader, data, first, end, now, raw_offsets)

    return _into(source, add)


def parse_lines_into(
    outputs: Tuple[object, object],
    source: _Source,
    now: Optional[Now] = None,
    *,
    raw_offsets: Optional[RawOffsets] = None,
) -> Refused:
    """Puts the seconds and the offset of each line into two outputs.

    Two lists, or an `array('q')` and an `array('i')`, of one length, are appended to. Other writable buffers, of int64 and int32 as
    those of numpy, are filled from their front, and refused by `ValueError` where lines are left. A refused line gives 0 and 0.

    The refusals are answered by the indices into the outputs, with the number of `lines`. After any exception the outputs have one
    length. It has the number of `lines` that are there, and those `refused`, as attributes. All else is as for `parse_lines`.
    """
    return _times_into(_DATES, outputs, source, _check(source, now, raw_offsets), raw_offsets)


def parse_headers_into(outputs: Tuple[object, object], source: _Source) -> Refused:
    """Puts the time of each line, as `parse_header` reads it, into two outputs. All else is as for `parse_lines_into`."""
    _check_source(source)
    return _times_into(_HEADERS, outputs, source, None, None)


def parse_signatures_into(outputs: Tuple[object, object], source: _Source) -> Refused:
    """Puts the time of each signature line into two outputs. All else is as for `parse_lines_into`.

    Refuses a line as `Signature.from_line` and `Signature.read_time` do.
    """
    _check_source(source)
    return _times_into(_SIGNATURES, outputs, source, None, None)


def parse_date_lines_into(outputs: Tuple[object, object], source: _Source, now: Now) -> Refused:
    """Puts the time of each line, as `parse_date` reads it, into two outputs. All else is as for `gix_date.parse_lines_into`."""
    return _times_into(_EXACT, outputs, source, _check_with_moment(source, now), None)


def approxidate_lines_into(outputs: Tuple[object, object], source: _Source, now: Now) -> Refused:
    """Puts the time of each line, as `approxidate` reads it, into two outputs. All else is as for `gix_date.parse_lines_into`.

    A line of which nothing is understood is the moment.
    """
    return _times_into(_APPROXIMATE, outputs, source, _check_with_moment(source, now), None)


# the bytes of a number in each output of identity lines
_SIZES = (8, 4, 4, 4, 8, 8, 8, 8, 8, 8)


def parse_idents_into(
    source: _Source,
    *,
    seconds: object = None,
    offsets: object = None,
    statuses: object = None,
    messages: object = None,
    starts: object = None,
    name_ends: object = None,
    email_starts: object = None,
    email_ends: object = None,
    date_starts: object = None,
    date_ends: object = None,
) -> Refused:
    """Puts what `parse_ident` and `fsck` tell of each identity line into outputs, of which each may be left out.

    - seconds, offsets: those of the `GitTime` that Git shows, or 0 and 0 without a date; that of `-0000` is 0 too
    - statuses: 0, or `NoIdentity.status` of a refused line
    - messages: 0 if `git fsck` says nothing, or else from 1 on which `FsckId` of all it says: `list(FsckId)[message - 1]`
    - starts: where the line begins, and its name; `name_ends`: where the name ends
    - email_starts, email_ends: where the email begins and ends
    - date_starts, date_ends: where the date begins and ends, with its offset; a line without a date has one place for both

    Statuses, messages and offsets are of int32, and all others of int64. Places are indices into the source: an email is
    `source[email_starts[i]:email_ends[i]]`. Those in a file count from where it was read first. A line that is refused, by `NoIdentity`,
    has its message, its status and its start, and leaves 0 in all others. All else is as for `parse_lines_into`.
    """
    given = (seconds, offsets, statuses, messages, starts, name_ends, email_starts, email_ends, date_starts, date_ends)
    outputs = tuple(None if output is None else _output(output, size) for output, size in zip(given, _SIZES))
    begin = _begin([output for output in given if output is not None], [output for output in outputs if output is not None])
    _check_source(source)

    def add(refused: Refused, front: int, data: bytes, first: int, end: int) -> None:
        _library.add_idents(outputs, begin, refused, front, data, first, end)

    return _into(source, add)
