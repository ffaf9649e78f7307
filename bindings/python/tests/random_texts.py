"""Compares the answers of this package with those of a C program, through_c.c, for random texts.

The arguments are the built program and how many texts there are.
"""

from __future__ import annotations

import random
import subprocess
import sys
from dataclasses import astuple
from typing import Callable, Iterator, List, Optional

import gix_date
from gix_date import GitTime, GixDateError, Moment, RawOffsets, Signature, Time, WithoutOffset, git

import rows
from rows import Text

NOW = Moment(1698400800, 0, 7200)


def pieces() -> List[bytes]:
    """Words of the rows."""
    found = set()
    for name in rows.names():
        for line in (rows.FOLDER / name).read_bytes().split(b"\n"):
            found.update(line.replace(b"\t", b" ").split(b" "))
    return sorted(found)


def texts(count: int) -> List[bytes]:
    """Random words with random marks between them, of which some bytes are changed."""
    source, words = random.Random(7), pieces()
    made = []
    for _ in range(count):
        marks = source.choices([b" ", b"-", b":", b".", b"", b" <", b"> "], [8, 2, 2, 1, 1, 1, 1], k=6)
        some = [source.choice(words) + mark for mark in marks[: source.randint(1, 6)]]
        text = bytearray(b"".join(some))
        if text and source.random() < 0.3:
            text[source.randrange(len(text))] = source.choice(b"0123456789 -+:<>.azAZ\x00\x80\xc3\xff")
        if source.random() < 0.1:
            at = source.randrange(len(text) + 1)
            text[at:at] = source.choice("é\u2003\U0001f600").encode()
        made.append(bytes(text).replace(b"\n", b" "))
    return made


def told(call: Callable[[Text], str], text: Text) -> str:
    try:
        return call(text)
    except GixDateError as error:
        return f"{error.status}|" + ("" if call in WITHOUT_PLACE else of_place(text, error.place))


def of_time(time: Time) -> str:
    return f"0 {time.seconds} {time.offset}|"


def of_place(text: Text, place: Optional[int]) -> str:
    return f"{-1 if place is None else rows.in_bytes(text, place)}|"


def header(text: Text) -> str:
    return of_time(gix_date.parse_header(text))


def date(text: Text) -> str:
    return of_time(gix_date.parse(text, NOW))


def careful(text: Text) -> str:
    rule, meaning = RawOffsets.WHOLE_MINUTES, WithoutOffset.MOMENTS_ZONE
    return of_time(gix_date.parse_carefully(text, NOW, raw_offsets=rule, without_offset=meaning)) + "-1|"


def exact(text: Text) -> str:
    read = git.parse_date(text, NOW)
    return of_time(read.time) + of_place(text, read.ignored)


def approximate(text: Text) -> str:
    read = git.approxidate(text, NOW)
    return of_time(read.time) + of_place(text, read.ignored)


def signature(text: Text) -> str:
    try:
        cut = Signature.from_line(text)
    except GixDateError as error:
        return f"{error.status} 0"
    return f"0 {sum(len(part.encode()) for part in (cut.name, cut.email, cut.time))}"


def ident(text: Text) -> str:
    try:
        found = gix_date.parse_ident(text)
    except GixDateError as error:
        return f" {error.status}"
    places = [rows.in_bytes(text, place) for place in astuple(found.places)]
    shown = found.date.shown if found.date else GitTime(0, 0)
    numbers = (*places, *astuple(shown), found.date is not None, found.comes_back)
    return " 0 " + " ".join(str(int(number)) for number in numbers)


def idents(given: List[bytes]) -> Iterator[str]:
    """What a call for all texts tells of each as an identity line."""
    columns, _ = rows.columns_of(b"".join(text + b"\n" for text in given))
    for seconds, offset, status, _, start, _, email, email_end, begin, end in zip(*columns.values()):
        places = f"{email - start} {email_end + 1 - start} {begin - start}"
        yield str(status) if status else f"0 {places} {seconds} {offset} {int(end > begin)}"


def due_of(line: str) -> str:
    """The same, of what the program answers to a text: the status of `ident` and its numbers, but for some."""
    status, *numbers = line.rsplit("|", 1)[1].split()[2:]
    return " ".join([status, *(numbers[at] for at in (0, 1, 2, 5, 6, 8))]) if numbers else status


WITHOUT_PLACE = (header, date)
CALLS = (header, date, careful, exact, approximate, signature, ident)


def main() -> None:
    program, count = sys.argv[1], int(sys.argv[2])
    given = texts(count)
    run = subprocess.run([program], input=b"\n".join(given) + b"\n", stdout=subprocess.PIPE, check=True)
    due = run.stdout.decode().splitlines()
    assert len(due) == count, f"{len(due)} answers to {count} texts"
    for text, line in zip(given, due):
        for one in rows.both(text):
            answer = "".join(told(call, one) for call in CALLS)
            if answer != line:
                sys.exit(f"{one!r}: C answers {line}, and Python {answer}")
    for text, told_at_once, line in zip(given, idents(given), due, strict=True):
        if told_at_once != due_of(line):
            sys.exit(f"{text!r}: C answers {line}, and Python {told_at_once} among many lines")
    read = sum("|0 " in line for line in due)
    assert count // 10 < read < count, f"{read} of {count} texts are dates"
    print(f"{count} random texts have the answers of the library through C; {read} of them are dates")


if __name__ == "__main__":
    main()
