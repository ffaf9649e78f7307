"""Prints two tables: the least nanoseconds of a call, in rounds in which ours and the peers take turns, and seconds for a million lines."""

from __future__ import annotations

import random
import subprocess
import sys
import tempfile
import time
import timeit
from array import array
from datetime import datetime, timedelta, timezone
from email.utils import parsedate_to_datetime
from zoneinfo import ZoneInfo

import numpy
import pygit2
from dateutil.parser import isoparse
from gix_date import ISO8601_STRICT, Moment, Signature, Time, git
from gix_date import parse, parse_carefully, parse_header, parse_idents_into, parse_lines, parse_lines_into

ROUNDS, CALLS = 25, 4000
PLACES = ("starts", "name_ends", "email_starts", "email_ends", "date_starts", "date_ends")
HEADER, STRICT, MAIL = "1660797906 +0800", "2022-08-18T12:45:06+08:00", "Thu, 18 Aug 2022 12:45:06 +0800"
WITHOUT_OFFSET, LINE = "2022-08-18T12:45:06", f"A U Thor <author@example.com> {HEADER}"
AT = datetime(2023, 10, 27, 12, tzinfo=timezone(timedelta(hours=2)))
IN_NEW_YORK = AT.astimezone(ZoneInfo("America/New_York"))
MOMENT, TIME = Moment.from_datetime(AT), Time(1660797906, 28800)
IN_RULE = MOMENT._replace(zone="EST5EDT,M3.2.0,M11.1.0")


def read_signature() -> Time:
    return Signature.from_line(LINE).read_time()


def committed(folder: str) -> pygit2.Commit:
    """A commit of a repository that is made in a folder."""
    repository, author = pygit2.init_repository(folder, True), pygit2.Signature("A U Thor", "author@example.com", 1660797906, 480)
    return repository[repository.create_commit(None, author, author, "", repository.TreeBuilder().write(), [])]


FOLDER = tempfile.TemporaryDirectory()
COMMIT = committed(FOLDER.name)


def committer_time() -> tuple[int, int]:
    committer = COMMIT.committer
    return committer.time, committer.offset


TABLE = [
    ("`parse_header`", HEADER, lambda: parse_header(HEADER)),
    ("`parse`", HEADER, lambda: parse(HEADER)),
    ("`parse`", STRICT, lambda: parse(STRICT)),
    ("`parse_carefully`", STRICT, lambda: parse_carefully(STRICT)),
    ("`datetime.fromisoformat`", STRICT, lambda: datetime.fromisoformat(STRICT)),
    ("`dateutil.parser.isoparse`", STRICT, lambda: isoparse(STRICT)),
    ("`numpy.datetime64`", WITHOUT_OFFSET, lambda: numpy.datetime64(WITHOUT_OFFSET)),
    ("`parse`", MAIL, lambda: parse(MAIL)),
    ("`email.utils.parsedate_to_datetime`", MAIL, lambda: parsedate_to_datetime(MAIL)),
    ("`parse` at a `Moment`", "2 weeks ago", lambda: parse("2 weeks ago", MOMENT)),
    ("by a rule", "2 weeks ago", lambda: parse("2 weeks ago", IN_RULE)),
    ("at a `datetime` with an offset", "2 weeks ago", lambda: parse("2 weeks ago", AT)),
    ("at a `datetime` in New York", "2 weeks ago", lambda: parse("2 weeks ago", IN_NEW_YORK)),
    ("`git.approxidate`", "last friday at noon", lambda: git.approxidate("last friday at noon", MOMENT)),
    ("`Signature.from_line`, `read_time`", LINE, read_signature),
    ("`committer` of a commit by `pygit2`, its time and offset", "", committer_time),
    ("`Time.format(ISO8601_STRICT)`", "", lambda: TIME.format(ISO8601_STRICT)),
    ("`datetime.isoformat`", "", AT.isoformat),
    ("`Time`", "", lambda: Time(1660797906, 28800)),
    ("`Time.to_datetime`", "", TIME.to_datetime),
    ("`Time.from_datetime`", "", lambda: Time.from_datetime(AT)),
]


def nanoseconds() -> list[float]:
    """The least of the rounds, for each row of the table."""
    least = [float("inf")] * len(TABLE)
    for _ in range(ROUNDS):
        for at, (_, _, call) in enumerate(TABLE):
            least[at] = min(least[at], timeit.timeit(call, number=CALLS) / CALLS * 1e9)
    return least


def seconds(work) -> float:
    """The least of five runs."""
    runs = []
    for _ in range(5):
        begun = time.perf_counter()
        work()
        runs.append(time.perf_counter() - begun)
    return min(runs)


def main() -> None:
    print("| Call | Text | Nanoseconds |\n|---|---|---|")
    for (call, text, _), least in zip(TABLE, nanoseconds()):
        print(f"| {call} | {f'`{text}`' if text else ''} | {least:.0f} |")
    source = random.Random(7)
    with tempfile.NamedTemporaryFile() as file, tempfile.NamedTemporaryFile() as ident_file:
        file.write(b"".join(b"%d +0800\n" % source.randrange(1700000000) for _ in range(1000000)))
        file.flush()
        line = b"A U Thor <author@example.com> %d +0800\n"
        ident_file.write(b"".join(line % source.randrange(1000000000, 1700000000) for _ in range(1000000)))
        ident_file.flush()

        def program() -> None:
            with open(file.name, "rb") as lines:
                subprocess.run([sys.argv[1], "parse"], stdin=lines, stdout=subprocess.DEVNULL, check=True)

        def into() -> None:
            with open(file.name, "rb") as lines:
                assert not parse_lines_into((array("q"), array("i")), lines)

        def into_numpy() -> None:
            with open(file.name, "rb") as lines:
                assert not parse_lines_into((numpy.empty(1000000, "int64"), numpy.empty(1000000, "int32")), lines)

        def idents(**outputs) -> None:
            with open(ident_file.name, "rb") as lines:
                assert not parse_idents_into(lines, **outputs)

        def idents_into_numpy() -> None:
            idents(seconds=numpy.empty(1000000, "int64"), offsets=numpy.empty(1000000, "int32"), messages=numpy.empty(1000000, "int32"))

        def all_into_numpy() -> None:
            narrow = {name: numpy.empty(1000000, "int32") for name in ("offsets", "statuses", "messages")}
            idents(**narrow, **{name: numpy.empty(1000000, "int64") for name in ("seconds", *PLACES)})

        def each() -> None:
            with open(file.name, "rb") as lines:
                assert sum(1 for _ in parse_lines(lines)) == 1000000

        print("\n| A million lines | Seconds |\n|---|---|")
        for name, work in (
            ("the program", program),
            ("`parse_lines_into`, two arrays", into),
            ("`parse_lines_into`, two arrays of numpy", into_numpy),
            ("`parse_lines`", each),
            ("`parse_idents_into` of identity lines of 46 bytes, seconds, offsets and messages in arrays of numpy", idents_into_numpy),
            ("all that it tells", all_into_numpy),
        ):
            print(f"| {name} | {seconds(work):.2f} |")


if __name__ == "__main__":
    main()
