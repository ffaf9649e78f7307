"""The dates of dulwich, by its own functions and by those of dulwich_dates.py, beside Git's answers.

Where they differ, the line is of a kind that is named here, and Git says who is right. The page on lines lists them.
"""

from __future__ import annotations

import importlib.util
import os
import random
import re
import shutil
import subprocess
from dataclasses import astuple
from itertools import product
from pathlib import Path
from types import ModuleType
from typing import Any, Callable, Dict, Iterator, List, Optional, Tuple

import pytest

import rows
from gix_date import parse_header

objects = pytest.importorskip("dulwich.objects")
errors = pytest.importorskip("dulwich.errors")
PAGE = Path(__file__).parents[3] / "docs/SIGNATURES.md"
needs_git = pytest.mark.skipif(shutil.which("git") is None, reason="no git is here")
Date = Optional[Tuple[int, int]]


def load() -> ModuleType:
    """The example, from where it stands."""
    spec = importlib.util.spec_from_file_location("dulwich_dates", Path(__file__).parents[1] / "dulwich_dates.py")
    assert spec and spec.loader
    module = importlib.util.module_from_spec(spec)
    spec.loader.exec_module(module)
    return module


ours: Any = load()


def told(call: Callable[..., Any], *arguments: object) -> Any:
    """What a function answers, or the word for its refusal."""
    try:
        return call(*arguments)
    except (errors.ObjectFormatException, ValueError, IndexError):
        return "refused"


def date_of(call: Callable[[bytes], Any], line: bytes) -> Date:
    """The seconds and the offset that a function reads of a line, or None."""
    answer = told(call, line)
    return None if answer == "refused" or answer[1] is None else (answer[1], answer[2][0])


def date_shown(shown: str) -> Date:
    """The same of what Git shows, `5 +0530`."""
    found = re.fullmatch(r"(\d+) ([-+])(\d+)(\d\d)", shown)
    return (int(found[1]), (int(found[3]) * 60 + int(found[4])) * (-60 if found[2] == "-" else 60)) if found else None


# What lines are like that are not read alike, and whether dulwich reads them, and ours, and Git shows their date.
DIFFERENCES = {
    "a sign where digits are due": (r">\s*[-+]|>\s*\d+ +[-+][-+]", "dulwich"),
    "a NUL in the name or the email": (r"^[^>]*\0", "dulwich"),
    "other bytes than one space around the numbers": (r">(?! \d+ [-+]\d+$)", "ours, Git"),
    "no space after the seconds, of which git fsck says badDate": (r">\s*\d+[^ \d]", "Git"),
    "an offset of more than 35791394 minutes": (r"[-+]\d{8,}", "Git|dulwich, Git"),
    "seconds beyond 63 bits, or an offset beyond 32": (r"> \d{19,} |[-+]\d{10,}$", "dulwich, ours, Git"),
}


def lines_of_rows() -> Iterator[Tuple[bytes, Date]]:
    """Each identity line of the rows, with the date that Git shows."""
    for row in (row for name in ("idents.rows", "ident_faults.rows") for _, row in rows.rows_of(name)):
        call, line, *_, due = row.split(b"\t")
        if call == b"git_time":
            yield rows.unescaped(line), date_shown(due.decode())


def name_of(line: bytes, readers: str) -> str:
    """The difference that such a line makes for these who read it."""
    text = line.decode("latin-1")
    return next(name for name, (like, who) in DIFFERENCES.items() if re.search(like, text) and re.fullmatch(who, readers))


def test_rows_of_git_are_read_alike_or_differ_by_name() -> None:
    met = set()
    for line, git in lines_of_rows():
        theirs, mine = date_of(objects.parse_time_entry, line), date_of(ours.parse_time_entry, line)
        if not theirs == mine == git:
            dates = {"dulwich": theirs, "ours": mine, "Git": git}
            met.add(name_of(line, ", ".join(reader for reader, date in dates.items() if date)))
        # beyond 63 bits ours answers the seconds that are written, which a check of dulwich refuses, and Git shows 0
        assert mine == git or mine is None or mine[0] >= 1 << 63 and git == (0, 0) == (0, mine[1])
    assert met == set(DIFFERENCES)


class Repository:
    """A new repository of Git, without settings of a user."""

    def __init__(self, folder: Path) -> None:
        self.folder = folder
        self.run("init", "-q", "--bare")

    def run(self, *words: str, given: bytes = b"") -> bytes:
        settings = {"GIT_CONFIG_GLOBAL": "/dev/null", "GIT_CONFIG_NOSYSTEM": "1"}
        command = ["git", f"--git-dir={self.folder}", *words]
        return subprocess.run(command, input=given, env={**os.environ, **settings}, stdout=subprocess.PIPE, stderr=subprocess.STDOUT).stdout

    def add(self, author: bytes) -> str:
        """The ID of a commit with this author."""
        tree = self.run("hash-object", "-w", "-t", "tree", "--stdin").strip()
        text = b"tree %s\nauthor %s\ncommitter A <a@b> 5 +0000\n\n" % (tree, author)
        return self.run("hash-object", "-w", "-t", "commit", "--stdin", "--literally", given=text).decode().strip()

    def shown(self, commit: str) -> str:
        return self.run("log", "-1", "--format=%ad", "--date=raw", commit).decode().strip()

    def message(self, commit: str) -> str:
        """What `git fsck` says of it."""
        found = re.search(rf"in commit {commit}: (\w+)", self.run("fsck").decode())
        return found[1] if found else "passes"


def table() -> List[List[str]]:
    """The rows of the page's table of dates."""
    _, rest = PAGE.read_text().split("\n    Date  ")
    return [re.split("  +", row.strip()) for row in rest.split("\n\n")[0].split("\n")[1:]]


def seconds_and_offset(answer: Any) -> str:
    return "refused" if answer == "refused" else f"{answer[0]}, {answer[1]}"


@needs_git
@pytest.mark.parametrize("date, header, git_time, message, dulwich", table())
def test_the_page_says_what_is_answered(tmp_path: Path, date: str, header: str, git_time: str, message: str, dulwich: str) -> None:
    line, repository = b"A <a@b> " + date.encode(), Repository(tmp_path)
    commit = repository.add(line)
    assert git_time == (repository.shown(commit) or "no date")
    assert message[0].lower() + message[1:] == repository.message(commit)
    assert dulwich == seconds_and_offset(date_of(objects.parse_time_entry, line) or "refused")
    assert header.replace("none", "refused") == seconds_and_offset(told(lambda: astuple(parse_header(date))))


@needs_git
def test_lines_that_git_writes_are_read_and_written_alike(tmp_path: Path) -> None:
    source, repository = random.Random(7), Repository(tmp_path)
    names = [b"A U Thor <author@example.com>", b"J\xf6rg <j@x>", "J\u00f6rg <>".encode(), b" <a b@c>"]
    offsets = [b"%+03d%02d" % (source.randint(-25, 25), source.randrange(60)) for _ in range(200)] + [b"-0000", b"+0000", b"-0030"]
    dates = [b"%s %d %s" % (source.choice(names), source.randrange(1 << 40), offset) for offset in offsets]
    stream = b"".join(b"commit refs/heads/main\ncommitter %s\ndata 0\n\n" % date for date in dates)
    repository.run("fast-import", "--quiet", "--date-format=raw-permissive", given=stream)
    objects_there = repository.run("cat-file", "--batch-all-objects", "--batch")
    lines = re.findall(rb"^committer (.*)$", objects_there, re.MULTILINE)
    assert sorted(lines) == sorted(dates)
    for line in lines:
        who, seconds, (offset, negative) = answer = ours.parse_time_entry(line)
        assert answer == objects.parse_time_entry(line)
        for write in (ours.format_timezone, objects.format_timezone):
            assert b"%s %d %s" % (who, seconds, write(offset, negative)) == line


def test_offsets_alone_are_read_alike_but_for_signs() -> None:
    alike = [b"+0100", b"-0130", b"-0000", b"+0060", b"+700", b"+1", b"+051800", b"+9999"]
    for text in [*alike, b"", b"+", b"-", b"0100", b"+01:00", b" +0100", b"UTC"]:
        assert told(ours.parse_timezone, text) == told(objects.parse_timezone, text)
    for text, theirs in {b"--700": (25200, True), b"+-0100": (-3600, False), b"+ 100": (3600, False), b"+1_0_0": (3600, False)}.items():
        assert (told(objects.parse_timezone, text), told(ours.parse_timezone, text)) == (theirs, "refused")


def test_offsets_are_written_alike_but_for_a_minus_before_others_than_0() -> None:
    for offset in (*range(-90000, 90001, 300), 59, 3601, -1, 60, 360000, -360000):
        assert told(ours.format_timezone, offset) == told(objects.format_timezone, offset)
        if offset <= 0:
            assert told(ours.format_timezone, offset, True) == told(objects.format_timezone, offset, True)
    for offset, theirs, mine in [(25200, b"--700", b"+0700"), (60, b"-0059", b"+0001"), (1800, b"-0030", b"+0030")]:
        assert (objects.format_timezone(offset, True), ours.format_timezone(offset, True)) == (theirs, mine)


def test_put_in_commits_are_read_as_git_shows_them(monkeypatch: pytest.MonkeyPatch) -> None:
    line = b"A <a@b> 5 +0100 x"
    text = b"tree %s\nauthor %s\ncommitter A <a@b> 5 -0000\n\n" % (b"0" * 40, line)
    with pytest.raises(errors.ObjectFormatException):
        objects.Commit.from_string(text).author_time
    for module, name in product((objects, ours.porcelain, ours.reflog), ("parse_time_entry", "parse_timezone", "format_timezone")):
        if hasattr(module, name):
            monkeypatch.setattr(module, name, getattr(module, name))
    ours.put_in()
    commit = objects.Commit.from_string(text)
    assert (commit.author, commit.author_time, commit.author_timezone) == (b"A <a@b>", 5, 3600)
    commit.message = b"x"
    assert commit.as_raw_string() == text.replace(b" x\n", b"\n") + b"x"
