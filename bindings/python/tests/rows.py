"""Runs rows of outside values (crates/gix_date_rows/data) by the calls of this package, and tells those that differ."""

from __future__ import annotations

import re
import sys
from pathlib import Path
from typing import IO, Callable, Dict, Iterable, Iterator, List, Mapping, NamedTuple, Optional, Tuple, TypeVar, Union

import gix_date
from gix_date import Format, GixDateError, Moment, RawOffsets, Signature, Texts, Time, WithoutOffset, git

FOLDER = Path(__file__).parents[3] / "crates/gix_date_rows/data"
ANY = ("none", "1698400800 0 0", "1698400800 0 3600", "1698400800 0 7200", "-1 0 -34200", "0 0 93599")
RULES = {
    "both": (RawOffsets.QUARTERS, RawOffsets.WHOLE_MINUTES),
    "quarters": (RawOffsets.QUARTERS,),
    "minutes": (RawOffsets.WHOLE_MINUTES,),
}
WITHOUT_OFFSET = {"utc": WithoutOffset.UTC, "local": WithoutOffset.MOMENTS_ZONE}
TEXTS = {"careful": Texts.CAREFUL, "all": Texts.ALL}
# Calls that the library for C lacks.
LEFT_OUT = {"to_zoned", "now_local"}

Text = Union[str, bytes]
Named = TypeVar("Named")


def file_of_utc(leaps: int) -> bytes:
    """A TZif file of UTC, with so many leap seconds. Without them it is all ASCII."""
    counts = b"".join(count.to_bytes(4, "big") for count in (0, 0, leaps, 0, 1, 4))
    return b"TZif".ljust(20, b"\0") + counts + b"\0" * 6 + b"UTC\0" + b"\0\0\0\1" * 2 * leaps


class NoRow(Exception):
    """The line is no row."""


ESCAPE = re.compile(rb"\\(?:([tnr\\])|x([0-9a-fA-F]{2})|u\{([0-9a-fA-F]+)\}|)")
PLAIN = {b"t": b"\t", b"n": b"\n", b"r": b"\r", b"\\": b"\\"}


def unescaped(field: bytes) -> bytes:
    """The bytes of a field without its escapes."""

    def meant(found: "re.Match[bytes]") -> bytes:
        letter, byte, character = found.groups()
        if letter:
            return PLAIN[letter]
        if byte:
            return bytes([int(byte, 16)])
        if character:
            return chr(int(character, 16)).encode()
        raise NoRow

    return ESCAPE.sub(meant, field)


def both(text: bytes) -> List[Text]:
    """A text as bytes, and as a str if it is one."""
    try:
        return [text, text.decode()]
    except UnicodeDecodeError:
        return [text]


def told(call: Callable[[], object], text: Text = b"") -> str:
    """What a call answers, or the name of its refusal after `!`, with its place in bytes."""
    try:
        return str(call())
    except GixDateError as error:
        name = f"!{type(error).__name__}"
        return name if error.place is None else f"{name} {in_bytes(text, error.place)}"


def in_bytes(text: Text, index: int) -> int:
    """A place in bytes, of an index into a text."""
    return index if isinstance(text, bytes) else len(text[:index].encode())


def agreeing(answers: Iterable[str]) -> str:
    """The one answer of all."""
    found = set(answers)
    return found.pop() if len(found) == 1 else "!CallsDiffer"


def of_time(time: Time) -> str:
    return f"{time.seconds} {time.offset}"


def number(field: bytes) -> int:
    try:
        return int(field)
    except ValueError:
        raise NoRow from None


def time_of(seconds: bytes, offset: bytes) -> Time:
    return Time(number(seconds), number(offset))


def named(names: Mapping[str, Named], field: bytes) -> Named:
    if field.decode() not in names:
        raise NoRow
    return names[field.decode()]


def moment(field: bytes) -> Optional[Moment]:
    """A moment: `none`, or its seconds, its nanoseconds and its zone."""
    if field == b"none":
        return None
    parts = field.split(b" ", 2)
    if len(parts) < 3:
        raise NoRow
    seconds, nanoseconds, zone = parts
    return Moment(number(seconds), number(nanoseconds), zone_of(zone.decode()))


def zone_of(zone: str) -> Union[int, str, bytes]:
    """A zone: an offset, the name of a TZif file, or a rule."""
    if re.fullmatch("[-+]?[0-9]+", zone):
        return int(zone)
    return (FOLDER / zone).read_bytes() if zone.endswith(".tzif") else zone


def needed(field: bytes) -> Moment:
    """A moment that a call needs."""
    found = moment(field)
    if found is None:
        raise NoRow
    return found


def parse(rules: bytes, at: bytes, text: bytes) -> str:
    moments = [moment(one.encode()) for one in ANY] if at == b"any" else [moment(at)]
    return agreeing(parsed(rule, now, text) for rule in named(RULES, rules) for now in moments)


def parsed(rule: RawOffsets, now: Optional[Moment], text: bytes) -> str:
    """The same by a call for one text and by those for many, which raise what they refuse of the moment."""

    def line() -> str:
        (answer,) = gix_date.parse_lines(text, now, raw_offsets=rule)
        if isinstance(answer, GixDateError):
            raise answer
        return of_time(answer)

    answers = [told(lambda: of_time(gix_date.parse(given, now, raw_offsets=rule))) for given in both(text)]
    if text and b"\n" not in text:
        answers.append(told(line))
    return agreeing(answers)


def parse_carefully(rules: bytes, without_offset: bytes, texts: bytes, at: bytes, text: bytes) -> str:
    without, which, now = named(WITHOUT_OFFSET, without_offset), named(TEXTS, texts), moment(at)
    return agreeing(
        told(lambda: of_time(gix_date.parse_carefully(given, now, raw_offsets=rule, without_offset=without, texts=which)), given)
        for rule in named(RULES, rules)
        for given in both(text)
    )


def in_lines(into: Callable[[Tuple[List[int], List[int]], bytes], gix_date.Refused], text: bytes) -> List[str]:
    """What a call for many lines answers, if a text is a line of three."""
    if b"\n" in text:
        return []

    def line() -> str:
        outputs: Tuple[List[int], List[int]] = ([], [])
        refused = into(outputs, b"\n" + text + b"\n5 +0100")
        if 1 in refused:
            assert (outputs[0][1], outputs[1][1], refused[1].text) == (0, 0, text)
            raise refused[1]
        return f"{outputs[0][1]} {outputs[1][1]}"

    return [told(line)]


def parse_header(text: bytes) -> str:
    answers = [told(lambda: of_time(gix_date.parse_header(given))) for given in both(text)]
    return agreeing(answers + in_lines(gix_date.parse_headers_into, text))


def is_canonical_header(text: bytes) -> str:
    return agreeing("yes" if gix_date.is_canonical_header(given) else "no" for given in both(text))


def header_text(seconds: bytes, offset: bytes) -> str:
    time = time_of(seconds, offset)
    text = told(time.to_header)
    shown = str(time.seconds) if text.startswith("!") else text
    return text if str(time) == shown else "!DisplayDiffers"


def format(name: bytes, seconds: bytes, offset: bytes) -> str:
    time, form = time_of(seconds, offset), named(Format.__members__, name)
    return printed(time, told(lambda: time.format(form)), told(lambda: time.format_or_unix(form)))


def format_by_pattern(pattern: bytes, seconds: bytes, offset: bytes) -> str:
    time, form = time_of(seconds, offset), pattern.decode()
    return printed(time, told(lambda: time.format(form)), told(lambda: time.format_or_unix(form)))


def printed(time: Time, text: str, always: str) -> str:
    """A text, if the call agrees that gives the seconds where there is none."""
    return text if always == (str(time.seconds) if text.startswith("!") else text) else "!CallsDiffer"


def cut_signature(line: bytes) -> str:
    def parts(given: Text) -> str:
        cut = Signature.from_line(given)
        if str(cut).encode() != line:
            return "!DisplayDiffers"
        return f"{cut.name}<{cut.email}>{cut.time}"

    return agreeing(told(lambda: parts(given)) for given in both(line))


def signature_time(line: bytes) -> str:
    answers = [told(lambda: of_time(Signature.from_line(given).read_time())) for given in both(line)]
    return agreeing(answers + in_lines(gix_date.parse_signatures_into, line))


def write_signature(name: bytes, email: bytes, seconds: bytes, offset: bytes) -> str:
    time = time_of(seconds, offset)
    return agreeing(told(lambda: gix_date.write_signature(a, b, time)) for a in both(name) for b in both(email))


def readable(text: bytes) -> str:
    """Bytes as a str, of which no other bytes are the same."""
    return text.decode(errors="surrogateescape")


class Parts(NamedTuple):
    """What a call for many lines tells of one."""

    name: bytes
    email: bytes
    date: Optional[gix_date.IdentDate]


Found = Union[gix_date.Ident, Parts]
COLUMNS = (
    "seconds", "offsets", "statuses", "messages", "starts", "name_ends", "email_starts", "email_ends", "date_starts", "date_ends"
)  # fmt: skip


def columns_of(source: Union[bytes, IO[bytes]]) -> Tuple[Dict[str, List[int]], gix_date.Refused]:
    """All that a call for many lines tells."""
    columns: Dict[str, List[int]] = {name: [] for name in COLUMNS}
    return columns, gix_date.parse_idents_into(source, **columns)


def idents_of(block: bytes, columns: Dict[str, List[int]], refused: gix_date.Refused) -> Iterator[Union[Parts, GixDateError]]:
    """What is told of each line of a block. Of one that is refused it has to be its status, its message and its start alone."""
    for at, (seconds, offset, status, _, start, *places) in enumerate(zip(*columns.values())):
        name_end, email_start, email_end, date_start, date_end = places
        if at in refused:
            assert [seconds, offset, *places, status] == [0] * 7 + [gix_date.NoIdentity.status]
            assert refused[at].text == block[start:].split(b"\n")[0]
            yield refused[at]
            continue
        date = re.fullmatch(rb"([0-9]+)\s*([-+][0-9]+)", block[date_start:date_end])
        assert status == 0 and (date or [seconds, offset] == [0, 0] and date_start == date_end)
        shown = gix_date.IdentDate(date[1], date[2], gix_date.GitTime(seconds, offset)) if date else None
        yield Parts(block[start:name_end], block[email_start:email_end], shown)


def message_of(number: int) -> str:
    """What `git fsck` says, by its number among many lines."""
    return list(gix_date.FsckId)[number - 1].value if number else "none"


def by_each(line: bytes, shown: Callable[[Found], str]) -> str:
    """What is shown of a line by a call for it, and by one for a block of three lines if it can be one."""
    answers = [told(lambda: shown(gix_date.parse_ident(given))) for given in both(line)]

    def in_block() -> str:
        block = line.join([b"A <a> 5 +0100\n", b"\nB"])
        _, found, _ = idents_of(block, *columns_of(block))
        if isinstance(found, GixDateError):
            raise found
        return shown(found)

    return agreeing(answers if b"\n" in line else [*answers, told(in_block)])


def ident(line: bytes) -> str:
    return by_each(line, shown_ident)


def shown_ident(found: Found) -> str:
    return readable(b"%s<%s>%s" % (found.name, found.email, found.date.seconds if found.date else b""))


def ident_label(line: bytes) -> str:
    return by_each(line, shown_label)


def shown_label(found: Found) -> str:
    return readable(b"%s <%s>" % (found.name, found.email))


def ident_again(line: bytes) -> str:
    def again(given: Text) -> str:
        found = gix_date.parse_ident(given)
        if found.date is None or not found.comes_back:
            return "!NotBack"
        return readable(gix_date.write_ident_as_is(found.name, found.email, found.date.shown))

    return agreeing(told(lambda: again(given)) for given in both(line))


def ident_offset(line: bytes) -> str:
    return by_each(line, shown_offset)


def shown_offset(found: Found) -> str:
    return found.date.offset.decode() if found.date else "!NoDate"


def git_time(line: bytes) -> str:
    return by_each(line, shown_git_time_of)


def shown_git_time_of(found: Found) -> str:
    return f"{found.date.shown.seconds} {found.date.shown.offset:+05}" if found.date else "!NoDate"


def ident_time(line: bytes) -> str:
    return by_each(line, shown_time)


def shown_time(found: Found) -> str:
    return of_time(found.date.shown.to_time()) if found.date else "!NoDate"


def fsck_of(line: bytes) -> str:
    def message(given: Text) -> str:
        fault = gix_date.fsck(given)
        if fault is None:
            return "none"
        assert in_bytes(given, fault.place) <= len(line)
        return str(fault.id.value)

    def in_block() -> str:
        columns, _ = columns_of(line.join([b"A <a> 5 +0100\n", b"\nB"]))
        return message_of(columns["messages"][1])

    answers = [told(lambda: message(given)) for given in both(line)]
    return agreeing(answers if b"\n" in line else [*answers, told(in_block)])


def write_ident(name: bytes, email: bytes, seconds: bytes, offset: bytes) -> str:
    time = time_of(seconds, offset)
    return agreeing(told(lambda: readable(gix_date.write_ident(a, b, time))) for a in both(name) for b in both(email))


def place(text: Text, ignored: Optional[int]) -> str:
    return "none" if ignored is None else str(in_bytes(text, ignored))


def by_lines(
    alone: str,
    lines: Callable[[bytes, Moment], Iterator[Union[Time, GixDateError]]],
    into: Callable[[Tuple[List[int], List[int]], bytes, Moment], gix_date.Refused],
    text: bytes,
    now: Moment,
) -> str:
    """What is read of a text alone, if calls for many lines read it alike in a line of three. These tell no place."""
    if b"\n" in text:
        return alone
    block = text.join([b"\n", b"\n5"])
    outputs: Tuple[List[int], List[int]] = ([], [])
    _, line, _ = lines(block, now)
    refused = into(outputs, block, now).get(1)
    if isinstance(line, GixDateError):
        assert (line.text, line.place, repr(refused)) == (text, None, repr(line))
        answer, due = f"!{type(line).__name__}", alone.split(" ")[0]
    else:
        answer, due = of_time(line), alone.replace(" ?", "")
    left = f"{outputs[0][1]} {outputs[1][1]}"
    return alone if answer == due and left == ("0 0" if refused else answer) else "!CallsDiffer"


def parse_date(at: bytes, text: bytes) -> str:
    now = needed(at)
    alone = agreeing(told(lambda: of_time(git.parse_date(given, now).time), given) for given in both(text))
    return by_lines(alone, git.parse_date_lines, git.parse_date_lines_into, text, now)


def ignored(at: bytes, text: bytes) -> str:
    now = needed(at)
    return agreeing(told(lambda: place(given, git.parse_date(given, now).ignored), given) for given in both(text))


def has_offset(at: bytes, text: bytes) -> str:
    now = needed(at)
    return agreeing(told(lambda: "yes" if git.parse_date(given, now).has_offset else "no", given) for given in both(text))


def of_approximate(date: git.Approximate) -> str:
    return of_time(date.time) + ("" if date.understood else " ?")


def approxidate(at: bytes, text: bytes) -> str:
    now = needed(at)
    alone = agreeing(told(lambda: of_approximate(git.approxidate(given, now)), given) for given in both(text))
    return by_lines(alone, git.approxidate_lines, git.approxidate_lines_into, text, now)


def approximate_ignored(at: bytes, text: bytes) -> str:
    now = needed(at)
    return agreeing(told(lambda: place(given, git.approxidate(given, now).ignored), given) for given in both(text))


def of_expiry(expiry: Union[git.Approximate, git.Expires]) -> str:
    return expiry.name.lower() if isinstance(expiry, git.Expires) else of_time(expiry.time)


def expiry_date(at: bytes, text: bytes) -> str:
    now = needed(at)
    return agreeing(told(lambda: of_expiry(git.expiry_date(given, now)), given) for given in both(text))


def date_mode(name: bytes) -> str:
    def mode(given: Text) -> str:
        found = git.DateMode.of_name(given)
        return str(found) if git.DateMode.of_name(str(found)) == found else "!CallsDiffer"

    return agreeing(told(lambda: mode(given)) for given in both(name))


def counted(count: int, unit: git.AgeUnit) -> str:
    return f"{count} {unit.name.lower()}"[: None if count != 1 else -1]


def aged(time: Time, now: Moment) -> str:
    """The age of a time in the words of Git."""
    age = git.age_at(time, now)
    if age is None:
        return "in the future"
    return counted(age.count, age.unit) + (f", {counted(age.months, git.AgeUnit.MONTHS)}" if age.months else "") + " ago"


def show_date(mode: bytes, at: bytes, seconds: bytes, offset: bytes) -> str:
    time, now = time_of(seconds, offset), needed(at)
    try:
        kind = git.DateMode.of_name(mode).kind
    except git.UnknownMode:
        raise NoRow from None
    shown = [told(lambda: git.show_date(time, mode.decode(), now))]
    if kind is git.DateKind.RELATIVE:
        shown.append(told(lambda: aged(time, now)))
    return agreeing(iter(shown))


def show_git_time(mode: bytes, at: bytes, seconds: bytes, offset: bytes) -> str:
    time, now = gix_date.GitTime(number(seconds), number(offset)), needed(at)
    try:
        git.DateMode.of_name(mode)
    except git.UnknownMode:
        raise NoRow from None
    return agreeing(told(lambda: git.show_git_time(time, given, now)) for given in both(mode))


FRONTS = {b"own": b"format:", b"local": b"format-local:"}


def show_by_format(format: bytes, clock: bytes, at: bytes, seconds: bytes, offset: bytes) -> str:
    time, now = time_of(seconds, offset), needed(at)
    if clock not in FRONTS:
        raise NoRow
    front = FRONTS[clock]

    def shown(mode: Text) -> str:
        try:
            return git.show_date(time, mode, now)
        except GixDateError as error:
            if error.place is None:
                raise
            at_byte = len((mode[: error.place] if isinstance(mode, bytes) else mode[: error.place].encode())) - len(front)
            return f"!{type(error).__name__} {at_byte}"

    return agreeing(told(lambda: shown(mode)) for mode in both(front + format))


CALLS: Dict[str, Callable[..., str]] = {
    "parse": parse,
    "parse_carefully": parse_carefully,
    "parse_header": parse_header,
    "is_canonical_header": is_canonical_header,
    "header_text": header_text,
    "format": format,
    "format_by_pattern": format_by_pattern,
    "cut_signature": cut_signature,
    "signature_time": signature_time,
    "write_signature": write_signature,
    "ident": ident,
    "ident_label": ident_label,
    "ident_again": ident_again,
    "ident_offset": ident_offset,
    "git_time": git_time,
    "ident_time": ident_time,
    "fsck_of": fsck_of,
    "write_ident": write_ident,
    "parse_date": parse_date,
    "ignored": ignored,
    "has_offset": has_offset,
    "approxidate": approxidate,
    "approximate_ignored": approximate_ignored,
    "expiry_date": expiry_date,
    "date_mode": date_mode,
    "show_date": show_date,
    "show_git_time": show_git_time,
    "show_by_format": show_by_format,
}


def answer_to(row: bytes) -> Tuple[str, str]:
    """What a row's call answers, and what is due."""
    call, *fields, due = row.split(b"\t") if b"\t" in row else (b"", row)
    if call.decode() not in CALLS:
        raise NoRow
    arguments = [unescaped(field) for field in fields]
    wanted = due.decode() if due.startswith(b"!") else readable(unescaped(due))
    try:
        return CALLS[call.decode()](*arguments), wanted
    except TypeError as error:
        if "positional argument" in str(error):
            raise NoRow from None
        raise


def rows_of(name: str) -> Iterator[Tuple[int, bytes]]:
    """The rows of a file, with their lines, but for calls that are left out."""
    for at, row in enumerate((FOLDER / name).read_bytes().split(b"\n"), 1):
        if row and not row.startswith(b"#") and row.split(b"\t")[0].decode() not in LEFT_OUT:
            yield at, row


def differing(name: str) -> Iterator[Optional[str]]:
    """For each row of a file what differs, or None."""
    for at, row in rows_of(name):
        try:
            answer, due = answer_to(row)
        except NoRow:
            yield f"{name}:{at}: no row: {row!r}"
            continue
        yield None if answer == due else f"{name}:{at}: it answers {answer!r}: {row!r}"


def run(name: str) -> Tuple[int, List[str]]:
    """How many rows a file has, and what differs."""
    outcomes = list(differing(name))
    return len(outcomes), [outcome for outcome in outcomes if outcome is not None]


def names() -> List[str]:
    """The files of right rows that have rows of these calls."""
    return sorted(path.name for path in FOLDER.glob("*.rows") if path.name != "wrong.rows" and any(rows_of(path.name)))


def main() -> None:
    all_differ = 0
    for name in names():
        rows, differ = run(name)
        all_differ += len(differ)
        print(*differ, f"{name}: {rows} rows, {len(differ)} differ", sep="\n")
    sys.exit(1 if all_differ else 0)


if __name__ == "__main__":
    main()
