"""Makes dulwich read and write the dates of commits and tags as Git does, once `put_in` is called."""

from dulwich import errors, objects, porcelain, reflog
from gix_date import FsckId, fsck, git, parse_ident


def shown(line: bytes) -> tuple[bytes, int, tuple[int, bool]]:
    """Who, seconds, and the offset with whether it is -0000: what `git log` shows, unless `git fsck` says badDate of the date."""
    ident = parse_ident(line)
    fault = fsck(b"A <a> " + line[ident.places.seconds :])
    if ident.date is None or fault and fault.id is FsckId.BAD_DATE:
        raise ValueError(f"Git takes this for no date: {line!r}")
    return line[: ident.places.seconds].rstrip(), int(ident.date.seconds), (ident.date.shown.to_time().offset, ident.date.shown.minus_zero)


def parse_time_entry(value: bytes) -> tuple[bytes, int | None, tuple[int | None, bool]]:
    try:
        return shown(value)
    except ValueError as error:
        if b"> " in value:
            raise errors.ObjectFormatException(error) from error
        return value, None, (None, False)


def parse_timezone(text: bytes) -> tuple[int, bool]:
    if not text[1:].isdigit():
        raise ValueError(f"Git writes no such offset: {text!r}")
    return shown(b"<> 0 " + text)[2]


def format_timezone(offset: int, unnecessary_negative_timezone: bool = False) -> bytes:
    if offset % 60:
        raise ValueError(f"Git writes no part of a minute: {offset}")
    return b"-0000" if unnecessary_negative_timezone and not offset else git.offset_text(offset).encode()


def put_in() -> None:
    for module in (objects, porcelain, reflog):
        vars(module).update(parse_timezone=parse_timezone, format_timezone=format_timezone)
    vars(objects).update(parse_time_entry=parse_time_entry)
