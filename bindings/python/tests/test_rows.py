"""The rows of outside values, and the wrong ones, each of which has to be told."""

from __future__ import annotations

import pytest

import rows


@pytest.mark.parametrize("name", rows.names())
def test_rows_agree(name: str) -> None:
    count, differ = rows.run(name)
    assert count > 0
    assert not differ


def test_there_are_all_files() -> None:
    assert len(rows.names()) >= 20


def test_wrong_rows_are_told() -> None:
    count, differ = rows.run("wrong.rows")
    assert count > 0
    assert len(differ) == count
