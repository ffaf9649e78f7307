"""What the docstrings say, and the names that modules have."""

from __future__ import annotations

import inspect
import pydoc
import re
from datetime import datetime
from pathlib import Path
from types import ModuleType
from typing import Any, Dict

import pytest

import gix_date
from gix_date import Format, Moment, Time, errors, git
from gix_date.git import DateKind


def examples(kind: object) -> Dict[str, str]:
    """The first example of each member, by its name."""
    return dict(re.findall(r"^ *- ([A-Z0-9_]+): [^`\n]*`([^`\n]+)`", kind.__doc__ or "", re.MULTILINE))


def test_examples_of_formats_are_printed() -> None:
    shown = examples(Format)
    assert list(shown) == [form.name for form in Format]
    for form in Format:
        assert gix_date.parse(shown[form.name]).format(form) == shown[form.name]
        assert getattr(gix_date, form.name) is form
    assert Time(1660118400, 0).format(Format.RFC2822).startswith("Wed, 10 ")
    assert Time(1659340800, 0).format(Format.RFC2822).startswith("Mon, 01 ")
    assert Time(1659340800, 0).format(Format.GIT_RFC2822).startswith("Mon, 1 ")


def test_examples_of_dates_are_shown() -> None:
    shown = examples(DateKind)
    assert list(shown) == [kind.name for kind in DateKind]
    time, later = Time(1251660000, 0), Moment(1251667200)
    for kind in DateKind:
        assert git.show_date(time, kind, later) == shown[kind.name]
    assert git.show_date(time, DateKind.HUMAN, Moment(1251832800)) == "Sun Aug 30 19:20"
    assert "`Sun Aug 30 19:20`" in (DateKind.__doc__ or "")


@pytest.mark.parametrize("module", [gix_date, errors, git])
def test_a_module_exports_what_it_has(module: ModuleType) -> None:
    own = {name for name, value in vars(module).items() if getattr(value, "__module__", None) == module.__name__ and name[0] != "_"}
    helpers = {"named"} if module is errors else set()
    assert own - helpers <= set(module.__all__)
    for name in module.__all__:
        assert inspect.getdoc(getattr(module, name))


def test_the_package_exports_what_it_imports() -> None:
    imported = {name for name, value in vars(gix_date).items() if name[0] != "_" and not inspect.ismodule(value)}
    assert imported - set(errors.__all__) - {"annotations"} == set(gix_date.__all__) - {"git", "GixDateError"}


def test_each_refusal_can_be_imported() -> None:
    for name in errors.__all__:
        assert getattr(gix_date, name) is getattr(errors, name)


def blocks_for(module: str) -> str:
    """The examples of the page on Python that a module needs, with those before."""
    page = (Path(__file__).parents[3] / "docs/PYTHON.md").read_text()
    plain = [block for block in re.findall(r"```python\n(.*?)```", page, re.DOTALL) if not block.startswith(">>>")]
    (last,) = (at for at, block in enumerate(plain) if f"import {module}\n" in block)
    return "".join([plain[0], *plain[last : last + 1]][: last + 1])


@pytest.mark.parametrize("module", ["numpy", "pandas", "polars"])
def test_examples_for_other_packages(module: str) -> None:
    for needed in ("numpy", module):
        pytest.importorskip(needed)
    names: Dict[str, Any] = {}
    exec(blocks_for(module), names)
    due = [datetime(2022, 8, 18, 4, 45, 6), datetime(1970, 1, 1, 0, 0, 5)]
    assert not names["refused"] and names["times"].tolist() == due
    if module == "pandas":
        assert [time.to_pydatetime().replace(tzinfo=None) for time in names["frame"]["time"]] == due
        assert names["frame"]["offset"].tolist() == [28800, 0] and names["frame"]["time"][0].tzinfo is not None
    if module == "polars":
        assert names["table"]["time"].to_list() == due and names["table"]["offset"].to_list() == [28800, 0]


def test_help_has_all_names() -> None:
    page = pydoc.plain(pydoc.render_doc(gix_date))
    for name in gix_date.__all__:
        assert re.search(rf"\b{name}\b", page), name
    for error in errors.__all__:
        assert re.search(rf"\b{error}\b", pydoc.plain(pydoc.render_doc(errors)))
