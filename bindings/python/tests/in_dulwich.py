"""Runs the tests that come with dulwich, by its own dates and by those of dulwich_dates.py: all but those named here have to end alike.

Debian's package lacks the data of some tests, which fail in both runs.
"""

from __future__ import annotations

import re
import subprocess
import sys
from typing import Dict

MODULES = [f"dulwich.tests.test_{name}" for name in ("fastexport", "objects", "patch", "porcelain", "reflog", "walk")]
RUN = "import sys, dulwich_dates, pytest; {}sys.exit(pytest.main(sys.argv[1:]))"
WORDS = ["-q", "--tb=no", "-rpfE", "-p", "no:cacheprovider", "--pyargs", *MODULES]
# both of an offset --700, with which Git shows no date
DIFFER = {"TimezoneTests::test_format_timezone_double_negative", "TimezoneTests::test_parse_timezone_double_negative"}


def begin(before: str) -> "subprocess.Popen[str]":
    return subprocess.Popen([sys.executable, "-c", RUN.format(before), *WORDS], stdout=subprocess.PIPE, text=True)


def ended(run: "subprocess.Popen[str]") -> Dict[str, str]:
    """How each test ended, by its name."""
    said, _ = run.communicate()
    assert run.returncode in (0, 1), said
    ends = re.findall(r"^(PASSED|FAILED|ERROR) .*?(\w+::\w+)(?: - .*)?$", said, re.MULTILINE)
    found = {name: how for how, name in ends}
    assert len(found) == len(ends), "two tests have one name"
    return found


def main() -> None:
    runs = [begin(""), begin("dulwich_dates.put_in(); ")]
    theirs, ours = map(ended, runs)
    assert theirs.keys() == ours.keys()
    other = {name: (theirs[name], ours[name]) for name in theirs if theirs[name] != ours[name]}
    assert other == dict.fromkeys(DIFFER, ("PASSED", "FAILED")), other
    passed = sum(how == "PASSED" for how in ours.values())
    assert passed > 250, f"only {passed} tests pass"
    print(f"bindings/python/dulwich_dates.py: {passed} tests of dulwich pass as by its own dates, and {len(other)} differ")


if __name__ == "__main__":
    main()
