"""Shows how many commits of a repository were made at each hour of their authors' own clocks.

    python3 hours.py [--plot FILE] [WORDS OF GIT LOG]..

With --plot it draws them into a picture, such as hours.png, by matplotlib.
"""

from __future__ import annotations

import subprocess
import sys
from array import array
from collections import Counter
from typing import Counter as CounterOf
from typing import List

from gix_date import RawOffsets, parse_lines_into

WIDTH = 60


def hours(words: List[str]) -> CounterOf[int]:
    """How many commits of a log were made at each hour."""
    seconds, offsets = array("q"), array("i")
    command = ["git", "log", "--format=%ad", "--date=raw", *words]
    with subprocess.Popen(command, stdout=subprocess.PIPE) as log:
        assert log.stdout
        refused = parse_lines_into((seconds, offsets), log.stdout, raw_offsets=RawOffsets.WHOLE_MINUTES)
    if log.returncode:
        sys.exit(log.returncode)
    return Counter(
        (second + offset) // 3600 % 24 for at, (second, offset) in enumerate(zip(seconds, offsets)) if at not in refused
    )


def show(counted: CounterOf[int]) -> None:
    """Prints a bar for each hour."""
    most = max(counted.values(), default=1)
    for hour in range(24):
        count = counted[hour]
        print(f"{hour:02} {count:7} {'#' * -(-count * WIDTH // most)}".rstrip())


def draw(counted: CounterOf[int], path: str) -> None:
    """Draws a bar for each hour into a picture."""
    from matplotlib.figure import Figure  # type: ignore[import]

    figure = Figure(figsize=(8, 3))
    axes = figure.add_subplot(xlabel="hour", ylabel="commits", xticks=range(24))
    axes.bar(range(24), [counted[hour] for hour in range(24)])
    figure.savefig(path, bbox_inches="tight")


def main() -> None:
    """Shows or draws what is counted."""
    words = sys.argv[1:]
    if words[:1] == ["--plot"]:
        draw(hours(words[2:]), words[1])
    else:
        show(hours(words))


if __name__ == "__main__":
    main()
