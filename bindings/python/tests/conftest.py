"""What tests of several files are given."""

from __future__ import annotations

import signal
from types import FrameType
from typing import Callable, Iterator, Optional

import pytest

from failing import Heard


@pytest.fixture
def alarms() -> Iterator[Callable[[float], None]]:
    """Sends signals, of which each raises Heard, after some seconds and on; 0 ends them."""

    def hear(number: int, frame: Optional[FrameType]) -> None:
        raise Heard

    before = signal.signal(signal.SIGALRM, hear)
    yield lambda after: signal.setitimer(signal.ITIMER_REAL, after) and None
    signal.setitimer(signal.ITIMER_REAL, 0)
    signal.signal(signal.SIGALRM, before)
