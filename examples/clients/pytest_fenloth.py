"""A pytest fixture: os.getrandom and os.urandom are those of a core, once in each of its states.

A conftest.py has the line `from pytest_fenloth import core`. A test that takes `core` runs four times, on a core that is
empty, early, ready, and late. For some states alone, mark it:

    @pytest.mark.parametrize("core", ["empty", "late"], indirect=True)
"""
from __future__ import annotations

from typing import Iterator

import pytest

import fenloth


@pytest.fixture(name="core", params=fenloth.STATES)
def core(request: pytest.FixtureRequest) -> Iterator[fenloth.Core]:
    """A core in a state, in place of the machine's. After the test the core's record has to be lawful."""
    with fenloth.Core(state=request.param) as its, fenloth.patched(its):
        yield its
    verdict = its.check()
    assert verdict, verdict.words
