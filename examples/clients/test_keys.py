"""Tests of two key makers on a core in each state: python3 -m pytest test_keys.py"""
import os
import secrets

import pytest


class NotReady(Exception):
    """No key can be made yet."""


def good_key():
    try:
        return os.getrandom(32, os.GRND_NONBLOCK)
    except BlockingIOError:
        raise NotReady from None


def careless_key():
    key = bytearray(32)
    try:
        key[:] = os.getrandom(32, os.GRND_NONBLOCK)
    except BlockingIOError:
        pass  # the fault: the key is now 32 zeros
    return bytes(key)


def test_good_key(core):
    if core.state == "ready":
        assert core.gave(good_key())
    else:
        with pytest.raises(NotReady):
            good_key()


@pytest.mark.xfail(strict=True, reason="takes zeros for a key")
@pytest.mark.parametrize("core", ["empty", "early", "late"], indirect=True)
def test_careless_key(core):
    assert core.gave(careless_key())


@pytest.mark.parametrize("core", ["late"], indirect=True)
def test_token_waits(core):
    assert core.gave(bytes.fromhex(secrets.token_hex(16)))
