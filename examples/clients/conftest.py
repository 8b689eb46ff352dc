"""Makes the fixture known to the tests of this folder."""
from pytest_fenloth import core  # noqa: F401
