"""What tests in Python need to serve chips. Where it isn't here they are left out, and the reason is named."""

import sys
import unittest
from pathlib import Path

sys.path.insert(0, str(Path(__file__).resolve().parent.parent / "python"))
from gpioserve import programs  # noqa: E402
from gpioserve.errors import NotServed  # noqa: E402


def require_gpioserve() -> str:
    """The program that serves, as GPIOSERVED names it. SkipTest where there is none, or no gpioserve."""
    try:
        programs.find("gpioserve")
        return " ".join(programs.served())
    except NotServed as fault:
        raise unittest.SkipTest(str(fault)) from fault
