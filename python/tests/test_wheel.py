"""Tests of the wheels that pip is given."""
import site
import sys
import tempfile
import unittest
import zipfile
from importlib.metadata import PathDistribution
from pathlib import Path
from unittest import mock

from wheel_of_unit import build_editable

PACKAGE = str(Path(__file__).resolve().parent.parent)


class WheelTests(unittest.TestCase):
    def test_editable(self) -> None:
        """By it Python finds the package where it is, and pytest its plugin."""
        with tempfile.TemporaryDirectory() as room, mock.patch.object(sys, "path", []):
            with zipfile.ZipFile(Path(room, build_editable(room))) as wheel:
                wheel.extractall(room)
            site.addsitedir(room)
            self.assertEqual(sys.path, [room, PACKAGE])
            (told,) = Path(room).glob("*.dist-info")
            plugins = PathDistribution(told).entry_points.select(group="pytest11")
            self.assertEqual([it.value for it in plugins], ["uds_unit.pytest_plugin"])


if __name__ == "__main__":
    unittest.main()
