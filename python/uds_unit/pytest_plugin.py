"""Fixtures for pytest: a unit on a virtual bus for each test, and its journal in the report where the test fails.

The setup is that of the ini key `uds_setup`, or what a fixture `uds_setup` of your own returns: a path, or bytes.

    def test_session(uds_unit):
        uds_unit.bus.send(can.Message(arbitration_id=0x7E0, data=bytes.fromhex("021003"), is_extended_id=False))
        assert uds_unit.bus.recv(1).data[1] == 0x50
        assert uds_unit.unit.holder == "workshop"

The unit takes frames in order: after a request without an answer send `3E00` and wait for its answer.
"""
import contextlib
import itertools
from collections.abc import Iterator
from dataclasses import dataclass
from typing import TYPE_CHECKING, Any

import pytest

if TYPE_CHECKING:
    import can

    from .bus import UnitBus

_UNIT = pytest.StashKey["UnitBus"]()
_channels = itertools.count()


@dataclass
class UnitTest:
    """What a test gets: the unit on its bus, and the tester's end of that bus."""

    unit: "UnitBus"
    bus: "can.BusABC"


def pytest_addoption(parser: pytest.Parser) -> None:
    parser.addini("uds_setup", "the setup of the fixture uds_unit, a TOML file, from the folder of the ini file on")


@pytest.fixture
def uds_setup(pytestconfig: pytest.Config) -> Any:
    """The setup of the unit: a path, or the bytes of a setup. Override it for another one."""
    name = pytestconfig.getini("uds_setup")
    if not name:
        pytest.fail("the fixture uds_unit wants the ini key uds_setup, or a fixture uds_setup", pytrace=False)
    ini = pytestconfig.inipath
    return (pytestconfig.rootpath if ini is None else ini.parent) / name


@pytest.fixture
def uds_unit(uds_setup: Any, request: pytest.FixtureRequest) -> Iterator[UnitTest]:
    """A unit with a journal on a virtual bus of python-can, and the tester's end of the bus."""
    try:
        import can

        from .bus import UnitBus
    except ImportError as fault:
        # (were the tests skipped, a build would pass that tested nothing)
        raise pytest.fail.Exception(f"the fixture uds_unit wants python-can: {fault}", pytrace=False) from None

    channel = f"uds_unit_{next(_channels)}"
    with can.Bus(interface="virtual", channel=channel) as far, can.Bus(interface="virtual", channel=channel) as near:
        with UnitBus(far, uds_setup, journal=True) as unit:
            request.node.stash[_UNIT] = unit
            yield UnitTest(unit, near)
            # (else the thread would wait for a frame up to bus.PATIENCE)
            unit._stopped.set()
            with contextlib.suppress(can.CanError):
                near.send(can.Message(is_error_frame=True))


@pytest.hookimpl(hookwrapper=True)
def pytest_runtest_makereport(item: pytest.Item) -> Iterator[None]:
    report = (yield).get_result()
    unit = item.stash.get(_UNIT, None)
    if unit is not None and report.failed:
        # (JUnit XML has the failure's own sections, which nearly each kind of failure takes, and not the report's)
        add = getattr(report.longrepr, "addsection", lambda *section: report.sections.append(section))
        add("journal of the unit", unit.journal())
