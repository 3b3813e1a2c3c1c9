"""A diagnostic server of a control unit: UDS (ISO 14229-1:2013) over ISO-TP (ISO 15765-2:2016) on classic CAN or CAN FD.

`Unit` is the server, to which frames are given with their moments. `uds_unit.bus.UnitBus` is a unit on a bus of python-can,
`python3 -m uds_unit` the same as a program, and `uds_unit.pytest_plugin` has fixtures for pytest.

    from uds_unit import Unit
    with Unit("demo/setup.toml") as unit:
        frames = unit.frame(0.0, 0x7E0, bytes.fromhex("021003"))
        unit.advance(5.0)
        assert unit.session == "default"
"""
from .faults import ClosedFault, FrameFault, MemoryFault, SetupFault, UnitFault
from .unit import Codes, Frame, Unit, Values

__all__ = ["ClosedFault", "Codes", "Frame", "FrameFault", "MemoryFault", "SetupFault", "Unit", "UnitFault", "Values"]
__version__ = "0.2.0"
