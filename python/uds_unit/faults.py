"""What goes wrong with a unit, each with the text of the fault."""


class UnitFault(Exception):
    """Any fault of a unit."""


class SetupFault(UnitFault, ValueError):
    """The setup is at fault: the line that the program tells, as `config: empty`; or the library takes it, and Python's reader
    of TOML doesn't. Where the setup has a path, a note names the command that tells the fault's place."""


class ClosedFault(UnitFault):
    """The unit was closed."""


class FrameFault(UnitFault, ValueError):
    """No frame has this identifier, or so many bytes. Nothing was taken."""


class MemoryFault(UnitFault, MemoryError):
    """There is no memory, or 2^40 replies wait. Nothing is said of what the unit took: close it."""
