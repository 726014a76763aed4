"""The sizes of a table, as docs/LAYOUT.md has them."""
import typing

INSTRS = 16
REGISTERS, QUEUES = 16, 4


class Layout(typing.NamedTuple):
    """What follows from the callers and the blocks of a table."""

    callers: int
    blocks: int

    @property
    def data(self):
        """How many data cells there are."""
        return self.callers * (INSTRS + 2) + 63 + 3 * self.blocks

    @property
    def first_data(self):
        """The number of the first data cell, after the current transaction and the requests."""
        return 1 + self.callers

    @property
    def first_log(self):
        return self.first_data + self.data

    @property
    def durable(self):
        """How many cells have a durable word."""
        return self.first_log + self.callers * (2 * self.data + 1)

    def ticket(self, caller):
        """The number of a caller's ticket cell."""
        return self.first_data + caller * (INSTRS + 2)

    @property
    def bound(self):
        """The most steps of a call."""
        writes = 15 * self.data + (INSTRS + 1) * self.callers + 15
        return INSTRS + 1 + 3 * writes + 4 * (7 * self.data + 7)
