"""What is wrong with a file."""

from __future__ import annotations

from ._library import fault_name


class Fault(Exception):
    """A fault of a file: its number and name, as in the messages of the program pbfrow, and where it is.

    str() gives the line that the program has for it, such as `fault 21 CompressedZlib at 98`, and what else is to be said of
    it behind a colon. Where a function of the caller failed, its exception is the `__cause__`.
    """

    #: The number of the fault: 10 to 18 and 60 of a frame, 61 and 62 of where an OSMHeader stands, 20 to 23 of a blob, 30 to
    #: 33 of a header block, 40 to 52 of a block, 65 where memory was refused.
    number: int
    #: The name of the fault.
    name: str
    #: The offset in the file, in bytes, at which the frame begins that has the fault.
    offset: int
    #: What else is to be said, or "".
    detail: str

    def __init__(self, number: int, offset: int, compression: int = 0, detail: str = "") -> None:
        super().__init__(number, offset, compression, detail)
        self.number, self.offset, self.detail = number, offset, detail
        self.name = fault_name(number, compression)

    def __str__(self) -> str:
        line = f"fault {self.number} {self.name} at {self.offset}"
        return f"{line}: {self.detail}" if self.detail else line

    @property
    def ends_file(self) -> bool:
        """Whether nothing behind this fault can be read: it is one of a frame."""
        return 10 <= self.number <= 18 or self.number == 60

