"""What goes wrong, as exceptions."""
from typing import Optional

DATE_FORMS = "YYYY, YYYY-MM, YYYY-MM-DD, YYYY-MM-DDThh:mmZ or YYYY-MM-DDThh:mm:ssZ"


class WarcError(Exception):
    """What the library reports. `text` is what the program `warc` prints for it.

    `code` is its number in warc.h, or 0 if it has none; `name` its number and name, such as "F10 End" or
    "P1 NoCapture"; `offset` the offset in the archive, where it is about one.
    """

    def __init__(self, text: str, code: int = 0, offset: Optional[int] = None) -> None:
        super().__init__(text)
        self.text = text
        self.code = code
        self.offset = offset

    @property
    def name(self) -> str:
        """The number and name, without the offset."""
        return self.text.split(" at ")[0]


class Refused(WarcError):
    """The archive is refused: F1 to F14, at `offset`."""


class CompressedError(WarcError):
    """The file is compressed, and damaged or torn at `offset`: that of a member, in the compressed file. Or it is a
    package, and its ZIP contradicts itself there, or an archive in it is damaged.

    `length` is the number of damaged bytes, in a piece of a file; it is None where nothing was read after `offset`. Its
    cause is what zlib or the module for zstd says, or an EOFError where the file ends too early. It is raised for zstd,
    too, where Python has no module for it; the cause is then an ImportError.
    """

    def __init__(self, text: str, offset: int, length: Optional[int] = None) -> None:
        super().__init__(text, offset=offset)
        self.length = length


class Changed(WarcError):
    """The bytes aren't what they were when the archive was opened. The archive stays as it was."""


class NoBody(WarcError):
    """There is no body: P1 to P10, or E2 NoCapture.

    `chosen` and `given` are the positions of the capture and of its origin, where they are known.
    """

    def __init__(self, text: str, code: int = 0, chosen: Optional[int] = None, given: Optional[int] = None) -> None:
        super().__init__(text, code)
        self.chosen = chosen
        self.given = given


class Undecodable(WarcError, ValueError):
    """A stored body can't be decoded: a coding is unknown, its bytes are damaged, or a limit is reached.

    `coding` is the coding at which that happened.
    """

    def __init__(self, text: str, coding: str = "") -> None:
        super().__init__(text)
        self.coding = coding


class NoRecord(WarcError, IndexError):
    """There is no record at the position: E1 NoRecord. The message says the position, where it is known."""

    def __init__(self, text: str, code: int = 0, position: Optional[int] = None, count: int = 0) -> None:
        super().__init__(text, code)
        if position is not None:
            self.args = (f"{text}: no record has the position {position}, of {count}",)


class BadDate(WarcError, ValueError):
    """A text is no date. The message has the text, and the forms of a date."""

    def __init__(self, text: str, code: int = 0, date: Optional[bytes] = None) -> None:
        super().__init__(text, code)
        if date is not None:
            named = repr(date.decode("utf-8", "surrogateescape"))
            self.args = (f"{text} {named}: a date is {DATE_FORMS}",)


class Closed(WarcError, ValueError):
    """The archive is closed."""


class ViewsAlive(WarcError, BufferError):
    """`close()` can't close the archive, since memoryviews of its bytes are in use. It stays open."""


class NotMade(WarcError, ValueError):
    """No record is made: M1 to M5."""


class WriteFailed(WarcError):
    """A write failed, or memory ran out while writing. `sent` is how many bytes went out."""

    def __init__(self, text: str, code: int = 0, sent: int = 0) -> None:
        super().__init__(f"{text} after {sent}", code)
        self.sent = sent
