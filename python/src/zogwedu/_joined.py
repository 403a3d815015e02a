"""Archives of a package, opened as one. No record has bytes of two of them."""
from typing import List, Optional, Sequence

from ._files import Part
from ._library import Lent, Opened, fault_between
from ._problems import Refused


def open_joined(lent: Lent, front: bool, parts: Sequence[Part]) -> Opened:
    """Opens archives that follow one another. Each has to be one by itself; with `front` they end with the first one
    that isn't."""
    if len(parts) < 2:
        return Opened(lent, front)
    if front:
        lent.length = _end_of_front(lent, parts)
        return Opened(lent, front)
    try:
        opened = Opened(lent)
    except Refused:
        _refuse_first(lent, parts)
        raise
    if not all(_begins_record(opened, part) for part in parts):
        owner = lent.owner
        opened.close(lambda _: True)
        lent.owner = owner
        lent.take_again()
        _refuse_first(lent, parts)
        raise AssertionError("archives that are good by themselves aren't when they are joined")
    return opened


def archive_at(parts: Sequence[Part], offset: int) -> Optional[str]:
    """The name of the archive that has the byte at an offset."""
    return next((part.name for part in parts if part.offset <= offset < part.offset + part.length), None)


def _refuse_first(lent: Lent, parts: Sequence[Part]) -> None:
    """Raises the fault of the first archive that isn't one by itself."""
    for part in parts:
        fault = fault_between(lent, part.offset, part.offset + part.length)
        if fault is not None:
            raise fault


def _end_of_front(lent: Lent, parts: Sequence[Part]) -> int:
    """Where the first archive ends that isn't one by itself, or the last one."""
    ends = [part.offset + part.length for part in parts]
    return next((end for part, end in zip(parts, ends) if fault_between(lent, part.offset, end)), ends[-1])


def _begins_record(opened: Opened, part: Part) -> bool:
    """Whether a record begins where an archive does that has any."""
    if not part.length:
        return True
    position = _first_from(opened, part.offset)
    return position < opened.count() and opened.rows(position, 1)[0][0] == part.offset


def _first_from(opened: Opened, offset: int) -> int:
    """The position of the first record that doesn't begin before an offset."""
    low, high = 0, opened.count()
    while low < high:
        middle = (low + high) // 2
        if opened.rows(middle, 1)[0][0] < offset:
            low = middle + 1
        else:
            high = middle
    return low


def counts_of(opened: Opened, parts: Sequence[Part]) -> List[int]:
    """How many records each archive has."""
    firsts = [_first_from(opened, part.offset) for part in parts]
    return [end - begin for begin, end in zip(firsts, [*firsts[1:], opened.count()])]
