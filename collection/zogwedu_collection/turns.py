"""The turns of the server: which connections the system is asked about. waitress asks all of them in each turn what
they wait for, which takes longer than all else where there are thousands; here only those are asked that may have
changed."""
from __future__ import annotations

import select
from typing import Any, Dict, Set

from waitress import wasyncore  # type: ignore[import]

READS = select.EPOLLIN | select.EPOLLPRI
WRITES = select.EPOLLOUT
SECONDS = 1.0


class Turns:
    """What the system watches for the objects of a map, by their descriptors. An object is asked what it waits for when
    it is touched: when it was new, when something happened to it, and in each turn while a thread is at work for it."""

    def __init__(self, map: Dict[int, Any]) -> None:
        self.map = map
        self.poller = select.epoll()
        self.waited: Dict[int, int] = {}
        self.touched: Set[int] = set(map)
        self.at_work: Set[int] = set()

    def touch(self, descriptor: int) -> None:
        """Has an object asked again in the next turn."""
        self.touched.add(descriptor)

    def forget(self, descriptor: int) -> None:
        """Ends the watch over an object that is about to be closed: its descriptor will be another one's."""
        self.touched.discard(descriptor)
        self.at_work.discard(descriptor)
        if self.waited.pop(descriptor, 0):
            self.poller.unregister(descriptor)

    def ask(self, descriptor: int) -> None:
        """Asks an object what it waits for, and has the system watch for that alone."""
        it = self.map.get(descriptor)
        if it is None:
            self.at_work.discard(descriptor)
            return
        # This is looked at first: a thread that ends after that leaves it for one turn more.
        is_at_work = bool(getattr(it, "requests", None))
        wanted = (READS if it.readable() else 0) | (WRITES if it.writable() and not it.accepting else 0)
        before = self.waited.get(descriptor, 0)
        if wanted and not before:
            self.poller.register(descriptor, wanted)
        elif wanted and wanted != before:
            self.poller.modify(descriptor, wanted)
        elif before and not wanted:
            self.poller.unregister(descriptor)
        self.waited[descriptor] = wanted
        (self.at_work.add if is_at_work else self.at_work.discard)(descriptor)

    def turn(self) -> None:
        """Waits until something happens, and has it done."""
        touched, self.touched = self.touched | self.at_work, set()
        for descriptor in touched:
            self.ask(descriptor)
        for descriptor, flags in self.poller.poll(SECONDS):
            it = self.map.get(descriptor)
            if it is not None:
                self.touch(descriptor)
                wasyncore.readwrite(it, flags)

    def close(self) -> None:
        self.poller.close()
