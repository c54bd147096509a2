"""Tills and a manager that work shift after shift at a station that is killed, and those of its
moments at which it is killed."""

import os
import time

from shared.histories import list_chapters, write_rows
from shared.station import (
    CLEAR, CLOSE_SHIFT, LOCK, READ, WRITE, address_point, ask, ask_site, is_accepted, read_site,
)  # fmt: skip
from tests.steady_peers import POINTS, Till, refusal

SHIFTS = int(os.environ.get("SHIFTS", 90))
SALES_OF_SHIFT = int(os.environ.get("SALES_OF_SHIFT", 12))
MANAGER = 1
NAMED_SHIFT = 0x22  # in the address of a sale
SHIFT, STATUS = 0x76, 0x78  # items
NOT_SIGNED_ON, CLEARED = 1, 1
WATCH = 0.0005  # seconds between two looks at a folder
CLOSE_LINE = write_rows(ask_site(MANAGER, CLOSE_SHIFT, 0)).rstrip()


def address_named_sale(point, shift, number):
    """A sale of the shift of this number."""
    return address_point(point) + bytes([NAMED_SHIFT]) + bytes.fromhex(f"{shift:04d}{number:04d}")


class ShiftTill(Till):
    """A till that collects the sales of each shift, and those that are left of earlier ones. The
    manager closes a shift once all tills have collected enough."""

    def __init__(self, runs, number, seed, tills):
        super().__init__(runs, number, seed)
        self.tills, self.shift = tills, 1
        # Of each point the shift, and how many of its sales are collected, as far as it knows.
        self.collected = {point: (1, 0) for point in range(1, POINTS + 1)}

    def come(self):
        super().come()
        self.look_at_shift()

    def look_at_shift(self):
        message, = self.ask(read_site(self.number, self.token()))
        if not refusal(message):
            self.shift = int.from_bytes(message.items[SHIFT], "big")

    def step(self):
        super().step()
        if self.chance.random() < 0.02:
            self.look_at_shift()
        if self.number == MANAGER:
            self.manage()

    def manage(self):
        """Closes the shift, if all tills together have collected enough."""
        count = sum(len(till.told_cleared) for till in self.tills)
        if count >= SALES_OF_SHIFT * self.shift and self.shift <= SHIFTS:
            message, = self.ask(ask_site(self.number, CLOSE_SHIFT, self.token()))
            if is_accepted(message):
                self.shift += 1

    def sell(self, p):
        """Clears what it finds at this point, the oldest shift first."""
        for _ in range(3):
            shift, count = self.collected[p]
            address = address_named_sale(p, shift, count + 1)
            message, = self.ask(ask(self.number, READ, self.token(), address))
            if refusal(message) == NOT_SIGNED_ON:
                return
            if refusal(message):
                if shift == self.shift:
                    return
                self.collected[p] = (shift + 1, 0)
            elif message.items[STATUS][0] == CLEARED or self.collect(p, address):
                self.collected[p] = (shift, count + 1)
            else:
                return

    def collect(self, p, address):
        """Locks and clears a sale; whether it is cleared then, by whichever till."""
        lock, clear = (
            ask(self.number, WRITE, self.token(), address, (one, b"")) for one in (LOCK, CLEAR)
        )
        _, message = self.ask(lock, clear)
        if refusal(message) == 0:
            name = p, int(address[2:4].hex()), int(address[4:].hex())
            self.told_cleared.append(name)
        return refusal(message) in (0, 22)


def wait_for_chapter_end(folder, seconds):
    """Waits so long, or until a chapter is about to end: it gets the seal behind a CloseShift as
    its last line, or the next one's copy. Returns whether one is. What an earlier run has left
    there doesn't count."""
    end = time.monotonic() + seconds
    size, had_copy = list_chapters(folder)[-1].stat().st_size, find_copies(folder)
    while time.monotonic() < end:
        last = list_chapters(folder)[-1]
        found = last.stat().st_size
        if not had_copy and find_copies(folder) or found != size and is_ended(last):
            return True
        size = found
        time.sleep(WATCH)
    return False


def find_copies(folder):
    return [path.name for path in folder.glob("*.starting")]


def is_ended(path):
    """Whether the last line of a chapter is the seal behind a CloseShift, or begins as one."""
    with open(path, "rb") as file:
        file.seek(max(0, path.stat().st_size - 200))
        lines = file.read().splitlines()
    return len(lines) > 1 and lines[-1].startswith(b"# se") and lines[-2] == CLOSE_LINE
