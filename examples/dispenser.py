#!/usr/bin/env python3
"""A dispenser: examples/dispenser.py PORT POINT MILLILITRES [READING]
             examples/dispenser.py --door PATH POINT MILLILITRES [READING]

Listens at a site that `forecourt station` serves, at this port of 127.0.0.1 or at this door. Once
its fuelling point is released, nozzle 1 is lifted; it flows a litre at a time until the millilitres
are out or the preset is reached, waits while it is suspended, stops where a till ends it, and hangs
up. If the station is started again meanwhile, it connects again and goes on with what the site says
of its point. What it is told is printed. It can be run as often as its point is released.

Give READING, what the meter of nozzle 1 reads in millilitres. Without it the first Lift says 0. If
the site expects another reading, it refuses that Lift (17 MeterGap), which makes a row. The next
Lift says what the site expects. PROTOCOL.md has every identifier."""
import sys
import time

from talk import DETAIL, NOTICE, RESULT, Gone, Talk, explain, take_address

REPORT, DISPENSER = 3, 3
ONLINE, LIFT, FLOW, HANG_UP = 0x60, 0x62, 0x63, 0x64
OPEN, CLOSE, RELEASE, TERMINATE, SUSPEND, RESUME, PREPAY, TEST_RELEASE = (
    0x3C, 0x3D, 0x3E, 0x3F, 0x40, 0x41, 0x44, 0x45
)  # fmt: skip
NAMES = {
    OPEN: "open", CLOSE: "closed", RELEASE: "released", TERMINATE: "ended", SUSPEND: "suspended",
    RESUME: "resumed", PREPAY: "released, prepaid", TEST_RELEASE: "released for a test",
}  # fmt: skip
NOZZLE, READING, PRICE = 0x70, 0x71, 0x72
VOLUME_LIMIT, MONEY_LIMIT = 0x50, 0x51  # of a release: millilitres, cents
WRONG_STATE, METER_GAP = 10, 17  # refusals
INOPERATIVE, CLOSED, IDLE, CALLING = range(1, 5)
STARTED = range(6, 10)  # the states of a fuelling under way
# The states in which a point is behind a report.
HEARD = {LIFT: (CALLING, *STARTED), HANG_UP: (INOPERATIVE, CLOSED, IDLE)}
LITRE = 1_000


class Dispenser:
    def __init__(self, address, point, reading):
        self.point, self.reading, self.state = point, reading, None
        self.talk = Talk(address, [DISPENSER, point])
        self.come_online()

    def come_online(self):
        """Says that the dispenser is there, which is refused where the site has it online already;
        what stands at the point is told behind the reply."""
        self.is_released = self.is_suspended = self.is_ended = False
        self.limits = {}
        told = self.report(ONLINE)
        self.expect_accepted(ONLINE, told, WRONG_STATE)
        self.state = int.from_bytes(told.get(DETAIL, bytes([CLOSED])), "big")

    def note(self, items):
        """A till has changed what this point may do."""
        change = next(item for item in items if item in NAMES)
        print(f"point {self.point} is {NAMES[change]}", flush=True)
        if change in (RELEASE, PREPAY, TEST_RELEASE):
            self.is_released, self.is_suspended, self.is_ended = True, False, False
            self.limits = {name: int.from_bytes(text, "big") for name, text in items.items()}
        elif change in (SUSPEND, RESUME):
            self.is_suspended = change == SUSPEND
        elif change == TERMINATE:
            self.is_ended = True

    def report(self, command, *items):
        """Tells the site, and returns the items of its reply. Notices may come before it. A report
        whose reply didn't come is sent again, unless the point's state says that it was heard."""
        while True:
            try:
                self.talk.send(REPORT, bytes([0x20 + self.point]), (command, b""), *items)
                return self.take_reply()
            except Gone:
                self.talk.reconnect()
                if command != ONLINE:
                    self.come_online()
                if self.state in HEARD.get(command, ()):
                    return {RESULT: b"\0"}

    def take_reply(self):
        while True:
            kind, told = self.talk.read_message()
            if kind != NOTICE:
                return told
            self.note(told)

    def expect_accepted(self, command, told, *others):
        """Ends with what a refusal says, but for those of these numbers."""
        if told[RESULT][0] not in (0, *others):
            sys.exit(f"report {command:02X} is refused: {explain(told)}")

    def report_meter(self, command):
        """Tells the site how the meter stands, and returns the reply."""
        meter = ((NOZZLE, b"\1"), (READING, self.reading.to_bytes(8, "big")))
        return self.report(command, *meter)

    def lift(self, is_known):
        """Lifts the nozzle. If its reading isn't known, it is where the site expects it."""
        told = self.report_meter(LIFT)
        if told[RESULT][0] == METER_GAP and not is_known:
            self.reading = int.from_bytes(told[DETAIL], "big")
            told = self.report_meter(LIFT)
        self.expect_accepted(LIFT, told)
        return int.from_bytes(told.get(PRICE, b""), "big")

    def flow(self, end):
        """Flows up to this reading, or until a till ends the fuelling."""
        while self.reading < end:
            self.wait_until(lambda: self.is_ended or not self.is_suspended)
            if self.is_ended:
                return
            self.reading = min(self.reading + LITRE, end)
            self.expect_accepted(FLOW, self.report_meter(FLOW))
            time.sleep(0.05)

    def find_end(self, millilitres, price):
        """The reading at which it stops: a preset of money is reached by so many millilitres at
        this price, in mills a litre."""
        most = self.limits.get(VOLUME_LIMIT, millilitres)
        if price and MONEY_LIMIT in self.limits:
            most = self.limits[MONEY_LIMIT] * 10_000 // price
        return self.reading + min(millilitres, most)

    def wait_until(self, is_so):
        while not is_so():
            try:
                self.note(self.talk.read_message()[1])
            except Gone:
                self.talk.reconnect()
                self.come_online()


def main(address, point, millilitres, reading=None):
    pump = Dispenser(address, point, reading or 0)
    pump.wait_until(lambda: pump.is_released)
    price = pump.lift(reading is not None)
    begun = pump.reading
    pump.flow(pump.find_end(millilitres, price))
    pump.expect_accepted(HANG_UP, pump.report_meter(HANG_UP))
    drawn = pump.reading - begun
    print(f"{drawn} ml of nozzle 1; its meter stands at {pump.reading}", flush=True)


if __name__ == "__main__":
    found = take_address(sys.argv[1:])
    if not found or len(found[1]) not in (2, 3) or not all(map(str.isdecimal, found[1])):
        sys.exit(__doc__)
    main(found[0], *map(int, found[1]))
