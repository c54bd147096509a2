"""A headless Chromium that is driven over two pipes."""

import base64
import contextlib
import fcntl
import json
import os
import re
import select
import shutil
import subprocess
import tempfile
import time

from shared.checks import Failed
from shared.serving import LOOK, WAIT

NAMES = ("chromium", "chromium-browser", "google-chrome")
FLAGS = (
    "--headless", "--no-sandbox", "--disable-gpu", "--disable-dev-shm-usage", "--hide-scrollbars",
    "--no-first-run", "--remote-debugging-pipe",
)  # fmt: skip
SCREEN, WIDE, TELEPHONE = (1_280, 800), (1_920, 1_080), (390, 844)
SOON = 2  # seconds, within which the page says what has changed


def find_browser():
    """The path of a Chromium; None where there is none."""
    return next(filter(None, map(shutil.which, NAMES)), None)


class Browser:
    """A browser with one page. Commands and events are JSON, each ended by an octet 0."""

    def __init__(self, process, asked, told):
        self.process, self.asked, self.told = process, asked, told
        self.number, self.rest, self.session = 0, b"", None
        self.complaints = []
        target = self.call("Target.createTarget", url="about:blank")["targetId"]
        self.session = self.call("Target.attachToTarget", targetId=target, flatten=True)[
            "sessionId"
        ]
        for domain in ("Page", "Runtime", "Log"):
            self.call(f"{domain}.enable")

    def call(self, method, **words):
        """What a command is answered."""
        self.number += 1
        command = {"id": self.number, "method": method, "params": words}
        if self.session:
            command["sessionId"] = self.session
        os.write(self.asked, json.dumps(command).encode() + b"\0")
        end = time.monotonic() + WAIT
        while True:
            message = self.receive(end)
            if message.get("id") == self.number:
                if "error" in message:
                    raise Failed(f"{method}: {message['error']}")
                return message["result"]
            if message.get("method") in ("Runtime.exceptionThrown", "Log.entryAdded"):
                self.complaints.append(json.dumps(message["params"]))

    def receive(self, end):
        """The next message, until this moment."""
        while b"\0" not in self.rest:
            if not select.select([self.told], [], [], max(0, end - time.monotonic()))[0]:
                raise Failed(f"no answer of the browser within {WAIT} seconds")
            piece = os.read(self.told, 1 << 20)
            if not piece:
                raise Failed("the browser has ended")
            self.rest += piece
        message, self.rest = self.rest.split(b"\0", 1)
        return json.loads(message)

    def open(self, url, width, height, dark=False):
        """Opens a page in a window of this size."""
        self.resize(width, height)
        scheme = {"name": "prefers-color-scheme", "value": "dark" if dark else "light"}
        self.call("Emulation.setEmulatedMedia", features=[scheme])
        self.call("Page.navigate", url=url)

    def resize(self, width, height):
        self.call(
            "Emulation.setDeviceMetricsOverride",
            width=width, height=height, deviceScaleFactor=1, mobile=False,
        )  # fmt: skip

    def evaluate(self, script):
        """The value of a JavaScript expression in the page."""
        answer = self.call("Runtime.evaluate", expression=script, returnByValue=True)
        if "exceptionDetails" in answer:
            raise Failed(f"{script}: {answer['exceptionDetails']}")
        return answer["result"].get("value")

    def picture(self):
        """What the page shows, as PNG."""
        return base64.b64decode(self.call("Page.captureScreenshot")["data"])


@contextlib.contextmanager
def start_browser():
    """A browser with a profile of its own, both gone behind the block."""
    asked, told = os.pipe(), os.pipe()
    # The browser reads at 3 and writes at 4: its ends are moved out of the way of these.
    ends = [fcntl.fcntl(end, fcntl.F_DUPFD_CLOEXEC, 10) for end in (asked[0], told[1])]
    place = f'exec "$@" 3<&{ends[0]} 4>&{ends[1]}'
    with tempfile.TemporaryDirectory(ignore_cleanup_errors=True) as profile:
        process = subprocess.Popen(
            ["bash", "-c", place, "bash", find_browser(), *FLAGS, f"--user-data-dir={profile}"],
            stdin=subprocess.DEVNULL, stdout=subprocess.DEVNULL, stderr=subprocess.DEVNULL,
            pass_fds=ends,
        )  # fmt: skip
        try:
            for end in (asked[0], told[1], *ends):
                os.close(end)
            yield Browser(process, asked[1], told[0])
        finally:
            process.kill()
            process.wait()
            os.close(asked[1])
            os.close(told[0])


# ---- what the page shows


AGE = re.compile(r"(?<![\d:])(\d+:\d\d|\d+ h \d+ m)(?![\d:])")  # how long something has been so


def read_tile(browser, point):
    """The words of a point's tile that are seen, without the spaces between them; each age in them
    is AGE."""
    script = f"""[...document.querySelectorAll('#points section')]
        .filter(tile => tile.querySelector('h2').textContent === '{point}')
        .map(tile => [...tile.querySelectorAll('h2,span,p')].filter(part => !part.children.length)
        .filter(part => part.getClientRects().length).map(part => part.textContent)
        .join('|')).join()"""
    return AGE.sub("AGE", browser.evaluate(script))


def expect_words(browser, point, *words):
    """Within two seconds the tile says these words."""
    end = time.monotonic() + SOON
    while not all(word in (said := read_tile(browser, point)).split("|") for word in words):
        if time.monotonic() > end:
            raise Failed(f"point {point} says '{said}', wanted {words}")
        time.sleep(LOOK)


def open_page(browser, page, size, dark, last):
    """Opens the page in a window of this size, and waits until it shows its last point."""
    browser.open(page.url, *size, dark=dark)
    expect_words(browser, last, str(last))
