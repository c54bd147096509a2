"""A headless Firefox that is driven by Marionette, its own protocol."""

import contextlib
import json
import pathlib
import shutil
import socket
import subprocess
import tempfile

from shared.checks import Failed
from shared.serving import WAIT, wait_until

# A free port, which is written into the profile; bars that take no room; dark or light.
PREFERENCES = """user_pref("marionette.port", 0); user_pref("ui.useOverlayScrollbars", 1);
user_pref("layout.css.prefers-color-scheme.content-override", {});
user_pref("toolkit.legacyUserProfileCustomizations.stylesheets", true);
"""
NARROW = ":root{min-width:0!important}"  # a window may be a telephone's


def find_firefox():
    """The path of a Firefox; None where there is none."""
    return shutil.which("firefox") or shutil.which("firefox-esr")


class Firefox:
    """A Firefox with one page. A message is its length, a colon and JSON."""

    def __init__(self, peer):
        self.peer, self.stream = peer, peer.makefile("rb")
        self.receive()  # what it says of itself
        self.call("WebDriver:NewSession")

    def receive(self):
        length = b""
        while (octet := self.stream.read(1)).isdigit():
            length += octet
        if not octet:
            raise Failed("the browser has ended")
        return json.loads(self.stream.read(int(length)))

    def call(self, command, **words):
        text = json.dumps([0, 1, command, words]).encode()
        self.peer.sendall(b"%d:%s" % (len(text), text))
        _, _, error, result = self.receive()
        if error:
            raise Failed(f"{command}: {error['message']}")
        return result

    def open(self, url, width, height):
        """Opens a page in a window of this size; the window has more around the page."""
        more = self.evaluate("[outerWidth - innerWidth, outerHeight - innerHeight]")
        self.call("WebDriver:SetWindowRect", width=width + more[0], height=height + more[1])
        wait_until("size", lambda: self.evaluate("[innerWidth, innerHeight]") == [width, height])
        self.call("WebDriver:Navigate", url=url)

    def evaluate(self, script):
        """The value of a JavaScript expression on what the page shows."""
        return self.call("WebDriver:ExecuteScript", script=f"return (\n{script}\n)")["value"]


@contextlib.contextmanager
def start_firefox(dark=False):
    """A Firefox with a profile of its own, both gone behind the block."""
    with tempfile.TemporaryDirectory(ignore_cleanup_errors=True) as profile:
        folder = pathlib.Path(profile)
        (folder / "user.js").write_text(PREFERENCES.format(0 if dark else 1))
        (folder / "chrome").mkdir()
        (folder / "chrome/userChrome.css").write_text(NARROW)
        command = [find_firefox(), "--headless", "--marionette", "--profile", profile]
        process = subprocess.Popen(command, stdout=subprocess.DEVNULL, stderr=subprocess.DEVNULL)
        port = folder / "MarionetteActivePort"
        try:
            wait_until("its port", lambda: port.exists() and port.read_text().isdigit())
            with socket.create_connection(("127.0.0.1", int(port.read_text())), WAIT) as peer:
                yield Firefox(peer)
        finally:
            process.terminate()
            process.wait()
