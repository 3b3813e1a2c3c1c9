"""Headless Chromium over its debugging pipe, for test/view_test.py: opens a page, asks it, moves the mouse, takes
pictures, and gathers what it tells on its console. No part of what is proved."""
import base64
import json
import os
import select
import shutil
import subprocess
import tempfile
import time

import packages

PATIENCE = 60
QUIET = {"stdout": subprocess.DEVNULL, "stderr": subprocess.DEVNULL}
FLAGS = [
    "--headless", "--no-sandbox", "--disable-gpu", "--hide-scrollbars", "--no-first-run", "--disable-background-networking",
    "--remote-debugging-pipe", "about:blank",
]


def found():
    """The browser's command, or None. Where it is missing, Debian's package is installed, if that may be done."""
    if not command():
        packages.install("chromium", "view: Chromium is installed for the tests of pages")
    return command()


def command():
    return shutil.which("chromium") or shutil.which("chromium-browser")


class Browser:
    """A browser with one page."""

    def __init__(self, command):
        self.room = tempfile.TemporaryDirectory(ignore_cleanup_errors=True)
        theirs_in, self.ours_out = os.pipe()
        self.ours_in, theirs_out = os.pipe()
        words = [command, f"--user-data-dir={self.room.name}", *FLAGS]
        shell = ["sh", "-c", f'exec "$@" 3<&{theirs_in} 4>&{theirs_out}', "sh", *words]
        self.child = subprocess.Popen(shell, pass_fds=(theirs_in, theirs_out), **QUIET)
        os.close(theirs_in)
        os.close(theirs_out)
        self.got, self.number, self.session = b"", 0, None
        self.events = []
        self.attach()

    def attach(self):
        """Takes a page, and has it tell what goes wrong and what it asks the network for."""
        target = self.call("Target.createTarget", url="about:blank")["targetId"]
        self.session = self.call("Target.attachToTarget", targetId=target, flatten=True)["sessionId"]
        for domain in ("Page", "Runtime", "Log", "Network"):
            self.call(f"{domain}.enable")

    def call(self, method, **given):
        """Calls a method of the protocol; returns its result."""
        self.number += 1
        message = {"id": self.number, "method": method, "params": given}
        if self.session:
            message["sessionId"] = self.session
        os.write(self.ours_out, json.dumps(message).encode() + b"\0")
        while True:
            it = self.next()
            if it.get("id") == self.number:
                if "error" in it:
                    raise RuntimeError(f"{method}: {it['error']}")
                return it["result"]
            self.events.append(it)

    def next(self):
        """The next message of the browser."""
        end = time.monotonic() + PATIENCE
        while b"\0" not in self.got:
            if not select.select([self.ours_in], [], [], max(end - time.monotonic(), 0))[0]:
                raise RuntimeError("the browser says nothing")
            more = os.read(self.ours_in, 1 << 20)
            if not more:
                raise RuntimeError("the browser ended")
            self.got += more
        text, _, self.got = self.got.partition(b"\0")
        return json.loads(text)

    def open(self, path, wide, high):
        """Opens a file in a window of this size, and waits until it is there."""
        self.call("Emulation.setDeviceMetricsOverride", width=wide, height=high, deviceScaleFactor=1, mobile=False)
        self.events = []
        self.call("Page.navigate", url=f"file://{path}")
        while not any(it.get("method") == "Page.loadEventFired" for it in self.events):
            self.events.append(self.next())

    def ask(self, script):
        """The value of a script in the page."""
        told = self.call("Runtime.evaluate", expression=script, returnByValue=True, awaitPromise=True)
        if "exceptionDetails" in told:
            raise RuntimeError(f"{script}: {told['exceptionDetails']}")
        return told["result"].get("value")

    def mouse(self, kind, x, y, **more):
        self.call("Input.dispatchMouseEvent", type=kind, x=x, y=y, **more)

    def click(self, x, y):
        for kind in ("mousePressed", "mouseReleased"):
            self.mouse(kind, x, y, button="left", clickCount=1)

    def key(self, letter):
        """Presses a letter."""
        for kind in ("keyDown", "keyUp"):
            self.call("Input.dispatchKeyEvent", type=kind, key=letter, text=letter if kind == "keyDown" else "", code=f"Key{letter.upper()}")

    def picture(self):
        """A picture of what is in sight, as PNG."""
        return base64.b64decode(self.call("Page.captureScreenshot", format="png")["data"])

    def wrongs(self):
        """What the page told on its console, and its exceptions."""
        bad = ("Runtime.exceptionThrown", "Runtime.consoleAPICalled", "Log.entryAdded")
        return [it for it in self.events if it.get("method") in bad]

    def asked(self):
        """What the page asked for, beside itself."""
        sent = [it["params"]["request"]["url"] for it in self.events if it.get("method") == "Network.requestWillBeSent"]
        return sent[1:]

    def close(self):
        self.child.kill()
        self.child.wait()
        os.close(self.ours_in)
        os.close(self.ours_out)
        self.room.cleanup()
