"""Browsers without a screen, for the tests of live_server: Chromium over --remote-debugging-pipe, Firefox over Marionette.

Python's standard library alone. Both give a page a camera and a microphone of their own making, and ask nobody.
"""

import base64
import contextlib
import json
import os
import pathlib
import select
import shutil
import signal
import socket
import subprocess
import time

SWITCHES = [
    "--headless=new", "--no-sandbox", "--disable-gpu", "--no-first-run", "--autoplay-policy=no-user-gesture-required",
    "--use-fake-device-for-media-stream", "--use-fake-ui-for-media-stream", "--allow-loopback-in-peer-connection",
    "--disable-background-timer-throttling", "--disable-backgrounding-occluded-windows", "--disable-renderer-backgrounding",
    "--window-size=1100,1500", "--remote-debugging-pipe",
]
PREFERENCES = {
    "media.navigator.streams.fake": True, "media.navigator.permission.disabled": True, "media.autoplay.default": 0,
    "marionette.port": 0, "dom.min_background_timeout_value": 4, "dom.disable_open_during_load": False, "app.update.disabledForTesting": True,
    "browser.shell.checkDefaultBrowser": False, "datareporting.policy.dataSubmissionEnabled": False, "toolkit.telemetry.enabled": False,
}


class Failed(Exception):
    """A test does not hold."""


def require(holds, what):
    if not holds:
        raise Failed(what)


LIMIT = 30  # seconds that a test waits for something


def wait_for(what, condition, limit=None):
    """Waits until a condition holds, and returns its value."""
    limit = limit or LIMIT
    until = time.monotonic() + limit
    while time.monotonic() < until:
        if value := condition():
            return value
        time.sleep(0.1)
    raise Failed(f"no {what} within {limit} s")


def firefox():
    """The name of Firefox's program, if it is installed."""
    return next(filter(shutil.which, ("firefox-esr", "firefox")), None)


class Browser:
    """A browser's process, in a group of its own."""

    def start(self, words, log, **options):
        with open(log, "wb") as file:
            self.process = subprocess.Popen(words, stdout=file, stderr=file, start_new_session=True, **options)

    def end(self):
        try:
            self.process.wait(10)
        except subprocess.TimeoutExpired:
            os.killpg(self.process.pid, signal.SIGKILL)  # the group that this script made
            self.process.wait()


class Chromium(Browser):
    """Messages of JSON over two pipes, each with a 0 at its end."""

    def __init__(self, folder):
        theirs, self.out = os.pipe()
        self.into, back = os.pipe()
        words = ["bash", "-c", f'exec "$@" 3<&{theirs} 4>&{back}', "-", "chromium", *SWITCHES, f"--user-data-dir={folder}/chromium", "about:blank"]
        self.start(words, f"{folder}/chromium.log", pass_fds=(theirs, back))
        os.close(theirs)
        os.close(back)
        self.number, self.rest = 0, b""

    def call(self, method, session=None, limit=60, **parameters):
        self.number += 1
        message = {"id": self.number, "method": method, "params": parameters} | ({"sessionId": session} if session else {})
        os.write(self.out, json.dumps(message).encode() + b"\0")
        until = time.monotonic() + limit
        while time.monotonic() < until:
            while b"\0" in self.rest:
                one, self.rest = self.rest.split(b"\0", 1)
                answer = json.loads(one)
                if answer.get("id") == self.number:
                    require("error" not in answer, f"{method}: {answer.get('error')}")
                    return answer["result"]
            if select.select([self.into], [], [], 1)[0]:
                more = os.read(self.into, 1 << 20)
                require(more, "Chromium ended")
                self.rest += more
        raise Failed(f"Chromium does not answer {method}")

    def open(self, url, script=None):
        """A page; the script runs in it first."""
        target = self.call("Target.createTarget", url="about:blank")["targetId"]
        session = self.call("Target.attachToTarget", targetId=target, flatten=True)["sessionId"]
        if script:
            self.call("Page.enable", session)
            self.call("Page.addScriptToEvaluateOnNewDocument", session, source=script)
        self.call("Page.navigate", session, url=url)
        return target, session

    def evaluate(self, page, expression):
        result = self.call("Runtime.evaluate", page[1], expression=expression, awaitPromise=True, returnByValue=True)
        return result["result"].get("value")

    def shut(self, page):
        self.call("Target.closeTarget", targetId=page[0])

    def close(self):
        with contextlib.suppress(Failed, OSError):
            self.call("Browser.close", limit=5)
        self.end()
        os.close(self.out)
        os.close(self.into)


class Firefox(Browser):
    """Messages of JSON over TCP, each with its length and a colon in front."""

    def __init__(self, folder):
        profile = pathlib.Path(folder, "firefox")
        profile.mkdir()
        (profile / "user.js").write_text("".join(f"user_pref({json.dumps(name)}, {json.dumps(value)});\n" for name, value in PREFERENCES.items()))
        self.start([firefox(), "--headless", "--marionette", "--no-remote", "--profile", profile], f"{folder}/firefox.log",
                   env=os.environ | {"HOME": str(folder), "MOZ_DISABLE_CONTENT_SANDBOX": "1"})
        port = profile / "MarionetteActivePort"
        wait_for("Firefox", lambda: port.exists() and port.read_text().strip(), 60)
        self.socket = socket.create_connection(("127.0.0.1", int(port.read_text())))
        self.file, self.number = self.socket.makefile("rb"), 0
        self.message()
        self.call("WebDriver:NewSession")
        self.call("WebDriver:SetTimeouts", script=60000)

    def message(self):
        size = b""
        while (one := self.file.read(1)) != b":":
            require(one, "Firefox ended")
            size += one
        return json.loads(self.file.read(int(size)))

    def call(self, method, limit=60, **parameters):
        self.number += 1
        body = json.dumps([0, self.number, method, parameters]).encode()
        self.socket.settimeout(limit)
        self.socket.sendall(b"%d:%s" % (len(body), body))
        _, _, fault, result = self.message()
        require(fault is None, f"{method}: {fault and fault.get('message')}")
        return result

    def open(self, url, script=None):
        require(script is None, "no script in pages of Firefox")
        handle = self.call("WebDriver:NewWindow", type="window")["handle"]
        self.call("WebDriver:SwitchToWindow", handle=handle)
        self.call("WebDriver:Navigate", url=url)
        return handle

    def evaluate(self, page, expression):
        self.call("WebDriver:SwitchToWindow", handle=page)
        return self.call("WebDriver:ExecuteScript", script=f"return ({expression});", args=[], sandbox=None)["value"]

    def shut(self, page):
        self.call("WebDriver:SwitchToWindow", handle=page)
        self.call("WebDriver:CloseWindow")

    def close(self):
        with contextlib.suppress(Failed, OSError):
            self.call("Marionette:Quit", limit=10, flags=["eForceQuit"])
        self.end()
        self.file.close()
        self.socket.close()


class Page:
    """A page of a browser."""

    def __init__(self, browser, url, script=None):
        self.browser, self.place = browser, browser.open(url, script)

    def evaluate(self, expression):
        return self.browser.evaluate(self.place, expression)

    def report(self):
        return self.evaluate("window.report ? window.report() : null") or {"publish": [], "watch": [], "first": None, "failed": None}

    def statistic(self, key, kind="video"):
        """What the browser counts of the stream that it sends (key publish) or gets (watch). Of several layers the last one."""
        wanted = "outbound-rtp" if key == "publish" else "inbound-rtp"
        return next((each for each in self.report()[key] if each["type"] == wanted and each["kind"] == kind), {})

    def frames(self):
        return self.statistic("watch").get("framesDecoded", 0)

    def said(self):
        """The sentence that the page shows."""
        return self.evaluate("document.getElementById('said').textContent")

    def choose(self, field, value):
        self.evaluate(f"(document.getElementById('{field}').value = '{value}', document.getElementById('{field}').onchange(), 0)")

    def click(self, field):
        self.evaluate(f"(document.getElementById('{field}').click(), 0)")

    def shot(self, path):
        """A picture of a page of Chromium."""
        self.browser.call("Page.bringToFront", self.place[1])
        time.sleep(1)
        kind = {"format": "png"} if path.endswith(".png") else {"format": "webp", "quality": 60}
        picture = self.browser.call("Page.captureScreenshot", self.place[1], captureBeyondViewport=True, **kind)
        pathlib.Path(path).write_bytes(base64.b64decode(picture["data"]))

    def close(self):
        self.browser.shut(self.place)
