"""Drives a headless Chromium or Firefox: opens a page, evaluates a script in it, presses keys, takes pictures.

Chromium speaks its DevTools protocol over two pipes, and Firefox the Marionette protocol over a local socket. Nothing but
the browser itself is needed.
"""

import base64
import json
import os
import shutil
import signal
import socket
import subprocess
import tempfile
import time

import command

CHROMIUMS = ("chromium", "chromium-browser", "google-chrome")
FIREFOXES = ("firefox-esr", "firefox")
WAIT = 120


def found(names):
    return next(filter(None, map(shutil.which, names)), None)


class Browser:
    """A browser with one window. Its profile and all its processes go when it is closed."""

    def __init__(self, words, **how):
        self.room = tempfile.mkdtemp()
        self.log = open(f"{self.room}/log", "wb")
        words = [word.replace("ROOM", self.room) for word in words]
        environment = dict(os.environ, HOME=self.room, TMPDIR=self.room, MOZ_HEADLESS="1")
        self.process = subprocess.Popen(words, stdin=subprocess.DEVNULL, stdout=self.log, stderr=self.log, env=environment,
                                        start_new_session=True, **how)

    def __enter__(self):
        return self

    def __exit__(self, *_):
        try:
            os.killpg(self.process.pid, signal.SIGKILL)
        except ProcessLookupError:
            pass
        self.process.wait()
        self.log.close()
        shutil.rmtree(self.room, ignore_errors=True)

    def wait_for(self, condition, seconds=WAIT):
        """The first true value of a script, which is evaluated again and again."""
        end = time.monotonic() + seconds
        while time.monotonic() < end:
            value = self.evaluate(condition)
            if value:
                return value
            time.sleep(0.02)
        raise command.Fault(f"the page did not come to this within {seconds} s: {condition}")


class Chromium(Browser):
    WORDS = ["--headless", "--no-sandbox", "--disable-gpu", "--hide-scrollbars", "--user-data-dir=ROOM", "--no-first-run",
             "--remote-debugging-pipe", "about:blank"]

    def __init__(self, program):
        ours_in, theirs_out = os.pipe()
        theirs_in, ours_out = os.pipe()

        def as_3_and_4():
            spare = os.dup(theirs_in), os.dup(theirs_out)
            os.dup2(spare[0], 3)
            os.dup2(spare[1], 4)

        super().__init__([program, *self.WORDS], close_fds=False, preexec_fn=as_3_and_4)
        os.close(theirs_in)
        os.close(theirs_out)
        self.input, self.output = os.fdopen(ours_in, "rb"), os.fdopen(ours_out, "wb")
        self.number, self.events, self.rest, self.session = 0, [], b"", None
        target = next(it for it in self.call("Target.getTargets")["targetInfos"] if it["type"] == "page")
        self.session = self.call("Target.attachToTarget", targetId=target["targetId"], flatten=True)["sessionId"]
        for domain in ("Page", "Runtime", "Log", "Network"):
            self.call(f"{domain}.enable")

    def read(self):
        while b"\0" not in self.rest:
            piece = os.read(self.input.fileno(), 1 << 20)
            if not piece:
                raise command.Fault("Chromium ended")
            self.rest += piece
        message, self.rest = self.rest.split(b"\0", 1)
        return json.loads(message)

    def call(self, method, **parameters):
        self.number += 1
        message = {"id": self.number, "method": method, "params": parameters}
        if self.session:
            message["sessionId"] = self.session
        self.output.write(json.dumps(message).encode() + b"\0")
        self.output.flush()
        while True:
            answer = self.read()
            if answer.get("id") == self.number:
                if "error" in answer:
                    raise command.Fault(f"{method}: {answer['error']['message']}")
                return answer["result"]
            self.events.append(answer)

    def open(self, address):
        self.call("Page.navigate", url=address)

    def evaluate(self, script):
        """The value of an expression; a promise is waited for."""
        answer = self.call("Runtime.evaluate", expression=script, awaitPromise=True, returnByValue=True)
        if "exceptionDetails" in answer:
            details = answer["exceptionDetails"]
            raise command.Fault(details.get("exception", {}).get("description", details["text"]))
        return answer["result"].get("value")

    def size(self, width, height):
        self.call("Emulation.setDeviceMetricsOverride", width=width, height=height, deviceScaleFactor=1, mobile=False)

    def theme(self, name):
        self.call("Emulation.setEmulatedMedia", features=[{"name": "prefers-color-scheme", "value": name}])

    def press(self, key):
        for kind in ("keyDown", "keyUp"):
            self.call("Input.dispatchKeyEvent", type=kind, key=key, code=key)

    def picture(self, path, whole=False):
        shot = self.call("Page.captureScreenshot", format="png", captureBeyondViewport=whole)
        with open(path, "wb") as file:
            file.write(base64.b64decode(shot["data"]))

    def complaints(self):
        """The page's lines on the console, its exceptions, and its network requests."""
        for event in self.events:
            method, said = event.get("method"), event.get("params", {})
            if method == "Runtime.exceptionThrown":
                yield said["exceptionDetails"].get("exception", {}).get("description", "an exception")
            if method == "Log.entryAdded" and said["entry"]["level"] in ("error", "warning"):
                yield said["entry"]["text"]
            if method == "Runtime.consoleAPICalled" and said["type"] in ("error", "warning"):
                yield str(said["args"])
            if method == "Network.requestWillBeSent" and not said["request"]["url"].startswith(("file:", "blob:", "data:")):
                yield "it asked for " + said["request"]["url"]


class Firefox(Browser):
    WORDS = ["--headless", "--no-remote", "--profile", "ROOM", "--marionette"]

    def __init__(self, program):
        with socket.socket() as free:
            free.bind(("127.0.0.1", 0))
            port = free.getsockname()[1]
        super().__init__(["sh", "-c", f'echo \'user_pref("marionette.port", {port});\' >"ROOM/user.js" && exec "$@"', "sh", program, *self.WORDS])
        self.number = 0
        self.socket = self.connected(port)
        self.read()
        self.call("WebDriver:NewSession", capabilities={})
        self.call("WebDriver:SetTimeouts", script=WAIT * 1000)

    def connected(self, port):
        end = time.monotonic() + WAIT
        while time.monotonic() < end:
            try:
                return socket.create_connection(("127.0.0.1", port), timeout=WAIT)
            except OSError:
                time.sleep(0.2)
        raise command.Fault("Firefox does not answer")

    def read(self):
        length = b""
        while not length.endswith(b":"):
            piece = self.socket.recv(1)
            if not piece:
                raise command.Fault("Firefox ended")
            length += piece
        message = b""
        while len(message) < int(length[:-1]):
            message += self.socket.recv(int(length[:-1]) - len(message))
        return json.loads(message)

    def call(self, method, **parameters):
        self.number += 1
        message = json.dumps([0, self.number, method, parameters]).encode()
        self.socket.sendall(b"%d:%s" % (len(message), message))
        _, _, fault, answer = self.read()
        if fault:
            raise command.Fault(f"{method}: {fault['message']}")
        return answer

    def open(self, address):
        self.call("WebDriver:Navigate", url=address)

    def evaluate(self, script):
        """The value of an expression about the document. The page's own names are out of reach."""
        return self.call("WebDriver:ExecuteScript", script=f"return ({script});", args=[])["value"]

    def size(self, width, height):
        self.call("WebDriver:SetWindowRect", width=width, height=height)

    def picture(self, path, whole=False):
        shot = self.call("WebDriver:TakeScreenshot", full=whole)["value"]
        with open(path, "wb") as file:
            file.write(base64.b64decode(shot))


def chromium():
    """A running Chromium, or None."""
    program = found(CHROMIUMS)
    return program and Chromium(program)


def firefox():
    program = found(FIREFOXES)
    return program and Firefox(program)
