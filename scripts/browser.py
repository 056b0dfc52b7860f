"""Drives a headless Chromium by its DevTools protocol over two pipes. Needs Debian's package chromium."""
import base64
import json
import os
import shutil
import subprocess
import tempfile
import time

TOOL = shutil.which("chromium")


class Browser:
    """One page. `complaints` has the errors of its console and of its loading."""

    def __init__(self, width, height, fields):
        self.folder = tempfile.TemporaryDirectory(ignore_cleanup_errors=True)
        theirs_in, self.out = os.pipe()
        self.back, theirs_out = os.pipe()
        words = [TOOL, "--headless=new", "--remote-debugging-pipe", "--disable-gpu", "--no-first-run", "--ignore-certificate-errors", "--disable-dev-shm-usage",
                 "--hide-scrollbars", f"--user-data-dir={self.folder.name}", f"--window-size={width},{height}", "about:blank"]
        if os.geteuid() == 0:
            words.insert(1, "--no-sandbox")
        os.set_inheritable(theirs_in, True)
        os.set_inheritable(theirs_out, True)
        # Chromium reads its orders from 3 and answers on 4.
        shell = f'exec "$@" 3<&{theirs_in} 4>&{theirs_out}'
        self.process = subprocess.Popen(["bash", "-c", shell, "bash", *words], pass_fds=(theirs_in, theirs_out), stderr=subprocess.DEVNULL)
        os.close(theirs_in)
        os.close(theirs_out)
        self.held, self.number, self.complaints, self.session = b"", 0, [], None
        target = self.send("Target.createTarget", url="about:blank")["targetId"]
        self.session = self.send("Target.attachToTarget", targetId=target, flatten=True)["sessionId"]
        for domain in ("Page", "Runtime", "Log", "Network"):
            self.send(f"{domain}.enable")
        self.send("Network.setExtraHTTPHeaders", headers=fields)
        self.resize(width, height)

    def resize(self, width, height, mobile=False):
        """Sets the size of the page. A phone has touch. After a switch back from a phone, Chromium delivers no touches any more."""
        self.send("Emulation.setDeviceMetricsOverride", width=width, height=height, deviceScaleFactor=1, mobile=mobile)
        self.send("Emulation.setTouchEmulationEnabled", enabled=mobile)

    def read(self):
        while b"\0" not in self.held:
            data = os.read(self.back, 1 << 20)
            if not data:
                raise OSError("Chromium ended")
            self.held += data
        text, _, self.held = self.held.partition(b"\0")
        return json.loads(text)

    def send(self, method, **parameters):
        self.number += 1
        order = {"id": self.number, "method": method, "params": parameters}
        if self.session:
            order["sessionId"] = self.session
        os.write(self.out, json.dumps(order).encode() + b"\0")
        while True:
            told = self.read()
            self.hear(told)
            if told.get("id") == self.number:
                if "error" in told:
                    raise OSError(f"{method}: {told['error']['message']}")
                return told["result"]

    def hear(self, told):
        if told.get("method") == "Runtime.exceptionThrown":
            self.complaints.append(told["params"]["exceptionDetails"].get("exception", {}).get("description", "an exception"))
        if told.get("method") == "Log.entryAdded" and told["params"]["entry"]["level"] == "error":
            self.complaints.append(f"{told['params']['entry']['text']} {told['params']['entry'].get('url', '')}")

    def value(self, expression):
        """The value of an expression of JavaScript in the page."""
        told = self.send("Runtime.evaluate", expression=expression, returnByValue=True, awaitPromise=True)
        if "exceptionDetails" in told:
            raise OSError(f"{expression}: {told['exceptionDetails']['exception'].get('description')}")
        return told["result"].get("value")

    def until(self, expression, seconds=60):
        """Waits for the expression to be true."""
        end = time.monotonic() + seconds
        while not self.value(expression):
            if time.monotonic() > end:
                raise OSError(f"not within {seconds} seconds: {expression}")
            time.sleep(0.05)

    def click(self, left, top):
        for kind in ("mousePressed", "mouseReleased"):
            self.send("Input.dispatchMouseEvent", type=kind, x=left, y=top, button="left", clickCount=1)

    def touch(self, kind, *points):
        """A touch event (touchStart, touchMove, touchEnd) with fingers at these points."""
        self.send("Input.dispatchTouchEvent", type=kind, touchPoints=[{"x": x, "y": y, "id": at} for at, (x, y) in enumerate(points)])

    def key(self, name):
        """Presses a key, which types itself if it is one letter or sign."""
        codes = {"Backspace": 8, "Tab": 9, "Enter": 13, "Escape": 27, "ArrowLeft": 37, "ArrowUp": 38, "ArrowRight": 39, "ArrowDown": 40}
        typed = {"text": name} if len(name) == 1 else {"text": "\r"} if name == "Enter" else {}
        self.send("Input.dispatchKeyEvent", type="keyDown", key=name, windowsVirtualKeyCode=codes.get(name, 0), **typed)
        self.send("Input.dispatchKeyEvent", type="keyUp", key=name, windowsVirtualKeyCode=codes.get(name, 0))

    def media(self, media="", **features):
        """Emulates a medium, or features of it by their names with _ for -."""
        self.send("Emulation.setEmulatedMedia", media=media, features=[{"name": name.replace("_", "-"), "value": value} for name, value in features.items()])

    def pdf(self):
        """The page as PDF, as it is printed."""
        return base64.b64decode(self.send("Page.printToPDF", preferCSSPageSize=True, printBackground=True)["data"])

    def downloads(self, folder):
        """Sets the folder to which the page saves files."""
        self.send("Page.setDownloadBehavior", behavior="allow", downloadPath=str(folder))

    def picture(self, path):
        with open(path, "wb") as it:
            it.write(base64.b64decode(self.send("Page.captureScreenshot", format="png")["data"]))

    def end(self):
        self.process.terminate()
        self.process.wait()
        self.folder.cleanup()
