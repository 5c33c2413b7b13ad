"""A real browser for the tests: Chromium without a window, told what to do through its pipe (DevTools protocol)."""
import json
import os
import shutil
import subprocess
import tempfile

PROGRAM = shutil.which("chromium") or shutil.which("chromium-browser") or shutil.which("google-chrome")
MOST_SECONDS = 120


class Browser:
    """Within the `with`, a page can be opened, asked, clicked and shown."""

    def __enter__(self):
        self.folder = tempfile.TemporaryDirectory()
        (ours_in, theirs_out), (theirs_in, ours_out) = os.pipe(), os.pipe()
        command = [PROGRAM, "--headless", "--no-sandbox", "--disable-gpu", "--window-size=1200,900", "--no-first-run",
                   f"--user-data-dir={self.folder.name}", "--remote-debugging-pipe"]
        joined = f'exec "$@" 3<&{theirs_in} 4>&{theirs_out}'  # the numbers that the browser expects
        self.process = subprocess.Popen(["timeout", str(MOST_SECONDS), "bash", "-c", joined, "browser", *command],
                                        pass_fds=(theirs_in, theirs_out), stdout=subprocess.DEVNULL,
                                        stderr=subprocess.DEVNULL)
        os.close(theirs_in)
        os.close(theirs_out)
        self.reading, self.writing = open(ours_in, "rb"), open(ours_out, "wb", buffering=0)
        self.last, self.session, self.events = 0, None, []
        target = self.ask("Target.createTarget", url="about:blank")["targetId"]
        self.session = self.ask("Target.attachToTarget", targetId=target, flatten=True)["sessionId"]
        for domain in ("Page", "Network", "Runtime"):
            self.ask(f"{domain}.enable")
        return self

    def __exit__(self, *_):
        self.reading.close()
        self.writing.close()
        self.process.terminate()
        self.process.wait()
        self.folder.cleanup()

    def ask(self, method, **parameters):
        """What the browser answers; what it tells meanwhile is kept."""
        self.last += 1
        message = {"id": self.last, "method": method, "params": parameters}
        if self.session:
            message["sessionId"] = self.session
        self.writing.write(json.dumps(message).encode() + b"\0")
        while True:
            answer = self.next()
            if answer.get("id") == self.last:
                assert "error" not in answer, answer
                return answer["result"]
            self.events.append(answer)

    def next(self):
        """The next message."""
        data = bytearray()
        while not data.endswith(b"\0"):
            byte = self.reading.read(1)
            assert byte, "the browser ended"
            data += byte
        return json.loads(data[:-1])

    def open(self, place):
        """Opens a file and waits until it is shown."""
        self.events.clear()
        self.ask("Page.navigate", url=f"file://{place}")
        while not any(event.get("method") == "Page.loadEventFired" for event in self.events):
            self.events.append(self.next())

    def requests(self):
        """All that the page asked for."""
        return [event["params"]["request"]["url"] for event in self.events
                if event.get("method") == "Network.requestWillBeSent"]

    def failures(self):
        """What its script did wrong."""
        return [event for event in self.events if event.get("method") == "Runtime.exceptionThrown"]

    def value(self, expression):
        """What an expression of JavaScript gives."""
        answer = self.ask("Runtime.evaluate", expression=expression, returnByValue=True)
        assert "exceptionDetails" not in answer, answer
        return answer["result"].get("value")

    def click(self, selector):
        """A click with the mouse in the middle of what a selector finds."""
        self.value(f"document.querySelector({json.dumps(selector)}).scrollIntoView()")
        box = self.value(f"(b => [b.x + b.width / 2, b.y + b.height / 2])"
                         f"(document.querySelector({json.dumps(selector)}).getBoundingClientRect())")
        for kind in ("mousePressed", "mouseReleased"):
            self.ask("Input.dispatchMouseEvent", type=kind, x=box[0], y=box[1], button="left", clickCount=1)

    def press(self, key):
        """A key."""
        for kind in ("keyDown", "keyUp"):
            self.ask("Input.dispatchKeyEvent", type=kind, key=key)
