"""Chromium without a window, as checks/outside/page opens pages in it."""
import json
import os
import subprocess
import time

# How many seconds an answer of the browser may take.
PATIENCE = 60
KEYS = {"ArrowRight": 39, "ArrowLeft": 37, "Home": 36, "End": 35, "p": 80, "j": 74, "k": 75, "h": 72, "+": 187, "-": 189, "Escape": 27}


class Browser:
    """Chromium without a window, spoken to over a pair of pipes: messages in JSON, each with a NUL at its end."""

    def __init__(self, program, profile):
        theirs_in, self.out = os.pipe()
        self.inn, theirs_out = os.pipe()
        os.set_inheritable(theirs_in, True)
        os.set_inheritable(theirs_out, True)
        command = [program, "--headless", "--no-sandbox", "--disable-gpu", "--remote-debugging-pipe", f"--user-data-dir={profile}", "about:blank"]
        # Chromium reads from 3 and writes to 4.
        shell = f"exec 3<&{theirs_in} 4>&{theirs_out}; exec \"$@\""
        self.process = subprocess.Popen(["bash", "-c", shell, "bash", *command], pass_fds=[theirs_in, theirs_out], stdin=subprocess.DEVNULL,
                                        stdout=subprocess.DEVNULL, stderr=subprocess.DEVNULL)
        os.close(theirs_in)
        os.close(theirs_out)
        os.set_blocking(self.inn, False)
        self.last, self.rest, self.events, self.session = 0, b"", [], None

    def messages(self):
        """The messages that have come."""
        try:
            self.rest += os.read(self.inn, 2**20)
        except BlockingIOError:
            time.sleep(0.005)
        *whole, self.rest = self.rest.split(b"\0")
        return [json.loads(message) for message in whole]

    def call(self, method, **given):
        """What the browser answers to a command."""
        self.last += 1
        message = {"id": self.last, "method": method, "params": given, **({"sessionId": self.session} if self.session else {})}
        os.write(self.out, json.dumps(message).encode() + b"\0")
        until = time.monotonic() + PATIENCE
        while time.monotonic() < until:
            answer = None
            for message in self.messages():
                if message.get("id") == self.last:
                    answer = message
                elif "method" in message:
                    self.events.append(message)
            if answer:
                if "error" in answer:
                    raise RuntimeError(f"{method}: {answer['error']}")
                return answer["result"]
        raise RuntimeError(f"{method}: no answer")

    def open(self, path):
        """Opens a page in a tab of its own, and waits until it is there."""
        self.session, self.events = None, []
        target = self.call("Target.createTarget", url="about:blank")["targetId"]
        self.session = self.call("Target.attachToTarget", targetId=target, flatten=True)["sessionId"]
        for domain in ("Page", "Runtime", "Network", "Log"):
            self.call(f"{domain}.enable")
        self.call("Page.navigate", url=f"file://{path}")
        until = time.monotonic() + PATIENCE
        while self.value("document.readyState == 'complete' && location.protocol == 'file:'") is not True:
            if time.monotonic() > until:
                raise RuntimeError("the page does not open")

    def value(self, script):
        return self.call("Runtime.evaluate", expression=script, returnByValue=True)["result"].get("value")

    def read(self, script):
        """What a script in the page gives as a text in JSON."""
        return json.loads(self.value(script))

    def press(self, key):
        text = {"text": key} if len(key) == 1 else {}
        for kind in ("keyDown", "keyUp"):
            self.call("Input.dispatchKeyEvent", type=kind, key=key, code=key if len(key) > 1 else f"Key{key.upper()}",
                      windowsVirtualKeyCode=KEYS[key], **(text if kind == "keyDown" else {}))

    def click(self, name):
        """Clicks into the middle of an element."""
        place = json.loads(self.value(f"(() => {{ scrollTo(0, 0); const r = document.getElementById('{name}').getBoundingClientRect();"
                                      " return JSON.stringify([r.x + r.width / 2, r.y + r.height / 2]); })()"))
        for kind in ("mousePressed", "mouseReleased"):
            self.call("Input.dispatchMouseEvent", type=kind, x=place[0], y=place[1], button="left", clickCount=1)

    def faults(self):
        """What went wrong in the page, and what it asked for beside its own file."""
        wrong = [event for event in self.events if event["method"] in ("Runtime.exceptionThrown", "Log.entryAdded")]
        asked = [event["params"]["request"]["url"] for event in self.events if event["method"] == "Network.requestWillBeSent"]
        return [str(event) for event in wrong] + [url for url in asked if not url.startswith("file:") or url.endswith(".ico")]

    def close(self):
        """Ends the browser, by force where it does not end by itself."""
        self.session = None
        try:
            self.call("Browser.close")
            self.process.wait(PATIENCE)
        except (RuntimeError, OSError, subprocess.TimeoutExpired):
            self.process.kill()
        os.close(self.out)
        os.close(self.inn)
