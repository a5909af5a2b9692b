"""Drives chromium without a window over its debugging pipe, with the standard library alone: a page is opened, pressed, typed into, asked
and photographed as a person would do it. What the browser tells meanwhile (errors, requests) is kept."""

import base64
import json
import os
import select
import subprocess
import sys
import tempfile
import time


# seconds without a word from the browser
PATIENCE = 120


class Browser:
    """One browser with one tab."""

    def __init__(self, command):
        self.folder = tempfile.TemporaryDirectory(ignore_cleanup_errors=True)
        asked, self.asking = os.pipe()
        self.answered, answering = os.pipe()

        def wired():
            # the browser reads what is asked from descriptor 3 and answers to 4, which the pipes themselves may have
            read, write = os.dup(asked), os.dup(answering)
            os.dup2(read, 3)
            os.dup2(write, 4)

        command = [*command, "--remote-debugging-pipe", f"--user-data-dir={self.folder.name}", "about:blank"]
        self.process = subprocess.Popen(
            command, preexec_fn=wired, close_fds=False, stdin=subprocess.DEVNULL, stdout=subprocess.DEVNULL, stderr=subprocess.DEVNULL
        )
        os.close(asked)
        os.close(answering)
        self.number, self.buffer, self.session, self.events, self.running = 0, b"", None, [], True
        targets = self.call("Target.getTargets")["targetInfos"]
        target = next(target["targetId"] for target in targets if target["type"] == "page")
        self.session = self.call("Target.attachToTarget", targetId=target, flatten=True)["sessionId"]
        for domain in ["Page", "Runtime", "Log", "Network", "Performance"]:
            self.call(f"{domain}.enable")

    def close(self):
        try:
            self.session = None
            self.call("Browser.close")
            self.process.wait(20)
        except (OSError, EOFError, subprocess.TimeoutExpired):
            self.process.kill()
            self.process.wait()
        self.folder.cleanup()

    def message(self):
        while b"\0" not in self.buffer:
            if not select.select([self.answered], [], [], PATIENCE)[0]:
                raise TimeoutError("the browser does not answer")
            part = os.read(self.answered, 1 << 20)
            if not part:
                raise EOFError("the browser is gone")
            self.buffer += part
        message, self.buffer = self.buffer.split(b"\0", 1)
        return json.loads(message)

    def call(self, method, **parameters):
        self.number += 1
        question = {"id": self.number, "method": method, "params": parameters}
        if self.session:
            question["sessionId"] = self.session
        question = json.dumps(question).encode() + b"\0"
        while question:
            question = question[os.write(self.asking, question) :]
        while True:
            message = self.message()
            if message.get("id") == self.number:
                if "error" in message:
                    raise RuntimeError(f"{method}: {message['error']['message']}")
                return message["result"]
            if "method" in message:
                self.events.append(message)

    def wait(self, method):
        """Until the browser has told an event, which is taken out of those that are kept."""
        while True:
            for place, event in enumerate(self.events):
                if event["method"] == method:
                    return self.events.pop(place)["params"]
            self.events.append(self.message())

    def told(self, *methods):
        return [event["params"] for event in self.events if event["method"] in methods]

    # ---- what is looked at

    def size(self, width, height=800):
        self.call("Emulation.setDeviceMetricsOverride", width=width, height=height, deviceScaleFactor=1, mobile=width < 600)

    def scheme(self, name, media=""):
        self.call("Emulation.setEmulatedMedia", media=media, features=[{"name": "prefers-color-scheme", "value": name}])

    def scripts(self, run):
        self.call("Emulation.setScriptExecutionDisabled", value=not run)
        self.running = run

    def open(self, path):
        """Opens a file; answers in milliseconds how long it took until the page was there and the browser at rest."""
        self.events.clear()
        start = time.monotonic()
        self.call("Page.navigate", url=f"file://{os.path.abspath(path)}")
        self.wait("Page.loadEventFired")
        self.rest()
        return 1000 * (time.monotonic() - start)

    def rest(self):
        """Until two frames were drawn and nothing else is to be done; where no script runs, the next question waits for the layout by itself."""
        if self.running:
            self.ask("new Promise(done => requestAnimationFrame(() => requestAnimationFrame(() => requestIdleCallback(done))))")

    def ask(self, expression):
        """The value of an expression in the page; the debugger's own run where the page's are forbidden."""
        answer = self.call("Runtime.evaluate", expression=expression, returnByValue=True, awaitPromise=True, userGesture=True)
        if "exceptionDetails" in answer:
            raise RuntimeError(f"{expression}: {answer['exceptionDetails'].get('exception', answer['exceptionDetails'])}")
        return answer["result"].get("value")

    # ---- what a person does

    KEYS = {"Enter": ("Enter", 13, "\r"), "Space": ("Space", 32, " "), "Tab": ("Tab", 9, ""), "Backspace": ("Backspace", 8, "")}

    def key(self, name, shift=False):
        code, number, text = self.KEYS[name]
        named = {"key": " " if name == "Space" else name, "code": code, "windowsVirtualKeyCode": number, "modifiers": 8 if shift else 0}
        self.call("Input.dispatchKeyEvent", type="keyDown" if text else "rawKeyDown", **named, **({"text": text} if text else {}))
        self.call("Input.dispatchKeyEvent", type="keyUp", **named)

    def type(self, text):
        for letter in text:
            self.call("Input.dispatchKeyEvent", type="keyDown", key=letter, text=letter)
            self.call("Input.dispatchKeyEvent", type="keyUp", key=letter)

    def picture(self, path):
        data = self.call("Page.captureScreenshot", format="png")["data"]
        with open(path, "wb") as file:
            file.write(base64.b64decode(data))

    def paper(self):
        """What a printer would get, as a PDF."""
        return base64.b64decode(self.call("Page.printToPDF", printBackground=True)["data"])


if __name__ == "__main__":
    # a picture of a page: drive.py CHROMIUM PAGE WIDTH HEIGHT OUT
    chromium, page, width, height, out = sys.argv[1:]
    browser = Browser([chromium])
    try:
        browser.size(int(width), int(height))
        browser.open(page)
        browser.picture(out)
    finally:
        browser.close()
