"""A headless Chromium that is spoken to over a pipe, by the standard library alone."""

import json
import os
import select
import shutil
import subprocess
import time

LONGEST = 60  # seconds until an answer


def chromium() -> str | None:
    """Where a Chromium is, if there is one."""
    return next(filter(None, map(shutil.which, ["chromium", "chromium-browser", "google-chrome"])), None)


class Browser:
    """One tab, and what was said to go wrong in it. It keeps its files in a folder that exists."""

    def __init__(self, program: str, folder: str):
        commands, self.to = os.pipe()
        self.reader, answers = os.pipe()
        # The browser reads its descriptor 3 and writes its descriptor 4; the shell joins them to the pipes.
        words = [program, "--headless=new", "--no-sandbox", "--disable-gpu", "--disable-dev-shm-usage",
                 "--no-first-run", "--remote-debugging-pipe", f"--user-data-dir={folder}"]  # fmt: skip
        self.process = subprocess.Popen(
            ["bash", "-c", f'exec "$@" 3<&{commands} 4>&{answers}', "bash", *words],
            pass_fds=(commands, answers),
            stdout=subprocess.DEVNULL,
            stderr=subprocess.DEVNULL,
            env=os.environ | {"HOME": folder, "DBUS_SESSION_BUS_ADDRESS": "disabled:"},
        )
        os.close(commands)
        os.close(answers)
        self.session, self.number, self.rest, self.events, self.wrong = None, 0, b"", [], []
        tab = self.ask("Target.createTarget", url="about:blank")["targetId"]
        self.session = self.ask("Target.attachToTarget", targetId=tab, flatten=True)["sessionId"]
        for domain in ("Page", "Runtime", "Log", "Network"):
            self.ask(f"{domain}.enable")

    def __enter__(self):
        return self

    def __exit__(self, *_):
        self.process.terminate()
        self.process.wait()

    def receive(self, until: float) -> dict:
        """The next message, by this time."""
        while b"\0" not in self.rest:
            if not select.select([self.reader], [], [], max(0, until - time.monotonic()))[0]:
                raise TimeoutError("the browser doesn't answer")
            more = os.read(self.reader, 1 << 16)
            if not more:
                raise EOFError("the browser ended")
            self.rest += more
        message, self.rest = self.rest.split(b"\0", 1)
        return json.loads(message)

    def ask(self, method: str, **words) -> dict:
        """The answer to a command; events that come before it are kept."""
        self.number += 1
        command = {"id": self.number, "method": method, "params": words}
        if self.session:
            command["sessionId"] = self.session
        os.write(self.to, json.dumps(command).encode() + b"\0")
        until = time.monotonic() + LONGEST
        while (message := self.receive(until)).get("id") != self.number:
            self.note(message)
        if "error" in message:
            raise RuntimeError(f"{method}: {message['error']['message']}")
        return message["result"]

    def note(self, event: dict):
        """Keeps an event, and what it says to be wrong: an exception, an error of the log, a request for more."""
        words = event.get("params", {})
        self.events.append(event.get("method"))
        match event.get("method"):
            case "Runtime.exceptionThrown":
                self.wrong.append(words["exceptionDetails"].get("exception", {}).get("description", "an exception"))
            case "Log.entryAdded" if words["entry"]["level"] == "error":
                self.wrong.append(words["entry"]["text"])
            case "Network.requestWillBeSent" if words["type"] != "Document" and words["request"]["url"] != "data:,":
                self.wrong.append(f"it asks for {words['request']['url']}")

    def open(self, url: str):
        """Loads a page, and waits until it is there."""
        self.events.clear()
        self.ask("Page.navigate", url=url)
        until = time.monotonic() + LONGEST
        while "Page.loadEventFired" not in self.events:
            self.note(self.receive(until))

    def value(self, expression: str):
        """The value of an expression of the page."""
        told = self.ask("Runtime.evaluate", expression=expression, returnByValue=True)
        if "exceptionDetails" in told:
            raise RuntimeError(told["exceptionDetails"]["exception"]["description"])
        return told["result"].get("value")

    def press(self, key: str, code: int):
        """Presses a key."""
        for kind in ("rawKeyDown", "keyUp"):
            self.ask("Input.dispatchKeyEvent", type=kind, key=key, code=key, windowsVirtualKeyCode=code)
