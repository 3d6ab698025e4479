"""A page in headless Chromium, which is driven through a pipe by the protocol of its developer tools."""
import base64
import json
import os
import select
import shutil
import struct
import subprocess
import tempfile
import time
import zlib

NAMES = ("chromium", "chromium-browser", "google-chrome")
MOST_SECONDS = 120  # of a command or of a wait: all of them are short without other load
PAUSE = 0.1


def browser():
    """The path of Chromium, or None."""
    return next((path for path in map(shutil.which, NAMES) if path), None)


class Page:
    """A page that was opened: scripts, the mouse and parts of its picture."""

    def __init__(self, width=900, height=700):
        self.folder = tempfile.mkdtemp(prefix="qss-browser-")
        here, there = os.pipe(), os.pipe()
        words = [browser(), "--headless", "--no-sandbox", "--disable-gpu", "--hide-scrollbars", "--no-first-run"]
        words += ["--disable-background-networking", "--disable-dev-shm-usage", "--remote-debugging-pipe"]
        words += ["--user-data-dir=" + self.folder, "--window-size=%d,%d" % (width, height), "about:blank"]
        # (a shell puts the ends of the pipes where the browser reads and writes them: 3 and 4)
        shell = ["bash", "-c", 'exec 200<&%d 201>&%d; exec 3<&200 4>&201 "$0" "$@"' % (here[0], there[1])] + words
        self.process = subprocess.Popen(
            shell, pass_fds=(here[0], there[1]), stdout=subprocess.DEVNULL, stderr=subprocess.DEVNULL
        )
        os.close(here[0]), os.close(there[1])
        self.writing, self.reading = here[1], there[0]
        self.number, self.session, self.held = 0, None, b""

    def open(self, url):
        """Goes to a page."""
        targets = self.call("Target.getTargets")["targetInfos"]
        one = next(target["targetId"] for target in targets if target["type"] == "page")
        self.session = self.call("Target.attachToTarget", targetId=one, flatten=True)["sessionId"]
        self.call("Page.navigate", url=url)

    def call(self, method, **parameters):
        """A command of the protocol, and its result."""
        self.number += 1
        message = {"id": self.number, "method": method, "params": parameters}
        if self.session:
            message["sessionId"] = self.session
        os.write(self.writing, json.dumps(message).encode() + b"\0")
        end = time.monotonic() + MOST_SECONDS
        while True:
            answer = self.message(end)
            if answer.get("id") == self.number:
                if "error" in answer:
                    raise RuntimeError(answer["error"])
                return answer["result"]

    def message(self, end):
        while b"\0" not in self.held:
            if not select.select([self.reading], [], [], max(end - time.monotonic(), 0))[0]:
                raise TimeoutError("the browser does not answer")
            part = os.read(self.reading, 1 << 20)
            if not part:
                raise RuntimeError("the browser ended")
            self.held += part
        one, self.held = self.held.split(b"\0", 1)
        return json.loads(one)

    def value(self, script):
        """The value of a script."""
        return self.call("Runtime.evaluate", expression=script, returnByValue=True)["result"].get("value")

    def wait(self, condition, action=None):
        """Waits until a script has a true value, or a function returns one. An action is repeated before each look."""
        end = time.monotonic() + MOST_SECONDS
        while True:
            if action is not None:
                action()
            if condition() if callable(condition) else self.value(condition):
                return
            if time.monotonic() > end:
                raise TimeoutError(condition)
            time.sleep(PAUSE)

    def mouse(self, kind, x, y, down=False):
        options = {"button": "left", "buttons": 1, "clickCount": 1} if down else {}
        self.call("Input.dispatchMouseEvent", type="mouse" + kind, x=x, y=y, **options)

    def drag(self, x, y, to_x, to_y):
        """Draws a rectangle with the mouse."""
        self.mouse("Moved", x, y)
        self.mouse("Pressed", x, y, True)
        for part in range(1, 3):
            self.mouse("Moved", x + (to_x - x) * part / 2, y + (to_y - y) * part / 2, True)
        self.mouse("Released", to_x, to_y, True)

    def picture(self, **options):
        """A picture of the page, as the bytes of a PNG file."""
        return base64.b64decode(self.call("Page.captureScreenshot", format="png", **options)["data"])

    def colours(self, x, y, size=6):
        """The colours (red, green, blue) of the square around a point of the page."""
        clip = {"x": x - size / 2, "y": y - size / 2, "width": size, "height": size, "scale": 1}
        return pixels(self.picture(clip=clip))

    def close(self):
        self.process.kill()
        self.process.wait()
        os.close(self.writing), os.close(self.reading)
        shutil.rmtree(self.folder, ignore_errors=True)


def pixels(data):
    """The colours in a PNG file with 8 bits for each of three or four parts."""
    at, packed, parts, width = 8, b"", 3, 0
    while at < len(data):
        length, kind = struct.unpack(">I4s", data[at : at + 8])
        body = data[at + 8 : at + 8 + length]
        if kind == b"IHDR":
            width, _, depth, colour = struct.unpack(">IIBB", body[:10])
            parts = {2: 3, 6: 4}[colour]
            assert depth == 8
        elif kind == b"IDAT":
            packed += body
        at += 12 + length
    raw, found = zlib.decompress(packed), set()
    before = bytearray(width * parts)
    for begin in range(0, len(raw), width * parts + 1):
        kind, line = raw[begin], bytearray(raw[begin + 1 : begin + 1 + width * parts])
        for place in range(len(line)):
            left = line[place - parts] if place >= parts else 0
            corner = before[place - parts] if place >= parts else 0
            line[place] = (line[place] + predicted(kind, left, before[place], corner)) & 255
        found.update(tuple(line[place : place + 3]) for place in range(0, len(line), parts))
        before = line
    return found


def predicted(kind, left, up, corner):
    """What a filter of PNG adds to a byte."""
    if kind == 4:
        near = [(abs(left + up - corner - one), place, one) for place, one in enumerate((left, up, corner))]
        return min(near)[2]
    return (0, left, up, (left + up) // 2)[kind]
