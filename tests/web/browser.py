"""One tab of a headless Chromium, spoken to by the DevTools protocol over two pipes: Python alone is needed."""

import base64
import json
import os
import pathlib
import select
import subprocess
import tempfile
import time


class Browser:
    session = None

    def __init__(self, program, width=1366, height=768):
        to_read, self.to = os.pipe()
        self.out, out_write = os.pipe()
        self.profile, self.downloads = tempfile.TemporaryDirectory(), tempfile.TemporaryDirectory()

        def pipes():  # the protocol's are 3 and 4
            os.dup2(to_read, 103), os.dup2(out_write, 104), os.dup2(103, 3), os.dup2(104, 4)

        words = ["--headless=new", "--no-sandbox", "--disable-gpu", "--remote-debugging-pipe", "--hide-scrollbars=false", f"--window-size={width},{height}"]
        self.process = subprocess.Popen([program, *words, f"--user-data-dir={self.profile.name}", "about:blank"], preexec_fn=pipes, close_fds=False,
                                        stderr=subprocess.DEVNULL, stdout=subprocess.DEVNULL)
        self.buffer, self.n, self.events = b"", 0, []
        target = self.call("Target.createTarget", url="about:blank")["targetId"]
        self.call("Browser.setDownloadBehavior", behavior="allow", downloadPath=self.downloads.name)
        self.session = self.call("Target.attachToTarget", targetId=target, flatten=True)["sessionId"]
        for domain in ("Page", "Runtime", "Network", "Log", "DOM", "Accessibility"):
            self.call(domain + ".enable")
        self.size(width, height)

    def read(self, until):
        while b"\0" not in self.buffer:
            if not select.select([self.out], [], [], max(0, until - time.time()))[0]:
                raise TimeoutError("Chromium doesn't answer")
            got = os.read(self.out, 1 << 20)
            if not got:
                raise EOFError("Chromium has ended")
            self.buffer += got
        line, self.buffer = self.buffer.split(b"\0", 1)
        return json.loads(line)

    def call(self, method, **params):
        self.n += 1
        message = {"id": self.n, "method": method, "params": params, **({"sessionId": self.session} if self.session else {})}
        os.write(self.to, json.dumps(message).encode() + b"\0")
        until = time.time() + 90
        while True:
            got = self.read(until)
            if got.get("id") == self.n:
                assert "error" not in got, got
                return got["result"]
            self.events.append(got)

    def size(self, width, height, scale=1):
        self.call("Emulation.setDeviceMetricsOverride", width=width, height=height, deviceScaleFactor=scale, mobile=False)

    def js(self, text):
        got = self.call("Runtime.evaluate", expression=text, awaitPromise=True, returnByValue=True)
        assert "exceptionDetails" not in got, got["exceptionDetails"]
        return got["result"].get("value")

    def wait(self, text, seconds=30):
        end = time.time() + seconds
        while not self.js(text):
            assert time.time() < end, "waited in vain for " + text
            time.sleep(0.03)

    def open(self, url):
        self.call("Page.navigate", url="about:blank")
        self.call("Page.navigate", url=url)
        self.wait("document.readyState === 'complete' && document.body.dataset.ready === 'yes'")

    def key(self, key, shift=False, control=False):
        code = {" ": 32, "Enter": 13, "Tab": 9, "Escape": 27, "Delete": 46}.get(key, ord(key.upper()) if len(key) == 1 and key.isalnum() else 0)
        text = "" if control else {"Enter": "\r"}.get(key, key if len(key) == 1 else "")
        more = {"key": key, "modifiers": 8 * shift + 2 * control, "windowsVirtualKeyCode": code}
        self.call("Input.dispatchKeyEvent", type="keyDown", text=text, **more, **({"commands": ["selectAll"]} if control and key == "a" else {}))
        self.call("Input.dispatchKeyEvent", type="keyUp", **more)

    def click(self, selector):
        """A click of the mouse in the middle of what the selector names."""
        self.js(f"document.querySelector({json.dumps(selector)}).scrollIntoView({{block: 'nearest'}})")
        x, y, top = self.js(f"""(() => {{ const it = document.querySelector({json.dumps(selector)}), r = it.getBoundingClientRect(), x = r.left + r.width / 2, y = r.top + r.height / 2;
            const hit = document.elementFromPoint(x, y); return [x, y, !!hit && (it === hit || it.contains(hit) || hit.contains(it))]; }})()""")
        assert top, selector + " is covered, or outside the window"
        for what in ("mousePressed", "mouseReleased"):
            self.call("Input.dispatchMouseEvent", type=what, x=x, y=y, button="left", clickCount=1)

    def type(self, selector, text):
        """Clicks into a field, and types a text in the place of what it has."""
        self.click(selector)
        self.key("a", control=True)
        self.call("Input.insertText", text=text) if text else self.key("Delete")

    def choose(self, selector, value):
        """Chooses in a list."""
        self.js(f"(() => {{ const e = document.querySelector({json.dumps(selector)}); e.value = {json.dumps(str(value))}; e.dispatchEvent(new Event('change')); }})()")

    def put_file(self, selector, path):
        root = self.call("DOM.getDocument")["root"]["nodeId"]
        node = self.call("DOM.querySelector", nodeId=root, selector=selector)["nodeId"]
        self.call("DOM.setFileInputFiles", files=[str(path)], nodeId=node)

    def saved(self, what, name, seconds=30):
        """Chooses this in the list of exports, and gives the file of this name that is downloaded then."""
        path, end = pathlib.Path(self.downloads.name) / name, time.time() + seconds
        path.unlink(missing_ok=True)
        self.choose("#export", what)
        size = -1
        while not path.is_file() or path.stat().st_size != size:
            size = path.stat().st_size if path.is_file() else -1
            assert time.time() < end, "no download " + name
            time.sleep(0.15)
        return path

    def dark(self, yes):
        self.call("Emulation.setEmulatedMedia", features=[{"name": "prefers-color-scheme", "value": "dark" if yes else "light"}])

    def shot(self, path):
        self.js("new Promise(go => requestAnimationFrame(() => requestAnimationFrame(go)))")
        pathlib.Path(path).write_bytes(base64.b64decode(self.call("Page.captureScreenshot", format="png")["data"]))

    def close(self):
        self.call("Browser.close")
        self.process.wait(20)
