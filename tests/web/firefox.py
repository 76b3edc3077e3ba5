#!/usr/bin/env python3
"""firefox.py PAGE [--shot FILE]: the page's main uses in a headless Firefox, by its Marionette protocol. The last line is
`N passed, M failed`."""

import argparse
import base64
import json
import os
import pathlib
import socket
import subprocess
import tempfile
import time


class Firefox:
    def __init__(self, program):
        self.profile = tempfile.TemporaryDirectory()
        with socket.socket() as free:
            free.bind(("127.0.0.1", 0))
            port = free.getsockname()[1]
        (pathlib.Path(self.profile.name) / "user.js").write_text(f'user_pref("marionette.port", {port});\nuser_pref("datareporting.policy.dataSubmissionEnabled", false);\n')
        self.process = subprocess.Popen([program, "--headless", "--no-remote", "--marionette", "--profile", self.profile.name, "--width", "1366", "--height", "768"],
                                        stdout=subprocess.DEVNULL, stderr=subprocess.DEVNULL, env={**os.environ, "HOME": self.profile.name})
        end = time.time() + 60
        while True:
            try:
                self.socket = socket.create_connection(("127.0.0.1", port), 60)
                break
            except OSError:
                assert time.time() < end, "Firefox doesn't answer"
                time.sleep(0.2)
        self.buffer, self.n = b"", 0
        self.read()
        self.version = self.call("WebDriver:NewSession", {})["capabilities"]["browserVersion"]
        self.call("WebDriver:SetWindowRect", {"width": 1366, "height": 860})

    def read(self):
        while b":" not in self.buffer:
            self.buffer += self.socket.recv(1 << 16)
        length, _, rest = self.buffer.partition(b":")
        while len(rest) < int(length):
            got = self.socket.recv(1 << 16)
            assert got, "Firefox has ended"
            rest += got
        self.buffer = rest[int(length):]
        return json.loads(rest[: int(length)])

    def call(self, name, parameters):
        self.n += 1
        message = json.dumps([0, self.n, name, parameters]).encode()
        self.socket.sendall(b"%d:%s" % (len(message), message))
        _, _, error, result = self.read()
        assert error is None, error
        return result

    def js(self, text):
        return self.call("WebDriver:ExecuteScript", {"script": text, "args": [], "newSandbox": True})["value"]

    def wait(self, text, seconds=60):
        end = time.time() + seconds
        while not self.js(f"return {text}"):
            assert time.time() < end, "waited in vain for " + text
            time.sleep(0.05)

    def close(self):
        try:
            self.call("Marionette:Quit", {"flags": ["eForceQuit"]})
        except (AssertionError, OSError):
            pass
        self.process.wait(30)


def uses(f, url):
    """What is done, and what the page shows then."""
    data = lambda name: f.js(f"return document.body.dataset.{name}")
    text = lambda id: f.js(f"return document.getElementById('{id}').textContent")
    press = lambda id: f.js(f"document.getElementById('{id}').click()")
    idle = lambda: f.wait("!document.body.dataset.busy && !document.body.dataset.hunt")
    f.call("WebDriver:Navigate", {"url": url + "#kernel=missed-wakeup"})
    f.wait("document.body.dataset.ready === 'yes'")
    assert data("stop") == "off" and data("mismatches") == "0", (data("stop"), text("said"))
    yield "opens, and runs"
    press("hunt")
    f.wait("document.body.dataset.hunt === 'on'"), idle()
    assert "events: stuck. No shorter run is so" in text("hunted") and data("stop") == "stuck", text("hunted")
    assert "Never seen" in text("verdict")
    yield "finds a bad interleaving"
    f.js("document.querySelector('[data-go=Home]').click()")
    for _ in range(15):
        f.js("document.querySelector('[data-go=ArrowRight]').click()")
    f.wait("document.getElementById('tabs').textContent.includes('The machine’s own, after #14')")
    assert "Loads 0 from A" in text("detail"), text("detail")
    yield "goes forwards, and shows the machine"
    f.js("const s = document.getElementById('source'); s.value = s.value.replace('ori ', 'orj '); s.dispatchEvent(new Event('input'))")
    press("assemble"), idle()
    assert "UnknownWord" in text("said"), text("said")
    yield "shows a fault"


def main():
    parser = argparse.ArgumentParser()
    parser.add_argument("page")
    parser.add_argument("--shot")
    words = parser.parse_args()
    f = Firefox(os.environ.get("FIREFOX", "firefox-esr"))
    passed = failed = 0
    try:
        for what in uses(f, pathlib.Path(words.page).resolve().as_uri()):
            passed += 1
            print("passed", what, flush=True)
            if words.shot and "shows the machine" in what:
                pathlib.Path(words.shot).write_bytes(base64.b64decode(f.call("WebDriver:TakeScreenshot", {"full": False})["value"]))
    except AssertionError as error:
        failed += 1
        print("FAILED behind those:", error)
    finally:
        f.close()
    print("tests/web/firefox.py: Firefox", f.version)
    print(f"{passed} passed, {failed} failed")
    return 1 if failed else 0


if __name__ == "__main__":
    raise SystemExit(main())
