"""Headless browsers for tests, by what Python has: Chromium by pipes, Firefox by a local port."""
import base64
import json
import os
import select
import shutil
import socket
import subprocess
import tempfile
import time

# The seconds after which a browser that does not answer is given up; a busy machine is slow.
PATIENCE = 180


class Chromium:
    """Speaks the DevTools protocol over two pipes: messages of JSON, each ended by a zero byte."""

    names = ("chromium", "chromium-browser", "google-chrome")

    def __init__(self, program, width, height, dark):
        self.folder = tempfile.mkdtemp(prefix="view-test-")
        read_here, write_there = os.pipe()
        read_there, self.pen = os.pipe()
        words = [program, "--headless=new", "--no-sandbox", "--disable-gpu", "--no-first-run",
                 "--disable-dev-shm-usage", "--remote-debugging-pipe",
                 f"--user-data-dir={self.folder}", f"--window-size={width},{height}"]
        # The browser reads from 3 and writes to 4; the shell puts the pipes there.
        shell = f'exec "$@" 3<&{read_there} 4>&{write_there}'
        self.job = subprocess.Popen(
            ["/bin/bash", "-c", shell, "browser", *words], pass_fds=(read_there, write_there),
            stdout=subprocess.DEVNULL, stderr=said(self.folder))
        os.close(read_there)
        os.close(write_there)
        self.answers = read_here
        self.rest = b""
        self.calls = 0
        self.session = None
        try:
            target = self.call("Target.createTarget", url="about:blank")["targetId"]
            attached = self.call("Target.attachToTarget", targetId=target, flatten=True)
        except (RuntimeError, OSError) as error:
            raise end(self.job, self.folder, error) from None
        self.session = attached["sessionId"]
        self.call("Emulation.setDeviceMetricsOverride", width=width, height=height,
                  deviceScaleFactor=1, mobile=False)
        scheme = {"name": "prefers-color-scheme", "value": "dark" if dark else "light"}
        self.call("Emulation.setEmulatedMedia", features=[scheme])

    def call(self, method, **params):
        self.calls += 1
        message = {"id": self.calls, "method": method, "params": params}
        if self.session:
            message["sessionId"] = self.session
        os.write(self.pen, json.dumps(message).encode() + b"\0")
        while True:
            answer = json.loads(self.message())
            if answer.get("id") == self.calls:
                if "error" in answer:
                    raise RuntimeError(f"{method}: {answer['error']}")
                return answer["result"]

    def message(self):
        while b"\0" not in self.rest:
            if not select.select([self.answers], [], [], PATIENCE)[0]:
                raise TimeoutError("the page does not answer")
            piece = os.read(self.answers, 1 << 16)
            if not piece:
                raise RuntimeError("the browser ended")
            self.rest += piece
        text, self.rest = self.rest.split(b"\0", 1)
        return text

    def open(self, path):
        self.visit("file://" + os.path.abspath(path))

    def visit(self, address):
        self.call("Page.enable")
        self.call("Page.navigate", url=address)
        wait(lambda: self.value("document.readyState") == "complete"
             and self.value("location.href").startswith(address))

    def value(self, source):
        """What an expression of JavaScript comes to in the page."""
        answer = self.call("Runtime.evaluate", expression=source, returnByValue=True,
                           awaitPromise=True)
        if "exceptionDetails" in answer:
            raise RuntimeError(answer["exceptionDetails"]["exception"].get("description", source))
        return answer["result"].get("value")

    def choose(self, selector, paths):
        """Gives files to an input, as a person would by its dialog."""
        root = self.call("DOM.getDocument")["root"]["nodeId"]
        node = self.call("DOM.querySelector", nodeId=root, selector=selector)["nodeId"]
        self.call("DOM.setFileInputFiles", nodeId=node, files=[os.path.abspath(p) for p in paths])

    def point(self, x, y):
        self.call("Input.dispatchMouseEvent", type="mouseMoved", x=x, y=y)

    def picture(self):
        return base64.b64decode(self.call("Page.captureScreenshot", format="png")["data"])

    def close(self):
        self.session = None
        try:
            self.call("Browser.close")
        except (RuntimeError, OSError):
            pass
        os.close(self.pen)
        os.close(self.answers)
        end(self.job, self.folder)


class Firefox:
    """Speaks Marionette over a local port: messages of JSON, each behind its length and a colon."""

    names = ("firefox-esr", "firefox")

    def __init__(self, program, width, height, dark):
        self.folder = tempfile.mkdtemp(prefix="view-test-")
        with socket.socket() as free:
            free.bind(("127.0.0.1", 0))
            port = free.getsockname()[1]
        settings = {"marionette.port": port, "layout.css.prefers-color-scheme.content-override":
                    0 if dark else 1, "datareporting.policy.dataSubmissionEnabled": False}
        with open(os.path.join(self.folder, "user.js"), "w", encoding="utf-8") as file:
            for name, value in settings.items():
                file.write(f"user_pref({json.dumps(name)}, {json.dumps(value)});\n")
        words = [program, "--headless", "--marionette", "--no-remote", "--profile", self.folder]
        self.job = subprocess.Popen(words, stdout=subprocess.DEVNULL, stderr=said(self.folder))
        self.calls = 0
        try:
            wait(lambda: self.connect(port), PATIENCE)
            self.message()
            self.call("WebDriver:NewSession", {})
            # The window's frame takes some of its size.
            self.call("WebDriver:SetWindowRect", {"width": width, "height": height + 86})
        except (RuntimeError, OSError) as error:
            raise end(self.job, self.folder, error) from None

    def connect(self, port):
        try:
            self.line = socket.create_connection(("127.0.0.1", port), PATIENCE)
        except OSError:
            return False
        self.answers = self.line.makefile("rb")
        return True

    def message(self):
        length = b""
        while (byte := self.answers.read(1)) != b":":
            if not byte:
                raise RuntimeError("the browser ended")
            length += byte
        return json.loads(self.answers.read(int(length)))

    def call(self, method, params):
        self.calls += 1
        text = json.dumps([0, self.calls, method, params]).encode()
        self.line.sendall(b"%d:%s" % (len(text), text))
        _, _, error, result = self.message()
        if error:
            raise RuntimeError(f"{method}: {error}")
        return result

    def open(self, path):
        self.call("WebDriver:Navigate", {"url": "file://" + os.path.abspath(path)})

    def value(self, source):
        """What an expression of JavaScript comes to in the page's own scope."""
        script = """
            const made = document.createElement('script'), root = document.documentElement;
            made.textContent = `document.documentElement.dataset.answer =
                JSON.stringify(${arguments[0]}) ?? 'null'`;
            root.append(made);
            made.remove();
            const answer = root.dataset.answer;
            delete root.dataset.answer;
            return answer;"""
        answer = self.call("WebDriver:ExecuteScript", {"script": script, "args": [source]})["value"]
        if answer is None:
            raise RuntimeError(f"no answer to {source}")
        return json.loads(answer)

    def choose(self, selector, paths):
        """Gives files to an input, as a person would by its dialog."""
        found = self.call("WebDriver:FindElement", {"using": "css selector", "value": selector})
        element = next(iter(found["value"].values()))
        text = "\n".join(os.path.abspath(path) for path in paths)
        self.call("WebDriver:ElementSendKeys", {"id": element, "text": text})

    def point(self, x, y):
        move = {"type": "pointerMove", "x": x, "y": y, "duration": 0, "origin": "viewport"}
        mouse = {"type": "pointer", "id": "mouse", "actions": [move]}
        self.call("WebDriver:PerformActions", {"actions": [mouse]})

    def picture(self):
        shot = {"full": False, "hash": False}
        return base64.b64decode(self.call("WebDriver:TakeScreenshot", shot)["value"])

    def close(self):
        try:
            self.call("Marionette:Quit", {"flags": ["eForceQuit"]})
        except (RuntimeError, OSError, ValueError):
            pass
        self.line.close()
        end(self.job, self.folder)


def wait(is_done, seconds=PATIENCE):
    """Waits until `is_done()`; raises TimeoutError after so many seconds."""
    last = time.monotonic() + seconds
    while not is_done():
        if time.monotonic() > last:
            raise TimeoutError(f"nothing within {seconds} seconds")
        time.sleep(0.05)


def said(folder):
    """Where a browser's errors go, so that it can be told why it did not start."""
    return open(os.path.join(folder, "said"), "wb")


def end(job, folder, error=None):
    """Ends a browser that was told to quit, or does not answer, and takes its folder away.

    Of an error it makes one that has the last lines, too, that the browser said.
    """
    try:
        job.wait(10)
    except subprocess.TimeoutExpired:
        job.kill()
        job.wait()
    with open(os.path.join(folder, "said"), encoding="utf-8", errors="replace") as file:
        lines = file.read().strip().split("\n")[-5:]
    shutil.rmtree(folder, ignore_errors=True)
    return RuntimeError("\n".join([f"{error}, and it ended with {job.returncode}", *lines]))
