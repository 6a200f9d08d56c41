"""Processes of the program, each bounded in time and in what it writes."""
import os
import select
import signal
import subprocess
import tempfile
import threading
import time

import cudrenal

PIECE = 1 << 16
# The seconds between two looks at whether a job is still wanted.
PAUSE = 0.2


class Job:
    """The program at work on its words, in a folder; it does not outlive its `with` block.

    `seconds` and `most` bound its time and the bytes of its standard output. `stopped` says why it
    was ended before it ended by itself, and is empty where it did.
    """

    def __init__(self, program, words, folder, seconds, most):
        self.seconds, self.most, self.stopped = seconds, most, ""
        self.last = time.monotonic() + seconds
        self.lock = threading.Lock()
        self.said = tempfile.TemporaryFile(dir=folder)
        # A session of its own, so that what the program may have started ends with it.
        self.process = subprocess.Popen(
            [program, *words], cwd=folder, stdin=subprocess.DEVNULL, stdout=subprocess.PIPE,
            stderr=self.said, start_new_session=True)

    def __enter__(self):
        return self

    def __exit__(self, *_):
        self.stop("no longer wanted")
        self.process.stdout.close()
        self.said.close()

    def stop(self, why):
        """Ends the process, where it has not ended."""
        with self.lock:
            if self.process.poll() is None:
                self.stopped = self.stopped or why
                os.killpg(self.process.pid, signal.SIGKILL)
                self.process.wait()

    def pieces(self, is_wanted=lambda: True):
        """What it writes, as it comes; it is stopped at its bounds, and where it is not wanted."""
        out, written = self.process.stdout.fileno(), 0
        while True:
            if not is_wanted():
                self.stop("no longer wanted")
            if time.monotonic() > self.last:
                self.stop(f"stopped after {self.seconds} seconds")
            if not select.select([out], [], [], PAUSE)[0]:
                continue
            piece = os.read(out, PIECE)
            written += len(piece)
            if written > self.most:
                self.stop(f"stopped after {self.most} bytes")
                return
            if not piece:
                return
            yield piece

    def end(self):
        """The status and the last line of standard error, once all pieces were taken."""
        try:
            status = self.process.wait(max(0, self.last - time.monotonic()) + PAUSE)
        except subprocess.TimeoutExpired:
            self.stop(f"stopped after {self.seconds} seconds")
            status = self.process.returncode
        self.said.seek(0)
        return status, cudrenal.last_line(self.said.read())
