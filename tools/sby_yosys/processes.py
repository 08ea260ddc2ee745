"""The processes that this program starts. When it ends, they end."""
import subprocess
import threading

import config

LOCK, RUNNING = threading.Lock(), set()
IS_OVER = threading.Event()


class Process:
    """A process without input, for a `with`; left by a fault, it is ended."""

    def __init__(self, words, **how):
        self.words, self.how = words, how

    def __enter__(self):
        with LOCK:
            if IS_OVER.is_set():
                raise config.Refused("stopped")
            try:
                self.child = subprocess.Popen(self.words, stdin=subprocess.DEVNULL, stdout=subprocess.PIPE, text=True, errors="replace",
                                              **self.how)
            except OSError as fault:
                raise config.Refused(f"{self.words[0]}: {fault.strerror}")
            RUNNING.add(self.child)
        return self.child

    def __exit__(self, kind, fault, trace):
        if kind is not None:
            self.child.terminate()
        self.child.wait()
        with LOCK:
            RUNNING.discard(self.child)


def end_all():
    """Ends what runs, and lets nothing start."""
    with LOCK:
        IS_OVER.set()
        for child in RUNNING:
            child.terminate()
