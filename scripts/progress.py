"""A line on the terminal that says that something goes on; where there is no terminal, nothing."""
import shutil
import sys
import threading
import time


class Progress:
    """Shows what `said` gives, each second, with the seconds since it began. Lines that are printed
    meanwhile go through `tell`."""

    def __init__(self, said):
        self.said, self.begun, self.ended = said, time.monotonic(), threading.Event()
        self.is_shown, self.lock = sys.stderr.isatty(), threading.Lock()
        self.thread = threading.Thread(target=self.show_on, daemon=True)

    def __enter__(self):
        if self.is_shown:
            self.thread.start()
        return self

    def __exit__(self, *_):
        self.ended.set()
        if self.is_shown:
            self.thread.join()
            self.clear()

    def seconds(self):
        return time.monotonic() - self.begun

    def clear(self):
        print("\r\033[K", end="", file=sys.stderr, flush=True)

    def show(self):
        width = shutil.get_terminal_size().columns - 1
        print(
            f"\r\033[K{f'{self.seconds():.0f} s: {self.said()}'[:width]}",
            end="",
            file=sys.stderr,
            flush=True,
        )

    def show_on(self):
        while not self.ended.wait(1):
            with self.lock:
                self.show()

    def tell(self, line):
        """Prints a line for good."""
        with self.lock:
            if self.is_shown:
                self.clear()
            print(line, flush=True)
            if self.is_shown and not self.ended.is_set():
                self.show()
