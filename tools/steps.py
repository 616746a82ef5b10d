"""Steps of a script, with a line and the seconds of each on standard output, and meanwhile a bar on standard error."""
import sys
import threading
import time

from program_graph import Failure

NAME, BAR, FIRST, EVERY = 9, 24, 1.0, 0.2  # columns of a name and of a bar; seconds before a bar, and between two


class Step:
    """A step, as a context: `say` prints its line in the end. A failure in it is told with its name."""

    def __init__(self, name):
        self.name, self.expected, self._over = name, None, threading.Event()
        self.began = time.monotonic()
        self._drawing = threading.Thread(target=self._draw, daemon=True)

    def __enter__(self):
        if sys.stderr.isatty():
            self._drawing.start()
        return self

    def __exit__(self, kind, error, trace):
        self._stop()
        if isinstance(error, Failure):
            raise Failure(f"{self.name}: {error}") from None

    def expect(self, seconds):
        """Tells how long the step may take from now on, from which the bar is drawn."""
        self.expected = time.monotonic() - self.began + seconds

    def say(self, text):
        """Ends the step, and prints its line."""
        self._stop()
        print(f"{self.name:{NAME}} {time.monotonic() - self.began:6.1f} s  {text}", flush=True)

    def _stop(self):
        self._over.set()
        if self._drawing.is_alive():
            self._drawing.join()

    def _bar(self, spent):
        if not self.expected:
            return " " * (BAR + 2)
        full = int(BAR * min(spent / self.expected, 1))
        return f"[{'#' * full}{'.' * (BAR - full)}]"

    def _draw(self):
        drawn, wait = False, FIRST
        while not self._over.wait(wait):
            spent, wait, drawn = time.monotonic() - self.began, EVERY, True
            about = f" of about {self.expected:.0f}" if self.expected else ""
            print(f"\r{self.name:{NAME}} {spent:6.0f} s  {self._bar(spent)}{about}", end="\033[K", file=sys.stderr,
                  flush=True)
        if drawn:
            print(end="\r\033[K", file=sys.stderr, flush=True)
