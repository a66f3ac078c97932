"""Tells on standard error how far long work is: with a bar on a terminal, and else with a line each ten seconds."""
import sys
import threading
import time
from typing import Optional

import tqdm

EVERY = 10.0  # seconds between two lines


class Progress:
    """How much of so many things is done, as `with Progress(872, "genotype") as told: .. told.step()`."""

    def __init__(self, total: int, unit: str):
        self.total, self.unit, self.done = total, unit, 0
        self.bar: Optional[tqdm.tqdm] = None
        self.ended = threading.Event()

    def __enter__(self) -> "Progress":
        self.begun = time.monotonic()
        if sys.stderr.isatty():
            self.bar = tqdm.tqdm(total=self.total, unit=self.unit)
        else:
            threading.Thread(target=self.tell_lines, daemon=True).start()
        return self

    def __exit__(self, *_: object) -> None:
        self.ended.set()
        if self.bar is not None:
            self.bar.close()

    def step(self) -> None:
        """One more is done."""
        self.done += 1
        if self.bar is not None:
            self.bar.update()

    def tell_lines(self) -> None:
        while not self.ended.wait(EVERY):
            print(self.line(time.monotonic() - self.begun), file=sys.stderr, flush=True)

    def line(self, seconds: float) -> str:
        """The line after so many seconds."""
        left = f", about {seconds * (self.total - self.done) / self.done:.0f} s left" if self.done else ""
        return f"zuldokan: {self.done} of {self.total} {self.unit}s in {seconds:.0f} s{left}"
