"""How far a long call is: a bar of tqdm, or a callable of the user's own."""
import contextlib
from collections.abc import Callable, Iterator
from typing import Any, Union

from .extras import need

# Receives what is being done, how much of it is done, and how much there is.
OnProgress = Callable[[str, int, int], object]
# False for silence, True for bars of tqdm on standard error or in a notebook, or a callable.
Progress = Union[bool, OnProgress]


@contextlib.contextmanager
def reporting(progress: Progress) -> Iterator[OnProgress]:
    """What receives the progress in the block. Raises ImportError for True without tqdm."""
    if callable(progress):
        yield progress
    elif progress:
        with contextlib.closing(Bars()) as bars:
            yield bars
    else:
        yield lambda what, done, total: None


@contextlib.contextmanager
def step(report: OnProgress, what: str) -> Iterator[None]:
    """Reports the block as one step, of which nobody knows how far it is."""
    report(what, 0, 1)
    yield
    report(what, 1, 1)


class Bars:
    """A bar of tqdm for each thing that is done; of a single step the seconds."""

    def __init__(self) -> None:
        need("tqdm")
        from tqdm.auto import tqdm

        self.tqdm, self.bar, self.what = tqdm, None, ""

    def __call__(self, what: str, done: int, total: int) -> None:
        if self.bar is None or what != self.what:
            self.close()
            form = {"bar_format": "{desc} [{elapsed}]"} if total == 1 else {}
            self.bar, self.what = self.tqdm(desc=what, total=total, unit_scale=True, **form), what
        bar: Any = self.bar
        bar.update(done - bar.n)

    def close(self) -> None:
        """Ends the bar that is shown."""
        if self.bar is not None:
            self.bar.close()
