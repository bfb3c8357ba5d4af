"""Many gases that are measured the same way: means with standard errors."""
import os
import threading
from collections.abc import Callable, Iterable, Mapping, Sequence
from concurrent.futures import FIRST_COMPLETED, Future, ThreadPoolExecutor, wait
from typing import Any, Optional, SupportsIndex, Union

import numpy
from numpy.typing import NDArray

from ..lab.lab import Lab
from ..lab.progress import Progress, Told
from ..protocol.errors import GaslabError
from ..protocol.numbers import whole
from .tables import Table, columns_of, table_of_columns

_PLACES = ("tick", "from", "to")
"""Columns that say when or where a row was measured."""
_LONGEST_WAIT = 0.2  # seconds between two looks for Ctrl-C and for how many are done

Columns = dict[str, NDArray[Any]]


class SeedFault(GaslabError):
    """A run of an ensemble failed. `seed` is its seed, and `__cause__` what was raised."""
    def __init__(self, seed: int, fault: BaseException) -> None:
        super().__init__(f"seed {seed}: {type(fault).__name__}: {fault}")
        self.seed = seed


def ensemble(f: Callable[[Lab, int], Any], seeds: Union[SupportsIndex, Iterable[SupportsIndex]],
             workers: Optional[SupportsIndex] = None, progress: Progress = None, **run: Any) -> Table:
    """Measures many gases, and returns a table of the means and their standard errors.

    For each seed a new laboratory begins, by `Lab.run(**run)`, and `f(lab, seed)` fills it and measures it.
    It returns a number, or numbers by their names, or a table with columns, such as that of `every`. All runs
    return the same names and as many rows. `seeds` are whole numbers, at least two; a number n is for 1 to n.
    `workers` is how many laboratories run at a time, each in a thread of its own and by one thread of its
    program; without it as many as there are processors.

    The table has the mean of each column NAME, with the standard error of that mean as NAME_error: the
    standard deviation of the runs, by n - 1, over the root of n. A number alone is in the column `value`. The
    columns `tick`, `from` and `to` are no measurements: they have no error, and are the same in all runs.

    `progress` is told how many runs are done. An exception in `f` ends all runs, and `SeedFault` names its
    seed. So does Ctrl-C, which ends the programs at once. Raises `ValueError` for fewer than two seeds, for a
    seed that comes twice, or if two runs can't be compared.
    """
    chosen = _seeds(seeds)
    count = min(len(chosen), len(os.sched_getaffinity(0))) if workers is None \
        else whole("workers", workers, 1, 4096)
    runs = _Runs(f, run)
    with Told("ensemble", len(chosen), progress) as tell:
        found = runs.all(chosen, count, tell)
    return _summary({seed: _columns(found[seed], seed) for seed in chosen})


def _seeds(seeds: Union[SupportsIndex, Iterable[SupportsIndex]]) -> list[int]:
    given = seeds if isinstance(seeds, Iterable) else range(1, whole("seeds", seeds, 0, 2 ** 32) + 1)
    chosen = [whole("a seed", seed) for seed in given]
    if len(chosen) < 2 or len(set(chosen)) < len(chosen):
        raise ValueError("an ensemble has at least two seeds, each once: one run has no standard error")
    return chosen


class _Runs:
    """The runs of an ensemble, some at a time."""
    def __init__(self, f: Callable[[Lab, int], Any], options: dict[str, Any]) -> None:
        self._f, self._options = f, options
        self._lock = threading.Lock()
        self._labs: set[Lab] = set()
        self._is_over = False

    def all(self, seeds: Sequence[int], count: int, tell: Callable[[int], None]) -> dict[int, Any]:
        """What each seed's run returned. Any exception, also Ctrl-C, ends the runs that are left."""
        with ThreadPoolExecutor(count) as pool:
            waiting = {pool.submit(self._one, seed): seed for seed in seeds}
            found: dict[int, Any] = {}
            try:
                while waiting:
                    done, _ = wait(waiting, _LONGEST_WAIT, FIRST_COMPLETED)
                    for future in sorted(done, key=waiting.__getitem__):
                        seed = waiting.pop(future)
                        found[seed] = _result(future, seed)
                    tell(len(found))
            except BaseException:
                self._end(waiting)
                raise
        return found

    def _one(self, seed: int) -> Any:
        with Lab.run(**self._options) as lab:
            with self._lock:
                self._labs.add(lab)
            try:
                if self._is_over:
                    raise GaslabError("the ensemble has ended")
                return self._f(lab, seed)
            finally:
                with self._lock:
                    self._labs.discard(lab)

    def _end(self, waiting: Iterable["Future[Any]"]) -> None:
        """Ends all programs. A thread that waits for one of them then gets an exception, and ends too."""
        for future in waiting:
            future.cancel()
        with self._lock:
            self._is_over = True
            for lab in self._labs:
                lab.kill()


def _result(future: "Future[Any]", seed: int) -> Any:
    try:
        return future.result()
    except Exception as fault:
        raise SeedFault(seed, fault) from fault


def _columns(found: Any, seed: int) -> Columns:
    """What a run returned, as arrays of one length by their names."""
    if isinstance(found, Mapping):
        given = {str(name): numpy.atleast_1d(values) for name, values in found.items()}
    elif hasattr(found, "columns") or getattr(getattr(found, "dtype", None), "names", None):
        given = {name: numpy.asarray(found[name]) for name in columns_of(found)}
    else:
        given = {"value": numpy.atleast_1d(found)}
    lengths = {values.shape for values in given.values()}
    if len(lengths) != 1 or len(min(lengths)) != 1:
        raise ValueError(f"seed {seed}: a run returns a number, numbers by their names, or a table")
    for name, values in given.items():
        if not (numpy.issubdtype(values.dtype, numpy.number) or values.dtype == bool) \
                or not numpy.isfinite(values).all():
            raise ValueError(f"seed {seed}: {name} has a value that is no finite number")
    return given


def _summary(runs: Mapping[int, Columns]) -> Table:
    """The table of means and standard errors."""
    (first, wanted), *others = runs.items()
    shape = {name: values.shape for name, values in wanted.items()}
    for seed, found in others:
        if {name: values.shape for name, values in found.items()} != shape:
            raise ValueError(f"seeds {first} and {seed} returned other columns, or not as many rows")
    columns: Columns = {}
    for name in wanted:
        if name + "_error" in wanted:
            raise ValueError(f"{name}_error is the standard error of {name}: no run returns it")
        values = numpy.array([found[name] for found in runs.values()])
        if name not in _PLACES:
            columns[name] = values.mean(axis=0)
            columns[name + "_error"] = values.std(axis=0, ddof=1) / len(runs) ** 0.5
        elif (values != values[0]).any():
            raise ValueError(f"{name} is not the same in all runs, so their rows can't be compared")
        else:
            columns[name] = values[0]
    return table_of_columns(columns)
