"""Many settings, side by side."""

from __future__ import annotations

import collections
import concurrent.futures
import functools
import itertools
import os
from collections.abc import Callable, Iterable, Iterator, Mapping, Sequence, Sized
from typing import Any, TypeAlias, TypeVar

from ._library import library
from .answers import Answer
from .commands import BY_NAME
from .settings import SettingLike

Given = TypeVar("Given")
Outcome: TypeAlias = Any  # what the command gives, or the exception that it raised
Ask: TypeAlias = Callable[[Sequence[Any]], list[Outcome]]
_POOL_BATCH, _POOL_AHEAD = 20, 1000


def _outcomes(command: str | Callable[..., Any], options: Mapping[str, Any], batch: Sequence[Any]) -> list[Outcome]:
    """What a command gives for each setting of a batch, or the exception that it raises."""
    function = BY_NAME[command] if isinstance(command, str) else command
    found: list[Outcome] = []
    for setting in batch:
        try:
            found.append(function(setting, **options))
        except Exception as fault:
            found.append(fault)
    return found


def sweep(
    settings: Iterable[Given],
    command: str | Callable[..., Any] = "solve",
    pool: Any = None,
    *,
    threads: int | None = None,
    batch: int | None = None,
    ahead: int | None = None,
    progress: bool = False,
    **options: Any,
) -> Iterator[tuple[Given, Outcome]]:
    """Asks a command of many settings, side by side, and yields pairs of a setting and its result, in their order.

    Where a call raises an exception, that stands in the place of the result: a setting that is refused costs no other one. So does
    the exception of a pool that fails, as one whose worker was killed: of an executor that is then broken, at each later setting.

    settings  any number of settings; they are taken as they are needed, so that a generator may be endless
    command   the name of a command that takes a setting first, or a function of a setting, which other processes must be able
              to import
    pool      None for threads of this process. Else an object with `submit` as those of `concurrent.futures` have: an executor,
              or a client of `dask.distributed`, whose workers must have this package and its library. It is left open
    threads   how many threads; None for as many as there are processors
    batch     how many settings go to a thread or worker at a time: 1 without a pool, else 20
    ahead     how many batches are under way at a time: four for each thread, with a pool 1,000
    progress  whether to show a bar, where tqdm is there
    options   further arguments of the command, as `width=30`

    Raises `ValueError` for an unknown command, `TypeError` for a pool with no `submit`, and without a pool `LibraryMissing`.
    """
    if isinstance(command, str) and command not in BY_NAME:
        raise ValueError(f"no command of a setting: {command!r}; there are {', '.join(BY_NAME)}")
    ask = functools.partial(_outcomes, command, options)
    if pool is None:
        library()
        threads = threads or len(os.sched_getaffinity(0))
        pairs = _with_threads(ask, _batches(settings, batch or 1), threads, ahead or 4 * threads)
    else:
        pairs = _with_pool(ask, _batches(settings, batch or _POOL_BATCH), pool, ahead or _POOL_AHEAD)
    return _shown(pairs, settings, progress)


def _batches(settings: Iterable[Given], size: int) -> Iterator[list[Given]]:
    taken = iter(settings)
    while part := list(itertools.islice(taken, size)):
        yield part


def _with_threads(ask: Ask, batches: Iterator[list[Given]], threads: int, ahead: int) -> Iterator[tuple[Given, Outcome]]:
    with concurrent.futures.ThreadPoolExecutor(threads) as pool:
        yield from _in_order(batches, functools.partial(pool.submit, ask), ahead)


def _with_pool(ask: Ask, batches: Iterator[list[Given]], pool: Any, ahead: int) -> Iterator[tuple[Given, Outcome]]:
    if not callable(getattr(pool, "submit", None)):
        raise TypeError(f"a pool has a method submit, and {type(pool).__name__} has none")
    # A client of dask takes calls of the same arguments for one call, unless it is told that they may differ.
    extra = {"pure": False} if type(pool).__module__.partition(".")[0] == "distributed" else {}
    return _in_order(batches, functools.partial(pool.submit, ask, **extra), ahead)


def _submitted(submit: Callable[[list[Given]], Any], part: list[Given]) -> Any:
    """What is to come of a batch; where the pool does not take it, a future that has its exception."""
    try:
        return submit(part)
    except Exception as fault:
        refused: concurrent.futures.Future[Any] = concurrent.futures.Future()
        refused.set_exception(fault)
        return refused


def _in_order(
    batches: Iterator[list[Given]], submit: Callable[[list[Given]], Any], ahead: int
) -> Iterator[tuple[Given, Outcome]]:
    """Has so many batches under way at a time, and yields what they give in their order."""
    waiting: collections.deque[tuple[list[Given], Any]] = collections.deque()
    try:
        for part in batches:
            waiting.append((part, _submitted(submit, part)))
            if len(waiting) >= ahead:
                yield from _pairs(*waiting.popleft())
        while waiting:
            yield from _pairs(*waiting.popleft())
    finally:
        for _, future in waiting:
            future.cancel()


def _pairs(part: list[Given], future: Any) -> Iterator[tuple[Given, Outcome]]:
    """The settings of a batch with what came of them; where the pool itself failed, with its exception."""
    try:
        found: Sequence[Outcome] = future.result()
    except Exception as fault:
        found = [fault] * len(part)
    return zip(part, found, strict=True)


def _shown(pairs: Iterator[tuple[Given, Outcome]], settings: Iterable[Given], progress: bool) -> Iterator[tuple[Given, Outcome]]:
    """The pairs, with a bar where one is asked for and tqdm is there."""
    if not progress:
        return pairs
    try:
        from tqdm.auto import tqdm
    except ImportError:
        return pairs
    return iter(tqdm(pairs, total=len(settings) if isinstance(settings, Sized) else None))


def solve_all(settings: Iterable[SettingLike], width: int = 62, threads: int | None = None) -> list[Answer | Exception]:
    """The answers to many settings, solved side by side by threads, in their order. Where a setting is refused, the exception
    stands in its place."""
    return [found for _, found in sweep(settings, "solve", threads=threads, width=width)]
