"""Many settings side by side: in order, and none is lost where another one is refused."""

import concurrent.futures
import concurrent.futures.process
import importlib.util
import itertools
import multiprocessing
import os
import sys
import types
import unittest
import unittest.mock
from collections.abc import Callable, Iterable, Iterator
from fractions import Fraction
from typing import Any

import mechdes

from .common import EXAMPLES, needs_library, text


def reserves(count: int) -> list[mechdes.Auction]:
    """Auctions of one bidder who values an item 1 or 2, both as likely, that is worth 0, 1, 2 .. where it is kept."""
    return [mechdes.Auction(bidders=1, values=[1, 2], weights=[1, 1], keep=keep) for keep in range(count)]


# Kept for nothing, the item brings 1 at either price; kept for 1, it is sold at 2 half the time; from 2 on it is kept.
VALUES = [Fraction(1), Fraction(3, 2), Fraction(2), Fraction(3)]


def value(setting: mechdes.SettingLike) -> Fraction:
    """What a setting is worth, in a process that has the library of these tests."""
    return mechdes.solve(setting).value


def value_unless_killed(setting: mechdes.Auction) -> Fraction:
    """The same, but for a setting that ends the process."""
    if setting.keep == 2:
        os._exit(1)
    return value(setting)


def processes() -> concurrent.futures.ProcessPoolExecutor:
    """A pool of one process."""
    return concurrent.futures.ProcessPoolExecutor(1, mp_context=multiprocessing.get_context("spawn"))


class Dying:
    """A pool whose second batch is lost."""

    def __init__(self) -> None:
        self.count = 0

    def submit(self, function: Callable[..., Any], *words: Any) -> concurrent.futures.Future[Any]:
        self.count += 1
        future: concurrent.futures.Future[Any] = concurrent.futures.Future()
        if self.count == 2:
            future.set_exception(RuntimeError("a worker was killed"))
        else:
            future.set_result(function(*words))
        return future


class Client(Dying):
    """A pool in the form of dask's client, which takes calls of the same arguments for one call unless it is told otherwise."""

    __module__ = "distributed.client"

    def __init__(self) -> None:
        super().__init__()
        self.count = 2
        self.done: dict[Any, Any] = {}

    def submit(self, function: Callable[..., Any], *words: Any, pure: bool = True) -> concurrent.futures.Future[Any]:
        future = super().submit(function, *words)
        return self.done.setdefault(str(words), future) if pure else future


class Counted(types.ModuleType):
    """What stands in for tqdm: it keeps how many there are to be, and how many have come."""

    def tqdm(self, pairs: Iterable[Any], total: int | None) -> Iterator[Any]:
        self.total, self.come = total, 0
        for pair in pairs:
            self.come += 1
            yield pair


class Sweeps(unittest.TestCase):
    def test_results_come_in_order(self) -> None:
        settings = reserves(4)
        for threads in (1, 3):
            found = list(mechdes.sweep(settings, threads=threads))
            self.assertEqual([setting for setting, _ in found], settings)
            self.assertEqual([answer.value for _, answer in found], VALUES)

    def test_a_refused_setting_costs_no_other_one(self) -> None:
        settings = [*reserves(2), "x = 1\n", EXAMPLES / "no-such-file.toml", *reserves(1)]
        first, second, refused, missing, last = (found for _, found in mechdes.sweep(settings, threads=2))
        self.assertEqual([first.value, second.value, last.value], [1, Fraction(3, 2), 1])
        self.assertIsInstance(refused, mechdes.SettingRefused)
        self.assertEqual(refused.reason, "missing format")
        self.assertIsInstance(missing, FileNotFoundError)

    def test_solve_all_keeps_the_others_too(self) -> None:
        first, refused, last = mechdes.solve_all([text("posted-price.toml"), "x = 1\n", text("two-claims.toml")])
        self.assertEqual((first.value, type(refused), type(last)), (Fraction(3, 2), mechdes.SettingRefused, mechdes.Infeasible))

    def test_settings_may_have_no_end(self) -> None:
        endless = itertools.cycle(reserves(4))
        found = mechdes.sweep(endless, threads=2)
        self.assertEqual([answer.value for _, answer in itertools.islice(found, 6)], VALUES + VALUES[:2])
        found.close()

    def test_a_command_of_a_number(self) -> None:
        found = mechdes.sweep([EXAMPLES / "seats.toml", EXAMPLES / "posted-price.toml"], "threshold", units=3)
        (_, seats), (_, refused) = found
        self.assertEqual((seats.value, type(refused)), (Fraction(484, 81), mechdes.SettingRefused))

    @needs_library
    def test_other_commands_with_their_options(self) -> None:
        ((_, seats),) = mechdes.sweep([EXAMPLES / "seats.toml"], "units", units=3)
        self.assertEqual(seats.value, Fraction(484, 81))
        ((_, found),) = mechdes.sweep([EXAMPLES / "divorce.toml"], width=4)
        self.assertIs(type(found), mechdes.TooWide)

    def test_a_function_and_its_options(self) -> None:
        ((_, found),) = mechdes.sweep(reserves(1), lambda setting, more: mechdes.solve(setting).value + more, more=1)
        self.assertEqual(found, 2)

    def test_pools(self) -> None:
        with concurrent.futures.ThreadPoolExecutor(2) as pool:
            self.assertEqual([answer.value for _, answer in mechdes.sweep(reserves(4), pool=pool, batch=3)], VALUES)
            self.assertEqual(pool.submit(int, "1").result(), 1)
        with processes() as pool:
            *found, refused = (found for _, found in mechdes.sweep([*reserves(4), "x = 1\n"], value, pool=pool, batch=2))
            self.assertEqual(found, VALUES)
            self.assertEqual(refused.reason, "missing format")

    def test_a_process_that_is_killed_costs_nothing_that_was_there(self) -> None:
        # An executor whose process was killed takes nothing more, so that each further setting has its exception, in its order.
        settings = reserves(4) * 5
        with processes() as pool:
            found = list(mechdes.sweep(settings, value_unless_killed, pool=pool, batch=1, ahead=1))
        self.assertEqual([setting for setting, _ in found], settings)
        self.assertEqual([answer for _, answer in found[:2]], VALUES[:2])
        self.assertEqual({type(answer) for _, answer in found[2:]}, {concurrent.futures.process.BrokenProcessPool})

    def test_a_batch_that_a_pool_loses_costs_no_other_one(self) -> None:
        found = [found for _, found in mechdes.sweep(reserves(4), pool=Dying(), batch=1)]
        self.assertEqual([found[0].value, found[2].value, found[3].value], [VALUES[0], VALUES[2], VALUES[3]])
        self.assertEqual(str(found[1]), "a worker was killed")

    def test_what_cannot_be_swept_is_refused_at_once(self) -> None:
        with self.assertRaises(ValueError):
            mechdes.sweep([], "sovle")
        with self.assertRaises(TypeError):
            mechdes.sweep([], pool=3)

    def test_calls_of_the_same_arguments_are_calls_each_to_a_client_of_dask(self) -> None:
        source = iter(range(3))
        found = mechdes.sweep([1, 1, 1], lambda setting: next(source), pool=Client(), batch=1)
        self.assertEqual([number for _, number in found], [0, 1, 2])

    def test_a_bar_counts_what_has_come(self) -> None:
        bar = Counted("tqdm.auto")
        with unittest.mock.patch.dict(sys.modules, {"tqdm": bar, "tqdm.auto": bar}):
            self.assertEqual([answer.value for _, answer in mechdes.sweep(reserves(2), progress=True)], VALUES[:2])
            self.assertEqual((bar.total, bar.come), (2, 2))
            self.assertEqual(len(list(mechdes.sweep(iter(reserves(3)), progress=True))), 3)
            self.assertEqual((bar.total, bar.come), (None, 3))

    def test_a_bar_changes_nothing(self) -> None:
        if importlib.util.find_spec("tqdm") is None:
            self.assertEqual(len(list(mechdes.sweep(reserves(2), progress=True))), 2)
            return
        import contextlib
        import io

        with contextlib.redirect_stderr(io.StringIO()) as bar:
            self.assertEqual([answer.value for _, answer in mechdes.sweep(reserves(2), progress=True)], VALUES[:2])
        self.assertIn("2/2", bar.getvalue())


if __name__ == "__main__":
    unittest.main()
