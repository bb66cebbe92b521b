"""How the library is called: by one of its form that tells what it is given. And what is said where there is none."""

import concurrent.futures
import pickle
import subprocess
import tempfile
import unittest

import mechdes

from .common import EXAMPLES, PYTHON, echo_library, without_library

IMPORTS = "import mechdes; mechdes.Auction(bidders=1, values=[1], weights=[1]).to_toml(); "


class Calls(unittest.TestCase):
    @classmethod
    def setUpClass(cls) -> None:
        folder = tempfile.TemporaryDirectory()
        cls.addClassCleanup(folder.cleanup)
        cls.path = echo_library(folder.name)

    def test_words_and_files_come_as_they_are(self) -> None:
        told = mechdes.Library(self.path).call(["check", "setting", "ü"], b"a\0b", b"\xff")
        self.assertEqual(told, (22, "check\nsetting\nü\0a\0b\0".encode() + b"\xff", b""))
        self.assertEqual(mechdes.Library(self.path).call(["make", "1"]), (22, b"make\n1\0\0", b""))

    def test_texts_that_are_longer_than_their_rooms_come_whole(self) -> None:
        library = mechdes.Library(self.path, room=3)
        for length in (0, 2, 3, 4, 1024, 1025, 3_000_000, 1):
            with self.subTest(length):
                self.assertEqual(library.call(["long", str(length)]), (0, b"x" * length, b"y" * length))

    def test_words_cannot_be_smuggled_in(self) -> None:
        with self.assertRaises(ValueError):
            mechdes.Library(self.path).call(["run", "low\n0"])

    def test_calls_are_under_way_at_once(self) -> None:
        # Each of the two waits for the other one, which never came in if a call held Python's lock.
        library = mechdes.Library(self.path)
        with concurrent.futures.ThreadPoolExecutor(2) as pool:
            self.assertEqual([reply.status for reply in pool.map(library.call, [["meet"], ["meet"]])], [0, 0])

    def test_threads_do_not_share_their_rooms(self) -> None:
        library = mechdes.Library(self.path)
        files = [bytes([65 + k]) * 1000 for k in range(8)] * 20
        with concurrent.futures.ThreadPoolExecutor(8) as pool:
            told = pool.map(lambda file: library.call(["x"], file).out, files)
        self.assertEqual(list(told), [b"x\0" + file + b"\0" for file in files])

    def test_a_library_that_is_named_is_the_one_that_is_called(self) -> None:
        words, environment = without_library("import mechdes; print(mechdes.call(['x'], 'y', 'z'))")
        ran = subprocess.run(words, env={**environment, "MECHDES_LIBRARY": str(self.path)}, capture_output=True, text=True)
        self.assertEqual(ran.stdout, "Reply(status=22, out=b'x\\x00y\\x00z', err=b'')\n")


class Missing(unittest.TestCase):
    def ends(self, script: str, library: str = "/no/such/libmechdes.so") -> tuple[int, str]:
        """The status of a script, and the last line of its standard error."""
        words, environment = without_library(script)
        ran = subprocess.run(words, env={**environment, "MECHDES_LIBRARY": library}, capture_output=True, text=True)
        return ran.returncode, ran.stderr.strip().splitlines()[-1] if ran.stderr else ""

    def test_all_but_calls_works_without_the_library(self) -> None:
        self.assertEqual(self.ends(IMPORTS), (0, ""))
        self.assertEqual(
            self.ends(f"{IMPORTS}mechdes.read({str(EXAMPLES / 'divorce.toml')!r}, {str(EXAMPLES / 'divorce-answer.csv')!r})"),
            (0, ""),
        )

    def test_a_missing_library_is_named_at_the_first_call(self) -> None:
        for call in ("mechdes.make(1)", "mechdes.sweep([])", "mechdes.call(['make', '1'])", "mechdes.library()"):
            status, line = self.ends(IMPORTS + call)
            self.assertEqual(status, 1)
            missing = "mechdes.errors.LibraryMissing: the library of mechdes could not be loaded from /no/such/libmechdes.so"
            self.assertEqual(line[: len(missing)], missing)
            self.assertIn("python/build", line)
            self.assertIn("MECHDES_LIBRARY", line)

    def test_a_file_that_is_no_library_is_told(self) -> None:
        for wrong in (PYTHON / "pyproject.toml", PYTHON):
            with self.assertRaises(mechdes.LibraryMissing) as caught:
                mechdes.Library(wrong)
            self.assertEqual(caught.exception.library, wrong)
            self.assertIsInstance(caught.exception, ImportError)
            self.assertEqual(str(pickle.loads(pickle.dumps(caught.exception))), str(caught.exception))


if __name__ == "__main__":
    unittest.main()
