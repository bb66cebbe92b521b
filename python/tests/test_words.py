"""`python -m mechdes`: the words of the program over the library."""

import io
import pathlib
import subprocess
import sys
import tempfile
import unittest
import unittest.mock
from collections.abc import Sequence

import mechdes
from mechdes import Reply, __main__

from .common import EXAMPLES, PYTHON, TOP, calling, echo_library, example, needs_library, stored, text, without_library

sys.path.append(str(TOP / "build"))

import words as launcher  # noqa: E402


class Told:
    """A caller that keeps what it is given, and gives a reply of the test's own."""

    def __init__(self, reply: Reply = Reply(0, b"", b"")) -> None:  # noqa: B008
        self.reply = reply
        self.given: list[tuple[list[str], bytes, bytes]] = []

    def call(self, words: Sequence[str], setting: bytes = b"", second: bytes = b"") -> Reply:
        """Keeps the call."""
        self.given.append((list(words), setting, second))
        return self.reply


class Words(unittest.TestCase):
    def given(self, *words: str) -> tuple[list[str], bytes, bytes]:
        """What the library is given for words."""
        caller = Told()
        with calling(caller):
            __main__.reply_of(words)
        return caller.given[0]

    def test_each_command_takes_what_the_launcher_says(self) -> None:
        forms = {
            name: " ".join([*form.arguments, *(f"[{option}]" for option in form.options)])
            for name, form in launcher.commands(TOP).items()
            if name not in launcher.OWN
        }
        self.assertEqual(__main__.FORMS, forms)

    def test_files_are_read_and_all_other_words_come_as_they_are(self) -> None:
        setting, answer = str(example("seats")), str(stored("seats-three"))
        first, second = text("seats.toml").encode(), text("seats-three.csv").encode()
        for words, wanted in (
            (["solve", setting], (["solve", "setting"], first, b"")),
            (["solve", "--width", "30", setting], (["solve", "--width", "30", "setting"], first, b"")),
            (["units", setting, "--width=30", "3"], (["units", "setting", "--width=30", "3"], first, b"")),
            (["find", "--from", answer, setting], (["find", "--from", "basis", "setting"], first, second)),
            (["find", setting, f"--from={answer}"], (["find", "setting", "--from=basis"], first, second)),
            (["check", "--units=3", "--", setting, answer], (["check", "--units=3", "--", "setting", "answer"], first, second)),
            (
                ["run", setting, answer, "3,2,2,1,2", "0", "0", "--units", "3"],
                (["run", "setting", "answer", "3,2,2,1,2", "0", "0", "--units", "3"], first, second),
            ),
            (["realise", setting, answer], (["realise", "setting", "odds"], first, second)),
            (["make", "7"], (["make", "7"], b"", b"")),
            (["no-command", setting], (["no-command", setting], b"", b"")),
            (["solve", setting, "more"], (["solve", "setting", "more"], first, b"")),
            ([], ([], b"", b"")),
        ):
            with self.subTest(words):
                self.assertEqual(self.given(*words), wanted)

    def test_a_file_that_cannot_be_read_is_told_where_the_program_would_read_it(self) -> None:
        fault = Reply(70, b"", b"mechdes: read fault\n")
        here, absent = str(example("posted-price")), "/no/such/file"
        for words, status, is_fault in (
            (["solve", absent], 65, True),
            (["units", absent, "13"], 67, False),
            (["solve", absent, "--width", "3"], 64, False),
            (["check", here, absent], 66, True),
            (["check", here, absent], 65, False),
            (["check", absent, absent], 65, True),
            (["check", str(EXAMPLES), absent], 65, True),
        ):
            with self.subTest(words, status=status), calling(Told(Reply(status, b"out", b"err"))):
                self.assertEqual(__main__.reply_of(words), fault if is_fault else Reply(status, b"out", b"err"))

    def test_texts_and_status_are_those_of_the_call(self) -> None:
        out, err = (io.TextIOWrapper(io.BytesIO()) for _ in range(2))
        argv = ["mechdes", "check", str(example("posted-price")), str(stored("posted-price-answer"))]
        with (
            calling(Told(Reply(20, b"rejected\n", b"line\n"))),
            unittest.mock.patch.multiple(sys, argv=argv, stdout=out, stderr=err),
            unittest.mock.patch("signal.signal"),
        ):
            self.assertEqual(__main__.main(), 20)
        self.assertEqual((out.buffer.getvalue(), err.buffer.getvalue()), (b"rejected\n", b"line\n"))

    def test_help_and_version(self) -> None:
        for words in (["help"], ["--help"]):
            told = __main__.told(words)
            for name, form in __main__.FORMS.items():
                self.assertIn(f"    {name} {form}\n", told)
        for name, form in __main__.FORMS.items():
            for words in (["help", name], [name, "--help"]):
                first, _, purpose, *_ = __main__.told(words).splitlines()
                self.assertEqual(first, f"mechdes {name} {form}")
                self.assertGreater(len(purpose), 20)
        self.assertEqual(__main__.told(["--version"]).splitlines()[0], f"mechdes {mechdes.__version__}")
        for words in ([], ["solve"], ["help", "nothing"], ["nothing", "--help"], ["help", "solve", "find"]):
            self.assertIsNone(__main__.told(words))


class Processes(unittest.TestCase):
    def ran(self, library: pathlib.Path | str, *words: str) -> subprocess.CompletedProcess[bytes]:
        """A process of its own."""
        _, environment = without_library("")
        environment["MECHDES_LIBRARY"] = str(library)
        return subprocess.run([sys.executable, "-m", "mechdes", *words], env=environment, capture_output=True, check=False)

    def test_words_and_files_go_to_the_library(self) -> None:
        with tempfile.TemporaryDirectory() as folder:
            ran = self.ran(echo_library(folder), "check", str(example("posted-price")), str(stored("posted-price")))
            files = (EXAMPLES / "posted-price.toml").read_bytes() + b"\0" + (EXAMPLES / "posted-price.csv").read_bytes()
            self.assertEqual((ran.returncode, ran.stdout, ran.stderr), (22, b"check\nsetting\nanswer\0" + files, b""))

    def test_without_a_library_a_sentence_says_so(self) -> None:
        ran = self.ran("/no/such/libmechdes.so", "make", "1")
        self.assertEqual((ran.returncode, ran.stdout), (1, b""))
        self.assertIn(b"mechdes: the library of mechdes could not be loaded from /no/such/libmechdes.so", ran.stderr)
        version = self.ran("/no/such/libmechdes.so", "--version")
        self.assertEqual((version.returncode, version.stderr), (0, b""))
        self.assertIn(b"python/build makes it", version.stdout)

    @needs_library
    def test_the_program_itself(self) -> None:
        ran = self.ran(mechdes.library_path(), "solve", str(example("posted-price")))
        self.assertEqual((ran.returncode, ran.stdout), (0, stored("posted-price-answer").read_bytes()))
        ran = self.ran(mechdes.library_path(), "solve", str(PYTHON / "pyproject.toml"))
        self.assertEqual((ran.returncode, ran.stdout, ran.stderr), (65, b"", b"mechdes: setting refused: missing format\n"))


if __name__ == "__main__":
    unittest.main()
