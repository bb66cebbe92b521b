"""The package as it is installed."""

import importlib.util
import os
import pathlib
import subprocess
import sys
import tempfile
import tomllib
import unittest
import zipfile

import mechdes

from .common import BUILT, EXAMPLES, PYTHON, echo_library


class Package(unittest.TestCase):
    def test_every_public_name_is_there(self) -> None:
        for name in mechdes.__all__:
            self.assertTrue(hasattr(mechdes, name), name)
        self.assertTrue((PYTHON / "mechdes/py.typed").exists())

    def test_every_public_function_says_what_it_does(self) -> None:
        for name in mechdes.__all__:
            told = getattr(mechdes, name)
            if callable(told) and getattr(told, "__module__", "").startswith("mechdes"):
                self.assertTrue(told.__doc__, name)

    def pip(self, folder: str, library: pathlib.Path) -> subprocess.CompletedProcess[str]:
        """Has pip install the package into a folder, without a network."""
        if importlib.util.find_spec("pip") is None:
            self.skipTest("pip is not there")
        words = ["-m", "pip", "install", "--quiet", "--no-index", "--disable-pip-version-check", "--target", folder, str(PYTHON)]
        environment = {**os.environ, "MECHDES_LIBRARY": str(library)}
        return subprocess.run([sys.executable, *words], env=environment, capture_output=True, text=True, check=False)

    def printed(self, folder: str, library: pathlib.Path, *words: str) -> str:
        """What a Python of its own prints, which finds the package in a folder alone."""
        environment = {**os.environ, "PYTHONPATH": folder, "MECHDES_LIBRARY": str(library)}
        ran = subprocess.run(list(words), env=environment, cwd=folder, capture_output=True, text=True, check=False)
        self.assertEqual(ran.stderr, "")
        return ran.stdout

    def test_pip_installs_it_with_its_command_without_a_network(self) -> None:
        setting, answer = str(EXAMPLES / "posted-price.toml"), str(EXAMPLES / "posted-price-answer.csv")
        with tempfile.TemporaryDirectory() as folder, tempfile.TemporaryDirectory() as other:
            library = mechdes.library_path() if BUILT else echo_library(other)
            self.assertEqual(self.pip(folder, library).returncode, 0)
            call = f"import mechdes; print(mechdes.__file__, mechdes.read({setting!r}, {answer!r}).value)"
            where = str(pathlib.Path(folder) / "mechdes/__init__.py")
            self.assertEqual(self.printed(folder, library, sys.executable, "-c", call), f"{where} 3/2\n")
            told = self.printed(folder, library, f"{folder}/bin/mechdes", "--version")
            self.assertEqual(told, f"mechdes {mechdes.__version__}\n{library}\n")
            if BUILT:
                told = self.printed(folder, library, f"{folder}/bin/mechdes", "solve", setting)
                self.assertEqual(told, (EXAMPLES / "posted-price-answer.csv").read_text())

    def test_without_a_library_the_installation_ends_with_the_sentence_of_the_first_call(self) -> None:
        with tempfile.TemporaryDirectory() as folder:
            missing = pathlib.Path(folder) / "no-such-library.so"
            ended = self.pip(folder, missing)
            self.assertNotEqual(ended.returncode, 0)
            with self.assertRaises(mechdes.LibraryMissing) as caught:
                mechdes.Library(missing)
            self.assertIn(str(caught.exception), ended.stdout + ended.stderr)

    def test_the_version_is_that_of_the_project(self) -> None:
        project = tomllib.loads((PYTHON / "pyproject.toml").read_text())["project"]
        self.assertEqual(mechdes.__version__, project["version"])

    def test_a_wheel_has_all_modules_and_their_sums(self) -> None:
        sys.path.insert(0, str(PYTHON))
        import backend

        with tempfile.TemporaryDirectory() as folder:
            with zipfile.ZipFile(pathlib.Path(folder) / backend.build_wheel(folder)) as wheel:
                names = wheel.namelist()
                self.assertEqual(len(wheel.read("mechdes-1.0.0.dist-info/RECORD").splitlines()), len(names))
                entries = wheel.read("mechdes-1.0.0.dist-info/entry_points.txt").decode()
                self.assertEqual(entries, "[console_scripts]\nmechdes = mechdes.__main__:main\n")
            for path in (*PYTHON.glob("mechdes/**/*.py"), *PYTHON.glob("mechdes/**/*.json")):
                self.assertIn(path.relative_to(PYTHON).as_posix(), names)
            self.assertTrue((pathlib.Path(folder) / backend.build_sdist(folder)).exists())
            self.assertIn("mechdes.pth", zipfile.ZipFile(pathlib.Path(folder) / backend.build_editable(folder)).namelist())


if __name__ == "__main__":
    unittest.main()
